//! Sizes and numbers, as `include/axle_gateway.h` has them.

/// The longest handshake message, header included.
pub const MESSAGE_MAX: usize = 16_388;
/// The longest reply of [`decide_server`](crate::decide_server): an `out` of this size is never too short.
pub const REPLY_MAX: usize = 35;
/// A hello's random.
pub const RANDOM_SIZE: usize = 32;
/// The longest session identifier.
pub const IDENTIFIER_MAX: usize = 32;
/// A digest of SHA-256, a tag of HMAC-SHA-256, a session hash with SHA-256.
pub const DIGEST_SIZE: usize = 32;
/// A digest of SHA-384, a tag of HMAC-SHA-384, a session hash with SHA-384.
pub const DIGEST384_SIZE: usize = 48;
/// A master secret.
pub const SECRET_SIZE: usize = 48;
/// The value of a Finished.
pub const VERIFY_DATA_SIZE: usize = 12;
/// The longest pre-master secret.
pub const PRE_MASTER_MAX: usize = 512;
/// The most bytes that a hash takes, either one.
pub const HASH_MAX: usize = 1_048_576;
/// The longest key of an HMAC, and its longest message.
pub const HMAC_MAX: usize = 65_536;
/// Axles are numbered from 1 to this.
pub const AXLES: usize = 6;
/// The most sessions in a table.
pub const SESSIONS_MAX: usize = 32;
/// The most sessions of one axle.
pub const SESSIONS_AN_AXLE: usize = 8;
/// The most blocks of each hash that a call of [`Log::feed`](crate::Log::feed) may be allowed.
pub const ALLOWANCE_MAX: usize = 256;
