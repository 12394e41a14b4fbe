//! SHA-256 and SHA-384.

use crate::refusal::{done, Result};
use crate::sizes::{DIGEST384_SIZE, DIGEST_SIZE};
use crate::{ffi, wiped::Wiped};
use core::fmt;

/// A running hash over its three calls.
macro_rules! running {
    ($(#[$doc:meta])* $name:ident, $size:ident, $fresh:ident, $absorb:ident, $digest:ident) => {
        $(#[$doc])*
        #[derive(Clone)]
        pub struct $name(Wiped<ffi::$name>);

        impl Default for $name {
            fn default() -> $name {
                $name::new()
            }
        }

        impl fmt::Debug for $name {
            fn fmt(&self, f: &mut fmt::Formatter<'_>) -> fmt::Result {
                f.debug_struct(stringify!($name)).finish_non_exhaustive()
            }
        }

        impl $name {
            /// A hash that has taken nothing.
            #[must_use]
            pub fn new() -> $name {
                // SAFETY: takes nothing and touches no memory.
                $name(Wiped(unsafe { ffi::$fresh() }))
            }

            /// Takes `bytes` more. Refused as [`Length`](crate::Refusal::Length) where that would make more than 1,048,576 bytes in
            /// all.
            pub fn absorb(&mut self, bytes: &[u8]) -> Result<()> {
                // SAFETY: the slice is good for its length and only read.
                let answer = Wiped(unsafe { ffi::$absorb(*self.0, bytes.as_ptr(), bytes.len()) });
                *self.0 = answer.hash;
                done(answer.refusal, ())
            }

            /// The digest of all bytes taken so far; the hash can go on taking.
            #[must_use]
            pub fn digest(&self) -> [u8; $size] {
                // SAFETY: takes any value of the struct and touches no memory.
                unsafe { ffi::$digest(*self.0) }.bytes
            }
        }
    };
}

running!(
    /// A running SHA-256: takes a message in pieces.
    Hash,
    DIGEST_SIZE,
    axle_hash_fresh,
    axle_hash_absorb,
    axle_hash_digest
);

running!(
    /// A running SHA-384: takes a message in pieces.
    Hash384,
    DIGEST384_SIZE,
    axle_hash384_fresh,
    axle_hash384_absorb,
    axle_hash384_digest
);

/// The SHA-256 digest of one whole message. Refused as [`Length`](crate::Refusal::Length) where it has more than 1,048,576 bytes.
pub fn sha256(message: &[u8]) -> Result<[u8; DIGEST_SIZE]> {
    // SAFETY: the slice is good for its length and only read.
    let answer = unsafe { ffi::axle_sha256(message.as_ptr(), message.len()) };
    done(answer.refusal, answer.digest)
}

/// The SHA-384 digest of one whole message. Refused as [`Length`](crate::Refusal::Length) where it has more than 1,048,576 bytes.
pub fn sha384(message: &[u8]) -> Result<[u8; DIGEST384_SIZE]> {
    // SAFETY: the slice is good for its length and only read.
    let answer = unsafe { ffi::axle_sha384(message.as_ptr(), message.len()) };
    done(answer.refusal, answer.digest)
}
