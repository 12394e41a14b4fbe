//! The handshake part of the axle gateway, for Rust: safe functions over the proved library's C face.
//!
//! Nothing here allocates, calls the system or keeps state behind the caller's back, and `std` is not needed. A state
//! ([`struct@Hash`], [`Hash384`], [`Table`], [`Log`], [`Connection`]) is a value that the caller owns; a refused call leaves it
//! as it was. Every call takes any bytes and ends; what each answers is proved against definitions taken from the papers
//! (`docs/ACCEPTANCE.md` of the repository). The library has no state of its own, so threads need no lock but for a value that
//! they share.
//!
//! States and secrets are not `Copy`, their `Debug` shows no secret, and they are overwritten when dropped, as are the answers
//! that held them on the way. Copies that the library or the compiler leaves on the stack are not.
//!
//! ```
//! use axle_gateway::{extended_master_secret, Refusal, SessionHash, Table};
//!
//! let secret = extended_master_secret(&[3; 48], &SessionHash::Sha256([7; 32]))?;
//! let mut table = Table::new();
//! table.store(4, b"session", true, 0x003b, &secret)?;
//! let session = table.look_up(4, b"session")?.expect("it was stored");
//! assert_eq!((session.suite, session.secret.as_bytes()), (0x003b, secret.as_bytes()));
//! assert_eq!(table.store(7, b"session", true, 0x003b, &secret), Err(Refusal::AxleOrIdentifier));
//! # Ok::<(), Refusal>(())
//! ```

#![no_std]
#![warn(missing_docs, missing_debug_implementations)]
#![warn(clippy::must_use_candidate, clippy::undocumented_unsafe_blocks)]

mod decision;
mod ffi;
mod hash;
mod hello;
mod log;
mod refusal;
mod secrets;
mod sizes;
mod table;
mod wiped;
mod writing;

pub use decision::{decide_client, decide_server, Connection, Decision, Offer, Switches};
pub use hash::{sha256, sha384, Hash, Hash384};
pub use hello::{
    extensions_at, read_client_hello, read_server_hello, ClientHello, Extension, ExtensionIter, Extensions, ServerHello,
};
pub use log::{Blocks, Fed, Log, SessionHash, Told};
pub use refusal::{Alert, Level, Refusal, Result};
pub use secrets::{extended_master_secret, hmac, hmac_sha384, master_secret, Secret};
pub use sizes::*;
pub use table::{Session, Table};
pub use writing::{
    write_client_hello, write_server_hello, ClientHelloFields, ExtensionList, ExtensionLists, ServerHelloFields,
    EXTENDED_MASTER_SECRET, RENEGOTIATION_INFO,
};
