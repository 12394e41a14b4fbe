//! The message log.

use crate::refusal::{done, Result};
use crate::secrets::Secret;
use crate::sizes::{DIGEST384_SIZE, DIGEST_SIZE, SECRET_SIZE, VERIFY_DATA_SIZE};
use crate::{ffi, wiped::Wiped};
use core::fmt;

/// The transcript of one handshake: whose turn it is, and its running hashes: both until a ServerHello is whole, then that of its
/// suite.
#[derive(Clone)]
pub struct Log(pub(crate) Wiped<ffi::Log>);

/// What a log is told with a ServerHello. With other messages it is of no account: [`Told::default`] will do.
#[derive(Clone, Copy, Debug, Default, PartialEq, Eq)]
pub struct Told {
    /// It resumes a session; else a full handshake.
    pub resumes: bool,
    /// The PRF of its suite is over SHA-384; else over SHA-256.
    pub sha384: bool,
}

/// Hash blocks that were worked; 0 for a hash that is not carried.
#[derive(Clone, Copy, Debug, Default, PartialEq, Eq)]
pub struct Blocks {
    /// Of SHA-256, each of 64 bytes.
    pub sha256: usize,
    /// Of SHA-384, each of 128 bytes.
    pub sha384: usize,
}

/// What a call of [`Log::feed`] did.
#[derive(Clone, Copy, Debug, PartialEq, Eq)]
pub struct Fed {
    /// How many bytes of the rest have entered: they are its first ones.
    pub taken: usize,
    /// How many blocks of each hash they completed.
    pub blocks: Blocks,
}

/// The session hash of RFC 7627, by the hash of the suite.
#[derive(Clone, Copy, Debug, PartialEq, Eq)]
pub enum SessionHash {
    /// Where the PRF of the suite is over SHA-256.
    Sha256([u8; DIGEST_SIZE]),
    /// Where it is over SHA-384.
    Sha384([u8; DIGEST384_SIZE]),
}

impl SessionHash {
    /// Its bytes: 32 or 48.
    #[must_use]
    pub fn as_bytes(&self) -> &[u8] {
        match self {
            SessionHash::Sha256(bytes) => bytes,
            SessionHash::Sha384(bytes) => bytes,
        }
    }

    /// Whether it is one of SHA-384.
    #[must_use]
    pub fn is_sha384(&self) -> bool {
        matches!(self, SessionHash::Sha384(_))
    }
}

impl From<Told> for ffi::Told {
    fn from(told: Told) -> ffi::Told {
        ffi::Told { resumes: told.resumes.into(), sha384: told.sha384.into() }
    }
}

impl Default for Log {
    fn default() -> Log {
        Log::new()
    }
}

impl fmt::Debug for Log {
    fn fmt(&self, f: &mut fmt::Formatter<'_>) -> fmt::Result {
        f.debug_struct("Log").finish_non_exhaustive()
    }
}

impl Log {
    /// A log that has accepted nothing.
    #[must_use]
    pub fn new() -> Log {
        // SAFETY: takes nothing and touches no memory.
        Log(Wiped(unsafe { ffi::axle_log_fresh() }))
    }

    /// Accepts the next handshake message, header included. `told` is of account with a ServerHello alone: that it fits the hello's
    /// identifier and suite is the caller's matter, since the log does not read them. Refused as
    /// [`Length`](crate::Refusal::Length) over 16,388 bytes, [`Malformed`](crate::Refusal::Malformed) with the place where the
    /// header broke (how many bytes there are, if under 4; else 1, that of its length), or
    /// [`OutOfTurn`](crate::Refusal::OutOfTurn), as a Finished is here, due or not ([`Log::finish`] takes it), and every message
    /// between the parts of another ([`Log::feed`]).
    pub fn accept(&mut self, message: &[u8], told: Told) -> Result<()> {
        // SAFETY: the slice is good for its length and only read.
        let answer = Wiped(unsafe { ffi::axle_log_accept(*self.0, message.as_ptr(), message.len(), told.into()) });
        *self.0 = answer.log;
        done(answer.refusal, ())
    }

    /// Accepts the next message part by part, so that a long one does not keep others waiting: a call works at most `allowance`
    /// blocks, 1 to [`ALLOWANCE_MAX`](crate::ALLOWANCE_MAX), of each hash that is carried. `rest` is all of the message that is not
    /// yet taken: the whole of it first, header included, then what the call before has left. At least 64 bytes are taken, or all
    /// that is left; a HelloRequest is one call and no block. Once all is taken, the log is the one that [`accept`](Log::accept)
    /// gives on the bytes taken:
    ///
    /// ```
    /// use axle_gateway::{Log, Refusal, Told};
    ///
    /// let hello = [&[1, 0, 1, 40][..], &[7; 296]].concat();
    /// let (mut log, mut rest, mut taken) = (Log::new(), &hello[..], vec![]);
    /// while !rest.is_empty() {
    ///     let fed = log.feed(rest, 1, Told::default())?;
    ///     rest = &rest[fed.taken..];
    ///     taken.push((fed.taken, fed.blocks.sha256, fed.blocks.sha384)); // and now it is the others' turn
    /// }
    /// assert_eq!(taken, [(127, 1, 0), (64, 1, 1), (64, 1, 0), (45, 1, 1)]);
    /// # Ok::<(), Refusal>(())
    /// ```
    ///
    /// Refused as [`Length`](crate::Refusal::Length) for the allowance; then for the first part as [`accept`](Log::accept) refuses
    /// the message, and for a later one as [`Length`](crate::Refusal::Length) where it has another length than is left. `told`
    /// counts with the first part of a ServerHello, all of whose parts both hashes work. Bytes that were lent and not taken may be
    /// other ones the next time. Between the parts every other call is refused as [`OutOfTurn`](crate::Refusal::OutOfTurn), if not
    /// for a length or as malformed; to give a message up, keep a clone of the log from before it. With the last part of a
    /// ClientKeyExchange the session hash is made, whose one or two blocks of padding are not counted.
    pub fn feed(&mut self, rest: &[u8], allowance: usize, told: Told) -> Result<Fed> {
        // SAFETY: the slice is good for its length and only read.
        let answer = Wiped(unsafe { ffi::axle_log_feed(*self.0, rest.as_ptr(), rest.len(), allowance, told.into()) });
        *self.0 = answer.log;
        let blocks = Blocks { sha256: answer.blocks.sha256, sha384: answer.blocks.sha384 };
        done(answer.refusal, Fed { taken: answer.taken, blocks })
    }

    /// The session hash of RFC 7627, by the hash that was told. Refused as [`OutOfTurn`](crate::Refusal::OutOfTurn) before the
    /// ClientKeyExchange, in a resumed handshake, and between the parts of a message.
    pub fn session_hash(&self) -> Result<SessionHash> {
        // SAFETY: takes any value of the struct and touches no memory.
        let answer = unsafe { ffi::axle_log_session_hash(*self.0) };
        let hash = if usize::from(answer.length) == DIGEST384_SIZE {
            SessionHash::Sha384(answer.hash)
        } else {
            let mut short = [0; DIGEST_SIZE];
            short.copy_from_slice(&answer.hash[..DIGEST_SIZE]);
            SessionHash::Sha256(short)
        };
        done(answer.refusal, hash)
    }

    /// Checks a Finished, by the hash that was told, and takes it: the log has then accepted it. Refused as
    /// [`Length`](crate::Refusal::Length),
    /// [`Malformed`](crate::Refusal::Malformed) with the place as in [`accept`](Log::accept),
    /// [`OutOfTurn`](crate::Refusal::OutOfTurn) where it is another message or none is due, as between the parts of a message, or
    /// [`FinishedDiffers`](crate::Refusal::FinishedDiffers).
    pub fn finish(&mut self, secret: &Secret, message: &[u8]) -> Result<()> {
        // SAFETY: the slices are good for their lengths and only read.
        let answer = Wiped(unsafe {
            ffi::axle_log_finish(*self.0, secret.as_bytes().as_ptr(), SECRET_SIZE, message.as_ptr(), message.len())
        });
        *self.0 = answer.log;
        done(answer.refusal, ())
    }

    /// verify_data of the Finished that is due, by the hash that was told. Refused as [`OutOfTurn`](crate::Refusal::OutOfTurn) where
    /// none is, as between the parts of a message.
    pub fn expected_finished(&self, secret: &Secret) -> Result<[u8; VERIFY_DATA_SIZE]> {
        // SAFETY: the slice is good for its length and only read.
        let answer = unsafe { ffi::axle_log_expected_finished(*self.0, secret.as_bytes().as_ptr(), SECRET_SIZE) };
        done(answer.refusal, answer.value)
    }
}
