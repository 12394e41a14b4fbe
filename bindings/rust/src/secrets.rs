//! HMAC and the master secrets.

use crate::log::SessionHash;
use crate::refusal::{done, Result};
use crate::sizes::{DIGEST384_SIZE, DIGEST_SIZE, RANDOM_SIZE, SECRET_SIZE};
use crate::{ffi, wiped::Wiped};
use core::fmt;

/// A master secret. It is overwritten when dropped, and `Debug` does not show it. There is no `==` on it, since that would
/// leave at the first byte that differs. An array that one is made of is the caller's to overwrite.
#[derive(Clone)]
pub struct Secret(Wiped<[u8; SECRET_SIZE]>);

impl Secret {
    /// Its bytes.
    #[must_use]
    pub fn as_bytes(&self) -> &[u8; SECRET_SIZE] {
        &self.0
    }

    /// Room for one.
    pub(crate) const fn zeros() -> Secret {
        Secret(Wiped([0; SECRET_SIZE]))
    }

    /// Where the library writes it.
    pub(crate) fn as_mut_ptr(&mut self) -> *mut u8 {
        self.0.as_mut_ptr()
    }
}

impl From<[u8; SECRET_SIZE]> for Secret {
    fn from(bytes: [u8; SECRET_SIZE]) -> Secret {
        Secret(Wiped(bytes))
    }
}

impl fmt::Debug for Secret {
    fn fmt(&self, f: &mut fmt::Formatter<'_>) -> fmt::Result {
        f.write_str("Secret(..)")
    }
}

/// HMAC-SHA-256. Refused as [`Length`](crate::Refusal::Length) where key or message has more than 65,536 bytes.
pub fn hmac(key: &[u8], message: &[u8]) -> Result<[u8; DIGEST_SIZE]> {
    // SAFETY: the slices are good for their lengths and only read.
    let answer = unsafe { ffi::axle_hmac(key.as_ptr(), key.len(), message.as_ptr(), message.len()) };
    done(answer.refusal, answer.tag)
}

/// HMAC-SHA-384. Refused as [`Length`](crate::Refusal::Length) where key or message has more than 65,536 bytes.
pub fn hmac_sha384(key: &[u8], message: &[u8]) -> Result<[u8; DIGEST384_SIZE]> {
    // SAFETY: the slices are good for their lengths and only read.
    let answer = unsafe { ffi::axle_hmac_sha384(key.as_ptr(), key.len(), message.as_ptr(), message.len()) };
    done(answer.refusal, answer.tag)
}

/// The two calls of the C face that derive a master secret: the flag for SHA-384, pre-master secret, seed, output.
type Derive = unsafe extern "C" fn(u8, *const u8, usize, *const u8, usize, *mut u8, usize) -> ffi::Refusal;

fn derive(call: Derive, sha384: bool, pre_master: &[u8], seed: &[u8]) -> Result<Secret> {
    let (mut secret, flag) = (Secret::zeros(), sha384.into());
    // SAFETY: the slices are good for their lengths, and the secret is lent to this call alone.
    let refusal = unsafe {
        call(flag, pre_master.as_ptr(), pre_master.len(), seed.as_ptr(), seed.len(), secret.as_mut_ptr(), SECRET_SIZE)
    };
    done(refusal, secret)
}

/// The extended master secret (RFC 7627), by the hash of the suite, which is the session hash's own. Refused as
/// [`Length`](crate::Refusal::Length) where the pre-master secret has not 1 to 512 bytes.
pub fn extended_master_secret(pre_master: &[u8], session_hash: &SessionHash) -> Result<Secret> {
    derive(ffi::axle_extended_master_secret, session_hash.is_sha384(), pre_master, session_hash.as_bytes())
}

/// The master secret of RFC 5246; `sha384` tells whether the PRF of the suite is over SHA-384, and not over SHA-256. Refused as
/// [`Length`](crate::Refusal::Length) where the pre-master secret has not 1 to 512 bytes.
pub fn master_secret(
    sha384: bool,
    pre_master: &[u8],
    client_random: &[u8; RANDOM_SIZE],
    server_random: &[u8; RANDOM_SIZE],
) -> Result<Secret> {
    let mut randoms = [0; 2 * RANDOM_SIZE];
    randoms[..RANDOM_SIZE].copy_from_slice(client_random);
    randoms[RANDOM_SIZE..].copy_from_slice(server_random);
    derive(ffi::axle_master_secret, sha384, pre_master, &randoms)
}
