//! The session table.

use crate::refusal::{done, Result};
use crate::secrets::Secret;
use crate::sizes::SECRET_SIZE;
use crate::{ffi, wiped::Wiped};
use core::fmt;

/// A session that a look-up found.
#[derive(Clone, Debug)]
pub struct Session {
    /// Its secret was made with extended_master_secret.
    pub ems: bool,
    /// The cipher suite that it was made with. A ServerHello that resumes it names this one.
    pub suite: u16,
    /// The master secret.
    pub secret: Secret,
}

/// The sessions of all six axles: at most 8 an axle and 32 in all. Of a session that was pushed out, replaced, withdrawn or
/// cleared it holds no byte.
#[derive(Clone)]
pub struct Table(pub(crate) Wiped<ffi::Table>);

impl Default for Table {
    fn default() -> Table {
        Table::new()
    }
}

/// How many sessions each axle holds, and nothing of them.
impl fmt::Debug for Table {
    fn fmt(&self, f: &mut fmt::Formatter<'_>) -> fmt::Result {
        let held = [1, 2, 3, 4, 5, 6].map(|axle| self.held(axle).unwrap_or(0));
        f.debug_struct("Table").field("held", &held).finish_non_exhaustive()
    }
}

impl Table {
    /// An empty table.
    #[must_use]
    pub fn new() -> Table {
        // SAFETY: takes nothing and touches no memory.
        Table(Wiped(unsafe { ffi::axle_table_fresh() }))
    }

    /// Stores a session, with the cipher suite that it was made with; where there is no room, another one goes. Refused as
    /// [`AxleOrIdentifier`](crate::Refusal::AxleOrIdentifier) for an axle not 1 to 6 or an identifier not of 1 to 32 bytes.
    pub fn store(&mut self, axle: u8, identifier: &[u8], ems: bool, suite: u16, secret: &Secret) -> Result<()> {
        // SAFETY: the slices are good for their lengths and only read.
        let answer = Wiped(unsafe {
            ffi::axle_table_store(
                *self.0,
                axle,
                identifier.as_ptr(),
                identifier.len(),
                ems.into(),
                suite,
                secret.as_bytes().as_ptr(),
                SECRET_SIZE,
            )
        });
        *self.0 = answer.table;
        done(answer.refusal, ())
    }

    /// The session of that axle and identifier, if the table has it. Refused as [`store`](Table::store) is.
    pub fn look_up(&self, axle: u8, identifier: &[u8]) -> Result<Option<Session>> {
        let mut secret = Secret::zeros();
        // SAFETY: the slice is good for its length and only read, and the secret is lent to this call alone.
        let answer = unsafe {
            ffi::axle_table_look_up(
                *self.0,
                axle,
                identifier.as_ptr(),
                identifier.len(),
                secret.as_mut_ptr(),
                SECRET_SIZE,
            )
        };
        let session = Session { ems: answer.ems != 0, suite: answer.suite, secret };
        done(answer.refusal, (answer.found != 0).then_some(session))
    }

    /// Takes a session out; was it there? Refused as [`store`](Table::store) is.
    pub fn withdraw(&mut self, axle: u8, identifier: &[u8]) -> Result<bool> {
        // SAFETY: the slice is good for its length and only read.
        let answer = Wiped(unsafe { ffi::axle_table_withdraw(*self.0, axle, identifier.as_ptr(), identifier.len()) });
        *self.0 = answer.table;
        done(answer.refusal, answer.withdrawn != 0)
    }

    /// How many sessions the axle holds: a number that the table keeps, so nothing is counted. Refused as [`AxleOrIdentifier`](crate::Refusal::AxleOrIdentifier) for an axle not 1 to 6.
    pub fn held(&self, axle: u8) -> Result<u8> {
        // SAFETY: takes any value of the struct and touches no memory.
        let answer = unsafe { ffi::axle_table_held(*self.0, axle) };
        done(answer.refusal, answer.count)
    }

    /// Empties the table.
    pub fn clear(&mut self) {
        // SAFETY: takes any value of the struct and touches no memory.
        *self.0 = unsafe { ffi::axle_table_clear(*self.0) }.table;
    }
}
