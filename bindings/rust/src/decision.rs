//! The decisions, and completion.

use crate::log::Log;
use crate::refusal::{done, Result};
use crate::sizes::VERIFY_DATA_SIZE;
use crate::table::Table;
use crate::{ffi, wiped::Wiped};
use core::fmt;

/// What is kept of a connection from one handshake to the next. Fresh: nothing has completed.
#[derive(Clone)]
pub struct Connection(Wiped<ffi::Connection>);

/// What the one who sets the gateway up allows.
#[derive(Clone, Copy, Debug, Default, PartialEq, Eq)]
pub struct Switches {
    /// Refuse a first handshake without the renegotiation indication.
    pub indication_required: bool,
    /// Allow a full handshake without extended_master_secret.
    pub legacy_full: bool,
    /// Allow a resumption without it.
    pub legacy_resumption: bool,
}

/// What was decided on a hello: the outcome, and what completion will write to the record.
#[derive(Clone, Copy)]
#[must_use]
pub struct Decision(ffi::Decision);

/// A session that the client offers to resume.
#[derive(Clone, Copy, Debug, PartialEq, Eq)]
pub struct Offer<'a> {
    /// Its identifier, 1 to 32 bytes.
    pub identifier: &'a [u8],
    /// Its secret was made with extended_master_secret.
    pub ems: bool,
    /// The cipher suite that it was made with.
    pub suite: u16,
}

impl Default for Connection {
    fn default() -> Connection {
        Connection::new()
    }
}

/// Without the verify_data.
impl fmt::Debug for Connection {
    fn fmt(&self, f: &mut fmt::Formatter<'_>) -> fmt::Result {
        f.debug_struct("Connection")
            .field("completed", &self.completed())
            .field("indication", &self.indication())
            .field("barred", &self.barred())
            .finish_non_exhaustive()
    }
}

impl Connection {
    /// A fresh record: all no, all zero.
    #[must_use]
    pub fn new() -> Connection {
        // SAFETY: takes nothing and touches no memory.
        Connection(Wiped(unsafe { ffi::axle_connection_fresh() }))
    }

    /// A handshake has completed.
    #[must_use]
    pub fn completed(&self) -> bool {
        self.0.completed != 0
    }

    /// Secure renegotiation is indicated (RFC 5746).
    #[must_use]
    pub fn indication(&self) -> bool {
        self.0.indication != 0
    }

    /// Renegotiation is barred after a legacy resumption.
    #[must_use]
    pub fn barred(&self) -> bool {
        self.0.barred != 0
    }

    /// The client's and the server's verify_data of the last handshake.
    #[must_use]
    pub fn verify_data(&self) -> ([u8; VERIFY_DATA_SIZE], [u8; VERIFY_DATA_SIZE]) {
        (self.0.client, self.0.server)
    }

    /// Both Finished are taken: writes the record. Refused as [`OutOfTurn`](crate::Refusal::OutOfTurn) earlier, or where decision
    /// and log disagree on resuming.
    pub fn complete(&mut self, log: &Log, decision: &Decision) -> Result<()> {
        // SAFETY: the record is lent to this call alone.
        done(unsafe { ffi::axle_complete(&mut *self.0, *log.0, decision.0) }, ())
    }
}

impl From<Switches> for ffi::Switches {
    fn from(s: Switches) -> ffi::Switches {
        ffi::Switches {
            indication_required: s.indication_required.into(),
            legacy_full: s.legacy_full.into(),
            legacy_resumption: s.legacy_resumption.into(),
        }
    }
}

impl Decision {
    /// An abbreviated handshake; else a full one.
    #[must_use]
    pub fn resumes(&self) -> bool {
        self.0.resumes != 0
    }

    /// With extended_master_secret; else a legacy outcome.
    #[must_use]
    pub fn ems(&self) -> bool {
        self.0.ems != 0
    }

    /// The indication flag that completion will write.
    #[must_use]
    pub fn indication(&self) -> bool {
        self.0.indication != 0
    }

    /// The renegotiation bar that completion will write.
    #[must_use]
    pub fn bar(&self) -> bool {
        self.0.bar != 0
    }

    /// Key export is barred.
    #[must_use]
    pub fn bars_export(&self) -> bool {
        self.0.bars_export != 0
    }

    /// verify_data is barred for other uses.
    #[must_use]
    pub fn bars_verify_data(&self) -> bool {
        self.0.bars_verify_data != 0
    }

    /// How many bytes of reply were written; 0 on the client's side.
    #[must_use]
    pub fn reply_length(&self) -> usize {
        self.0.reply_length
    }
}

impl fmt::Debug for Decision {
    fn fmt(&self, f: &mut fmt::Formatter<'_>) -> fmt::Result {
        f.debug_struct("Decision")
            .field("resumes", &self.resumes())
            .field("ems", &self.ems())
            .field("indication", &self.indication())
            .field("bar", &self.bar())
            .field("bars_export", &self.bars_export())
            .field("bars_verify_data", &self.bars_verify_data())
            .field("reply_length", &self.reply_length())
            .finish()
    }
}

/// The server's decision on a ClientHello of this axle. The reply, the extension block of our ServerHello, goes to the
/// front of `out`; the slice of it is answered with the decision. Refused for the axle; then for the hello, as reading it is,
/// with the same place; for renegotiation ([`RenegotiationClosed`](crate::Refusal::RenegotiationClosed) or
/// [`Indication`](crate::Refusal::Indication)); by the [`MasterSecretRule`](crate::Refusal::MasterSecretRule); and as
/// [`Length`](crate::Refusal::Length) where `out` is shorter than the reply, which has at most
/// [`REPLY_MAX`](crate::REPLY_MAX) bytes.
///
/// A session whose suite the hello does not list counts as none, and stays in the table. Where the decision
/// [resumes](Decision::resumes), our ServerHello must name the suite of the session, as [`look_up`](Table::look_up) answers it.
///
/// It costs what [reading](crate::read_client_hello) the hello costs: bound the length that an axle may send before it is known.
pub fn decide_server<'a>(
    message: &[u8],
    axle: u8,
    table: &Table,
    connection: &Connection,
    switches: Switches,
    out: &'a mut [u8],
) -> Result<(Decision, &'a [u8])> {
    // SAFETY: the slices are good for their lengths, and `out` is lent to this call alone.
    let answer = unsafe {
        ffi::axle_decide_server(
            message.as_ptr(),
            message.len(),
            axle,
            *table.0,
            *connection.0,
            switches.into(),
            out.as_mut_ptr(),
            out.len(),
        )
    };
    done(answer.refusal, (Decision(answer), &out[..answer.reply_length]))
}

/// The client's decision on a ServerHello that answers our own hello, which offered that session or none. Refused for an offer
/// over 32 bytes (an empty one is none); then for the hello, as reading it is, with the same place, or an extension that we never
/// offer; for renegotiation ([`OutOfTurn`](crate::Refusal::OutOfTurn) or [`Indication`](crate::Refusal::Indication)); as
/// [`Suite`](crate::Refusal::Suite) where it resumes with another suite than the session's; and by the
/// [`MasterSecretRule`](crate::Refusal::MasterSecretRule). In a ServerHello that does not resume the suite is not judged.
pub fn decide_client(
    message: &[u8],
    offer: Option<Offer<'_>>,
    connection: &Connection,
    switches: Switches,
) -> Result<Decision> {
    let identifier = offer.map_or(&[][..], |o| o.identifier);
    // SAFETY: the slices are good for their lengths and only read.
    let answer = unsafe {
        ffi::axle_decide_client(
            message.as_ptr(),
            message.len(),
            identifier.as_ptr(),
            identifier.len(),
            offer.is_some().into(),
            identifier.as_ptr(),
            identifier.len(),
            offer.is_some_and(|o| o.ems).into(),
            offer.map_or(0, |o| o.suite),
            *connection.0,
            switches.into(),
        )
    };
    done(answer.refusal, Decision(answer))
}
