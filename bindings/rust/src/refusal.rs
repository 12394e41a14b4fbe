//! Numbers answered.

use crate::ffi;
use core::fmt;

/// How an alert is sent (`AlertLevel` of RFC 5246).
#[derive(Clone, Copy, Debug, PartialEq, Eq, Hash)]
#[repr(u8)]
pub enum Level {
    /// The connection may go on.
    Warning = 1,
    /// The connection ends.
    Fatal = 2,
}

/// The alert that goes with a refusal.
#[derive(Clone, Copy, Debug, PartialEq, Eq, Hash)]
pub struct Alert {
    /// Warning or fatal.
    pub level: Level,
    /// `AlertDescription` of RFC 5246, section 7.2.
    pub code: u8,
}

impl Alert {
    /// The alert as it is sent: level, then description.
    #[must_use]
    pub const fn to_bytes(self) -> [u8; 2] {
        [self.level as u8, self.code]
    }
}

/// Why a call was refused. Its [`number`](Refusal::number) is that of `include/axle_gateway.h`.
#[derive(Clone, Copy, Debug, PartialEq, Eq, Hash)]
pub enum Refusal {
    /// Malformed message.
    Malformed {
        /// Where the message broke; a writer has none yet. See [`place`](Refusal::place).
        place: Option<usize>,
    },
    /// An extension type twice in a hello.
    ExtensionTwice {
        /// Where the earliest type stands that repeats one before it; a writer has no message yet. See [`place`](Refusal::place).
        place: Option<usize>,
    },
    /// A version that is not accepted.
    Version,
    /// An extension of a ServerHello that was never offered.
    ExtensionNotOffered,
    /// The renegotiation indication is wrong or missing.
    Indication,
    /// The rule of the extended master secret forbids it.
    MasterSecretRule,
    /// A message, or a question, out of turn.
    OutOfTurn,
    /// The value of a Finished differs.
    FinishedDiffers,
    /// Renegotiation is closed, on the server's side.
    RenegotiationClosed,
    /// A lent length outside its bounds; nothing went wrong on the wire.
    Length,
    /// An axle not 1 to 6, or an identifier not of 1 to 32 bytes; nothing went wrong on the wire.
    AxleOrIdentifier,
    /// A ServerHello resumes with another suite than the session's.
    Suite,
}

/// What a call answers that can be refused.
pub type Result<T> = core::result::Result<T, Refusal>;

impl Refusal {
    /// Every refusal, by number, and without a place.
    pub const ALL: [Refusal; 12] = [
        Refusal::Malformed { place: None },
        Refusal::ExtensionTwice { place: None },
        Refusal::Version,
        Refusal::ExtensionNotOffered,
        Refusal::Indication,
        Refusal::MasterSecretRule,
        Refusal::OutOfTurn,
        Refusal::FinishedDiffers,
        Refusal::RenegotiationClosed,
        Refusal::Length,
        Refusal::AxleOrIdentifier,
        Refusal::Suite,
    ];

    /// Its number, 1 to 12.
    #[must_use]
    pub const fn number(self) -> u8 {
        match self {
            Refusal::Malformed { .. } => 1,
            Refusal::ExtensionTwice { .. } => 2,
            Refusal::Version => 3,
            Refusal::ExtensionNotOffered => 4,
            Refusal::Indication => 5,
            Refusal::MasterSecretRule => 6,
            Refusal::OutOfTurn => 7,
            Refusal::FinishedDiffers => 8,
            Refusal::RenegotiationClosed => 9,
            Refusal::Length => 10,
            Refusal::AxleOrIdentifier => 11,
            Refusal::Suite => 12,
        }
    }

    /// The refusal of that number, without a place: none for 0, which is done, and above 12.
    #[must_use]
    pub fn of(number: u8) -> Option<Refusal> {
        Refusal::ALL.into_iter().find(|refusal| refusal.number() == number)
    }

    /// Where in the message that the call was given it broke, counted from 0 at its first byte, header included; at most the
    /// message's length, where a field is cut off by its end. Only [`Malformed`](Refusal::Malformed) and
    /// [`ExtensionTwice`](Refusal::ExtensionTwice) have a place, and not from a writer, which reads no message.
    #[must_use]
    pub const fn place(self) -> Option<usize> {
        match self {
            Refusal::Malformed { place } | Refusal::ExtensionTwice { place } => place,
            _ => None,
        }
    }

    /// The same at a place, if it is one that has a place.
    const fn at(self, place: usize) -> Refusal {
        match self {
            Refusal::Malformed { .. } => Refusal::Malformed { place: Some(place) },
            Refusal::ExtensionTwice { .. } => Refusal::ExtensionTwice { place: Some(place) },
            other => other,
        }
    }

    /// The alert to send, if there is one.
    #[must_use]
    pub fn alert(self) -> Option<Alert> {
        // SAFETY: takes any byte and touches no memory.
        let raw = unsafe { ffi::axle_refusal(self.number()) };
        let level = match raw.level {
            1 => Level::Warning,
            2 => Level::Fatal,
            _ => return None,
        };
        Some(Alert { level, code: raw.code })
    }

    const fn meaning(self) -> &'static str {
        match self {
            Refusal::Malformed { .. } => "malformed message",
            Refusal::ExtensionTwice { .. } => "extension type twice in a hello",
            Refusal::Version => "version",
            Refusal::ExtensionNotOffered => "extension never offered",
            Refusal::Indication => "renegotiation indication wrong or missing",
            Refusal::MasterSecretRule => "master secret rule forbids it",
            Refusal::OutOfTurn => "out of turn",
            Refusal::FinishedDiffers => "Finished value differs",
            Refusal::RenegotiationClosed => "renegotiation closed",
            Refusal::Length => "a length outside its bounds",
            Refusal::AxleOrIdentifier => "axle or identifier outside its bounds",
            Refusal::Suite => "suite differs from the session's",
        }
    }
}

/// `Ok(value)` where the call was done. A message that it read has broken at a place.
pub(crate) fn done<T>(raw: ffi::Refusal, value: T) -> Result<T> {
    written(raw, value).map_err(|refusal| refusal.at(raw.place))
}

/// The same of a writer, which reads no message.
pub(crate) fn written<T>(raw: ffi::Refusal, value: T) -> Result<T> {
    match raw.number {
        0 => Ok(value),
        number => Err(Refusal::of(number).expect("the library answers numbers of its table")),
    }
}

impl fmt::Display for Refusal {
    fn fmt(&self, f: &mut fmt::Formatter<'_>) -> fmt::Result {
        write!(f, "refused with {}: {}", self.number(), self.meaning())?;
        self.place().map_or(Ok(()), |place| write!(f, ", at place {place}"))
    }
}

impl core::error::Error for Refusal {}
