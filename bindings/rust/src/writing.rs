//! Writing a hello.

use crate::hello::Extension;
use crate::refusal::{written, Refusal, Result};
use crate::{ffi, wiped::Wiped};
use core::fmt;

/// The type of extended_master_secret, which has no data (RFC 7627).
pub const EXTENDED_MASTER_SECRET: u16 = 23;
/// The type of renegotiation_info, whose data is a length byte and that many bytes (RFC 5746).
pub const RENEGOTIATION_INFO: u16 = 0xff01;

/// TLS 1.2, the one version of a ServerHello.
const VERSION: u16 = 0x0303;

/// Extensions to be written, in order: room for `N` of them with `D` bytes of data in all. Their lengths are counted here.
///
/// The data of a later handshake has verify_data in it: it is overwritten when dropped, and `Debug` does not show it.
#[derive(Clone)]
pub struct ExtensionList<const N: usize, const D: usize> {
    types: [u16; N],
    lengths: [u16; N],
    data: Wiped<[u8; D]>,
    count: usize,
    used: usize,
}

/// What an [`ExtensionList`] holds, as a writer takes it.
#[derive(Clone, Copy)]
pub struct ExtensionLists<'a> {
    types: &'a [u16],
    lengths: &'a [u16],
    data: &'a [u8],
}

/// The fields of a ClientHello to be written.
#[derive(Clone, Copy, Debug)]
pub struct ClientHelloFields<'a> {
    /// The version as a 16-bit number: 0x0303 for TLS 1.2, or above.
    pub version: u16,
    /// 32 bytes.
    pub random: &'a [u8],
    /// The session identifier, 0 to 32 bytes.
    pub identifier: &'a [u8],
    /// Two bytes a suite, at least one suite.
    pub suites: &'a [u8],
    /// One byte a method, 1 to 255 of them.
    pub methods: &'a [u8],
    /// The extensions. `None` is a hello without an extension block, which is not one with an empty block.
    pub extensions: Option<ExtensionLists<'a>>,
}

/// The fields of a ServerHello to be written.
#[derive(Clone, Copy, Debug)]
pub struct ServerHelloFields<'a> {
    /// 32 bytes.
    pub random: &'a [u8],
    /// The session identifier, 0 to 32 bytes.
    pub identifier: &'a [u8],
    /// The suite chosen: the session's, where the ServerHello resumes.
    pub suite: u16,
    /// The compression method chosen.
    pub compression: u8,
    /// The extensions. `None` is a hello without an extension block, which is not one with an empty block.
    pub extensions: Option<ExtensionLists<'a>>,
}

impl<const N: usize, const D: usize> ExtensionList<N, D> {
    /// An empty list.
    #[must_use]
    pub const fn new() -> Self {
        ExtensionList { types: [0; N], lengths: [0; N], data: Wiped([0; D]), count: 0, used: 0 }
    }

    /// One extension more, its data in parts. Refused, it stays as it was.
    fn push_parts(&mut self, kind: u16, parts: [&[u8]; 2]) -> Result<()> {
        let length = parts[0].len() + parts[1].len();
        let counted = u16::try_from(length).map_err(|_| Refusal::Length)?;
        let room = self.data.get_mut(self.used..self.used + length).ok_or(Refusal::Length)?;
        let place = self.types.get_mut(self.count).ok_or(Refusal::Length)?;
        let (first, second) = room.split_at_mut(parts[0].len());
        first.copy_from_slice(parts[0]);
        second.copy_from_slice(parts[1]);
        *place = kind;
        self.lengths[self.count] = counted;
        self.count += 1;
        self.used += length;
        Ok(())
    }

    /// One extension more, with its data as it stands in the message. Refused as [`Length`](Refusal::Length) where there is no
    /// room, or over 65,535 bytes; what the data is, the writer judges.
    pub fn push(&mut self, kind: u16, data: &[u8]) -> Result<()> {
        self.push_parts(kind, [data, &[]])
    }

    /// The list with one extension more, as by [`push`](ExtensionList::push).
    pub fn with(mut self, kind: u16, data: &[u8]) -> Result<Self> {
        self.push(kind, data)?;
        Ok(self)
    }

    /// The list with all of these behind it, as by [`push`](ExtensionList::push).
    pub fn with_all<'a>(mut self, extensions: impl IntoIterator<Item = Extension<'a>>) -> Result<Self> {
        for Extension { kind, data } in extensions {
            self.push(kind, data)?;
        }
        Ok(self)
    }

    /// The list with a renegotiation_info that holds these bytes: its length byte is put before them. Refused as
    /// [`Length`](Refusal::Length) over 255 bytes, or where there is no room.
    pub fn renegotiation_info(mut self, holds: &[u8]) -> Result<Self> {
        let length = u8::try_from(holds.len()).map_err(|_| Refusal::Length)?;
        self.push_parts(RENEGOTIATION_INFO, [&[length], holds])?;
        Ok(self)
    }

    /// The list with extended_master_secret. Refused as [`Length`](Refusal::Length) where there is no room.
    pub fn extended_master_secret(self) -> Result<Self> {
        self.with(EXTENDED_MASTER_SECRET, &[])
    }

    /// What a writer takes.
    #[must_use]
    pub fn lists(&self) -> ExtensionLists<'_> {
        ExtensionLists {
            types: &self.types[..self.count],
            lengths: &self.lengths[..self.count],
            data: &self.data[..self.used],
        }
    }
}

impl<const N: usize, const D: usize> Default for ExtensionList<N, D> {
    fn default() -> Self {
        ExtensionList::new()
    }
}

impl<const N: usize, const D: usize> fmt::Debug for ExtensionList<N, D> {
    fn fmt(&self, f: &mut fmt::Formatter<'_>) -> fmt::Result {
        self.lists().fmt(f)
    }
}

/// Types and lengths, without the data.
impl fmt::Debug for ExtensionLists<'_> {
    fn fmt(&self, f: &mut fmt::Formatter<'_>) -> fmt::Result {
        f.debug_struct("Extensions").field("types", &self.types).field("lengths", &self.lengths).finish_non_exhaustive()
    }
}

/// Without a block there is nothing in it.
fn block(extensions: Option<ExtensionLists<'_>>) -> (u8, ExtensionLists<'_>) {
    (extensions.is_some().into(), extensions.unwrap_or(ExtensionLists { types: &[], lengths: &[], data: &[] }))
}

/// Writes one whole ClientHello message, header included, to the front of `out`, and answers it; what stands behind it stays.
/// The message's type and all lengths in it are the writer's work, and nothing is added to the fields. What was written
/// [reads](crate::read_client_hello) back as the same fields, and the fields of a hello that was read are written as that very
/// message.
///
/// Refused, with nothing written, by the first that applies: as [`Length`](Refusal::Length) for a field outside its bounds, or a
/// message over [`MESSAGE_MAX`](crate::MESSAGE_MAX) bytes; as [`Malformed`](Refusal::Malformed) for a renegotiation_info or
/// extended_master_secret of the wrong shape; as [`ExtensionTwice`](Refusal::ExtensionTwice) for a type that comes twice, both
/// without a place, for there is no message yet; as [`Version`](Refusal::Version) below 0x0303; and as
/// [`Length`](Refusal::Length) where `out` is shorter than the message.
///
/// ```
/// use axle_gateway::*;
///
/// let extensions = ExtensionList::<3, 8>::new()
///     .renegotiation_info(b"")?
///     .extended_master_secret()?
///     .with(10, &[0, 2, 0, 23])?;
/// let fields = ClientHelloFields {
///     version: 0x0303,
///     random: &[7; RANDOM_SIZE],
///     identifier: b"",
///     suites: &[0x00, 0x3b, 0x00, 0x3c],
///     methods: &[0],
///     extensions: Some(extensions.lists()),
/// };
/// let mut room = [0; 128];
/// let hello = write_client_hello(&fields, &mut room)?;
///
/// let read = read_client_hello(hello)?;
/// assert_eq!(read.suites, fields.suites);
/// assert_eq!(read.extensions.iter().map(|e| e.kind).collect::<Vec<_>>(), [RENEGOTIATION_INFO, EXTENDED_MASTER_SECRET, 10]);
/// # Ok::<(), Refusal>(())
/// ```
pub fn write_client_hello<'o>(fields: &ClientHelloFields<'_>, out: &'o mut [u8]) -> Result<&'o [u8]> {
    let (block, lists) = block(fields.extensions);
    // SAFETY: the slices are good for their lengths, and `out` is lent to this call alone.
    let answer = unsafe {
        ffi::axle_write_client_hello(
            fields.version,
            fields.random.as_ptr(),
            fields.random.len(),
            fields.identifier.as_ptr(),
            fields.identifier.len(),
            fields.suites.as_ptr(),
            fields.suites.len(),
            fields.methods.as_ptr(),
            fields.methods.len(),
            block,
            lists.types.as_ptr(),
            lists.types.len(),
            lists.lengths.as_ptr(),
            lists.lengths.len(),
            lists.data.as_ptr(),
            lists.data.len(),
            out.as_mut_ptr(),
            out.len(),
        )
    };
    written(answer.refusal, &out[..answer.length])
}

/// Writes one whole ServerHello message, of version 0x0303; otherwise as [writing a ClientHello](write_client_hello). The reply of
/// [`decide_server`](crate::decide_server) is its extension block:
///
/// ```
/// # use axle_gateway::*;
/// # let (reply, mut room) = ([0, 9, 0xff, 1, 0, 1, 0, 0, 23, 0, 0], [0; 128]);
/// let list = ExtensionList::<2, 25>::new().with_all(extensions_at(&reply, 2))?;
/// let fields = ServerHelloFields {
///     random: &[9; RANDOM_SIZE],
///     identifier: b"",
///     suite: 0x003b,
///     compression: 0,
///     extensions: (!reply.is_empty()).then(|| list.lists()),
/// };
/// let hello = write_server_hello(&fields, &mut room)?;
/// assert!(hello.ends_with(&reply));
/// # Ok::<(), Refusal>(())
/// ```
pub fn write_server_hello<'o>(fields: &ServerHelloFields<'_>, out: &'o mut [u8]) -> Result<&'o [u8]> {
    let (block, lists) = block(fields.extensions);
    // SAFETY: the slices are good for their lengths, and `out` is lent to this call alone.
    let answer = unsafe {
        ffi::axle_write_server_hello(
            VERSION,
            fields.random.as_ptr(),
            fields.random.len(),
            fields.identifier.as_ptr(),
            fields.identifier.len(),
            fields.suite,
            fields.compression,
            block,
            lists.types.as_ptr(),
            lists.types.len(),
            lists.lengths.as_ptr(),
            lists.lengths.len(),
            lists.data.as_ptr(),
            lists.data.len(),
            out.as_mut_ptr(),
            out.len(),
        )
    };
    written(answer.refusal, &out[..answer.length])
}
