//! Reading a hello.

use crate::ffi;
use crate::refusal::{done, Result};
use core::iter::FusedIterator;

/// What a hello says by its extensions.
#[derive(Clone, Copy, Debug, PartialEq, Eq)]
pub struct Extensions<'a> {
    /// The bytes inside the extension block; `None` where there is no block.
    pub list: Option<&'a [u8]>,
    /// What renegotiation_info holds, if it is there.
    pub renegotiation_info: Option<&'a [u8]>,
    /// extended_master_secret is there.
    pub extended_master_secret: bool,
    /// A type other than these two is there.
    pub others: bool,
}

/// One extension of a hello.
#[derive(Clone, Copy, Debug, PartialEq, Eq)]
pub struct Extension<'a> {
    /// Its type.
    pub kind: u16,
    /// What stands behind its type and length.
    pub data: &'a [u8],
}

/// Extensions, one after the other; [`extensions_at`] and [`Extensions::iter`] make it.
#[derive(Clone, Debug)]
pub struct ExtensionIter<'a> {
    bytes: &'a [u8],
    at: usize,
}

/// The extensions that stand one after the other in `bytes` from place `at` on, up to the first that is not whole: those of the
/// reply of [`decide_server`](crate::decide_server) from place 2 on. Any bytes and any place may be asked.
#[must_use]
pub fn extensions_at(bytes: &[u8], at: usize) -> ExtensionIter<'_> {
    ExtensionIter { bytes, at }
}

impl<'a> Iterator for ExtensionIter<'a> {
    type Item = Extension<'a>;

    fn next(&mut self) -> Option<Extension<'a>> {
        // SAFETY: the slice is good for its length and only read.
        let raw = unsafe { ffi::axle_next_extension(self.bytes.as_ptr(), self.bytes.len(), self.at) };
        (raw.found != 0).then(|| {
            self.at = raw.next;
            Extension { kind: raw.r#type, data: part(self.bytes, raw.data) }
        })
    }
}

impl FusedIterator for ExtensionIter<'_> {}

impl<'a> Extensions<'a> {
    /// The extensions, in order; none where there is no block.
    #[must_use]
    pub fn iter(&self) -> ExtensionIter<'a> {
        extensions_at(self.list.unwrap_or(&[]), 0)
    }
}

impl<'a> IntoIterator for &Extensions<'a> {
    type Item = Extension<'a>;
    type IntoIter = ExtensionIter<'a>;

    fn into_iter(self) -> ExtensionIter<'a> {
        self.iter()
    }
}

/// The fields of a ClientHello, as slices of the message that was read.
#[derive(Clone, Copy, Debug, PartialEq, Eq)]
pub struct ClientHello<'a> {
    /// The version as a 16-bit number: 0x0303 or above.
    pub version: u16,
    /// 32 bytes.
    pub random: &'a [u8],
    /// The session identifier, 0 to 32 bytes.
    pub identifier: &'a [u8],
    /// Two bytes a suite.
    pub suites: &'a [u8],
    /// One byte a method.
    pub methods: &'a [u8],
    /// The signalling suite 00 ff is among the suites.
    pub signal: bool,
    /// The extensions.
    pub extensions: Extensions<'a>,
}

/// The fields of a ServerHello, as slices of the message that was read.
#[derive(Clone, Copy, Debug, PartialEq, Eq)]
pub struct ServerHello<'a> {
    /// 32 bytes.
    pub random: &'a [u8],
    /// The session identifier, 0 to 32 bytes.
    pub identifier: &'a [u8],
    /// The suite chosen.
    pub suite: u16,
    /// The compression method chosen.
    pub compression: u8,
    /// The extensions.
    pub extensions: Extensions<'a>,
}

/// The part of the message; the reader's promise puts it inside.
fn part(message: &[u8], part: ffi::Part) -> &[u8] {
    &message[part.at..part.at + part.length]
}

fn extensions(message: &[u8], raw: ffi::Extensions) -> Extensions<'_> {
    Extensions {
        list: (raw.block != 0).then(|| part(message, raw.list)),
        renegotiation_info: (raw.indicated != 0).then(|| part(message, raw.indication)),
        extended_master_secret: raw.ems != 0,
        others: raw.others != 0,
    }
}

/// Reads one whole ClientHello message, header included: its fields, or the first fault. That is
/// [`Length`](crate::Refusal::Length) over 16,388 bytes, [`Malformed`](crate::Refusal::Malformed) or
/// [`ExtensionTwice`](crate::Refusal::ExtensionTwice) with the place where it broke, or [`Version`](crate::Refusal::Version).
///
/// ```
/// use axle_gateway::{read_client_hello, Refusal};
///
/// let cut_off = [1, 0, 0, 2, 3, 3]; // it ends where the random should begin
/// assert_eq!(read_client_hello(&cut_off), Err(Refusal::Malformed { place: Some(6) }));
/// ```
///
/// The place is that of the first field that is wrong: a type other than asked, or a length that is outside its bounds, claims
/// more than is left, or must fit exactly and does not. Of a field that is cut off it is the end that cuts it off, of data in
/// extended_master_secret the first byte, and of types that come twice the earliest that repeats one before it.
///
/// What it costs at most: every pair of extension types is compared. A hello of 16,388 bytes with 4,085 extensions takes 22 to
/// 30 ms, so 33 to 45 of them a second fill a core. Only the caller can bound that, by the length that an axle may send before
/// it is known: 1.8 ms at 4,096 bytes, 0.5 ms at 2,048.
pub fn read_client_hello(message: &[u8]) -> Result<ClientHello<'_>> {
    // SAFETY: the slice is good for its length and only read.
    let answer = unsafe { ffi::axle_read_client_hello(message.as_ptr(), message.len()) };
    let hello = done(answer.refusal, answer.hello)?;
    Ok(ClientHello {
        version: hello.version,
        random: part(message, hello.random),
        identifier: part(message, hello.identifier),
        suites: part(message, hello.suites),
        methods: part(message, hello.methods),
        signal: hello.signal != 0,
        extensions: extensions(message, hello.extensions),
    })
}

/// Reads one whole ServerHello message, header included: its fields, or the first fault, with its place as in
/// [reading a ClientHello](read_client_hello); it costs as much at most.
pub fn read_server_hello(message: &[u8]) -> Result<ServerHello<'_>> {
    // SAFETY: the slice is good for its length and only read.
    let answer = unsafe { ffi::axle_read_server_hello(message.as_ptr(), message.len()) };
    let hello = done(answer.refusal, answer.hello)?;
    Ok(ServerHello {
        random: part(message, hello.random),
        identifier: part(message, hello.identifier),
        suite: hello.suite,
        compression: hello.compression,
        extensions: extensions(message, hello.extensions),
    })
}
