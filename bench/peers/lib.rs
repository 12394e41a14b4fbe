//! A ClientHello read by tls-parser and by rustls, for bench/hello.c: each as its own users call it, and then what our reading
//! also tells. rustls looks for a repeated extension type, as its server does; tls-parser does not. And one written by rustls.

use rustls::internal::msgs::codec::{Codec, Reader};
use rustls::internal::msgs::handshake::{ClientExtension, HandshakeMessagePayload, HandshakePayload};
use rustls::ProtocolVersion;
use tls_parser::{TlsExtension, TlsMessage, TlsMessageHandshake};

/// As in bench/hello.c.
#[repr(C)]
pub struct Reading {
    version: u32,
    identifier: u32,
    suites: u32,
    methods: u32,
    random: [u8; 32],
    indicated: u8,
    ems: u8,
    others: u8,
    read: u8,
}

/// # Safety
/// `message` is good for `length` bytes.
unsafe fn lent<'a>(message: *const u8, length: usize) -> &'a [u8] {
    std::slice::from_raw_parts(message, length)
}

fn by_tls_parser(message: &[u8], to: &mut Reading) -> Option<()> {
    let (_, TlsMessage::Handshake(TlsMessageHandshake::ClientHello(hello))) =
        tls_parser::parse_tls_message_handshake(message).ok()?
    else {
        return None;
    };
    let (left, extensions) = tls_parser::parse_tls_client_hello_extensions(hello.ext.unwrap_or(&[])).ok()?;
    to.read = left.is_empty().into();
    to.version = hello.version.0.into();
    to.random[..4].copy_from_slice(&hello.rand_time.to_be_bytes());
    to.random[4..].copy_from_slice(hello.rand_data);
    to.identifier = hello.session_id.map_or(0, <[u8]>::len) as u32;
    to.suites = hello.ciphers.len() as u32;
    to.methods = hello.comp.len() as u32;
    for extension in &extensions {
        match extension {
            TlsExtension::RenegotiationInfo(_) => to.indicated = 1,
            TlsExtension::ExtendedMasterSecret => to.ems = 1,
            _ => to.others = 1,
        }
    }
    Some(())
}

fn by_rustls(message: &[u8], to: &mut Reading) -> Option<()> {
    let read = HandshakeMessagePayload::read_version(&mut Reader::init(message), ProtocolVersion::TLSv1_2)?;
    let HandshakePayload::ClientHello(hello) = read.payload else {
        return None;
    };
    to.read = (!hello.has_duplicate_extension()).into();
    to.version = hello.client_version.get_u16().into();
    to.random = hello.random.0;
    to.identifier = hello.session_id.len() as u32;
    to.suites = hello.cipher_suites.len() as u32;
    to.methods = hello.compression_methods.len() as u32;
    for extension in &hello.extensions {
        match extension {
            ClientExtension::ExtendedMasterSecretRequest => to.ems = 1,
            other if other.get_type().get_u16() == 0xff01 => to.indicated = 1,
            _ => to.others = 1,
        }
    }
    Some(())
}

/// # Safety
/// `message` is good for `length` bytes, `to` for a reading.
#[no_mangle]
pub unsafe extern "C" fn tls_parser_read(message: *const u8, length: usize, to: &mut Reading) {
    let _ = by_tls_parser(lent(message, length), to);
}

/// # Safety
/// `message` is good for `length` bytes, `to` for a reading.
#[no_mangle]
pub unsafe extern "C" fn rustls_read(message: *const u8, length: usize, to: &mut Reading) {
    let _ = by_rustls(lent(message, length), to);
}

/// A ClientHello as rustls has it in memory, to be written; nothing where it does not read.
///
/// # Safety
/// `message` is good for `length` bytes.
#[no_mangle]
pub unsafe extern "C" fn rustls_hold(message: *const u8, length: usize) -> Option<Box<HandshakeMessagePayload>> {
    HandshakeMessagePayload::read_version(&mut Reader::init(lent(message, length)), ProtocolVersion::TLSv1_2).map(Box::new)
}

/// Writes it as rustls's client does, to a new vector, and copies that out. How many bytes it has; 0 where there is no room.
///
/// # Safety
/// `out` is good for `room` bytes.
#[no_mangle]
pub unsafe extern "C" fn rustls_write(hello: &HandshakeMessagePayload, out: *mut u8, room: usize) -> usize {
    let bytes = hello.get_encoding();
    if bytes.len() > room {
        return 0;
    }
    std::slice::from_raw_parts_mut(out, bytes.len()).copy_from_slice(&bytes);
    bytes.len()
}
