//! One handshake between our two sides, and its resumption: hellos, decisions, transcript, secrets, Finished, completion, table.
//! Key exchange, certificates and records are the caller's matter, so their messages are stand-ins here.
//!
//! `cargo run --example handshake`

use axle_gateway::{
    decide_client, decide_server, extended_master_secret, extensions_at, write_client_hello, write_server_hello,
    ClientHelloFields, Connection, Decision, ExtensionList, Log, Offer, Result, Secret, ServerHelloFields, Switches,
    Table, Told, MESSAGE_MAX, REPLY_MAX,
};

const AXLE: u8 = 3;
const STRICT: Switches = Switches { indication_required: true, legacy_full: false, legacy_resumption: false };
const PRE_MASTER: [u8; 48] = [42; 48];
const IDENTIFIER: &[u8] = b"next";
const SUITE: u16 = 0x003b;
/// The PRF of that suite is over SHA-256.
const SHA384: bool = false;

const CERTIFICATE: u8 = 11;
const HELLO_DONE: u8 = 14;
const KEY_EXCHANGE: u8 = 16;
const FINISHED: u8 = 20;

fn message(kind: u8, body: &[u8]) -> Vec<u8> {
    let length = u16::try_from(body.len()).expect("a short body").to_be_bytes();
    [&[kind, 0], &length[..], body].concat()
}

/// Our client's hello: RI and EMS, for a first handshake, and an identifier if it has a session.
pub fn client_hello(identifier: &[u8]) -> Result<Vec<u8>> {
    let extensions = ExtensionList::<2, 1>::new().renegotiation_info(b"")?.extended_master_secret()?;
    let fields = ClientHelloFields {
        version: 0x0303,
        random: &[7; 32],
        identifier,
        suites: &SUITE.to_be_bytes(),
        methods: &[0],
        extensions: Some(extensions.lists()),
    };
    Ok(write_client_hello(&fields, &mut [0; 128])?.to_vec())
}

/// Our server's hello, with the reply that was decided: an extension block, or nothing at all.
pub fn server_hello(identifier: &[u8], suite: u16, reply: &[u8]) -> Result<Vec<u8>> {
    let list = ExtensionList::<2, 25>::new().with_all(extensions_at(reply, 2))?;
    let fields = ServerHelloFields {
        random: &[9; 32],
        identifier,
        suite,
        compression: 0,
        extensions: (!reply.is_empty()).then(|| list.lists()),
    };
    Ok(write_server_hello(&fields, &mut [0; 128])?.to_vec())
}

/// Both hellos: the server decides and replies, the client decides on the reply; both must see the same.
fn hellos(log: &mut Log, table: &Table, offer: Option<Offer<'_>>) -> Result<Decision> {
    let fresh = Connection::new();
    let offered = offer.map_or(&[][..], |offer| offer.identifier);
    let hello = client_hello(offered)?;
    let mut room = [0; REPLY_MAX];
    let (server, reply) = decide_server(&hello, AXLE, table, &fresh, STRICT, &mut room)?;
    log.accept(&hello, Told::default())?;
    let answer = if server.resumes() {
        let session = table.look_up(AXLE, offered)?.expect("it resumes");
        server_hello(offered, session.suite, reply)?
    } else {
        server_hello(IDENTIFIER, SUITE, reply)?
    };
    let client = decide_client(&answer, offer, &fresh, STRICT)?;
    assert_eq!(
        (client.resumes(), client.ems(), client.indication()),
        (server.resumes(), server.ems(), server.indication())
    );
    log.accept(&answer, Told { resumes: server.resumes(), sha384: SHA384 })?;
    println!("{} handshake, {} bytes of reply", if server.resumes() { "resumed" } else { "full" }, reply.len());
    Ok(server)
}

/// A long message by parts, of 16 hash blocks at most: what else waits has its turn between them.
fn feed(log: &mut Log, mut rest: &[u8]) -> Result<()> {
    while !rest.is_empty() {
        rest = &rest[log.feed(rest, 16, Told::default())?.taken..];
    }
    Ok(())
}

/// The Finished that is due, twice: its value is asked for, and the message is checked and taken as by the peer.
fn finish(log: &mut Log, secret: &Secret) -> Result<()> {
    for _ in 0..2 {
        let finished = message(FINISHED, &log.expected_finished(secret)?);
        log.finish(secret, &finished)?;
    }
    Ok(())
}

/// The whole of it.
pub fn main() -> Result<()> {
    let mut table = Table::new();

    let mut log = Log::new();
    let decision = hellos(&mut log, &table, None)?;
    feed(&mut log, &message(CERTIFICATE, &[0; MESSAGE_MAX - 4]))?;
    for kind in [HELLO_DONE, KEY_EXCHANGE] {
        log.accept(&message(kind, b""), Told::default())?;
    }
    let secret = extended_master_secret(&PRE_MASTER, &log.session_hash()?)?;
    finish(&mut log, &secret)?;
    let mut connection = Connection::new();
    connection.complete(&log, &decision)?;
    table.store(AXLE, IDENTIFIER, decision.ems(), SUITE, &secret)?;
    println!("{connection:?}, {table:?}");

    let mut log = Log::new();
    let decision = hellos(&mut log, &table, Some(Offer { identifier: IDENTIFIER, ems: true, suite: SUITE }))?;
    let session = table.look_up(AXLE, IDENTIFIER)?.expect("it was stored");
    finish(&mut log, &session.secret)?;
    let mut connection = Connection::new();
    connection.complete(&log, &decision)?;
    println!("{connection:?}, {session:?}");
    Ok(())
}
