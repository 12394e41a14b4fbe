//! Hellos, decisions and the log through the safe functions. The handshake is that of `examples/handshake.rs`.

#[path = "../examples/handshake.rs"]
mod example;

use axle_gateway::*;

fn client_hello(identifier: &[u8]) -> Vec<u8> {
    example::client_hello(identifier).unwrap()
}

fn server_hello(identifier: &[u8], reply: &[u8]) -> Vec<u8> {
    example::server_hello(identifier, SUITE, reply).unwrap()
}

/// The suite that our client's hello lists.
const SUITE: u16 = 0x003b;

const LEGACY: Switches = Switches { indication_required: false, legacy_full: true, legacy_resumption: true };

const FULL: Told = Told { resumes: false, sha384: false };
const RESUMES: Told = Told { resumes: true, sha384: false };

/// A hello without its extension block.
fn bare(mut hello: Vec<u8>, block: usize) -> Vec<u8> {
    hello.truncate(hello.len() - block);
    hello[3] -= block as u8;
    hello
}

#[test]
fn full_and_resumed() {
    example::main().unwrap();
}

#[test]
fn every_field_of_a_decision() {
    let fields = |d: &Decision| {
        [d.resumes(), d.ems(), d.indication(), d.bar(), d.bars_export(), d.bars_verify_data(), d.reply_length() > 0]
    };
    let fresh = Connection::new();
    let mut table = Table::new();
    let mut room = [0; REPLY_MAX];
    let decide = |hello: &[u8], table: &Table, room: &mut [u8]| {
        decide_server(hello, 1, table, &fresh, LEGACY, room).map(|(decision, _)| decision)
    };
    let extended = decide(&client_hello(b"id"), &table, &mut room).unwrap();
    assert_eq!(fields(&extended), [false, true, true, false, false, false, true]);
    let legacy = decide(&bare(client_hello(b"id"), 11), &table, &mut room).unwrap();
    assert_eq!(fields(&legacy), [false, false, false, false, true, false, false]);
    table.store(1, b"id", false, SUITE, &Secret::from([1; 48])).unwrap();
    let resumed = decide(&bare(client_hello(b"id"), 11), &table, &mut room).unwrap();
    assert_eq!(fields(&resumed), [true, false, false, true, true, true, false]);
    assert_eq!(
        format!("{resumed:?}"),
        "Decision { resumes: true, ems: false, indication: false, bar: true, bars_export: true, bars_verify_data: true, \
         reply_length: 0 }"
    );
    assert_eq!(decide(&client_hello(b"id"), &table, &mut room[..6]).unwrap_err(), Refusal::Length);
    let offer = Offer { identifier: &[0; 33], ems: true, suite: SUITE };
    let refused = decide_client(&server_hello(b"", b""), Some(offer), &fresh, LEGACY).unwrap_err();
    assert_eq!(refused, Refusal::AxleOrIdentifier);
}

/// A session whose suite is not on offer counts as none, and stays; a ServerHello that resumes it must name its suite.
#[test]
fn the_suite_of_a_session() {
    let (fresh, strict, reply) = (Connection::new(), Switches::default(), [0, 9, 0xff, 1, 0, 1, 0, 0, 23, 0, 0]);
    for suite in [SUITE, SUITE + 1, SUITE.swap_bytes(), 0, 0xffff] {
        let mut table = Table::new();
        table.store(2, b"id", true, suite, &Secret::from([1; 48])).unwrap();
        let mut room = [0; REPLY_MAX];
        let (decision, written) = decide_server(&client_hello(b"id"), 2, &table, &fresh, strict, &mut room).unwrap();
        assert_eq!((decision.resumes(), written), (suite == SUITE, &reply[..]));
        assert_eq!(table.look_up(2, b"id").unwrap().map(|session| session.suite), Some(suite));

        let offer = Some(Offer { identifier: b"id", ems: true, suite });
        let decide = |identifier, offer| decide_client(&server_hello(identifier, &reply), offer, &fresh, strict);
        let resumed = decide(b"id", offer).map(|decision| decision.resumes());
        assert_eq!(resumed, if suite == SUITE { Ok(true) } else { Err(Refusal::Suite) });
        assert!(!decide(b"other", offer).unwrap().resumes() && !decide(b"id", None).unwrap().resumes());
    }
}

#[test]
fn the_log_takes_a_finished_that_is_equal() {
    let (secret, other) = (Secret::from([5; 48]), Secret::from([6; 48]));
    let mut log = Log::new();
    log.accept(&client_hello(b""), FULL).unwrap();
    assert_eq!(log.session_hash(), Err(Refusal::OutOfTurn));
    assert_eq!(log.expected_finished(&secret), Err(Refusal::OutOfTurn));
    log.accept(&server_hello(b"", b""), RESUMES).unwrap();
    let value = log.expected_finished(&secret).unwrap();
    let finished = [&[20, 0, 0, 12], &value[..]].concat();
    assert_eq!(log.accept(&finished, FULL), Err(Refusal::OutOfTurn));
    assert_eq!(log.finish(&other, &finished), Err(Refusal::FinishedDiffers));
    assert_eq!(log.finish(&secret, &[14, 0, 0, 0]), Err(Refusal::OutOfTurn));
    for accepting in [false, true] {
        let mut call =
            |message: &[u8]| if accepting { log.accept(message, FULL) } else { log.finish(&secret, message) };
        assert_eq!(call(&finished[..15]), Err(Refusal::Malformed { place: Some(1) }));
        assert_eq!(call(&[1, 0, 0]), Err(Refusal::Malformed { place: Some(3) }));
        assert_eq!(call(&[20; MESSAGE_MAX + 1]), Err(Refusal::Length));
    }
    assert_eq!(log.expected_finished(&secret), Ok(value), "refused, the log is as it was");
    log.finish(&secret, &finished).unwrap();
    assert_eq!(log.finish(&secret, &finished), Err(Refusal::FinishedDiffers), "the client's is due now");
    let value = log.expected_finished(&secret).unwrap();
    log.finish(&secret, &[&[20, 0, 0, 12], &value[..]].concat()).unwrap();
    assert_eq!(log.expected_finished(&secret), Err(Refusal::OutOfTurn));
    assert_eq!(log.finish(&secret, &finished), Err(Refusal::OutOfTurn));
}

fn message(kind: u8, body: &[u8]) -> Vec<u8> {
    [&[kind, 0], &(body.len() as u16).to_be_bytes()[..], body].concat()
}

/// A long Certificate by many allowances, with either hash, beside the single call; between its parts all other calls are refused.
#[test]
fn a_message_by_parts() {
    for (sha384, block) in [(false, 64), (true, 128)] {
        by_parts(Told { resumes: false, sha384 }, block);
    }
}

fn by_parts(told: Told, block: usize) {
    let secret = Secret::from([5; 48]);
    let certificate = message(11, &[9; MESSAGE_MAX - 4]);
    let mut before = Log::new();
    before.accept(&message(1, &[1; 70]), FULL).unwrap();
    before.accept(&message(2, &[2; 81]), told).unwrap();
    let hashed = 4 + 70 + 4 + 81;
    let session_hash = |mut log: Log| {
        log.accept(&message(14, b""), FULL).unwrap();
        log.accept(&message(16, b"key"), FULL).unwrap();
        log.session_hash().unwrap()
    };
    let mut single = before.clone();
    single.accept(&certificate, FULL).unwrap();
    let whole = session_hash(single);
    assert_eq!((whole.is_sha384(), whole.as_bytes().len()), (told.sha384, if told.sha384 { 48 } else { 32 }));
    for allowance in (1..=ALLOWANCE_MAX).step_by(5) {
        let (mut log, mut rest, mut blocks, mut calls) = (before.clone(), &certificate[..], 0, 0);
        while !rest.is_empty() {
            let fed = log.feed(rest, allowance, RESUMES).unwrap();
            let Blocks { sha256, sha384 } = fed.blocks;
            let (worked, other) = if told.sha384 { (sha384, sha256) } else { (sha256, sha384) };
            assert!(fed.taken >= rest.len().min(64) && worked <= allowance && other == 0);
            (rest, blocks, calls) = (&rest[fed.taken..], blocks + worked, calls + 1);
            if rest.is_empty() {
                break;
            }
            assert_eq!(log.feed(rest, 0, FULL), Err(Refusal::Length));
            assert_eq!(log.feed(rest, ALLOWANCE_MAX + 1, FULL), Err(Refusal::Length));
            assert_eq!(log.feed(&rest[1..], allowance, FULL), Err(Refusal::Length));
            assert_eq!(log.accept(&message(0, b""), FULL), Err(Refusal::OutOfTurn));
            assert_eq!(log.accept(b"\0\0", FULL), Err(Refusal::Malformed { place: Some(2) }));
            assert_eq!(log.finish(&secret, &message(20, &[0; 12])), Err(Refusal::OutOfTurn));
            assert_eq!(log.expected_finished(&secret), Err(Refusal::OutOfTurn));
            assert_eq!(log.session_hash(), Err(Refusal::OutOfTurn));
        }
        assert_eq!(blocks, (hashed + MESSAGE_MAX) / block - hashed / block);
        let at_once = block * (allowance + 1) - 1 - hashed % block >= MESSAGE_MAX;
        assert_eq!((calls == 1, session_hash(log)), (at_once, whole), "allowance {allowance}");
    }
    assert_eq!(before.feed(&message(0, b""), 1, FULL), Ok(Fed { taken: 4, blocks: Blocks::default() }));
    assert_eq!(before.feed(&message(20, &[0; 12]), 1, FULL), Err(Refusal::OutOfTurn));
    assert_eq!(before.feed(&[11, 0, 0, 1], 1, FULL), Err(Refusal::Malformed { place: Some(1) }));
    assert_eq!(before.feed(&message(11, &[0; MESSAGE_MAX]), 1, FULL), Err(Refusal::Length));
}

/// What is told counts with the first part of a ServerHello alone; both hashes work in all of its parts.
#[test]
fn told_with_the_first_part() {
    for (resumes, sha384) in [(false, false), (false, true), (true, false), (true, true)] {
        let (told, other) = (Told { resumes, sha384 }, Told { resumes: !resumes, sha384: !sha384 });
        let mut log = Log::new();
        log.accept(&message(1, &[7; 296]), other).unwrap();
        let answer = message(2, &[3; 120]);
        let fed = log.feed(&answer, 1, told).unwrap();
        assert_eq!(fed, Fed { taken: 83, blocks: Blocks { sha256: 1, sha384: 0 } });
        let fed = log.feed(&answer[fed.taken..], 1, other).unwrap();
        assert_eq!(fed, Fed { taken: 41, blocks: Blocks { sha256: 1, sha384: 1 } });
        assert_eq!(log.expected_finished(&Secret::from([5; 48])).is_ok(), resumes);
        if resumes {
            continue;
        }
        for kind in [14, 16] {
            log.accept(&message(kind, b""), other).unwrap();
        }
        assert_eq!(log.session_hash().unwrap().is_sha384(), sha384);
    }
}

/// The same messages by either hash: another session hash, and a Finished that the other log refuses.
#[test]
fn either_hash() {
    let messages = [message(1, b"a"), message(2, b"b"), message(14, b""), message(16, b"c")];
    let secret = Secret::from([5; 48]);
    let mut logs = [false, true].map(|sha384| {
        let mut log = Log::new();
        messages.iter().for_each(|message| log.accept(message, Told { resumes: false, sha384 }).unwrap());
        log
    });
    let hashed = messages.concat();
    assert_eq!(logs[0].session_hash(), Ok(SessionHash::Sha256(sha256(&hashed).unwrap())));
    assert_eq!(logs[1].session_hash(), Ok(SessionHash::Sha384(sha384(&hashed).unwrap())));
    let finished = [0, 1].map(|i: usize| message(20, &logs[i].expected_finished(&secret).unwrap()));
    for i in [0, 1] {
        assert_eq!(logs[i].finish(&secret, &finished[1 - i]), Err(Refusal::FinishedDiffers));
        logs[i].finish(&secret, &finished[i]).unwrap();
    }
}

#[test]
fn completion_only_at_the_end() {
    let mut room = [0; REPLY_MAX];
    let mut connection = Connection::new();
    let (decision, _) = decide_server(&client_hello(b""), 1, &Table::new(), &connection, LEGACY, &mut room).unwrap();
    assert_eq!(connection.complete(&Log::new(), &decision), Err(Refusal::OutOfTurn));
    assert!(!connection.completed() && !connection.indication() && !connection.barred());
    assert_eq!(connection.verify_data(), ([0; 12], [0; 12]));
}

#[test]
fn fields_of_a_hello() {
    let hello = client_hello(b"id");
    let read = read_client_hello(&hello).unwrap();
    assert_eq!((read.version, read.identifier, read.suites), (0x0303, &b"id"[..], &[0, 0x3b][..]));
    assert_eq!(read.extensions.renegotiation_info, Some(&[][..]));
    assert!(read.extensions.extended_master_secret && !read.extensions.others && !read.signal);
    let hello = bare(hello, 11);
    let read = read_client_hello(&hello).unwrap();
    assert_eq!((read.extensions.list, read.extensions.renegotiation_info), (None, None));
    let answer = server_hello(b"", &[0, 0]);
    let read = read_server_hello(&answer).unwrap();
    assert_eq!((read.suite, read.compression, read.extensions.list), (0x3b, 0, Some(&[][..])));
    let mut low = client_hello(b"");
    low[5] = 2;
    assert_eq!(read_client_hello(&low), Err(Refusal::Version));
}
