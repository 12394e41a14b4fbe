//! The refusals: their numbers, alerts, places and words.

use axle_gateway::*;
use std::error::Error;

#[test]
fn numbers() {
    for (refusal, number) in Refusal::ALL.into_iter().zip(1..) {
        assert_eq!((refusal.number(), refusal.place(), Refusal::of(number)), (number, None, Some(refusal)));
    }
    assert!((0..=255).filter_map(Refusal::of).eq(Refusal::ALL));
}

/// Document 01's column of alerts, and order 2's 12.
#[test]
fn alerts() {
    let codes = [50, 47, 70, 110, 40, 40, 10, 51, 100];
    for (refusal, code) in Refusal::ALL.into_iter().zip(codes) {
        let level = if refusal == Refusal::RenegotiationClosed { Level::Warning } else { Level::Fatal };
        assert_eq!(refusal.alert(), Some(Alert { level, code }));
    }
    assert_eq!([Refusal::Length.alert(), Refusal::AxleOrIdentifier.alert()], [None, None]);
    assert_eq!(Refusal::Suite.alert(), Some(Alert { level: Level::Fatal, code: 47 }));
    assert_eq!(Refusal::Malformed { place: Some(17) }.alert().unwrap().to_bytes(), [2, 50]);
    assert_eq!(Refusal::RenegotiationClosed.alert().unwrap().to_bytes(), [1, 100]);
}

/// A ClientHello with these extensions: its block's length is at place 45, its first extension at 47.
fn hello(extensions: &[u8]) -> Vec<u8> {
    let tail = [&[0, 0, 2, 0, 60, 1, 0, 0, extensions.len() as u8], extensions].concat();
    let body = [&[3, 3], &[7; 32][..], &tail].concat();
    [&[1, 0, 0, body.len() as u8], &body[..]].concat()
}

/// Every call that reads a message tells where it broke; a writer reads none.
#[test]
fn places() {
    let decide = |message: &[u8], axle| {
        let mut room = [0; REPLY_MAX];
        decide_server(message, axle, &Table::new(), &Connection::new(), Switches::default(), &mut room).map(|_| ())
    };
    let malformed = |at| Refusal::Malformed { place: Some(at) };
    let twice = [0, 16, 0, 0, 0, 17, 0, 0, 0, 17, 0, 0, 0, 16, 0, 0];
    for (extensions, refused) in [
        (&[0][..], malformed(48)),
        (&[0, 16, 0, 1], malformed(49)),
        (&[0, 23, 0, 1, 0], malformed(51)),
        (&twice, Refusal::ExtensionTwice { place: Some(55) }),
    ] {
        let message = hello(extensions);
        assert_eq!(read_client_hello(&message), Err(refused));
        assert_eq!(read_server_hello(&message), Err(malformed(0)), "the type");
        assert_eq!(decide(&message, 1), Err(refused));
        assert_eq!(decide(&message, 7), Err(Refusal::AxleOrIdentifier));
        assert_eq!(Log::new().accept(&message, Told::default()), Ok(()), "the log does not read it");
        assert_eq!(Log::new().accept(&message[1..], Told::default()), Err(malformed(1)));
    }
    let (fresh, switches) = (Connection::new(), Switches::default());
    assert_eq!(decide_client(&[2, 0, 0], None, &fresh, switches).unwrap_err(), malformed(3));
    assert_eq!(Log::new().finish(&Secret::from([0; 48]), &[20, 0]), Err(malformed(2)));
    assert_eq!(read_client_hello(&[1; MESSAGE_MAX + 1]).unwrap_err().place(), None);

    let list = ExtensionList::<2, 0>::new().with(16, b"").unwrap().with(16, b"").unwrap();
    let fields = ServerHelloFields {
        random: &[7; RANDOM_SIZE],
        identifier: b"",
        suite: 60,
        compression: 0,
        extensions: Some(list.lists()),
    };
    assert_eq!(write_server_hello(&fields, &mut [0; 64]), Err(Refusal::ExtensionTwice { place: None }));
}

#[test]
fn words() {
    let error: Box<dyn Error> = Box::new(Refusal::Version);
    assert_eq!(error.to_string(), "refused with 3: version");
    assert_eq!(Refusal::Suite.to_string(), "refused with 12: suite differs from the session's");
    assert_eq!(format!("{:?}", Refusal::OutOfTurn), "OutOfTurn");
    let refused = read_client_hello(&hello(&[0])).unwrap_err();
    assert_eq!(refused.to_string(), "refused with 1: malformed message, at place 48");
    assert_eq!(format!("{refused:?}"), "Malformed { place: Some(48) }");
    assert_eq!(Refusal::Malformed { place: None }.to_string(), "refused with 1: malformed message");
}
