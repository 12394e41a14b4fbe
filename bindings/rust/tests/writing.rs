//! Writing hellos through the safe functions: there and back, refusals, and lists that run out of room.

use axle_gateway::*;

const RANDOM: [u8; RANDOM_SIZE] = [7; RANDOM_SIZE];

fn client<'a>(extensions: Option<ExtensionLists<'a>>) -> ClientHelloFields<'a> {
    let (identifier, suites, methods) = (b"id", &[0, 0x3b, 0, 0xff], &[1, 0]);
    ClientHelloFields { version: 0x0303, random: &RANDOM, identifier, suites, methods, extensions }
}

fn server<'a>(extensions: Option<ExtensionLists<'a>>) -> ServerHelloFields<'a> {
    ServerHelloFields { random: &RANDOM, identifier: b"", suite: 0x003b, compression: 1, extensions }
}

#[test]
fn what_was_written_reads_back() {
    let list = ExtensionList::<4, 40>::new().with(10, b"groups").unwrap().renegotiation_info(&[5; 12]).unwrap();
    let list = list.with(35, b"").unwrap().extended_master_secret().unwrap();
    let told = [
        (10, &b"groups"[..]),
        (RENEGOTIATION_INFO, &[&[12][..], &[5; 12]].concat()),
        (35, b""),
        (EXTENDED_MASTER_SECRET, b""),
    ]
    .map(|(kind, data)| (kind, data.to_vec()));

    let mut room = [0xa5; 200];
    let fields = client(Some(list.lists()));
    let n = write_client_hello(&fields, &mut room).unwrap().len();
    assert!(room[n..].iter().all(|byte| *byte == 0xa5), "what stands behind the message stays");
    let read = read_client_hello(&room[..n]).unwrap();
    assert_eq!((read.version, read.random, read.identifier), (fields.version, fields.random, fields.identifier));
    assert_eq!((read.suites, read.methods, read.signal), (fields.suites, fields.methods, true));
    assert_eq!(read.extensions.iter().map(|e| (e.kind, e.data.to_vec())).collect::<Vec<_>>(), told);
    assert_eq!(read.extensions.renegotiation_info, Some(&[5; 12][..]));
    assert!(read.extensions.extended_master_secret && read.extensions.others);

    let n = write_server_hello(&server(Some(list.lists())), &mut room).unwrap().len();
    let read = read_server_hello(&room[..n]).unwrap();
    assert_eq!((read.random, read.identifier, read.suite, read.compression), (&RANDOM[..], &b""[..], 0x003b, 1));
    assert_eq!(read.extensions.iter().map(|e| (e.kind, e.data.to_vec())).collect::<Vec<_>>(), told);
}

#[test]
fn what_was_read_is_written_to_the_byte() {
    let body =
        [&[0xfe, 0xfd], &RANDOM[..], &[1, 9, 0, 2, 0, 60, 1, 0, 0, 13, 0, 16, 0, 0, 255, 1, 0, 1, 0, 0, 13, 0, 0]]
            .concat();
    let message = [&[1, 0, 0, body.len() as u8], &body[..]].concat();
    let read = read_client_hello(&message).unwrap();
    let list = ExtensionList::<3, 1>::new().with_all(&read.extensions).unwrap();
    let fields = ClientHelloFields {
        version: read.version,
        random: read.random,
        identifier: read.identifier,
        suites: read.suites,
        methods: read.methods,
        extensions: read.extensions.list.map(|_| list.lists()),
    };
    let mut room = [0; 128];
    assert_eq!(write_client_hello(&fields, &mut room).unwrap(), message);
    assert_eq!(write_client_hello(&fields, &mut room[..message.len()]).unwrap(), message);
    assert_eq!(write_client_hello(&fields, &mut room[..message.len() - 1]), Err(Refusal::Length));
}

#[test]
fn no_block_is_not_an_empty_block() {
    let empty = ExtensionList::<0, 0>::default();
    let (mut without, mut with) = ([0; 64], [0; 64]);
    let without = write_server_hello(&server(None), &mut without).unwrap();
    let with = write_server_hello(&server(Some(empty.lists())), &mut with).unwrap();
    assert_eq!((without.len(), with.len(), &with[42..]), (42, 44, &[0, 0][..]));
    for (message, list) in [(without, None), (with, Some(&[][..]))] {
        let read = read_server_hello(message).unwrap();
        assert_eq!((read.extensions.list, read.extensions.iter().count()), (list, 0));
    }
}

#[test]
fn refusals_in_their_order() {
    let mut room = [0xa5; 128];
    let mut number = |fields: &ClientHelloFields<'_>, length: usize| {
        let refused = write_client_hello(fields, &mut room[..length]).unwrap_err();
        assert!(room.iter().all(|byte| *byte == 0xa5), "nothing is written");
        refused
    };
    let misshapen = ExtensionList::<2, 2>::new().with(16, b"").unwrap().with(EXTENDED_MASTER_SECRET, b"x").unwrap();
    let twice = ExtensionList::<2, 2>::new().with(16, b"").unwrap().with(16, b"x").unwrap();
    let all = misshapen.clone().with_all(extensions_at(&[0, 16, 0, 0], 0));
    assert_eq!(all.unwrap_err(), Refusal::Length, "no room");
    let fields = ClientHelloFields { version: 0x0302, random: &RANDOM[1..], ..client(Some(misshapen.lists())) };
    assert_eq!(number(&fields, 1), Refusal::Length);
    let fields = ClientHelloFields { random: &RANDOM, ..fields };
    assert_eq!(number(&fields, 1), Refusal::Malformed { place: None });
    let fields = ClientHelloFields { extensions: Some(twice.lists()), ..fields };
    assert_eq!(number(&fields, 1), Refusal::ExtensionTwice { place: None });
    let fields = ClientHelloFields { extensions: None, ..fields };
    assert_eq!(number(&fields, 1), Refusal::Version);
    assert_eq!(number(&ClientHelloFields { version: 0x0304, ..fields }, 1), Refusal::Length);
    for fields in [
        ClientHelloFields { identifier: &[0; 33], ..client(None) },
        ClientHelloFields { suites: &[0, 60, 0], ..client(None) },
        ClientHelloFields { suites: &[], ..client(None) },
        ClientHelloFields { methods: &[], ..client(None) },
        ClientHelloFields { methods: &[0; 256], ..client(None) },
        ClientHelloFields { suites: &[0; MESSAGE_MAX], ..client(None) },
    ] {
        assert_eq!(number(&fields, 128), Refusal::Length);
    }
    assert_eq!(
        write_server_hello(&server(Some(twice.lists())), &mut room),
        Err(Refusal::ExtensionTwice { place: None })
    );
    assert_eq!(write_server_hello(&server(None), &mut room[..41]), Err(Refusal::Length));
}

#[test]
fn a_list_that_is_full_stays_as_it_was() {
    let mut list = ExtensionList::<2, 4>::new();
    list.push(16, b"abc").unwrap();
    assert_eq!(list.push(17, b"de"), Err(Refusal::Length));
    list.push(17, b"d").unwrap();
    assert_eq!(list.push(18, b""), Err(Refusal::Length));
    assert_eq!(format!("{list:?}"), "Extensions { types: [16, 17], lengths: [3, 1], .. }");
    let mut room = [0; 64];
    let hello = write_server_hello(&server(Some(list.lists())), &mut room).unwrap();
    assert!(hello.ends_with(&[0, 12, 0, 16, 0, 3, b'a', b'b', b'c', 0, 17, 0, 1, b'd']));
    assert!(ExtensionList::<1, 256>::new().renegotiation_info(&[0; 255]).is_ok());
    assert_eq!(ExtensionList::<1, 300>::new().renegotiation_info(&[0; 256]).unwrap_err(), Refusal::Length);
    assert_eq!(ExtensionList::<1, 70_000>::new().push(5, &[0; 65_536]), Err(Refusal::Length));
}

#[test]
fn extensions_of_any_bytes() {
    let bytes = [0, 16, 0, 2, b'a', b'b', 0, 17, 0, 1];
    let found: Vec<_> = extensions_at(&bytes, 0).collect();
    assert_eq!(found, [Extension { kind: 16, data: b"ab" }]);
    for at in [1, 6, 7, 10, 11, usize::MAX] {
        assert_eq!(extensions_at(&bytes, at).next(), None);
    }
}
