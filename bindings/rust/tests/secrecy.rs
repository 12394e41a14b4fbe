//! Secrets are not shown by `Debug`, and are overwritten when dropped.

use axle_gateway::*;
use std::fmt::Debug;
use std::mem::{size_of, MaybeUninit};

/// Unlike any number that `Debug` would print for another reason.
const MARK: u8 = 199;
const SECRET: [u8; 48] = [MARK; 48];
/// A suite, of two such bytes.
const MARKS: u16 = u16::from_be_bytes([MARK; 2]);

/// The bytes that a value leaves behind when it is dropped where it stands.
fn left_by<T>(value: T) -> Vec<u8> {
    let mut place = Box::new(MaybeUninit::new(value));
    // SAFETY: the value is there, is dropped once, and its bytes were all written: by it, or by its drop.
    unsafe {
        place.assume_init_drop();
        std::slice::from_raw_parts(place.as_ptr().cast::<u8>(), size_of::<T>()).to_vec()
    }
}

fn marked_table() -> Table {
    let mut table = Table::new();
    table.store(1, &[MARK; 32], true, MARKS, &Secret::from(SECRET)).unwrap();
    table
}

fn marked_hash() -> Hash {
    let mut hash = Hash::new();
    hash.absorb(&[MARK; 63]).unwrap();
    hash
}

fn marked_hash384() -> Hash384 {
    let mut hash = Hash384::new();
    hash.absorb(&[MARK; 127]).unwrap();
    hash
}

fn marked_log() -> Log {
    let mut log = Log::new();
    log.accept(&[&[1, 0, 0, 50][..], &[MARK; 50]].concat(), Told::default()).unwrap();
    log
}

/// As our client's in a later handshake.
fn marked_list() -> ExtensionList<2, 16> {
    ExtensionList::new().renegotiation_info(&[MARK; 12]).unwrap()
}

#[test]
fn dropped_values_are_zeros() {
    fn zeros(bytes: Vec<u8>) -> bool {
        !bytes.is_empty() && bytes.iter().all(|byte| *byte == 0)
    }
    assert!(!zeros(left_by(SECRET)), "an array stays");
    assert!(zeros(left_by(Secret::from(SECRET))));
    assert!(zeros(left_by(marked_table())));
    assert!(zeros(left_by(marked_table().clone())));
    assert!(zeros(left_by(marked_hash())));
    assert!(zeros(left_by(marked_hash384())));
    assert!(zeros(left_by(marked_log())));
    let mut between_parts = Log::new();
    between_parts.feed(&[&[1, 0, 0, 200][..], &[MARK; 200]].concat(), 1, Told::default()).unwrap();
    assert!(zeros(left_by(between_parts)));
    assert!(zeros(left_by(Connection::new())));
    let session = marked_table().look_up(1, &[MARK; 32]).unwrap().unwrap();
    assert!(session.secret.as_bytes() == &SECRET && session.suite == MARKS);
    assert_eq!(left_by(session).iter().filter(|byte| **byte == MARK).count(), 2, "the suite is no secret, and stays");
    assert!(left_by(marked_list()).iter().all(|byte| *byte != MARK));
}

/// Its bytes: `AxleTable` of the header, which has no padding.
fn bytes_of(table: &Table) -> &[u8] {
    // SAFETY: the bytes of a value that is borrowed for as long as they are.
    unsafe { std::slice::from_raw_parts(std::ptr::from_ref(table).cast::<u8>(), size_of::<Table>()) }
}

#[test]
fn sessions_given_up_are_gone() {
    let marks = |table: &Table| bytes_of(table).iter().filter(|byte| **byte == MARK).count();
    let (marked, other) = (Secret::from(SECRET), Secret::from([1; 48]));
    assert_eq!(size_of::<Table>(), 4038);

    let mut replaced = marked_table();
    assert_eq!(marks(&replaced), 2 + 32 + 48);
    replaced.store(1, &[MARK; 32], true, 0, &other).unwrap();
    assert_eq!(marks(&replaced), 32);

    let mut pushed_out = marked_table();
    for name in 0..SESSIONS_AN_AXLE as u8 {
        pushed_out.store(1, &[name], true, 0, &other).unwrap();
    }
    assert_eq!((marks(&pushed_out), pushed_out.held(1)), (0, Ok(8)));

    let mut withdrawn = marked_table();
    withdrawn.store(1, b"later", true, MARKS, &marked).unwrap();
    assert_eq!(withdrawn.withdraw(1, &[MARK; 32]), Ok(true));
    assert_eq!(marks(&withdrawn), 2 + 48);
    withdrawn.clear();
    assert_eq!(marks(&withdrawn), 0);
}

#[test]
fn debug_shows_no_secret() {
    let table = marked_table();
    let session = table.look_up(1, &[MARK; 32]).unwrap().unwrap();
    let secret = Secret::from(SECRET);
    let (hash, hash384, log, connection) = (marked_hash(), marked_hash384(), marked_log(), Connection::new());
    let list = marked_list();
    let all: [&dyn Debug; 9] = [&table, &session, &secret, &hash, &hash384, &log, &connection, &list, &list.lists()];
    let text = format!("{all:?} {all:#?}");
    assert!(!text.contains("199") && !text.to_lowercase().contains("c7"), "{text}");
    assert_eq!(format!("{session:?}"), format!("Session {{ ems: true, suite: {MARKS}, secret: Secret(..) }}"));
    assert_eq!(format!("{hash:?} {hash384:?} {log:?}"), "Hash { .. } Hash384 { .. } Log { .. }");
    assert_eq!(format!("{connection:?}"), "Connection { completed: false, indication: false, barred: false, .. }");
}
