//! SHA-256 and SHA-384 through the safe functions: published vectors and the bound.

use axle_gateway::{sha256, sha384, Hash, Hash384, Refusal, HASH_MAX};

fn hex(bytes: &[u8]) -> String {
    bytes.iter().map(|b| format!("{b:02x}")).collect()
}

#[test]
fn published_vectors() {
    assert_eq!(hex(&sha256(b"abc").unwrap()), "ba7816bf8f01cfea414140de5dae2223b00361a396177a9cb410ff61f20015ad");
    let mut hash = Hash::new();
    for _ in 0..1000 {
        hash.absorb(&[b'a'; 1000]).unwrap();
    }
    assert_eq!(hex(&hash.digest()), "cdc76e5c9914fb9281a1c7e284d73e67f1809a48a497200e046d39ccc7112cd0");

    assert_eq!(
        hex(&sha384(b"abc").unwrap()),
        "cb00753f45a35e8bb5a03d699ac65007272c32ab0eded1631a8b605a43ff5bed8086072ba1e7cc2358baeca134c825a7"
    );
    let mut hash = Hash384::default();
    for _ in 0..1000 {
        hash.absorb(&[b'a'; 1000]).unwrap();
    }
    assert_eq!(
        hex(&hash.digest()),
        "9d0e1809716474cb086e834e310a4a1ced149e9c00f248527972cec5704c2a5b07b8b3dc38ecc4ebae97ddd87f3d8985"
    );
}

#[test]
fn too_much_is_refused_and_changes_nothing() {
    let mut hash = Hash::new();
    hash.absorb(&vec![7; HASH_MAX]).unwrap();
    let before = hash.digest();
    assert_eq!(hash.absorb(&[7]), Err(Refusal::Length));
    assert_eq!(hash.digest(), before);
    assert_eq!(sha256(&vec![7; HASH_MAX + 1]), Err(Refusal::Length));

    let mut hash = Hash384::new();
    hash.absorb(&vec![7; HASH_MAX]).unwrap();
    let before = hash.digest();
    assert_eq!(hash.absorb(&[7]), Err(Refusal::Length));
    assert_eq!(hash.digest(), before);
    assert_eq!(sha384(&vec![7; HASH_MAX + 1]), Err(Refusal::Length));
}
