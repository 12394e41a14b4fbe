//! HMAC, master secrets and the session table through the safe functions.

use axle_gateway::*;

#[test]
fn rfc_4231() {
    let tag = hmac(b"Jefe", b"what do ya want for nothing?").unwrap();
    let hex: String = tag.iter().map(|b| format!("{b:02x}")).collect();
    assert_eq!(hex, "5bdcc146bf60754e6a042426089575c75a003f089d2739839dec58b964ec3843");
    assert_eq!(hmac(&[0; HMAC_MAX + 1], b""), Err(Refusal::Length));
    let tag = hmac_sha384(b"Jefe", b"what do ya want for nothing?").unwrap();
    let hex: String = tag.iter().map(|b| format!("{b:02x}")).collect();
    assert_eq!(hex, "af45d2e376484031617f78d2b58a6b1b9c7ef464f5a01b47e42ec3736322445e8e2240ca5e69e2c78b3239ecfab21649");
    assert_eq!(hmac_sha384(b"", &[0; HMAC_MAX + 1]), Err(Refusal::Length));
}

#[test]
fn master_secrets_differ_and_refuse() {
    let hashes = [SessionHash::Sha256([2; 32]), SessionHash::Sha384([2; 48])];
    let mut all = Vec::new();
    for hash in &hashes {
        all.push(extended_master_secret(&[1], hash).unwrap());
        all.push(master_secret(hash.is_sha384(), &[1], &[2; 32], &[2; 32]).unwrap());
        assert_eq!(extended_master_secret(&[], hash).unwrap_err(), Refusal::Length);
        let too_long = master_secret(hash.is_sha384(), &[0; PRE_MASTER_MAX + 1], &[2; 32], &[2; 32]);
        assert_eq!(too_long.unwrap_err(), Refusal::Length);
    }
    for (i, one) in all.iter().enumerate() {
        assert!(all[..i].iter().all(|other| other.as_bytes() != one.as_bytes()));
    }
}

#[test]
fn one_axle_cannot_push_the_others_out() {
    let mut table = Table::new();
    for axle in [1, 2, 3, 5, 6] {
        table.store(axle, b"kept", true, 0xc000 + u16::from(axle), &Secret::from([axle; 48])).unwrap();
    }
    for n in 0..1000u32 {
        table.store(4, &n.to_be_bytes(), false, 0x003b, &Secret::from([4; 48])).unwrap();
    }
    assert_eq!(format!("{table:?}"), "Table { held: [1, 1, 1, 8, 1, 1], .. }");
    for axle in [1, 2, 3, 5, 6] {
        let session = table.look_up(axle, b"kept").unwrap().unwrap();
        assert_eq!((session.ems, session.suite), (true, 0xc000 + u16::from(axle)));
        assert_eq!(*session.secret.as_bytes(), [axle; 48]);
    }
    assert!(table.look_up(1, b"other").unwrap().is_none());
    assert_eq!(table.withdraw(1, b"kept"), Ok(true));
    assert_eq!(table.withdraw(1, b"kept"), Ok(false));
    assert_eq!(table.store(7, b"x", true, 0x003b, &Secret::from([0; 48])), Err(Refusal::AxleOrIdentifier));
    assert_eq!(table.held(4), Ok(8));
    table.clear();
    assert_eq!(table.held(4), Ok(0));
}
