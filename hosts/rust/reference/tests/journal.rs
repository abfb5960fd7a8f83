//! The independent journal check keeps document 01's samples, and accepts what is sealed in turn. These tests need no archive.
use reference::journal::{report, seal, verify, Body, BODY, RECORD, SEAL};
use reference::journals::{bodies, sealed};
use reference::random::Random;

#[test]
fn sample_lines() {
    assert_eq!(report(&[1; 16]), "accepted 0 0\n");
    assert_eq!(report(&[1; 17]), "refused 9 0\n");
    assert_eq!(report(&[1; 15]), "refused 5 0\n");
    assert_eq!(report(&[]), "refused 5 0\n");
}

#[test]
fn fields_stand_where_document_01_has_them() {
    let body = Body {
        station: 0x01020304,
        sequence: 0x05060708,
        time: 0x090A0B0C,
        kind: 13,
        position: 14,
        current: 0x0F10,
        milliseconds: 0x1112,
        spare: [0x13, 0x14, 0x15, 0x16, 0x17],
    };
    let expected: Vec<u8> = (1..=23).collect();
    assert_eq!(body.bytes()[..], expected);
    assert_eq!(Body::read(&expected), body);
}

#[test]
fn a_sealed_journal_is_accepted_with_73_runs_a_record() {
    let key = Random::new(5).bytes(16);
    for records in [0, 1, 2, 3, 17, 100] {
        let journal = sealed(&key, &bodies(&mut Random::new(records as u64), records));
        assert_eq!(verify(&key, &journal), Ok((records, 73 * records as u64)));
    }
}

/// Sealing each body with the seal before it gives the same journal.
#[test]
fn sealing_in_turn() {
    let mut random = Random::new(6);
    let key = random.bytes(16);
    let bodies = bodies(&mut random, 9);
    let mut journal = Vec::new();
    let mut previous = [0; SEAL];
    for body in &bodies {
        let mut record = [0xA5; RECORD];
        assert_eq!(seal(&key, &previous, &body.bytes(), &mut record), Ok(73));
        previous.copy_from_slice(&record[BODY..]);
        journal.extend_from_slice(&record);
    }
    assert_eq!(journal, sealed(&key, &bodies));
}
