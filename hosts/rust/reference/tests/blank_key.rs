//! A key of sixteen zero bytes is refused by 16, directly after 5, in sealing, in checking and in the program (document 02, 2.2). These tests
//! need no archive.
use reference::journal::{report, seal, verify, Body, LONGEST, RECORD, SEAL};
use reference::journals::{bodies, nearly_blank_keys, sealed};
use reference::random::Random;

const BLANK: [u8; 16] = [0; 16];

/// What sealing answers; refused, it leaves the record as it was.
fn sealing(key: &[u8], previous: &[u8], body: &[u8], record_length: usize) -> Result<u64, u32> {
    let before = vec![0xA5; record_length];
    let mut record = before.clone();
    let answer = seal(key, previous, body, &mut record);
    assert_eq!(record == before, answer.is_err());
    answer
}

/// Three bodies that follow.
fn three() -> Vec<Body> {
    bodies(&mut Random::new(60), 3)
}

/// What the check answers; the program prints the same.
fn checking(key: &[u8; 16], journal: &[u8]) -> Result<(usize, u64), (u32, usize)> {
    let answer = verify(key, journal);
    let line = match answer {
        Ok((records, runs)) => format!("accepted {records} {runs}\n"),
        Err((number, place)) => format!("refused {number} {place}\n"),
    };
    assert_eq!(report(&[&key[..], journal].concat()), line);
    answer
}

#[test]
fn sixteen_zeros() {
    assert_eq!(sealing(&BLANK, &[0; 17], &three()[0].bytes(), 40), Err(16));
    assert_eq!(sealing(&BLANK, &[7; 17], &three()[1].bytes(), 40), Err(16));
    assert_eq!(checking(&BLANK, &[]), Err((16, 0)));
    assert_eq!(report(&[0; 16]), "refused 16 0\n");
}

/// Other lengths are 5. The program takes sixteen of seventeen bytes for the key.
#[test]
fn other_numbers_of_zeros() {
    let body = three()[0].bytes();
    for length in (0..=40).filter(|&length| length != 16) {
        assert_eq!(sealing(&[0; 40][..length], &[0; 17], &body, 40), Err(5), "{length} zeros");
        assert_eq!(verify(&[0; 40][..length], &[]), Err((5, 0)), "{length} zeros");
    }
    assert_eq!(report(&[0; 15]), "refused 5 0\n");
    assert_eq!(report(&[0; 17]), "refused 16 0\n");
}

/// A key with a byte that is not zero seals, and its journal is accepted.
#[test]
fn nearly_blank_keys_are_taken() {
    let bodies = three();
    for key in nearly_blank_keys() {
        assert_eq!(sealing(&key, &[0; 17], &bodies[0].bytes(), 40), Ok(73), "{key:?}");
        assert_eq!(checking(&key, &[]), Ok((0, 0)), "{key:?}");
        assert_eq!(checking(&key, &sealed(&key, &bodies)), Ok((3, 219)), "{key:?}");
    }
}

/// In sealing each of the four lengths comes before 16, and 16 before 10.
#[test]
fn order_of_sealing() {
    let body = three()[0].bytes();
    for previous in [0, 16, 18] {
        assert_eq!(sealing(&BLANK, &vec![0; previous], &body, 40), Err(5));
    }
    for length in [0, 22, 24] {
        assert_eq!(sealing(&BLANK, &[0; 17], &vec![0; length], 40), Err(5));
    }
    for record in [0, 39, 41] {
        assert_eq!(sealing(&BLANK, &[0; 17], &body, record), Err(5));
    }
    assert_eq!(sealing(&[0; 15], &[0; 17], &body, 40), Err(5));
    assert_eq!(sealing(&[0; 17], &[0; 17], &body, 40), Err(5));
    assert_eq!(sealing(&BLANK, &[0; 17], &[0; 23], 40), Err(16));
    assert_eq!(sealing(&[1; 16], &[0; 17], &[0; 23], 40), Err(10));
}

/// In checking 5 comes before 16, and 16 before 9 and before the lines of every record.
#[test]
fn order_of_checking() {
    let whole = sealed(&BLANK, &three());
    assert_eq!(verify(&[0; 15], &whole[1..]), Err((5, 0)));
    assert_eq!(verify(&[0; 17], &vec![0; LONGEST + RECORD]), Err((5, 0)));
    // every seal of this journal is right
    assert_eq!(checking(&BLANK, &whole), Err((16, 0)));
    for torn in 1..whole.len() {
        assert_eq!(checking(&BLANK, &whole[..torn]), Err((16, 0)));
    }
    for over in [1, RECORD] {
        assert_eq!(checking(&BLANK, &vec![0; LONGEST + over]), Err((16, 0)));
    }
    // kind, sequence and seal: 10, 11 and 12 under a key that is not blank
    for record in 0..3 {
        for (number, offset) in [(10, 12), (11, 4), (12, RECORD - SEAL)] {
            for (key, expected) in [(BLANK, (16, 0)), ([1; 16], (number, record))] {
                let mut damaged = sealed(&key, &three());
                damaged[RECORD * record + offset] ^= 0x80;
                assert_eq!(checking(&key, &damaged), Err(expected));
            }
        }
    }
}
