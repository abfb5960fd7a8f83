//! Kind 5 means clock set: it has any time, and the time of every other kind is not below the previous record's (document 02, 2.4).
//! These tests need no archive.
use reference::clock_sets::{journals, sealings, CLOCK_KEY};
use reference::digest::digest;
use reference::hexadecimal::bytes;
use reference::journal::{seal, verify, Body, BODY, CLOCK_SET, RECORD, SEAL};
use reference::journals::{bodies, earlier_bodies, earlier_journals, sealed};
use reference::random::Random;

/// What the check answers, without records and runs, of which there are 73 a record.
fn checking(key: &[u8], journal: &[u8]) -> Result<(), (u32, usize)> {
    let records = journal.len() / RECORD;
    verify(key, journal).map(|answer| assert_eq!(answer, (records, 73 * records as u64)))
}

#[test]
fn in_checking() {
    for case in journals() {
        assert_eq!(checking(CLOCK_KEY, &case.journal), case.answer, "{}", case.what);
    }
}

/// Refused, sealing leaves the record as it was.
#[test]
fn in_sealing() {
    for (body, expected) in sealings() {
        let mut record = [0xA5; RECORD];
        let answer = seal(CLOCK_KEY, &[7; SEAL], &body.bytes(), &mut record);
        assert_eq!(answer, expected.map(|()| 73), "{body:?}");
        assert_eq!(record == [0xA5; RECORD], answer.is_err());
        assert_eq!(record[..BODY] == body.bytes(), answer.is_ok());
    }
}

/// The journals of other tests have every kind, clocks that are set back and clocks that are not, and clock sets one after another.
/// No other time falls.
#[test]
fn generated() {
    for seed in 70..75 {
        let bodies = bodies(&mut Random::new(seed), 100);
        let mut pairs = bodies.windows(2).map(|pair| (pair[0], pair[1]));
        assert!((1..=5).all(|kind| bodies.iter().any(|body| body.kind == kind)));
        assert!(pairs.clone().any(|(before, body)| body.kind == CLOCK_SET && body.time < before.time));
        assert!(pairs.clone().any(|(before, body)| body.kind == CLOCK_SET && body.time >= before.time));
        assert!(pairs.clone().any(|(before, body)| body.kind == CLOCK_SET && before.kind == CLOCK_SET));
        assert!(pairs.all(|(before, body)| body.kind == CLOCK_SET || body.time >= before.time));
        assert_eq!(checking(CLOCK_KEY, &sealed(CLOCK_KEY, &bodies)), Ok(()));
    }
}

/// The longest journals stay far from the last time, so that no time is counted round.
#[test]
fn generated_times() {
    for seed in 0..200 {
        for bodies in [bodies(&mut Random::new(seed), 1_600), earlier_bodies(&mut Random::new(seed), 1_600)] {
            assert!(bodies.iter().all(|body| body.time < 1_000_000_000 + 1_600 * 3_000));
        }
    }
}

/// A journal that is accepted without kind 5 is accepted still. The digest of the last seals says which bytes these journals have:
/// a seal depends on all that stands before it.
#[test]
fn earlier_journals_are_accepted() {
    let mut last_seals = Vec::new();
    for (key, journal) in earlier_journals() {
        assert!(journal.chunks(RECORD).all(|record| Body::read(record).kind != CLOCK_SET));
        assert_eq!(checking(&key, &journal), Ok(()));
        last_seals.extend_from_slice(journal.chunks(RECORD).last().map_or(&[], |record| &record[BODY..]));
    }
    assert_eq!(digest(1, &last_seals, 8 * last_seals.len()).bytes, bytes("D8C9BF32C268CD7D74BEA353F548228F9E"));
}
