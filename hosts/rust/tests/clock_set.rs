//! Clock sets, kind 5 (document 02, 2.4): the archive's check gives the answers that are written in `reference::clock_sets`, and agrees with
//! the independent implementation. Sealing them is in seal.rs, and the program's lines are in journal_check.rs.
use reference::clock_sets::{bodies_at, journals, CLOCK_KEY};
use reference::journal::{self as expected, Body, BODY, RECORD, SEAL};
use reference::journals::{bodies, earlier_journals, sealed};
use reference::random::Random;
use std::collections::BTreeSet;
use wilbroged::{seal, verify};

/// What the archive answers: nothing, or number and place of a record's refusal.
fn answer(journal: &[u8]) -> Result<(), (u32, usize)> {
    verify(CLOCK_KEY, journal).map_err(|refused| (refused.number, refused.place.expect("a record's refusal")))
}

/// What the archive answers to bodies that are sealed in turn.
fn checking(bodies: &[Body]) -> Result<(), (u32, usize)> {
    answer(&sealed(CLOCK_KEY, bodies))
}

#[test]
fn answers() {
    for case in journals() {
        assert_eq!(answer(&case.journal), case.answer, "{}", case.what);
    }
}

/// Any kinds and times, few enough to fall often.
#[test]
fn random_times() {
    let mut random = Random::new(80);
    let mut answers = BTreeSet::new();
    for _ in 0..200 {
        let mut drawn = |values: &[u32]| values[random.word() as usize % values.len()];
        let times: Vec<_> = (0..5).map(|_| (drawn(&[1, 2, 3, 4, 5, 5, 5, 5]) as u8, drawn(&[0, 399, 400, u32::MAX]))).collect();
        let journal = sealed(CLOCK_KEY, &bodies_at(&times));
        let answer = answer(&journal);
        assert_eq!(answer, expected::verify(CLOCK_KEY, &journal).map(|_| ()), "{times:?}");
        answers.insert(answer);
    }
    assert_eq!(answers, BTreeSet::from([Ok(()), Err((11, 1)), Err((11, 2)), Err((11, 3)), Err((11, 4))]));
}

/// What the archive seals in turn, set-backs among it, is the journal that it accepts.
#[test]
fn sealed_in_turn() {
    for bodies in [bodies_at(&[(1, 1_000), (5, 400), (1, 400), (5, 399)]), bodies(&mut Random::new(81), 30)] {
        let mut journal = Vec::new();
        let mut previous = [0; SEAL];
        for body in &bodies {
            let mut record = [0xA5; RECORD];
            assert_eq!(seal(CLOCK_KEY, &previous, &body.bytes(), &mut record), Ok(()));
            previous.copy_from_slice(&record[BODY..]);
            journal.extend_from_slice(&record);
        }
        assert_eq!(journal, sealed(CLOCK_KEY, &bodies));
        assert_eq!(answer(&journal), Ok(()));
    }
}

/// 1,600 clock sets, each a second earlier than the one before; then the last one is of another kind.
#[test]
fn only_clock_sets() {
    let mut times: Vec<_> = (0..1_600).map(|second| (5, u32::MAX - second)).collect();
    assert_eq!(checking(&bodies_at(&times)), Ok(()));
    times[1_599].0 = 1;
    assert_eq!(checking(&bodies_at(&times)), Err((11, 1_599)));
}

/// A journal that is accepted without kind 5 is accepted still.
#[test]
fn earlier_journals_are_accepted() {
    for (key, journal) in earlier_journals() {
        assert_eq!(verify(&key, &journal), Ok(()), "key {key:02X?}, {} bytes", journal.len());
    }
}
