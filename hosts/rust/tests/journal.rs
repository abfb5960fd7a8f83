//! The journal check agrees with the independent implementation: on whole journals of 0 to 1,600 records, on journals damaged in each
//! field, resealed or not, torn, over-long, with two faults, and under blank keys. Seeds are fixed.
use reference::journal::{self as expected, BODY, LONGEST, RECORD, SEAL};
use reference::journals::{bodies, earlier_bodies, nearly_blank_keys, reseal, sealed};
use reference::random::Random;
use wilbroged::{verify, Refused};

/// Compares number and place, and answers them: 0 and 0 where the journal is accepted. A place that is 0 because no record is at fault is
/// none in Rust.
fn compare(key: &[u8], journal: &[u8]) -> (u32, usize) {
    let answer = verify(key, journal);
    let refused = expected::verify(key, journal).err();
    let place_of = |number, place| (10..=12).contains(&number).then_some(place);
    let answer_expected = refused.map_or(Ok(()), |(number, place)| Err(Refused { number, place: place_of(number, place) }));
    assert_eq!(answer, answer_expected, "key {key:02X?}, {} bytes {journal:02X?}", journal.len());
    refused.unwrap_or((0, 0))
}

fn key_and_journal(seed: u64, records: usize) -> (Vec<u8>, Vec<u8>) {
    let mut random = Random::new(seed);
    let key = random.bytes(16);
    let journal = sealed(&key, &bodies(&mut random, records));
    (key, journal)
}

#[test]
fn whole_journals() {
    for records in (0..=12).chain([50, 256]) {
        let (key, journal) = key_and_journal(records as u64, records);
        assert_eq!(compare(&key, &journal), (0, 0), "{records} records");
    }
}

#[test]
fn the_longest_journal() {
    let (key, mut journal) = key_and_journal(1_600, 1_600);
    assert_eq!(journal.len(), LONGEST);
    assert_eq!(verify(&key, &journal), Ok(()));
    // its last byte, and one record more
    journal[LONGEST - 1] ^= 1;
    assert_eq!(verify(&key, &journal), Err(Refused { number: Refused::DIFFERENT_SEAL, place: Some(1_599) }));
    journal.extend_from_slice(&[0; RECORD]);
    assert_eq!(compare(&key, &journal), (9, 0));
}

#[test]
fn keys() {
    let (key, journal) = key_and_journal(30, 3);
    for length in (0..=40).filter(|&length| length != 16) {
        assert_eq!(compare(&[0; 40][..length], &journal), (5, 0));
        assert_eq!(compare(&[0; 40][..length], &journal[1..]), (5, 0));
    }
    for i in 0..16 {
        let mut other = key.clone();
        other[i] ^= 0x10;
        assert_eq!(compare(&other, &journal), (12, 0));
    }
}

/// Torn at every length modulo 40, and more than 64,000 bytes.
#[test]
fn lengths() {
    let (key, journal) = key_and_journal(31, 5);
    for length in 0..=journal.len() {
        let refused = length % RECORD != 0;
        assert_eq!(compare(&key, &journal[..length]), if refused { (9, 0) } else { (0, 0) });
    }
    // a length is refused before any record is read
    let long = vec![0; LONGEST + 4 * RECORD];
    for torn in 1..RECORD {
        assert_eq!(compare(&key, &long[..LONGEST - torn]), (9, 0));
    }
    assert_eq!(compare(&key, &long[..LONGEST]), (10, 0));
    for over in 1..=4 * RECORD {
        assert_eq!(compare(&key, &long[..LONGEST + over]), (9, 0));
    }
}

/// The lowest and the highest bit of every byte of the first record, of one in the middle and of the last one: as it is, and sealed again
/// from there on. Of the journals one has a clock set in the middle, and one has none.
#[test]
fn damage_in_each_field() {
    let mut random = Random::new(33);
    let key = random.bytes(16);
    let without = sealed(&key, &earlier_bodies(&mut random, 4));
    for journal in [key_and_journal(33, 4).1, without] {
        damage_each_field(&key, &journal);
    }
}

fn damage_each_field(key: &[u8], journal: &[u8]) {
    let mut numbers = [0; 13];
    for record in [0, 2, 3] {
        for bit in (0..8 * RECORD).filter(|bit| bit % 8 == 0 || bit % 8 == 7) {
            let mut damaged = journal.to_vec();
            damaged[RECORD * record + bit / 8] ^= 1 << (bit % 8);
            let (number, place) = compare(key, &damaged);
            assert!(number != 0 && place >= record, "the damage is seen");
            numbers[number as usize] += 1;

            // with lawful seals, what is left are the layout and the succession
            reseal(key, &mut damaged, if bit / 8 < BODY { record } else { record + 1 });
            let (number, _) = compare(key, &damaged);
            assert!(number != 12 || bit / 8 >= BODY);
            numbers[number as usize] += 1;
        }
    }
    for number in [0, 10, 11, 12] {
        assert_ne!(numbers[number], 0, "no damage was answered by {number}");
    }
}

/// Any byte at any place, as it is, and sealed again.
#[test]
fn random_damage() {
    let mut random = Random::new(34);
    let (key, journal) = key_and_journal(35, 6);
    for _ in 0..100 {
        let mut damaged = journal.clone();
        let at = random.word() as usize % damaged.len();
        damaged[at] = random.word() as u8;
        compare(&key, &damaged);
        reseal(&key, &mut damaged, at / RECORD);
        compare(&key, &damaged);
    }
}

/// A change of one field, in a record.
type Fault = fn(&mut [u8]);

/// A kind that is none, a sequence that doesn't follow, a seal that differs: each by the line that it is refused by.
const FAULTS: [(u32, Fault); 3] = [(10, |record| record[12] = 0), (11, |record| record[4] ^= 1), (12, |record| record[BODY] ^= 1)];

/// Of two faults the earlier record's wins; in one record, the lower line.
#[test]
fn two_faults() {
    let (key, journal) = key_and_journal(36, 3);
    for (first, damage) in FAULTS {
        for (second, other_damage) in FAULTS {
            for place in 0..3 {
                for other in 0..3 {
                    let mut damaged = journal.clone();
                    damage(&mut damaged[RECORD * place..RECORD * (place + 1)]);
                    // two equal changes would undo each other
                    if (first, place) != (second, other) {
                        other_damage(&mut damaged[RECORD * other..RECORD * (other + 1)]);
                    }
                    let expected = (
                        place.min(other),
                        if place == other {
                            first.min(second)
                        } else if place < other {
                            first
                        } else {
                            second
                        },
                    );
                    assert_eq!(compare(&key, &damaged), (expected.1, expected.0));
                }
            }
        }
    }
}

/// A blank key is refused whatever the journal is: before 9, and before the lines of every record.
#[test]
fn a_blank_key() {
    let journal = sealed(&[0; 16], &bodies(&mut Random::new(50), 3));
    for length in 0..=journal.len() {
        assert_eq!(compare(&[0; 16], &journal[..length]), (16, 0));
    }
    for over in 0..=2 * RECORD {
        assert_eq!(compare(&[0; 16], &vec![0; LONGEST + over]), (16, 0));
    }
    for (_, damage) in FAULTS {
        for place in 0..3 {
            let mut damaged = journal.clone();
            damage(&mut damaged[RECORD * place..RECORD * (place + 1)]);
            assert_eq!(compare(&[0; 16], &damaged), (16, 0));
        }
    }
}

/// One byte of the key that is not zero is enough.
#[test]
fn nearly_blank_keys_are_taken() {
    let bodies = bodies(&mut Random::new(51), 3);
    let blank = sealed(&[0; 16], &bodies);
    for key in nearly_blank_keys() {
        assert_eq!(compare(&key, &sealed(&key, &bodies)), (0, 0));
        assert_eq!(compare(&key, &blank), (12, 0));
        assert_eq!(compare(&key, &[]), (0, 0));
        assert_eq!(compare(&key, &blank[1..]), (9, 0));
    }
}

/// Resealed journals whose successions break: by station, sequence and time, at the first record and later. No clock is set.
#[test]
fn successions() {
    let mut random = Random::new(37);
    let key = random.bytes(16);
    let lawful = earlier_bodies(&mut random, 4);
    let check = |changed: Vec<reference::journal::Body>| compare(&key, &sealed(&key, &changed));
    for place in 0..4 {
        let mut changed = lawful.clone();
        changed[place].station ^= 0x8000_0000;
        // a first record has the station that all others must have
        assert_eq!(check(changed), (11, if place == 0 { 1 } else { place }));
        for sequence in [0, lawful[place].sequence + 1, lawful[place].sequence.wrapping_sub(1), u32::MAX] {
            let mut changed = lawful.clone();
            changed[place].sequence = sequence;
            assert_eq!(check(changed), (11, place));
        }
        let mut changed = lawful.clone();
        changed[place].time = u32::MAX;
        assert_eq!(check(changed), if place == 3 { (0, 0) } else { (11, place + 1) });
    }
    let mut changed = lawful.clone();
    changed[2].time = changed[1].time - 1;
    assert_eq!(check(changed), (11, 2));
    let mut changed = lawful.clone();
    let time = changed[1].time;
    changed.iter_mut().for_each(|body| body.time = time);
    assert_eq!(check(changed), (0, 0), "equal times follow");
    // sequences start at 1 and are not counted round
    for start in [0, 2, u32::MAX] {
        let mut changed = lawful.clone();
        changed.iter_mut().zip(0..).for_each(|(body, i)| body.sequence = start.wrapping_add(i));
        assert_eq!(check(changed), (11, 0));
    }
}

/// Station, time and current 0 and all ones, and kind 3 with 0 and 65,535 ms; every other kind has 0 ms.
#[test]
fn extreme_fields() {
    let mut random = Random::new(38);
    let key = random.bytes(16);
    for any in [0, u32::MAX] {
        for milliseconds in [0, u16::MAX] {
            let mut changed = bodies(&mut random, 3);
            for body in &mut changed {
                (body.station, body.time, body.current, body.kind, body.milliseconds) = (any, any, any as u16, 3, milliseconds);
            }
            assert_eq!(compare(&key, &sealed(&key, &changed)), (0, 0));
            for kind in [1, 2, 4, 5] {
                changed[1].kind = kind;
                assert_eq!(compare(&key, &sealed(&key, &changed)), if milliseconds == 0 { (0, 0) } else { (10, 1) });
            }
        }
    }
}

/// A seal with a previous seal other than the one before: zeros for every record, and the seal of the record two before.
#[test]
fn previous_seals() {
    let (key, journal) = key_and_journal(39, 4);
    for place in 1..4 {
        let mut changed = journal.clone();
        let at = RECORD * place;
        let (seal, _) = expected::seal_of(&key, &[0; SEAL], &changed[at..at + BODY]);
        changed[at + BODY..at + RECORD].copy_from_slice(&seal);
        assert_eq!(compare(&key, &changed), (12, place));
    }
    // a record left out
    let mut short = journal.clone();
    short.drain(RECORD..2 * RECORD);
    assert_eq!(compare(&key, &short), (11, 1));
}
