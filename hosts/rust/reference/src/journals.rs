//! Test journals: bodies that follow, sealed in turn, and damage to them. They are made under any key: under a blank one every seal is
//! right, and line 16 alone refuses the journal. And keys that are nearly blank.
use crate::journal::{seal_of, Body, BLANK_KEY, BODY, CLOCK_SET, KEY, RECORD, SEAL};
use crate::random::Random;

/// Keys that a wrong test takes for blank: one byte is not zero, each of the sixteen in turn, with its lowest bit and with its highest; and
/// bytes whose sum modulo 256 is 0.
pub fn nearly_blank_keys() -> Vec<[u8; KEY]> {
    let with = |at, byte| {
        let mut key = BLANK_KEY;
        key[at] = byte;
        key
    };
    (0..KEY).flat_map(|at| [with(at, 1), with(at, 0x80)]).chain([[0x80; KEY]]).collect()
}

/// Bodies that keep the layout, each of which follows the one before. Clocks are set back and forward.
pub fn bodies(random: &mut Random, records: usize) -> Vec<Body> {
    bodies_of_kinds(random, records, 5)
}

/// Bodies as the rules before request 2.4 allow: no clock set.
pub fn earlier_bodies(random: &mut Random, records: usize) -> Vec<Body> {
    bodies_of_kinds(random, records, 4)
}

/// Bodies of the kinds 1 to `kinds`. A clock set draws one more word, its time.
fn bodies_of_kinds(random: &mut Random, records: usize, kinds: u8) -> Vec<Body> {
    let station = random.word() as u32;
    let mut time = random.word() as u32 % 1_000_000_000;
    (1..=records as u32)
        .map(|sequence| {
            // equal times follow too
            time += random.word() as u32 % 4 * 1_000;
            let kind = 1 + random.word() as u8 % kinds;
            if kind == CLOCK_SET {
                time = random.word() as u32 % 1_000_000_000;
            }
            Body {
                station,
                sequence,
                time,
                kind,
                position: 1 + random.word() as u8 % 6,
                current: random.word() as u16,
                milliseconds: if kind == 3 { random.word() as u16 } else { 0 },
                spare: [0; 5],
            }
        })
        .collect()
}

/// The journal of bodies, sealed in turn, whatever they hold.
pub fn sealed(key: &[u8], bodies: &[Body]) -> Vec<u8> {
    let mut journal: Vec<u8> = bodies.iter().flat_map(|body| [&body.bytes()[..], &[0; SEAL]].concat()).collect();
    reseal(key, &mut journal, 0);
    journal
}

/// Seals the records from an index on again, each with the seal that now stands before it.
pub fn reseal(key: &[u8], journal: &mut [u8], from: usize) {
    for record in from..journal.len() / RECORD {
        let at = RECORD * record;
        let previous = if record == 0 { vec![0; SEAL] } else { journal[at - SEAL..at].to_vec() };
        let (seal, _) = seal_of(key, &previous, &journal[at..at + BODY]);
        journal[at + BODY..at + RECORD].copy_from_slice(&seal);
    }
}

/// Keys and journals that the rules before request 2.4 accept: no clock is set, and seeds and lengths are those of the tests.
pub fn earlier_journals() -> Vec<(Vec<u8>, Vec<u8>)> {
    let made = |key: &[u8], random: &mut Random, records| (key.to_vec(), sealed(key, &earlier_bodies(random, records)));
    let mut journals = Vec::new();
    // the key is drawn before the bodies
    let as_long_as_the_seed = (0..=12).chain([50, 256, 1_600]).map(|seed| (seed, seed as usize));
    let others = [(6, 9), (9, 1_600), (30, 3), (31, 5), (33, 4), (35, 6), (36, 3), (37, 4), (38, 3), (39, 4)];
    for (seed, records) in as_long_as_the_seed.chain(others) {
        let mut random = Random::new(seed);
        let key = random.bytes(16);
        journals.push(made(&key, &mut random, records));
    }
    for (seed, records) in [(0, 0), (1, 1), (2, 2), (3, 3), (6, 3), (7, 1), (17, 17), (100, 100)] {
        journals.push(made(&Random::new(5).bytes(16), &mut Random::new(seed), records));
    }
    let as_long_as_the_seed = [1, 2, 3, 10, 64].map(|seed| (seed, seed as usize));
    let others =
        [(20, 200), (21, 1), (22, 3), (40, 1_600), (41, 3), (42, 4), (43, 4), (44, 4), (45, 4), (46, 5), (47, 5), (48, 2), (50, 3)];
    for (seed, records) in as_long_as_the_seed.into_iter().chain(others) {
        journals.push(made(b"a key of 16 byte", &mut Random::new(seed), records));
    }
    for key in nearly_blank_keys() {
        for (seed, records) in [(6, 3), (23, 1), (49, 2), (51, 3), (60, 3)] {
            journals.push(made(&key, &mut Random::new(seed), records));
        }
    }
    journals
}
