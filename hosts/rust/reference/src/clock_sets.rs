//! Journals with clock sets and bodies that set a clock (document 02, 2.4), each with the answer that the rule gives. The answers are written
//! here and come from no implementation; the tests of every one compare with them.
use crate::journal::{Body, BODY, CLOCK_SET, KEY, RECORD};
use crate::journals::sealed;

/// The key of the journals.
pub const CLOCK_KEY: &[u8; KEY] = b"a key of 16 byte";

/// A journal under that key.
pub struct Case {
    pub what: String,
    pub journal: Vec<u8>,
    /// Nothing where the journal is accepted; else the number and the place of the refusal.
    pub answer: Result<(), (u32, usize)>,
}

/// The journal of bodies, sealed in turn, and the number and the place where it is refused.
fn case(bodies: &[Body], refused: Option<(u32, usize)>) -> Case {
    Case { what: format!("{bodies:?}"), journal: sealed(CLOCK_KEY, bodies), answer: refused.map_or(Ok(()), Err) }
}

/// Bodies of these kinds and times; they follow in station and sequence.
pub fn bodies_at(times: &[(u8, u32)]) -> Vec<Body> {
    let body = |(sequence, &(kind, time))| Body {
        station: 12,
        sequence,
        time,
        kind,
        position: 1,
        current: 8_300,
        milliseconds: 0,
        spare: [0; 5],
    };
    (1..).zip(times).map(body).collect()
}

/// Four clock sets that follow.
fn four() -> Vec<Body> {
    bodies_at(&[(5, 1_000), (5, 400), (5, 700), (5, 700)])
}

/// All of the journals.
pub fn journals() -> Vec<Case> {
    let times = TIMES.iter().map(|&(times, refused)| case(&bodies_at(times), refused.map(|place| (11, place))));
    times.chain(pairs()).chain(kinds()).chain(first_records()).chain(fields()).chain(damaged()).collect()
}

// ---- times

const MAX: u32 = u32::MAX;

/// The records of a journal by kind and time, and the place that line 11 refuses; none where the journal is accepted.
type Times = (&'static [(u8, u32)], Option<usize>);

const TIMES: &[Times] = &[
    // from 1,000 back to 400: at 400 every kind follows, at 399 another clock set alone
    (&[(1, 1_000), (5, 400), (1, 400)], None),
    (&[(1, 1_000), (5, 400), (2, 400)], None),
    (&[(1, 1_000), (5, 400), (3, 400)], None),
    (&[(1, 1_000), (5, 400), (4, 400)], None),
    (&[(1, 1_000), (5, 400), (5, 400)], None),
    (&[(1, 1_000), (5, 400), (1, 399)], Some(2)),
    (&[(1, 1_000), (5, 400), (2, 399)], Some(2)),
    (&[(1, 1_000), (5, 400), (3, 399)], Some(2)),
    (&[(1, 1_000), (5, 400), (4, 399)], Some(2)),
    (&[(1, 1_000), (5, 400), (5, 399)], None),
    // a clock is set to any time: below, equal, above, and from either end of the range to the other
    (&[(1, 1_000), (5, 999)], None),
    (&[(1, 1_000), (5, 1_000)], None),
    (&[(1, 1_000), (5, 1_001)], None),
    (&[(1, 1_000), (5, 0)], None),
    (&[(1, 1_000), (5, MAX)], None),
    (&[(1, MAX), (5, 0)], None),
    (&[(1, MAX), (5, MAX - 1)], None),
    (&[(1, MAX), (5, MAX)], None),
    (&[(1, 0), (5, 0)], None),
    (&[(1, 0), (5, MAX)], None),
    (&[(1, MAX), (5, 0), (1, 0), (1, MAX)], None),
    (&[(1, 0), (5, MAX), (1, MAX)], None),
    (&[(1, 0), (5, MAX), (1, MAX - 1)], Some(2)),
    (&[(1, 0), (5, MAX), (1, 0)], Some(2)),
    // clock sets one after another, down, up and both; what comes after them is compared with the last of them
    (&[(1, 1_000), (5, 900), (5, 800), (5, 700), (1, 700)], None),
    (&[(1, 1_000), (5, 900), (5, 800), (5, 700), (1, 699)], Some(4)),
    (&[(1, 1_000), (5, 1_100), (5, 1_200), (1, 1_200)], None),
    (&[(1, 1_000), (5, 1_100), (5, 1_200), (1, 1_199)], Some(3)),
    (&[(1, 1_000), (5, 400), (5, 2_000), (1, 1_999)], Some(3)),
    (&[(1, 1_000), (5, 2_000), (5, 400), (1, 400)], None),
    (&[(1, 1_000), (5, 2_000), (5, 400), (1, 399)], Some(3)),
    (&[(5, 3), (5, 2), (5, 1), (5, 0), (5, MAX), (5, MAX), (5, 0)], None),
    // a clock set that is the first record, and what comes after it
    (&[(5, 0)], None),
    (&[(5, 1_000)], None),
    (&[(5, MAX)], None),
    (&[(5, 0), (1, 0)], None),
    (&[(5, 1_000), (1, 1_000)], None),
    (&[(5, 1_000), (1, 999)], Some(1)),
    (&[(5, 1_000), (5, 999)], None),
    (&[(5, MAX), (1, MAX)], None),
    (&[(5, MAX), (1, MAX - 1)], Some(1)),
    // a time is compared with the previous record's: not with the largest time so far, the least or the first, and not with the last
    // one that was set or that was not
    (&[(1, 1_000), (5, 400), (1, 401), (1, 999)], None),
    (&[(1, 1_000), (2, 2_000), (5, 1_500), (4, 1_500), (3, 1_999)], None),
    (&[(1, 1_000), (5, 400), (1, 700), (1, 699)], Some(3)),
    (&[(1, 1_000), (5, 400), (1, 700), (1, 400)], Some(3)),
    (&[(1, 1_000), (5, 5_000), (1, 4_999)], Some(2)),
    (&[(1, 1_000), (5, 5_000), (1, 1_000)], Some(2)),
    (&[(1, 1_000), (5, 400), (1, 500), (5, 100), (1, 100), (1, 450)], None),
    (&[(1, 1_000), (5, 400), (1, 500), (5, 100), (1, 99)], Some(4)),
    (&[(1, 1_000), (5, 400), (1, 500), (1, 450), (5, 100)], Some(3)),
    // only a clock set falls: another kind does not, before a clock set or after it
    (&[(1, 1_000), (1, 999)], Some(1)),
    (&[(1, 1_000), (2, 999)], Some(1)),
    (&[(1, 1_000), (3, 999)], Some(1)),
    (&[(1, 1_000), (4, 999)], Some(1)),
    (&[(1, 1_000), (2, 1_000), (3, 1_000), (4, 1_000), (1, 1_001)], None),
    (&[(1, 1_000), (1, 400), (5, 400)], Some(1)),
    (&[(1, 1_000), (5, 1_000), (1, 400)], Some(2)),
    (&[(1, 1_000), (5, 1_000), (1, 1_000), (4, 400)], Some(3)),
    (&[(1, MAX), (4, 0)], Some(1)),
];

/// Of two records the second is refused exactly where its time falls and it sets no clock. The times differ by one, in each of their four
/// bytes, and by the whole range.
fn pairs() -> Vec<Case> {
    let falls = [(400, 399), (0x8000_0000, 0x7FFF_FFFF), (0x8070_0000, 0x806F_FFFF), (0x8070_6000, 0x8070_5FFF), (MAX, 0)];
    let mut cases = Vec::new();
    for (first, second) in (1..=5).flat_map(|first| (1..=5).map(move |second| (first, second))) {
        for (high, low) in falls {
            let fallen = (second != CLOCK_SET).then_some((11, 1));
            cases.push(case(&bodies_at(&[(first, high), (second, low)]), fallen));
            cases.push(case(&bodies_at(&[(first, low), (second, high)]), None));
            cases.push(case(&bodies_at(&[(first, low), (second, low)]), None));
        }
    }
    cases
}

/// All 256 kinds, in a first record and in one at an earlier time.
fn kinds() -> Vec<Case> {
    let first = |kind| case(&bodies_at(&[(kind, 1_000)]), (!(1..=5).contains(&kind)).then_some((10, 0)));
    let second = |kind| match kind {
        1..=4 => Some((11, 1)),
        5 => None,
        _ => Some((10, 1)),
    };
    (0..=255).flat_map(|kind| [first(kind), case(&bodies_at(&[(1, 1_000), (kind, 400)]), second(kind))]).collect()
}

// ---- the other fields

/// A first record may set the clock, to any time; its sequence is 1 all the same, and all others have its station.
fn first_records() -> Vec<Case> {
    let mut cases = Vec::new();
    for sequence in [0, 2, MAX] {
        for time in [0, 1_000, MAX] {
            cases.push(case(&[Body { sequence, ..bodies_at(&[(5, time)])[0] }], Some((11, 0))));
        }
    }
    for station in [0, 11, 13, MAX] {
        let mut changed = four();
        changed[0].station = station;
        cases.push(case(&changed[..1], None));
        cases.push(case(&changed, Some((11, 1))));
    }
    cases
}

/// A change of one field of a clock set that is not the first record, and the line that refuses it; none where it is accepted.
type Change = (fn(&mut Body), Option<u32>);

/// Kinds that there are not, positions, milliseconds in either byte, each spare byte, stations, sequences (the previous record's,
/// one less than that, one more than the lawful one, 0 and the last) and currents.
const CHANGES: &[Change] = &[
    (|body| body.kind = 0, Some(10)),
    (|body| body.kind = 6, Some(10)),
    (|body| body.kind = 255, Some(10)),
    (|body| body.kind ^= 0x80, Some(10)),
    (|body| body.position = 0, Some(10)),
    (|body| body.position = 1, None),
    (|body| body.position = 2, None),
    (|body| body.position = 3, None),
    (|body| body.position = 4, None),
    (|body| body.position = 5, None),
    (|body| body.position = 6, None),
    (|body| body.position = 7, Some(10)),
    (|body| body.position = 255, Some(10)),
    (|body| body.milliseconds = 1, Some(10)),
    (|body| body.milliseconds = 256, Some(10)),
    (|body| body.milliseconds = u16::MAX, Some(10)),
    (|body| body.spare[0] = 1, Some(10)),
    (|body| body.spare[1] = 1, Some(10)),
    (|body| body.spare[2] = 1, Some(10)),
    (|body| body.spare[3] = 1, Some(10)),
    (|body| body.spare[4] = 1, Some(10)),
    (|body| body.station += 1, Some(11)),
    (|body| body.station = 0, Some(11)),
    (|body| body.station ^= 0x8000_0000, Some(11)),
    (|body| body.sequence -= 1, Some(11)),
    (|body| body.sequence -= 2, Some(11)),
    (|body| body.sequence += 1, Some(11)),
    (|body| body.sequence = 0, Some(11)),
    (|body| body.sequence = u32::MAX, Some(11)),
    (|body| body.current = 0, None),
    (|body| body.current = u16::MAX, None),
];

/// A clock set with one field changed: as the last record and with records after it. In a first record the layout is the same.
fn fields() -> Vec<Case> {
    let mut cases = Vec::new();
    for (change, line) in CHANGES {
        for place in if *line == Some(11) { 1..4 } else { 0..4 } {
            let mut changed = four();
            change(&mut changed[place]);
            let refused = line.map(|line| (line, place));
            cases.extend([case(&changed[..=place], refused), case(&changed, refused)]);
        }
    }
    cases
}

/// Clock sets with one field changed or with any station, sequence and time, and all 256 kinds; and the answer of sealing, which reads line
/// 10 alone.
pub fn sealings() -> Vec<(Body, Result<(), u32>)> {
    let changed = CHANGES.iter().map(|(change, line)| {
        let mut body = four()[2];
        change(&mut body);
        (body, if *line == Some(10) { Err(10) } else { Ok(()) })
    });
    let ends = [0, 1, 1 << 31, MAX];
    let any = ends.map(|station| ends.map(|sequence| ends.map(|time| Body { station, sequence, time, ..four()[0] })));
    let kinds = (0..=255).map(|kind| (Body { kind, ..four()[0] }, if (1..=5).contains(&kind) { Ok(()) } else { Err(10) }));
    changed.chain(any.into_iter().flatten().flatten().map(|body| (body, Ok(())))).chain(kinds).collect()
}

// ---- seals

/// Bytes that only the seal sees: time and current, and the seal's own. And in one record 10 before 11, and 11 before 12.
fn damaged() -> Vec<Case> {
    let with = |bodies: &[Body], place: usize, at: usize, number| {
        let mut case = case(bodies, Some((number, place)));
        case.what += &format!(", and byte {at} of record {place} is another");
        case.journal[RECORD * place + at] ^= 1;
        case
    };
    let mut other_station = four();
    other_station[2].station += 1;
    let mut both = other_station.clone();
    both[2].milliseconds = 1;
    let seals = (0..4).flat_map(|place| [8, 11, 14, 15].into_iter().chain(BODY..RECORD).map(move |at| (place, at)));
    let mut cases: Vec<Case> = seals.map(|(place, at)| with(&four(), place, at, 12)).collect();
    cases.extend([with(&other_station, 2, BODY, 11), with(&both, 2, BODY, 10)]);
    cases
}
