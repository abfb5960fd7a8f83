//! The independent marks: a state that was marked comes back whole, each mark is the 64 bytes of document 02, and each refusal is at its
//! edge. These tests need no archive.
use reference::digest::{digest, rate_bytes};
use reference::hexadecimal;
use reference::marks::{mark, recall};
use reference::pieces::{absorb, finish, init, squeeze, State};
use reference::random::Random;
use reference::state_bytes;

const NAME: [u8; 16] = *b"after preamble 1";
const OTHER: [u8; 16] = *b"another long one";

/// Bytes of a buffer that no mark has: they are no instance and no phase.
const UNUSED: u8 = 0xA5;

/// The state after a message's bits from `from` to `to`, taken bit by bit.
fn taken(state: State, message: &[u8], from: usize, to: usize) -> State {
    (from..to).fold(state, |state, i| {
        let (number, after) = absorb(state, 8, &[message[i / 8] << (i % 8)], 1);
        assert_eq!(number, 0);
        after
    })
}

/// The closed state, and the digest.
fn closed(state: State) -> (State, Vec<u8>) {
    let mut bytes = vec![0; state_bytes(state.instance)];
    let (number, after) = finish(state, 8, &mut bytes);
    assert_eq!(number, 0);
    (after, bytes)
}

/// A closed state after more blocks, and these.
fn blocks(state: State, count: usize) -> (State, Vec<u8>) {
    let mut bytes = vec![0; count * rate_bytes(state.instance)];
    let (number, after) = squeeze(state, 8, count as u64, &mut bytes);
    assert_eq!(number, 0);
    (after, bytes)
}

/// Three states of each instance: fresh, inside a byte and a block, and closed with three extra blocks.
fn states(instance: u32) -> [State; 3] {
    let (_, fresh) = init(instance);
    let open = taken(fresh, b"A preamble of many bytes", 0, 131);
    let (closed, _) = closed(open);
    [fresh, open, blocks(closed, 3).0]
}

/// The states of all instances.
fn all_states() -> Vec<State> {
    (1..=3).flat_map(states).collect()
}

/// A buffer of marks, all of them in use.
fn buffer(marks: &[([u8; 16], State)]) -> Vec<u8> {
    let mut bytes = vec![UNUSED; 64 * marks.len()];
    for (count, &(name, state)) in marks.iter().enumerate() {
        assert_eq!(mark(state, name, &mut bytes, count), Ok(count + 1));
    }
    bytes
}

/// The number by which `mark` refuses, which leaves the buffer as it is.
fn mark_refused(state: State, buffer: &[u8], count: usize) -> u32 {
    let mut bytes = buffer.to_vec();
    let answer = mark(state, NAME, &mut bytes, count);
    assert_eq!(bytes, buffer);
    answer.unwrap_err()
}

/// The number by which `recall` refuses, which hands back the state that it takes.
fn recall_refused(state: State, buffer: &[u8], count: usize) -> u32 {
    let (number, after) = recall(state, NAME, buffer, count);
    assert_eq!(after, state);
    assert_ne!(number, 0);
    number
}

/// A preamble and three endings: each digest is that of the whole message. The preamble ends at a block's edge, inside a byte, and inside
/// a block.
#[test]
fn a_preamble_and_three_endings() {
    for instance in 1..=3 {
        for bits in [0, 96, 101, 104, 120] {
            let messages: Vec<Vec<u8>> = [17, 18, 19].map(|seed| Random::new(seed).bytes(40)).to_vec();
            let preamble = taken(init(instance).1, &messages[0], 0, bits);
            let mut buffer = vec![UNUSED; 128];
            assert_eq!(mark(preamble, NAME, &mut buffer, 0), Ok(1));
            let mut state = preamble;
            for (ending, length) in messages.iter().zip([bits, bits + 3, 320]) {
                let (number, back) = recall(state, NAME, &buffer, 1);
                assert_eq!((number, back), (0, preamble));
                let (after, bytes) = closed(taken(back, ending, bits, length));
                // the whole message: the preamble's bits are those of the first message
                let mut whole = ending.clone();
                for i in 0..bits {
                    let weight = 128 >> (i % 8);
                    whole[i / 8] = whole[i / 8] & !weight | messages[0][i / 8] & weight;
                }
                let expected = digest(instance, &whole, length);
                assert_eq!((bytes, u64::from(after.runs)), (expected.bytes, expected.runs));
                state = after;
            }
        }
    }
}

/// Every state is marked and comes back from every other, of another phase or instance too. `mark` writes 64 bytes and no others.
#[test]
fn a_marked_state_comes_back() {
    for marked in all_states() {
        for capacity in [1, 2, 5] {
            for count in 0..capacity {
                let mut buffer = Random::new(5).bytes(64 * capacity);
                let before = buffer.clone();
                assert_eq!(mark(marked, NAME, &mut buffer, count), Ok(count + 1));
                assert_eq!(buffer[..64 * count], before[..64 * count]);
                assert_eq!(buffer[64 * (count + 1)..], before[64 * (count + 1)..]);
                for current in all_states() {
                    assert_eq!(recall(current, NAME, &buffer, count + 1), (0, marked));
                    assert_eq!(recall(current, NAME, &buffer, capacity), (0, marked));
                    // a mark past the count is not in use
                    assert_eq!(recall(current, NAME, &buffer, count), (18, current));
                }
            }
        }
    }
}

/// A closed state that was marked gives the same further blocks each time.
#[test]
fn extra_blocks_after_a_return() {
    for instance in 1..=3 {
        let [fresh, _, closed] = states(instance);
        let buffer = buffer(&[(OTHER, fresh), (NAME, closed)]);
        let (later, expected) = blocks(closed, 40);
        for current in [fresh, closed, later] {
            let (number, back) = recall(current, NAME, &buffer, 2);
            assert_eq!((number, back.extra), (0, 3));
            assert_eq!(blocks(back, 40), (later, expected.clone()));
        }
    }
}

/// Of two marks of a name the later one is found, wherever they stand.
#[test]
fn the_latest_mark_of_a_name() {
    let [fresh, open, closed] = states(2);
    let twice = buffer(&[(NAME, fresh), (OTHER, open), (NAME, closed), (OTHER, fresh)]);
    assert_eq!(recall(open, NAME, &twice, 1), (0, fresh));
    assert_eq!(recall(open, NAME, &twice, 2), (0, fresh));
    assert_eq!(recall(open, NAME, &twice, 3), (0, closed));
    assert_eq!(recall(open, NAME, &twice, 4), (0, closed));
    assert_eq!(recall(open, OTHER, &twice, 1), (18, open));
    assert_eq!(recall(closed, OTHER, &twice, 3), (0, open));
    assert_eq!(recall(closed, OTHER, &twice, 4), (0, fresh));
}

/// The latest mark of the name is refused, whatever stands before it or after it.
#[test]
fn a_bad_latest_mark_is_not_skipped() {
    let [fresh, open, closed] = states(1);
    let good = buffer(&[(NAME, fresh), (NAME, open), (OTHER, closed)]);
    for (at, value, number) in [(16, 0, 1), (17, 2, 2), (62, 1, 2), (63, 128, 2)] {
        let mut bad = good.clone();
        bad[64 + at] = value;
        assert_eq!(recall_refused(closed, &bad, 3), number);
        assert_eq!(recall_refused(closed, &bad, 2), number);
        assert_eq!(recall(closed, NAME, &bad, 1), (0, fresh));
        // a bad mark of another name changes nothing, nor does an earlier one of the same name
        assert_eq!(recall(open, OTHER, &bad, 3), (0, closed));
        let mut bad = good.clone();
        bad[at] = value;
        assert_eq!(recall(closed, NAME, &bad, 3), (0, open));
        bad[128 + at] = value;
        assert_eq!(recall(closed, NAME, &bad, 3), (0, open));
    }
}

/// All 16 bytes of a name count, and all 8 bits of each. A name of zeros is a name.
#[test]
fn every_bit_of_a_name() {
    let [fresh, open, closed] = states(3);
    for name in [NAME, [0; 16], [0xFF; 16]] {
        for bit in 0..128 {
            let mut near = name;
            near[bit / 8] ^= 1 << (bit % 8);
            let buffer = buffer(&[(name, fresh), (near, open)]);
            assert_eq!(recall(closed, name, &buffer, 2), (0, fresh));
            assert_eq!(recall(closed, near, &buffer, 2), (0, open));
            assert_eq!(recall(closed, near, &buffer, 1), (18, closed));
        }
    }
}

/// A name is read where a mark has it, and nowhere else: here it is among a state's bits, and across two marks.
#[test]
fn a_name_stands_at_a_marks_start() {
    let (_, fresh) = init(3);
    let mut bits = [0x61; 32];
    bits[2..18].copy_from_slice(&NAME);
    let inside = State { bits, ..fresh };
    assert_eq!(recall(fresh, NAME, &buffer(&[(OTHER, inside); 3]), 3), (18, fresh));
    let mut across = buffer(&[(OTHER, fresh); 2]);
    across[56..72].copy_from_slice(&NAME);
    assert_eq!(recall(fresh, NAME, &across, 2), (18, fresh));
}

/// A mark of each instance, and one of a fresh state, typed by hand.
#[test]
fn marks_in_full() {
    let letters = |count: usize| {
        let mut bits = [0; 32];
        bits[..count].copy_from_slice(&b"abcdefghijklmnopqrstuvwxyz012345"[..count]);
        bits
    };
    let u = State { instance: 1, phase: 1, total: 0xABCDEF, runs: 0x248C02, extra: 0x0F1234, bits: letters(17) };
    let d = State { instance: 2, phase: 1, total: 0x123456, runs: 0x022553, extra: 0x010203, bits: letters(22) };
    let s = State { instance: 3, phase: 0, total: 0xFEDCBA, runs: 0x07F6E5, extra: 0, bits: letters(32) };
    let (_, fresh) = init(1);
    let expected = [
        (
            u,
            "41426364656667686970717273747576 01 01 00ABCDEF 00248C02 000F1234 \
             6162636465666768696A6B6C6D6E6F7071 000000000000000000000000000000 0000",
        ),
        (
            d,
            "41426364656667686970717273747576 02 01 00123456 00022553 00010203 \
             6162636465666768696A6B6C6D6E6F70717273747576 00000000000000000000 0000",
        ),
        (
            s,
            "41426364656667686970717273747576 03 00 00FEDCBA 0007F6E5 00000000 \
             6162636465666768696A6B6C6D6E6F707172737475767778797A303132333435 0000",
        ),
        (
            fresh,
            "41426364656667686970717273747576 01 00 00000000 00000000 00000000 \
             D8DACA44414A099719C80AA3AF065644DB 000000000000000000000000000000 0000",
        ),
    ];
    let name = *b"ABcdefghipqrstuv";
    for (state, text) in expected {
        let text = text.replace(' ', "");
        let mut buffer = [UNUSED; 192];
        assert_eq!(mark(state, name, &mut buffer, 1), Ok(2));
        assert_eq!(hexadecimal::text(&buffer[64..128]), text);
        assert!(buffer[..64].iter().chain(&buffer[128..]).all(|&byte| byte == UNUSED));
        assert_eq!(recall(init(2).1, name, &hexadecimal::bytes(&text), 1), (0, state));
    }
}

/// The state that stands in a mark, read bit by bit.
fn read(mark: &[u8]) -> State {
    let number = |from: usize, to: usize| (8 * from..8 * to).fold(0, |sum, i| 2 * sum + u32::from(mark[i / 8] >> (7 - i % 8) & 1));
    State {
        instance: number(16, 17),
        phase: number(17, 18),
        total: number(18, 22),
        runs: number(22, 26),
        extra: number(26, 30),
        bits: std::array::from_fn(|i| mark[30 + i]),
    }
}

/// The number that a state gives, by a piece of no bits: 1 or 2, or else 0.
fn number_of(state: State) -> u32 {
    match absorb(state, 8, &[], 0) {
        (3, _) => 0,
        (number, _) => number,
    }
}

/// A mark with one byte or two forged gives what its state gives, and 2 where a final byte alone is forged.
#[test]
fn forged_bytes() {
    let [current, ..] = states(2);
    for state in all_states() {
        let good = buffer(&[(NAME, state)]);
        for at in 16..64 {
            for value in 0..=255 {
                let mut forged = good.clone();
                forged[at] = value;
                let expected = match number_of(read(&forged)) {
                    0 if at >= 62 && value != 0 => 2,
                    number => number,
                };
                let back = if expected == 0 { read(&forged) } else { current };
                assert_eq!(recall(current, NAME, &forged, 1), (expected, back));
                // with a final byte forged too
                for last in [62, 63] {
                    let mut forged = forged.clone();
                    forged[last] |= 1;
                    assert_eq!(recall_refused(current, &forged, 1), if expected == 1 { 1 } else { 2 });
                }
            }
        }
    }
}

/// Forged fields of a state, for a mark and for the current state: the number is that of the state.
#[test]
fn forged_fields() {
    for instance in 1..=3 {
        let [fresh, open, closed] = states(instance);
        let mut tail = [0; 32];
        tail[31] = 1;
        let mut unsound = vec![
            State { phase: 2, ..open },
            State { phase: 255, ..closed },
            State { phase: 1, ..open },
            State { phase: 0, ..closed },
            State { total: open.total + 32, ..open },
            State { total: 16_777_216, runs: 16_777_216 / (8 * rate_bytes(instance) as u32), ..open },
            State { total: u32::MAX, runs: u32::MAX / (8 * rate_bytes(instance) as u32), ..open },
            State { runs: open.runs + 1, ..open },
            State { runs: closed.runs - 1, ..closed },
            State { extra: 1, runs: open.runs + 1, ..open },
            State { extra: 4, ..closed },
            State { extra: closed.runs, runs: closed.extra, ..closed },
            State { extra: 1_048_577, runs: closed.runs + 1_048_574, ..closed },
            State { extra: u32::MAX, runs: closed.runs - 4, ..closed },
        ];
        if instance != 3 {
            unsound.push(State { bits: tail, ..fresh });
        }
        let marked = |state: State| {
            let mut bytes = buffer(&[(NAME, fresh), (NAME, fresh)]);
            bytes[80..82].copy_from_slice(&[state.instance as u8, state.phase as u8]);
            bytes[82..86].copy_from_slice(&state.total.to_be_bytes());
            bytes[86..90].copy_from_slice(&state.runs.to_be_bytes());
            bytes[90..94].copy_from_slice(&state.extra.to_be_bytes());
            bytes[94..126].copy_from_slice(&state.bits);
            bytes
        };
        let good = buffer(&[(NAME, fresh), (OTHER, open)]);
        for state in unsound {
            assert_eq!(recall_refused(closed, &marked(state), 2), 2);
            assert_eq!(recall_refused(state, &good, 2), 2);
            assert_eq!(mark_refused(state, &good, 1), 2);
            // a bad instance comes first
            for bad in [0, 4, 255] {
                let state = State { instance: bad, ..state };
                assert_eq!(recall_refused(closed, &marked(state), 2), 1);
                assert_eq!(recall_refused(state, &good, 2), 1);
                assert_eq!(mark_refused(state, &good, 1), 1);
            }
        }
        // a current state's instance and phase are numbers of 32 bits
        for state in [State { instance: 256 + instance, ..open }, State { instance: u32::MAX, ..closed }] {
            assert_eq!(recall_refused(state, &good, 2), 1);
            assert_eq!(mark_refused(state, &good, 1), 1);
        }
        for state in [State { phase: 256, ..open }, State { phase: 257, ..closed }] {
            assert_eq!(recall_refused(state, &good, 2), 2);
            assert_eq!(mark_refused(state, &good, 1), 2);
        }
        // states at the edges of what is sound
        let most = State { extra: 1_048_576, runs: closed.runs + 1_048_573, ..closed };
        let long = State { total: 16_777_215, runs: 16_777_215 / (8 * rate_bytes(instance) as u32), ..open };
        for state in [most, long] {
            assert_eq!(recall(fresh, NAME, &marked(state), 2), (0, state));
            assert_eq!(recall(state, NAME, &buffer(&[(NAME, state)]), 1), (0, state));
        }
    }
}

/// Counts over 1,000. Most become 0 or 1 if they, or 64 times them, are cut to 32 or 64 bits.
const GREAT: [usize; 9] = [1_001, 1 << 26, (1 << 26) + 1, 1 << 32, (1 << 32) + 1, 1 << 58, (1 << 58) + 1, 1 << 63, usize::MAX];

/// Line 17: the buffer's length and the count, for a buffer full of sound marks.
#[test]
fn lengths_and_counts() {
    for state in all_states() {
        for length in [0, 64, 128, 63_936, 64_000] {
            let capacity = length / 64;
            let buffer = buffer(&vec![(NAME, state); capacity]);
            for count in [0, 1, capacity / 2, capacity.saturating_sub(1)].into_iter().filter(|&count| count < capacity) {
                assert_eq!(mark(state, NAME, &mut buffer.clone(), count), Ok(count + 1));
                let expected = if count == 0 { 18 } else { 0 };
                assert_eq!(recall(state, NAME, &buffer, count), (expected, state));
            }
            assert_eq!(mark_refused(state, &buffer, capacity), 19);
            assert_eq!(recall(state, NAME, &buffer, capacity), (if capacity == 0 { 18 } else { 0 }, state));
            for count in [capacity + 1, capacity + 2].into_iter().chain(GREAT) {
                assert_eq!(mark_refused(state, &buffer, count), 17);
                assert_eq!(recall_refused(state, &buffer, count), 17);
            }
        }
        let marks = buffer(&[(NAME, state)]).repeat(1_100);
        for length in [1, 32, 63, 65, 96, 127, 129, 63_968, 63_999, 64_001, 64_063, 64_064, 64_065, 70_400] {
            for count in [0, 1, length / 64, length / 64 + 1, 1_000, 1_001].into_iter().chain(GREAT) {
                assert_eq!(mark_refused(state, &marks[..length], count), 17);
                assert_eq!(recall_refused(state, &marks[..length], count), 17);
            }
        }
    }
}

/// Where two lines hold, the earlier one is answered.
#[test]
fn the_order_of_the_lines() {
    for instance in 1..=3 {
        let [fresh, open, _] = states(instance);
        let unsound = State { phase: 2, ..open };
        let unknown = State { instance: 0, ..unsound };
        let none = buffer(&[(OTHER, fresh)]);
        let mut bad = buffer(&[(NAME, fresh)]);
        bad[16] = 0;
        bad[17] = 2;
        bad[63] = 1;
        let mut short = bad.clone();
        short.pop();
        // 1 and 2, 2 and 17, 17 and 19
        assert_eq!(mark_refused(unknown, &none, 0), 1);
        assert_eq!(mark_refused(unknown, &short, 0), 1);
        assert_eq!(mark_refused(unknown, &none, 1), 1);
        assert_eq!(mark_refused(unsound, &short, 0), 2);
        assert_eq!(mark_refused(unsound, &none, 2), 2);
        assert_eq!(mark_refused(unsound, &none, 1), 2);
        assert_eq!(mark_refused(unsound, &[], 0), 2);
        assert_eq!(mark_refused(open, &short, 0), 17);
        assert_eq!(mark_refused(open, &none, 2), 17);
        assert_eq!(mark_refused(open, &[0; 64_064], 1_001), 17);
        assert_eq!(mark_refused(open, &[], 1), 17);
        // 1 and 2, 2 and 17, 17 and 18, 18 and the mark's, the mark's 1 and 2
        assert_eq!(recall_refused(unknown, &none, 0), 1);
        assert_eq!(recall_refused(unknown, &short, 0), 1);
        assert_eq!(recall_refused(unknown, &bad, 1), 1);
        assert_eq!(recall_refused(unsound, &short, 0), 2);
        assert_eq!(recall_refused(unsound, &bad, 2), 2);
        assert_eq!(recall_refused(unsound, &none, 1), 2);
        assert_eq!(recall_refused(unsound, &bad, 1), 2);
        assert_eq!(recall_refused(open, &short, 0), 17);
        assert_eq!(recall_refused(open, &none, 2), 17);
        assert_eq!(recall_refused(open, &bad, 2), 17);
        assert_eq!(recall_refused(open, &[], 1), 17);
        assert_eq!(recall_refused(open, &none, 1), 18);
        assert_eq!(recall_refused(open, &bad, 0), 18);
        assert_eq!(recall_refused(open, &[], 0), 18);
        assert_eq!(recall_refused(open, &bad, 1), 1);
        bad[16] = instance as u8;
        assert_eq!(recall_refused(open, &bad, 1), 2);
        bad[17] = 0;
        assert_eq!(recall_refused(open, &bad, 1), 2);
        bad[63] = 0;
        assert_eq!(recall(open, NAME, &bad, 1), (0, fresh));
    }
}
