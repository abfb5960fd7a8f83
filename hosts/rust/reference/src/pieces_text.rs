//! The text that crates/pieces must write, from this implementation of pieces, extra blocks and digests.
use crate::digest::{digest as whole_digest, rate_bytes};
use crate::hexadecimal;
use crate::pieces::{absorb, finish, init, squeeze, State};
use crate::state_bytes;
use std::fmt::Write;

/// The whole text.
pub fn text() -> String {
    let mut text = String::new();
    for instance in [0, 1, 2, 3, 4, 257] {
        let (number, state) = init(instance);
        writeln!(text, "init {instance}: {number}, {}", fields(state)).unwrap();
    }
    for instance in 1..=3 {
        for bits in [40, 67] {
            cuts(&mut text, instance, b"lamp log\xA5", bits);
        }
    }
    for instance in 1..=3 {
        limit(&mut text, instance);
    }
    for instance in 1..=3 {
        limit_of_extra(&mut text, instance);
    }
    forged_states(&mut text);
    text
}

fn name(instance: u32) -> char {
    ['U', 'D', 'S'][instance as usize - 1]
}

/// The fields of a state.
fn fields(state: State) -> String {
    let State { instance, phase, total, runs, extra, bits } = state;
    let bits = hexadecimal::text(&bits);
    format!("instance {instance}, phase {phase}, total {total}, runs {runs}, extra {extra}, bits {bits}")
}

/// The bits of a message from bit `from` on; what stands after them is 0.
fn part(message: &[u8], from: usize, count: usize) -> Vec<u8> {
    let mut bytes = vec![0; 9];
    for i in 0..count {
        let bit = message[(from + i) / 8] >> (7 - (from + i) % 8) & 1;
        bytes[i / 8] |= bit << (7 - i % 8);
    }
    bytes
}

/// The answers, the closed state and the digest of a message that is cut in two, with refused calls among its own.
fn in_two(instance: u32, message: &[u8], bits: usize, cut: usize) -> (String, State, Vec<u8>) {
    let (head, tail) = (part(message, 0, cut), part(message, cut, bits - cut));
    let mut digest = vec![0; state_bytes(instance)];
    let (by_1, _) = init(0);
    let (fresh, state) = init(instance);
    let (first, state) = absorb(state, 1, &head, cut as u64);
    let (by_4, state) = finish(state, 2, &mut digest);
    let (by_6, state) = absorb(state, 1, &tail, 73);
    let (no_bits, state) = absorb(state, 1, &tail, 0);
    let (by_5, state) = finish(state, 8, &mut [0; 3]);
    let (early, state) = squeeze(state, 8, 1, &mut vec![0; rate_bytes(instance)]);
    let (second, state) = absorb(state, 1, &tail, (bits - cut) as u64);
    let (closed, state) = finish(state, 1, &mut digest);
    let (by_3, state) = absorb(state, 8, &head, cut as u64);
    let (late, state) = finish(state, 8, &mut digest);
    let answers = [by_1, fresh, first, by_4, by_6, no_bits, by_5, early, second, closed, by_3, late];
    (answers.map(|answer| answer.to_string()).concat(), state, digest)
}

/// The closed state and the digest of a message that is taken bit by bit.
fn bit_by_bit(instance: u32, message: &[u8], bits: usize) -> (State, Vec<u8>) {
    let mut digest = vec![0; state_bytes(instance)];
    let (_, fresh) = init(instance);
    let state = (0..bits).fold(fresh, |state, i| absorb(state, 1, &part(message, i, 1), 1).1);
    let (_, closed) = finish(state, 1, &mut digest);
    (closed, digest)
}

/// A message's digest, its closed state, and its cuts, all of which agree.
fn cuts(text: &mut String, instance: u32, message: &[u8], bits: usize) {
    let whole = whole_digest(instance, message, bits);
    let (answers, state, digest) = in_two(instance, message, bits, 0);
    assert_eq!(bit_by_bit(instance, message, bits), (state, whole.bytes.clone()));
    for cut in 0..=bits {
        assert_eq!(in_two(instance, message, bits, cut), (answers.clone(), state, whole.bytes.clone()));
    }
    writeln!(text, "{}-QUARK, {bits} bits", name(instance)).unwrap();
    writeln!(text, "whole digest: 0, {}", hexadecimal::text(&whole.bytes)).unwrap();
    writeln!(text, "{}", fields(state)).unwrap();
    writeln!(text, "digest {}", hexadecimal::text(&digest)).unwrap();
    writeln!(text, "cut in two: answers {answers}, {0} of {0} cuts agree", bits + 1).unwrap();
    writeln!(text, "bit by bit: agrees").unwrap();
    blocks(text, state);
}

/// A squeeze with a buffer of `length` bytes: the state after it, and the bytes.
fn squeezed(text: &mut String, state: State, width: u32, count: u64, length: usize) -> (State, Vec<u8>) {
    let mut bytes = vec![0; length];
    let (number, next) = squeeze(state, width, count, &mut bytes);
    let call = format!("squeeze of {count} blocks into {length} bytes at width {width}");
    writeln!(text, "{call}: {number}, {}", after(state, next)).unwrap();
    (next, bytes)
}

/// One block of a closed state, and 1,024, which are the same in two calls. 1,025 are too many for one.
fn blocks(text: &mut String, state: State) {
    let size = rate_bytes(state.instance);
    let (one, head) = squeezed(text, state, 1, 1, size);
    let (all, bytes) = squeezed(text, state, 8, 1_024, 1_024 * size);
    let whole = whole_digest(state.instance, &bytes, 8 * bytes.len());
    writeln!(text, "digest of these blocks: 0, {}", hexadecimal::text(&whole.bytes)).unwrap();
    let mut tail = vec![0; 1_023 * size];
    assert_eq!(squeeze(one, 1, 1_023, &mut tail), (0, all));
    assert_eq!([head, tail].concat(), bytes);
    writeln!(text, "1 block and then 1023: agrees").unwrap();
    squeezed(text, state, 8, 1_025, 1_025 * size);
}

/// States whose bits are sound: as many bytes as the instance has, and zeros after them.
fn bits(instance: u32) -> [u8; 32] {
    match instance {
        1 => *b"A U-QUARK state..\0\0\0\0\0\0\0\0\0\0\0\0\0\0\0",
        2 => *b"A state for D-QUARK...\0\0\0\0\0\0\0\0\0\0",
        _ => *b"A state of thirty-two bytes of S",
    }
}

/// The state after a call, or that it is the one before.
fn after(before: State, after: State) -> String {
    if before == after {
        "kept".to_string()
    } else {
        fields(after)
    }
}

/// 60 bits to the greatest total, and one more.
fn limit(text: &mut String, instance: u32) {
    let total = 16_777_155;
    let runs = total / [8, 16, 32][instance as usize - 1];
    let mut state = State { instance, phase: 0, total, runs, extra: 0, bits: bits(instance) };
    writeln!(text, "{}-QUARK, 60 bits to the limit", name(instance)).unwrap();
    writeln!(text, "{}", fields(state)).unwrap();
    for count in [61, 60, 1, 0] {
        let (number, next) = absorb(state, 8, b"the limit", count);
        writeln!(text, "piece of {count} bits: {number}, {}", after(state, next)).unwrap();
        state = next;
    }
    let mut digest = vec![0; state_bytes(instance)];
    let (number, next) = finish(state, 8, &mut digest);
    writeln!(text, "finish: {number}, {}", after(state, next)).unwrap();
    writeln!(text, "digest {}", hexadecimal::text(&digest)).unwrap();
}

/// One block to the greatest number of extra blocks, at the greatest total, and one more. Lines 4, 5 and 14 come before line 15.
fn limit_of_extra(text: &mut String, instance: u32) {
    let (total, extra) = (16_777_215, 1_048_575);
    let runs = [total / 8 + 17, total / 16 + 11, total / 32 + 8][instance as usize - 1] + extra;
    let short = State { instance, phase: 1, total, runs, extra, bits: bits(instance) };
    let size = rate_bytes(instance);
    writeln!(text, "{}-QUARK, 1 block to the limit", name(instance)).unwrap();
    writeln!(text, "{}", fields(short)).unwrap();
    squeezed(text, short, 8, 2, 2 * size);
    let (full, _) = squeezed(text, short, 8, 1, size);
    squeezed(text, full, 8, 1, size);
    squeezed(text, full, 2, 0, 1);
    squeezed(text, full, 8, 0, 1);
    squeezed(text, full, 8, 0, 0);
    squeezed(text, full, 8, 1_024, 1_024 * size - 1);
    squeezed(text, full, 8, 1_024, 1_024 * size + 1);
    squeezed(text, full, 8, 1_025, 1_025 * size);
    // these come to one block where they, or their bytes, are cut to 32 or 64 bits
    for count in [(1 << 32) + 1, (1 << 62) + 1, (1 << 63) + 1] {
        squeezed(text, full, 8, count, size);
    }
}

/// The answer of a call that is lent `length` bytes, and whether state and bytes are as handed in.
fn answer(state: State, length: usize, call: impl Fn(State, &mut [u8]) -> (u32, State)) -> String {
    let mut buffer = vec![0xA5; length];
    let (number, after) = call(state, &mut buffer);
    let kept = after == state && buffer.iter().all(|&byte| byte == 0xA5);
    format!("{number} {}", if kept { "kept" } else { "changed" })
}

/// One row of the table: a piece of `count` bits of nine bytes, a finish with a buffer of `length` bytes, and a squeeze of one block.
fn row(text: &mut String, name: &str, state: State, width: u32, count: u64, length: usize) {
    let size = rate_bytes(state.instance.clamp(1, 3));
    let piece = answer(state, 0, |state, _| absorb(state, width, b"any bytes", count));
    let closing = answer(state, length, |state, buffer| finish(state, width, buffer));
    let block = answer(state, size, |state, buffer| squeeze(state, width, 1, buffer));
    writeln!(text, "{name}: piece {piece}, finish {closing}, squeeze {block}").unwrap();
}

/// The table of forged states.
fn forged_states(text: &mut String) {
    let u = State { instance: 1, phase: 0, total: 20, runs: 2, extra: 0, bits: bits(1) };
    let d = State { instance: 2, phase: 0, total: 100, runs: 6, extra: 0, bits: bits(2) };
    let s = State { instance: 3, phase: 0, total: 100, runs: 3, extra: 0, bits: bits(3) };
    let u_closed = State { phase: 1, runs: 19, ..u };

    row(text, "U, absorbing", u, 8, 8, 17);
    row(text, "D, absorbing", d, 8, 8, 22);
    row(text, "S, absorbing", s, 16, 8, 32);
    row(text, "U, closed", u_closed, 8, 8, 17);
    row(text, "D, closed", State { phase: 1, runs: 17, ..d }, 8, 8, 22);
    row(text, "S, closed", State { phase: 1, runs: 11, ..s }, 16, 8, 32);

    let zeros = State { instance: 0, phase: 0, total: 0, runs: 0, extra: 0, bits: [0; 32] };
    row(text, "all zeros", zeros, 8, 8, 17);
    row(text, "instance 0", State { instance: 0, ..u }, 8, 8, 17);
    row(text, "instance 4", State { instance: 4, ..u }, 8, 8, 17);
    row(text, "instance 257", State { instance: 257, ..u }, 8, 8, 17);
    row(text, "instance 257, phase 2, width 2", State { instance: 257, phase: 2, ..u }, 2, 8, 17);

    row(text, "U, phase 2", State { phase: 2, ..u }, 8, 8, 17);
    row(text, "U, phase 2, runs of a closed state", State { phase: 2, runs: 19, ..u }, 8, 8, 17);
    row(text, "U, phase 256", State { phase: 256, ..u }, 8, 8, 17);
    row(text, "U, total 16777216", State { total: 16777216, runs: 2097152, ..u }, 8, 8, 17);
    row(text, "U, closed, total 16777216", State { phase: 1, total: 16777216, runs: 2097169, ..u }, 8, 8, 17);
    row(text, "U, total 4294967295", State { total: 4294967295, runs: 536870911, ..u }, 8, 8, 17);

    row(text, "U, a run too few", State { runs: 1, ..u }, 8, 8, 17);
    row(text, "U, a run too many", State { runs: 3, ..u }, 8, 8, 17);
    row(text, "U, runs of a closed state", State { runs: 19, ..u }, 8, 8, 17);
    row(text, "U, closed, a run too few", State { runs: 18, ..u_closed }, 8, 8, 17);
    row(text, "U, closed, a run too many", State { runs: 20, ..u_closed }, 8, 8, 17);
    row(text, "U, closed, runs of an absorbing state", State { runs: 2, ..u_closed }, 8, 8, 17);
    row(text, "D, runs of U", State { runs: 12, ..d }, 8, 8, 22);
    row(text, "S, runs of D", State { runs: 6, ..s }, 16, 8, 32);

    for (name, instance, at) in [("U", 1, 16), ("U", 1, 17), ("U", 1, 31), ("D", 2, 21), ("D", 2, 22), ("S", 3, 31)] {
        let mut bits = [0; 32];
        bits[at] = 128;
        let state = State { instance, phase: 0, total: 0, runs: 0, extra: 0, bits };
        row(text, &format!("{name}, byte {at} not zero"), state, 8, 8, state_bytes(instance));
    }

    let none = State { total: 0, runs: 0, ..u };
    row(text, "U, closed, width 2, 73 bits, 16 bytes", State { phase: 1, runs: 17, ..none }, 2, 73, 16);
    row(text, "U, width 2", none, 2, 8, 17);
    row(text, "U, width 16, 73 bits, 16 bytes", none, 16, 73, 16);
    row(text, "U, 73 bits, 16 bytes", none, 8, 73, 16);
    row(text, "U, 18446744073709551615 bits, 18 bytes", none, 8, u64::MAX, 18);
    row(text, "U, no bits, no bytes", none, 8, 0, 0);

    let near = State { total: 16777208, runs: 2097151, ..u };
    row(text, "U, 7 bits to the limit", near, 8, 7, 17);
    row(text, "U, one bit past the limit", near, 8, 8, 17);
    row(text, "U, past the limit, 73 bits", near, 8, 73, 17);
    row(text, "U, past the limit, width 2", near, 2, 8, 17);
    row(text, "U, no bits near the limit", near, 1, 0, 17);

    // the last state's runs are those of its blocks when the sum is cut to 32 bits
    row(text, "U, extra 1", State { extra: 1, ..u }, 8, 8, 17);
    row(text, "U, extra 1 with its run", State { runs: 3, extra: 1, ..u }, 8, 8, 17);
    row(text, "U, closed, extra 1", State { extra: 1, ..u_closed }, 8, 8, 17);
    row(text, "U, closed, extra 1 with its run", State { runs: 20, extra: 1, ..u_closed }, 8, 8, 17);
    row(text, "U, closed, extra 1048576 with its runs", State { runs: 1048595, extra: 1048576, ..u_closed }, 8, 8, 17);
    row(text, "U, closed, extra 1048577 with its runs", State { runs: 1048596, extra: 1048577, ..u_closed }, 8, 8, 17);
    row(text, "U, closed, extra 4294967295", State { extra: 4294967295, ..u_closed }, 8, 8, 17);
    row(text, "U, closed, extra 4294967295, runs 18", State { runs: 18, extra: 4294967295, ..u_closed }, 8, 8, 17);
}
