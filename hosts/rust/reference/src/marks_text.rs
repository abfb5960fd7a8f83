//! The text that crates/marks must write, from this implementation of marks, pieces, extra blocks and digests.
use crate::digest::{digest, rate_bytes};
use crate::hexadecimal;
use crate::marks::{mark, recall};
use crate::pieces::{absorb, finish, init, squeeze, State};
use crate::state_bytes;
use std::fmt::Write;

/// The name of every mark.
const NAME: [u8; 16] = *b"after a preamble";

/// The whole text.
pub fn text() -> String {
    let mut text = String::new();
    for instance in 1..=3 {
        writeln!(text, "instance {instance}").unwrap();
        preamble(&mut text, instance);
    }
    lengths_and_counts(&mut text);
    forged_states(&mut text);
    forged_marks(&mut text);
    text
}

/// Calls `recall` and writes its answer; the state that it hands back.
fn recalled(text: &mut String, state: State, buffer: &[u8], count: usize) -> State {
    let (number, after) = recall(state, NAME, buffer, count);
    let State { instance, phase, total, runs, extra, bits } = after;
    write!(text, "recall among {count}: {number}, {}, ", hexadecimal::text(&bits)).unwrap();
    writeln!(text, "instance {instance}, phase {phase}, total {total}, runs {runs}, extra {extra}").unwrap();
    after
}

/// Calls `mark` and writes its answer; the new count, or the old one where it is refused.
fn marked(text: &mut String, state: State, buffer: &mut [u8], count: usize) -> usize {
    write!(text, "mark in {} bytes after {count}: ", buffer.len()).unwrap();
    match mark(state, NAME, buffer, count) {
        Ok(next) => {
            write!(text, "count {next}").unwrap();
            next
        }
        Err(number) => {
            write!(text, "refusal {number}").unwrap();
            count
        }
    }
}

/// Calls `finish` and writes its answer; the closed state.
fn finished(text: &mut String, state: State) -> State {
    let mut bytes = vec![0; state_bytes(state.instance)];
    let (number, closed) = finish(state, 8, &mut bytes);
    writeln!(text, "finish: {number}, {}", hexadecimal::text(&bytes)).unwrap();
    closed
}

/// Five more blocks of a closed state: the state after them.
fn five_blocks(text: &mut String, state: State) -> State {
    let mut bytes = vec![0; 5 * rate_bytes(state.instance)];
    let (number, after) = squeeze(state, 8, 5, &mut bytes);
    writeln!(text, "5 blocks: {number}, {}", hexadecimal::text(&bytes)).unwrap();
    after
}

/// Back to the first mark, an ending, and the digest; below it that of the whole message, which starts with the preamble's 44 bits.
fn ending(text: &mut String, state: State, buffer: &[u8], bytes: &[u8], message: &[u8], bits: usize) -> State {
    let back = recalled(text, state, buffer, 1);
    let (number, taken) = absorb(back, 8, bytes, (bits - 44) as u64);
    assert_eq!(number, 0);
    let closed = finished(text, taken);
    let whole = digest(state.instance, message, bits).bytes;
    writeln!(text, "whole digest: 0, {}", hexadecimal::text(&whole)).unwrap();
    closed
}

/// A preamble that ends inside a byte, its mark, and three endings; then a closed state that is marked after five blocks, under the same
/// name.
fn preamble(text: &mut String, instance: u32) {
    let mut buffer = [0xA5; 192];
    let (_, fresh) = init(instance);
    let (_, open) = absorb(fresh, 8, b"lamp l", 44);
    marked(text, open, &mut buffer, 0);
    writeln!(text).unwrap();
    let none = ending(text, open, &buffer, b"", b"lamp l", 44);
    // the endings are "lit!" and "log" with a byte after it, without their first four bits
    let lit = ending(text, none, &buffer, b"\xC6\x97\x42\x10", b"lamp lit!", 72);
    let log = ending(text, lit, &buffer, b"\xC6\xF6\x7A\x50", b"lamp log\xA5", 72);

    let five = five_blocks(text, log);
    marked(text, five, &mut buffer, 1);
    writeln!(text, "\n{}", hexadecimal::text(&buffer)).unwrap();
    let ten = five_blocks(text, five);
    let back = recalled(text, ten, &buffer, 2);
    let again = five_blocks(text, back);
    assert_eq!(again, ten);
    recalled(text, again, &buffer, 1);
}

/// A state with these fields, whose bits are zeros.
fn state(instance: u32, phase: u32, total: u32, runs: u32, extra: u32) -> State {
    State { instance, phase, total, runs, extra, bits: [0; 32] }
}

/// A marking in a buffer of bytes 165, the index of the first byte that it changed, or the length where it changed none, and a return.
fn row(text: &mut String, state: State, length: usize, count: usize) {
    let mut buffer = vec![0xA5; length];
    let next = marked(text, state, &mut buffer, count);
    let changed = buffer.iter().position(|&byte| byte != 0xA5).unwrap_or(length);
    writeln!(text, ", changed from {changed}").unwrap();
    recalled(text, state, &buffer, next);
}

/// Lengths of the buffer and counts. 64 times the last two counts wraps in 64 bits, to the bytes of 0 and of 999
/// marks.
fn lengths_and_counts(text: &mut String) {
    let counts_of_a_mark = [(0, 0), (0, 1), (63, 0), (64, 0), (64, 1), (64, 2), (65, 0), (96, 1), (128, 1)];
    let counts_of_1000 = [(64_000, 0), (64_000, 999), (64_000, 1_000), (64_000, 1_001)];
    let counts_over_1000 = [(64_064, 0), (64_064, 1_000), (64_064, 1_001)];
    let greatest = [(64_000, usize::MAX), (64_064, usize::MAX), (64_000, 1 << 58), (64_000, (1 << 58) + 999)];
    for (length, count) in counts_of_a_mark.into_iter().chain(counts_of_1000).chain(counts_over_1000).chain(greatest) {
        row(text, state(1, 1, 20, 20, 1), length, count);
    }
}

/// Forged states, and lines that come after theirs. The last state is sound.
fn forged_states(text: &mut String) {
    row(text, state(0, 0, 20, 2, 0), 64, 0);
    row(text, state(4, 0, 20, 2, 0), 64, 1);
    row(text, state(257, 2, 20, 2, 0), 63, 0);
    row(text, state(1, 2, 20, 2, 0), 64, 0);
    row(text, state(1, 256, 20, 2, 0), 64, 1);
    row(text, state(1, 2, 20, 2, 0), 63, 0);
    row(text, state(1, 0, 16_777_216, 2_097_152, 0), 64, 2);
    row(text, state(2, 0, 100, 7, 0), 64_064, 0);
    row(text, state(3, 0, 100, 4, 1), 0, 0);
    row(text, state(1, 1, 20, 1_048_596, 1_048_577), 64, 0);
    row(text, state(1, 1, 20, 1_048_595, 1_048_576), 64, 0);
}

/// Two marks of a name, of an open state and of a closed one. Of the second one byte has another value, and its last byte is `last`. The name
/// is recalled from a closed state of S.
fn forged(text: &mut String, at: usize, value: u8, last: u8) {
    let mut buffer = [0xA5; 128];
    mark(state(1, 0, 20, 2, 0), NAME, &mut buffer, 0).unwrap();
    mark(state(1, 1, 20, 20, 1), NAME, &mut buffer, 1).unwrap();
    buffer[64 + at] = value;
    buffer[127] = last;
    writeln!(text, "byte {at} is {value}, byte 63 is {last}").unwrap();
    recalled(text, state(3, 1, 100, 11, 0), &buffer, 2);
}

/// Each field of a mark, the bytes after the bits, and the last two.
fn forged_marks(text: &mut String) {
    let name_and_instance = [(0, 65, 0), (15, 65, 0), (16, 1, 0), (16, 0, 0), (16, 2, 0), (16, 4, 0), (16, 255, 1)];
    let phase_and_total = [(17, 0, 0), (17, 2, 0), (17, 2, 128), (18, 1, 0), (21, 23, 0), (21, 24, 0)];
    let runs_and_extra = [(22, 1, 0), (25, 21, 0), (26, 1, 0), (29, 2, 0)];
    let bits_and_last = [(46, 1, 0), (47, 1, 0), (61, 1, 0), (62, 1, 0), (62, 128, 128), (63, 1, 1), (63, 128, 128)];
    for (at, value, last) in name_and_instance.into_iter().chain(phase_and_total).chain(runs_and_extra).chain(bits_and_last) {
        forged(text, at, value, last);
    }
}
