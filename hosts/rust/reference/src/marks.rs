//! Marks, from document 02 (2.5). A mark is a name and a state in 64 bytes of a lent buffer. `mark` answers the new count of marks, or the
//! number of the first line of docs/RULES.md that holds. `recall` answers that number, 0 where it is accepted, and the state that it hands
//! back.
use crate::pieces::{state_line, State};

/// The bytes of a mark.
const SIZE: usize = 64;

/// The greatest length of a buffer, which is 1,000 marks.
const LONGEST: usize = 64_000;

/// The 64 bytes of a mark. A sound state's instance and phase fit in a byte each.
fn bytes_of(name: [u8; 16], state: State) -> Vec<u8> {
    let mut bytes = name.to_vec();
    bytes.push(state.instance as u8);
    bytes.push(state.phase as u8);
    bytes.extend(state.total.to_be_bytes());
    bytes.extend(state.runs.to_be_bytes());
    bytes.extend(state.extra.to_be_bytes());
    bytes.extend(state.bits);
    bytes.extend([0, 0]);
    bytes
}

/// The state of a mark.
fn state_of(mark: &[u8]) -> State {
    let number = |at: usize| u32::from_be_bytes(mark[at..at + 4].try_into().unwrap());
    State {
        instance: u32::from(mark[16]),
        phase: u32::from(mark[17]),
        total: number(18),
        runs: number(22),
        extra: number(26),
        bits: mark[30..62].try_into().unwrap(),
    }
}

/// The first of lines 1 and 2 that holds for a mark. Line 2 also holds where one of the two final bytes is not zero.
fn mark_line(mark: &[u8]) -> u32 {
    match state_line(state_of(mark)) {
        0 if mark[62] != 0 || mark[63] != 0 => 2,
        number => number,
    }
}

/// The first of lines 1, 2 and 17 that holds.
fn buffer_line(state: State, length: usize, count: usize) -> u32 {
    match state_line(state) {
        0 if length > LONGEST || length % SIZE != 0 || count > length / SIZE => 17,
        number => number,
    }
}

/// Writes a mark of the state after the first `count` marks of the buffer: the new count, or a refusal's number.
pub fn mark(state: State, name: [u8; 16], buffer: &mut [u8], count: usize) -> Result<usize, u32> {
    match buffer_line(state, buffer.len(), count) {
        0 if count == buffer.len() / SIZE => Err(19),
        0 => {
            buffer[SIZE * count..SIZE * (count + 1)].copy_from_slice(&bytes_of(name, state));
            Ok(count + 1)
        }
        number => Err(number),
    }
}

/// Comes back to the latest mark of the name among the first `count` of the buffer. Where that mark is refused, no earlier one is tried.
pub fn recall(state: State, name: [u8; 16], buffer: &[u8], count: usize) -> (u32, State) {
    let number = buffer_line(state, buffer.len(), count);
    if number != 0 {
        return (number, state);
    }
    let in_use = &buffer[..SIZE * count];
    match in_use.chunks(SIZE).rev().find(|mark| mark[..16] == name) {
        None => (18, state),
        Some(mark) => match mark_line(mark) {
            0 => (0, state_of(mark)),
            number => (number, state),
        },
    }
}
