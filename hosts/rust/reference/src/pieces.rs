//! States, pieces, finish and extra blocks, from document 01 ("Pieces and finish") and document 02 (2.1). A call answers the number of
//! the first line of docs/RULES.md that holds, 0 where it is accepted, and the state that it hands back.
use crate::digest::{initial, rate_bytes};
use crate::{permute, state_bytes};

/// The greatest total of bits.
pub const LIMIT: u32 = 16_777_215;

/// The greatest number of blocks in one call.
pub const MOST_BLOCKS: u64 = 1_024;

/// The greatest number of extra blocks since the finish.
pub const MOST_EXTRA: u32 = 1_048_576;

/// The phases.
const ABSORBING: u32 = 0;
const CLOSED: u32 = 1;

#[derive(Clone, Copy, Debug, PartialEq, Eq)]
pub struct State {
    pub instance: u32,
    pub phase: u32,
    pub total: u32,
    pub runs: u32,
    pub extra: u32,
    pub bits: [u8; 32],
}

/// Line 1 does not hold.
pub(crate) fn is_instance(instance: u32) -> bool {
    (1..=3).contains(&instance)
}

/// Line 4 does not hold.
pub fn is_width(instance: u32, width: u32) -> bool {
    width == 1 || width == 8 || width == 16 && instance == 3
}

/// r of an instance.
fn rate(instance: u32) -> u32 {
    8 * rate_bytes(instance) as u32
}

impl State {
    /// Line 2 does not hold.
    fn is_sound(&self) -> bool {
        let bytes = state_bytes(self.instance);
        let outputs = 8 * bytes as u32 / rate(self.instance);
        let runs = self.total / rate(self.instance);
        self.total <= LIMIT
            && self.bits[bytes..].iter().all(|&byte| byte == 0)
            && match self.phase {
                ABSORBING => self.extra == 0 && self.runs == runs,
                CLOSED => self.extra <= MOST_EXTRA && self.runs == runs + outputs + self.extra,
                _ => false,
            }
    }

    /// Adds a bit at the index of the next one.
    fn add(&mut self, bit: u8) {
        let b = 8 * state_bytes(self.instance) as u32;
        let place = (b - rate(self.instance) + self.total % rate(self.instance)) as usize;
        self.bits[place / 8] ^= bit << (7 - place % 8);
    }

    fn run(&mut self) {
        permute(self.instance, &mut self.bits[..state_bytes(self.instance)]);
        self.runs += 1;
    }

    /// Fills the buffer with blocks: for each P runs, and the last r bits are written.
    fn give_blocks(&mut self, buffer: &mut [u8]) {
        let size = rate_bytes(self.instance);
        let end = state_bytes(self.instance);
        for block in buffer.chunks_mut(size) {
            self.run();
            block.copy_from_slice(&self.bits[end - size..end]);
        }
    }
}

/// A fresh state, or one of zeros alone for an instance that there is not.
pub fn init(instance: u32) -> (u32, State) {
    let mut state = State { instance: 0, phase: ABSORBING, total: 0, runs: 0, extra: 0, bits: [0; 32] };
    if !is_instance(instance) {
        return (1, state);
    }
    state.instance = instance;
    state.bits[..state_bytes(instance)].copy_from_slice(&initial(instance));
    (0, state)
}

/// The first of lines 1 and 2 that holds.
pub fn state_line(state: State) -> u32 {
    match state {
        _ if !is_instance(state.instance) => 1,
        _ if !state.is_sound() => 2,
        _ => 0,
    }
}

/// The first of lines 1 to 4 that holds, for a call that takes states of one phase.
fn first_lines(state: State, phase: u32, width: u32) -> u32 {
    match state_line(state) {
        0 if state.phase != phase => 3,
        0 if !is_width(state.instance, width) => 4,
        number => number,
    }
}

/// A piece: the first `count` bits of `bytes`.
pub fn absorb(state: State, width: u32, bytes: &[u8], count: u64) -> (u32, State) {
    let number = match first_lines(state, ABSORBING, width) {
        0 if count > 8 * bytes.len() as u64 => 6,
        0 if u64::from(state.total) + count > u64::from(LIMIT) => 7,
        number => number,
    };
    if number != 0 {
        return (number, state);
    }
    let mut state = state;
    for i in 0..count as usize {
        state.add(bytes[i / 8] >> (7 - i % 8) & 1);
        state.total += 1;
        if state.total % rate(state.instance) == 0 {
            state.run();
        }
    }
    (0, state)
}

/// Finish: the digest is written to `buffer`. Line 8 never holds.
pub fn finish(state: State, width: u32, buffer: &mut [u8]) -> (u32, State) {
    let number = match first_lines(state, ABSORBING, width) {
        0 if buffer.len() != state_bytes(state.instance) => 5,
        number => number,
    };
    if number != 0 {
        return (number, state);
    }
    let mut state = state;
    state.add(1);
    state.give_blocks(buffer);
    state.phase = CLOSED;
    (0, state)
}

/// `count` more blocks of a closed state are written to `buffer`.
pub fn squeeze(state: State, width: u32, count: u64, buffer: &mut [u8]) -> (u32, State) {
    let number = match first_lines(state, CLOSED, width) {
        0 if buffer.len() as u128 != u128::from(count) * rate_bytes(state.instance) as u128 => 5,
        0 if !(1..=MOST_BLOCKS).contains(&count) => 14,
        0 if u64::from(state.extra) + count > u64::from(MOST_EXTRA) => 15,
        number => number,
    };
    if number != 0 {
        return (number, state);
    }
    let mut state = state;
    state.give_blocks(buffer);
    state.extra += count as u32;
    (0, state)
}
