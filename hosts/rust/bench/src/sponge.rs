//! The peer's digest: the Rattle sponge (`crates/sponge/src/pieces.rt`, `output.rt` and what they call) in Rust, bit by bit, over the
//! permutation of the same form.
use crate::peer;

#[derive(Clone, Copy)]
struct State {
    instance: u32,
    total: u32,
    runs: u32,
    bits: [u8; 32],
}

fn size_of(instance: u32) -> usize {
    match instance {
        1 => 17,
        2 => 22,
        _ => 32,
    }
}

/// r, in bits.
fn rate_of(instance: u32) -> usize {
    match instance {
        1 => 8,
        2 => 16,
        _ => 32,
    }
}

/// (b - r)/8.
fn last_block_of(instance: u32) -> usize {
    match instance {
        1 => 16,
        2 => 20,
        _ => 28,
    }
}

/// n/r.
fn outputs_of(instance: u32) -> usize {
    match instance {
        1 => 17,
        2 => 11,
        _ => 8,
    }
}

#[rustfmt::skip]
fn fresh(instance: u32) -> State {
    let bits = match instance {
        1 => *b"\xD8\xDA\xCA\x44\x41\x4A\x09\x97\x19\xC8\x0A\xA3\xAF\x06\x56\x44\xDB\0\0\0\0\0\0\0\0\0\0\0\0\0\0\0",
        2 => *b"\xCC\x6C\x4A\xB7\xD1\x1F\xA9\xBD\xF6\xEE\xDE\x03\xD8\x7B\x68\xF9\x1B\xAA\x70\x6C\x20\xE9\0\0\0\0\0\0\0\0\0\0",
        _ => *b"\x39\x72\x51\xCE\xE1\xDE\x8A\xA7\x3E\xA2\x62\x50\xC6\xD7\xBE\x12\x8C\xD3\xE7\x9D\xD7\x18\xC2\x4B\x8A\x19\xD0\x9C\x24\x92\xDA\x5D",
    };
    State { instance, total: 0, runs: 0, bits }
}

/// Where the next bit goes.
fn bit_index(instance: u32, total: u32) -> usize {
    8 * last_block_of(instance) + (total as usize & (rate_of(instance) - 1))
}

fn add_bit(mut state: State, bit: u8) -> State {
    let at = bit_index(state.instance, state.total);
    state.bits[at >> 3] ^= bit << (7 - (at & 7));
    state
}

fn run_p(mut state: State, width: u32) -> State {
    let size = size_of(state.instance);
    peer::permute(state.instance, width, &mut state.bits[..size]);
    state.runs += 1;
    state
}

fn take_bit(state: State, width: u32, bit: u8) -> State {
    let mut next = add_bit(state, bit);
    next.total += 1;
    if bit_index(state.instance, next.total) == bit_index(state.instance, 0) {
        return run_p(next, width);
    }
    next
}

fn give(state: State, digest: &mut [u8], at: usize) {
    let from = last_block_of(state.instance);
    let step = rate_of(state.instance) / 8;
    digest[at..at + step].copy_from_slice(&state.bits[from..from + step]);
}

/// The digest of the first `count` bits of a message, and how often P ran.
pub fn digest(instance: u32, width: u32, message: &[u8], count: usize, digest: &mut [u8]) -> u32 {
    let mut state = fresh(instance);
    for i in 0..count {
        state = take_bit(state, width, (message[i / 8] >> (7 - i % 8)) % 2);
    }
    state = add_bit(state, 1);
    for block in 0..outputs_of(instance) {
        state = run_p(state, width);
        give(state, digest, block * rate_of(instance) / 8);
    }
    state.runs
}

#[cfg(test)]
mod tests {
    use reference::random::Random;

    #[test]
    fn agrees_with_the_reference() {
        let message = Random::new(4).bytes(70);
        for (instance, width) in [(1, 1), (1, 8), (2, 1), (2, 8), (3, 1), (3, 8), (3, 16)] {
            for bits in (0..70).chain([127, 128, 448, 560]) {
                let mut bytes = vec![0xA5; reference::state_bytes(instance)];
                let runs = super::digest(instance, width, &message, bits, &mut bytes);
                let expected = reference::digest::digest(instance, &message, bits);
                assert_eq!((bytes, u64::from(runs)), (expected.bytes, expected.runs), "instance {instance}, {bits} bits");
            }
        }
    }
}
