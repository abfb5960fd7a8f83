//! The independent extra blocks continue the independent digest, however many calls they take, and each refusal is at its edge. These
//! tests need no archive.
use reference::digest::{output, rate_bytes};
use reference::pieces::{absorb, finish, init, squeeze, State};
use reference::state_bytes;

const MESSAGE: &[u8] = b"lamp log\xA5";

/// The closed state of the message's first 67 bits, and its digest.
fn closed(instance: u32) -> (State, Vec<u8>) {
    let mut digest = vec![0; state_bytes(instance)];
    let (_, taken) = absorb(init(instance).1, 8, MESSAGE, 67);
    let (number, state) = finish(taken, 8, &mut digest);
    assert_eq!((number, state.extra), (0, 0));
    (state, digest)
}

/// A call that is accepted: the state after it, and the blocks.
fn blocks(state: State, count: u64) -> (State, Vec<u8>) {
    let mut bytes = vec![0; count as usize * rate_bytes(state.instance)];
    let (number, after) = squeeze(state, 8, count, &mut bytes);
    assert_eq!(number, 0);
    let grown = |number: u32| number + count as u32;
    assert_eq!(after, State { runs: grown(state.runs), extra: grown(state.extra), bits: after.bits, ..state });
    (after, bytes)
}

/// The number of a call with a buffer of `length` bytes, which leaves state and buffer alone where it is refused.
fn answer(state: State, width: u32, count: u64, length: usize) -> u32 {
    let mut bytes = vec![0xA5; length];
    let (number, after) = squeeze(state, width, count, &mut bytes);
    let kept = after == state && bytes.iter().all(|&byte| byte == 0xA5);
    assert_eq!(kept, number != 0);
    number
}

/// A closed state with other extra blocks, and with the runs for them.
fn with_extra(state: State, extra: u32) -> State {
    State { runs: state.runs + extra, extra, ..state }
}

#[test]
fn digest_and_blocks_are_one_longer_output() {
    for instance in 1..=3 {
        for count in [1, 2, 24, 1_024] {
            let (state, digest) = closed(instance);
            let (after, more) = blocks(state, count);
            let whole = output(instance, MESSAGE, 67, digest.len() + more.len());
            assert_eq!(([digest, more].concat(), u64::from(after.runs)), (whole.bytes, whole.runs));
        }
    }
}

#[test]
fn two_calls_are_one() {
    for instance in 1..=3 {
        let (state, _) = closed(instance);
        for (j, k) in [(1, 1), (1, 1_023), (1_000, 24)] {
            let (first, head) = blocks(state, j);
            let (second, tail) = blocks(first, k);
            assert_eq!((second, [head, tail].concat()), blocks(state, j + k));
        }
    }
}

#[test]
fn counts_and_buffers() {
    for instance in 1..=3 {
        let (state, _) = closed(instance);
        let size = rate_bytes(instance);
        for width in [1, 8] {
            assert_eq!(answer(state, width, 1, size), 0);
        }
        assert_eq!(answer(state, 8, 1_024, 1_024 * size), 0);
        // line 5, whatever the count is
        for count in [0, 1, 1_024, 1_025] {
            assert_eq!(answer(state, 8, count, count as usize * size + 1), 5);
        }
        for count in [1, 1_024, 1_025] {
            assert_eq!(answer(state, 8, count, count as usize * size - 1), 5);
        }
        // counts that come to no block or to one where they, or their bytes, are cut to 32 or 64 bits
        for count in [1 << 32, (1 << 32) + 1, 1 << 62, (1 << 62) + 1, 1 << 63, (1 << 63) + 1, u64::MAX] {
            assert_eq!(answer(state, 8, count, 0), 5);
            assert_eq!(answer(state, 8, count, size), 5);
        }
        // line 14
        assert_eq!(answer(state, 8, 0, 0), 14);
        assert_eq!(answer(state, 8, 1_025, 1_025 * size), 14);
    }
}

#[test]
fn phases_and_widths() {
    for instance in 1..=3 {
        let (state, _) = closed(instance);
        let (_, fresh) = init(instance);
        let size = rate_bytes(instance);
        assert_eq!(answer(fresh, 8, 1, size), 3);
        assert_eq!(answer(fresh, 2, 0, 1), 3);
        assert_eq!(answer(state, 2, 1, size), 4);
        assert_eq!(answer(state, 16, 1, size), if instance == 3 { 0 } else { 4 });
        assert_eq!(answer(state, 0, 0, 1), 4);
        assert_eq!(answer(State { instance: 4, phase: 2, ..state }, 2, 0, 1), 1);
    }
}

/// The greatest number of extra blocks is reached and not passed.
#[test]
fn limit_of_extra_blocks() {
    for instance in 1..=3 {
        let (state, _) = closed(instance);
        let size = rate_bytes(instance);
        let near = with_extra(state, 1_048_575);
        assert_eq!(answer(near, 8, 2, 2 * size), 15);
        let (full, _) = blocks(near, 1);
        assert_eq!(full.extra, 1_048_576);
        assert_eq!(answer(full, 8, 1, size), 15);
        assert_eq!(answer(full, 8, 1_024, 1_024 * size), 15);
        // lines 5 and 14 come first
        assert_eq!(answer(full, 8, 1, size - 1), 5);
        assert_eq!(answer(full, 8, 0, 0), 14);
        assert_eq!(answer(full, 8, 1_025, 1_025 * size), 14);
        let (most, _) = blocks(with_extra(state, 1_048_576 - 1_024), 1_024);
        assert_eq!(most.extra, 1_048_576);
        assert_eq!(answer(with_extra(state, 1_048_576 - 1_023), 8, 1_024, 1_024 * size), 15);
    }
}

/// Line 2 for each call: extra blocks of an absorbing state, past the limit, and without their runs.
#[test]
fn forged_extra_blocks() {
    for instance in 1..=3 {
        let (state, _) = closed(instance);
        let (_, fresh) = init(instance);
        let forged = [
            State { extra: 1, ..fresh },
            State { extra: 1, runs: 1, ..fresh },
            with_extra(state, 1_048_577),
            State { extra: 1, ..state },
            State { runs: state.runs + 1, ..state },
            State { extra: u32::MAX, ..state },
            State { extra: u32::MAX, runs: state.runs - 1, ..state },
        ];
        for state in forged {
            assert_eq!(answer(state, 8, 1, rate_bytes(instance)), 2);
            assert_eq!(absorb(state, 8, &[], 0), (2, state));
            assert_eq!(finish(state, 8, &mut vec![0; state_bytes(instance)]), (2, state));
        }
        // a sound state of one extra block is closed for pieces and finish
        let one = with_extra(state, 1);
        assert_eq!(absorb(one, 8, &[], 0), (3, one));
        assert_eq!(finish(one, 8, &mut vec![0; state_bytes(instance)]), (3, one));
    }
}
