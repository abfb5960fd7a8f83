//! The proved permutation and inverse agree with the independent implementation at every width of every instance: on random states
//! with fixed seeds, on the states with no bit, all bits or one bit set, and on the paper's Appendix B.
mod widths;

use reference::random::Random;
use reference::{appendix_b, state_bytes};
use widths::widths;
use wilbroged::{invert, permute};

/// Compares permutation and inverse of one state at the given widths with the independent implementation.
fn compare(instance: u32, widths: &[u32], start: &[u8]) {
    let mut forward = start.to_vec();
    reference::permute(instance, &mut forward);
    let mut back = start.to_vec();
    reference::invert(instance, &mut back);
    for &width in widths {
        let mut state = start.to_vec();
        assert_eq!(permute(instance, width, &mut state), Ok(()));
        assert_eq!(state, forward, "permute, instance {instance}, width {width}, state {start:02X?}");
        let mut state = start.to_vec();
        assert_eq!(invert(instance, width, &mut state), Ok(()));
        assert_eq!(state, back, "invert, instance {instance}, width {width}, state {start:02X?}");
    }
}

/// Random states of each instance: forward and back, of three instances, these are 1,020,000 permutations of the independent
/// implementation, and each is compared at one width or more.
const STATES: usize = if cfg!(debug_assertions) { 64 } else { 170_000 };

/// Random states; the slow width 1 takes every eighth of them.
fn random_states(instance: u32) {
    let mut random = Random::new(instance.into());
    for i in 0..STATES {
        let start = random.bytes(state_bytes(instance));
        let skipped = if i % 8 == 0 { 0 } else { 1 };
        compare(instance, &widths(instance)[skipped..], &start);
    }
}

#[test]
fn random_states_of_u() {
    random_states(1);
}

#[test]
fn random_states_of_d() {
    random_states(2);
}

#[test]
fn random_states_of_s() {
    random_states(3);
}

#[test]
fn no_bit_or_all_bits() {
    for instance in 1..=3 {
        for byte in [0x00, 0xFF] {
            compare(instance, widths(instance), &vec![byte; state_bytes(instance)]);
        }
    }
}

#[test]
fn one_bit() {
    for instance in 1..=3 {
        for i in 0..8 * state_bytes(instance) {
            let mut start = vec![0; state_bytes(instance)];
            start[i / 8] = 1 << (7 - i % 8);
            compare(instance, widths(instance), &start);
        }
    }
}

#[test]
fn all_bits_but_one() {
    for instance in 1..=3 {
        for i in 0..8 * state_bytes(instance) {
            let mut start = vec![0xFF; state_bytes(instance)];
            start[i / 8] ^= 1 << (7 - i % 8);
            compare(instance, widths(instance), &start);
        }
    }
}

#[test]
fn appendix_b_states() {
    for instance in 1..=3 {
        let states = appendix_b::states(instance);
        for &width in widths(instance) {
            for pair in states.windows(2) {
                let mut state = pair[0].clone();
                assert_eq!(permute(instance, width, &mut state), Ok(()));
                assert_eq!(state, pair[1], "permute, instance {instance}, width {width}");
                assert_eq!(invert(instance, width, &mut state), Ok(()));
                assert_eq!(state, pair[0], "invert, instance {instance}, width {width}");
            }
        }
    }
}

/// Nothing beside the lent bytes is written, wherever they begin.
#[test]
fn neighbours_are_kept() {
    for instance in 1..=3 {
        let bytes = state_bytes(instance);
        for &width in widths(instance) {
            for at in 0..9 {
                let mut around = [0xA5; 64];
                permute(instance, width, &mut around[at..at + bytes]).unwrap();
                invert(instance, width, &mut around[at..at + bytes]).unwrap();
                assert_eq!(around, [0xA5; 64]);
                permute(instance, width, &mut around[at..at + bytes]).unwrap();
                assert!(around[..at].iter().chain(&around[at + bytes..]).all(|&byte| byte == 0xA5));
            }
        }
    }
}
