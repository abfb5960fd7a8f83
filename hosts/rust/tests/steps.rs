//! The proved steps, and their undoing, agree with the independent implementation at every width of every instance, for every lawful count
//! and each of L's 1,024 values; all steps from all ones are the proved permutation and inverse, and steps go on where they stopped. The
//! states are random, with fixed seeds.
mod widths;

use reference::random::Random;
use reference::steps::clocks;
use reference::{appendix_b, state_bytes};
use widths::widths;
use wilbroged::{invert, permute, steps, steps_back, D, D_STEPS, L_ALL_ONES, S, S_STEPS, U, U_STEPS};

/// Each instance with the steps of its permutation.
const STEPS: [(u32, u32); 3] = [(U, U_STEPS), (D, D_STEPS), (S, S_STEPS)];

/// A debug run tries some of L's values alone.
const NEXT_VALUE: usize = if cfg!(debug_assertions) { 31 } else { 1 };

/// Whether a pair of a start value and a count is tried at a width. At width 1, which is slow, every eighth pair is, so that each value and
/// each count is among them; all ones, the permutation's own start, has every count.
fn is_tried(width: u32, l: u32, count: u32) -> bool {
    count % width == 0 && (width != 1 || (l + count) % 8 == 0 || l == L_ALL_ONES)
}

/// Compares the steps, and their undoing, with a clock of the independent implementation.
fn compare(instance: u32, width: u32, l: u32, count: u32, start: &[u8], (end, l_after): &(Vec<u8>, u32)) {
    let mut state = start.to_vec();
    let answer = steps(instance, width, l, count, &mut state);
    assert_eq!(
        (answer, &state),
        (Ok(*l_after), end),
        "instance {instance}, width {width}, {count} steps from {l}, state {start:02X?}"
    );
    let answer = steps_back(instance, width, l, count, &mut state);
    assert_eq!(
        (answer, &state[..]),
        (Ok(()), start),
        "instance {instance}, width {width}, {count} steps from {l} undone, state {end:02X?}"
    );
}

/// From each value of L a pass over all counts.
fn every_count_and_value(instance: u32) {
    let mut random = Random::new(70 + u64::from(instance));
    for l in (0..=L_ALL_ONES).step_by(NEXT_VALUE) {
        let start = random.bytes(state_bytes(instance));
        for (count, clock) in (0..).zip(&clocks(instance, l, &start)) {
            for &width in widths(instance).iter().filter(|&&width| is_tried(width, l, count)) {
                compare(instance, width, l, count, &start, clock);
            }
        }
    }
}

#[test]
fn every_count_and_value_of_u() {
    every_count_and_value(U);
}

#[test]
fn every_count_and_value_of_d() {
    every_count_and_value(D);
}

#[test]
fn every_count_and_value_of_s() {
    every_count_and_value(S);
}

/// A debug run takes fewer random states.
const STATES: usize = if cfg!(debug_assertions) { 20 } else { 2_000 };

#[test]
fn all_steps_are_the_permutation() {
    let mut random = Random::new(74);
    for (instance, all) in STEPS {
        let states = (0..STATES).map(|_| random.bytes(state_bytes(instance)));
        for start in appendix_b::states(instance).into_iter().chain(states) {
            let (mut permuted, mut inverted) = (start.clone(), start.clone());
            permute(instance, 8, &mut permuted).unwrap();
            invert(instance, 8, &mut inverted).unwrap();
            for &width in widths(instance) {
                let (mut forward, mut back) = (start.clone(), start.clone());
                steps(instance, width, L_ALL_ONES, all, &mut forward).unwrap();
                steps_back(instance, width, L_ALL_ONES, all, &mut back).unwrap();
                assert_eq!((&forward, &back), (&permuted, &inverted), "instance {instance}, width {width}, state {start:02X?}");
            }
        }
    }
}

/// Some steps at one width, and more at another from the state and the value of L that these leave, are all of them at once. They are
/// undone in the other order.
#[test]
fn stopping_and_going_on() {
    let mut random = Random::new(75);
    for (instance, all) in STEPS {
        for _ in 0..STATES {
            let start = random.bytes(state_bytes(instance));
            let mut below = |most: u32| (random.word() % u64::from(most)) as u32;
            let l = below(L_ALL_ONES + 1);
            let [first, second] = [(); 2].map(|()| widths(instance)[below(widths(instance).len() as u32) as usize]);
            let count = first * below(all / first + 1);
            let more = second * below((all - count) / second + 1);
            let text =
                format!("instance {instance}, {count} steps from {l} at width {first}, {more} at {second}, state {start:02X?}");

            let mut through = start.clone();
            let l_through = steps(instance, 1, l, count + more, &mut through);
            let mut state = start.clone();
            let l_after = steps(instance, first, l, count, &mut state).unwrap();
            assert_eq!(steps(instance, second, l_after, more, &mut state), l_through, "{text}");
            assert_eq!(state, through, "{text}");
            steps_back(instance, second, l_after, more, &mut state).unwrap();
            steps_back(instance, first, l, count, &mut state).unwrap();
            assert_eq!(state, start, "{text}");
        }
    }
}

/// Nothing beside the lent bytes is written, wherever they begin.
#[test]
fn neighbours_are_kept() {
    for (instance, all) in STEPS {
        let bytes = state_bytes(instance);
        for &width in widths(instance) {
            for count in [0, 16, all] {
                for at in 0..9 {
                    let mut around = [0xA5; 64];
                    steps(instance, width, L_ALL_ONES, count, &mut around[at..at + bytes]).unwrap();
                    assert!(around[..at].iter().chain(&around[at + bytes..]).all(|&byte| byte == 0xA5));
                    steps_back(instance, width, L_ALL_ONES, count, &mut around[at..at + bytes]).unwrap();
                    assert_eq!(around, [0xA5; 64]);
                }
            }
        }
    }
}
