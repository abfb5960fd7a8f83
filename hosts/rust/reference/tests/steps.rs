//! The independent steps: all of them are the independent permutation, they are undone, and they go on where they stopped; L's weights and
//! single steps are worked out by hand, and each refusal is at its edge. These tests need no archive.
use reference::random::Random;
use reference::steps::{clocks, steps, steps_back};
use reference::{appendix_b, invert, permute, state_bytes};

/// L's value at the start of P.
const ALL_ONES: u32 = 1_023;

/// Each instance with the steps of P.
const STEPS: [(u32, u32); 3] = [(1, 544), (2, 704), (3, 1_024)];

/// The step widths of an instance.
fn widths(instance: u32) -> &'static [u32] {
    if instance == 3 {
        &[1, 8, 16]
    } else {
        &[1, 8]
    }
}

/// A state after steps at width 1, and L's value.
fn stepped(instance: u32, l: u32, count: u32, start: &[u8]) -> (Vec<u8>, u32) {
    let mut state = start.to_vec();
    let l_after = steps(instance, 1, l, count, &mut state).unwrap();
    (state, l_after)
}

/// The state from before steps, at width 1.
fn stepped_back(instance: u32, l: u32, count: u32, end: &[u8]) -> Vec<u8> {
    let mut state = end.to_vec();
    steps_back(instance, 1, l, count, &mut state).unwrap();
    state
}

/// A state of which only these bits are 1.
fn with_bits(instance: u32, bits: &[usize]) -> Vec<u8> {
    let mut state = vec![0; state_bytes(instance)];
    for bit in bits {
        state[bit / 8] |= 128 >> (bit % 8);
    }
    state
}

/// A random number that is not over `most`.
fn up_to(random: &mut Random, most: u32) -> u32 {
    (random.word() % (u64::from(most) + 1)) as u32
}

/// How many random samples of each instance.
const SAMPLES: usize = if cfg!(debug_assertions) { 50 } else { 500 };

/// All of P's steps at each width, there and back.
fn all_steps(instance: u32, all: u32, start: &[u8], end: &[u8]) {
    for &width in widths(instance) {
        let mut state = start.to_vec();
        steps(instance, width, ALL_ONES, all, &mut state).unwrap();
        assert_eq!(state, end, "instance {instance}, width {width}");
        assert_eq!(steps_back(instance, width, ALL_ONES, all, &mut state), Ok(()));
        assert_eq!(state, start, "instance {instance}, width {width}, back");
    }
}

#[test]
fn all_steps_of_appendix_b() {
    for (instance, all) in STEPS {
        for pair in appendix_b::states(instance).windows(2) {
            all_steps(instance, all, &pair[0], &pair[1]);
        }
    }
}

#[test]
fn all_steps_are_the_permutation() {
    let mut random = Random::new(60);
    for (instance, all) in STEPS {
        for _ in 0..SAMPLES {
            let start = random.bytes(state_bytes(instance));
            let (mut forward, mut back) = (start.clone(), start.clone());
            permute(instance, &mut forward);
            invert(instance, &mut back);
            all_steps(instance, all, &start, &forward);
            all_steps(instance, all, &back, &start);
        }
    }
}

/// From zeros and a 1 in L0 a step makes the last bits of X and Y 1: h is L0 then, and f and g are 0. A 0 in L0 leaves zeros.
#[test]
fn one_step_of_zeros() {
    for (instance, last_x, last_y) in [(1, 67, 135), (2, 87, 175), (3, 127, 255)] {
        let (zeros, ones) = (with_bits(instance, &[]), with_bits(instance, &[last_x, last_y]));
        let rows = [
            // all ones: L gains 0
            (0b11_1111_1111, 0b11_1111_1110, &ones),
            // one bit, or two: L gains L0 + L3
            (0b10_0000_0000, 0b00_0000_0001, &ones),
            (0b01_0000_0000, 0b10_0000_0000, &zeros),
            (0b00_1000_0000, 0b01_0000_0000, &zeros),
            (0b00_0100_0000, 0b00_1000_0001, &zeros),
            (0b00_0010_0000, 0b00_0100_0000, &zeros),
            (0b00_0001_0000, 0b00_0010_0000, &zeros),
            (0b00_0000_1000, 0b00_0001_0000, &zeros),
            (0b00_0000_0100, 0b00_0000_1000, &zeros),
            (0b00_0000_0010, 0b00_0000_0100, &zeros),
            (0b00_0000_0001, 0b00_0000_0010, &zeros),
            (0b10_0100_0000, 0b00_1000_0000, &ones),
            (0b10_0000_0001, 0b00_0000_0011, &ones),
            // none
            (0b00_0000_0000, 0b00_0000_0000, &zeros),
        ];
        for (l, l_after, after) in rows {
            assert_eq!(stepped(instance, l, 1, &zeros), (after.clone(), l_after));
            assert_eq!(stepped_back(instance, l, 1, after), zeros);
        }
    }
}

/// Two steps of zeros: the 1 in L1 is L0 at the second step. No function reads the last bits of X and Y, and a step moves them down one.
#[test]
fn two_steps_of_zeros() {
    for (instance, last_x, last_y) in [(1, 67, 135), (2, 87, 175), (3, 127, 255)] {
        let zeros = with_bits(instance, &[]);
        let first = with_bits(instance, &[last_x - 1, last_y - 1]);
        let second = with_bits(instance, &[last_x, last_y]);
        let both = with_bits(instance, &[last_x - 1, last_x, last_y - 1, last_y]);
        let rows = [
            (0b10_0000_0000, 0b00_0000_0010, &first),
            (0b01_0000_0000, 0b00_0000_0001, &second),
            (0b11_0000_0000, 0b00_0000_0011, &both),
            (0b00_0000_0011, 0b00_0000_1100, &zeros),
            // L4 is L3 at the second step, and L2 never is
            (0b00_0010_0000, 0b00_1000_0001, &zeros),
            (0b00_1000_0000, 0b10_0000_0000, &zeros),
        ];
        for (l, l_after, after) in rows {
            assert_eq!(stepped(instance, l, 2, &zeros), (after.clone(), l_after));
            assert_eq!(stepped_back(instance, l, 2, after), zeros);
        }
    }
}

/// A step moves every bit down one: the bit that X drops is gone, and the bit that Y drops is added to what X gains.
#[test]
fn one_bit_moves_down() {
    for (instance, _) in STEPS {
        let b = 8 * state_bytes(instance);
        for i in 0..b {
            let (state, _) = stepped(instance, 0, 1, &with_bits(instance, &[i]));
            let bit = |i: usize| state[i / 8] >> (7 - i % 8) & 1 == 1;
            // what X and Y gain stands in their last bits
            for j in (0..b).filter(|&j| j != b / 2 - 1 && j != b - 1) {
                assert_eq!(bit(j), j + 1 == i && i != b / 2);
            }
            // f and g have their first tap at 0, and h has none there
            if i == 0 || i == b / 2 {
                assert_eq!((bit(b / 2 - 1), bit(b - 1)), (true, i == b / 2));
            }
        }
    }
}

#[test]
fn l_from_all_ones() {
    for (instance, all) in STEPS {
        let zeros = with_bits(instance, &[]);
        for (count, l) in [(0, 0b11_1111_1111), (1, 0b11_1111_1110), (7, 0b11_1000_0000), (8, 0b11_0000_0001), (10, 0b00_0000_0111)]
        {
            assert_eq!(stepped(instance, ALL_ONES, count, &zeros).1, l);
        }
        // the state has no part in it
        let pass: Vec<u32> = clocks(instance, ALL_ONES, &zeros).into_iter().map(|clock| clock.1).collect();
        let other: Vec<u32> =
            clocks(instance, ALL_ONES, &Random::new(61).bytes(zeros.len())).into_iter().map(|clock| clock.1).collect();
        assert_eq!(pass, other);
        // no value comes twice in 1,023 steps
        let mut values = pass[..pass.len().min(1_023)].to_vec();
        values.sort();
        values.dedup();
        assert_eq!(values.len(), (all as usize + 1).min(1_023));
    }
    let zeros = with_bits(3, &[]);
    assert_eq!(stepped(3, ALL_ONES, 1_023, &zeros).1, ALL_ONES);
    assert_eq!(stepped(3, ALL_ONES, 1_024, &zeros).1, 0b11_1111_1110);
}

/// From 0 L stays 0, and from any other value it is that value again after 1,023 steps.
#[test]
fn l_from_every_value() {
    for (instance, all) in STEPS {
        let start = Random::new(62).bytes(state_bytes(instance));
        assert!(clocks(instance, 0, &start).iter().all(|clock| clock.1 == 0));
        for width in widths(instance) {
            assert_eq!(steps(instance, *width, 0, all, &mut start.clone()), Ok(0));
        }
    }
    let start = Random::new(63).bytes(state_bytes(3));
    for l in 0..=ALL_ONES {
        assert_eq!(stepped(3, l, 1_023, &start).1, l);
    }
}

#[test]
fn no_step_changes_nothing() {
    for (instance, _) in STEPS {
        let start = Random::new(64).bytes(state_bytes(instance));
        for l in 0..=ALL_ONES {
            for &width in widths(instance) {
                let mut state = start.clone();
                assert_eq!(steps(instance, width, l, 0, &mut state), Ok(l));
                assert_eq!(state, start);
                assert_eq!(steps_back(instance, width, l, 0, &mut state), Ok(()));
                assert_eq!(state, start);
            }
        }
    }
}

#[test]
fn every_clock_of_a_pass() {
    let mut random = Random::new(65);
    for (instance, all) in STEPS {
        for l in [0, 1, 2, 512, up_to(&mut random, ALL_ONES), ALL_ONES] {
            let start = random.bytes(state_bytes(instance));
            let pass = clocks(instance, l, &start);
            assert_eq!(pass.len(), all as usize + 1);
            for (count, clock) in (0..).zip(&pass) {
                for width in widths(instance).iter().filter(|&width| count % width == 0) {
                    let mut state = start.clone();
                    assert_eq!(steps(instance, *width, l, count, &mut state), Ok(clock.1));
                    assert_eq!(state, clock.0);
                }
            }
        }
    }
}

#[test]
fn steps_are_undone() {
    let mut random = Random::new(66);
    for (instance, all) in STEPS {
        for _ in 0..SAMPLES {
            let start = random.bytes(state_bytes(instance));
            let (l, count) = (up_to(&mut random, ALL_ONES), up_to(&mut random, all));
            assert_eq!(stepped_back(instance, l, count, &stepped(instance, l, count, &start).0), start);
            assert_eq!(stepped(instance, l, count, &stepped_back(instance, l, count, &start)).0, start);
            for &width in widths(instance) {
                let whole = count - count % width;
                let mut state = start.clone();
                steps(instance, width, l, whole, &mut state).unwrap();
                steps_back(instance, width, l, whole, &mut state).unwrap();
                assert_eq!(state, start);
            }
        }
    }
}

/// Two stretches of steps are one, and are undone in the other order. They may come to more than 4b steps.
#[test]
fn stopping_and_going_on() {
    let mut random = Random::new(67);
    for (instance, all) in STEPS {
        for _ in 0..SAMPLES {
            let start = random.bytes(state_bytes(instance));
            let (l, whole) = (up_to(&mut random, ALL_ONES), up_to(&mut random, all));
            let count = up_to(&mut random, whole);
            let (middle, l_middle) = stepped(instance, l, count, &start);
            let end = stepped(instance, l, whole, &start);
            assert_eq!(stepped(instance, l_middle, whole - count, &middle), end);
            assert_eq!(stepped_back(instance, l_middle, whole - count, &end.0), middle);
            assert_eq!(stepped_back(instance, l, count, &middle), start);
        }
        let start = random.bytes(state_bytes(instance));
        let (once, l_once) = stepped(instance, ALL_ONES, all, &start);
        let (near, l_near) = stepped(instance, ALL_ONES, all - 8, &start);
        let (past, l_past) = stepped(instance, l_near, all, &near);
        assert_eq!(stepped(instance, l_past, 8, &past), stepped(instance, l_once, all, &once));
    }
}

/// The number by which both functions refuse a call; the buffer is as it was. 0 where both accept.
fn answer(instance: u32, width: u32, l: u32, count: u32, length: usize) -> u32 {
    let before: Vec<u8> = (0..length).map(|i| (37 * i + 11) as u8).collect();
    let (mut forward, mut back) = (before.clone(), before.clone());
    let number = steps(instance, width, l, count, &mut forward).err().unwrap_or(0);
    assert_eq!(steps_back(instance, width, l, count, &mut back).err().unwrap_or(0), number);
    if number != 0 {
        assert_eq!((&forward, &back), (&before, &before));
    }
    number
}

#[test]
fn instances_and_widths() {
    for instance in [0, 4, 5, 257, 258, 259, 0x1_0001, u32::MAX] {
        for (_, all) in STEPS {
            assert_eq!(answer(instance, 8, ALL_ONES, all, 17), 1);
            assert_eq!(answer(instance, 0, ALL_ONES + 1, all + 1, 0), 1);
        }
    }
    for (instance, all) in STEPS {
        let bytes = state_bytes(instance);
        for width in [0, 2, 3, 4, 7, 9, 15, 17, 32, 257, 264, 272, 0x1_0008, u32::MAX] {
            assert_eq!(answer(instance, width, ALL_ONES, 0, bytes), 4);
            assert_eq!(answer(instance, width, ALL_ONES, all, bytes), 4);
            assert_eq!(answer(instance, width, ALL_ONES + 1, all + 1, bytes - 1), 4);
        }
        assert_eq!(answer(instance, 16, ALL_ONES, all, bytes), if instance == 3 { 0 } else { 4 });
    }
}

#[test]
fn start_values() {
    for (instance, all) in STEPS {
        let bytes = state_bytes(instance);
        for &width in widths(instance) {
            for count in [0, 16, all] {
                for l in [0, 1, 512, 1_022, 1_023] {
                    assert_eq!(answer(instance, width, l, count, bytes), 0);
                }
                for l in [1_024, 1_025, 2_047, 0x1_0000, 0x1_03FF, 1 << 31, u32::MAX] {
                    assert_eq!(answer(instance, width, l, count, bytes), 20);
                }
            }
        }
    }
}

#[test]
fn counts() {
    for (instance, all) in STEPS {
        let bytes = state_bytes(instance);
        for &width in widths(instance) {
            for l in [0, 5, ALL_ONES] {
                for count in (0..=17).chain(all - 17..=all) {
                    assert_eq!(answer(instance, width, l, count, bytes), if count % width == 0 { 0 } else { 20 });
                }
                for count in
                    (all + 1..=all + 17).chain([2 * all, 2 * all + 16, 0x1_0000, 0x1_0010, 1 << 31, u32::MAX - 15, u32::MAX])
                {
                    assert_eq!(answer(instance, width, l, count, bytes), 20);
                }
            }
        }
    }
}

#[test]
fn buffers() {
    for (instance, all) in STEPS {
        let bytes = state_bytes(instance);
        for &width in widths(instance) {
            for length in [0, 1, bytes - 1, bytes + 1, 2 * bytes, bytes + 256] {
                for count in [0, 16, all] {
                    assert_eq!(answer(instance, width, 0, count, length), 5);
                    assert_eq!(answer(instance, width, ALL_ONES, count, length), 5);
                    // line 20 comes first
                    assert_eq!(answer(instance, width, ALL_ONES + 1, count, length), 20);
                    assert_eq!(answer(instance, width, ALL_ONES, all + 16, length), 20);
                }
                if width != 1 {
                    assert_eq!(answer(instance, width, ALL_ONES, width - 1, length), 20);
                }
            }
        }
    }
}
