//! Every refusal of permutation and inverse, in checking order (docs/RULES.md), with the buffer as it was: 1 the instance, 4 the width,
//! 5 the length.
use wilbroged::{invert, permute};

/// The answer of both functions; whatever is refused leaves the buffer as it was.
fn answer(instance: u32, width: u32, length: usize) -> u32 {
    let before: Vec<u8> = (0..length).map(|i| (37 * i + 11) as u8).collect();
    let mut numbers = [0; 2];
    for (function, number) in [permute, invert].into_iter().zip(&mut numbers) {
        let mut state = before.clone();
        if let Err(refused) = function(instance, width, &mut state) {
            assert_eq!(state, before, "instance {instance}, width {width}, {length} bytes");
            assert_ne!(refused.number, 0);
            assert_eq!(refused.place, None);
            *number = refused.number;
        }
    }
    assert_eq!(numbers[0], numbers[1], "instance {instance}, width {width}, {length} bytes");
    numbers[0]
}

const BYTES: [(u32, usize); 3] = [(1, 17), (2, 22), (3, 32)];

#[test]
fn an_instance_is_not_1_2_or_3() {
    for instance in [0, 4, 257, 258, 259, 0x1_0001, u32::MAX] {
        for length in [17, 22, 32] {
            for width in [1, 8, 16] {
                assert_eq!(answer(instance, width, length), 1);
            }
        }
    }
}

#[test]
fn a_width_is_not_its_instances() {
    for (instance, length) in BYTES {
        for width in [0, 2, 3, 4, 7, 9, 15, 17, 32, 257, 264, 272, 0x1_0008, u32::MAX] {
            assert_eq!(answer(instance, width, length), 4);
        }
    }
    assert_eq!(answer(1, 16, 17), 4);
    assert_eq!(answer(2, 16, 22), 4);
    assert_eq!(answer(3, 16, 32), 0);
}

#[test]
fn a_buffer_is_not_its_instances() {
    for (instance, bytes) in BYTES {
        for width in [1, 8] {
            for length in [0, 1, bytes - 1, bytes + 1, 2 * bytes, bytes + 256] {
                assert_eq!(answer(instance, width, length), 5);
            }
        }
    }
    assert_eq!(answer(1, 8, 32), 5);
    assert_eq!(answer(2, 8, 32), 5);
    assert_eq!(answer(3, 16, 31), 5);
    assert_eq!(answer(3, 16, 33), 5);
    assert_eq!(answer(3, 16, 0), 5);
}

/// Where two or three lines hold, the first of 1, 4, 5 is answered.
#[test]
fn the_first_line_that_holds() {
    assert_eq!(answer(0, 0, 0), 1);
    assert_eq!(answer(4, 8, 0), 1);
    assert_eq!(answer(257, 2, 17), 1);
    assert_eq!(answer(1, 2, 16), 4);
    assert_eq!(answer(1, 16, 32), 4);
    assert_eq!(answer(2, 16, 0), 4);
    assert_eq!(answer(3, 0, 31), 4);
}

/// Every combination of edges, against the lines in order.
#[test]
fn every_combination() {
    let numbers = [0, 1, 2, 3, 4, 5, 7, 8, 9, 15, 16, 17, 32, 255, 256, 257, 258, 259, 264, 272, 1 << 31, u32::MAX];
    for instance in numbers {
        for width in numbers {
            for length in (0..=40).chain([255, 256, 257, 273, 278, 288, 4096]) {
                let lawful = width == 1 || width == 8 || (width == 16 && instance == 3);
                let bytes = BYTES.iter().find(|row| row.0 == instance).map(|row| row.1);
                let expected = match bytes {
                    None => 1,
                    Some(_) if !lawful => 4,
                    Some(bytes) if bytes != length => 5,
                    Some(_) => 0,
                };
                assert_eq!(answer(instance, width, length), expected, "instance {instance}, width {width}, {length} bytes");
            }
        }
    }
}
