//! Every refusal of the digest that can occur, in checking order (docs/RULES.md), with the buffer as it was: 1 the instance, 4 the width,
//! 5 the buffer's length, 6 more bits than there are, 7 more than 16,777,215. The message's bits have no part in a refusal, so that one
//! message serves for all.
use wilbroged::digest;

const LIMIT: u64 = 16_777_215;

/// The answer; what is refused leaves the buffer as it was.
fn answer(instance: u32, width: u32, message: &[u8], bits: u64, length: usize) -> u32 {
    let before: Vec<u8> = (0..length).map(|i| (37 * i + 11) as u8).collect();
    let mut buffer = before.clone();
    match digest(instance, width, message, bits, &mut buffer) {
        Ok(()) => {
            assert_ne!(buffer, before);
            0
        }
        Err(refused) => {
            assert_ne!(refused.number, 0);
            assert_eq!(refused.place, None);
            assert_eq!(buffer, before, "instance {instance}, width {width}, {bits} bits, {length} bytes");
            refused.number
        }
    }
}

const BYTES: [(u32, usize); 3] = [(1, 17), (2, 22), (3, 32)];

#[test]
fn an_instance_is_not_1_2_or_3() {
    for instance in [0, 4, 257, 258, 259, 0x1_0001, u32::MAX] {
        for length in [0, 17, 22, 32] {
            for width in [0, 1, 8, 16] {
                assert_eq!(answer(instance, width, b"message", 9, length), 1);
            }
        }
    }
}

#[test]
fn a_width_is_not_its_instances() {
    for (instance, length) in BYTES {
        for width in [0, 2, 3, 4, 7, 9, 15, 17, 32, 257, 264, 272, 0x1_0008, u32::MAX] {
            assert_eq!(answer(instance, width, b"message", 9, length), 4);
        }
    }
    assert_eq!(answer(1, 16, b"message", 9, 17), 4);
    assert_eq!(answer(2, 16, b"message", 9, 22), 4);
    assert_eq!(answer(3, 16, b"message", 9, 32), 0);
}

#[test]
fn a_buffer_is_not_its_instances() {
    for (instance, bytes) in BYTES {
        for length in [0, 1, bytes - 1, bytes + 1, 2 * bytes, bytes + 256] {
            assert_eq!(answer(instance, 8, b"message", 9, length), 5);
        }
    }
}

#[test]
fn more_bits_than_there_are() {
    let message = [0; 8];
    for (instance, length) in BYTES {
        for bytes in 0..=8 {
            let bits = 8 * bytes as u64;
            assert_eq!(answer(instance, 8, &message[..bytes], bits, length), 0);
            for over in [bits + 1, bits + 8, bits + (1 << 32), 1 << 61, (1 << 61) + bits, 1 << 63, u64::MAX - 7, u64::MAX] {
                assert_eq!(answer(instance, 8, &message[..bytes], over, length), 6);
            }
        }
    }
}

#[test]
fn more_bits_than_a_total_holds() {
    let message = vec![0; (LIMIT / 8 + 100) as usize];
    for (instance, length) in BYTES {
        for width in [1, 8] {
            for over in [LIMIT + 1, LIMIT + 2, LIMIT + 9, 8 * message.len() as u64] {
                assert_eq!(answer(instance, width, &message, over, length), 7);
            }
        }
    }
}

/// Where several lines hold, the first of 1, 4, 5, 6, 7 is answered.
#[test]
fn the_first_line_that_holds() {
    let long = vec![0; (LIMIT / 8 + 1) as usize];
    let over = 8 * long.len() as u64;
    let too_many = over + 1;
    for (instance, length) in BYTES {
        assert_eq!(answer(0, 2, &long, too_many, length - 1), 1);
        assert_eq!(answer(instance, 2, &long, too_many, length - 1), 4);
        assert_eq!(answer(instance, 8, &long, too_many, length - 1), 5);
        assert_eq!(answer(instance, 8, &long, too_many, length), 6);
        assert_eq!(answer(instance, 8, &long, over, length - 1), 5);
        assert_eq!(answer(instance, 8, &long, over, length), 7);
        assert_eq!(answer(instance, 2, &long, over, length), 4);
        assert_eq!(answer(257, 8, &long, over, length), 1);
        assert_eq!(answer(instance, 8, &[], 1, length + 1), 5);
        assert_eq!(answer(instance, 2, &[], 1, length), 4);
    }
}

/// Every combination of edges, against the lines in order.
#[test]
fn every_combination() {
    let long = vec![0; (LIMIT / 8 + 1) as usize];
    let numbers = [0, 1, 2, 3, 4, 7, 8, 9, 15, 16, 17, 256, 257, 258, 259, 264, 272, 1 << 31, u32::MAX];
    for instance in numbers {
        for width in numbers {
            for length in [0, 1, 16, 17, 18, 21, 22, 23, 31, 32, 33, 273] {
                for (bytes, bits) in
                    [(0, 0), (0, 1), (2, 16), (2, 17), (2, LIMIT + 1), (long.len(), LIMIT + 1), (long.len(), u64::MAX)]
                {
                    let lawful = width == 1 || width == 8 || (width == 16 && instance == 3);
                    let row = BYTES.iter().find(|row| row.0 == instance);
                    let expected = match row {
                        None => 1,
                        Some(_) if !lawful => 4,
                        Some(row) if row.1 != length => 5,
                        Some(_) if bits > 8 * bytes as u64 => 6,
                        Some(_) if bits > LIMIT => 7,
                        Some(_) => 0,
                    };
                    let found = answer(instance, width, &long[..bytes], bits, length);
                    assert_eq!(found, expected, "instance {instance}, width {width}, {bits} of {bytes} bytes, {length} bytes");
                }
            }
        }
    }
}
