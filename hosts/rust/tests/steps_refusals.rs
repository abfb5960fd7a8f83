//! Every refusal of the steps and of their undoing, in checking order (docs/RULES.md), with the buffer as it was: 1 the instance, 4 the
//! width, 20 L's value or the count, 5 the length. That a refused call writes no value of L is tried in hosts/c/check.c.
use wilbroged::{steps, steps_back, Refused};

/// The answer of both functions; whatever is refused leaves the buffer as it was.
fn answer(instance: u32, width: u32, l: u32, count: u32, length: usize) -> u32 {
    let before: Vec<u8> = (0..length).map(|i| (37 * i + 11) as u8).collect();
    let (mut forward, mut back) = (before.clone(), before.clone());
    let answer = steps(instance, width, l, count, &mut forward).map(|_| ());
    let answer_back = steps_back(instance, width, l, count, &mut back);
    assert_eq!(answer, answer_back, "instance {instance}, width {width}, value {l}, {count} steps, {length} bytes");
    match answer {
        Ok(()) => 0,
        Err(Refused { number, place }) => {
            assert_eq!((&forward, &back), (&before, &before));
            assert_ne!(number, 0);
            assert_eq!(place, None);
            number
        }
    }
}

/// Each instance with the bytes of a state and the steps of the permutation.
const INSTANCES: [(u32, usize, u32); 3] = [(1, 17, 544), (2, 22, 704), (3, 32, 1_024)];

#[test]
fn an_instance_is_not_1_2_or_3() {
    for instance in [0, 4, 257, 258, 259, 0x1_0001, u32::MAX] {
        for length in [0, 17, 22, 32] {
            for width in [0, 1, 8, 16] {
                for count in [0, 16, 17, 1_025] {
                    assert_eq!(answer(instance, width, 1_023, count, length), 1);
                    assert_eq!(answer(instance, width, 1_024, count, length), 1);
                }
            }
        }
    }
}

/// Nothing is divided by a width of 0.
#[test]
fn a_width_is_not_its_instances() {
    for (instance, bytes, all) in INSTANCES {
        for width in [0, 2, 3, 4, 7, 9, 15, 17, 32, 257, 264, 272, 0x1_0008, u32::MAX] {
            for count in [0, 1, width, all, all + 1] {
                assert_eq!(answer(instance, width, 1_023, count, bytes), 4);
                assert_eq!(answer(instance, width, 1_024, count, bytes - 1), 4);
            }
        }
    }
    assert_eq!(answer(1, 16, 1_023, 544, 17), 4);
    assert_eq!(answer(2, 16, 1_023, 704, 22), 4);
    assert_eq!(answer(3, 16, 1_023, 1_024, 32), 0);
}

#[test]
fn a_value_is_not_ls() {
    for (instance, bytes, all) in INSTANCES {
        for width in [1, 8] {
            for count in [0, 8, all] {
                for l in [0, 1, 512, 1_022, 1_023] {
                    assert_eq!(answer(instance, width, l, count, bytes), 0);
                }
                for l in [1_024, 1_025, 2_047, 0x1_0000, 0x1_03FF, 1 << 31, u32::MAX] {
                    assert_eq!(answer(instance, width, l, count, bytes), 20);
                }
            }
        }
    }
}

#[test]
fn a_count_is_over_the_permutations() {
    for (instance, bytes, all) in INSTANCES {
        for width in [1, 8] {
            assert_eq!(answer(instance, width, 1_023, all, bytes), 0);
            for count in [all + 1, all + 8, all + 16, 2 * all, 0x1_0000, 0x1_0010, 1 << 31, u32::MAX - 15, u32::MAX] {
                assert_eq!(answer(instance, width, 1_023, count, bytes), 20);
                assert_eq!(answer(instance, width, 0, count, bytes), 20);
            }
        }
    }
    assert_eq!(answer(3, 16, 1_023, 1_040, 32), 20);
}

#[test]
fn a_count_is_no_multiple_of_the_width() {
    for (instance, bytes, all) in INSTANCES {
        for width in [1, 8, 16].into_iter().filter(|&width| width != 16 || instance == 3) {
            for count in (0..=33).chain(all - 33..=all) {
                assert_eq!(answer(instance, width, 1_023, count, bytes), if count % width == 0 { 0 } else { 20 });
            }
        }
    }
}

#[test]
fn a_buffer_is_not_its_instances() {
    for (instance, bytes, all) in INSTANCES {
        for width in [1, 8] {
            for length in [0, 1, bytes - 1, bytes + 1, 2 * bytes, bytes + 256] {
                for count in [0, 8, all] {
                    assert_eq!(answer(instance, width, 1_023, count, length), 5);
                }
            }
        }
    }
    assert_eq!(answer(1, 8, 1_023, 544, 32), 5);
    assert_eq!(answer(2, 8, 1_023, 704, 32), 5);
    assert_eq!(answer(3, 16, 1_023, 1_024, 31), 5);
}

/// Where several lines hold, the first of 1, 4, 20, 5 is answered.
#[test]
fn the_first_line_that_holds() {
    for (instance, bytes, all) in INSTANCES {
        assert_eq!(answer(0, 0, 1_024, all + 1, bytes - 1), 1);
        assert_eq!(answer(instance, 0, 1_024, all + 1, bytes - 1), 4);
        assert_eq!(answer(instance, 2, 1_023, 0, bytes - 1), 4);
        assert_eq!(answer(instance, 8, 1_024, 8, bytes - 1), 20);
        assert_eq!(answer(instance, 8, 1_023, all + 8, bytes + 1), 20);
        assert_eq!(answer(instance, 8, 1_023, 9, 0), 20);
        assert_eq!(answer(instance, 8, 1_023, 8, bytes - 1), 5);
    }
}

/// Every combination of edges, against the lines in order.
#[test]
fn every_combination() {
    let numbers = [0, 1, 2, 3, 4, 7, 8, 9, 15, 16, 17, 256, 257, 259, 264, 272, u32::MAX];
    let counts =
        [0, 1, 7, 8, 9, 16, 24, 543, 544, 545, 552, 560, 704, 705, 712, 720, 1_024, 1_025, 1_032, 1_040, 0x1_0000, u32::MAX - 15];
    for instance in numbers {
        for width in numbers {
            for l in [0, 1, 1_023, 1_024, 0x1_0001, u32::MAX] {
                for count in counts {
                    for length in [0, 16, 17, 18, 22, 23, 31, 32, 33, 288] {
                        let lawful = width == 1 || width == 8 || (width == 16 && instance == 3);
                        let expected = match INSTANCES.iter().find(|row| row.0 == instance) {
                            None => 1,
                            Some(_) if !lawful => 4,
                            Some(&(_, _, all)) if l > 1_023 || count > all || count % width != 0 => 20,
                            Some(&(_, bytes, _)) if bytes != length => 5,
                            Some(_) => 0,
                        };
                        let found = answer(instance, width, l, count, length);
                        assert_eq!(found, expected, "instance {instance}, width {width}, value {l}, {count} steps, {length} bytes");
                    }
                }
            }
        }
    }
}
