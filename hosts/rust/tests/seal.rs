//! Sealing agrees with the independent implementation; refused by 5, 16 or 10, in this order, the record buffer is as it was.
use reference::clock_sets::{bodies_at, sealings};
use reference::journal::{self as expected, Body};
use reference::journals::{bodies, nearly_blank_keys};
use reference::random::Random;
use wilbroged::{seal, verify, Refused};

/// Compares both, from a buffer that holds something, and answers the refusal's number.
fn compare(key: &[u8], previous: &[u8], body: &[u8], length: usize) -> Result<(), u32> {
    let before: Vec<u8> = (0..length).map(|i| (37 * i + 11) as u8).collect();
    let (mut record, mut record_expected) = (before.clone(), before.clone());
    let answer = seal(key, previous, body, &mut record);
    let answer_expected = expected::seal(key, previous, body, &mut record_expected);
    let answer_expected = answer_expected.map(|runs| assert_eq!(runs, 73)).map_err(|number| Refused { number, place: None });
    assert_eq!(answer, answer_expected, "key {key:02X?}, previous {previous:02X?}, body {body:02X?}");
    assert_eq!(record, record_expected, "key {key:02X?}, previous {previous:02X?}, body {body:02X?}");
    if answer.is_err() {
        assert_eq!(record, before);
    }
    answer.map_err(|refused| refused.number)
}

#[test]
fn bodies_that_keep_the_layout() {
    let mut random = Random::new(20);
    for body in bodies(&mut random, 200) {
        let (key, previous) = (random.bytes(16), random.bytes(17));
        assert_eq!(compare(&key, &previous, &body.bytes(), 40), Ok(()));
    }
}

/// Sealing reads no station, sequence, time or current, and takes any milliseconds of kind 3.
#[test]
fn extreme_fields() {
    for any in [0, u32::MAX] {
        for kind in 1..=5 {
            for position in 1..=6 {
                for milliseconds in if kind == 3 { vec![0, 1, 256, u16::MAX] } else { vec![0] } {
                    let body = Body {
                        station: any,
                        sequence: any,
                        time: any,
                        kind,
                        position,
                        current: any as u16,
                        milliseconds,
                        spare: [0; 5],
                    };
                    assert_eq!(compare(&[0xFF; 16], &[0; 17], &body.bytes(), 40), Ok(()));
                }
            }
        }
    }
}

#[test]
fn lengths() {
    let body = bodies(&mut Random::new(21), 1)[0].bytes();
    let (key, previous, body) = ([1; 33], [2; 33], [&body[..], &[0; 23]].concat());
    for (key_length, previous_length, body_length, length) in [
        (0, 17, 23, 40),
        (15, 17, 23, 40),
        (17, 17, 23, 40),
        (32, 17, 23, 40),
        (16, 0, 23, 40),
        (16, 16, 23, 40),
        (16, 18, 23, 40),
        (16, 17, 0, 40),
        (16, 17, 22, 40),
        (16, 17, 24, 40),
        (16, 17, 40, 40),
        (16, 17, 23, 0),
        (16, 17, 23, 23),
        (16, 17, 23, 39),
        (16, 17, 23, 41),
        (16, 17, 23, 296),
        (17, 16, 23, 40),
        (0, 0, 0, 0),
    ] {
        let answer = compare(&key[..key_length], &previous[..previous_length], &body[..body_length], length);
        assert_eq!(answer, Err(5), "{key_length}, {previous_length}, {body_length}, {length}");
    }
    assert_eq!(compare(&key[..16], &previous[..17], &body[..23], 40), Ok(()));
}

/// Every byte of the layout at every value: kind, position, the milliseconds' two bytes under each kind, and the five spare bytes.
#[test]
fn layouts() {
    let whole = Body { station: 7, sequence: 0, time: 9, kind: 1, position: 1, current: 300, milliseconds: 0, spare: [0; 5] };
    for kind in 1..=5 {
        let start = Body { kind, ..whole }.bytes();
        for at in 12..23 {
            for byte in 0..=255 {
                let mut body = start;
                body[at] = byte;
                let free = at == 14 || at == 15 || kind == 3 && (at == 16 || at == 17);
                let lawful = match at {
                    12 => (1..=5).contains(&byte),
                    13 => (1..=6).contains(&byte),
                    _ => free || byte == 0,
                };
                // a body that breaks the layout is cheap to refuse; of the others every eighth is sealed
                if !lawful || byte % 8 == 1 {
                    assert_eq!(compare(&[3; 16], &[4; 17], &body, 40).is_ok(), lawful, "kind {kind}, byte {at} is {byte}");
                }
            }
        }
    }
}

/// A milliseconds field that is not 0 goes with kind 3 alone, whatever the kind was before.
#[test]
fn kind_and_milliseconds() {
    for kind in 0..=255 {
        for milliseconds in [0, 1, 255, 256, u16::MAX] {
            let body = Body { station: 1, sequence: 1, time: 1, kind, position: 6, current: 0, milliseconds, spare: [0; 5] };
            let lawful = kind == 3 || (1..=5).contains(&kind) && milliseconds == 0;
            assert_eq!(compare(&[3; 16], &[4; 17], &body.bytes(), 40), if lawful { Ok(()) } else { Err(10) });
        }
    }
}

/// A clock set has a position as every kind has, and no milliseconds. What line 11 would refuse is sealed.
#[test]
fn clock_sets() {
    let sealing = |body: &Body| compare(&[3; 16], &[4; 17], &body.bytes(), 40);
    for (body, answer) in sealings() {
        assert_eq!(sealing(&body), answer, "{body:?}");
    }
    let whole = bodies_at(&[(5, 1_000)])[0];
    for position in 0..=255 {
        let lawful = (1..=6).contains(&position);
        assert_eq!(sealing(&Body { position, ..whole }), if lawful { Ok(()) } else { Err(10) }, "position {position}");
    }
    for milliseconds in 1..=u16::MAX {
        assert_eq!(sealing(&Body { milliseconds, ..whole }), Err(10), "{milliseconds} ms");
    }
}

/// Sixteen zeros are refused by 16, and another number of zeros by 5.
#[test]
fn zeros_for_a_key() {
    for body in bodies(&mut Random::new(22), 3) {
        for zeros in 0..=40 {
            let answer = compare(&[0; 40][..zeros], &[4; 17], &body.bytes(), 40);
            assert_eq!(answer, Err(if zeros == 16 { 16 } else { 5 }), "{zeros} zeros");
        }
    }
}

/// One byte of the key that is not zero is enough, and the record is then accepted.
#[test]
fn nearly_blank_keys_are_taken() {
    let body = bodies(&mut Random::new(23), 1)[0].bytes();
    for key in nearly_blank_keys() {
        assert_eq!(compare(&key, &[0; 17], &body, 40), Ok(()));
        let mut record = [0; 40];
        assert_eq!(seal(&key, &[0; 17], &body, &mut record), Ok(()));
        assert_eq!(verify(&key, &record), Ok(()));
    }
}

/// 5, of each of the four lengths, comes before 16 and before 10, and 16 before 10.
#[test]
fn the_first_line_that_holds() {
    for key in [0, 1] {
        for other in [-1, 1] {
            let length = |bytes: usize| bytes.checked_add_signed(other).unwrap();
            assert_eq!(compare(&vec![key; length(16)], &[0; 17], &[0; 23], 40), Err(5));
            assert_eq!(compare(&[key; 16], &vec![0; length(17)], &[0; 23], 40), Err(5));
            assert_eq!(compare(&[key; 16], &[0; 17], &vec![0; length(23)], 40), Err(5));
            assert_eq!(compare(&[key; 16], &[0; 17], &[0; 23], length(40)), Err(5));
        }
    }
    assert_eq!(compare(&[0; 16], &[0; 17], &[0; 23], 40), Err(16));
    assert_eq!(compare(&[1; 16], &[0; 17], &[0; 23], 40), Err(10));
}
