//! The sample journal that is shipped with the project, samples/journal.bin: key, then five records of one lamp change.
use crate::journal::Body;
use crate::journals::sealed;

pub fn sample() -> Vec<u8> {
    let key = b"lighthouse key 1";
    let start: u32 = 1_900_000_000;
    let body = |sequence, seconds, kind, position, current, milliseconds| Body {
        station: 12,
        sequence,
        time: start + seconds,
        kind,
        position,
        current,
        milliseconds,
        spare: [0; 5],
    };
    let bodies = [
        // a test of the spare lamp, lamp 1 lit, failed, changed for lamp 2 within 840 ms, lamp 2 lit
        body(1, 0, 4, 2, 410, 0),
        body(2, 60, 1, 1, 8_300, 0),
        body(3, 31_000, 2, 1, 0, 0),
        body(4, 31_000, 3, 2, 8_150, 840),
        body(5, 31_001, 1, 2, 8_290, 0),
    ];
    [&key[..], &sealed(key, &bodies)].concat()
}
