//! The check program, crates/journal_check/out/journal_check, run on inputs that the independent implementation makes: key, then journal. What
//! it prints is compared with the line that is written here and with the independent implementation's.
//!
//! That the program reads all of its input, and tells a failed read from the end, is proved nowhere: no contract of the kit says what a read
//! reads. So these tests try both mistakes. A buffer one byte shorter would accept `one_byte_over`, and a failed read that is taken for the
//! end would accept the whole journal of `a_failed_read`.
use reference::clock_sets::{bodies_at, journals, CLOCK_KEY};
use reference::journal::{report, Body, BODY, LONGEST, RECORD};
use reference::journals::{bodies, earlier_bodies, earlier_journals, nearly_blank_keys, reseal, sealed};
use reference::random::Random;
use std::fs::File;
use std::io::{self, ErrorKind, Read, Write};
use std::os::fd::OwnedFd;
use std::os::unix::net::{UnixDatagram, UnixStream};
use std::path::PathBuf;
use std::process::{Command, Stdio};

fn program() -> PathBuf {
    let path = PathBuf::from(concat!(env!("CARGO_MANIFEST_DIR"), "/../../crates/journal_check/out/journal_check"));
    assert!(path.is_file(), "{} is missing: run `rt run --cpu x86-64` in crates/journal_check first", path.display());
    path
}

/// What the program prints and what it says on standard error, where its standard input is this; its exit status is 0.
fn output_from(input: Stdio) -> (String, String) {
    let done = Command::new(program()).stdin(input).output().unwrap();
    assert!(done.status.success());
    (String::from_utf8(done.stdout).unwrap(), String::from_utf8(done.stderr).unwrap())
}

/// What the program prints where its standard input is this; it says nothing on standard error.
fn printed_from(input: Stdio) -> String {
    let (printed, said) = output_from(input);
    assert_eq!(said, "");
    printed
}

/// What the program prints for an input that comes through a pipe.
fn printed(mut input: impl Read) -> String {
    let mut child = Command::new(program()).stdin(Stdio::piped()).stdout(Stdio::piped()).stderr(Stdio::piped()).spawn().unwrap();
    let mut pipe = child.stdin.take().unwrap();
    // the program may stop reading once it has seen enough
    if let Err(error) = io::copy(&mut input, &mut pipe) {
        assert_eq!(error.kind(), ErrorKind::BrokenPipe);
    }
    drop(pipe);
    let mut text = String::new();
    child.stdout.take().unwrap().read_to_string(&mut text).unwrap();
    let done = child.wait_with_output().unwrap();
    assert!(done.status.success() && done.stderr.is_empty());
    text
}

/// The line for an input.
fn check(input: &[u8], line: &str) {
    assert_eq!(report(input), format!("{line}\n"), "the independent implementation");
    assert_eq!(printed(input), format!("{line}\n"), "{} bytes", input.len());
}

/// Key, then the journal of bodies, sealed in turn.
fn input(key: &[u8], bodies: &[Body]) -> Vec<u8> {
    [key, &sealed(key, bodies)].concat()
}

const KEY: &[u8; 16] = b"a key of 16 byte";

/// An input of some records.
fn lawful(seed: u64, records: usize) -> Vec<u8> {
    input(KEY, &bodies(&mut Random::new(seed), records))
}

/// The three lines of document 01, two under a blank key, and the edges around them.
#[test]
fn sample_lines() {
    check(&[1; 16], "accepted 0 0");
    check(&[1; 17], "refused 9 0");
    check(&[1; 15], "refused 5 0");
    check(&[], "refused 5 0");
    check(&[1; 1], "refused 5 0");
    check(&[0; 16], "refused 16 0");
    check(&[0; 17], "refused 16 0");
    check(&[0; 15], "refused 5 0");
    check(&[1; 16 + 39], "refused 9 0");
    check(&[1; 16 + 40], "refused 10 0");
}

/// A blank key with a journal that is whole, torn, over-long or broken.
#[test]
fn a_blank_key() {
    let whole = input(&[0; 16], &bodies(&mut Random::new(48), 2));
    check(&whole, "refused 16 0");
    check(&whole[..whole.len() - 1], "refused 16 0");
    check(&[&[0; 16], &lawful(40, 1_600)[16..], &[0]].concat(), "refused 16 0");
    for offset in [12, 4, BODY] {
        let mut broken = whole.clone();
        broken[16 + RECORD + offset] ^= 0x80;
        check(&broken, "refused 16 0");
    }
}

/// One byte of the key that is not zero is enough.
#[test]
fn nearly_blank_keys_are_taken() {
    let bodies = bodies(&mut Random::new(49), 2);
    for key in nearly_blank_keys() {
        check(&key, "accepted 0 0");
        check(&input(&key, &bodies), "accepted 2 146");
    }
}

#[test]
fn the_sample_journal() {
    let path = concat!(env!("CARGO_MANIFEST_DIR"), "/../../samples/journal.bin");
    assert_eq!(printed_from(File::open(path).unwrap().into()), "accepted 5 365\n");
}

#[test]
fn accepted_journals() {
    for records in [1, 2, 3, 10, 64] {
        check(&lawful(records as u64, records), &format!("accepted {records} {}", 73 * records));
    }
}

#[test]
fn the_longest_journal() {
    let longest = lawful(40, 1_600);
    assert_eq!(longest.len(), 16 + LONGEST);
    check(&longest, "accepted 1600 116800");
    check(&vec![1; 16 + LONGEST], "refused 10 0");
    check(&vec![0; 16 + LONGEST], "refused 16 0");
}

/// The longest journal and one byte more: a program that reads a byte less than it must would not see it.
#[test]
fn one_byte_over() {
    let mut over = lawful(40, 1_600);
    over.push(0);
    check(&over, "refused 9 0");
    over.resize(16 + LONGEST + RECORD, 0);
    check(&over, "refused 9 0");
    over.resize(1_000_000, 0);
    check(&over, "refused 9 0");
}

#[test]
fn torn_journals() {
    let whole = lawful(41, 3);
    for length in 16..=whole.len() {
        let records = (length - 16) / RECORD;
        let line = if (length - 16) % RECORD == 0 { format!("accepted {records} {}", 73 * records) } else { "refused 9 0".into() };
        check(&whole[..length], &line);
    }
}

/// One fault: lines 10, 11 and 12, each at place 0 and at others.
#[test]
fn one_fault() {
    let whole = lawful(42, 4);
    for place in 0..4 {
        let at = 16 + RECORD * place;
        for (number, offset) in [(10, 12), (10, 13), (10, 22), (11, 4), (12, BODY), (12, RECORD - 1), (12, 14)] {
            let mut damaged = whole.clone();
            damaged[at + offset] ^= 0x80;
            check(&damaged, &format!("refused {number} {place}"));
        }
    }
    // a time that falls where no clock is set, and another station, sealed in turn
    let mut changed = earlier_bodies(&mut Random::new(43), 4);
    changed[2].time = changed[1].time - 1;
    check(&input(KEY, &changed), "refused 11 2");
    let mut changed = bodies(&mut Random::new(43), 4);
    changed[3].station += 1;
    check(&input(KEY, &changed), "refused 11 3");
    // another key
    check(&[&[1; 16], &whole[16..]].concat(), "refused 12 0");
}

/// Two faults: the earlier record's, then the lower line, wins.
#[test]
fn two_faults() {
    let whole = lawful(44, 4);
    let damaged = |faults: &[(usize, usize)]| {
        let mut damaged = whole.clone();
        faults.iter().for_each(|(place, offset)| damaged[16 + RECORD * place + offset] ^= 0x80);
        damaged
    };
    check(&damaged(&[(1, BODY), (2, 12)]), "refused 12 1");
    check(&damaged(&[(2, BODY), (1, 12)]), "refused 10 1");
    check(&damaged(&[(1, BODY), (1, 12)]), "refused 10 1");
    check(&damaged(&[(1, BODY), (1, 4)]), "refused 11 1");
    check(&damaged(&[(3, 4), (3, 12)]), "refused 10 3");
    check(&damaged(&[(0, 4), (3, 12)]), "refused 11 0");
    // a fault in a torn journal
    check(&damaged(&[(0, 12)])[..16 + 3 * RECORD + 1], "refused 9 0");
}

/// A damaged record that is sealed again with all records after it: what is left is the layout and the succession. No clock is set.
#[test]
fn resealed() {
    let whole = input(KEY, &earlier_bodies(&mut Random::new(45), 4));
    for (offset, line) in [(8, "refused 11 2"), (12, "refused 10 1"), (4, "refused 11 1"), (14, "accepted 4 292")] {
        let mut journal = whole[16..].to_vec();
        journal[RECORD + offset] ^= 0x80;
        reseal(KEY, &mut journal, 1);
        check(&[&KEY[..], &journal].concat(), line);
    }
}

/// Station, time and current 0 and all ones; kind 3 with 0 and 65,535 ms.
#[test]
fn extreme_fields() {
    for any in [0, u32::MAX] {
        for milliseconds in [0, u16::MAX] {
            let body = |sequence, position| Body {
                station: any,
                sequence,
                time: any,
                kind: 3,
                position,
                current: any as u16,
                milliseconds,
                spare: [0; 5],
            };
            check(&input(KEY, &[body(1, 1), body(2, 6)]), "accepted 2 146");
        }
    }
}

/// Clocks that are set back from 1,000 to 400, and from the last time to the first.
#[test]
fn set_backs() {
    for kind in 1..=4 {
        check(&input(KEY, &bodies_at(&[(kind, 1_000), (5, 400), (kind, 400)])), "accepted 3 219");
        check(&input(KEY, &bodies_at(&[(kind, 1_000), (5, 400), (kind, 399)])), "refused 11 2");
        check(&input(KEY, &bodies_at(&[(5, 1_000), (kind, 400)])), "refused 11 1");
    }
    check(&input(KEY, &bodies_at(&[(1, 1_000), (5, 400), (5, 399)])), "accepted 3 219");
    check(&input(KEY, &bodies_at(&[(1, u32::MAX), (5, 0), (1, 0)])), "accepted 3 219");
    check(&input(KEY, &bodies_at(&[(1, 0), (5, u32::MAX), (1, 0)])), "refused 11 2");
    check(&input(KEY, &bodies_at(&[(5, 0)])), "accepted 1 73");
}

/// Clocks that are set back and forward, other fields of clock sets, and their seals.
#[test]
fn clock_sets() {
    for case in journals() {
        let records = case.journal.len() / RECORD;
        let line = match case.answer {
            Ok(()) => format!("accepted {records} {}\n", 73 * records),
            Err((number, place)) => format!("refused {number} {place}\n"),
        };
        assert_eq!(printed(&[&CLOCK_KEY[..], &case.journal].concat()[..]), line, "{}", case.what);
    }
}

/// A journal that is accepted without kind 5 is accepted still.
#[test]
fn earlier_journals_are_accepted() {
    for (key, journal) in earlier_journals() {
        let records = journal.len() / RECORD;
        assert_eq!(printed(&[key, journal].concat()[..]), format!("accepted {records} {}\n", 73 * records));
    }
}

/// What the program prints for an input of which every read gives one part: a datagram each, and an empty one for the end.
fn printed_part_by_part(input: &[u8], at_a_time: usize) -> String {
    let (ours, theirs) = UnixDatagram::pair().unwrap();
    let child = Command::new(program()).stdin(OwnedFd::from(theirs)).stdout(Stdio::piped()).stderr(Stdio::piped()).spawn().unwrap();
    input.chunks(at_a_time).for_each(|part| assert_eq!(ours.send(part).unwrap(), part.len()));
    ours.send(&[]).unwrap();
    let done = child.wait_with_output().unwrap();
    assert!(done.status.success() && done.stderr.is_empty());
    String::from_utf8(done.stdout).unwrap()
}

/// An input that comes in small parts is read to its end.
#[test]
fn a_slow_pipe() {
    let whole = lawful(46, 5);
    for at_a_time in [1, 7, 16, 39] {
        assert_eq!(printed_part_by_part(&whole, at_a_time), "accepted 5 365\n");
        assert_eq!(printed_part_by_part(&whole[..whole.len() - 1], at_a_time), "refused 9 0\n");
    }
    let longest = lawful(40, 1_600);
    assert_eq!(printed_part_by_part(&longest, 1_000), "accepted 1600 116800\n");
}

/// Zeros without an end, and zeros without an end after a first byte that is not zero.
#[test]
fn endless_input() {
    assert_eq!(printed_from(File::open("/dev/zero").unwrap().into()), "refused 16 0\n");
    assert_eq!(printed((&[1u8][..]).chain(io::repeat(0))), "refused 9 0\n");
}

const READING_FAILED: &str = "journal_check: reading standard input failed\n";

const WRITING_FAILED: &str = "journal_check: writing standard output failed\n";

/// Where a read fails after so much input, as on a socket that does not wait and has nothing more to read yet: the line that is printed.
/// Standard error says what failed.
fn printed_after_failure(input: &[u8]) -> String {
    let (mut ours, theirs) = UnixStream::pair().unwrap();
    theirs.set_nonblocking(true).unwrap();
    ours.write_all(input).unwrap();
    let (printed, said) = output_from(OwnedFd::from(theirs).into());
    drop(ours);
    assert_eq!(said, READING_FAILED);
    printed
}

/// A read that fails is not the end of an input: nothing is accepted, not even where a whole journal has come.
#[test]
fn a_failed_read() {
    // a folder can be opened, and not read
    assert_eq!(output_from(File::open("/").unwrap().into()), ("refused 5 0\n".into(), READING_FAILED.into()));
    let whole = lawful(47, 5);
    assert_eq!(printed(&whole[..]), "accepted 5 365\n");
    for length in [0, 1, 15] {
        assert_eq!(printed_after_failure(&whole[..length]), "refused 5 0\n");
    }
    for length in [16, 17, 16 + RECORD, whole.len()] {
        assert_eq!(printed_after_failure(&whole[..length]), "refused 9 0\n");
    }
    // zeros: a key that is not whole, and a blank key with what comes after it
    for length in [0, 1, 15] {
        assert_eq!(printed_after_failure(&vec![0; length]), "refused 5 0\n");
    }
    for length in [16, 17, 16 + RECORD, 16 + 5 * RECORD] {
        assert_eq!(printed_after_failure(&vec![0; length]), "refused 16 0\n");
    }
    for key in nearly_blank_keys() {
        assert_eq!(printed_after_failure(&key), "refused 9 0\n");
    }
}

/// A line that cannot be written is said on standard error, and the exit status is 0 all the same.
#[test]
fn a_failed_write() {
    let full = File::options().write(true).open("/dev/full").unwrap();
    let done = Command::new(program()).stdin(Stdio::null()).stdout(full).stderr(Stdio::piped()).spawn().unwrap();
    let done = done.wait_with_output().unwrap();
    assert!(done.status.success());
    assert_eq!(String::from_utf8(done.stderr).unwrap(), WRITING_FAILED);
}
