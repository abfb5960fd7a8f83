//! The benchmark: permutation, inverse and digest at each width of each instance, and the journal check, each beside two peers in Rust in the
//! same run: one of the same form, and one with a bit to a cell (`reference`). It prints one table of times and ratios and asserts nothing.
//!
//! `cargo run --release --offline --bin bench` in `hosts/rust`, after `rt lib --cpu x86-64` in `crates/wilbroged`.
mod cells;
mod peer;
mod records;
mod sponge;
mod timing;
mod words;

use reference::journals::{bodies, sealed};
use reference::random::Random;
use timing::{Timed, ROUND};

/// Rounds of each function: so many that some are undisturbed, and few enough for long calls.
const SHORT_ROUNDS: usize = 240;
const DIGEST_ROUNDS: usize = 120;
const LONG_DIGEST_ROUNDS: usize = 30;
const VERIFY_ROUNDS: usize = 15;

/// The instances with their widths.
const INSTANCES: [(u32, &str, &[u32]); 3] = [(1, "U", &[1, 8]), (2, "D", &[1, 8]), (3, "S", &[1, 8, 16])];

/// The proved function at one width, and the same form in Rust.
struct Width {
    width: u32,
    proved: Timed,
    same: Timed,
}

/// One kind of work on one instance, at each of its widths, and the bit-per-cell form, which has no width.
struct Work {
    name: String,
    instance: &'static str,
    /// The unit of the times, and how many make a second.
    unit: (&'static str, f64),
    rounds: usize,
    calls_at_once: u32,
    widths: Vec<Width>,
    cell: Timed,
}

const MICROSECONDS: (&str, f64) = ("µs", 1e6);
const MILLISECONDS: (&str, f64) = ("ms", 1e3);

impl Work {
    fn permutation(instance: u32, name: &'static str, widths: &[u32], back: bool) -> Work {
        let at = |width| match back {
            false => Width {
                width,
                proved: Timed::new(move |state| wilbroged::permute(instance, width, state).unwrap()),
                same: Timed::new(move |state| peer::permute(instance, width, state)),
            },
            true => Width {
                width,
                proved: Timed::new(move |state| wilbroged::invert(instance, width, state).unwrap()),
                same: Timed::new(move |state| peer::invert(instance, width, state)),
            },
        };
        Work {
            name: if back { "inverse" } else { "permutation" }.into(),
            instance: name,
            unit: MICROSECONDS,
            rounds: SHORT_ROUNDS,
            calls_at_once: 8,
            widths: widths.iter().map(|&width| at(width)).collect(),
            cell: match back {
                false => Timed::new(move |state| reference::permute(instance, state)),
                true => Timed::new(move |state| reference::invert(instance, state)),
            },
        }
    }

    fn digest(instance: u32, name: &'static str, widths: &[u32], bytes: usize) -> Work {
        let message = Random::new(8).bytes(bytes);
        let at = |width| {
            let (ours, theirs) = (message.clone(), message.clone());
            Width {
                width,
                proved: Timed::new(move |digest| {
                    wilbroged::digest(instance, width, &ours, 8 * ours.len() as u64, digest).unwrap();
                }),
                same: Timed::new(move |digest| {
                    sponge::digest(instance, width, &theirs, 8 * theirs.len(), digest);
                }),
            }
        };
        let widths = widths.iter().map(|&width| at(width)).collect();
        Work {
            name: format!("digest, {bytes} bytes"),
            instance: name,
            unit: MICROSECONDS,
            rounds: if bytes > 100 { LONG_DIGEST_ROUNDS } else { DIGEST_ROUNDS },
            calls_at_once: 1,
            widths,
            cell: Timed::new(move |digest| {
                digest.copy_from_slice(&reference::digest::digest(instance, &message, 8 * message.len()).bytes);
            }),
        }
    }

    fn verify(records: usize) -> Work {
        let mut random = Random::new(9);
        let key = random.bytes(16);
        let journal = sealed(&key, &bodies(&mut random, records));
        let checked = |check: fn(&[u8], &[u8]) -> bool| {
            let (key, journal) = (key.clone(), journal.clone());
            Timed::new(move |_| assert!(check(&key, &journal)))
        };
        Work {
            name: format!("verify, {records} records"),
            instance: "U",
            unit: MILLISECONDS,
            rounds: VERIFY_ROUNDS,
            calls_at_once: 1,
            widths: vec![Width {
                width: 8,
                proved: checked(|key, journal| wilbroged::verify(key, journal).is_ok()),
                same: checked(|key, journal| records::verify(key, journal).is_ok()),
            }],
            cell: checked(|key, journal| reference::journal::verify(key, journal).is_ok()),
        }
    }

    /// Measures all functions round by round, so that a slow spell of the machine meets all of them and their ratios hold.
    fn measure(&mut self, buffer: &mut [u8]) {
        for _ in 0..self.rounds {
            self.cell.round(buffer, self.calls_at_once);
            for width in &mut self.widths {
                width.proved.round(buffer, self.calls_at_once);
                width.same.round(buffer, self.calls_at_once);
            }
        }
    }

    /// A row for each width.
    fn print(&self) {
        let (unit, a_second) = self.unit;
        let cell = self.cell.best;
        let mut narrower: Option<f64> = None;
        for row in &self.widths {
            let (proved, same) = (row.proved.best, row.same.best);
            let against_narrower = narrower.map_or("-".into(), |narrower| format!("{:.2}", narrower / proved));
            println!(
                "{:20}  {:8}  {:5}  {unit:4}  {:>8.2}  {:>9.2}  {:>12.2}  {:>12.2}  {:>16.2}  {:>16}",
                self.name,
                self.instance,
                row.width,
                proved * a_second,
                same * a_second,
                cell * a_second,
                same / proved,
                cell / proved,
                against_narrower,
            );
            narrower = Some(proved);
        }
    }
}

fn main() {
    println!("The time of a call is the best of {SHORT_ROUNDS} rounds (permutation, inverse), {DIGEST_ROUNDS} (digest of 0 and 56 bytes),");
    println!(
        "{LONG_DIGEST_ROUNDS} (of 1000 bytes) or {VERIFY_ROUNDS} (verify), each of {} µs or one call. No buffer was cleared first.",
        ROUND.as_micros()
    );
    println!("A speed is a time over the proved function's: the time of the same form in Rust, of the bit-per-cell form in Rust, and of the");
    println!("proved function at the next narrower width.");
    println!();
    println!("work                  instance  width  unit    proved  same form  bit-per-cell  speed (same)  speed (per cell)  speed (narrower)");
    let permutations = INSTANCES.iter().flat_map(|&(instance, name, widths)| {
        [false, true].map(|back| (instance, Work::permutation(instance, name, widths, back)))
    });
    let digests = INSTANCES
        .iter()
        .flat_map(|&(instance, name, widths)| [0, 56, 1000].map(|bytes| (instance, Work::digest(instance, name, widths, bytes))));
    let verify = [(1, Work::verify(1600))];
    for (instance, mut work) in permutations.chain(digests).chain(verify) {
        work.measure(&mut Random::new(7).bytes(reference::state_bytes(instance)));
        work.print();
    }
}
