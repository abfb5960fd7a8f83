//! The text that crates/clocks must write, from this implementation of P's steps: for each instance, from the first state of Appendix B,
//! every eighth clock of P with its count of steps, L's bits and the state.
use crate::steps::clocks;
use crate::{appendix_b, hexadecimal};
use std::fmt::Write;

/// The whole text.
pub fn text() -> String {
    let mut text = String::new();
    for (instance, name) in [(1, 'U'), (2, 'D'), (3, 'S')] {
        writeln!(text, "{name}-QUARK").unwrap();
        let start = &appendix_b::states(instance)[0];
        for (count, (state, l)) in clocks(instance, 1_023, start).into_iter().enumerate().step_by(8) {
            // bit 0 has the highest weight, so that it is the first digit
            writeln!(text, "{count} {l:010b} {}", hexadecimal::text(&state)).unwrap();
        }
    }
    text
}
