//! QUARK and the sealed journal once more, written from the paper (document 001) and documents 01 and 02. It shares no code and no
//! tables with the Rattle side: the tests compare the two, and what the programs must write comes from here.

pub mod appendix_b;
pub mod clock_sets;
pub mod clocks_text;
pub mod digest;
pub mod hexadecimal;
pub mod journal;
pub mod journals;
pub mod marks;
pub mod marks_text;
mod permutation;
pub mod pieces;
pub mod pieces_text;

pub mod random;
pub mod sample;
pub mod steps;

pub use permutation::{invert, permute, state_bytes};
