//! Safe wrappers over the proved functions of `crates/wilbroged`: QUARK's permutation and its inverse, whole or some of their steps, its
//! digest, and the sealed journal.
//!
//! An instance of QUARK is a number: [`U`], [`D`] or [`S`]. A step width says how many steps are taken together: 1 or 8, and 16 for `S`
//! alone. Every width gives the same bytes, and the widest is usually the fastest. Bit i of a state or a message is in byte i div 8 with weight
//! 2 to the (7 - i mod 8).
//!
//! The steps of the permutation P work on three registers: X is the first half of a state, Y the second, and L has ten bits of its own. L's
//! value is a number in which bit 0 has weight 512 and bit 9 weight 1.
//!
//! The package links the archive that `rt lib --cpu x86-64` writes in `crates/wilbroged`, so run that first.
//!
//! A call that is refused answers the first refusal that holds, in the order that the function's comment gives, and writes nothing:
//! [`Refused`] has its number, its place, and a sentence for people. `docs/RULES.md` explains the rules.
//!
//! The functions keep no state of their own, so that threads may call them at the same time. They do not run in constant time, and do not
//! hide a key from someone who can measure them.

mod digest;
mod journal;
mod parameters;
mod permutation;
mod refused;

pub use digest::digest;
pub use journal::{seal, verify};
pub use parameters::*;
pub use permutation::{invert, permute, steps, steps_back};
pub use refused::Refused;
