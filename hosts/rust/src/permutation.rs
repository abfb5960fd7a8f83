//! QUARK's permutation and its inverse, whole or some of their steps.
use crate::Refused;

extern "C" {
    // A slice is two arguments: the pointer, then the length.
    fn quark_permute(instance: u32, width: u32, state: *mut u8, state_len: usize) -> u32;
    fn quark_invert(instance: u32, width: u32, state: *mut u8, state_len: usize) -> u32;
    fn quark_steps(instance: u32, width: u32, l: u32, count: u32, state: *mut u8, state_len: usize, l_after: *mut u32) -> u32;
    fn quark_steps_back(instance: u32, width: u32, l: u32, count: u32, state: *mut u8, state_len: usize) -> u32;
}

/// Puts the permutation of `state` in its place. Refused, in this order, by `UNKNOWN_INSTANCE`, `UNKNOWN_WIDTH` and `WRONG_LENGTH`, which is
/// about the bytes of `state`.
///
/// The paper's Appendix B gives a state of U-QUARK, the initial one with the padding of the empty message added, and what the permutation
/// makes of it:
///
/// ```
/// use wilbroged::{permute, Refused, S_WIDTH, U, U_WIDTH};
///
/// let mut state = [
///     0xD8, 0xDA, 0xCA, 0x44, 0x41, 0x4A, 0x09, 0x97, 0x19, 0xC8, 0x0A, 0xA3, 0xAF, 0x06, 0x56, 0x44, 0x5B,
/// ];
/// assert_eq!(permute(U, U_WIDTH, &mut state), Ok(()));
/// assert_eq!(
///     state,
///     [0x9A, 0x03, 0xA9, 0xDE, 0xFB, 0xB9, 0xED, 0x38, 0x67, 0xDA, 0xB1, 0x8E, 0xC0, 0x39, 0x27, 0x62, 0x12],
/// );
///
/// assert_eq!(permute(U, S_WIDTH, &mut state).unwrap_err().number, Refused::UNKNOWN_WIDTH);
/// ```
pub fn permute(instance: u32, width: u32, state: &mut [u8]) -> Result<(), Refused> {
    // SAFETY: the pointer and the length are those of a slice that is lent for the call, and the function writes nothing else.
    Refused::unless_accepted(unsafe { quark_permute(instance, width, state.as_mut_ptr(), state.len()) })
}

/// Puts the inverse of the permutation on `state` in its place. Refused as [`permute`] is.
///
/// ```
/// use wilbroged::{invert, permute, S, S_BYTES, S_WIDTH};
///
/// let mut state = [7; S_BYTES];
/// permute(S, S_WIDTH, &mut state)?;
/// invert(S, 1, &mut state)?;
/// assert_eq!(state, [7; S_BYTES]);
/// # Ok::<(), wilbroged::Refused>(())
/// ```
pub fn invert(instance: u32, width: u32, state: &mut [u8]) -> Result<(), Refused> {
    // SAFETY: as in `permute`.
    Refused::unless_accepted(unsafe { quark_invert(instance, width, state.as_mut_ptr(), state.len()) })
}

/// Takes `count` steps of the permutation: puts the state after them in its place, and answers the register L's value after them. `l` is
/// L's value before them. Refused, in this order, by `UNKNOWN_INSTANCE`, `UNKNOWN_WIDTH`, `STEPS_OUT_OF_RANGE` (`l` is over
/// [`L_ALL_ONES`](crate::L_ALL_ONES), or `count` is over the instance's steps, [`U_STEPS`](crate::U_STEPS) and so on, or no multiple of the
/// width) and `WRONG_LENGTH`, which is about the bytes of `state`.
///
/// All steps from all ones are [`permute`]. A further call with the state and the value of L that this one leaves goes on where this one
/// stopped. Here the permutation of a state from the paper's Appendix B stops after 16 steps, and goes on to its end:
///
/// ```
/// use wilbroged::{steps, Refused, L_ALL_ONES, U, U_STEPS, U_WIDTH};
///
/// let mut state = [
///     0xD8, 0xDA, 0xCA, 0x44, 0x41, 0x4A, 0x09, 0x97, 0x19, 0xC8, 0x0A, 0xA3, 0xAF, 0x06, 0x56, 0x44, 0x5B,
/// ];
/// let l = steps(U, U_WIDTH, L_ALL_ONES, 16, &mut state)?;
/// assert_eq!(l, 0b0111000011);
/// assert_eq!(
///     state,
///     [0xCA, 0x44, 0x41, 0x4A, 0x09, 0x97, 0x13, 0x4F, 0xCA, 0xA3, 0xAF, 0x06, 0x56, 0x44, 0x5B, 0x11, 0x3C],
/// );
///
/// assert_eq!(steps(U, U_WIDTH, l, U_STEPS - 16, &mut state), Ok(0b1010110111));
/// assert_eq!(
///     state,
///     [0x9A, 0x03, 0xA9, 0xDE, 0xFB, 0xB9, 0xED, 0x38, 0x67, 0xDA, 0xB1, 0x8E, 0xC0, 0x39, 0x27, 0x62, 0x12],
/// );
///
/// // Twelve steps are no whole groups of eight.
/// assert_eq!(steps(U, U_WIDTH, L_ALL_ONES, 12, &mut state).unwrap_err().number, Refused::STEPS_OUT_OF_RANGE);
/// # Ok::<(), Refused>(())
/// ```
pub fn steps(instance: u32, width: u32, l: u32, count: u32, state: &mut [u8]) -> Result<u32, Refused> {
    let mut l_after = 0;
    // SAFETY: as in `permute`, and `l_after` is a number of this function's own.
    let answer = unsafe { quark_steps(instance, width, l, count, state.as_mut_ptr(), state.len(), &mut l_after) };
    Refused::unless_accepted(answer).map(|()| l_after)
}

/// Undoes `count` steps of the permutation: puts the state from before them in its place. `l` is L's value before those steps, and not
/// after them. All steps with all ones are [`invert`]. Refused as [`steps`] is.
///
/// ```
/// use wilbroged::{steps, steps_back, S, S_BYTES, S_WIDTH};
///
/// let mut state = [7; S_BYTES];
/// steps(S, S_WIDTH, 5, 160, &mut state)?;
/// steps_back(S, 1, 5, 160, &mut state)?;
/// assert_eq!(state, [7; S_BYTES]);
/// # Ok::<(), wilbroged::Refused>(())
/// ```
pub fn steps_back(instance: u32, width: u32, l: u32, count: u32, state: &mut [u8]) -> Result<(), Refused> {
    // SAFETY: as in `permute`.
    Refused::unless_accepted(unsafe { quark_steps_back(instance, width, l, count, state.as_mut_ptr(), state.len()) })
}
