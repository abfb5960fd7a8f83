//! QUARK's permutation and its inverse, one bit to a cell, from the paper's sections 3.2 and 3.3. The benchmark takes it as the
//! bit-per-cell form to be measured against.
//!
//! A register is a tape: step t reads the cells from t on and writes the cell at t + b/2, so nothing is moved. This is how the
//! authors' reference code works, with the tapes as fixed arrays.

/// The cells of the longest tape: a register of S (128 bits) and its 1,024 steps.
const TAPE: usize = 128 + 1024;

/// The cells of L's tape: its 10 bits and S's steps.
const L_TAPE: usize = 10 + 1024;

/// One instance of QUARK (section 3.3). The registers are windows of b/2 cells, cell 0 first.
pub(crate) trait Instance {
    /// b/2, the length of X and of Y.
    const HALF: usize;
    /// The taps that stand in f for U's 0, 9, 14, 15, 21, 28, 33, 37, 45, 50, 52, 55, 59.
    const F: [usize; 13];
    /// The taps that stand in g for U's 0, 7, 15, 16, 20, 30, 35, 37, 42, 49, 51, 54, 58.
    const G: [usize; 13];
    /// The function h of X, Y and L's first bit.
    fn h(x: &[u8], y: &[u8], l: u8) -> u8;
}

pub(crate) struct U;
pub(crate) struct D;
pub(crate) struct S;

impl Instance for U {
    const HALF: usize = 68;
    const F: [usize; 13] = [0, 9, 14, 15, 21, 28, 33, 37, 45, 50, 52, 55, 59];
    const G: [usize; 13] = [0, 7, 15, 16, 20, 30, 35, 37, 42, 49, 51, 54, 58];

    #[inline(always)]
    #[rustfmt::skip]
    fn h(x: &[u8], y: &[u8], l: u8) -> u8 {
        l ^ x[1] ^ y[2] ^ x[4] ^ y[10] ^ x[25] ^ x[31] ^ y[43] ^ x[56] ^ y[59]
            ^ y[3] & x[55] ^ x[46] & x[55] ^ x[55] & y[59]
            ^ y[3] & x[25] & x[46] ^ y[3] & x[46] & x[55] ^ y[3] & x[46] & y[59]
            ^ l & x[25] & x[46] & y[59] ^ l & x[25]
    }
}

impl Instance for D {
    const HALF: usize = 88;
    const F: [usize; 13] = [0, 11, 18, 19, 27, 36, 42, 47, 58, 64, 67, 71, 79];
    const G: [usize; 13] = [0, 9, 19, 20, 25, 38, 44, 47, 54, 63, 67, 69, 78];

    #[inline(always)]
    #[rustfmt::skip]
    fn h(x: &[u8], y: &[u8], l: u8) -> u8 {
        l ^ x[1] ^ y[2] ^ x[5] ^ y[12] ^ y[24] ^ x[35] ^ x[40] ^ x[48] ^ y[55] ^ y[61] ^ x[72] ^ y[79]
            ^ y[4] & x[68] ^ x[57] & x[68] ^ x[68] & y[79]
            ^ y[4] & x[35] & x[57] ^ y[4] & x[57] & x[68] ^ y[4] & x[57] & y[79]
            ^ l & x[35] & x[57] & y[79] ^ l & x[35]
    }
}

impl Instance for S {
    const HALF: usize = 128;
    const F: [usize; 13] = [0, 16, 26, 28, 39, 52, 61, 69, 84, 94, 97, 103, 111];
    // The paper has "function f" here, above a list of g's taps.
    const G: [usize; 13] = [0, 13, 28, 30, 37, 56, 65, 69, 79, 92, 96, 101, 109];

    #[inline(always)]
    #[rustfmt::skip]
    fn h(x: &[u8], y: &[u8], l: u8) -> u8 {
        l ^ x[1] ^ y[3] ^ x[7] ^ y[18] ^ y[34] ^ x[47] ^ x[58] ^ y[71] ^ y[80] ^ x[90] ^ y[91] ^ x[105] ^ y[111]
            ^ y[8] & x[100] ^ x[72] & x[100] ^ x[100] & y[111]
            ^ y[8] & x[47] & x[72] ^ y[8] & x[72] & x[100] ^ y[8] & x[72] & y[111]
            ^ l & x[47] & x[72] & y[111] ^ l & x[47]
    }
}

/// f of the register x. The names are U's taps: X14 is added, X15 stands in products.
#[inline(always)]
#[rustfmt::skip]
pub(crate) fn f<I: Instance>(x: &[u8]) -> u8 {
    let t = I::F;
    let (x0, x9, x14, x15, x21) = (x[t[0]], x[t[1]], x[t[2]], x[t[3]], x[t[4]]);
    let (x28, x33, x37, x45, x50) = (x[t[5]], x[t[6]], x[t[7]], x[t[8]], x[t[9]]);
    let (x52, x55, x59) = (x[t[10]], x[t[11]], x[t[12]]);
    x0 ^ x9 ^ x14 ^ x21 ^ x28 ^ x33 ^ x37 ^ x45 ^ x50 ^ x52 ^ x55
        ^ x55 & x59 ^ x33 & x37 ^ x9 & x15 ^ x45 & x52 & x55 ^ x21 & x28 & x33
        ^ x9 & x28 & x45 & x59 ^ x33 & x37 & x52 & x55 ^ x15 & x21 & x55 & x59
        ^ x37 & x45 & x52 & x55 & x59 ^ x9 & x15 & x21 & x28 & x33 ^ x21 & x28 & x33 & x37 & x45 & x52
}

/// g of the register y. The names are U's taps: Y16 is added, Y15 stands in products.
#[inline(always)]
#[rustfmt::skip]
pub(crate) fn g<I: Instance>(y: &[u8]) -> u8 {
    let t = I::G;
    let (y0, y7, y15, y16, y20) = (y[t[0]], y[t[1]], y[t[2]], y[t[3]], y[t[4]]);
    let (y30, y35, y37, y42, y49) = (y[t[5]], y[t[6]], y[t[7]], y[t[8]], y[t[9]]);
    let (y51, y54, y58) = (y[t[10]], y[t[11]], y[t[12]]);
    y0 ^ y7 ^ y16 ^ y20 ^ y30 ^ y35 ^ y37 ^ y42 ^ y49 ^ y51 ^ y54
        ^ y54 & y58 ^ y35 & y37 ^ y7 & y15 ^ y42 & y51 & y54 ^ y20 & y30 & y35
        ^ y7 & y30 & y42 & y58 ^ y35 & y37 & y51 & y54 ^ y15 & y20 & y54 & y58
        ^ y37 & y42 & y51 & y54 & y58 ^ y7 & y15 & y20 & y30 & y35 ^ y20 & y30 & y35 & y37 & y42 & y51
}

/// State bit i of the byte form: byte i div 8, weight 2 to the (7 - i mod 8).
pub(crate) fn bit(bytes: &[u8], i: usize) -> u8 {
    bytes[i / 8] >> (7 - i % 8) & 1
}

/// Writes the registers that stand on the tapes from cell `at` on in byte form, X then Y.
fn store(x: &[u8; TAPE], y: &[u8; TAPE], at: usize, half: usize, state: &mut [u8]) {
    state.fill(0);
    for i in 0..half {
        state[i / 8] |= x[at + i] << (7 - i % 8);
        let j = half + i;
        state[j / 8] |= y[at + i] << (7 - j % 8);
    }
}

/// P: 4b steps from all ones in L (section 3.2).
fn permute_as<I: Instance>(state: &mut [u8]) {
    let half = I::HALF;
    let steps = 8 * half;
    let (mut x, mut y, mut l) = ([0u8; TAPE], [0u8; TAPE], [0u8; L_TAPE]);
    for i in 0..half {
        x[i] = bit(state, i);
        y[i] = bit(state, half + i);
    }
    l[..10].fill(1);
    for t in 0..steps {
        let (now_x, now_y) = (&x[t..t + half], &y[t..t + half]);
        let h = I::h(now_x, now_y, l[t]);
        let next_x = now_y[0] ^ f::<I>(now_x) ^ h;
        let next_y = g::<I>(now_y) ^ h;
        x[t + half] = next_x;
        y[t + half] = next_y;
        l[t + 10] = l[t] ^ l[t + 3];
    }
    store(&x, &y, steps, half, state);
}

/// The inverse of P. The tapes are filled from their ends. Cell t is still 0 when step t is undone, so that f and g of the window give their sums
/// without the first bit, and h does not read it.
fn invert_as<I: Instance>(state: &mut [u8]) {
    let half = I::HALF;
    let steps = 8 * half;
    let (mut x, mut y, mut l) = ([0u8; TAPE], [0u8; TAPE], [0u8; L_TAPE]);
    for i in 0..half {
        x[steps + i] = bit(state, i);
        y[steps + i] = bit(state, half + i);
    }
    l[..10].fill(1);
    for t in 0..steps {
        l[t + 10] = l[t] ^ l[t + 3];
    }
    for t in (0..steps).rev() {
        let (now_x, now_y) = (&x[t..t + half], &y[t..t + half]);
        let h = I::h(now_x, now_y, l[t]);
        let y0 = y[t + half] ^ g::<I>(now_y) ^ h;
        let x0 = x[t + half] ^ y0 ^ f::<I>(now_x) ^ h;
        x[t] = x0;
        y[t] = y0;
    }
    store(&x, &y, 0, half, state);
}

/// The number of bytes of a state of instance 1 (U), 2 (D) or 3 (S).
pub fn state_bytes(instance: u32) -> usize {
    match instance {
        1 => 2 * U::HALF / 8,
        2 => 2 * D::HALF / 8,
        3 => 2 * S::HALF / 8,
        _ => panic!("no instance {instance}"),
    }
}

/// P of a state in byte form, for instance 1 (U), 2 (D) or 3 (S).
pub fn permute(instance: u32, state: &mut [u8]) {
    assert_eq!(state.len(), state_bytes(instance));
    match instance {
        1 => permute_as::<U>(state),
        2 => permute_as::<D>(state),
        _ => permute_as::<S>(state),
    }
}

/// The inverse of P on a state in byte form, for instance 1 (U), 2 (D) or 3 (S).
pub fn invert(instance: u32, state: &mut [u8]) {
    assert_eq!(state.len(), state_bytes(instance));
    match instance {
        1 => invert_as::<U>(state),
        2 => invert_as::<D>(state),
        _ => invert_as::<S>(state),
    }
}
