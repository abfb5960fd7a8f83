//! The word peer: the Rattle word form (`crates/words`, and `several.rt` of `permutation`) in Rust, with the same groups
//! of steps, masks, loads and stores, so that the benchmark compares one form in two languages.

/// X or Y as the number hi * 2^64 + lo, or a mask over it.
#[derive(Clone, Copy)]
struct Register {
    hi: u64,
    lo: u64,
}

/// Bits of X and of Y, or of f and of g, for the steps of a group: bit k of a word is the bit of step k.
#[derive(Clone, Copy)]
struct StepBits {
    x: u64,
    y: u64,
}

/// X, Y and L.
#[derive(Clone, Copy)]
struct State {
    x: Register,
    y: Register,
    l: u64,
}

// Bytes and cells.

pub fn load_bytes(buffer: &[u8], bits: &mut [u8; 256]) {
    for i in 0..8 * buffer.len() {
        bits[i] = (buffer[i / 8] >> (7 - i % 8)) % 2;
    }
}

pub fn store_bytes(bits: &[u8; 256], buffer: &mut [u8]) {
    for j in 0..buffer.len() {
        let b = &bits[8 * j..8 * j + 8];
        buffer[j] = b[0] * 128 + b[1] * 64 + b[2] * 32 + b[3] * 16 + b[4] * 8 + b[5] * 4 + b[6] * 2 + b[7];
    }
}

// Cells and registers.

fn read_word(bits: &[u8; 256], from: usize, n: usize) -> u64 {
    let mut word = 0;
    for i in (0..n).rev() {
        word = word * 2 + u64::from(bits[from + i]);
    }
    word
}

fn write_word(word: u64, n: usize, bits: &mut [u8; 256], from: usize) {
    let mut rest = word;
    for i in 0..n {
        bits[from + i] = (rest % 2) as u8;
        rest /= 2;
    }
}

fn load(bits: &[u8; 256], from: usize, half: usize) -> Register {
    Register { hi: read_word(bits, from + 64, half - 64), lo: read_word(bits, from, 64) }
}

fn save(r: Register, bits: &mut [u8; 256], from: usize, half: usize) {
    write_word(r.lo, 64, bits, from);
    write_word(r.hi, half - 64, bits, from + 64);
}

/// The 64 bits of a register from bit t on, 0 past its end.
#[inline(always)]
fn window(r: Register, t: u32) -> u64 {
    match t {
        0 => r.lo,
        1..=63 => (r.lo >> t) | (r.hi << (64 - t)),
        _ => r.hi >> (t - 64),
    }
}

#[inline(always)]
fn down(r: Register) -> Register {
    Register { hi: r.hi / 2, lo: window(r, 1) }
}

#[inline(always)]
fn push(r: Register, new: u64, kept: u32, width: u32) -> Register {
    let lo = window(r, width);
    if kept < 64 {
        Register { hi: new >> (64 - kept), lo: lo | (new << kept) }
    } else {
        Register { hi: (r.hi >> width) | (new << (kept - 64)), lo }
    }
}

#[inline(always)]
fn up(r: Register, n: u32) -> Register {
    Register { hi: window(r, 64 - n), lo: r.lo << n }
}

/// The mirror of `push`: moved up by `width`, with the bits of `new` before the `kept` bits that stay.
#[inline(always)]
fn pull(r: Register, new: u64, kept: u32, width: u32) -> Register {
    let above = 128 - width - kept;
    Register { hi: (window(r, 64 - width) << above) >> above, lo: new | (r.lo << width) }
}

// L in strides.

#[inline(always)]
fn four_steps_of_l(l: u64) -> u64 {
    ((l ^ (l / 8)) % 16) * 64 + l / 16
}

#[inline(always)]
fn eight_steps_of_l(l: u64) -> u64 {
    four_steps_of_l(four_steps_of_l(l))
}

#[inline(always)]
fn eight_steps_of_l_back(l: u64) -> u64 {
    let m = ((l / 4) ^ (l * 32)) % 256;
    l % 4 * 256 + (m ^ (m / 8) ^ (m / 64))
}

fn forty_bits_of_l(l: u64) -> u64 {
    let l8 = eight_steps_of_l(l);
    let l16 = eight_steps_of_l(l8);
    let l24 = eight_steps_of_l(l16);
    let l32 = eight_steps_of_l(l24);
    l % 256 + l8 % 256 * 0x100 + l16 % 256 * 0x1_0000 + l24 % 256 * 0x100_0000 + l32 % 256 * 0x1_0000_0000
}

fn steps_of_l_by_24(l: u64, count: u32) -> u64 {
    let step = |bits, _| (bits ^ (bits / 0x1000)) % 0x100_0000 * 0x1_0000 + bits / 0x100_0000;
    (0..count).fold(forty_bits_of_l(l), step) % 1024
}

fn ahead(l: u64, count: u32) -> u64 {
    (0..count % 3).fold(steps_of_l_by_24(l, count / 3), |now, _| eight_steps_of_l(now))
}

// f, g and h for all steps of a group: bit k of a word is the bit of step k.

#[inline(always)]
#[rustfmt::skip]
fn products_at(r: Register, taps: [u32; 10]) -> u64 {
    let (a1, a3, a4, a5, a6) = (window(r, taps[0]), window(r, taps[1]), window(r, taps[2]), window(r, taps[3]), window(r, taps[4]));
    let (a7, a8, a10, a11, a12) = (window(r, taps[5]), window(r, taps[6]), window(r, taps[7]), window(r, taps[8]), window(r, taps[9]));
    (a11 & a12) ^ (a6 & a7) ^ (a1 & a3) ^ (a8 & a10 & a11) ^ (a4 & a5 & a6) ^ (a1 & a5 & a8 & a12) ^ (a6 & a7 & a10 & a11)
        ^ (a3 & a4 & a11 & a12) ^ (a7 & a8 & a10 & a11 & a12) ^ (a1 & a3 & a4 & a5 & a6) ^ (a4 & a5 & a6 & a7 & a8 & a10)
}

/// h's products, of Y3, X25, X46, X55 and Y59 in U.
#[inline(always)]
#[rustfmt::skip]
#[allow(clippy::too_many_arguments)]
fn mixed_at(x: Register, y: Register, l: u64, y_low: u32, x_low: u32, x_mid: u32, x_high: u32, y_high: u32) -> u64 {
    let (y3, x25, x46, x55, y59) = (window(y, y_low), window(x, x_low), window(x, x_mid), window(x, x_high), window(y, y_high));
    l ^ (y3 & x55) ^ (x46 & x55) ^ (x55 & y59) ^ (y3 & x25 & x46) ^ (y3 & x46 & x55) ^ (y3 & x46 & y59) ^ (l & x25 & x46 & y59) ^ (l & x25)
}

#[inline(always)]
fn three_taps(r: Register, s: u32, t: u32, u: u32) -> u64 {
    window(r, s) ^ window(r, t) ^ window(r, u)
}

#[inline(always)]
#[rustfmt::skip]
fn h_u(x: Register, y: Register, l: u64) -> u64 {
    mixed_at(x, y, l, 3, 25, 46, 55, 59)
        ^ three_taps(x, 1, 4, 25) ^ window(x, 31) ^ window(x, 56) ^ three_taps(y, 2, 10, 43) ^ window(y, 59)
}

#[inline(always)]
#[rustfmt::skip]
fn h_d(x: Register, y: Register, l: u64) -> u64 {
    mixed_at(x, y, l, 4, 35, 57, 68, 79)
        ^ three_taps(x, 1, 5, 35) ^ three_taps(x, 40, 48, 72) ^ three_taps(y, 2, 12, 24) ^ three_taps(y, 55, 61, 79)
}

#[inline(always)]
#[rustfmt::skip]
fn h_s(x: Register, y: Register, l: u64) -> u64 {
    mixed_at(x, y, l, 8, 47, 72, 100, 111)
        ^ three_taps(x, 1, 7, 47) ^ three_taps(x, 58, 90, 105) ^ three_taps(y, 3, 18, 34) ^ three_taps(y, 71, 80, 91) ^ window(y, 111)
}

/// The products of f and g.
#[inline(always)]
fn products_u(x: Register, y: Register) -> StepBits {
    StepBits {
        x: products_at(x, [9, 15, 21, 28, 33, 37, 45, 52, 55, 59]),
        y: products_at(y, [7, 15, 20, 30, 35, 37, 42, 51, 54, 58]),
    }
}

#[inline(always)]
fn products_d(x: Register, y: Register) -> StepBits {
    StepBits {
        x: products_at(x, [11, 19, 27, 36, 42, 47, 58, 67, 71, 79]),
        y: products_at(y, [9, 19, 25, 38, 44, 47, 54, 67, 69, 78]),
    }
}

#[inline(always)]
fn products_s(x: Register, y: Register) -> StepBits {
    StepBits {
        x: products_at(x, [16, 28, 39, 52, 61, 69, 84, 97, 103, 111]),
        y: products_at(y, [13, 28, 37, 56, 65, 69, 79, 96, 101, 109]),
    }
}

/// The ones of a register under a mask, counted modulo 2.
#[inline(always)]
fn parity(r: Register, mask: Register) -> u64 {
    u64::from(((r.hi & mask.hi) ^ (r.lo & mask.lo)).count_ones() % 2)
}

/// The sums of the linear taps under a mask for `width` steps: the mask moves down, last step first.
#[inline(always)]
fn sums(r: Register, mask: Register, width: u32) -> u64 {
    let mut m = up(mask, width - 1);
    let mut bits = 0;
    for _ in 0..width {
        bits = bits * 2 + parity(r, m);
        m = down(m);
    }
    bits
}

/// The sums of four steps under a mask over one word in bits 0 to 3, `later` from bit 4 on: the word moves down, last step first.
#[inline(always)]
fn four_sums(word: u64, mask: u64, later: u64) -> u64 {
    let mut bits = later;
    for j in (0..4).rev() {
        bits = bits * 2 + parity(Register { hi: 0, lo: word >> j }, Register { hi: 0, lo: mask });
    }
    bits
}

/// The sums for eight steps of a register whose first eight bits are 0: the taps from `first` on, four steps in one word.
#[inline(always)]
fn sums_past(r: Register, mask: Register, first: u32) -> u64 {
    let taps = window(mask, first);
    let later = four_sums(window(r, first + 4), taps, 0);
    four_sums(window(r, first), taps, later)
}

/// The masks of the linear taps: over X for f, over Y for g.
#[derive(Clone, Copy)]
struct Masks {
    f: Register,
    g: Register,
}

const MASKS_U: Masks = Masks { f: Register { hi: 0, lo: 0x94_2022_1020_4201 }, g: Register { hi: 0, lo: 0x4a_0428_4011_0081 } };
const MASKS_D: Masks =
    Masks { f: Register { hi: 0x89, lo: 0x400_8410_0804_0801 }, g: Register { hi: 0x28, lo: 0x8040_9040_0210_0201 } };
const MASKS_S: Masks = Masks {
    f: Register { hi: 0x82_4010_0020, lo: 0x2010_0080_0401_0001 },
    g: Register { hi: 0x21_1000_8022, lo: 0x100_0020_4000_2001 },
};

#[inline(always)]
fn linear(x: Register, y: Register, masks: Masks, width: u32) -> StepBits {
    StepBits { x: sums(x, masks.f, width), y: sums(y, masks.g, width) }
}

/// `linear` for eight steps of registers whose first eight bits are 0; `f` and `g` are the first taps past a0.
#[inline(always)]
fn linear_past(x: Register, y: Register, masks: Masks, f: u32, g: u32) -> StepBits {
    StepBits { x: sums_past(x, masks.f, f), y: sums_past(y, masks.g, g) }
}

// Groups of steps.

#[inline(always)]
fn low_bits(word: u64, width: u32) -> u64 {
    if width == 8 {
        word % 256
    } else {
        word % 65536
    }
}

#[inline(always)]
#[rustfmt::skip]
#[allow(clippy::too_many_arguments)]
fn after_group(x: Register, y: Register, products: StepBits, h: u64, masks: Masks, kept: u32, width: u32, l: u64) -> State {
    let sums = linear(x, y, masks, width);
    State {
        x: push(x, low_bits(y.lo ^ products.x ^ h ^ sums.x, width), kept, width),
        y: push(y, low_bits(products.y ^ h ^ sums.y, width), kept, width),
        l,
    }
}

#[inline(always)]
fn group_u(s: State) -> State {
    let h = h_u(s.x, s.y, s.l);
    after_group(s.x, s.y, products_u(s.x, s.y), h, MASKS_U, 60, 8, eight_steps_of_l(s.l))
}

#[inline(always)]
fn group_d(s: State) -> State {
    let h = h_d(s.x, s.y, s.l);
    after_group(s.x, s.y, products_d(s.x, s.y), h, MASKS_D, 80, 8, eight_steps_of_l(s.l))
}

#[inline(always)]
fn group_s(s: State, width: u32) -> State {
    let next = eight_steps_of_l(s.l);
    let h = h_s(s.x, s.y, next * 256 + s.l % 256);
    let products = products_s(s.x, s.y);
    if width == 8 {
        after_group(s.x, s.y, products, h, MASKS_S, 120, 8, next)
    } else {
        after_group(s.x, s.y, products, h, MASKS_S, 112, 16, eight_steps_of_l(next))
    }
}

#[inline(always)]
fn group(s: State, instance: u32, width: u32) -> State {
    match instance {
        1 => group_u(s),
        2 => group_d(s),
        _ => group_s(s, width),
    }
}

fn half_of(instance: u32) -> usize {
    match instance {
        1 => 68,
        2 => 88,
        _ => 128,
    }
}

fn run(bits: &mut [u8; 256], instance: u32, width: u32, l: u32, count: u32) {
    let half = half_of(instance);
    let mut s = State { x: load(bits, 0, half), y: load(bits, half, half), l: u64::from(l) };
    for _ in 0..count / width {
        s = group(s, instance, width);
    }
    save(s.x, bits, 0, half);
    save(s.y, bits, half, half);
}

// Groups undone: the bits of all steps are found together.

/// By how much the products of g, and h, change with the bit at their low tap in Y.
#[derive(Clone, Copy)]
struct Derivatives {
    g: u64,
    h: u64,
}

/// The taps that can reach bits which are to be found.
#[derive(Clone, Copy)]
struct LowTaps {
    x: u32,
    y: u32,
    h: u32,
    g: u32,
}

#[inline(always)]
fn products_derivative(y: Register, a3: u32, a4: u32, a5: u32, a6: u32, a8: u32, a12: u32) -> u64 {
    let (b3, b5) = (window(y, a3), window(y, a5));
    b3 ^ (b5 & window(y, a8) & window(y, a12)) ^ (b3 & window(y, a4) & b5 & window(y, a6))
}

#[inline(always)]
fn mixed_derivative(x: Register, y: Register, x_low: u32, x_mid: u32, x_high: u32, y_high: u32) -> u64 {
    let (high, mid) = (window(x, x_high), window(x, x_mid));
    high ^ (window(x, x_low) & mid) ^ (mid & high) ^ (mid & window(y, y_high))
}

#[inline(always)]
fn derivatives_u(x: Register, y: Register) -> Derivatives {
    Derivatives { g: products_derivative(y, 15, 20, 30, 35, 42, 58), h: mixed_derivative(x, y, 25, 46, 55, 59) }
}

#[inline(always)]
fn derivatives_d(x: Register, y: Register) -> Derivatives {
    Derivatives { g: products_derivative(y, 19, 25, 38, 44, 54, 78), h: mixed_derivative(x, y, 35, 57, 68, 79) }
}

#[inline(always)]
fn derivatives_s(x: Register, y: Register) -> Derivatives {
    Derivatives { g: products_derivative(y, 28, 37, 56, 65, 79, 109), h: mixed_derivative(x, y, 47, 72, 100, 111) }
}

/// The known terms of the bits that are to be found.
#[inline(always)]
#[rustfmt::skip]
fn known_terms(x: Register, y: Register, products: StepBits, sums: StepBits, h: u64, kept: u32, width: u32) -> StepBits {
    let g = window(y, kept) ^ products.y ^ sums.y;
    StepBits { x: low_bits(window(x, kept) ^ products.x ^ sums.x ^ g, width), y: low_bits(g ^ h, width) }
}

/// The word that is the sum of `known`, of itself moved down by `low`, and of itself moved down by `high` under `factor`.
#[inline(always)]
fn solve_word(known: u64, factor: u64, low: u32, high: u32, width: u32) -> u64 {
    let mut word = known;
    let mut right = low;
    while right < width {
        word = known ^ (word >> low) ^ ((word >> high) & factor);
        right += low;
    }
    word
}

#[inline(always)]
fn solve(known: StepBits, derivatives: Derivatives, taps: LowTaps, width: u32) -> StepBits {
    let without_g = known.y ^ (known.x >> 1) ^ (known.x >> taps.x);
    let y = solve_word(without_g, derivatives.h, taps.y, taps.h, width);
    let read = y >> taps.g;
    let by_g = read ^ (read & derivatives.g);
    StepBits { x: known.x ^ by_g, y: y ^ by_g ^ (by_g >> 1) }
}

#[inline(always)]
#[rustfmt::skip]
#[allow(clippy::too_many_arguments)]
fn before_group(x: Register, y: Register, products: StepBits, sums: StepBits, h: u64, derivatives: Derivatives, taps: LowTaps, kept: u32, width: u32, l: u64) -> State {
    let known = known_terms(x, y, products, sums, h, kept, width);
    let new = solve(known, derivatives, taps, width);
    State { x: pull(x, new.x, kept, width), y: pull(y, new.y, kept, width), l }
}

#[inline(always)]
fn back_u(s: State) -> State {
    let l = eight_steps_of_l_back(s.l);
    let (x0, y0) = (pull(s.x, 0, 60, 8), pull(s.y, 0, 60, 8));
    let products = products_u(x0, y0);
    let derivatives = derivatives_u(x0, y0);
    let h = h_u(x0, y0, l);
    let sums = linear(x0, y0, MASKS_U, 8);
    before_group(s.x, s.y, products, sums, h, derivatives, LowTaps { x: 4, y: 2, h: 3, g: 7 }, 60, 8, l)
}

#[inline(always)]
fn back_d(s: State) -> State {
    let l = eight_steps_of_l_back(s.l);
    let (x0, y0) = (pull(s.x, 0, 80, 8), pull(s.y, 0, 80, 8));
    let products = products_d(x0, y0);
    let derivatives = derivatives_d(x0, y0);
    let h = h_d(x0, y0, l);
    let sums = linear_past(x0, y0, MASKS_D, 11, 9);
    before_group(s.x, s.y, products, sums, h, derivatives, LowTaps { x: 5, y: 2, h: 4, g: 9 }, 80, 8, l)
}

#[inline(always)]
fn back_s(s: State, width: u32, kept: u32, l: u64, word: u64) -> State {
    let (x0, y0) = (pull(s.x, 0, kept, width), pull(s.y, 0, kept, width));
    let products = products_s(x0, y0);
    let derivatives = derivatives_s(x0, y0);
    let h = h_s(x0, y0, word);
    let sums = linear(x0, y0, MASKS_S, width);
    before_group(s.x, s.y, products, sums, h, derivatives, LowTaps { x: 7, y: 3, h: 8, g: 13 }, kept, width, l)
}

#[inline(always)]
fn group_back(s: State, instance: u32, width: u32) -> State {
    let later = eight_steps_of_l_back(s.l);
    match (instance, width) {
        (1, _) => back_u(s),
        (2, _) => back_d(s),
        (_, 8) => back_s(s, 8, 120, later, later),
        _ => {
            let before = eight_steps_of_l_back(later);
            back_s(s, 16, 112, before, later * 256 + before % 256)
        }
    }
}

fn undo(bits: &mut [u8; 256], instance: u32, width: u32, l: u32, count: u32) {
    let half = half_of(instance);
    let mut s = State { x: load(bits, 0, half), y: load(bits, half, half), l: ahead(u64::from(l), count / 8) };
    for _ in 0..count / width {
        s = group_back(s, instance, width);
    }
    save(s.x, bits, 0, half);
    save(s.y, bits, half, half);
}

/// P of a state in byte form, at width 8 or 16.
pub fn permute(instance: u32, width: u32, state: &mut [u8]) {
    let mut bits = [0; 256];
    load_bytes(state, &mut bits);
    run(&mut bits, instance, width, 1023, 8 * half_of(instance) as u32);
    store_bytes(&bits, state);
}

/// P's inverse of a state in byte form, at width 8 or 16.
pub fn invert(instance: u32, width: u32, state: &mut [u8]) {
    let mut bits = [0; 256];
    load_bytes(state, &mut bits);
    undo(&mut bits, instance, width, 1023, 8 * half_of(instance) as u32);
    store_bytes(&bits, state);
}

#[cfg(test)]
mod tests {
    use reference::random::Random;

    /// The peer does the same work: it agrees with the independent implementation.
    #[test]
    fn agrees_with_the_reference() {
        let mut random = Random::new(2);
        for (instance, width) in [(1, 8), (2, 8), (3, 8), (3, 16)] {
            for _ in 0..100 {
                let start = random.bytes(reference::state_bytes(instance));
                let (mut state, mut expected) = (start.clone(), start.clone());
                super::permute(instance, width, &mut state);
                reference::permute(instance, &mut expected);
                assert_eq!(state, expected, "permute, instance {instance}, width {width}");
                super::invert(instance, width, &mut state);
                assert_eq!(state, start, "invert, instance {instance}, width {width}");
            }
        }
    }
}
