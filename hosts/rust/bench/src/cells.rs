//! The peer at width 1: the Rattle serial form (`crates/permutation/src/serial.rt` and `taps.rt`) in Rust, with the same 256 cells, moved by
//! one in each step.
use crate::words::{load_bytes, store_bytes};

/// Taps whose bits h adds by themselves: the first `count` of an array.
struct Linear {
    taps: [usize; 7],
    count: usize,
}

/// The taps of h's products.
struct ProductTaps {
    y_low: usize,
    x_low: usize,
    x_mid: usize,
    x_high: usize,
    y_high: usize,
}

fn half_of(instance: u32) -> usize {
    match instance {
        1 => 68,
        2 => 88,
        _ => 128,
    }
}

fn f_taps(instance: u32) -> [usize; 13] {
    match instance {
        1 => [0, 9, 14, 15, 21, 28, 33, 37, 45, 50, 52, 55, 59],
        2 => [0, 11, 18, 19, 27, 36, 42, 47, 58, 64, 67, 71, 79],
        _ => [0, 16, 26, 28, 39, 52, 61, 69, 84, 94, 97, 103, 111],
    }
}

/// With a2 and a3 exchanged.
fn g_taps(instance: u32) -> [usize; 13] {
    match instance {
        1 => [0, 7, 16, 15, 20, 30, 35, 37, 42, 49, 51, 54, 58],
        2 => [0, 9, 20, 19, 25, 38, 44, 47, 54, 63, 67, 69, 78],
        _ => [0, 13, 30, 28, 37, 56, 65, 69, 79, 92, 96, 101, 109],
    }
}

fn h_x_taps(instance: u32) -> Linear {
    match instance {
        1 => Linear { taps: [1, 4, 25, 31, 56, 0, 0], count: 5 },
        2 => Linear { taps: [1, 5, 35, 40, 48, 72, 0], count: 6 },
        _ => Linear { taps: [1, 7, 47, 58, 90, 105, 0], count: 6 },
    }
}

fn h_y_taps(instance: u32) -> Linear {
    match instance {
        1 => Linear { taps: [2, 10, 43, 59, 0, 0, 0], count: 4 },
        2 => Linear { taps: [2, 12, 24, 55, 61, 79, 0], count: 6 },
        _ => Linear { taps: [3, 18, 34, 71, 80, 91, 111], count: 7 },
    }
}

fn product_taps(instance: u32) -> ProductTaps {
    match instance {
        1 => ProductTaps { y_low: 3, x_low: 25, x_mid: 46, x_high: 55, y_high: 59 },
        2 => ProductTaps { y_low: 4, x_low: 35, x_mid: 57, x_high: 68, y_high: 79 },
        _ => ProductTaps { y_low: 8, x_low: 47, x_mid: 72, x_high: 100, y_high: 111 },
    }
}

#[rustfmt::skip]
fn feedback_at(register: &[u8], taps: [usize; 13]) -> u8 {
    let a = taps.map(|tap| register[tap]);
    a[0] ^ a[1] ^ a[2] ^ a[4] ^ a[5] ^ a[6] ^ a[7] ^ a[8] ^ a[9] ^ a[10] ^ a[11]
        ^ a[11] & a[12] ^ a[6] & a[7] ^ a[1] & a[3] ^ a[8] & a[10] & a[11] ^ a[4] & a[5] & a[6]
        ^ a[1] & a[5] & a[8] & a[12] ^ a[6] & a[7] & a[10] & a[11] ^ a[3] & a[4] & a[11] & a[12]
        ^ a[7] & a[8] & a[10] & a[11] & a[12] ^ a[1] & a[3] & a[4] & a[5] & a[6] ^ a[4] & a[5] & a[6] & a[7] & a[8] & a[10]
}

fn sum_at(register: &[u8], linear: Linear) -> u8 {
    linear.taps[..linear.count].iter().fold(0, |sum, &tap| sum ^ register[tap])
}

#[rustfmt::skip]
fn h_at(x: &[u8], y: &[u8], l: u32, instance: u32) -> u8 {
    let l0 = (l % 2) as u8;
    let taps = product_taps(instance);
    let (y3, x25, x46, x55, y59) = (y[taps.y_low], x[taps.x_low], x[taps.x_mid], x[taps.x_high], y[taps.y_high]);
    l0 ^ sum_at(x, h_x_taps(instance)) ^ sum_at(y, h_y_taps(instance))
        ^ y3 & x55 ^ x46 & x55 ^ x55 & y59 ^ y3 & x25 & x46 ^ y3 & x46 & x55 ^ y3 & x46 & y59 ^ l0 & x25 & x46 & y59 ^ l0 & x25
}

/// f, g and h.
fn feedbacks(bits: &[u8; 256], instance: u32, l: u32) -> (u8, u8, u8) {
    let half = half_of(instance);
    let (x, y) = (&bits[..half], &bits[half..2 * half]);
    (feedback_at(x, f_taps(instance)), feedback_at(y, g_taps(instance)), h_at(x, y, l, instance))
}

fn next_l(l: u32) -> u32 {
    (l ^ (l / 8)) % 2 * 512 + l / 2
}

fn undo_l(l: u32) -> u32 {
    l % 512 * 2 + ((l / 512) ^ (l / 4)) % 2
}

fn step(bits: &mut [u8; 256], instance: u32, l: u32) -> u32 {
    let half = half_of(instance);
    let b = half + half;
    let (f, g, h) = feedbacks(bits, instance, l);
    let x_gains = bits[half] ^ f ^ h;
    for i in 0..b - 1 {
        bits[i] = bits[i + 1];
    }
    bits[half - 1] = x_gains;
    bits[b - 1] = g ^ h;
    next_l(l)
}

fn undo_step(bits: &mut [u8; 256], instance: u32, l: u32) -> u32 {
    let half = half_of(instance);
    let b = half + half;
    let before = undo_l(l);
    let (x_gained, y_gained) = (bits[half - 1], bits[b - 1]);
    for i in (1..b).rev() {
        bits[i] = bits[i - 1];
    }
    bits[0] = 0;
    bits[half] = 0;
    let (f, g, h) = feedbacks(bits, instance, before);
    let y0 = y_gained ^ g ^ h;
    bits[half] = y0;
    bits[0] = x_gained ^ y0 ^ f ^ h;
    before
}

/// P of a state in byte form.
pub fn permute(instance: u32, state: &mut [u8]) {
    let mut bits = [0; 256];
    load_bytes(state, &mut bits);
    (0..8 * half_of(instance)).fold(1023, |l, _| step(&mut bits, instance, l));
    store_bytes(&bits, state);
}

/// P's inverse of a state in byte form.
pub fn invert(instance: u32, state: &mut [u8]) {
    let mut bits = [0; 256];
    load_bytes(state, &mut bits);
    let steps = 8 * half_of(instance);
    let last = (0..steps).fold(1023, |l, _| next_l(l));
    (0..steps).fold(last, |l, _| undo_step(&mut bits, instance, l));
    store_bytes(&bits, state);
}
