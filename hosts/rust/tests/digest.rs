//! The proved digest agrees with the independent implementation at every width of every instance: for 102,000 short
//! messages, for every bit length from 0 to 600, for long messages, and on the paper's Appendix B. Seeds are fixed.
mod widths;

use reference::random::Random;
use reference::{appendix_b, digest::digest as expected, state_bytes};
use widths::widths;
use wilbroged::digest;

/// Compares the digest of the first bits of a message at the given widths with the independent one.
fn compare(instance: u32, widths: &[u32], message: &[u8], bits: usize) {
    let whole = expected(instance, message, bits).bytes;
    for &width in widths {
        // what stood in the buffer before has no part in the digest
        let mut bytes = vec![width as u8; state_bytes(instance)];
        assert_eq!(digest(instance, width, message, bits as u64, &mut bytes), Ok(()));
        assert_eq!(bytes, whole, "instance {instance}, width {width}, {bits} bits of {message:02X?}");
    }
}

/// Random short messages of each instance, 102,000 of all three.
const SHORT: usize = if cfg!(debug_assertions) { 32 } else { 34_000 };

/// Messages of 0 to 100 bits, with as few bytes as they need; the slow width 1 takes every eighth of them.
fn short_messages(instance: u32) {
    let mut random = Random::new(300 + u64::from(instance));
    for i in 0..SHORT {
        let bits = random.word() as usize % 101;
        let message = random.bytes(bits.div_ceil(8));
        let skipped = if i % 8 == 0 { 0 } else { 1 };
        compare(instance, &widths(instance)[skipped..], &message, bits);
    }
}

#[test]
fn short_messages_of_u() {
    short_messages(1);
}

#[test]
fn short_messages_of_d() {
    short_messages(2);
}

#[test]
fn short_messages_of_s() {
    short_messages(3);
}

/// Every bit length, with as few bytes as it needs and with bytes after them.
fn every_bit_length(instance: u32) {
    let mut random = Random::new(100 + u64::from(instance));
    for bits in 0..=600usize {
        let more = random.word() as usize % 3;
        let message = random.bytes(bits.div_ceil(8) + more);
        compare(instance, widths(instance), &message, bits);
    }
}

#[test]
fn every_bit_length_of_u() {
    every_bit_length(1);
}

#[test]
fn every_bit_length_of_d() {
    every_bit_length(2);
}

#[test]
fn every_bit_length_of_s() {
    every_bit_length(3);
}

/// A digest reads no bit after the count: zeros with ones after them have the digest of zeros.
#[test]
fn bits_after_the_count() {
    for instance in 1..=3 {
        for bits in 0..=80usize {
            let zeros = expected(instance, &[0; 12], bits).bytes;
            let mut message = [0xFF; 12];
            message[..bits / 8].fill(0);
            message[bits / 8] >>= bits % 8;
            for &width in widths(instance) {
                let mut bytes = vec![0; state_bytes(instance)];
                assert_eq!(digest(instance, width, &message, bits as u64, &mut bytes), Ok(()));
                assert_eq!(bytes, zeros, "instance {instance}, width {width}, {bits} bits");
            }
        }
    }
}

/// Long messages; the slow width 1 takes the shorter ones.
#[test]
fn long_messages() {
    for instance in 1..=3 {
        let message = Random::new(200 + u64::from(instance)).bytes(12_501);
        for bits in [1_000, 4_095, 4_096, 10_007, 65_536, 100_003] {
            let skipped = if bits < 5_000 { 0 } else { 1 };
            compare(instance, &widths(instance)[skipped..], &message, bits);
        }
    }
}

#[test]
fn equal_bytes() {
    for instance in 1..=3 {
        for byte in [0x00, 0xFF, 0x80, 0x01] {
            compare(instance, widths(instance), &[byte; 50], 400);
        }
    }
}

#[test]
fn appendix_b_digests() {
    for instance in 1..=3 {
        for &width in widths(instance) {
            let mut bytes = vec![0xA5; state_bytes(instance)];
            assert_eq!(digest(instance, width, &[], 0, &mut bytes), Ok(()));
            assert_eq!(bytes, appendix_b::digest_of_nothing(instance), "instance {instance}, width {width}");
        }
    }
}

/// Nothing beside the lent buffer is written, wherever it begins.
#[test]
fn neighbours_are_kept() {
    for instance in 1..=3 {
        let bytes = state_bytes(instance);
        let whole = expected(instance, b"neighbours", 77).bytes;
        for &width in widths(instance) {
            for at in 0..9 {
                let mut around = [0xA5; 64];
                digest(instance, width, b"neighbours", 77, &mut around[at..at + bytes]).unwrap();
                assert_eq!(around[at..at + bytes], whole);
                assert!(around[..at].iter().chain(&around[at + bytes..]).all(|&byte| byte == 0xA5));
            }
        }
    }
}
