//! The independent digest agrees with the paper's Appendix B, and its blocks with document 01's samples. These tests need no archive.
use reference::digest::{digest, padded, rate_bytes};
use reference::{appendix_b, random::Random};

#[test]
fn appendix_b_digests() {
    for instance in 1..=3 {
        assert_eq!(digest(instance, &[], 0).bytes, appendix_b::digest_of_nothing(instance));
    }
}

/// How many blocks a message pads to: empty, a bit short of a block, a full block.
#[test]
fn blocks() {
    for (instance, bits, blocks) in [(1, 0, 1), (1, 7, 1), (1, 8, 2), (2, 15, 1), (2, 16, 2), (3, 31, 1), (3, 32, 2)] {
        assert_eq!(padded(instance, &[0xFF; 4], bits).len(), blocks * rate_bytes(instance));
    }
}

#[test]
fn padding_bit_by_bit() {
    let message = Random::new(2).bytes(80);
    for instance in 1..=3 {
        for bits in 0..=640 {
            let form = padded(instance, &message, bits);
            let bit = |bytes: &[u8], i: usize| bytes[i / 8] >> (7 - i % 8) & 1;
            for i in 0..8 * form.len() {
                let expected = if i < bits { bit(&message, i) } else { u8::from(i == bits) };
                assert_eq!(bit(&form, i), expected);
            }
            assert_eq!(form.len() % rate_bytes(instance), 0);
            assert!(8 * (form.len() - rate_bytes(instance)) <= bits && bits < 8 * form.len());
        }
    }
}

/// total div r + n/r runs of P
#[test]
fn runs() {
    for (instance, rate, outputs) in [(1, 8, 17), (2, 16, 11), (3, 32, 8)] {
        for bits in 0..=100 {
            assert_eq!(digest(instance, &[0; 13], bits).runs, (bits / rate + outputs) as u64);
        }
    }
}
