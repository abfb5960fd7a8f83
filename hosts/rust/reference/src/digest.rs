//! QUARK's digest, block by block as the paper's section 3.1 has it: padding, absorbing, squeezing. Every rate is a whole number of
//! bytes, so that blocks are added byte by byte. Message bits are ordered as document 01 has it: bit i is in byte i div 8 with weight
//! 2 to the (7 - i mod 8).
use crate::hexadecimal::bytes;
use crate::{permute, state_bytes};

/// A digest, or a longer output, and how often P ran for it.
pub struct Digest {
    pub bytes: Vec<u8>,
    pub runs: u64,
}

/// r / 8 of instance 1 (U), 2 (D) or 3 (S).
pub fn rate_bytes(instance: u32) -> usize {
    match instance {
        1 => 1,
        2 => 2,
        3 => 4,
        _ => panic!("no instance {instance}"),
    }
}

/// The initial state of an instance (Appendix A).
pub fn initial(instance: u32) -> Vec<u8> {
    bytes(match instance {
        1 => "D8DACA44414A099719C80AA3AF065644DB",
        2 => "CC6C4AB7D11FA9BDF6EEDE03D87B68F91BAA706C20E9",
        3 => "397251CEE1DE8AA73EA26250C6D7BE128CD3E79DD718C24B8A19D09C2492DA5D",
        _ => panic!("no instance {instance}"),
    })
}

/// The padded form of a message's first `bits` bits: after them a 1, and zeros up to the end of a block.
pub fn padded(instance: u32, message: &[u8], bits: usize) -> Vec<u8> {
    let mut form = message[..bits.div_ceil(8)].to_vec();
    if bits % 8 == 0 {
        form.push(0x80);
    } else {
        // the bits after the last one make way for the 1 and zeros
        let last = form.last_mut().unwrap();
        *last = *last & !(0xFF >> (bits % 8)) | 0x80 >> (bits % 8);
    }
    form.resize(form.len().next_multiple_of(rate_bytes(instance)), 0);
    form
}

/// The digest of a message's first `bits` bits.
pub fn digest(instance: u32, message: &[u8], bits: usize) -> Digest {
    output(instance, message, bits, state_bytes(instance))
}

/// The output for a message's first `bits` bits: as many blocks as fill `length` bytes.
pub fn output(instance: u32, message: &[u8], bits: usize, length: usize) -> Digest {
    let mut state = initial(instance);
    let rate = rate_bytes(instance);
    let last = state.len() - rate;
    let mut runs = 0;
    for block in padded(instance, message, bits).chunks(rate) {
        for (byte, added) in state[last..].iter_mut().zip(block) {
            *byte ^= added;
        }
        permute(instance, &mut state);
        runs += 1;
    }
    let mut bytes = state[last..].to_vec();
    while bytes.len() < length {
        permute(instance, &mut state);
        runs += 1;
        bytes.extend_from_slice(&state[last..]);
    }
    Digest { bytes, runs }
}
