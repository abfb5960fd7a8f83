//! QUARK's digest.
use crate::Refused;

extern "C" {
    // A slice is two arguments: the pointer, then the length.
    fn quark_digest(
        instance: u32,
        width: u32,
        message: *const u8,
        message_len: usize,
        bit_count: u64,
        digest: *mut u8,
        digest_len: usize,
    ) -> u32;
}

/// Writes the digest of the first `bit_count` bits of `message` to `digest`; a whole message has 8 bits for each byte. Refused, in this
/// order, by `UNKNOWN_INSTANCE`, `UNKNOWN_WIDTH`, `WRONG_LENGTH`, which is about the bytes of `digest`, `COUNT_OVER_BYTES` and
/// `TOTAL_OVER_LIMIT`.
///
/// The paper's Appendix B gives the digest of the empty message:
///
/// ```
/// use wilbroged::{digest, Refused, U, U_BYTES, U_WIDTH};
///
/// let mut bytes = [0; U_BYTES];
/// assert_eq!(digest(U, U_WIDTH, &[], 0, &mut bytes), Ok(()));
/// assert_eq!(
///     bytes,
///     [0x12, 0x6B, 0x75, 0xBC, 0xAB, 0x23, 0x14, 0x47, 0x50, 0xD0, 0x8B, 0xA3, 0x13, 0xBB, 0xD8, 0x00, 0xA4],
/// );
///
/// // One byte has 8 bits.
/// assert_eq!(digest(U, U_WIDTH, b"a", 9, &mut bytes).unwrap_err().number, Refused::COUNT_OVER_BYTES);
/// ```
pub fn digest(instance: u32, width: u32, message: &[u8], bit_count: u64, digest: &mut [u8]) -> Result<(), Refused> {
    // SAFETY: pointers and lengths are those of slices that are lent for the call, and the function writes nothing but `digest`.
    Refused::unless_accepted(unsafe {
        quark_digest(instance, width, message.as_ptr(), message.len(), bit_count, digest.as_mut_ptr(), digest.len())
    })
}
