//! Sealed records and the journal check.
use crate::Refused;

extern "C" {
    // A slice is two arguments: the pointer, then the length.
    fn journal_seal(
        key: *const u8,
        key_len: usize,
        previous: *const u8,
        previous_len: usize,
        body: *const u8,
        body_len: usize,
        record: *mut u8,
        record_len: usize,
    ) -> u32;
    fn journal_verify(key: *const u8, key_len: usize, journal: *const u8, journal_len: usize) -> u32;
    fn journal_refused_at(key: *const u8, key_len: usize, journal: *const u8, journal_len: usize) -> u64;
}

/// Writes the body and its seal to `record`. The previous seal is the one of the record before, and zeros for the first; it and the body's
/// station, sequence and time are taken on trust, and [`verify`] tests them. Refused, in this order, by `WRONG_LENGTH` (the lengths are not
/// [`KEY_BYTES`](crate::KEY_BYTES), [`SEAL_BYTES`](crate::SEAL_BYTES), [`BODY_BYTES`](crate::BODY_BYTES) and
/// [`RECORD_BYTES`](crate::RECORD_BYTES)), `BLANK_KEY` and `BROKEN_LAYOUT`, each with no place.
///
/// The body, numbers with the high byte first:
///
/// | Bytes | Field |
/// |---|---|
/// | 0-3 | station |
/// | 4-7 | sequence: 1 for the first record, then one more each |
/// | 8-11 | time in seconds; not below the previous record's, unless this record's kind is 5 |
/// | 12 | kind: 1 lit, 2 failed, 3 change, 4 test, 5 clock set |
/// | 13 | lamp position, 1 to 6 |
/// | 14-15 | current in milliamperes |
/// | 16-17 | milliseconds until lit, 0 unless the kind is 3 |
/// | 18-22 | zero |
///
/// ```
/// use wilbroged::{seal, verify, Refused, BODY_BYTES, KEY_BYTES, RECORD_BYTES, SEAL_BYTES};
///
/// let key = [1; KEY_BYTES];
/// let mut body = [0; BODY_BYTES];
/// body[7] = 1; // sequence 1
/// body[12] = 4; // a test
/// body[13] = 6; // of lamp position 6
/// let mut record = [0; RECORD_BYTES];
/// assert_eq!(seal(&key, &[0; SEAL_BYTES], &body, &mut record), Ok(()));
/// assert_eq!(record[..BODY_BYTES], body);
/// assert_eq!(verify(&key, &record), Ok(()));
///
/// // A blank key seals nothing.
/// let refused = seal(&[0; KEY_BYTES], &[0; SEAL_BYTES], &body, &mut record);
/// assert_eq!(refused, Err(Refused { number: Refused::BLANK_KEY, place: None }));
///
/// // There is no lamp position 7.
/// body[13] = 7;
/// assert_eq!(seal(&key, &[0; SEAL_BYTES], &body, &mut record).unwrap_err().number, Refused::BROKEN_LAYOUT);
/// ```
pub fn seal(key: &[u8], previous: &[u8], body: &[u8], record: &mut [u8]) -> Result<(), Refused> {
    // SAFETY: pointers and lengths are those of slices that are lent for the call, and the function writes nothing but `record`.
    Refused::unless_accepted(unsafe {
        journal_seal(
            key.as_ptr(),
            key.len(),
            previous.as_ptr(),
            previous.len(),
            body.as_ptr(),
            body.len(),
            record.as_mut_ptr(),
            record.len(),
        )
    })
}

/// Checks a journal: no error where the key has a byte that is not zero, and every record keeps the layout, follows and has its seal.
/// Refused, in this order, by `WRONG_LENGTH` (of the key), `BLANK_KEY` and `WRONG_JOURNAL_LENGTH`, each with no place; then record by record,
/// with its index, by `BROKEN_LAYOUT`, `NOT_FOLLOWING` and `DIFFERENT_SEAL`.
///
/// A journal that was cut after a whole record is accepted: compare `journal.len() / RECORD_BYTES` with the number of records that there
/// should be.
///
/// ```
/// use wilbroged::{seal, verify, Refused};
///
/// let key = [1; 16];
/// let (mut body, mut record) = ([0; 23], [0; 40]);
/// (body[7], body[11], body[12], body[13]) = (1, 9, 4, 6); // sequence 1, time 9, a test of lamp position 6
/// seal(&key, &[0; 17], &body, &mut record)?;
/// assert_eq!(verify(&key, &record), Ok(()));
///
/// // The same record once more does not follow.
/// let journal = [record, record].concat();
/// assert_eq!(verify(&key, &journal), Err(Refused { number: Refused::NOT_FOLLOWING, place: Some(1) }));
///
/// assert_eq!(verify(&key, &journal[1..]), Err(Refused { number: Refused::WRONG_JOURNAL_LENGTH, place: None }));
///
/// // A record of kind 5 sets the clock, and may set it back: here to time 8.
/// let mut next = [0; 40];
/// (body[7], body[11], body[12]) = (2, 8, 5);
/// seal(&key, &record[23..], &body, &mut next)?;
/// assert_eq!(verify(&key, &[record, next].concat()), Ok(()));
///
/// // Under a blank key no journal is accepted, not even an empty one.
/// assert_eq!(verify(&[0; 16], &[]), Err(Refused { number: Refused::BLANK_KEY, place: None }));
/// # Ok::<(), Refused>(())
/// ```
pub fn verify(key: &[u8], journal: &[u8]) -> Result<(), Refused> {
    // SAFETY: pointers and lengths are those of slices that are lent for the calls, and the functions write nothing.
    let number = unsafe { journal_verify(key.as_ptr(), key.len(), journal.as_ptr(), journal.len()) };
    let of_a_record = matches!(number, Refused::BROKEN_LAYOUT | Refused::NOT_FOLLOWING | Refused::DIFFERENT_SEAL);
    let place =
        of_a_record.then(|| unsafe { journal_refused_at(key.as_ptr(), key.len(), journal.as_ptr(), journal.len()) } as usize);
    Refused::unless_accepted(number).map_err(|refused| Refused { place, ..refused })
}
