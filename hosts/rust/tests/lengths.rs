//! The named lengths, widths and steps are those that the proved functions take: one byte more and one byte less is refused, and so are a
//! wider step, one step more and a greater value of L. They are also the independent implementation's.
use reference::journal::{BODY, KEY, LONGEST, RECORD, SEAL};
use reference::state_bytes;
use reference::steps::clocks;
use wilbroged::*;

/// The number of a refusal, 0 where the call is accepted.
fn number<T>(answer: Result<T, Refused>) -> u32 {
    answer.map_or_else(|refused| refused.number, |_| 0)
}

#[test]
fn states_and_digests() {
    for (instance, bytes, width) in [(U, U_BYTES, U_WIDTH), (D, D_BYTES, D_WIDTH), (S, S_BYTES, S_WIDTH)] {
        assert_eq!(bytes, state_bytes(instance));
        for (length, expected) in [(bytes - 1, Refused::WRONG_LENGTH), (bytes, 0), (bytes + 1, Refused::WRONG_LENGTH)] {
            let mut buffer = vec![0; length];
            assert_eq!(number(permute(instance, width, &mut buffer)), expected);
            assert_eq!(number(invert(instance, width, &mut buffer)), expected);
            assert_eq!(number(digest(instance, width, &[], 0, &mut buffer)), expected);
        }
        for wider in width + 1..=8 * bytes as u32 {
            assert_eq!(number(permute(instance, wider, &mut vec![0; bytes])), Refused::UNKNOWN_WIDTH);
        }
    }
}

#[test]
fn steps_of_the_permutation() {
    for (instance, bytes, all) in [(U, U_BYTES, U_STEPS), (D, D_BYTES, D_STEPS), (S, S_BYTES, S_STEPS)] {
        let mut state = vec![0; bytes];
        assert_eq!(all as usize, clocks(instance, L_ALL_ONES, &state).len() - 1);
        for (l, count, expected) in [
            (L_ALL_ONES, all, 0),
            (L_ALL_ONES, all + 1, Refused::STEPS_OUT_OF_RANGE),
            (L_ALL_ONES + 1, all, Refused::STEPS_OUT_OF_RANGE),
        ] {
            assert_eq!(number(steps(instance, 1, l, count, &mut state)), expected);
            assert_eq!(number(steps_back(instance, 1, l, count, &mut state)), expected);
        }
    }
}

#[test]
fn parts_of_a_record() {
    assert_eq!((KEY_BYTES, SEAL_BYTES, BODY_BYTES, RECORD_BYTES), (KEY, SEAL, BODY, RECORD));
    let mut body = [0; BODY_BYTES + 1];
    (body[7], body[12], body[13]) = (1, 1, 1); // sequence 1, lit, lamp position 1
    let sealed = |key: usize, previous: usize, body_bytes: usize, record: usize| {
        number(seal(&vec![1; key], &vec![0; previous], &body[..body_bytes], &mut vec![0; record]))
    };
    assert_eq!(sealed(KEY_BYTES, SEAL_BYTES, BODY_BYTES, RECORD_BYTES), 0);
    for other in [-1, 1] {
        let length = |bytes: usize| bytes.checked_add_signed(other).unwrap();
        assert_eq!(sealed(length(KEY_BYTES), SEAL_BYTES, BODY_BYTES, RECORD_BYTES), Refused::WRONG_LENGTH);
        assert_eq!(sealed(KEY_BYTES, length(SEAL_BYTES), BODY_BYTES, RECORD_BYTES), Refused::WRONG_LENGTH);
        assert_eq!(sealed(KEY_BYTES, SEAL_BYTES, length(BODY_BYTES), RECORD_BYTES), Refused::WRONG_LENGTH);
        assert_eq!(sealed(KEY_BYTES, SEAL_BYTES, BODY_BYTES, length(RECORD_BYTES)), Refused::WRONG_LENGTH);
        assert_eq!(number(verify(&vec![1; length(KEY_BYTES)], &[])), Refused::WRONG_LENGTH);
        // fifteen and seventeen zeros are no blank key
        assert_eq!(number(verify(&vec![0; length(KEY_BYTES)], &[])), Refused::WRONG_LENGTH);
    }
    assert_eq!(number(verify(&[1; KEY_BYTES], &[])), 0);
    assert_eq!(number(verify(&[0; KEY_BYTES], &[])), Refused::BLANK_KEY);
}

/// A journal of zeros is refused at its first record, once its length has been taken.
#[test]
fn journals() {
    assert_eq!(LONGEST_JOURNAL_BYTES, LONGEST);
    let zeros = vec![0; LONGEST_JOURNAL_BYTES + RECORD_BYTES];
    let verified = |length: usize| number(verify(&[1; KEY_BYTES], &zeros[..length]));
    for taken in [RECORD_BYTES, LONGEST_JOURNAL_BYTES] {
        assert_eq!(verified(taken), Refused::BROKEN_LAYOUT);
        assert_eq!(verified(taken - 1), Refused::WRONG_JOURNAL_LENGTH);
        assert_eq!(verified(taken + 1), Refused::WRONG_JOURNAL_LENGTH);
    }
    assert_eq!(verified(LONGEST_JOURNAL_BYTES + RECORD_BYTES), Refused::WRONG_JOURNAL_LENGTH);
}
