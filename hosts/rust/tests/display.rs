//! What a refusal prints: its number, the record's index where there is one, and a sentence, for numbers that have a name and for others.
use std::error::Error;
use wilbroged::{verify, Refused};

#[test]
fn the_index_of_the_record() {
    let printed = |place| Refused { number: Refused::DIFFERENT_SEAL, place }.to_string();
    assert_eq!(printed(None), "refusal 12: The seal is not the one that the record must have.");
    assert_eq!(printed(Some(0)), "refusal 12 at record index 0: The seal is not the one that the record must have.");
    assert_eq!(printed(Some(1_599)), "refusal 12 at record index 1599: The seal is not the one that the record must have.");
}

#[test]
fn a_number_without_a_name() {
    for number in [0, 2, 3, 8, 13, 14, 15, 17, 18, 19, 29, 256, u32::MAX] {
        let printed = Refused { number, place: None }.to_string();
        assert_eq!(printed, format!("refusal {number}: No function of this crate is known to answer this number."));
    }
}

#[test]
fn passed_on_as_an_error() {
    fn checked() -> Result<(), Box<dyn Error + Send + Sync>> {
        Ok(verify(&[], &[])?)
    }
    let error = checked().unwrap_err();
    assert_eq!(error.downcast_ref(), Some(&Refused { number: Refused::WRONG_LENGTH, place: None }));
    assert!(error.source().is_none());
}
