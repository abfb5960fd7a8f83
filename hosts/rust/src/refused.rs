//! Why a call is refused.
use std::error::Error;
use std::fmt::{self, Display, Formatter};

/// A refusal: its number, and the record that it is about.
///
/// What is printed is for people:
///
/// ```
/// use wilbroged::{verify, Refused};
///
/// let refused = verify(b"a short key", &[]).unwrap_err();
/// assert_eq!(refused, Refused { number: Refused::WRONG_LENGTH, place: None });
/// assert_eq!(refused.to_string(), "refusal 5: A slice whose length is fixed has another length.");
///
/// // A journal of one record, all zeros: there is no kind 0.
/// let refused = verify(&[1; 16], &[0; 40]).unwrap_err();
/// assert_eq!(refused, Refused { number: Refused::BROKEN_LAYOUT, place: Some(0) });
/// assert_eq!(
///     refused.to_string(),
///     "refusal 10 at record index 0: A field of the body has a value that the layout does not allow.",
/// );
/// ```
#[derive(Clone, Copy, Debug, PartialEq, Eq, Hash)]
pub struct Refused {
    /// One of the numbers below. `docs/RULES.md` explains each.
    pub number: u32,
    /// The index, from 0, of the record of a journal that is refused; none where no record of a journal is.
    pub place: Option<usize>,
}

/// Names each number and gives it its sentence, once.
macro_rules! refusals {
    ($($number:literal $name:ident $sentence:literal)*) => {
        /// The numbers that the functions of this crate answer.
        impl Refused {
            $(#[doc = $sentence] pub const $name: u32 = $number;)*
        }

        fn sentence(number: u32) -> &'static str {
            match number {
                $($number => $sentence,)*
                _ => "No function of this crate is known to answer this number.",
            }
        }
    };
}

refusals! {
    1 UNKNOWN_INSTANCE "No instance has this number."
    4 UNKNOWN_WIDTH "The instance has no such step width."
    5 WRONG_LENGTH "A slice whose length is fixed has another length."
    6 COUNT_OVER_BYTES "There are fewer bits than the count says."
    7 TOTAL_OVER_LIMIT "The message would have more than 16,777,215 bits."
    9 WRONG_JOURNAL_LENGTH "The journal is not 0 to 1,600 whole records."
    10 BROKEN_LAYOUT "A field of the body has a value that the layout does not allow."
    11 NOT_FOLLOWING "The body does not continue the records before it."
    12 DIFFERENT_SEAL "The seal is not the one that the record must have."
    16 BLANK_KEY "Every byte of the key is zero."
    20 STEPS_OUT_OF_RANGE "L's start value is over 1,023, or the steps are more than P's or not whole groups of the step width."
}

impl Refused {
    /// No error where a function answers 0, else the refusal by that number, with no place.
    pub(crate) fn unless_accepted(answer: u32) -> Result<(), Refused> {
        match answer {
            0 => Ok(()),
            number => Err(Refused { number, place: None }),
        }
    }
}

impl Display for Refused {
    fn fmt(&self, text: &mut Formatter) -> fmt::Result {
        write!(text, "refusal {}", self.number)?;
        if let Some(place) = self.place {
            write!(text, " at record index {place}")?;
        }
        write!(text, ": {}", sentence(self.number))
    }
}

impl Error for Refused {}
