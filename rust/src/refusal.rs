//! The numbers of the questions, with their names and sentences.

use std::fmt;

/// One line a number: the name, the number, the sentence.
macro_rules! refusals {
    ($($name:ident $number:literal $text:literal)*) => {
        /// The question that was answered with no. Each call's questions, in the order asked, are
        /// in `include/latsefidy.h`.
        ///
        /// ```
        /// use latsefidy::{Code, Refusal};
        ///
        /// assert_eq!(Code::new(0, 2, 10, 4), Err(Refusal::N));
        /// ```
        #[derive(Clone, Copy, Debug, PartialEq, Eq, Hash)]
        #[non_exhaustive]
        pub enum Refusal {
            $(#[doc = concat!(stringify!($number), ": ", $text)] $name,)*
            /// A number that has no name here: the archive is newer than this crate.
            Other(u32),
        }

        impl Refusal {
            /// The refusal of a number; none for 0, which says that nothing is refused.
            ///
            /// ```
            /// use latsefidy::Refusal;
            ///
            /// assert_eq!(Refusal::from_number(9), Some(Refusal::Foreign));
            /// assert_eq!(Refusal::from_number(99), Some(Refusal::Other(99)));
            /// assert_eq!(Refusal::from_number(0), None);
            /// ```
            pub fn from_number(number: u32) -> Option<Refusal> {
                match number {
                    0 => None,
                    $($number => Some(Refusal::$name),)*
                    other => Some(Refusal::Other(other)),
                }
            }

            /// The number of the question.
            ///
            /// ```
            /// assert_eq!(latsefidy::Refusal::Undecided.number(), 10);
            /// ```
            pub fn number(self) -> u32 {
                match self {
                    $(Refusal::$name => $number,)*
                    Refusal::Other(number) => number,
                }
            }

            /// What is wrong, in words.
            ///
            /// ```
            /// assert_eq!(latsefidy::Refusal::Slot.text(), "the slot is n or more");
            /// ```
            pub fn text(self) -> &'static str {
                match self {
                    $(Refusal::$name => $text,)*
                    Refusal::Other(_) => "unknown",
                }
            }
        }
    };
}

refusals! {
    Field 1 "the field is neither 0 nor 1"
    R 2 "r is not from 1 to 16, or r + 1 does not divide q - 1"
    N 3 "n is not from 1 to q - 1, or 1 more than a multiple of r + 1"
    K 4 "k is not from 1 to r * n / (r + 1), or below n mod (r + 1) - 1"
    Length 5 "a buffer has a wrong length"
    Symbol 6 "a symbol is q or more"
    Slot 7 "the slot is n or more"
    Mark 8 "a mark is neither 0 nor 1"
    Foreign 9 "no codeword agrees with every kept symbol"
    Undecided 10 "more than one codeword agrees with every kept symbol"
    SheetLength 11 "the sheet's length is no multiple of 4"
    SheetStart 12 "the sheet does not start with a code word"
    SheetCount 13 "the sheet has not n + 2 words"
    SheetSlot 14 "a middle word of the sheet is wrong"
    SheetEnd 15 "the last word of the sheet is wrong"
    Wiring 17 "the wiring is above 1, or 1 with n no multiple of r + 1"
    ViewWired 18 "a group view wants wiring 0"
}

impl fmt::Display for Refusal {
    fn fmt(&self, f: &mut fmt::Formatter) -> fmt::Result {
        write!(f, "refused {}: {}", self.number(), self.text())
    }
}

impl std::error::Error for Refusal {}

/// A call's answer: 0, or the refusal.
pub(crate) fn accepted(number: u32) -> Result<(), Refusal> {
    Refusal::from_number(number).map_or(Ok(()), Err)
}

/// The value of an answer with the refusal in its high half.
pub(crate) fn value(answer: u64) -> Result<u32, Refusal> {
    accepted((answer >> 32) as u32).map(|()| answer as u32)
}
