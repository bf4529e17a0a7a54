//! What a call answers.

use crate::ffi::PlainAnswer;
use std::fmt;

/// What a call answers: passed, or one refusal with its place.
///
/// Hand nothing over on a refusal, and on [`Answer::Passed`] only what the record pays for.
#[must_use = "goods are handed over on Passed alone"]
#[derive(Clone, Copy, Debug, PartialEq, Eq, Hash)]
pub enum Answer {
    /// The record, list, block or write is in order, and was taken.
    ///
    /// Passed says that the record is in order and its credit has moved. Whether it pays you, and enough, you read with
    /// [`Record::read`](crate::Record::read): a local or an arrival on home, to your account, from another one if it is a local, of
    /// the price.
    Passed,
    /// It is not, and nothing was altered.
    Refused {
        /// Why.
        refusal: Refusal,
        /// The record's index in the list handed in, or the block number; 0 where neither applies.
        place: u64,
    },
}

impl Answer {
    /// Passed only where the library says so twice, by number 0 and by `passed`; a refusal where neither says so.
    ///
    /// # Panics
    ///
    /// On any other pair of the two: the library never tells one.
    pub(crate) fn of(told: PlainAnswer) -> Answer {
        match told {
            PlainAnswer { number: 0, passed: 1, .. } => Answer::Passed,
            PlainAnswer { number: 1.., passed: 0, place } => Answer::Refused { refusal: Refusal::of(told.number), place },
            PlainAnswer { number, passed, .. } => panic!("libmoatbetony.a told no answer: number {number}, passed {passed}"),
        }
    }

    /// Whether it is [`Answer::Passed`].
    #[must_use]
    pub fn is_passed(self) -> bool {
        self == Answer::Passed
    }

    /// The refusal, if it is one.
    #[must_use]
    pub fn refusal(self) -> Option<Refusal> {
        match self {
            Answer::Passed => None,
            Answer::Refused { refusal, .. } => Some(refusal),
        }
    }

    /// The refusal as an error, for `?`. Its place is left out.
    ///
    /// # Errors
    ///
    /// The refusal.
    pub fn into_result(self) -> Result<(), Refusal> {
        match self {
            Answer::Passed => Ok(()),
            Answer::Refused { refusal, .. } => Err(refusal),
        }
    }
}

impl fmt::Display for Answer {
    fn fmt(&self, f: &mut fmt::Formatter<'_>) -> fmt::Result {
        match self {
            Answer::Passed => f.write_str("passed"),
            Answer::Refused { refusal, place } => {
                write!(f, "refused with {} at {place}: {refusal}", refusal.number())
            }
        }
    }
}

/// The value of a call that hands back more than its answer.
pub(crate) fn value<T>(told: PlainAnswer, value: T) -> Result<T, Refusal> {
    Answer::of(told).into_result().map(|()| value)
}

// The refusals: name, number, text, and who causes it.
macro_rules! refusals {
    ($($name:ident = $number:literal, $text:literal, $who:literal;)*) => {
        /// Why a call was refused.
        ///
        /// A number keeps its subject and is never given to another. When it is given may change with the rules of a later version,
        /// and a later version may add numbers, also for a part of what an older one told; CHANGELOG.md names each. A number that
        /// this version of the crate does not know is [`Refusal::Other`].
        #[non_exhaustive]
        #[derive(Clone, Copy, Debug, PartialEq, Eq, Hash)]
        pub enum Refusal {
            $(
                #[doc = concat!($number, ": ", $text, ". Caused by ", $who, ".")]
                $name,
            )*
            /// A number that this version of the crate does not know.
            Other(u32),
        }

        impl Refusal {
            /// Every refusal that this version of the crate knows, lowest number first.
            pub const ALL: &'static [Refusal] = &[$(Refusal::$name),*];

            pub(crate) fn of(number: u32) -> Refusal {
                match number {
                    $($number => Refusal::$name,)*
                    other => Refusal::Other(other),
                }
            }

            /// The refusal's number, as in the C interface, in listings and in REFUSALS.md of the documentation.
            #[must_use]
            pub fn number(self) -> u32 {
                match self {
                    $(Refusal::$name => $number,)*
                    Refusal::Other(number) => number,
                }
            }
        }

        impl fmt::Display for Refusal {
            fn fmt(&self, f: &mut fmt::Formatter<'_>) -> fmt::Result {
                f.write_str(match self {
                    $(Refusal::$name => $text,)*
                    Refusal::Other(_) => "refused with a number that this crate does not know",
                })
            }
        }
    };
}

refusals! {
    AccountCount = 1, "account count outside 1 to 56", "the maker who calls";
    Supply = 2, "opening balances above 2^63-1 in all", "the maker who calls";
    State = 3, "state damaged, altered or never opened", "the maker who calls";
    BlockRequest = 4, "block cannot be written so, or has no such item", "the maker who calls";
    BlockMissing = 11, "block missing, not 512 bytes long or numbered above 65,535", "the journal's keeper";
    BlockCheck = 12, "block differs from its check", "the journal's keeper";
    BlockNumber = 13, "block has another number", "the journal's keeper";
    BlockForm = 14, "block with a wrong kind, count or zero byte, or after one that is not full", "the journal's keeper";
    RecordForm = 21, "not a record", "the record's author";
    Account = 22, "sender's account, or the account asked for, not open", "the record's author, of a balance by the maker who calls";
    Verdict = 23, "bad signature", "the record's author";
    NumberUsed = 24, "number already used on this ledger (arrivals counted apart)", "the record's author";
    Balance = 25, "balance too small (a home sending needs its charge too)", "the record's author";
    NoSending = 31, "arrival without a matching sending", "the far ledger";
    AbovePool = 32, "arrival above the far pool", "the far ledger";
    FarRecord = 33, "far record handed to the home validator", "the maker who calls";
    Full = 41, "ledger holds 512 passed records", "nobody: it is the size of the part";
    Receiver = 51, "receiver's account not open", "the record's author";
    Tariff = 52, "rate above 10,000, or charge account not open at home", "the maker who calls, of a block by the journal's keeper";
}

impl std::error::Error for Refusal {}

#[cfg(test)]
mod tests {
    use super::*;

    fn told(number: u32, passed: u32) -> std::thread::Result<Answer> {
        std::panic::catch_unwind(|| Answer::of(PlainAnswer { number, passed, place: 7 }))
    }

    #[test]
    fn answers_say_the_same_twice() {
        assert_eq!(told(0, 1).expect("passed"), Answer::Passed);
        assert_eq!(told(25, 0).expect("refused"), Answer::Refused { refusal: Refusal::Balance, place: 7 });
        assert_eq!(told(99, 0).expect("refused"), Answer::Refused { refusal: Refusal::Other(99), place: 7 });
        // A struct of zeros, as one that was cleared and never filled, is no answer; nor is anything else.
        for (number, passed) in [(0, 0), (0, 2), (25, 1), (1, u32::MAX), (u32::MAX, u32::MAX)] {
            assert!(told(number, passed).is_err(), "number {number}, passed {passed}");
        }
    }
}
