//! Paper 01, "Refusals, by who can cause them", and paper 02, U1 (refusal 51)
//! and U3 (refusal 52): what a call can answer.

/// Passed, or one numbered refusal with its place: a record's index in the
/// list handed in, or a block number, or 0 where neither applies.
#[derive(Clone, Copy, Debug, PartialEq, Eq)]
pub enum Answer {
    Passed,
    Refused { number: u8, place: u64 },
}

impl Answer {
    /// The answer at `place` for a refusal, or passed where there is none.
    pub fn at(refusal: Option<u8>, place: u64) -> Answer {
        match refusal {
            Some(number) => Answer::Refused { number, place },
            None => Answer::Passed,
        }
    }

    /// The number that a listing prints: 0 for passed.
    pub fn number(self) -> u8 {
        match self {
            Answer::Passed => 0,
            Answer::Refused { number, .. } => number,
        }
    }

    pub fn passed(self) -> bool {
        self == Answer::Passed
    }
}

/// The refusal numbers of the papers.
pub mod refusal {
    pub const ACCOUNT_COUNT: u8 = 1;
    pub const STAKES_TOTAL: u8 = 2;
    pub const STATE: u8 = 3;
    pub const MAKER_BLOCK: u8 = 4;
    pub const BLOCK_MISSING: u8 = 11;
    pub const CHECK: u8 = 12;
    pub const BLOCK_NUMBER: u8 = 13;
    pub const BLOCK_FORM: u8 = 14;
    pub const RECORD_FORM: u8 = 21;
    /// The sender's account of a record, or the one of a balance asked for, is
    /// not open.
    pub const ACCOUNT: u8 = 22;
    pub const VERDICT: u8 = 23;
    pub const NUMBER_USED: u8 = 24;
    pub const BALANCE: u8 = 25;
    pub const NO_SENDING: u8 = 31;
    pub const FAR_DUE: u8 = 32;
    pub const FAR_RECORD: u8 = 33;
    pub const TABLE_FULL: u8 = 41;
    /// The receiver's account of a record is not open.
    pub const RECEIVER: u8 = 51;
    /// The rate of the charge is above 10,000, or its account is not open at home.
    pub const CHARGE: u8 = 52;
}
