//! The record of 32 bytes.

use crate::refusal::{value, Refusal};
use crate::{calls, RECORD_SIZE};

/// The two linked ledgers.
#[derive(Clone, Copy, Debug, PartialEq, Eq, Hash)]
pub enum Ledger {
    /// The ledger that a desk belongs to.
    Home,
    /// The other one.
    Far,
}

impl Ledger {
    /// The other ledger.
    #[must_use]
    pub fn counterpart(self) -> Ledger {
        match self {
            Ledger::Home => Ledger::Far,
            Ledger::Far => Ledger::Home,
        }
    }

    /// Its byte in a record: 0 home, 1 far.
    #[must_use]
    pub fn byte(self) -> u8 {
        match self {
            Ledger::Home => 0,
            Ledger::Far => 1,
        }
    }

    fn of(byte: u8) -> Option<Ledger> {
        [Ledger::Home, Ledger::Far].into_iter().find(|ledger| ledger.byte() == byte)
    }
}

/// What a record does.
#[derive(Clone, Copy, Debug, PartialEq, Eq, Hash)]
pub enum Kind {
    /// A transfer between two accounts of the record's ledger.
    Local,
    /// A transfer that leaves the record's ledger: the receiver's account is on the other one.
    Sending,
    /// A transfer that enters the record's ledger: the sender's account is on the other one.
    Arrival,
}

impl Kind {
    /// Its byte in a record: 1 local, 2 sending, 3 arrival.
    #[must_use]
    pub fn byte(self) -> u8 {
        match self {
            Kind::Local => 1,
            Kind::Sending => 2,
            Kind::Arrival => 3,
        }
    }

    fn of(byte: u8) -> Option<Kind> {
        [Kind::Local, Kind::Sending, Kind::Arrival].into_iter().find(|kind| kind.byte() == byte)
    }
}

/// A record's fields. A sending and its arrival share sender, receiver, number and amount.
///
/// ```
/// use moatbetony::{Kind, Ledger, Record};
///
/// let record = Record {
///     kind: Kind::Sending, ledger: Ledger::Home, sender: 0, receiver: 0, number: 7, amount: 30, verified: true,
/// };
/// let bytes = record.encode()?;
/// assert_eq!(Record::read(&bytes)?, record);
/// # Ok::<(), moatbetony::Refusal>(())
/// ```
#[derive(Clone, Copy, Debug, PartialEq, Eq, Hash)]
pub struct Record {
    /// What it does.
    pub kind: Kind,
    /// The ledger that holds it.
    pub ledger: Ledger,
    /// The sender's account.
    pub sender: u16,
    /// The receiver's account.
    pub receiver: u16,
    /// The number of the transfer. All are usable, 0 too.
    pub number: u64,
    /// The amount, 1 to 2^63-1.
    pub amount: u64,
    /// Whether the caller's own check found its signature good (the networks' word: the verdict).
    ///
    /// Signatures are not checked here. Byte 24 of a record says what the caller's own check of its signature found (1 good, 0 bad).
    /// Write it yourself, over whatever came in, before the record is handed in: a record whose byte 24 its sender wrote is one that
    /// nobody has checked.
    pub verified: bool,
}

impl Record {
    /// The bytes of a record.
    pub const SIZE: usize = RECORD_SIZE;

    /// Reads 32 bytes. What it gives for [`verified`](Self::verified) is byte 24 as it stands.
    ///
    /// # Errors
    ///
    /// [`Refusal::RecordForm`]. Whether accounts and number are in order is the validators' question.
    pub fn read(bytes: &[u8]) -> Result<Record, Refusal> {
        let told = calls::record_read(bytes);
        value(told.answer, ())?;
        let (Some(kind), Some(ledger)) = (Kind::of(told.kind), Ledger::of(told.ledger)) else {
            return Err(Refusal::RecordForm);
        };
        Ok(Record {
            kind,
            ledger,
            sender: told.sender,
            receiver: told.receiver,
            number: told.number,
            amount: told.amount,
            verified: told.verdict == 1,
        })
    }

    /// Its 32 bytes.
    ///
    /// # Errors
    ///
    /// [`Refusal::RecordForm`] for an amount of 0 or above 2^63-1.
    pub fn encode(&self) -> Result<[u8; RECORD_SIZE], Refusal> {
        let told = calls::record_encode(
            self.kind.byte(),
            self.ledger.byte(),
            self.sender,
            self.receiver,
            self.number,
            self.amount,
            self.verified.into(),
        );
        value(told.answer, told.bytes)
    }
}
