//! Paper 01, "The record": 32 bytes, numbers big-endian, and refusal 21 for
//! whatever does not read as a record. Paper 02, U2: which records of a ledger
//! may not share a number.

use crate::answer::{refusal, Answer};

/// Length of a record in bytes.
pub const RECORD: usize = 32;

/// The largest amount, and the largest total of all stakes: 2^63-1.
pub const MAX_AMOUNT: u64 = (1 << 63) - 1;

/// The two ledgers.
#[derive(Clone, Copy, Debug, PartialEq, Eq, Hash)]
pub enum Ledger {
    Home,
    Far,
}

impl Ledger {
    pub const BOTH: [Ledger; 2] = [Ledger::Home, Ledger::Far];

    pub fn from_byte(byte: u8) -> Option<Ledger> {
        match byte {
            0 => Some(Ledger::Home),
            1 => Some(Ledger::Far),
            _ => None,
        }
    }

    pub fn byte(self) -> u8 {
        match self {
            Ledger::Home => 0,
            Ledger::Far => 1,
        }
    }

    /// Where this ledger's things stand in an array of two.
    pub fn index(self) -> usize {
        usize::from(self.byte())
    }

    pub fn other(self) -> Ledger {
        match self {
            Ledger::Home => Ledger::Far,
            Ledger::Far => Ledger::Home,
        }
    }
}

/// The kind of a record, with the ledger that holds the record.
#[derive(Clone, Copy, Debug, PartialEq, Eq, Hash)]
pub enum Kind {
    Local(Ledger),
    Sending(Ledger),
    Arrival(Ledger),
}

impl Kind {
    pub fn from_bytes(kind: u8, ledger: u8) -> Option<Kind> {
        let ledger = Ledger::from_byte(ledger)?;
        match kind {
            1 => Some(Kind::Local(ledger)),
            2 => Some(Kind::Sending(ledger)),
            3 => Some(Kind::Arrival(ledger)),
            _ => None,
        }
    }

    pub fn byte(self) -> u8 {
        match self {
            Kind::Local(_) => 1,
            Kind::Sending(_) => 2,
            Kind::Arrival(_) => 3,
        }
    }

    pub fn ledger(self) -> Ledger {
        match self {
            Kind::Local(ledger) | Kind::Sending(ledger) | Kind::Arrival(ledger) => ledger,
        }
    }

    pub fn is_arrival(self) -> bool {
        matches!(self, Kind::Arrival(_))
    }
}

/// Paper 02, U2: a number as a ledger counts it. Arrivals are counted apart;
/// locals and sendings are counted together.
#[derive(Clone, Copy, Debug, PartialEq, Eq, Hash)]
pub struct Counted {
    pub arrival: bool,
    pub number: u64,
}

/// A record that has been read: its form is right.
#[derive(Clone, Copy, Debug, PartialEq, Eq, Hash)]
pub struct Record {
    pub kind: Kind,
    pub sender: u16,
    pub receiver: u16,
    pub number: u64,
    pub amount: u64,
    /// The host's verdict on the signature.
    pub good: bool,
}

impl Record {
    /// Reads a record; nothing where refusal 21 is due.
    pub fn read(bytes: &[u8]) -> Option<Record> {
        if bytes.len() != RECORD || !reserved_bytes_zero(bytes) {
            return None;
        }
        Held {
            kind: bytes[0],
            ledger: bytes[1],
            sender: u16_at(bytes, 2),
            receiver: u16_at(bytes, 4),
            number: u64_at(bytes, 8),
            amount: u64_at(bytes, 16),
            verdict: bytes[24],
        }
        .read()
    }

    /// Writes the record's 32 bytes.
    pub fn bytes(&self) -> [u8; RECORD] {
        Held::of(self).bytes()
    }

    /// The ledger that holds the record.
    pub fn ledger(&self) -> Ledger {
        self.kind.ledger()
    }

    /// The ledger of the sender's account.
    pub fn sender_ledger(&self) -> Ledger {
        match self.kind {
            Kind::Local(ledger) | Kind::Sending(ledger) => ledger,
            Kind::Arrival(ledger) => ledger.other(),
        }
    }

    /// The ledger of the receiver's account.
    pub fn receiver_ledger(&self) -> Ledger {
        match self.kind {
            Kind::Local(ledger) | Kind::Arrival(ledger) => ledger,
            Kind::Sending(ledger) => ledger.other(),
        }
    }

    /// Whether the record lowers its sender's balance.
    pub fn takes(&self) -> bool {
        !self.kind.is_arrival()
    }

    /// Whether the record raises its receiver's balance.
    pub fn gives(&self) -> bool {
        !matches!(self.kind, Kind::Sending(_))
    }

    /// What the record's ledger counts it under.
    pub fn counted(&self) -> Counted {
        Counted {
            arrival: self.kind.is_arrival(),
            number: self.number,
        }
    }

    /// Whether one of these two records of a ledger uses up the other's number:
    /// the condition of 24, and in a state of 3.
    pub fn collides(&self, other: &Record) -> bool {
        self.counted() == other.counted()
    }

    /// For an arrival, the sending on the other ledger that it must match.
    pub fn matching_sending(&self) -> Record {
        Record {
            kind: Kind::Sending(self.ledger().other()),
            ..*self
        }
    }

    /// For a sending, the arrival on the other ledger that matches it.
    pub fn matching_arrival(&self) -> Record {
        Record {
            kind: Kind::Arrival(self.ledger().other()),
            ..*self
        }
    }
}

/// A held record as plain numbers, so that a state can hold any forged one.
#[derive(Clone, Copy, Debug, PartialEq, Eq, Hash)]
pub struct Held {
    pub kind: u8,
    pub ledger: u8,
    pub sender: u16,
    pub receiver: u16,
    pub number: u64,
    pub amount: u64,
    pub verdict: u8,
}

impl Held {
    pub const ZERO: Held = Held {
        kind: 0,
        ledger: 0,
        sender: 0,
        receiver: 0,
        number: 0,
        amount: 0,
        verdict: 0,
    };

    pub fn of(record: &Record) -> Held {
        Held {
            kind: record.kind.byte(),
            ledger: record.ledger().byte(),
            sender: record.sender,
            receiver: record.receiver,
            number: record.number,
            amount: record.amount,
            verdict: u8::from(record.good),
        }
    }

    /// The 32 bytes of these numbers, right or wrong; those that must be zero
    /// are.
    pub fn bytes(&self) -> [u8; RECORD] {
        let mut bytes = [0; RECORD];
        bytes[0] = self.kind;
        bytes[1] = self.ledger;
        bytes[2..4].copy_from_slice(&self.sender.to_be_bytes());
        bytes[4..6].copy_from_slice(&self.receiver.to_be_bytes());
        bytes[8..16].copy_from_slice(&self.number.to_be_bytes());
        bytes[16..24].copy_from_slice(&self.amount.to_be_bytes());
        bytes[24] = self.verdict;
        bytes
    }

    /// The record, if its numbers are those of one; nothing where refusal 21
    /// is due.
    pub fn read(&self) -> Option<Record> {
        let kind = Kind::from_bytes(self.kind, self.ledger)?;
        if self.verdict > 1 || self.amount == 0 || self.amount > MAX_AMOUNT {
            return None;
        }
        Some(Record {
            kind,
            sender: self.sender,
            receiver: self.receiver,
            number: self.number,
            amount: self.amount,
            good: self.verdict == 1,
        })
    }
}

/// Reads a record into its plain fields: 21. Zeros beside a refusal.
pub fn record_read(bytes: &[u8]) -> (Answer, Held) {
    match Record::read(bytes) {
        Some(record) => (Answer::Passed, Held::of(&record)),
        None => (form_refused(), Held::ZERO),
    }
}

/// Writes the bytes of plain fields: 21 where they would not read as a
/// record. Zeros beside a refusal.
pub fn record_encode(fields: &Held) -> (Answer, [u8; RECORD]) {
    match fields.read() {
        Some(record) => (Answer::Passed, record.bytes()),
        None => (form_refused(), [0; RECORD]),
    }
}

fn form_refused() -> Answer {
    Answer::at(Some(refusal::RECORD_FORM), 0)
}

/// Bytes 6-7 and 25-31 of a record.
fn reserved_bytes_zero(bytes: &[u8]) -> bool {
    bytes[6] == 0 && bytes[7] == 0 && bytes[25..RECORD].iter().all(|&byte| byte == 0)
}

/// Bytes 8-15 of a record's 32 bytes: its number, right form or not.
pub fn number_of(bytes: &[u8]) -> u64 {
    u64_at(bytes, 8)
}

pub(crate) fn u16_at(bytes: &[u8], at: usize) -> u16 {
    u16::from_be_bytes([bytes[at], bytes[at + 1]])
}

pub(crate) fn u64_at(bytes: &[u8], at: usize) -> u64 {
    let mut eight = [0; 8];
    eight.copy_from_slice(&bytes[at..at + 8]);
    u64::from_be_bytes(eight)
}
