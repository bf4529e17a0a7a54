//! Journals put together block by block: lawful ones by the library's writer,
//! others byte by byte.

use crate::charge::Charge;
use crate::journal::{self, BLOCK, FULL, ITEMS};
use crate::record::{Kind, Ledger, Record, RECORD};
use crate::running::RunningBook;

/// A record as bytes, right or wrong.
pub type Bytes = [u8; RECORD];

/// A block as bytes, right or wrong.
pub type Block = [u8; BLOCK];

/// The stakes of an opening, and its charge.
#[derive(Clone, Debug, PartialEq, Eq)]
pub struct Opening {
    pub home: Vec<u64>,
    pub far: Vec<u64>,
    pub charge: Charge,
}

impl Opening {
    /// Stakes without a charge.
    pub fn new(home: &[u64], far: &[u64]) -> Opening {
        Opening {
            home: home.to_vec(),
            far: far.to_vec(),
            charge: Charge::NONE,
        }
    }

    /// The same stakes with a charge.
    pub fn charged(self, rate: u64, account: u64) -> Opening {
        let charge = Charge { rate, account };
        Opening { charge, ..self }
    }

    /// The book of an opening that is accepted.
    pub fn book(&self) -> RunningBook {
        RunningBook::open(&self.home, &self.far, self.charge).expect("a lawful opening")
    }

    /// Block 0 of a journal.
    pub fn home_block(&self) -> Block {
        charged_block(self.charge, &stake_bytes(&self.home))
    }

    /// Block 1 of a journal.
    pub fn far_block(&self) -> Block {
        lawful_block(1, &stake_bytes(&self.far))
    }

    /// The opening of the paper's cases.
    pub fn of_cases() -> Opening {
        Opening::new(&[100, 50], &[20])
    }
}

/// The bytes of a journal with 1 to 56 stakes a ledger.
pub fn journal(opening: &Opening, records: &[Bytes]) -> Vec<u8> {
    let mut bytes = join(&[opening.home_block(), opening.far_block()]);
    for some in records.chunks(FULL) {
        push_block(&mut bytes, &some.concat());
    }
    bytes
}

/// Writes the next block of a journal.
pub fn push_block(bytes: &mut Vec<u8>, items: &[u8]) {
    let number = bytes.len() / BLOCK;
    bytes.extend_from_slice(&lawful_block(number as u64, items));
}

/// A block as the library writes it, without a charge.
pub fn lawful_block(number: u64, items: &[u8]) -> Block {
    write_block(number, Charge::NONE, items)
}

/// Block 0 as the library writes it, with a charge.
pub fn charged_block(charge: Charge, items: &[u8]) -> Block {
    write_block(0, charge, items)
}

fn write_block(number: u64, charge: Charge, items: &[u8]) -> Block {
    let mut block = [0; BLOCK];
    let kind = journal::kind_of(number);
    let answer = journal::write_block(number, kind, charge, items, &mut block);
    assert!(answer.passed(), "block {number}: {answer:?}");
    block
}

pub fn stake_bytes(stakes: &[u64]) -> Vec<u8> {
    stakes
        .iter()
        .flat_map(|stake| stake.to_be_bytes())
        .collect()
}

/// A block with any number, kind, count and items (up to 448 bytes), sealed.
pub fn any_block(number: u32, kind: u8, count: u8, items: &[u8]) -> Block {
    let mut block = [0; BLOCK];
    block[..4].copy_from_slice(&number.to_be_bytes());
    block[4] = kind;
    block[5] = count;
    block[ITEMS..ITEMS + items.len()].copy_from_slice(items);
    journal::seal(&mut block);
    block
}

/// The whole blocks of a journal.
pub fn split(journal: &[u8]) -> Vec<Block> {
    journal
        .chunks_exact(BLOCK)
        .map(|bytes| {
            let mut block = [0; BLOCK];
            block.copy_from_slice(bytes);
            block
        })
        .collect()
}

pub fn join(blocks: &[Block]) -> Vec<u8> {
    blocks.concat()
}

pub fn set_u16(bytes: &mut [u8], at: usize, value: u16) {
    bytes[at..at + 2].copy_from_slice(&value.to_be_bytes());
}

pub fn set_u64(bytes: &mut [u8], at: usize, value: u64) {
    bytes[at..at + 8].copy_from_slice(&value.to_be_bytes());
}

/// Where the fields of a record begin.
pub const SENDER: usize = 2;
pub const RECEIVER: usize = 4;
pub const NUMBER: usize = 8;
pub const AMOUNT: usize = 16;
pub const VERDICT: usize = 24;

/// The bytes of a record that must be zero.
pub const RESERVED: [usize; 9] = [6, 7, 25, 26, 27, 28, 29, 30, 31];

fn record(kind: Kind, sender: u16, receiver: u16, number: u64, amount: u64) -> Record {
    Record {
        kind,
        sender,
        receiver,
        number,
        amount,
        good: true,
    }
}

pub fn local(ledger: Ledger, sender: u16, receiver: u16, number: u64, amount: u64) -> Record {
    record(Kind::Local(ledger), sender, receiver, number, amount)
}

pub fn sending(ledger: Ledger, sender: u16, receiver: u16, number: u64, amount: u64) -> Record {
    record(Kind::Sending(ledger), sender, receiver, number, amount)
}

pub fn arrival(ledger: Ledger, sender: u16, receiver: u16, number: u64, amount: u64) -> Record {
    record(Kind::Arrival(ledger), sender, receiver, number, amount)
}
