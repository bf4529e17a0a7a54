//! Full journals for measuring: 917,476 records in 65,536 blocks, with tables
//! that fill early or late.

use std::io::{self, Write};

use super::build::{lawful_block, Bytes, Opening};
use super::families::faults::spoil_form;
use super::rng::Rng;
use super::trader::{Numbers, Sharing, Trader};
use crate::charge::Charge;
use crate::journal::{BLOCK, FULL, LAST_BLOCK};
use crate::record::{Kind, Ledger, Record, MAX_AMOUNT};
use crate::rules::{Book, CAPACITY, MAX_ACCOUNTS};

/// The most blocks of a journal.
pub const MOST_BLOCKS: usize = LAST_BLOCK as usize + 1;

/// When the tables fill.
#[derive(Clone, Copy, Debug, PartialEq, Eq)]
pub enum Fill {
    /// Within the first few thousand records.
    Early,
    /// Only near the journal's end.
    Late,
}

/// The records of a journal of a given length, one after the other.
struct Source {
    trader: Trader,
    fill: Fill,
    length: usize,
    made: usize,
}

impl Source {
    fn new(seed: u64, fill: Fill, charge: Charge, length: usize) -> Source {
        let mut rng = Rng::for_journal(seed, "full", length as u64);
        let mut stakes = || -> Vec<u64> {
            let accounts = 0..MAX_ACCOUNTS;
            accounts.map(|_| rng.within(1_000, 1 << 40)).collect()
        };
        let opening = Opening::new(&stakes(), &stakes()).charged(charge.rate, charge.account);
        let mut trader = Trader::new(opening, Numbers::Random, rng);
        trader.thrifty = true;
        trader.sharing = Sharing::Often;
        Source {
            trader,
            fill,
            length,
            made: 0,
        }
    }

    fn next(&mut self) -> Bytes {
        let ledger = self.trader.some_ledger();
        let pass = self.pass_now();
        let lawful = if pass { self.passing(ledger) } else { None };
        let bytes = match lawful {
            Some(record) => record.bytes(),
            None => self.refused(ledger),
        };
        self.trader.try_out(&bytes);
        self.made += 1;
        bytes
    }

    fn places_left(&self, ledger: Ledger) -> bool {
        self.trader.book.passed_count(ledger) < CAPACITY
    }

    /// Whether the next record should pass.
    fn pass_now(&mut self) -> bool {
        match self.fill {
            Fill::Early => self.trader.rng.chance(2, 3),
            Fill::Late => {
                let passed: usize = Ledger::BOTH
                    .iter()
                    .map(|&ledger| self.trader.book.passed_count(ledger))
                    .sum();
                // All places are taken after 99 hundredths of the records.
                passed * self.length * 99 < self.made * 2 * CAPACITY * 100
            }
        }
    }

    /// A record that passes, on the given ledger or the other one.
    fn passing(&mut self, ledger: Ledger) -> Option<Record> {
        [ledger, ledger.other()]
            .into_iter()
            .find(|&ledger| self.places_left(ledger))
            .and_then(|ledger| self.trader.lawful(ledger))
    }

    fn refused(&mut self, ledger: Ledger) -> Bytes {
        match self.trader.rng.below(20) {
            0..=6 => self.used_number(ledger),
            7..=11 => self.too_much(ledger),
            12..=16 => self.unmatched(ledger),
            17 if !self.places_left(ledger) => self.table_full(ledger),
            17 | 18 => self.wrong_account_or_verdict(ledger),
            _ => {
                let mut bytes = self.record(ledger).bytes();
                spoil_form(&mut self.trader.rng, &mut bytes);
                bytes
            }
        }
    }

    /// A local or sending with a fresh number.
    fn record(&mut self, ledger: Ledger) -> Record {
        let kind = self
            .trader
            .rng
            .pick(&[Kind::Local(ledger), Kind::Sending(ledger)]);
        self.trader.lawful_of(kind).expect("credit")
    }

    fn used_number(&mut self, ledger: Ledger) -> Bytes {
        let record = self.record(ledger);
        let number = self.trader.used_for(&record).unwrap_or(record.number);
        Record { number, ..record }.bytes()
    }

    fn too_much(&mut self, ledger: Ledger) -> Bytes {
        let record = self.record(ledger);
        let balance = self.trader.book.balance(ledger, record.sender);
        let amount = self.trader.rng.within(balance + 1, MAX_AMOUNT);
        Record { amount, ..record }.bytes()
    }

    /// An arrival whose number no sending has, or of a sending that went
    /// under another amount.
    fn unmatched(&mut self, ledger: Ledger) -> Bytes {
        if self.trader.rng.chance(1, 2) {
            if let Some(record) = self.trader.lawful_arrival(ledger) {
                let amount = record.amount + 1;
                return Record { amount, ..record }.bytes();
            }
        }
        self.record(ledger.other()).matching_arrival().bytes()
    }

    fn table_full(&mut self, ledger: Ledger) -> Bytes {
        self.trader.lawful(ledger).expect("credit").bytes()
    }

    fn wrong_account_or_verdict(&mut self, ledger: Ledger) -> Bytes {
        let mut record = self.record(ledger);
        if self.trader.rng.chance(1, 2) {
            record.good = false;
        } else {
            record.receiver = self.trader.absent_account(record.receiver_ledger());
        }
        record.bytes()
    }
}

/// Writes a journal of `blocks` blocks, all of them full, with 56 accounts a ledger.
pub fn write(
    seed: u64,
    fill: Fill,
    charge: Charge,
    blocks: usize,
    output: &mut impl Write,
) -> io::Result<()> {
    let mut source = Source::new(seed, fill, charge, (blocks - 2) * FULL);
    let opening = &source.trader.opening;
    output.write_all(&opening.home_block())?;
    output.write_all(&opening.far_block())?;
    for number in 2..blocks as u64 {
        let records: Vec<Bytes> = (0..FULL).map(|_| source.next()).collect();
        output.write_all(&lawful_block(number, &records.concat()))?;
    }
    output.flush()
}

/// The journal as bytes.
pub fn journal(seed: u64, fill: Fill, charge: Charge, blocks: usize) -> Vec<u8> {
    let mut bytes = Vec::with_capacity(blocks * BLOCK);
    write(seed, fill, charge, blocks, &mut bytes).expect("writing memory does not fail");
    bytes
}
