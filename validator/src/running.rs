//! Paper 01, "Rules of the pair book", kept ready for long lists: the same
//! rules on a state that nobody else alters, so it is not judged anew for each
//! record; passed records are found by a hash map, totals are kept.

use std::collections::HashMap;

use crate::answer::refusal;
use crate::charge::Charge;
use crate::pair::opening_refusal;
use crate::record::{Counted, Kind, Ledger, Record};
use crate::rules::{self, Book};

/// A pair book in the course of one run.
#[derive(Clone, Debug)]
pub struct RunningBook {
    balances: [Vec<u64>; 2],
    passed: [HashMap<Counted, Record>; 2],
    totals: [u64; 2],
    in_flight: u64,
    charge: Charge,
}

impl RunningBook {
    /// Opens a book, or gives refusal 1, 2 or 52.
    pub fn open(home: &[u64], far: &[u64], charge: Charge) -> Result<RunningBook, u8> {
        match opening_refusal(home, far, charge) {
            Some(number) => Err(number),
            None => Ok(RunningBook {
                balances: [home.to_vec(), far.to_vec()],
                passed: [HashMap::new(), HashMap::new()],
                totals: [home.iter().sum(), far.iter().sum()],
                in_flight: 0,
                charge,
            }),
        }
    }

    /// Judges a record and lets it take and give if it passes. The refusal,
    /// if any.
    pub fn call(&mut self, bytes: &[u8]) -> Option<u8> {
        let Some(record) = Record::read(bytes) else {
            return Some(refusal::RECORD_FORM);
        };
        let refused = rules::judge(self, &record);
        if refused.is_none() {
            self.pass(&record);
        }
        refused
    }

    /// Judges a record only.
    pub fn judge(&self, bytes: &[u8]) -> Option<u8> {
        match Record::read(bytes) {
            Some(record) => rules::judge(self, &record),
            None => Some(refusal::RECORD_FORM),
        }
    }

    fn pass(&mut self, record: &Record) {
        let ledger = record.ledger();
        if record.takes() {
            let cost = self.charge.cost(record);
            self.balances[ledger.index()][usize::from(record.sender)] -= cost;
            self.totals[ledger.index()] -= cost;
        }
        if record.gives() {
            self.give(ledger, record.receiver, record.amount);
        }
        let Charge { account, .. } = self.charge;
        self.give(Ledger::Home, account as u16, self.charge.of(record));
        match record.kind {
            Kind::Local(_) => (),
            Kind::Sending(_) => self.in_flight += record.amount,
            Kind::Arrival(_) => self.in_flight -= record.amount,
        }
        self.passed[ledger.index()].insert(record.counted(), *record);
    }

    fn give(&mut self, ledger: Ledger, account: u16, amount: u64) {
        self.balances[ledger.index()][usize::from(account)] += amount;
        self.totals[ledger.index()] += amount;
    }

    pub fn balances(&self, ledger: Ledger) -> &[u64] {
        &self.balances[ledger.index()]
    }

    pub fn total(&self, ledger: Ledger) -> u64 {
        self.totals[ledger.index()]
    }

    pub fn in_flight(&self) -> u64 {
        self.in_flight
    }

    /// Whether a record passed on this ledger is counted under this.
    pub fn counts(&self, ledger: Ledger, counted: Counted) -> bool {
        self.passed[ledger.index()].contains_key(&counted)
    }

    /// Whether any record passed on this ledger has this number.
    pub fn number_met(&self, ledger: Ledger, number: u64) -> bool {
        let counted = [false, true].map(|arrival| Counted { arrival, number });
        counted.iter().any(|&counted| self.counts(ledger, counted))
    }
}

impl Book for RunningBook {
    fn accounts(&self, ledger: Ledger) -> usize {
        self.balances(ledger).len()
    }

    fn charge(&self) -> Charge {
        self.charge
    }

    fn balance(&self, ledger: Ledger, account: u16) -> u64 {
        self.balances(ledger)[usize::from(account)]
    }

    fn number_used(&self, record: &Record) -> bool {
        self.counts(record.ledger(), record.counted())
    }

    fn arrival_refusal(&self, arrival: &Record) -> Option<u8> {
        let wanted = arrival.matching_sending();
        let found = self.passed[wanted.ledger().index()].get(&wanted.counted());
        (found != Some(&wanted)).then_some(refusal::NO_SENDING)
    }

    fn passed_count(&self, ledger: Ledger) -> usize {
        self.passed[ledger.index()].len()
    }
}
