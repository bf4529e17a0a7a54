//! Paper 01, "Rules of the guard": the home ledger alone, with the far due in
//! place of the far ledger's records (refusals 32 and 33).

use crate::answer::{refusal, Answer};
use crate::charge::Charge;
use crate::record::{Kind, Ledger, Record, MAX_AMOUNT, RECORD};
use crate::rules::{self, account_count_wrong, sum, Book};
use crate::side::Side;

/// The state of the guard.
#[derive(Clone, Debug, PartialEq, Eq)]
pub struct Guard {
    pub home: Side,
    pub far_accounts: usize,
    /// What the far ledger may still send home: its stake total, and the amounts
    /// that passed sendings brought it, without charges, less what passed arrivals took from it.
    pub far_due: u64,
    /// All stakes of the opening together.
    pub stake: u64,
    pub charge: Charge,
}

impl Guard {
    /// Opens a guard, or answers refusal 1, 2 or 52.
    pub fn open(
        home: &[u64],
        far_accounts: usize,
        far_total: u64,
        charge: Charge,
    ) -> Result<Guard, Answer> {
        let accounts = [home.len(), far_accounts];
        let total = sum(home) + u128::from(far_total);
        match rules::opening_refusal(accounts, total, charge) {
            Some(number) => Err(Answer::Refused { number, place: 0 }),
            None => Ok(Guard {
                home: Side::open(home),
                far_accounts,
                far_due: far_total,
                stake: home.iter().sum::<u64>() + far_total,
                charge,
            }),
        }
    }

    /// A call with one record.
    pub fn call(&mut self, record: &[u8]) -> Answer {
        if !self.accepted() {
            return state_refused();
        }
        Answer::at(self.step(record), 0)
    }

    /// A call with a list of records: all pass, or none.
    pub fn call_list(&mut self, records: &[u8]) -> Answer {
        if !self.accepted() {
            return state_refused();
        }
        let before = self.clone();
        for (place, record) in records.chunks(RECORD).enumerate() {
            let refused = self.step(record);
            if refused.is_some() {
                *self = before;
                return Answer::at(refused, place as u64);
            }
        }
        Answer::Passed
    }

    /// One record on an accepted state, which stays as it was when refused.
    fn step(&mut self, bytes: &[u8]) -> Option<u8> {
        let Some(record) = Record::read(bytes) else {
            return Some(refusal::RECORD_FORM);
        };
        if record.ledger() == Ledger::Far {
            return Some(refusal::FAR_RECORD);
        }
        let refused = rules::judge(self, &record);
        if refused.is_none() {
            self.pass(&record);
        }
        refused
    }

    fn pass(&mut self, record: &Record) {
        match record.kind {
            Kind::Local(_) => (),
            Kind::Sending(_) => self.far_due += record.amount,
            Kind::Arrival(_) => self.far_due -= record.amount,
        }
        self.home.pass(record, self.charge);
    }

    /// Whether this is a state that the guard accepts: refusal 3 otherwise.
    pub fn accepted(&self) -> bool {
        self.home.in_bounds()
            && !account_count_wrong(self.far_accounts)
            && self.stake <= MAX_AMOUNT
            && !self.charge.wrong(self.accounts(Ledger::Home))
            && self
                .home
                .held_right(Ledger::Home, |ledger| self.accounts(ledger))
            && self.home_total() + u128::from(self.far_due) == u128::from(self.stake)
    }

    pub fn home_total(&self) -> u128 {
        self.home.total()
    }
}

impl Book for Guard {
    fn accounts(&self, ledger: Ledger) -> usize {
        match ledger {
            Ledger::Home => self.home.accounts,
            Ledger::Far => self.far_accounts,
        }
    }

    fn charge(&self) -> Charge {
        self.charge
    }

    /// Only home records are judged, so only home balances are looked up.
    fn balance(&self, _ledger: Ledger, account: u16) -> u64 {
        self.home.balances[usize::from(account)]
    }

    fn number_used(&self, record: &Record) -> bool {
        self.home.number_used(record)
    }

    fn arrival_refusal(&self, arrival: &Record) -> Option<u8> {
        (arrival.amount > self.far_due).then_some(refusal::FAR_DUE)
    }

    fn passed_count(&self, _ledger: Ledger) -> usize {
        self.home.held.len()
    }
}

fn state_refused() -> Answer {
    Answer::Refused {
        number: refusal::STATE,
        place: 0,
    }
}
