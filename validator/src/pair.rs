//! Paper 01, "Rules of the pair book": opening, calls with one record or with
//! a list, the acceptance of a state (refusal 3), and the figures.

use std::collections::HashSet;

use crate::answer::{refusal, Answer};
use crate::charge::Charge;
use crate::record::{Held, Kind, Ledger, Record, MAX_AMOUNT, RECORD};
use crate::rules::{self, sum, Book};
use crate::side::Side;

/// The state of the pair book.
#[derive(Clone, Debug, PartialEq, Eq)]
pub struct PairBook {
    /// Home and far.
    pub sides: [Side; 2],
    /// All stakes of the opening together.
    pub stake: u64,
    pub charge: Charge,
}

impl PairBook {
    /// Opens a book, or answers refusal 1, 2 or 52.
    pub fn open(home: &[u64], far: &[u64], charge: Charge) -> Result<PairBook, Answer> {
        match opening_refusal(home, far, charge) {
            Some(number) => Err(Answer::Refused { number, place: 0 }),
            None => Ok(PairBook {
                sides: [Side::open(home), Side::open(far)],
                stake: home.iter().chain(far).sum(),
                charge,
            }),
        }
    }

    /// A call with one record.
    pub fn call(&mut self, record: &[u8]) -> Answer {
        if !self.accepted() {
            return state_refused();
        }
        Answer::at(self.step(record), 0)
    }

    /// A call with a list of records: all pass, or none.
    pub fn call_list(&mut self, records: &[u8]) -> Answer {
        if !self.accepted() {
            return state_refused();
        }
        let before = self.clone();
        for (place, record) in records.chunks(RECORD).enumerate() {
            let refused = self.step(record);
            if refused.is_some() {
                *self = before;
                return Answer::at(refused, place as u64);
            }
        }
        Answer::Passed
    }

    /// One record on an accepted state, which stays as it was when refused.
    fn step(&mut self, bytes: &[u8]) -> Option<u8> {
        let Some(record) = Record::read(bytes) else {
            return Some(refusal::RECORD_FORM);
        };
        let refused = rules::judge(self, &record);
        if refused.is_none() {
            self.sides[record.ledger().index()].pass(&record, self.charge);
        }
        refused
    }

    /// Whether this is a state that the book accepts: refusal 3 otherwise.
    pub fn accepted(&self) -> bool {
        self.sides.iter().all(Side::in_bounds)
            && self.stake <= MAX_AMOUNT
            && !self.charge.wrong(self.accounts(Ledger::Home))
            && Ledger::BOTH.iter().all(|&ledger| self.held_right(ledger))
            && self.home_total() + self.far_total() + self.in_flight() == u128::from(self.stake)
    }

    fn held_right(&self, ledger: Ledger) -> bool {
        self.side(ledger)
            .held_right(ledger, |side| self.accounts(side))
            && self.arrivals_have_sendings(ledger)
    }

    /// Every held arrival of `ledger` has its held sending on the other one.
    fn arrivals_have_sendings(&self, ledger: Ledger) -> bool {
        let others: HashSet<&Held> = self.side(ledger.other()).held.iter().collect();
        self.side(ledger).held.iter().all(|held| match held.read() {
            Some(record) if record.kind.is_arrival() => {
                others.contains(&Held::of(&record.matching_sending()))
            }
            _ => true,
        })
    }

    pub fn side(&self, ledger: Ledger) -> &Side {
        &self.sides[ledger.index()]
    }

    pub fn home_total(&self) -> u128 {
        self.side(Ledger::Home).total()
    }

    pub fn far_total(&self) -> u128 {
        self.side(Ledger::Far).total()
    }

    /// The sum of the amounts of held sendings whose number has no held
    /// arrival on the other ledger.
    pub fn in_flight(&self) -> u128 {
        Ledger::BOTH
            .iter()
            .map(|&ledger| self.in_flight_from(ledger))
            .sum()
    }

    fn in_flight_from(&self, ledger: Ledger) -> u128 {
        let arrived: HashSet<u64> = self
            .side(ledger.other())
            .held
            .iter()
            .filter(|held| held.kind == Kind::Arrival(ledger.other()).byte())
            .map(|held| held.number)
            .collect();
        self.side(ledger)
            .held
            .iter()
            .filter(|held| held.kind == Kind::Sending(ledger).byte())
            .filter(|held| !arrived.contains(&held.number))
            .map(|held| u128::from(held.amount))
            .sum()
    }
}

impl Book for PairBook {
    fn accounts(&self, ledger: Ledger) -> usize {
        self.side(ledger).accounts
    }

    fn charge(&self) -> Charge {
        self.charge
    }

    fn balance(&self, ledger: Ledger, account: u16) -> u64 {
        self.side(ledger).balances[usize::from(account)]
    }

    fn number_used(&self, record: &Record) -> bool {
        self.side(record.ledger()).number_used(record)
    }

    fn arrival_refusal(&self, arrival: &Record) -> Option<u8> {
        let wanted = Held::of(&arrival.matching_sending());
        let there = self.side(arrival.ledger().other()).held.contains(&wanted);
        (!there).then_some(refusal::NO_SENDING)
    }

    fn passed_count(&self, ledger: Ledger) -> usize {
        self.side(ledger).held.len()
    }
}

/// Refusals 1, 2 and 52 of an opening.
pub fn opening_refusal(home: &[u64], far: &[u64], charge: Charge) -> Option<u8> {
    rules::opening_refusal([home.len(), far.len()], sum(home) + sum(far), charge)
}

fn state_refused() -> Answer {
    Answer::Refused {
        number: refusal::STATE,
        place: 0,
    }
}
