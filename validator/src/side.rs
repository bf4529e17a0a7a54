//! Paper 01, refusal 3, and paper 02, U1 (51 in a state) and U2 (numbers in a
//! state): one ledger's part of a state, with what pair book and guard ask of it
//! alike.

use std::collections::HashSet;

use crate::charge::Charge;
use crate::record::{Held, Ledger, Record};
use crate::rules::{account_count_wrong, accounts_open, sum, CAPACITY, MAX_ACCOUNTS};

/// One ledger's accounts, balances and passed records. All fields are open, so
/// that a state can be forged at will.
#[derive(Clone, Debug, PartialEq, Eq)]
pub struct Side {
    pub accounts: usize,
    pub balances: [u64; MAX_ACCOUNTS],
    pub held: Vec<Held>,
}

impl Side {
    /// A ledger as opened. The count of stakes must be within bounds.
    pub fn open(stakes: &[u64]) -> Side {
        let mut balances = [0; MAX_ACCOUNTS];
        balances[..stakes.len()].copy_from_slice(stakes);
        Side {
            accounts: stakes.len(),
            balances,
            held: Vec::new(),
        }
    }

    /// The sum of the balances. Exact.
    pub fn total(&self) -> u128 {
        sum(&self.balances)
    }

    /// Whether a held record collides with this one.
    pub fn number_used(&self, record: &Record) -> bool {
        let mut held = self.held.iter().filter_map(Held::read);
        held.any(|held| held.collides(record))
    }

    /// Counts within bounds, and no balance beyond the accounts.
    pub fn in_bounds(&self) -> bool {
        !account_count_wrong(self.accounts)
            && self.held.len() <= CAPACITY
            && self.balances[self.accounts..].iter().all(|&b| b == 0)
    }

    /// Every held record is one of `ledger` that 21, 22, 51 and 23 let through,
    /// and no two of them collide.
    pub fn held_right(&self, ledger: Ledger, accounts: impl Fn(Ledger) -> usize) -> bool {
        let mut counted = HashSet::new();
        self.held.iter().all(|held| {
            let Some(record) = held.read() else {
                return false;
            };
            record.ledger() == ledger
                && accounts_open(&record, &accounts)
                && record.good
                && counted.insert(record.counted())
        })
    }

    /// Lowers the balance of an account of this ledger.
    fn take(&mut self, account: u16, amount: u64) {
        self.balances[usize::from(account)] -= amount;
    }

    /// Raises the balance of an account of this ledger.
    fn give(&mut self, account: u16, amount: u64) {
        self.balances[usize::from(account)] += amount;
    }

    /// Lets a passed record of this ledger take and give here, then pay its charge,
    /// which is 0 on far.
    pub fn pass(&mut self, record: &Record, charge: Charge) {
        if record.takes() {
            self.take(record.sender, charge.cost(record));
        }
        if record.gives() {
            self.give(record.receiver, record.amount);
        }
        self.give(charge.account as u16, charge.of(record));
        self.held.push(Held::of(record));
    }
}
