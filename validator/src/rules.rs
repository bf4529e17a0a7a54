//! Paper 01, "Rules of the pair book" and "Rules of the guard", and paper 02,
//! U1 to U3: the order in which a record that has been read is judged: 22, 51,
//! 23, 24, then 25 or 31 or 32, then 41. Each checker says how it looks things up.
//! Also the order of an opening: 1, 2, 52.

use crate::answer::refusal;
use crate::charge::Charge;
use crate::record::{Ledger, Record, MAX_AMOUNT};

/// The most accounts of a ledger.
pub const MAX_ACCOUNTS: usize = 56;

/// The passed records that the program holds for each ledger.
pub const CAPACITY: usize = 512;

/// What the rules look up in a checker's state.
pub trait Book {
    /// The number of open accounts.
    fn accounts(&self, ledger: Ledger) -> usize;

    /// What home sendings are charged.
    fn charge(&self) -> Charge;

    /// The balance of an open account.
    fn balance(&self, ledger: Ledger, account: u16) -> u64;

    /// Whether a record that passed on this one's ledger collides with it.
    fn number_used(&self, record: &Record) -> bool;

    /// The refusal of an arrival by what the other ledger has done.
    fn arrival_refusal(&self, arrival: &Record) -> Option<u8>;

    /// How many records have passed on this ledger.
    fn passed_count(&self, ledger: Ledger) -> usize;
}

/// The refusal that is due to a record, if any.
pub fn judge(book: &impl Book, record: &Record) -> Option<u8> {
    let ledger = record.ledger();
    if let Some(number) = account_refusal(record, |side| book.accounts(side)) {
        return Some(number);
    }
    if !record.good {
        return Some(refusal::VERDICT);
    }
    if book.number_used(record) {
        return Some(refusal::NUMBER_USED);
    }
    if record.takes() {
        let balance = book.balance(ledger, record.sender);
        if book.charge().cost(record) > balance {
            return Some(refusal::BALANCE);
        }
    } else if let Some(number) = book.arrival_refusal(record) {
        return Some(number);
    }
    if book.passed_count(ledger) >= CAPACITY {
        return Some(refusal::TABLE_FULL);
    }
    None
}

/// The refusal of a record for its accounts, each looked up on its own ledger:
/// 22 if the sender's is not open, else 51 if the receiver's is not.
pub fn account_refusal(record: &Record, accounts: impl Fn(Ledger) -> usize) -> Option<u8> {
    if usize::from(record.sender) >= accounts(record.sender_ledger()) {
        return Some(refusal::ACCOUNT);
    }
    let absent = usize::from(record.receiver) >= accounts(record.receiver_ledger());
    absent.then_some(refusal::RECEIVER)
}

/// Whether both accounts of a record are open.
pub fn accounts_open(record: &Record, accounts: impl Fn(Ledger) -> usize) -> bool {
    account_refusal(record, accounts).is_none()
}

/// The refusal of an opening: 1 by the counts of accounts, 2 by the exact total of
/// all stakes, 52 by the charge.
pub fn opening_refusal(accounts: [usize; 2], total: u128, charge: Charge) -> Option<u8> {
    if accounts.into_iter().any(account_count_wrong) {
        return Some(refusal::ACCOUNT_COUNT);
    }
    if total > u128::from(MAX_AMOUNT) {
        return Some(refusal::STAKES_TOTAL);
    }
    charge.wrong(accounts[0]).then_some(refusal::CHARGE)
}

/// Refusal 1: whether an account count is outside 1 to 56.
pub fn account_count_wrong(count: usize) -> bool {
    !(1..=MAX_ACCOUNTS).contains(&count)
}

/// An exact sum of balances or stakes.
pub fn sum(amounts: &[u64]) -> u128 {
    amounts.iter().map(|&amount| u128::from(amount)).sum()
}
