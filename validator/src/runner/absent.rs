//! Records whose accounts are open or not, for each kind, alone and with each
//! other fault beside it, so that 22, 51, their places in the order and the
//! ledger on which each account is looked up show.

use super::build::{set_u16, set_u64, Bytes, AMOUNT, NUMBER, RECEIVER, SENDER, VERDICT};
use super::families::faults::{kinds, spoil_form};
use super::trader::Trader;
use crate::record::{Kind, Ledger, Record, MAX_AMOUNT};
use crate::rules::Book;

/// What else is wrong with a record.
#[derive(Clone, Copy, Debug, PartialEq, Eq)]
pub enum Beside {
    Nothing,
    /// 23.
    Verdict,
    /// 24.
    Number,
    /// 25, 31 or 32.
    Cover,
    /// The three above.
    AllLater,
    /// 21, and the three above.
    Form,
}

const BESIDE: [Beside; 6] = [
    Beside::Nothing,
    Beside::Verdict,
    Beside::Number,
    Beside::Cover,
    Beside::AllLater,
    Beside::Form,
];

/// A sort of records.
#[derive(Clone, Copy, Debug, PartialEq, Eq)]
pub struct Sort {
    pub kind: Kind,
    /// 22.
    pub sender_absent: bool,
    /// 51.
    pub receiver_absent: bool,
    pub beside: Beside,
}

impl Sort {
    /// All sorts of a ledger's records, those with both accounts open too.
    pub fn all(ledger: Ledger) -> Vec<Sort> {
        let mut all = Vec::new();
        for kind in kinds(ledger) {
            for sender_absent in [false, true] {
                for receiver_absent in [false, true] {
                    all.extend(BESIDE.map(|beside| Sort {
                        kind,
                        sender_absent,
                        receiver_absent,
                        beside,
                    }));
                }
            }
        }
        all
    }

    /// A record of this sort. The trader should have credit in every account.
    pub fn record(&self, trader: &mut Trader) -> Bytes {
        let record = self.open_record(trader);
        let mut bytes = record.bytes();
        if self.has(Beside::Cover) {
            set_u64(&mut bytes, AMOUNT, MAX_AMOUNT);
        }
        if self.has(Beside::Number) {
            let number = trader.used_for(&record);
            set_u64(&mut bytes, NUMBER, number.unwrap_or(record.number));
        }
        if self.has(Beside::Verdict) {
            bytes[VERDICT] = 0;
        }
        if self.receiver_absent {
            let account = trader.absent_account(record.receiver_ledger());
            set_u16(&mut bytes, RECEIVER, account);
        }
        if self.sender_absent {
            let account = trader.absent_account(record.sender_ledger());
            set_u16(&mut bytes, SENDER, account);
        }
        if self.has(Beside::Form) {
            spoil_form(&mut trader.rng, &mut bytes);
        }
        bytes
    }

    fn has(&self, beside: Beside) -> bool {
        let later = [Beside::Verdict, Beside::Number, Beside::Cover].contains(&beside);
        match self.beside {
            Beside::AllLater | Beside::Form if later => true,
            own => own == beside,
        }
    }

    /// A record of this kind that the rules mostly pass: an arrival that is due,
    /// otherwise one between the last open accounts.
    fn open_record(&self, trader: &mut Trader) -> Record {
        let ledger = self.kind.ledger();
        if let Kind::Arrival(_) = self.kind {
            if let Some(due) = trader.lawful_arrival(ledger) {
                return due;
            }
        }
        let mut record = Record {
            kind: self.kind,
            sender: 0,
            receiver: 0,
            number: trader.fresh_number(ledger),
            amount: 1,
            good: true,
        };
        let last = |ledger| trader.book.accounts(ledger) as u16 - 1;
        record.sender = last(record.sender_ledger());
        record.receiver = last(record.receiver_ledger());
        record
    }
}
