//! The long journals of the stored set. Both ledgers trade from the first block
//! to the last ones, with refused records of every sort in between, and the
//! last record is the arrival of what the first one sent.

use super::build::Bytes;
use super::calls::makers::{charge_miss, class_miss, near_miss, spoilt};
use super::rng::Rng;
use super::trader::{rich_opening, Numbers, Sharing, Trader};
use crate::charge::Charge;
use crate::record::Ledger;
use crate::rules::{Book, CAPACITY};

/// How a long journal is made.
pub struct Long {
    pub seed: u64,
    pub numbers: Numbers,
    /// The records of the journal.
    pub length: usize,
    /// After how many records each ledger's table is about full, home first. A
    /// number above the length leaves it places to the end.
    pub full_after: [usize; 2],
    /// The ledger of the first record. The other one, on which the last record
    /// arrives, is to have a place left.
    pub first: Ledger,
    pub sharing: Sharing,
    pub charge: Charge,
}

impl Long {
    pub fn journal(&self) -> Vec<u8> {
        let mut rng = Rng::new(self.seed);
        let Charge { rate, account } = self.charge;
        let opening = rich_opening(&mut rng).charged(rate, account);
        let mut trader = Trader::new(opening, self.numbers, rng);
        trader.sharing = self.sharing;
        let sent = trader.lawful_sending(self.first).expect("credit");
        trader.hand_in(sent.bytes());
        // It is not to arrive before the end.
        trader.pending.clear();
        while trader.records.len() + 1 < self.length {
            let bytes = self.next(&mut trader);
            trader.hand_in(bytes);
        }
        let answer = trader.hand_in(sent.matching_arrival().bytes());
        assert_eq!(answer, 0, "the last record arrives");
        trader.journal()
    }

    /// A record that passes, or one of those in between.
    fn next(&self, trader: &mut Trader) -> Bytes {
        let ledger = trader.some_ledger();
        trader.thrifty = trader.rng.chance(3, 4);
        if self.is_behind(trader, ledger) {
            if let Some(record) = trader.lawful(ledger) {
                return record.bytes();
            }
        }
        mostly_refused(trader, ledger)
    }

    /// Whether the ledger has fewer passed records than it should have by now.
    /// A full one seems so now and then, which brings about 41.
    fn is_behind(&self, trader: &mut Trader, ledger: Ledger) -> bool {
        let passed = trader.book.passed_count(ledger);
        if passed == CAPACITY {
            return trader.rng.chance(1, 2);
        }
        passed * self.full_after[ledger.index()] < trader.records.len() * CAPACITY
    }
}

/// A record with some faults, or one that comes near to a trap of the paper, to
/// the numbers that are counted apart or to what a sending costs.
fn mostly_refused(trader: &mut Trader, ledger: Ledger) -> Bytes {
    if trader.book.charge() != Charge::NONE && trader.rng.chance(1, 4) {
        charge_miss(trader)
    } else if trader.sharing == Sharing::Often && trader.rng.chance(1, 3) {
        class_miss(trader, ledger)
    } else if trader.rng.chance(1, 3) {
        near_miss(trader, ledger)
    } else {
        spoilt(trader, ledger)
    }
}
