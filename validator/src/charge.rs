//! Paper 02, U3: home's charge on leaving, in ten-thousandths of the amount,
//! rounded down and paid to a home account.

use crate::record::{Kind, Ledger, Record};

/// The highest rate, and what a rate is counted in.
pub const MAX_RATE: u64 = 10_000;

/// The rate of the charge and the home account that it is paid to. Both are as
/// wide as the calls hand them in, so that a wrong one can stand here.
#[derive(Clone, Copy, Debug, Default, PartialEq, Eq)]
pub struct Charge {
    pub rate: u64,
    pub account: u64,
}

impl Charge {
    /// Rate 0 and account 0, as in journals from before U3.
    pub const NONE: Charge = Charge {
        rate: 0,
        account: 0,
    };

    pub const fn new(rate: u64, account: u64) -> Charge {
        Charge { rate, account }
    }

    /// The condition of 52, in a state of 3, in the writer of 4: the rate is above
    /// 10,000, or the account is not open at home. Rate 0 wants an open account too.
    pub fn wrong(self, home_accounts: usize) -> bool {
        self.rate > MAX_RATE || self.account >= home_accounts as u64
    }

    /// What a record pays to the charge account: home sendings pay a part of their
    /// amount, all others nothing. The rate must be a right one. Exact.
    pub fn of(self, record: &Record) -> u64 {
        if record.kind != Kind::Sending(Ledger::Home) {
            return 0;
        }
        let product = u128::from(record.amount) * u128::from(self.rate);
        let charge = product / u128::from(MAX_RATE);
        u64::try_from(charge).expect("at most the amount")
    }

    /// What a local or sending needs in its sender's balance and takes from it: at
    /// most twice 2^63-1.
    pub fn cost(self, record: &Record) -> u64 {
        record.amount + self.of(record)
    }
}

#[cfg(test)]
mod tests {
    use super::Charge;
    use crate::record::{Kind, Ledger, Record, MAX_AMOUNT};

    fn leaving(amount: u64) -> Record {
        Record {
            kind: Kind::Sending(Ledger::Home),
            sender: 0,
            receiver: 0,
            number: 0,
            amount,
            good: true,
        }
    }

    #[test]
    fn rounds_down() {
        let charge = |rate, amount| Charge::new(rate, 0).of(&leaving(amount));
        assert_eq!(
            [199, 200, 201, 399, 400].map(|a| charge(50, a)),
            [0, 1, 1, 1, 2]
        );
        assert_eq!(
            [9_999, 10_000, 19_999, 20_000].map(|a| charge(1, a)),
            [0, 1, 1, 2]
        );
        assert_eq!(
            [1, 2, 10_000, 10_001].map(|a| charge(9_999, a)),
            [0, 1, 9_999, 9_999]
        );
        assert_eq!([1, 7].map(|a| charge(10_000, a)), [1, 7]);
        assert_eq!(charge(0, MAX_AMOUNT), 0);
    }

    #[test]
    fn is_exact_beyond_64_bits() {
        let charge = |rate| Charge::new(rate, 0).of(&leaving(MAX_AMOUNT));
        assert_eq!(charge(10_000), MAX_AMOUNT);
        // 2^63-1 is 922,337,203,685,477 times 10,000 and 5,807.
        assert_eq!(charge(1), 922_337_203_685_477);
        assert_eq!(charge(9_999), 922_337_203_685_477 * 9_999 + 5_806);
        assert_eq!(charge(5_000), (1 << 62) - 1);
    }

    #[test]
    fn others_pay_nothing() {
        let kinds = [
            Kind::Local(Ledger::Home),
            Kind::Arrival(Ledger::Home),
            Kind::Local(Ledger::Far),
            Kind::Sending(Ledger::Far),
            Kind::Arrival(Ledger::Far),
        ];
        for kind in kinds {
            let record = Record {
                kind,
                ..leaving(10_000)
            };
            assert_eq!(Charge::new(10_000, 0).of(&record), 0);
            assert_eq!(Charge::new(10_000, 0).cost(&record), 10_000);
        }
        assert_eq!(Charge::new(50, 0).cost(&leaving(10_000)), 10_050);
    }
}
