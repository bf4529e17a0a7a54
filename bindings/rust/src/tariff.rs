//! The charge on home's sendings.

use crate::calls;
use crate::refusal::{value, Refusal};

/// What home's network takes on each home sending, and the home account that is paid.
///
/// A home sending needs its amount and the charge in the sender's balance (else [`Refusal::Balance`]) and takes both; the charge account
/// gets the charge at once, the far receiver later the amount alone. The charge account may send too: it needs and pays both, and then
/// gets the charge. Locals, arrivals and far sendings cost nothing more than their amount. The charge stays at home: the record's amount,
/// what is in flight and the far pool leave it out.
///
/// Rate and account are the network's: ask it, or read them in block 0 of its journal
/// ([`journal::opening_balances`](crate::journal::opening_balances)). They are wide numbers, and none is cut: an opening refuses what it
/// does not take ([`Refusal::Tariff`]).
///
/// ```
/// use moatbetony::{HomeValidator, Kind, Ledger, Record, Refusal, Tariff};
///
/// // 50 ten-thousandths of what is sent, paid to account 1.
/// let tariff = Tariff { rate: 50, charge_account: 1 };
/// let mut home = HomeValidator::open(&[1000, 0], 1, 20, tariff)?;
///
/// // What a holder sees before a sending is signed: the amount, the charge, and the sum, which leaves the account.
/// let sent = Record {
///     kind: Kind::Sending, ledger: Ledger::Home, sender: 0, receiver: 0, number: 7, amount: 600, verified: true,
/// };
/// let charge = tariff.charge(sent.amount)?;
/// println!("{} and a charge of {charge}, in all {}", sent.amount, sent.amount + charge);
/// assert!(home.take(&sent.encode()?).is_passed());
/// assert_eq!((home.balance(0)?, home.balance(1)?), (397, 3));
///
/// // What is left has the amount, and not the charge on it: a smaller amount passes.
/// let more = Record { number: 8, amount: 397, ..sent };
/// assert_eq!(tariff.charge(more.amount)?, 1);
/// assert_eq!(home.take(&more.encode()?).refusal(), Some(Refusal::Balance));
/// assert!(home.take(&Record { amount: 396, ..more }.encode()?).is_passed());
/// # Ok::<(), Refusal>(())
/// ```
#[derive(Clone, Copy, Debug, PartialEq, Eq, Hash)]
pub struct Tariff {
    /// The rate, in ten-thousandths of what is sent: 0 to [`MAX_RATE`](crate::MAX_RATE).
    pub rate: u64,
    /// The home account that the charge is paid to. It is open, also beside rate 0.
    pub charge_account: u64,
}

impl Tariff {
    /// No charge: rate 0, and account 0, which every ledger has.
    pub const FREE: Tariff = Tariff { rate: 0, charge_account: 0 };

    /// The charge on a home sending of this amount: the rate's ten-thousandths of it, rounded down, by the library's proved call. The
    /// sending takes the amount and this from its sender; of an amount that a record can have, their sum stays within 64 bits. Every amount
    /// is taken, and the charge account is not looked at.
    ///
    /// # Errors
    ///
    /// [`Refusal::Tariff`] for a rate above [`MAX_RATE`](crate::MAX_RATE).
    pub fn charge(self, amount: u64) -> Result<u64, Refusal> {
        let told = calls::charge(self.rate, amount);
        value(told.answer, told.charge)
    }
}
