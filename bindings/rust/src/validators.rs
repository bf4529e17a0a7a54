//! The two validators.

use crate::refusal::{value, Answer, Refusal};
use crate::{calls, ffi, Ledger, Tariff};
use std::fmt;

/// The totals that a [`PairValidator`] gives. The three make the supply.
#[derive(Clone, Copy, Debug, PartialEq, Eq, Hash)]
pub struct PairFigures {
    /// The balances of home.
    pub home: u64,
    /// The balances of far.
    pub far: u64,
    /// In flight: passed sendings whose arrival has not passed, without their charges.
    pub flight: u64,
}

/// The places left that a [`PairValidator`] gives: how many more records of each ledger can pass before [`Refusal::Full`].
#[derive(Clone, Copy, Debug, PartialEq, Eq, Hash)]
pub struct PairPlaces {
    /// On home.
    pub home: u64,
    /// On far.
    pub far: u64,
}

/// The totals that a [`HomeValidator`] gives. The two make the supply.
#[derive(Clone, Copy, Debug, PartialEq, Eq, Hash)]
pub struct HomeFigures {
    /// The balances of home.
    pub home: u64,
    /// The far pool (the networks' word: far due): the far opening total, plus what home has sent, less what has arrived.
    pub pool: u64,
}

/// The checker that sees the records of both ledgers in one order (the networks' word: pair book).
///
/// ```
/// use moatbetony::{Answer, Kind, Ledger, PairFigures, PairValidator, Record, Refusal, Tariff};
///
/// let mut pair = PairValidator::open(&[100, 50], &[20], Tariff::FREE)?;
/// let sent = Record {
///     kind: Kind::Sending, ledger: Ledger::Home, sender: 0, receiver: 0, number: 7, amount: 30, verified: true,
/// };
/// assert!(pair.take(&sent.encode()?).is_passed());
/// assert_eq!(pair.figures()?, PairFigures { home: 120, far: 20, flight: 30 });
///
/// // An arrival of more than was sent has no matching sending.
/// let more = Record { kind: Kind::Arrival, ledger: Ledger::Far, amount: 31, ..sent };
/// assert_eq!(pair.take(&more.encode()?), Answer::Refused { refusal: Refusal::NoSending, place: 0 });
/// # Ok::<(), Refusal>(())
/// ```
#[derive(Clone)]
pub struct PairValidator {
    state: Box<ffi::PairValidator>,
}

/// The checker that sees the home ledger's records alone (the networks' word: guard). However the far ledger is run, it never lets
/// more arrive than the far opening total and what home has sent.
///
/// ```
/// use moatbetony::{HomeFigures, HomeValidator, Kind, Ledger, Record, Refusal, Tariff};
///
/// let mut home = HomeValidator::open(&[100, 50], 1, 20, Tariff::FREE)?;
/// let arrival = Record {
///     kind: Kind::Arrival, ledger: Ledger::Home, sender: 0, receiver: 1, number: 9, amount: 21, verified: true,
/// };
/// assert_eq!(home.take(&arrival.encode()?).refusal(), Some(Refusal::AbovePool));
/// let arrival = Record { amount: 20, ..arrival };
/// assert!(home.take(&arrival.encode()?).is_passed());
/// assert_eq!(home.figures()?, HomeFigures { home: 170, pool: 0 });
/// assert_eq!(home.balance(1)?, 70);
/// # Ok::<(), Refusal>(())
/// ```
#[derive(Clone)]
pub struct HomeValidator {
    state: Box<ffi::HomeValidator>,
}

// What both have: the calls with records, the tariff, and the state as bytes.
macro_rules! validator {
    ($name:ident, $told:ident, $take:ident, $take_list:ident, $check_record:ident, $check_list:ident, $refusals:literal) => {
        impl $name {
            /// The bytes of a state.
            pub const STATE_SIZE: usize = size_of::<ffi::$name>();

            /// Checks one record, and moves its credit if it passes. A refusal leaves the validator untouched. Its signature is what
            /// byte 24 says: see [`Record::verified`](crate::Record::verified).
            ///
            /// The state is altered in place, by a proved call, and no copy of it is made.
            ///
            #[doc = $refusals]
            pub fn take(&mut self, record: &[u8]) -> Answer {
                Answer::of(calls::$take(&mut self.state, record))
            }

            /// Checks a list of records, 32 bytes each, all or none. The place of a refusal is the index of the first refused record,
            /// and it leaves the validator untouched. Bytes left over at the end are a record that is too short. An empty list passes.
            ///
            /// The state is altered in place, by a proved call, which keeps one copy of it while it runs.
            ///
            #[doc = $refusals]
            pub fn take_list(&mut self, records: &[u8]) -> Answer {
                Answer::of(calls::$take_list(&mut self.state, records))
            }

            /// As [`take`](Self::take), by the call that is handed the state by value: it copies the state, and this crate stores what
            /// comes back where the answer passed.
            pub fn check_record(&mut self, record: &[u8]) -> Answer {
                let told = calls::$check_record(&self.state, record);
                self.store(&told)
            }

            /// As [`take_list`](Self::take_list), by the call that is handed the state by value: it copies the state, and this crate
            /// stores what comes back where the answer passed.
            pub fn check_list(&mut self, records: &[u8]) -> Answer {
                let told = calls::$check_list(&self.state, records);
                self.store(&told)
            }

            // The only place that stores a state that came back: the one beside an answer that passed. A refusal leaves the state
            // untouched, whatever stands beside it, and so does an answer that contradicts itself, which panics. (The calls in place
            // alter it where it lies.)
            fn store(&mut self, told: &ffi::$told) -> Answer {
                let answer = Answer::of(told.answer);
                if answer.is_passed() {
                    *self.state = told.state;
                }
                answer
            }

            /// The charge on home's sendings, as the opening told it: what a stored state that was taken up goes on with.
            ///
            /// # Errors
            ///
            /// [`Refusal::State`].
            pub fn tariff(&self) -> Result<Tariff, Refusal> {
                self.figures()?;
                Ok(Tariff { rate: self.state.rate, charge_account: self.state.charge_account })
            }

            /// The state's bytes, to be stored. Store [`STATE_VERSION`](crate::STATE_VERSION) and a digest with them, and keep the
            /// latest digest where nobody else can write it.
            #[must_use]
            pub fn as_bytes(&self) -> &[u8] {
                calls::bytes_of(&*self.state)
            }

            /// Takes up stored bytes, whatever they hold; `None` if they are not [`STATE_SIZE`](Self::STATE_SIZE) long.
            ///
            /// Every call judges the state first (refusal 3, [`Refusal::State`]). 3 says that a state's numbers fit together, and no
            /// more. It does not see two balances exchanged, a balance raised together with the supply (home: or at the far pool's
            /// cost), another tariff that an opening would take, held records left out, so that they pass again, or an older state
            /// put back. Compare a digest before, and keep the latest one where nobody else can write it.
            #[must_use]
            pub fn from_bytes(bytes: &[u8]) -> Option<Self> {
                Some($name { state: calls::from_bytes(bytes)? })
            }
        }

        /// Equal where all bytes of the states are.
        impl PartialEq for $name {
            fn eq(&self, other: &Self) -> bool {
                self.as_bytes() == other.as_bytes()
            }
        }

        impl Eq for $name {}
    };
}

validator!(
    PairValidator,
    PlainPairOutcome,
    pair_take,
    pair_take_list,
    pair_check_record,
    pair_check_list,
    "Refusals, in order: 3, 21, 22, 51, 23, 24, then 25 (local, sending) or 31 (arrival), then 41; 24 counts arrivals apart."
);
validator!(
    HomeValidator,
    PlainHomeOutcome,
    home_take,
    home_take_list,
    home_check_record,
    home_check_list,
    "Refusals, in order: 3, 21, 33, 22, 51, 23, 24, then 25 (local, sending) or 32 (arrival), then 41; 24 counts arrivals apart."
);

impl PairValidator {
    /// Opens with the balances of each ledger, one for each account from 0, and the charge on home's sendings.
    ///
    /// # Errors
    ///
    /// [`Refusal::AccountCount`], then [`Refusal::Supply`], then [`Refusal::Tariff`].
    pub fn open(home_balances: &[u64], far_balances: &[u64], tariff: Tariff) -> Result<PairValidator, Refusal> {
        let told = calls::pair_open(home_balances, far_balances, tariff);
        value(told.answer, ())?;
        Ok(PairValidator { state: Box::new(told.state) })
    }

    /// The totals of both ledgers, and what is in flight.
    ///
    /// # Errors
    ///
    /// [`Refusal::State`].
    pub fn figures(&self) -> Result<PairFigures, Refusal> {
        let told = calls::pair_figures(&self.state);
        value(told.answer, PairFigures { home: told.home, far: told.far, flight: told.flight })
    }

    /// The balance of an account.
    ///
    /// # Errors
    ///
    /// [`Refusal::State`], then [`Refusal::Account`].
    pub fn balance(&self, ledger: Ledger, account: u16) -> Result<u64, Refusal> {
        let told = calls::pair_balance(&self.state, ledger.byte(), account);
        value(told.answer, told.balance)
    }

    /// The places left: how many more records of each ledger can pass before [`Refusal::Full`]. No record makes room again.
    ///
    /// ```
    /// use moatbetony::{Kind, Ledger, PairPlaces, PairValidator, Record, Tariff, CAPACITY};
    ///
    /// let mut pair = PairValidator::open(&[100, 50], &[20], Tariff::FREE)?;
    /// let all = CAPACITY as u64;
    /// assert_eq!(pair.places_left()?, PairPlaces { home: all, far: all });
    /// let sent = Record {
    ///     kind: Kind::Sending, ledger: Ledger::Home, sender: 0, receiver: 0, number: 7, amount: 30, verified: true,
    /// };
    /// assert!(pair.take(&sent.encode()?).is_passed());
    /// assert_eq!(pair.places_left()?, PairPlaces { home: all - 1, far: all });
    /// # Ok::<(), moatbetony::Refusal>(())
    /// ```
    ///
    /// # Errors
    ///
    /// [`Refusal::State`].
    pub fn places_left(&self) -> Result<PairPlaces, Refusal> {
        let told = calls::pair_places_left(&self.state);
        value(told.answer, PairPlaces { home: told.home, far: told.far })
    }
}

impl HomeValidator {
    /// Opens with the home balances, one for each account from 0, the number of far accounts and their total, and the charge on home's
    /// sendings.
    ///
    /// # Errors
    ///
    /// [`Refusal::AccountCount`], then [`Refusal::Supply`], then [`Refusal::Tariff`].
    pub fn open(home_balances: &[u64], far_accounts: usize, far_total: u64, tariff: Tariff) -> Result<HomeValidator, Refusal> {
        let told = calls::home_open(home_balances, far_accounts, far_total, tariff);
        value(told.answer, ())?;
        Ok(HomeValidator { state: Box::new(told.state) })
    }

    /// The home total and the far pool.
    ///
    /// # Errors
    ///
    /// [`Refusal::State`].
    pub fn figures(&self) -> Result<HomeFigures, Refusal> {
        let told = calls::home_figures(&self.state);
        value(told.answer, HomeFigures { home: told.home, pool: told.pool })
    }

    /// The balance of a home account.
    ///
    /// # Errors
    ///
    /// [`Refusal::State`], then [`Refusal::Account`].
    pub fn balance(&self, account: u16) -> Result<u64, Refusal> {
        let told = calls::home_balance(&self.state, account);
        value(told.answer, told.balance)
    }

    /// The places left: how many more home records can pass before [`Refusal::Full`]. No record makes room again.
    ///
    /// ```
    /// use moatbetony::{HomeValidator, Tariff, CAPACITY};
    ///
    /// let home = HomeValidator::open(&[100, 50], 1, 20, Tariff::FREE)?;
    /// assert_eq!(home.places_left()?, CAPACITY as u64);
    /// # Ok::<(), moatbetony::Refusal>(())
    /// ```
    ///
    /// # Errors
    ///
    /// [`Refusal::State`].
    pub fn places_left(&self) -> Result<u64, Refusal> {
        let told = calls::home_places_left(&self.state);
        value(told.answer, told.home)
    }
}

/// The single numbers of the state, without balances and records.
impl fmt::Debug for PairValidator {
    fn fmt(&self, f: &mut fmt::Formatter<'_>) -> fmt::Result {
        f.debug_struct("PairValidator")
            .field("supply", &self.state.supply)
            .field("accounts", &self.state.accounts)
            .field("counts", &self.state.counts)
            .field("rate", &self.state.rate)
            .field("charge_account", &self.state.charge_account)
            .finish_non_exhaustive()
    }
}

/// The single numbers of the state, without balances and records.
impl fmt::Debug for HomeValidator {
    fn fmt(&self, f: &mut fmt::Formatter<'_>) -> fmt::Result {
        f.debug_struct("HomeValidator")
            .field("supply", &self.state.supply)
            .field("pool", &self.state.pool)
            .field("home_accounts", &self.state.home_accounts)
            .field("far_accounts", &self.state.far_accounts)
            .field("count", &self.state.count)
            .field("rate", &self.state.rate)
            .field("charge_account", &self.state.charge_account)
            .finish_non_exhaustive()
    }
}

#[cfg(test)]
mod tests {
    use super::*;
    use crate::ffi::PlainAnswer;
    use std::panic::{catch_unwind, AssertUnwindSafe};

    // Each answer with another state beside it, as the library never tells with a refusal: stored where it passed, and nowhere else.
    macro_rules! stores_what_passed {
        ($test:ident, $before:expr, $after:expr, $told:ident) => {
            #[test]
            fn $test() {
                let before = $before.expect("an opening");
                let after = $after.expect("an opening");
                assert_ne!(before, after);
                let store = |number, passed| {
                    let told = ffi::$told { answer: PlainAnswer { number, passed, place: 7 }, state: *after.state };
                    let mut it = before.clone();
                    let answer = catch_unwind(AssertUnwindSafe(|| it.store(&told)));
                    (answer.ok(), it)
                };
                assert_eq!(store(0, 1), (Some(Answer::Passed), after.clone()));
                for number in [3, 25, 41, 99, u32::MAX] {
                    let refused = Answer::Refused { refusal: Refusal::of(number), place: 7 };
                    assert_eq!(store(number, 0), (Some(refused), before.clone()));
                }
                for (number, passed) in [(0, 0), (0, 2), (25, 1), (u32::MAX, u32::MAX)] {
                    assert_eq!(store(number, passed), (None, before.clone()), "number {number}, passed {passed}");
                }
            }
        };
    }

    stores_what_passed!(
        pair_stores_what_passed,
        PairValidator::open(&[100, 50], &[20], Tariff::FREE),
        PairValidator::open(&[99, 51], &[20], Tariff::FREE),
        PlainPairOutcome
    );
    stores_what_passed!(
        home_stores_what_passed,
        HomeValidator::open(&[100, 50], 1, 20, Tariff::FREE),
        HomeValidator::open(&[99, 51], 1, 20, Tariff::FREE),
        PlainHomeOutcome
    );
}
