//! Paper 02, U3: openings with charges right and wrong; home sendings around what
//! their senders can pay, alone and in a list after which the charge account spends
//! what it was paid or one more; records that pay nothing; and states whose rate or
//! charge account is another, allowed or not.

use super::checker::{Checker, Reached};
use super::forged::steps;
use crate::charge::{Charge, MAX_RATE};
use crate::record::{Ledger, Record, MAX_AMOUNT};
use crate::runner::build::{local, sending, Bytes, Opening};
use crate::runner::calls::fields::{Field, Fields};
use crate::runner::calls::makers::doubtful_charge;
use crate::runner::calls::Both;
use crate::runner::rng::Rng;
use crate::runner::trader::{any_opening, charged, most_sent, rich_opening};

/// The steps that a scenario goes on through the probes and the forged charges.
const PROBED: u64 = 10;
const FORGED: u64 = 7;

pub fn scenario<C: Checker>(both: &mut Both, rng: &mut Rng) {
    openings::<C>(both, rng);
    let mut base = open::<C>(both, rng);
    base.go_on(both, 3);
    for step in steps(both.scenario(), PROBED) {
        probe(both, base.branch(rng), Probe::of(step));
    }
    for step in steps(both.scenario(), FORGED) {
        let mut forged = base.branch(rng);
        forge(rng, &mut *forged.state, step);
        C::figures(both, &forged.state);
        probe(both, forged, Probe::of(rng.word()));
    }
}

/// Openings with accepted stakes and any charge, and with refused stakes.
fn openings<C: Checker>(both: &mut Both, rng: &mut Rng) {
    let stakes = any_opening(rng);
    for _ in 0..4 {
        let charge = doubtful_charge(rng, stakes.home.len());
        let opening = Opening {
            charge,
            ..stakes.clone()
        };
        C::open(both, &opening);
    }
    let charge = doubtful_charge(rng, 1);
    let above = Opening::new(&[MAX_AMOUNT], &[1]);
    C::open(both, &Opening { charge, ..above });
    let none = Opening::new(&[], &[MAX_AMOUNT, 1]);
    C::open(both, &Opening { charge, ..none });
}

/// An accepted opening with a charge; in every third scenario the stakes are near
/// 2^63-1 and the rate is not 0, so that amount times rate needs more than 64 bits.
fn open<C: Checker>(both: &mut Both, rng: &mut Rng) -> Reached<C> {
    let opening = match both.scenario() % 3 {
        0 => {
            let small = rng.within(0, 30_000);
            let large = MAX_AMOUNT - 2 * small;
            let part = rng.within(large / 2, large);
            let opening = Opening::new(&[part, small, large - part], &[small]);
            let Charge { rate, account } = charged(rng, opening.clone()).charge;
            opening.charged(rate.max(1), account)
        }
        1 => charged(rng, Opening::new(&[100_000, 20_001, 0], &[500, 3])),
        _ => {
            let opening = rich_opening(rng);
            charged(rng, opening)
        }
    };
    Reached::open(both, rng, opening)
}

/// A home record around what its sender has.
#[derive(Clone, Copy)]
struct Probe {
    /// Whether the sender is the charge account.
    from_account: bool,
    amount: Amount,
    /// Whether it is a local, which pays nothing.
    local: bool,
    /// What the charge account spends after it in a list, beyond what it has.
    over: u64,
}

#[derive(Clone, Copy)]
enum Amount {
    /// The most that can be sent, and one more.
    Most,
    MoreThanMost,
    /// The whole balance, and one more.
    Balance,
    MoreThanBalance,
    /// About a multiple of 10,000, or where the charge becomes one more.
    Multiple(u64),
    Any,
}

const AMOUNTS: [Amount; 8] = [
    Amount::Most,
    Amount::MoreThanMost,
    Amount::Balance,
    Amount::MoreThanBalance,
    Amount::Multiple(0),
    Amount::Multiple(1),
    Amount::Multiple(2),
    Amount::Any,
];

impl Probe {
    /// Each probe in turn.
    fn of(step: u64) -> Probe {
        let sorts = AMOUNTS.len() as u64;
        Probe {
            amount: AMOUNTS[(step % sorts) as usize],
            from_account: step / sorts % 2 == 1,
            over: step / sorts / 2 % 2,
            local: step / sorts / 4 % 4 == 3,
        }
    }

    fn record<C: Checker>(self, reached: &mut Reached<C>, charge: Charge) -> Record {
        let trader = &mut reached.trader;
        let sender = match self.from_account {
            true => charge.account as u16,
            false => trader.account(Ledger::Home),
        };
        let receiver = trader.account(Ledger::Far);
        let number = trader.fresh_number(Ledger::Home);
        let balance = reached.state.get(Field::Balances, usize::from(sender));
        let amount = self.amount.of(&mut trader.rng, charge, balance);
        if self.local {
            return local(Ledger::Home, sender, charge.account as u16, number, amount);
        }
        sending(Ledger::Home, sender, receiver, number, amount)
    }
}

impl Amount {
    fn of(self, rng: &mut Rng, charge: Charge, balance: u64) -> u64 {
        let most = most_sent(charge, Ledger::Home, balance);
        let amount = match self {
            Amount::Most => most,
            Amount::MoreThanMost => most + 1,
            Amount::Balance => balance,
            Amount::MoreThanBalance => balance.saturating_add(1),
            Amount::Multiple(more) => {
                let times = rng.within(0, most / MAX_RATE);
                (times * MAX_RATE + more).saturating_sub(1)
            }
            Amount::Any => rng.magnitude(most.max(1)),
        };
        amount.clamp(1, MAX_AMOUNT)
    }
}

/// A probe alone, and in a list with what the charge account then has.
fn probe<C: Checker>(both: &mut Both, mut reached: Reached<C>, probe: Probe) {
    let charge = charge_of(&*reached.state);
    let record = probe.record(&mut reached, charge);
    let (answer, next) = C::check_record(both, &reached.state, &record.bytes());
    let mut list = vec![record.bytes()];
    if answer.passed() {
        let has = next.get(Field::Balances, charge.account as usize);
        list.push(spent(&mut reached, charge, has.saturating_add(probe.over)));
    }
    C::check_list(both, &reached.state, &list.concat());
}

/// The charge account gives an amount to some account.
fn spent<C: Checker>(reached: &mut Reached<C>, charge: Charge, amount: u64) -> Bytes {
    let receiver = reached.trader.account(Ledger::Home);
    let number = reached.trader.fresh_number(Ledger::Home);
    let amount = amount.clamp(1, MAX_AMOUNT);
    local(
        Ledger::Home,
        charge.account as u16,
        receiver,
        number,
        amount,
    )
    .bytes()
}

/// The charge of a state, or one that is near it and right.
fn charge_of<S: Fields>(state: &S) -> Charge {
    let last = state.get(Field::Accounts, 0).clamp(1, 56) - 1;
    Charge {
        rate: state.get(Field::Rate, 0).min(MAX_RATE),
        account: state.get(Field::ChargeAccount, 0).min(last),
    }
}

/// Rate, charge account or the number of home accounts becomes another, in turn.
fn forge<S: Fields>(rng: &mut Rng, state: &mut S, step: u64) {
    let accounts = state.get(Field::Accounts, 0);
    let account = state.get(Field::ChargeAccount, 0);
    let high = 1 << rng.pick(&[16, 32, 63]);
    let altered = match step % 13 {
        0 => (Field::Rate, rng.within(0, MAX_RATE)),
        1 => (Field::Rate, MAX_RATE),
        2 => (Field::Rate, MAX_RATE + 1),
        3 => (Field::Rate, state.get(Field::Rate, 0) | high),
        4 => (Field::Rate, rng.pick(&[0, 1, u64::MAX])),
        5 => (Field::ChargeAccount, rng.below(accounts)),
        6 => (Field::ChargeAccount, accounts - 1),
        7 => (Field::ChargeAccount, accounts),
        8 => (Field::ChargeAccount, account | high),
        9 => (Field::ChargeAccount, rng.pick(&[56, 65_535, u64::MAX])),
        // The account is open on far only, or not open any more at home.
        10 => (Field::ChargeAccount, state.get(Field::Accounts, 1) - 1),
        11 => (Field::Accounts, account.max(1)),
        _ => (Field::Accounts, account + 1),
    };
    let (field, value) = altered;
    state.set(field, 0, value);
    if field == Field::Accounts {
        gather_beyond(state);
    }
}

/// Balances beyond the home accounts go to the first.
fn gather_beyond<S: Fields>(state: &mut S) {
    for entry in state.get(Field::Accounts, 0) as usize..56 {
        let balance = state.get(Field::Balances, entry);
        let first = state.get(Field::Balances, 0);
        state.set(Field::Balances, entry, 0);
        state.set(Field::Balances, 0, first.wrapping_add(balance));
    }
}
