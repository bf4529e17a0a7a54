//! Records whose accounts are open or not, each sort in turn, on a state where
//! home has more accounts and on one where far has: alone, and in a list after
//! some that pass; those without other faults on full tables too. Then held
//! records whose accounts are not open.

use super::checker::{filled_from, Checker, Reached};
use super::forged::{accounts, held_entry, some_ledger, steps, under_number};
use super::forged::{ARRIVAL, LOCAL, SENDING};
use crate::record::Ledger;
use crate::rules::{Book, CAPACITY};
use crate::runner::absent::{Beside, Sort};
use crate::runner::calls::fields::{Field, Fields};
use crate::runner::calls::Both;
use crate::runner::rng::Rng;
use crate::runner::trader::{maybe_charged, unequal_opening};

/// The steps that a scenario goes on through the sorts of records, and through
/// the held records.
const SORTS: u64 = 18;
const HELD: u64 = 3;

pub fn scenario<C: Checker>(both: &mut Both, rng: &mut Rng) {
    let bases = Ledger::BOTH.map(|larger| base::<C>(both, rng, larger));
    let full = full_base::<C>(both, rng);
    let sorts = sorts::<C>();
    for step in steps(both.scenario(), SORTS) {
        let sort = sorts[(step % sorts.len() as u64) as usize];
        for base in &bases {
            hand_in_record(both, base.branch(rng), sort);
        }
        hand_in_list(both, bases[rng.index(2)].branch(rng), sort);
        if sort.beside == Beside::Nothing {
            hand_in_record(both, full.branch(rng), sort);
            hand_in_list(both, full.branch(rng), sort);
        }
    }
    for step in steps(both.scenario(), HELD) {
        let mut forged = bases[rng.index(2)].branch(rng);
        forge(rng, &mut *forged.state, step);
        let sort = rng.pick(&sorts);
        hand_in_record(both, forged.branch(rng), sort);
        hand_in_list(both, forged.branch(rng), sort);
        forged.look(both);
    }
}

/// A state with some held records, an arrival on each ledger among them.
fn base<C: Checker>(both: &mut Both, rng: &mut Rng, larger: Ledger) -> Reached<C> {
    let opening = maybe_charged(rng, |rng| unequal_opening(rng, larger));
    let targets = [rng.within(8, 30) as usize, rng.within(8, 30) as usize];
    let mut base = filled_from::<C>(both, rng, opening, targets);
    let crossings = Ledger::BOTH.map(|from| {
        let sent = base.trader.lawful_sending(from).expect("credit");
        [sent, sent.matching_arrival()]
    });
    base.hand_in_list(both, &crossings.concat());
    base
}

/// A state with full tables.
fn full_base<C: Checker>(both: &mut Both, rng: &mut Rng) -> Reached<C> {
    let larger = rng.pick(&Ledger::BOTH);
    let opening = maybe_charged(rng, |rng| unequal_opening(rng, larger));
    filled_from(both, rng, opening, [CAPACITY; 2])
}

/// The sorts of records. Of those that the checker is not handed there are few.
fn sorts<C: Checker>() -> Vec<Sort> {
    let few = [Beside::Nothing, Beside::Form];
    let all = Ledger::BOTH.into_iter().flat_map(Sort::all);
    all.filter(|sort| C::sees(sort.kind.ledger()) || few.contains(&sort.beside))
        .collect()
}

fn hand_in_record<C: Checker>(both: &mut Both, mut reached: Reached<C>, sort: Sort) {
    let bytes = sort.record(&mut reached.trader);
    C::check_record(both, &reached.state, &bytes);
}

/// A list with a record of this sort, after up to two that pass, if there are
/// places for them, and before another.
fn hand_in_list<C: Checker>(both: &mut Both, mut reached: Reached<C>, sort: Sort) {
    let trader = &mut reached.trader;
    let places = |ledger: Ledger| trader.book.passed_count(ledger) < CAPACITY;
    let before = if Ledger::BOTH.into_iter().all(places) {
        trader.rng.below(3)
    } else {
        0
    };
    let mut bytes = Vec::new();
    for _ in 0..before {
        let lawful = C::lawful(trader);
        trader.try_out(&lawful);
        bytes.extend(lawful);
    }
    bytes.extend(sort.record(trader));
    bytes.extend(C::lawful(trader));
    C::check_list(both, &reached.state, &bytes);
}

/// A held record of each kind in turn gets a sender, a receiver or both that
/// are not open. Where it is one of a sending and its arrival, the other goes
/// along, so that nothing else is wrong.
fn forge<S: Fields>(rng: &mut Rng, state: &mut S, step: u64) {
    let kind = [LOCAL, SENDING, ARRIVAL][(step % 3) as usize];
    let fields = match step / 3 % 3 {
        0 => &[Field::Receivers][..],
        1 => &[Field::Senders],
        _ => &[Field::Senders, Field::Receivers],
    };
    let ledger = some_ledger(rng, state);
    let Some(entry) = held_entry(rng, state, ledger, kind) else {
        return;
    };
    let other = (kind != LOCAL && S::LEDGERS == 2)
        .then(|| under_number(state, entry, 1 - ledger, SENDING + ARRIVAL - kind))
        .flatten();
    for &field in fields {
        let there = match field {
            Field::Senders => kind == ARRIVAL,
            _ => kind == SENDING,
        };
        let ledger = if there { 1 - ledger } else { ledger };
        let account = not_open(rng, state, ledger);
        for entry in [Some(entry), other].into_iter().flatten() {
            state.set(field, entry, account);
        }
    }
}

/// An account that is not open: the first beyond, one that is open on the other
/// ledger only, if there is one, or another.
fn not_open<S: Fields>(rng: &mut Rng, state: &S, ledger: usize) -> u64 {
    let count = accounts(state, ledger) as u64;
    let last = (accounts(state, 1 - ledger) as u64).saturating_sub(1);
    rng.pick(&[count, last.max(count), 256, 65_535])
}
