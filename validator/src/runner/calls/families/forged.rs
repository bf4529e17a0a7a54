//! Forged states: good ones of all sizes with one field or word altered, with
//! each pair of fields altered, with held records and counts forged in turn,
//! with two or more fields altered so that they agree in some way, with anything
//! beyond the counts, and states of no meaning at all; then a call on them.

use super::beyond::{beyond_the_counts, tempted};
use super::checker::{reached, Checker, Reached};
use super::held::sweep_held;
use super::sweeps::{sweep, sweep_pairs};
use crate::record::{Ledger, Record, MAX_AMOUNT};
use crate::rules::{CAPACITY, MAX_ACCOUNTS};
use crate::runner::build::local;
use crate::runner::calls::fields::{Field, Fields};
use crate::runner::calls::Both;
use crate::runner::rng::Rng;
use crate::states::{words_of, HELD};
use std::ops::Range;

/// The kinds of records, as they stand in a state.
pub(super) const LOCAL: u64 = 1;
pub(super) const SENDING: u64 = 2;
pub(super) const ARRIVAL: u64 = 3;

/// The steps that a scenario goes on through the fields, through their pairs,
/// and through the forgeries of held records and counts.
const SWEPT: u64 = 18;
const PAIRS_SWEPT: u64 = 15;
const HELD_SWEPT: u64 = 14;

pub fn scenario<C: Checker>(both: &mut Both, rng: &mut Rng) {
    let base = reached::<C>(both, rng);
    let (scenario, seed) = (both.scenario(), both.seed());
    for step in steps(scenario, SWEPT) {
        let mut branch = base.branch(rng);
        sweep(rng, &mut *branch.state, step);
        call(both, rng, &mut branch);
    }
    for step in steps(scenario, PAIRS_SWEPT) {
        let mut branch = base.branch(rng);
        sweep_pairs(rng, &mut *branch.state, step, seed);
        call(both, rng, &mut branch);
    }
    for step in steps(scenario, HELD_SWEPT) {
        let mut branch = base.branch(rng);
        sweep_held(rng, &mut *branch.state, step);
        call(both, rng, &mut branch);
    }
    for _ in 0..15 {
        let mut branch = base.branch(rng);
        forge(rng, &mut *branch.state);
        call(both, rng, &mut branch);
    }
    for _ in 0..2 {
        let mut branch = base.branch(rng);
        tempted(both, rng, &mut branch);
    }
}

/// The steps of a scenario, which begin where those of the one before end.
pub(super) fn steps(scenario: u64, length: u64) -> Range<u64> {
    scenario * length..(scenario + 1) * length
}

/// A call on a forged state, and another where it goes on.
pub(super) fn call<C: Checker>(both: &mut Both, rng: &mut Rng, forged: &mut Reached<C>) {
    match rng.below(12) {
        0..=4 => {
            let bytes = C::lawful(&mut forged.trader);
            if forged.hand_in(both, &bytes).passed() && rng.chance(1, 3) {
                forged.any_list(both);
            }
        }
        5 => forged.any_record(both),
        6 => forged.any_list(both),
        7 => {
            C::check_list(both, &forged.state, &[]);
        }
        8 | 9 => forged.look(both),
        _ => C::places_left(both, &forged.state),
    }
}

fn forge<S: Fields>(rng: &mut Rng, state: &mut S) {
    match rng.below(20) {
        0..=5 => one_field(rng, state),
        6 | 7 => one_word(rng, state),
        8..=15 => agreeing_fields(rng, state),
        16 | 17 => beyond_the_counts(rng, state),
        18 => {
            for _ in 0..rng.within(2, 4) {
                one_field(rng, state);
            }
        }
        _ => no_meaning(rng, state),
    }
}

/// The count of held records of a ledger, as far as the columns reach.
pub(super) fn count<S: Fields>(state: &S, ledger: usize) -> usize {
    (state.get(Field::Counts, ledger) as usize).min(CAPACITY)
}

pub(super) fn accounts<S: Fields>(state: &S, ledger: usize) -> usize {
    (state.get(Field::Accounts, ledger) as usize).min(MAX_ACCOUNTS)
}

pub(super) fn some_ledger<S: Fields>(rng: &mut Rng, _: &S) -> usize {
    rng.index(S::LEDGERS)
}

/// A place of a part that has `length` places, `used` of them in use: the
/// first, the last in use, the first beyond, the last, or any.
pub(super) fn some_place(rng: &mut Rng, used: usize, length: usize) -> usize {
    let any = rng.index(length);
    let in_use = rng.index(used.max(1));
    let places = [
        0,
        used.saturating_sub(1),
        used,
        length - 1,
        any,
        in_use,
        in_use,
    ];
    rng.pick(&places).min(length - 1)
}

/// An entry of a field, within its ledger's count or beyond.
fn some_entry<S: Fields>(rng: &mut Rng, state: &S, field: Field) -> usize {
    let ledger = some_ledger(rng, state);
    if field.is_column() {
        return ledger * CAPACITY + some_place(rng, count(state, ledger), CAPACITY);
    }
    match field {
        Field::Balances => {
            ledger * MAX_ACCOUNTS + some_place(rng, accounts(state, ledger), MAX_ACCOUNTS)
        }
        _ => rng.index(S::length(field)),
    }
}

/// The entry of a held record of a kind, if there is one.
pub(super) fn held_entry<S: Fields>(
    rng: &mut Rng,
    state: &S,
    ledger: usize,
    kind: u64,
) -> Option<usize> {
    let count = count(state, ledger);
    if count == 0 {
        return None;
    }
    let first = rng.index(count);
    (0..count)
        .map(|step| ledger * CAPACITY + (first + step) % count)
        .find(|&entry| state.get(Field::Kinds, entry) == kind)
}

/// The entry of an open account's balance.
fn open_balance<S: Fields>(rng: &mut Rng, state: &S, ledger: usize) -> usize {
    ledger * MAX_ACCOUNTS + rng.index(accounts(state, ledger).max(1))
}

/// Writes a record at an entry.
pub(super) fn put<S: Fields>(state: &mut S, entry: usize, record: &Record) {
    let words = words_of(&record.bytes());
    state.words_mut()[entry * HELD..][..HELD].copy_from_slice(&words);
}

fn add<S: Fields>(state: &mut S, field: Field, entry: usize, more: u64) {
    let value = state.get(field, entry).wrapping_add(more);
    state.set(field, entry, value);
}

fn lower<S: Fields>(state: &mut S, field: Field, entry: usize, less: u64) {
    add(state, field, entry, less.wrapping_neg());
}

fn exchange<S: Fields>(state: &mut S, field: Field, one: usize, other: usize) {
    let (first, second) = (state.get(field, one), state.get(field, other));
    state.set(field, one, second);
    state.set(field, other, first);
}

/// One entry of one field is altered.
fn one_field<S: Fields>(rng: &mut Rng, state: &mut S) {
    let field = rng.pick(S::FIELDS);
    let entry = some_entry(rng, state, field);
    let value = other_value(rng, state.get(field, entry));
    state.set(field, entry, value);
}

/// One word is altered, of a held record in use or any.
fn one_word<S: Fields>(rng: &mut Rng, state: &mut S) {
    let held = some_entry(rng, state, Field::Numbers) * HELD + rng.index(HELD);
    let any = rng.index(state.words().len());
    let word = rng.pick(&[held, held, any]);
    let value = other_value(rng, state.words()[word]);
    state.words_mut()[word] = value;
}

fn other_value(rng: &mut Rng, old: u64) -> u64 {
    let random = rng.word();
    let bit = 1 << rng.below(64);
    rng.pick(&[
        0,
        1,
        2,
        3,
        4,
        55,
        56,
        57,
        255,
        511,
        512,
        513,
        65_535,
        1 << 32,
        old ^ (1 << 32),
        old.wrapping_add(1),
        old.wrapping_add(1),
        old.wrapping_sub(1),
        old.wrapping_sub(1),
        u64::MAX,
        u64::MAX,
        1 << 63,
        MAX_AMOUNT,
        old ^ (1 << 63),
        old ^ bit,
        random,
    ])
}

/// How much is moved from one entry to another.
fn some_shift(rng: &mut Rng, from: u64) -> u64 {
    let random = rng.word();
    let part = rng.within(0, from);
    rng.pick(&[
        1,
        from,
        part,
        part,
        from.wrapping_add(1),
        1 << 63,
        1 << 62,
        random,
    ])
}

/// Two fields or more are altered so that some sum or match is kept.
fn agreeing_fields<S: Fields>(rng: &mut Rng, state: &mut S) {
    match rng.below(15) {
        0 => balances_shifted(rng, state),
        1 => supply_with_balance(rng, state),
        2 => pool_with_balance(rng, state),
        3 => balances_exchanged(rng, state),
        4 => records_exchanged(rng, state),
        5 => amounts_shifted(rng, state),
        6 => numbers_made_equal(rng, state),
        7 | 8 => sums_that_overflow(rng, state),
        9 => crossing_altered(rng, state),
        10 => record_more_or_less(rng, state),
        11 => accounts_more_or_less(rng, state),
        12 => kind_with_balance(rng, state),
        13 => supply_at_its_limit(rng, state),
        _ => amount_with_balance(rng, state),
    }
}

/// One balance up and another down, also below zero.
fn balances_shifted<S: Fields>(rng: &mut Rng, state: &mut S) {
    let up = some_entry(rng, state, Field::Balances);
    let ledger = some_ledger(rng, state);
    let down = open_balance(rng, state, ledger);
    let shift = some_shift(rng, state.get(Field::Balances, down));
    add(state, Field::Balances, up, shift);
    lower(state, Field::Balances, down, shift);
}

fn supply_with_balance<S: Fields>(rng: &mut Rng, state: &mut S) {
    let entry = some_entry(rng, state, Field::Balances);
    let room = MAX_AMOUNT.saturating_sub(state.get(Field::Supply, 0));
    let shift = some_shift(rng, room);
    add(state, Field::Balances, entry, shift);
    add(state, Field::Supply, 0, shift);
}

/// The far due up and a balance down, or the other way round. In the pair
/// book, the supply up and two balances up by halves.
fn pool_with_balance<S: Fields>(rng: &mut Rng, state: &mut S) {
    let entry = open_balance(rng, state, 0);
    if !S::FIELDS.contains(&Field::Pool) {
        let shift = rng.below(1 << 20);
        add(state, Field::Balances, entry, shift);
        let other = open_balance(rng, state, 0);
        add(state, Field::Balances, other, shift);
        add(state, Field::Supply, 0, 2 * shift);
        return;
    }
    let down = rng.chance(1, 2);
    let from = if down {
        state.get(Field::Pool, 0)
    } else {
        state.get(Field::Balances, entry)
    };
    let shift = some_shift(rng, from);
    let shift = if down { shift.wrapping_neg() } else { shift };
    add(state, Field::Pool, 0, shift);
    lower(state, Field::Balances, entry, shift);
}

fn balances_exchanged<S: Fields>(rng: &mut Rng, state: &mut S) {
    let one = some_entry(rng, state, Field::Balances);
    let other = some_entry(rng, state, Field::Balances);
    exchange(state, Field::Balances, one, other);
}

/// Two held records, of one ledger or of two, stand in each other's place.
fn records_exchanged<S: Fields>(rng: &mut Rng, state: &mut S) {
    let one = some_entry(rng, state, Field::Numbers);
    let other = some_entry(rng, state, Field::Numbers);
    for field in Field::COLUMNS {
        exchange(state, field, one, other);
    }
}

/// The amounts of two records of a kind, one up and the other down.
fn amounts_shifted<S: Fields>(rng: &mut Rng, state: &mut S) {
    let kind = rng.pick(&[LOCAL, SENDING, SENDING, ARRIVAL]);
    let up_ledger = some_ledger(rng, state);
    let down_ledger = some_ledger(rng, state);
    let up = held_entry(rng, state, up_ledger, kind);
    let down = held_entry(rng, state, down_ledger, kind);
    if let (Some(up), Some(down)) = (up, down) {
        let shift = some_shift(rng, state.get(Field::Amounts, down));
        add(state, Field::Amounts, up, shift);
        lower(state, Field::Amounts, down, shift);
    }
}

/// Two held records get one number, of one ledger or of two.
fn numbers_made_equal<S: Fields>(rng: &mut Rng, state: &mut S) {
    let one = some_entry(rng, state, Field::Numbers);
    let other = some_entry(rng, state, Field::Numbers);
    let number = match rng.below(3) {
        0 => 0,
        _ => state.get(Field::Numbers, one),
    };
    state.set(Field::Numbers, one, number);
    state.set(Field::Numbers, other, number);
}

/// Sums that agree only if they are taken modulo 2^64 or 2^63.
fn sums_that_overflow<S: Fields>(rng: &mut Rng, state: &mut S) {
    let ledger = some_ledger(rng, state);
    let one = open_balance(rng, state, ledger);
    let ledger = some_ledger(rng, state);
    let other = open_balance(rng, state, ledger);
    match rng.below(6) {
        0 => {
            add(state, Field::Balances, one, 1 << 63);
            add(state, Field::Balances, other, 1 << 63);
        }
        1 => {
            let more = rng.word();
            add(state, Field::Balances, one, more);
            lower(state, Field::Balances, other, more);
        }
        2 => {
            add(state, Field::Balances, one, 1 << 63);
            add(state, Field::Pool, 0, 1 << 63);
        }
        3 => sendings_that_overflow(rng, state),
        4 => {
            add(state, Field::Balances, one, 1 << 63);
            add(state, Field::Supply, 0, 1 << 63);
        }
        _ => {
            for entry in 0..S::length(Field::Balances) {
                if entry % MAX_ACCOUNTS < accounts(state, entry / MAX_ACCOUNTS) {
                    add(state, Field::Balances, entry, 1 << 63);
                }
            }
        }
    }
}

/// Sendings in flight whose amounts go up by 2^64 together.
fn sendings_that_overflow<S: Fields>(rng: &mut Rng, state: &mut S) {
    let mut raised = Vec::new();
    for _ in 0..20 {
        let ledger = some_ledger(rng, state);
        if let Some(entry) = held_entry(rng, state, ledger, SENDING) {
            let lawful = state.get(Field::Amounts, entry) < 1 << 62;
            if lawful && !raised.contains(&entry) && raised.len() < 4 {
                raised.push(entry);
                add(state, Field::Amounts, entry, 1 << 62);
            }
        }
    }
}

/// An arrival and its sending are altered alike, or one of them alone.
fn crossing_altered<S: Fields>(rng: &mut Rng, state: &mut S) {
    let ledger = some_ledger(rng, state);
    let Some(arrival) = held_entry(rng, state, ledger, ARRIVAL) else {
        return one_field(rng, state);
    };
    let field = rng.pick(&Field::COLUMNS);
    let old = state.get(field, arrival);
    let value = match field {
        Field::Senders | Field::Receivers => rng.below(4),
        _ => other_value(rng, old),
    };
    let sending = (S::LEDGERS == 2)
        .then(|| under_number(state, arrival, 1 - ledger, SENDING))
        .flatten();
    match (sending, rng.below(4)) {
        (Some(sending), 0) => state.set(field, sending, value),
        (Some(sending), 1..) => {
            state.set(field, sending, value);
            state.set(field, arrival, value);
        }
        _ => state.set(field, arrival, value),
    }
}

/// The entry of a ledger's held record of a kind that has the number of this one.
pub(super) fn under_number<S: Fields>(
    state: &S,
    held: usize,
    ledger: usize,
    kind: u64,
) -> Option<usize> {
    let number = state.get(Field::Numbers, held);
    (0..count(state, ledger))
        .map(|place| ledger * CAPACITY + place)
        .filter(|&entry| state.get(Field::Kinds, entry) == kind)
        .find(|&entry| entry != held && state.get(Field::Numbers, entry) == number)
}

/// The count one up, with a record that is right there, or one down.
fn record_more_or_less<S: Fields>(rng: &mut Rng, state: &mut S) {
    let ledger = some_ledger(rng, state);
    let count = count(state, ledger);
    if rng.chance(1, 2) && count > 0 {
        let last = ledger * CAPACITY + count - 1;
        if state.get(Field::Kinds, last) == SENDING && rng.chance(1, 2) {
            let amount = state.get(Field::Amounts, last);
            let entry = open_balance(rng, state, ledger);
            add(state, Field::Balances, entry, amount);
        }
        state.set(Field::Counts, ledger, count as u64 - 1);
    } else {
        if count < CAPACITY {
            let ledger = Ledger::BOTH[ledger];
            let record = local(ledger, 0, 0, rng.word(), rng.within(1, 9));
            put(state, ledger.index() * CAPACITY + count, &record);
        }
        state.set(Field::Counts, ledger, count as u64 + 1);
    }
}

/// The number of accounts is altered and balances beyond it are moved.
fn accounts_more_or_less<S: Fields>(rng: &mut Rng, state: &mut S) {
    let ledger = rng.index(2);
    let old = accounts(state, ledger);
    let any = rng.within(1, MAX_ACCOUNTS as u64) as usize;
    let new = rng.pick(&[old + 1, old.saturating_sub(1), any, MAX_ACCOUNTS]);
    state.set(Field::Accounts, ledger, new as u64);
    if ledger < S::LEDGERS {
        let first = ledger * MAX_ACCOUNTS;
        for entry in first + new.min(MAX_ACCOUNTS)..first + MAX_ACCOUNTS {
            let balance = state.get(Field::Balances, entry);
            state.set(Field::Balances, entry, 0);
            add(state, Field::Balances, first, balance);
        }
    }
}

/// A record becomes one of another kind, and a balance follows.
fn kind_with_balance<S: Fields>(rng: &mut Rng, state: &mut S) {
    let ledger = some_ledger(rng, state);
    let from = rng.pick(&[LOCAL, SENDING, ARRIVAL]);
    let Some(entry) = held_entry(rng, state, ledger, from) else {
        return one_field(rng, state);
    };
    let to = rng.pick(&[LOCAL, SENDING, ARRIVAL]);
    state.set(Field::Kinds, entry, to);
    let amount = state.get(Field::Amounts, entry);
    let balance = open_balance(rng, state, ledger);
    if from == SENDING || to == ARRIVAL {
        add(state, Field::Balances, balance, amount);
    } else {
        lower(state, Field::Balances, balance, amount);
    }
}

/// The supply at 2^63-1 or just above, a balance with it.
fn supply_at_its_limit<S: Fields>(rng: &mut Rng, state: &mut S) {
    let supply = rng.pick(&[MAX_AMOUNT, MAX_AMOUNT, MAX_AMOUNT + 1, u64::MAX]);
    let more = supply.wrapping_sub(state.get(Field::Supply, 0));
    let ledger = some_ledger(rng, state);
    let entry = open_balance(rng, state, ledger);
    add(state, Field::Supply, 0, more);
    add(state, Field::Balances, entry, more);
}

/// A sending's amount up and a balance down: in flight goes with it.
fn amount_with_balance<S: Fields>(rng: &mut Rng, state: &mut S) {
    let ledger = some_ledger(rng, state);
    let Some(entry) = held_entry(rng, state, ledger, SENDING) else {
        return balances_shifted(rng, state);
    };
    let balance = open_balance(rng, state, ledger);
    let shift = some_shift(rng, state.get(Field::Balances, balance));
    add(state, Field::Amounts, entry, shift);
    lower(state, Field::Balances, balance, shift);
}

/// Every word is random; sometimes the counts are within bounds.
fn no_meaning<S: Fields>(rng: &mut Rng, state: &mut S) {
    for word in state.words_mut() {
        *word = rng.word();
    }
    if rng.chance(1, 2) {
        for ledger in 0..2 {
            let open = rng.within(1, MAX_ACCOUNTS as u64);
            state.set(Field::Accounts, ledger, open);
        }
        for ledger in 0..S::LEDGERS {
            let held = rng.pick(&[0, 0, 1, 512]);
            state.set(Field::Counts, ledger, held);
        }
    }
}
