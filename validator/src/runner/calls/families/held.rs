//! Held records, counts and the charge forged in turn, one thing at a time. In every other
//! round the supply follows the sum, so that nothing else is wrong.

use super::forged::{accounts, count, held_entry, put, some_ledger, some_place, under_number};
use super::forged::{ARRIVAL, LOCAL, SENDING};
use crate::record::{Ledger, Record, RECORD};
use crate::rules::CAPACITY;
use crate::runner::build::{arrival, RESERVED};
use crate::runner::calls::fields::{Field, Fields};
use crate::runner::rng::Rng;
use crate::states::HELD;
use std::collections::HashSet;

/// Values that no held record may have, or not everywhere.
const VALUES: [(Field, u64); 15] = [
    (Field::Kinds, 0),
    (Field::Kinds, 4),
    (Field::Kinds, 255),
    (Field::Ledgers, 0),
    (Field::Ledgers, 1),
    (Field::Ledgers, 2),
    (Field::Ledgers, 255),
    (Field::Senders, 65_535),
    (Field::Receivers, 65_535),
    (Field::Amounts, 0),
    (Field::Amounts, 1 << 63),
    (Field::Amounts, u64::MAX),
    (Field::Verdicts, 0),
    (Field::Verdicts, 2),
    (Field::Verdicts, 255),
];

/// Numbers of accounts and of held records, rates and charge accounts that are out
/// of bounds.
const COUNTS: [(Field, u64); 14] = [
    (Field::Counts, CAPACITY as u64 + 1),
    (Field::Counts, 1 << 32),
    (Field::Counts, u64::MAX),
    (Field::Accounts, 0),
    (Field::Accounts, 57),
    (Field::Accounts, 65_535),
    (Field::Accounts, 1 << 32),
    (Field::Accounts, u64::MAX),
    (Field::Rate, 10_001),
    (Field::Rate, 65_536),
    (Field::Rate, 1 << 32),
    (Field::ChargeAccount, 57),
    (Field::ChargeAccount, 65_536),
    (Field::ChargeAccount, 1 << 32),
];

/// Bits of a count above those that it needs.
const HIGH_BITS: [u32; 4] = [16, 31, 32, 63];

#[derive(Clone, Copy)]
enum Forgery {
    /// A field of a held record.
    Value(Field, u64),
    /// A byte of a held record that must be zero.
    ZeroByte(usize),
    /// The count of accounts or of held records, the rate or its account.
    Count(Field, u64),
    /// Such a count, whose low bits stay as they are.
    HighBit(Field, u32),
    /// The charge account is the first that is not open at home.
    ChargeAccountNext,
    /// One byte of a held arrival's sending.
    SendingByte(usize),
    /// An account of a held arrival's sending, mostly another open one.
    SendingAccount(Field),
    /// A held arrival's sending is of another kind under the same number.
    SendingKind(u64),
    /// A held record of this kind has the number of another on its ledger.
    SharedNumber(u64),
}

fn forgeries() -> Vec<Forgery> {
    let mut all = Vec::new();
    all.extend(VALUES.map(|(field, value)| Forgery::Value(field, value)));
    all.extend(RESERVED.map(Forgery::ZeroByte));
    all.extend(COUNTS.map(|(field, value)| Forgery::Count(field, value)));
    for field in [Field::Counts, Field::Accounts] {
        all.extend(HIGH_BITS.map(|bit| Forgery::HighBit(field, bit)));
    }
    all.push(Forgery::ChargeAccountNext);
    all.extend((0..RECORD).map(Forgery::SendingByte));
    all.extend([Field::Senders, Field::Receivers].map(Forgery::SendingAccount));
    all.extend([LOCAL, ARRIVAL].map(Forgery::SendingKind));
    all.extend([LOCAL, SENDING, ARRIVAL].map(Forgery::SharedNumber));
    all
}

/// Each forgery in turn.
pub(super) fn sweep_held<S: Fields>(rng: &mut Rng, state: &mut S, step: u64) {
    let all = forgeries();
    let length = all.len() as u64;
    forge(rng, state, all[(step % length) as usize]);
    if step / length % 2 == 1 {
        mend(state);
    }
}

fn forge<S: Fields>(rng: &mut Rng, state: &mut S, forgery: Forgery) {
    match forgery {
        Forgery::Value(field, value) => {
            if let Some(entry) = some_held(rng, state) {
                state.set(field, entry, value);
            }
        }
        Forgery::ZeroByte(byte) => {
            if let Some(entry) = some_held(rng, state) {
                alter_byte(rng, state, entry, byte);
            }
        }
        Forgery::Count(field, value) => {
            let index = rng.index(S::length(field));
            state.set(field, index, value);
        }
        Forgery::HighBit(field, bit) => {
            let index = rng.index(S::length(field));
            let value = state.get(field, index) | 1 << bit;
            state.set(field, index, value);
        }
        Forgery::ChargeAccountNext => {
            let next = state.get(Field::Accounts, 0);
            state.set(Field::ChargeAccount, 0, next);
        }
        Forgery::SendingByte(byte) => {
            if let Some(entry) = some_crossing(rng, state) {
                alter_byte(rng, state, entry, byte);
            }
        }
        Forgery::SendingAccount(field) => {
            if let Some(entry) = some_crossing(rng, state) {
                other_account(rng, state, entry, field);
            }
        }
        Forgery::SendingKind(kind) => {
            if let Some(entry) = some_crossing(rng, state) {
                state.set(Field::Kinds, entry, kind);
            }
        }
        Forgery::SharedNumber(kind) => share_number(rng, state, kind),
    }
}

/// A byte of the record at an entry becomes another.
fn alter_byte<S: Fields>(rng: &mut Rng, state: &mut S, entry: usize, byte: usize) {
    let bits = rng.within(1, 255) << (8 * (7 - byte % 8));
    state.words_mut()[entry * HELD + byte / 8] ^= bits;
}

/// The next open account of one ledger or the other, whichever the field is of.
fn other_account<S: Fields>(rng: &mut Rng, state: &mut S, entry: usize, field: Field) {
    let open = accounts(state, rng.index(2)).max(1) as u64;
    let account = state.get(field, entry);
    state.set(field, entry, (account + 1) % open);
}

fn share_number<S: Fields>(rng: &mut Rng, state: &mut S, kind: u64) {
    let ledger = some_ledger(rng, state);
    let Some(entry) = held_entry(rng, state, ledger, kind) else {
        return;
    };
    let other = ledger * CAPACITY + rng.index(count(state, ledger));
    if other != entry {
        let number = state.get(Field::Numbers, other);
        state.set(Field::Numbers, entry, number);
    }
}

/// The entry of a held record; one is added where there is none.
fn some_held<S: Fields>(rng: &mut Rng, state: &mut S) -> Option<usize> {
    let ledger = some_ledger(rng, state);
    match count(state, ledger) {
        0 => add_crossing(rng, state, ledger),
        used => Some(ledger * CAPACITY + some_place(rng, used, used)),
    }
}

/// The entry of a held arrival's sending, in the guard of the arrival itself;
/// a crossing is added where there is none.
fn some_crossing<S: Fields>(rng: &mut Rng, state: &mut S) -> Option<usize> {
    let ledger = some_ledger(rng, state);
    let arrival =
        held_entry(rng, state, ledger, ARRIVAL).or_else(|| add_crossing(rng, state, ledger))?;
    match S::LEDGERS {
        1 => Some(arrival),
        _ => under_number(state, arrival, 1 - ledger, SENDING),
    }
}

/// Adds a sending and its arrival, in the guard the arrival alone, if there are
/// places; no sum is altered by that. The entry of the arrival.
fn add_crossing<S: Fields>(rng: &mut Rng, state: &mut S, ledger: usize) -> Option<usize> {
    if (0..S::LEDGERS).any(|ledger| count(state, ledger) == CAPACITY) {
        return None;
    }
    let arrival = arrival(Ledger::BOTH[ledger], 0, 0, rng.word(), rng.within(1, 9));
    if S::LEDGERS == 2 {
        add(state, &arrival.matching_sending());
    }
    Some(add(state, &arrival))
}

/// Adds a held record. Its entry.
pub(super) fn add<S: Fields>(state: &mut S, record: &Record) -> usize {
    let ledger = record.ledger().index();
    let place = count(state, ledger);
    put(state, ledger * CAPACITY + place, record);
    state.set(Field::Counts, ledger, place as u64 + 1);
    ledger * CAPACITY + place
}

/// The supply becomes what balances, far due and in flight come to, if it can.
pub(super) fn mend<S: Fields>(state: &mut S) {
    let balances = (0..S::length(Field::Balances)).map(|at| state.get(Field::Balances, at));
    let mut sum: u128 = balances.map(u128::from).sum();
    sum += u128::from(state.get(Field::Pool, 0));
    if S::LEDGERS == 2 {
        sum += in_flight_from(state, 0) + in_flight_from(state, 1);
    }
    if let Ok(supply) = u64::try_from(sum) {
        state.set(Field::Supply, 0, supply);
    }
}

fn in_flight_from<S: Fields>(state: &S, ledger: usize) -> u128 {
    let arrived: HashSet<u64> = of_kind(state, 1 - ledger, ARRIVAL)
        .map(|entry| state.get(Field::Numbers, entry))
        .collect();
    of_kind(state, ledger, SENDING)
        .filter(|&entry| !arrived.contains(&state.get(Field::Numbers, entry)))
        .map(|entry| u128::from(state.get(Field::Amounts, entry)))
        .sum()
}

/// The entries of a ledger's held records of a kind.
fn of_kind<S: Fields>(state: &S, ledger: usize, kind: u64) -> impl Iterator<Item = usize> + '_ {
    let first = ledger * CAPACITY;
    (first..first + count(state, ledger))
        .filter(move |&entry| state.get(Field::Kinds, entry) == kind)
}
