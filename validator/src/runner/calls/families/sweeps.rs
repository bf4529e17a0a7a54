//! The fields of a good state gone through in turn: each alone, and each pair
//! of them at once.

use super::forged::{accounts, count, some_place};
use crate::charge::MAX_RATE;
use crate::record::MAX_AMOUNT;
use crate::rules::{CAPACITY, MAX_ACCOUNTS};
use crate::runner::calls::fields::{Field, Fields};
use crate::runner::rng::Rng;

/// The values that the sweeps give to an entry.
const VALUES: u64 = 9;

/// A field, or what one ledger has of it.
#[derive(Clone, Copy)]
struct Stretch {
    field: Field,
    ledger: usize,
    length: usize,
}

impl Stretch {
    fn all<S: Fields>() -> Vec<Stretch> {
        let mut all = Vec::new();
        for &field in S::FIELDS {
            let length = match field {
                Field::Balances => MAX_ACCOUNTS,
                _ if field.is_column() => CAPACITY,
                _ => 1,
            };
            all.extend((0..S::length(field) / length).map(|ledger| Stretch {
                field,
                ledger,
                length,
            }));
        }
        all
    }

    /// The entry of the field at a place.
    fn entry(self, place: usize) -> usize {
        self.ledger * self.length + place.min(self.length - 1)
    }

    /// The places in use.
    fn used<S: Fields>(self, state: &S) -> usize {
        match self.field {
            Field::Balances => accounts(state, self.ledger),
            field if field.is_column() => count(state, self.ledger),
            _ => 1,
        }
    }
}

/// The entries that the sweep alters: all single ones, and of each ledger's
/// part of an array the first, the last in use, the first beyond, the last.
fn swept<S: Fields>(state: &S) -> Vec<(Stretch, usize)> {
    let mut entries = Vec::new();
    for stretch in Stretch::all::<S>() {
        if stretch.length == 1 {
            entries.push((stretch, stretch.entry(0)));
            continue;
        }
        let used = stretch.used(state);
        for place in [0, used.saturating_sub(1), used, stretch.length - 1] {
            entries.push((stretch, stretch.entry(place)));
        }
    }
    entries
}

/// Each entry of `swept` in turn gets each of some values.
pub(super) fn sweep<S: Fields>(rng: &mut Rng, state: &mut S, step: u64) {
    let entries = swept(state);
    let (stretch, entry) = entries[(step / VALUES) as usize % entries.len()];
    let value = altered(rng, state, stretch, entry, step % VALUES);
    state.set(stretch.field, entry, value);
}

/// All pairs: any two stretches, and each that has two entries with itself.
fn pairs<S: Fields>() -> Vec<[Stretch; 2]> {
    let all = Stretch::all::<S>();
    let mut pairs = Vec::new();
    for (at, &one) in all.iter().enumerate() {
        let first = if one.length == 1 { at + 1 } else { at };
        pairs.extend(all[first..].iter().map(|&other| [one, other]));
    }
    pairs
}

/// Each pair in turn, an entry of each of its two altered. From one round
/// through all pairs to the next both values change, so that each pair gets
/// each two of the values in as many rounds as there are such twos.
pub(super) fn sweep_pairs<S: Fields>(rng: &mut Rng, state: &mut S, step: u64, seed: u64) {
    let pairs = pairs::<S>();
    let length = pairs.len() as u64;
    let (at, round) = (step % length, step / length);
    let [one, other] = pairs[at as usize];
    let entry = one.entry(some_place(rng, one.used(state), one.length));
    let mut other_entry = other.entry(some_place(rng, other.used(state), other.length));
    if one.field == other.field && entry == other_entry {
        other_entry = other.entry((other_entry + 1) % other.length);
    }
    let twos = VALUES * VALUES;
    let two = (seed % twos + at + round % twos * (VALUES + 1)) % twos;
    let value = altered(rng, state, one, entry, two % VALUES);
    let other_value = altered(rng, state, other, other_entry, two / VALUES);
    state.set(one.field, entry, value);
    state.set(other.field, other_entry, other_value);
}

/// One of the values of the sweeps for an entry: the one of this index, or the
/// next that is another than the old one there.
fn altered<S: Fields>(
    rng: &mut Rng,
    state: &mut S,
    stretch: Stretch,
    entry: usize,
    index: u64,
) -> u64 {
    let Stretch { field, ledger, .. } = stretch;
    let old = state.get(field, entry);
    let mut values: [u64; VALUES as usize] = [
        0,
        1,
        old.wrapping_add(1),
        old.wrapping_sub(1),
        u64::MAX,
        1 << 63,
        old ^ (1 << 63),
        rng.word(),
        lawful(rng, state, field, ledger),
    ];
    values.rotate_left(index as usize);
    // An entry may hold less than a whole value.
    let differs = |&value: &u64| {
        state.set(field, entry, value);
        state.get(field, entry) != old
    };
    let found = values.into_iter().find(differs);
    state.set(field, entry, old);
    found.expect("one more is another")
}

/// A value that some good state has there.
fn lawful<S: Fields>(rng: &mut Rng, state: &S, field: Field, ledger: usize) -> u64 {
    match field {
        Field::Supply | Field::Amounts => rng.magnitude(MAX_AMOUNT),
        Field::Pool => rng.within(0, state.get(Field::Supply, 0).min(MAX_AMOUNT)),
        Field::Accounts => rng.within(1, MAX_ACCOUNTS as u64),
        Field::Counts => rng.within(0, CAPACITY as u64),
        Field::Rate => rng.within(0, MAX_RATE),
        Field::ChargeAccount => rng.below(state.get(Field::Accounts, 0).max(1)),
        Field::Balances => {
            let open = rng.index(accounts(state, ledger).max(1));
            state.get(Field::Balances, ledger * MAX_ACCOUNTS + open)
        }
        Field::Numbers => rng.word(),
        Field::Senders | Field::Receivers => {
            let ledger = rng.index(2);
            rng.below(state.get(Field::Accounts, ledger).max(1))
        }
        Field::Kinds => rng.within(1, 3),
        Field::Ledgers => rng.below(2),
        Field::Verdicts => 1,
        Field::HeadZeros | Field::TailZeros => 0,
    }
}
