//! The fields of a state by name and index, so that they can be altered at
//! will, shown and compared one by one. Together they are all its words.

use crate::rules::{CAPACITY, MAX_ACCOUNTS};
use crate::states::{Layout, State, HELD};

#[derive(Clone, Copy, Debug, PartialEq, Eq)]
pub enum Field {
    Supply,
    Pool,
    Accounts,
    Counts,
    Balances,
    /// The rate of the charge.
    Rate,
    ChargeAccount,
    Kinds,
    Ledgers,
    Senders,
    Receivers,
    /// Bytes 6-7 of held records, which must be zero.
    HeadZeros,
    Numbers,
    Amounts,
    Verdicts,
    /// Bytes 25-31 of held records, which must be zero.
    TailZeros,
}

/// All fields; the pair book does not have the first one.
const FIELDS: [Field; 16] = [
    Field::Pool,
    Field::Supply,
    Field::Accounts,
    Field::Counts,
    Field::Balances,
    Field::Rate,
    Field::ChargeAccount,
    Field::Kinds,
    Field::Ledgers,
    Field::Senders,
    Field::Receivers,
    Field::HeadZeros,
    Field::Numbers,
    Field::Amounts,
    Field::Verdicts,
    Field::TailZeros,
];

impl Field {
    /// The fields of held records.
    pub const COLUMNS: [Field; 9] = [
        Field::Kinds,
        Field::Ledgers,
        Field::Senders,
        Field::Receivers,
        Field::HeadZeros,
        Field::Numbers,
        Field::Amounts,
        Field::Verdicts,
        Field::TailZeros,
    ];

    pub fn is_column(self) -> bool {
        self.bytes().is_some()
    }

    /// For a field of held records, its first byte among the 32 and how many
    /// it has.
    fn bytes(self) -> Option<(usize, usize)> {
        match self {
            Field::Kinds => Some((0, 1)),
            Field::Ledgers => Some((1, 1)),
            Field::Senders => Some((2, 2)),
            Field::Receivers => Some((4, 2)),
            Field::HeadZeros => Some((6, 2)),
            Field::Numbers => Some((8, 8)),
            Field::Amounts => Some((16, 8)),
            Field::Verdicts => Some((24, 1)),
            Field::TailZeros => Some((25, 7)),
            _ => None,
        }
    }
}

/// Where an entry stands: its word, and the bits of it.
struct Spot {
    word: usize,
    shift: usize,
    mask: u64,
}

/// A state whose fields are reached by name and index. The entries of home
/// come first, then those of far.
pub trait Fields: Layout {
    const FIELDS: &'static [Field];

    fn words(&self) -> &[u64];

    fn words_mut(&mut self) -> &mut [u64];

    /// The entries of a field.
    fn length(field: Field) -> usize {
        match field {
            Field::Supply | Field::Rate | Field::ChargeAccount => 1,
            Field::Pool => usize::from(Self::POOL.is_some()),
            Field::Accounts => 2,
            Field::Counts => Self::LEDGERS,
            Field::Balances => Self::LEDGERS * MAX_ACCOUNTS,
            _ => Self::LEDGERS * CAPACITY,
        }
    }

    fn get(&self, field: Field, index: usize) -> u64 {
        spot::<Self>(field, index)
            .map_or(0, |spot| self.words()[spot.word] >> spot.shift & spot.mask)
    }

    /// Sets an entry to as much of the value as it can hold.
    fn set(&mut self, field: Field, index: usize, value: u64) {
        if let Some(Spot { word, shift, mask }) = spot::<Self>(field, index) {
            let word = &mut self.words_mut()[word];
            *word = *word & !(mask << shift) | (value & mask) << shift;
        }
    }
}

/// The spot of an entry, if the state has the field.
fn spot<S: Fields + ?Sized>(field: Field, index: usize) -> Option<Spot> {
    let first = match field {
        Field::Supply => S::SUPPLY,
        Field::Pool => S::POOL?,
        Field::Accounts => S::ACCOUNTS,
        Field::Counts => S::COUNTS,
        Field::Balances => S::BALANCES,
        Field::Rate => S::CHARGE,
        Field::ChargeAccount => S::CHARGE + 1,
        _ => 0,
    };
    let Some((byte, bytes)) = field.bytes() else {
        let word = first + index;
        return Some(Spot {
            word,
            shift: 0,
            mask: u64::MAX,
        });
    };
    Some(Spot {
        word: index * HELD + byte / 8,
        shift: 64 - 8 * (byte % 8 + bytes),
        mask: u64::MAX >> (64 - 8 * bytes),
    })
}

impl<const N: usize> Fields for State<N>
where
    State<N>: Layout,
{
    const FIELDS: &'static [Field] = match Self::POOL {
        Some(_) => &FIELDS,
        None => FIELDS.split_at(1).1,
    };

    fn words(&self) -> &[u64] {
        &self.words
    }

    fn words_mut(&mut self) -> &mut [u64] {
        &mut self.words
    }
}

/// All entries of a state, a line for each field; `9 x 3` is 9, 9, 9.
pub fn shown<S: Fields>(state: &S) -> String {
    let mut text = String::new();
    for &field in S::FIELDS {
        let values = (0..S::length(field)).map(|index| state.get(field, index));
        text += &format!("    {field:?}: {}\n", runs(values));
    }
    text
}

/// Numbers, equal neighbours put together.
pub fn runs(values: impl Iterator<Item = u64>) -> String {
    let mut groups: Vec<(u64, usize)> = Vec::new();
    for value in values {
        match groups.last_mut() {
            Some((last, count)) if *last == value => *count += 1,
            _ => groups.push((value, 1)),
        }
    }
    let shown = |&(value, count): &(u64, usize)| match count {
        1 => value.to_string(),
        _ => format!("{value} x {count}"),
    };
    groups.iter().map(shown).collect::<Vec<_>>().join(", ")
}

/// The fields in which two states differ, each with its first such entry.
pub fn differing<S: Fields>(right: &S, got: &S) -> Vec<String> {
    let mut found = Vec::new();
    for &field in S::FIELDS {
        let differ = |&index: &usize| right.get(field, index) != got.get(field, index);
        if let Some(index) = (0..S::length(field)).find(differ) {
            let (right, got) = (right.get(field, index), got.get(field, index));
            found.push(format!("{field:?}[{index}]: {right} but {got}"));
        }
    }
    found
}
