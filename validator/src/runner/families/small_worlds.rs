//! Small worlds, looked at exhaustively: one or two accounts a ledger, amounts
//! 0 to 3, few numbers, every kind, ledger and verdict. For every list of up to
//! four records that pass one after the other, one journal brings them to pass
//! and hands in, at each state reached, every record of the alphabet that is
//! refused there. A refused record leaves the state as it was, so this decides
//! every list of up to four records; by U2, also those in which a ledger has an
//! arrival and another record of one number. In larger worlds, and in two others
//! unless the whole is asked for, only one order of those that pass is gone through
//! for each state.

use std::collections::HashSet;

use super::{Family, Sample};
use crate::record::{Kind, Ledger, Record};
use crate::runner::build::{journal, Bytes, Opening};
use crate::running::RunningBook;

/// The longest list of passing records.
const DEPTH: usize = 4;

/// An opening and the records that are tried on it.
struct World {
    opening: Opening,
    alphabet: Vec<Bytes>,
    /// Whether every order of the passing records is gone through.
    every_order: bool,
}

/// A list of passing records, by their places in the alphabet.
struct Way {
    steps: Vec<u16>,
    /// From this state on along the way, the refused records are handed in;
    /// another way has done so for the states before.
    tell_from: usize,
}

pub struct SmallWorlds {
    worlds: Vec<World>,
    ways: Vec<(usize, Way)>,
}

impl SmallWorlds {
    pub fn new(whole: bool) -> SmallWorlds {
        let of = Opening::new;
        let first = if whole { 2 } else { 1 };
        let mut worlds = vec![
            World::new(of(&[2], &[1]), &[0, 9], 3, whole, true),
            World::new(of(&[3], &[0]), &[0, u64::MAX], 3, whole, whole),
            World::new(of(&[first, 1], &[1]), &[0, 1], 2, whole, whole),
        ];
        if whole {
            worlds.push(World::new(of(&[3], &[3]), &[0, 1, 2], 3, true, false));
            worlds.push(World::new(of(&[1, 1], &[1, 1]), &[0, 1], 3, true, false));
        }
        // An account that is open on one ledger only is tried on both.
        worlds.push(World::new(of(&[1, 1], &[1]), &[0], 2, true, true));
        worlds.push(World::new(of(&[1], &[1, 1]), &[0], 2, true, true));
        // Sendings cost more than their amount: a half, all of it again.
        let half = of(&[3], &[1]).charged(5_000, 0);
        worlds.push(World::new(half, &[0, 1], 3, whole, whole));
        let whole_again = of(&[4, 0], &[0]).charged(10_000, 1);
        worlds.push(World::new(whole_again, &[0, 1], 2, whole, false));
        let ways = worlds
            .iter()
            .enumerate()
            .flat_map(|(place, world)| world.ways().into_iter().map(move |way| (place, way)))
            .collect();
        SmallWorlds { worlds, ways }
    }
}

impl Family for SmallWorlds {
    fn name(&self) -> &str {
        "small_worlds"
    }

    fn count(&self) -> usize {
        self.ways.len()
    }

    fn sample(&self, index: usize) -> Sample {
        let (world, way) = &self.ways[index];
        let journal = self.worlds[*world].journal(way);
        Sample::new(format!("world_{world}_way_{index}"), journal)
    }
}

impl World {
    /// With `absent`, each ledger's next account, which is not open, is tried
    /// too.
    fn new(opening: Opening, numbers: &[u64], most: u64, absent: bool, every_order: bool) -> World {
        let mut alphabet = Vec::new();
        for ledger in Ledger::BOTH {
            for kind in super::faults::kinds(ledger) {
                push_records(&mut alphabet, &opening, kind, numbers, most, absent);
            }
        }
        World {
            opening,
            alphabet,
            every_order,
        }
    }

    fn book(&self) -> RunningBook {
        self.opening.book()
    }

    /// The state after the steps, all of which pass.
    fn after(&self, steps: &[u16]) -> RunningBook {
        let mut book = self.book();
        for &step in steps {
            let refused = book.call(&self.alphabet[usize::from(step)]);
            assert_eq!(refused, None);
        }
        book
    }

    fn refusal(&self, book: &RunningBook, letter: u16) -> Option<u8> {
        book.judge(&self.alphabet[usize::from(letter)])
    }

    fn letters(&self) -> std::ops::Range<u16> {
        0..self.alphabet.len() as u16
    }

    /// The ways that go no further.
    fn ways(&self) -> Vec<Way> {
        let mut seen = HashSet::new();
        let mut ends = Vec::new();
        self.walk(Vec::new(), 0, &mut seen, &mut ends);
        ends
    }

    /// Goes on from a state to each state that has not been seen, depth first.
    /// The first way on tells the refused records of the states before too.
    fn walk(
        &self,
        steps: Vec<u16>,
        tell_from: usize,
        seen: &mut HashSet<Vec<u16>>,
        ends: &mut Vec<Way>,
    ) {
        let mut told = false;
        if steps.len() < DEPTH {
            let book = self.after(&steps);
            for letter in self.letters() {
                if self.refusal(&book, letter).is_some() {
                    continue;
                }
                let mut next = steps.clone();
                next.push(letter);
                let mut state = next.clone();
                if !self.every_order {
                    state.sort_unstable();
                }
                if seen.insert(state) {
                    let from = if told { next.len() } else { tell_from };
                    self.walk(next, from, seen, ends);
                    told = true;
                }
            }
        }
        if !told {
            ends.push(Way { steps, tell_from });
        }
    }

    fn journal(&self, way: &Way) -> Vec<u8> {
        let mut book = self.book();
        let mut records = Vec::new();
        for done in 0..=way.steps.len() {
            if done >= way.tell_from {
                self.push_refused(&book, &mut records);
            }
            if let Some(&step) = way.steps.get(done) {
                let bytes = self.alphabet[usize::from(step)];
                book.call(&bytes);
                records.push(bytes);
            }
        }
        journal(&self.opening, &records)
    }

    fn push_refused(&self, book: &RunningBook, records: &mut Vec<Bytes>) {
        for letter in self.letters() {
            if self.refusal(book, letter).is_some() {
                records.push(self.alphabet[usize::from(letter)]);
            }
        }
    }
}

/// All records of a kind.
fn push_records(
    alphabet: &mut Vec<Bytes>,
    opening: &Opening,
    kind: Kind,
    numbers: &[u64],
    most: u64,
    absent: bool,
) {
    let counts = [opening.home.len(), opening.far.len()];
    let tried = |ledger: Ledger| (counts[ledger.index()] + usize::from(absent)) as u16;
    let shape = Record {
        kind,
        sender: 0,
        receiver: 0,
        number: 0,
        amount: 0,
        good: true,
    };
    for sender in 0..tried(shape.sender_ledger()) {
        for receiver in 0..tried(shape.receiver_ledger()) {
            for &number in numbers {
                for amount in 0..=most {
                    for good in [false, true] {
                        let record = Record {
                            kind,
                            sender,
                            receiver,
                            number,
                            amount,
                            good,
                        };
                        alphabet.push(record.bytes());
                    }
                }
            }
        }
    }
}
