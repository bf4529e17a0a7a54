//! One ledger or both filled to 512 passed records, then records that the
//! rules pass (41), used numbers (24), arrivals of sendings refused with 41
//! (31) and others; by U2, tables in which both classes have the same numbers.

use super::faults::{some_faults, spoil};
use super::Sample;
use crate::record::{Kind, Ledger, Record};
use crate::rules::CAPACITY;
use crate::runner::build::{local, Bytes, Opening};
use crate::runner::rng::Rng;
use crate::runner::trader::{maybe_charged, rich_opening, Numbers, Sharing, Trader};

/// Which ledgers are filled, and to how many records.
#[derive(Clone, Copy)]
pub struct Filled {
    pub home: usize,
    pub far: usize,
    pub sharing: Sharing,
}

pub fn fixed(rng: &mut Rng) -> Vec<Sample> {
    let ways = [
        ("random", Numbers::Random),
        ("counting", Numbers::Counting(0)),
        ("low_8", alike(0, 8)),
        ("low_11", alike(5, 11)),
        ("low_12", alike(7, 12)),
        ("low_16", alike(0, 16)),
        ("low_32", alike(1, 32)),
        ("low_52", alike(3, 52)),
    ];
    let mut samples = Vec::new();
    for (way, numbers) in ways {
        for (home, far) in [(512, 0), (0, 512), (512, 512), (511, 512), (512, 511)] {
            let name = format!("{way}_{home}_{far}");
            let filled = Filled {
                home,
                far,
                sharing: Sharing::Never,
            };
            let opening = maybe_charged(rng, rich_opening);
            let journal = filled_journal(rng, opening, numbers, filled, 120);
            samples.push(Sample::new(name, journal));
        }
    }
    samples.push(Sample::new("case_13_home", case_13(Ledger::Home)));
    samples.push(Sample::new("case_13_far", case_13(Ledger::Far)));
    for (way, numbers) in ways {
        let name = format!("both_classes_{way}");
        samples.push(Sample::new(name, both_classes(rng, numbers)));
    }
    samples
}

/// Both tables full of sendings and arrivals under the same 256 numbers, then
/// records as on other full tables.
fn both_classes(rng: &mut Rng, numbers: Numbers) -> Vec<u8> {
    let opening = maybe_charged(rng, rich_opening);
    let mut trader = Trader::new(opening, numbers, Rng::new(rng.word()));
    trader.thrifty = true;
    for _ in 0..CAPACITY / 2 {
        let over = trader.lawful_sending(Ledger::Home).expect("credit");
        let Record { number, .. } = over;
        let back = trader.lawful_sending(Ledger::Far).expect("credit");
        let back = Record { number, ..back };
        let mut arrivals = [over.matching_arrival(), back.matching_arrival()];
        trader.rng.shuffle(&mut arrivals);
        for record in [over, back].into_iter().chain(arrivals) {
            trader.hand_in(record.bytes());
        }
    }
    trader.sharing = Sharing::Often;
    for _ in 0..120 {
        go_on(&mut trader);
    }
    trader.journal()
}

fn alike(base: u64, shift: u32) -> Numbers {
    Numbers::LowBitsAlike { base, shift }
}

/// Case 13: 512 records pass, the next is 41, a used number is 24; the other
/// ledger goes on.
pub fn case_13(ledger: Ledger) -> Vec<u8> {
    let own = |number| local(ledger, 0, 0, number, 1).bytes();
    let other = |number| local(ledger.other(), 0, 0, number, 1).bytes();
    let mut records: Vec<Bytes> = (0..CAPACITY as u64).map(own).collect();
    records.extend([own(512), own(511), own(0), other(512), other(0), own(513)]);
    crate::runner::build::journal(&Opening::of_cases(), &records)
}

/// Fills the tables and goes on for `length` records.
pub fn filled_journal(
    rng: &mut Rng,
    opening: Opening,
    numbers: Numbers,
    filled: Filled,
    length: usize,
) -> Vec<u8> {
    let mut trader = Trader::new(opening, numbers, Rng::new(rng.word()));
    trader.thrifty = true;
    trader.sharing = filled.sharing;
    send_both_ways(&mut trader);
    trader.fill(Ledger::Home, filled.home);
    trader.fill(Ledger::Far, filled.far);
    for _ in 0..length {
        go_on(&mut trader);
    }
    trader.journal()
}

fn send_both_ways(trader: &mut Trader) {
    for _ in 0..trader.rng.below(60) {
        let ledger = trader.some_ledger();
        if let Some(record) = trader.lawful_sending(ledger) {
            trader.hand_in(record.bytes());
        }
    }
}

fn go_on(trader: &mut Trader) {
    let ledger = trader.some_ledger();
    match trader.rng.below(6) {
        0 => arrive_unsent(trader),
        1 => {
            let record = trader.aimless(ledger);
            trader.hand_in(record.bytes());
        }
        2 => use_number_again(trader, ledger),
        choice => {
            let Some(record) = trader.lawful(ledger) else {
                return;
            };
            let faults = some_faults(&mut trader.rng);
            let bytes = match choice {
                3 => spoil(trader, &record, &faults),
                _ => record.bytes(),
            };
            trader.hand_in(bytes);
        }
    }
}

/// The arrival of a sending that a full table refused.
fn arrive_unsent(trader: &mut Trader) {
    if !trader.refused_sendings.is_empty() {
        let sending = trader.rng.pick(&trader.refused_sendings);
        trader.hand_in(sending.matching_arrival().bytes());
    }
}

fn use_number_again(trader: &mut Trader, ledger: Ledger) {
    let kind = trader
        .rng
        .pick(&[Kind::Local(ledger), Kind::Sending(ledger)]);
    let Some(mut record) = trader.lawful_of(kind) else {
        return;
    };
    if let Some(number) = trader.used_number(ledger) {
        record.number = number;
        trader.hand_in(record.bytes());
    }
}

pub fn seeded(rng: &mut Rng) -> Vec<u8> {
    let numbers = if rng.chance(1, 2) {
        Numbers::any(rng)
    } else {
        Numbers::colliding(rng)
    };
    let counts = [512, 512, 512, 511, 500, 300, 0];
    let filled = Filled {
        home: rng.pick(&counts),
        far: rng.pick(&counts),
        sharing: Sharing::any(rng),
    };
    let length = rng.within(30, 400) as usize;
    let opening = maybe_charged(rng, rich_opening);
    filled_journal(rng, opening, numbers, filled, length)
}
