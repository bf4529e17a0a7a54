//! Refused records of every kind, with one, two or more faults at once, so
//! that the order of the refusals shows.

use super::Sample;
use crate::record::{Kind, Ledger, Record, MAX_AMOUNT};
use crate::rules::{Book, CAPACITY};
use crate::runner::absent::Sort;
use crate::runner::build::{
    set_u16, set_u64, Bytes, Opening, AMOUNT, NUMBER, RECEIVER, RESERVED, SENDER, VERDICT,
};
use crate::runner::rng::Rng;
use crate::runner::trader::{
    any_opening, charged, maybe_charged, rich_opening, unequal_opening, Numbers, Sharing, Trader,
};

/// The faults that a record's author can make, the last in the order of
/// refusals first, so that an earlier one is laid over it.
#[derive(Clone, Copy, Debug, PartialEq, Eq)]
pub enum Fault {
    /// 25 or 31.
    Cover,
    /// 24.
    Number,
    /// 23.
    Verdict,
    /// 22 or 51.
    Account,
    /// 21.
    Form,
}

const FAULTS: [Fault; 5] = [
    Fault::Cover,
    Fault::Number,
    Fault::Verdict,
    Fault::Account,
    Fault::Form,
];

/// Puts faults into a lawful record.
pub fn spoil(trader: &mut Trader, record: &Record, faults: &[Fault]) -> Bytes {
    let mut bytes = record.bytes();
    for &fault in FAULTS.iter().filter(|fault| faults.contains(fault)) {
        match fault {
            Fault::Cover => spoil_cover(trader, record, &mut bytes),
            Fault::Number => spoil_number(trader, record, &mut bytes),
            Fault::Verdict => bytes[VERDICT] = 0,
            Fault::Account => spoil_account(trader, record, &mut bytes),
            Fault::Form => spoil_form(&mut trader.rng, &mut bytes),
        }
    }
    bytes
}

fn spoil_cover(trader: &mut Trader, record: &Record, bytes: &mut Bytes) {
    if record.takes() {
        let next = (most_covered(trader, record) + 1).min(MAX_AMOUNT);
        let amount = match trader.rng.below(3) {
            0 => next,
            1 => MAX_AMOUNT,
            _ => trader.rng.within(next, MAX_AMOUNT),
        };
        set_u64(bytes, AMOUNT, amount);
    } else {
        spoil_match(trader, record, bytes);
    }
}

/// The highest amount that a local or sending may have.
fn most_covered(trader: &Trader, record: &Record) -> u64 {
    match record.kind {
        Kind::Sending(ledger) => trader.most_sent(ledger, record.sender),
        _ => trader.book.balance(record.ledger(), record.sender),
    }
}

/// An arrival's match is spoilt by its amount, number, sender or receiver.
fn spoil_match(trader: &mut Trader, record: &Record, bytes: &mut Bytes) {
    match trader.rng.below(5) {
        0 => set_u64(bytes, AMOUNT, other_amount(record.amount, true)),
        1 => set_u64(bytes, AMOUNT, other_amount(record.amount, false)),
        2 => {
            let number = trader.fresh_number(record.ledger());
            set_u64(bytes, NUMBER, number);
        }
        3 => set_u16(bytes, SENDER, trader.account(record.sender_ledger())),
        _ => set_u16(bytes, RECEIVER, trader.account(record.receiver_ledger())),
    }
}

/// One more or one less, within 1 to 2^63-1.
pub fn other_amount(amount: u64, more: bool) -> u64 {
    if (more && amount < MAX_AMOUNT) || amount == 1 {
        amount + 1
    } else {
        amount - 1
    }
}

fn spoil_number(trader: &mut Trader, record: &Record, bytes: &mut Bytes) {
    if let Some(number) = trader.used_for(record) {
        set_u64(bytes, NUMBER, number);
    }
}

fn spoil_account(trader: &mut Trader, record: &Record, bytes: &mut Bytes) {
    let which = trader.rng.below(3);
    if which != 1 {
        set_u16(bytes, SENDER, trader.absent_account(record.sender_ledger()));
    }
    if which != 0 {
        let account = trader.absent_account(record.receiver_ledger());
        set_u16(bytes, RECEIVER, account);
    }
}

/// Kind, ledger, verdict, a zero byte or the amount is made wrong.
pub fn spoil_form(rng: &mut Rng, bytes: &mut Bytes) {
    match rng.below(7) {
        0 => bytes[0] = rng.pick(&[0, 4, 5, 129, 255]),
        1 => bytes[1] = rng.pick(&[2, 3, 128, 255]),
        2 => bytes[VERDICT] = rng.pick(&[2, 3, 128, 255]),
        3 | 4 => {
            let place = rng.pick(&RESERVED);
            bytes[place] = rng.within(1, 255) as u8;
        }
        5 => set_u64(bytes, AMOUNT, 0),
        _ => {
            let high = rng.within(1 << 63, u64::MAX);
            set_u64(bytes, AMOUNT, rng.pick(&[1 << 63, u64::MAX, high]));
        }
    }
}

/// Some faults, one to three.
pub fn some_faults(rng: &mut Rng) -> Vec<Fault> {
    let count = rng.within(1, 3);
    (0..count).map(|_| rng.pick(&FAULTS)).collect()
}

/// Every subset of the faults on every kind of record, and every sort of
/// accounts that are not open, with tables that have places left and with full
/// ones.
pub fn fixed(rng: &mut Rng) -> Vec<Sample> {
    let mut samples = Vec::new();
    for round in 0..4 {
        for full in [false, true] {
            let name = format!("every_set_of_faults_{round}_full_{full}");
            let mut opening = rich_opening(rng);
            if round % 2 == 1 {
                opening = charged(rng, opening);
            }
            samples.push(Sample::new(name, every_set(rng, opening, full)));
        }
    }
    for larger in Ledger::BOTH {
        for full in [false, true] {
            let name = format!("absent_accounts_{larger:?}_larger_full_{full}").to_lowercase();
            samples.push(Sample::new(name, absent_accounts(rng, larger, full)));
        }
    }
    samples
}

/// A trader that has sent both ways, some of it arrived, its tables full or not.
fn sent_both_ways(rng: &mut Rng, opening: Opening, full: bool) -> Trader {
    let mut trader = Trader::new(opening, Numbers::Random, Rng::new(rng.word()));
    trader.thrifty = true;
    for ledger in Ledger::BOTH {
        for _ in 0..60 {
            hand_in_lawful(&mut trader, Kind::Sending(ledger));
        }
    }
    for ledger in Ledger::BOTH {
        for _ in 0..8 {
            hand_in_lawful(&mut trader, Kind::Arrival(ledger));
        }
    }
    if full {
        for ledger in Ledger::BOTH {
            trader.fill(ledger, CAPACITY);
        }
    }
    trader
}

/// Every sort of accounts that are open or not, three times.
fn absent_accounts(rng: &mut Rng, larger: Ledger, full: bool) -> Vec<u8> {
    let opening = maybe_charged(rng, |rng| unequal_opening(rng, larger));
    let mut trader = sent_both_ways(rng, opening, full);
    for _ in 0..3 {
        for ledger in Ledger::BOTH {
            for sort in Sort::all(ledger) {
                let bytes = sort.record(&mut trader);
                trader.hand_in(bytes);
            }
        }
    }
    trader.journal()
}

fn every_set(rng: &mut Rng, opening: Opening, full: bool) -> Vec<u8> {
    let mut trader = sent_both_ways(rng, opening, full);
    for set in 0..1 << FAULTS.len() {
        let faults: Vec<Fault> = (0..FAULTS.len())
            .filter(|bit| set >> bit & 1 == 1)
            .map(|bit| FAULTS[bit])
            .collect();
        for ledger in Ledger::BOTH {
            for kind in kinds(ledger) {
                hand_in_spoilt(&mut trader, kind, &faults);
            }
        }
    }
    trader.journal()
}

pub fn kinds(ledger: Ledger) -> [Kind; 3] {
    [
        Kind::Local(ledger),
        Kind::Sending(ledger),
        Kind::Arrival(ledger),
    ]
}

fn hand_in_lawful(trader: &mut Trader, kind: Kind) {
    if let Some(record) = trader.lawful_of(kind) {
        trader.hand_in(record.bytes());
    }
}

fn hand_in_spoilt(trader: &mut Trader, kind: Kind, faults: &[Fault]) {
    if let Some(record) = trader.lawful_of(kind) {
        let bytes = spoil(trader, &record, faults);
        trader.hand_in(bytes);
    }
}

pub fn seeded(rng: &mut Rng) -> Vec<u8> {
    let opening = maybe_charged(rng, |rng| match rng.below(3) {
        0 => any_opening(rng),
        _ => rich_opening(rng),
    });
    let numbers = Numbers::any(rng);
    let full = rng.chance(1, 10);
    let length = rng.within(20, 150);
    let mut trader = Trader::new(opening, numbers, rng.clone());
    trader.thrifty = full || trader.rng.chance(1, 2);
    trader.sharing = Sharing::any(&mut trader.rng);
    if full {
        fill_some(&mut trader);
    }
    for _ in 0..length {
        let ledger = trader.some_ledger();
        let kind = trader.rng.pick(&kinds(ledger));
        if trader.rng.chance(2, 5) {
            hand_in_lawful(&mut trader, kind);
        } else {
            let faults = some_faults(&mut trader.rng);
            hand_in_spoilt(&mut trader, kind, &faults);
        }
    }
    trader.journal()
}

/// A few sendings each way, then one table or both filled.
fn fill_some(trader: &mut Trader) {
    for _ in 0..20 {
        let ledger = trader.some_ledger();
        hand_in_lawful(trader, Kind::Sending(ledger));
    }
    let first = trader.some_ledger();
    trader.fill(first, CAPACITY);
    if trader.rng.chance(1, 2) {
        trader.fill(first.other(), CAPACITY);
    }
}
