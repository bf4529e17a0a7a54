//! Stored journals of paper 02, U2: records of both classes, arrivals and the
//! others, under one number of a ledger.

use super::build::{arrival, journal, local, sending, Bytes, Opening};
use super::families::Sample;
use super::stored_long::Long;
use super::trader::{Numbers, Sharing};
use crate::charge::Charge;
use crate::journal::FULL;
use crate::record::Ledger::{self, Far, Home};
use crate::record::{Record, MAX_AMOUNT};
use crate::rules::CAPACITY;

/// The numbers that a full table has, each in both classes.
const HALF: u64 = CAPACITY as u64 / 2;

/// The stored journals of U2.
pub fn samples() -> Vec<Sample> {
    let of_ledgers = |name: &str, make: fn(Ledger) -> Vec<u8>| {
        Ledger::BOTH.map(|ledger| {
            let name = format!("{name}_{ledger:?}").to_lowercase();
            Sample::new(name, make(ledger))
        })
    };
    let mut samples = Vec::new();
    samples.extend(of_ledgers("local_then_arrival", local_then_arrival));
    samples.extend(of_ledgers("arrival_then_local", arrival_then_local));
    samples.push(Sample::new("refusal_24_local_and_sending", together()));
    samples.push(Sample::new("two_crossings_of_one_number", two_crossings()));
    samples.push(Sample::new("refusal_31_no_sending", no_sending()));
    samples.push(Sample::new("order_of_24", order_of_24()));
    samples.push(Sample::new("both_classes", both_classes()));
    samples.extend(of_ledgers("refusal_41_both_classes", full_table));
    samples.push(Sample::new("refusal_41_both_classes_alike", full_tables()));
    samples.push(Sample::new("long_140_blocks_both_classes", long()));
    samples
}

fn of_cases(records: &[Record]) -> Vec<u8> {
    on_opening(&[100, 50], &[20], records)
}

fn on_opening(home: &[u64], far: &[u64], records: &[Record]) -> Vec<u8> {
    let bytes: Vec<Bytes> = records.iter().map(Record::bytes).collect();
    journal(&Opening::new(home, far), &bytes)
}

/// The request's own example where the ledger is far: a local under the number
/// of a crossing passes first, the arrival passes all the same, and once only.
fn local_then_arrival(ledger: Ledger) -> Vec<u8> {
    let amount = if ledger == Far { 30 } else { 20 };
    let over = sending(ledger.other(), 0, 0, 7, amount);
    of_cases(&[
        over,
        local(ledger, 0, 0, 7, 1),
        over.matching_arrival(),
        over.matching_arrival(),
        local(ledger, 0, 0, 7, 1),
        sending(ledger, 0, 0, 7, 1),
        over,
    ])
}

/// The arrival passes first, then a local or sending under its number.
fn arrival_then_local(ledger: Ledger) -> Vec<u8> {
    let mut records = Vec::new();
    for (number, shape) in [(0, local as Shape), (u64::MAX, sending)] {
        let over = sending(ledger.other(), 0, 0, number, 5);
        let own = shape(ledger, 0, 0, number, 2);
        let once_more = Record { amount: 6, ..own };
        let records_of_number = [over, over.matching_arrival(), own];
        records.extend(records_of_number);
        records.extend([over.matching_arrival(), own, once_more]);
    }
    of_cases(&records)
}

type Shape = fn(Ledger, u16, u16, u64, u64) -> Record;

/// Locals and sendings are counted together, in either order.
fn together() -> Vec<u8> {
    let mut records = Vec::new();
    for ledger in Ledger::BOTH {
        let shapes: [[Shape; 2]; 4] = [
            [local, sending],
            [sending, local],
            [local, local],
            [sending, sending],
        ];
        for (number, pair) in (1..).zip(shapes) {
            records.extend(pair.map(|shape| shape(ledger, 0, 0, number, 1)));
        }
    }
    // The arrivals of what was sent are not hindered by that.
    for number in [2, 4] {
        for ledger in Ledger::BOTH {
            records.push(arrival(ledger, 0, 0, number, 1));
        }
    }
    of_cases(&records)
}

/// Two crossings in opposite directions under one number, in each order in which
/// an arrival comes after its sending.
fn two_crossings() -> Vec<u8> {
    let mut records = Vec::new();
    let orders = [
        [0, 1, 2, 3],
        [0, 2, 1, 3],
        [0, 2, 3, 1],
        [2, 0, 1, 3],
        [2, 0, 3, 1],
        [2, 3, 0, 1],
    ];
    for (number, order) in (7..).zip(orders) {
        let over = sending(Home, 0, 0, number, 3);
        let back = sending(Far, 0, 1, number, 2);
        let all = [over, over.matching_arrival(), back, back.matching_arrival()];
        records.extend(order.map(|place: usize| all[place]));
        records.extend(order.map(|place| all[place]));
    }
    of_cases(&records)
}

/// Arrivals for which the other ledger has a record with the same number,
/// accounts and amount that is no sending: an arrival, or a local.
fn no_sending() -> Vec<u8> {
    let mut records = Vec::new();
    for (number, from) in [(7, Home), (8, Far)] {
        let to = from.other();
        let over = sending(from, 0, 0, number, 5);
        let alike = arrival(from, 0, 0, number, 5);
        // What arrived at `to` is not sent from there.
        records.extend([over, over.matching_arrival(), alike]);
        // With a sending of another amount, that amount arrives and no other.
        let back = sending(to, 0, 0, number, 4);
        records.extend([back, alike, back.matching_arrival(), alike]);
        let own = local(to, 0, 0, number + 10, 5);
        let as_arrival = arrival(from, 0, 0, number + 10, 5);
        records.extend([own, as_arrival]);
    }
    of_cases(&records)
}

/// Used numbers of each class with the refusals that come before and after 24.
fn order_of_24() -> Vec<u8> {
    let mut records = Vec::new();
    for (ledger, numbers) in [(Home, [1, 2, 3]), (Far, [4, 5, 6])] {
        // The first is used for arrivals, the second for the others, the third
        // for none.
        let over = sending(ledger.other(), 0, 0, numbers[0], 1);
        let taken = local(ledger, 0, 0, numbers[1], 1);
        let due = sending(ledger.other(), 0, 0, numbers[2], 1);
        records.extend([over, over.matching_arrival(), taken, due]);
        for number in numbers {
            for shape in [local, sending, arrival] {
                let used: Record = shape(ledger, 0, 0, number, MAX_AMOUNT);
                let unsigned = Record {
                    good: false,
                    ..used
                };
                let absent = Record {
                    receiver: 2,
                    ..unsigned
                };
                records.extend([used, unsigned, absent]);
            }
        }
    }
    of_cases(&records)
}

/// Many numbers that both classes have on one ledger or on both, each with a
/// record that is refused.
fn both_classes() -> Vec<u8> {
    let mut records = Vec::new();
    for step in 0..48 {
        let number = ((step / 4) << 12 | 5) + ((step % 4) << 40);
        let amount = 1 + step % 3;
        let over = sending(Home, 0, 1, number, amount);
        let back = sending(Far, 1, 0, number, 4 - amount);
        let [at_far, at_home] = [over, back].map(|sent| sent.matching_arrival());
        let [of_home, of_far] = Ledger::BOTH.map(|ledger| local(ledger, 1, 0, number, 1));
        records.extend(match step % 4 {
            0 => [over, of_far, at_far, of_home, at_home].to_vec(),
            1 => [back, of_home, at_home, of_far, at_far].to_vec(),
            2 => [over, back, at_home, at_far, at_home, at_far].to_vec(),
            _ => [back, at_home, over, at_far, of_home, of_far].to_vec(),
        });
    }
    on_opening(&[1_000, 1_000], &[1_000, 1_000], &records)
}

/// The ledger's table fills with 256 numbers in each class.
fn full_table(ledger: Ledger) -> Vec<u8> {
    let other = ledger.other();
    let own = |number| match number % 2 {
        0 => local(ledger, 0, 0, number, 1),
        _ => sending(ledger, 0, 0, number, 1),
    };
    let over = |number| sending(other, 0, 0, number, 1);
    let mut records = Vec::new();
    for number in 0..HALF {
        records.extend([over(number), own(number), over(number).matching_arrival()]);
    }
    let used = over(9).matching_arrival();
    records.extend([
        own(HALF),
        own(HALF + 1),
        own(0),
        own(HALF - 1),
        sending(ledger, 0, 0, 0, 1),
        used,
        Record { amount: 2, ..used },
        over(HALF),
        over(HALF).matching_arrival(),
        own(HALF),
        over(HALF + 1).matching_arrival(),
        // The other ledger has places left.
        own(1).matching_arrival(),
        own(2).matching_arrival(),
        own(1).matching_arrival(),
        over(1),
        local(other, 0, 0, HALF + 2, 1),
    ]);
    on_opening(&[1_000], &[1_000], &records)
}

/// Both tables fill with sendings and arrivals under the same 256 numbers, which
/// agree in their low 12 bits.
fn full_tables() -> Vec<u8> {
    let number = |step: u64| step << 12 | 0xabc;
    let mut records = Vec::new();
    for step in 0..HALF {
        let [over, back] = Ledger::BOTH.map(|from| sending(from, 0, 0, number(step), 1));
        records.extend([over, back, back.matching_arrival(), over.matching_arrival()]);
    }
    for ledger in Ledger::BOTH {
        for step in [0, HALF - 1, HALF, HALF << 3] {
            for shape in [local, sending, arrival] {
                records.push(shape(ledger, 0, 0, number(step), 1));
            }
        }
    }
    on_opening(&[1_000], &[1_000], &records)
}

/// A long journal in which numbers are often shared. Far's table fills, home has
/// places to the end.
fn long() -> Vec<u8> {
    let length = 138 * FULL;
    let long = Long {
        seed: 140,
        numbers: Numbers::LowBitsAlike { base: 5, shift: 12 },
        length,
        full_after: [length + 3 * FULL, length - 6 * FULL],
        first: Far,
        sharing: Sharing::Often,
        charge: Charge::NONE,
    };
    long.journal()
}
