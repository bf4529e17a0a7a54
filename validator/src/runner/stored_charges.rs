//! Stored journals of paper 02, U3: the charge on leaving home, and refusal 52.

use super::build::{arrival, join, journal, local, sending, set_u16, split, Block, Bytes, Opening};
use super::families::Sample;
use super::stored_long::Long;
use super::trader::{Numbers, Sharing};
use crate::charge::Charge;
use crate::journal::{seal, CHARGE_ACCOUNT, FULL, RATE};
use crate::record::Ledger::{Far, Home};
use crate::record::{Record, MAX_AMOUNT};

/// The stored journals of U3.
pub fn samples() -> Vec<Sample> {
    vec![
        Sample::new("charge_rate_0_account_1", rate_0()),
        Sample::new("charge_rate_1", rate_1()),
        Sample::new("charge_rate_50", rate_50()),
        Sample::new("charge_rate_10000", rate_10_000()),
        Sample::new("charge_sender_is_account", sender_is_account()),
        Sample::new("charge_25", amount_or_both()),
        Sample::new("charge_exact", exact()),
        Sample::new("fault_52_rate", stakes_with(10_001, 0)),
        Sample::new("fault_52_account", stakes_with(50, 2)),
        Sample::new("fault_52_account_rate_0", stakes_with(0, 65_535)),
        Sample::new("fault_52_before_block_1", before_block_1()),
        Sample::new("fault_52_before_2", before_total()),
        Sample::new("fault_14_before_52", after_form()),
        Sample::new("long_135_blocks_charge", long()),
    ]
}

fn on_opening(opening: Opening, records: &[Record]) -> Vec<u8> {
    let bytes: Vec<Bytes> = records.iter().map(Record::bytes).collect();
    journal(&opening, &bytes)
}

/// Sendings from home, account 0 to far 0, each with its arrival.
fn crossings(first: u64, amounts: &[u64]) -> Vec<Record> {
    let sent = (first..)
        .zip(amounts)
        .map(|(number, &amount)| sending(Home, 0, 0, number, amount));
    sent.flat_map(|over| [over, over.matching_arrival()])
        .collect()
}

/// An account is named but nothing is charged.
fn rate_0() -> Vec<u8> {
    let mut records = crossings(1, &[30, 70]);
    records.extend([sending(Home, 0, 0, 3, 1), sending(Home, 1, 0, 4, 50)]);
    on_opening(Opening::of_cases().charged(0, 1), &records)
}

/// The charge becomes one more with each 10,000. What it brought can be spent.
fn rate_1() -> Vec<u8> {
    let opening = Opening::new(&[100_000, 0, 0], &[20]).charged(1, 2);
    let mut records = crossings(1, &[1, 9_999, 10_000, 10_001, 19_999, 20_000]);
    records.extend([
        local(Home, 2, 1, 10, 6),
        local(Home, 2, 1, 10, 5),
        sending(Home, 1, 0, 11, 5),
        local(Home, 2, 0, 12, 1),
    ]);
    on_opening(opening, &records)
}

/// The charge becomes one more with each 200.
fn rate_50() -> Vec<u8> {
    let opening = Opening::new(&[3_000, 0], &[100]).charged(50, 1);
    let mut records = crossings(1, &[1, 100, 199, 200, 201, 399, 400, 1_000]);
    let back = sending(Far, 0, 0, 1, 500);
    records.extend([
        back,
        back.matching_arrival(),
        local(Home, 1, 0, 20, 11),
        local(Home, 1, 0, 20, 10),
    ]);
    on_opening(opening, &records)
}

/// A sending costs twice its amount; locals, far sendings and arrivals cost
/// nothing more.
fn rate_10_000() -> Vec<u8> {
    let opening = Opening::new(&[100, 50], &[20]).charged(10_000, 1);
    let over = sending(Home, 0, 0, 7, 30);
    let back = sending(Far, 0, 0, 8, 50);
    on_opening(
        opening,
        &[
            sending(Home, 0, 0, 7, 51),
            over,
            over.matching_arrival(),
            local(Home, 0, 1, 9, 40),
            local(Far, 0, 0, 9, 50),
            back,
            back.matching_arrival(),
            sending(Home, 0, 0, 10, 26),
            sending(Home, 0, 0, 10, 25),
            sending(Home, 1, 0, 11, 73),
            sending(Home, 1, 0, 11, 72),
            local(Home, 1, 1, 12, 73),
        ],
    )
}

/// The sender pays amount and charge, then receives the charge.
fn sender_is_account() -> Vec<u8> {
    let opening = Opening::new(&[100, 50], &[20]).charged(5_000, 0);
    on_opening(
        opening,
        &[
            sending(Home, 0, 0, 1, 68),
            sending(Home, 0, 0, 1, 67),
            sending(Home, 0, 0, 2, 23),
            sending(Home, 0, 0, 2, 22),
            local(Home, 0, 1, 3, 12),
            local(Home, 0, 1, 3, 11),
            sending(Home, 1, 0, 4, 41),
            sending(Home, 0, 0, 5, 20),
            sending(Home, 0, 0, 5, 13),
        ],
    )
}

/// Amounts for which the amount alone, or with the charge, is above the balance
/// by one, and the refusals before 25.
fn amount_or_both() -> Vec<u8> {
    let opening = Opening::new(&[1_005, 1_004, 0, 1], &[1_004]).charged(50, 2);
    let unsigned = Record {
        good: false,
        ..sending(Home, 1, 0, 1, 1_000)
    };
    on_opening(
        opening,
        &[
            sending(Home, 0, 0, 1, 1_006),
            sending(Home, 0, 0, 1, 1_005),
            sending(Home, 0, 0, 1, 1_001),
            sending(Home, 0, 0, 1, 1_000),
            unsigned,
            sending(Home, 1, 0, 1, 1_000),
            sending(Home, 1, 1, 2, 1_000),
            sending(Home, 1, 0, 2, 1_000),
            sending(Home, 1, 0, 2, 999),
            sending(Home, 1, 0, 3, 2),
            sending(Home, 3, 0, 4, 1),
            local(Home, 2, 2, 5, 10),
            local(Home, 2, 2, 5, 9),
            sending(Far, 0, 0, 1, 1_005),
            sending(Far, 0, 0, 1, 1_004),
        ],
    )
}

/// Amounts whose product with the rate needs more than 64 bits.
fn exact() -> Vec<u8> {
    let most = MAX_AMOUNT;
    let opening = Opening::new(&[most, 0], &[0]).charged(9_999, 1);
    let half = most / 2;
    // Nine thousand nine hundred and ninety-nine ten-thousandths of it.
    let charge = 4_611_224_849_825_545_164;
    let mut records = vec![sending(Home, 0, 0, 1, most)];
    records.extend(crossings(2, &[half + 1_000_000_000_000_000, half]));
    let back = sending(Far, 0, 1, 3, half);
    records.extend([
        local(Home, 0, 0, 7, most - half - charge + 1),
        local(Home, 0, 0, 7, most - half - charge),
        local(Home, 1, 1, 8, charge + 1),
        local(Home, 1, 1, 8, charge),
        back,
        back.matching_arrival(),
        sending(Home, 1, 0, 9, half + 1),
        sending(Home, 1, 0, 9, half),
        arrival(Far, 1, 0, 9, half),
        sending(Home, 1, 0, 10, 1 << 61),
        local(Home, 1, 1, 11, charge + 1),
        local(Home, 1, 1, 11, charge),
    ]);
    on_opening(opening, &records)
}

/// Any rate and account in block 0 of the cases' opening, with two records.
fn stakes_with(rate: u16, account: u16) -> Vec<u8> {
    join(&charged_blocks(&[100, 50], &[20], rate, account))
}

fn charged_blocks(home: &[u64], far: &[u64], rate: u16, account: u16) -> Vec<Block> {
    let records = crossings(7, &[30]);
    let mut blocks = split(&on_opening(Opening::new(home, far), &records));
    set_u16(&mut blocks[0], RATE, rate);
    set_u16(&mut blocks[0], CHARGE_ACCOUNT, account);
    seal(&mut blocks[0]);
    blocks
}

/// Block 1 has a wrong check, which is not looked at.
fn before_block_1() -> Vec<u8> {
    let mut blocks = charged_blocks(&[100, 50], &[20], 65_535, 0);
    blocks[1][40] ^= 1;
    join(&blocks)
}

/// The stakes are too many in all, which block 1 would tell.
fn before_total() -> Vec<u8> {
    join(&charged_blocks(&[MAX_AMOUNT], &[1], 10_000, 1))
}

/// Byte 10 of block 0 is not zero; the rate is too high as well.
fn after_form() -> Vec<u8> {
    let mut blocks = charged_blocks(&[100, 50], &[20], 10_001, 9);
    blocks[0][CHARGE_ACCOUNT + 2] = 1;
    seal(&mut blocks[0]);
    join(&blocks)
}

/// A long journal with a charge. Home's table fills, far has places to the end.
fn long() -> Vec<u8> {
    let length = 133 * FULL;
    let long = Long {
        seed: 135,
        numbers: Numbers::Random,
        length,
        full_after: [length - 6 * FULL, length + 3 * FULL],
        first: Home,
        sharing: Sharing::Often,
        charge: Charge::new(1_250, 1),
    };
    long.journal()
}
