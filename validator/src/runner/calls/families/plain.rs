//! Calls without a state: blocks written, records read and encoded, SHA-256.

use crate::charge::{Charge, MAX_RATE};
use crate::journal::{kind_of, BLOCK, FULL, STAKE};
use crate::record::{Held, MAX_AMOUNT, RECORD};
use crate::rules::MAX_ACCOUNTS;
use crate::runner::build::{set_u64, Bytes, AMOUNT, RESERVED, VERDICT};
use crate::runner::calls::makers::doubtful_charge;
use crate::runner::calls::{Both, Part};
use crate::runner::families::faults::spoil_form;
use crate::runner::rng::Rng;

/// Block numbers, lawful and not.
pub const LAWFUL_BLOCKS: [u64; 13] = [0, 0, 1, 2, 2, 3, 3, 4, 14, 255, 256, 65_534, 65_535];
pub const OTHER_BLOCKS: [u64; 6] = [65_536, 65_537, 1 << 17, 1 << 32, (1 << 32) + 2, u64::MAX];

pub fn writes(both: &mut Both, rng: &mut Rng) {
    for _ in 0..20 {
        let number = match rng.below(8) {
            0 => rng.pick(&OTHER_BLOCKS),
            1 | 2 => 0,
            _ => rng.pick(&LAWFUL_BLOCKS),
        };
        let kind = if rng.chance(1, 6) {
            rng.pick(&[0, 1, 2, 3, 4, 255])
        } else {
            kind_of(number)
        };
        let length = if rng.chance(1, 6) {
            rng.pick(&[0, 1, 480, 511, 513, 1_024])
        } else {
            BLOCK
        };
        let mut output = rng.bytes(length);
        let items = items(rng, kind_of(number) == 3);
        let Charge { rate, account } = write_charge(rng, number, &items);
        both.block_write(&mut output, number, kind, rate, account, &items);
    }
}

/// A charge for block 0, right or not for its stakes; any for other blocks.
fn write_charge(rng: &mut Rng, number: u64, items: &[u8]) -> Charge {
    let stakes = items.len() / STAKE;
    match rng.below(4) {
        0 => doubtful_charge(rng, stakes),
        1 | 2 if number > 0 => Charge::new(rng.word(), rng.word()),
        1 => doubtful_charge(rng, stakes),
        2 => Charge::new(rng.within(0, MAX_RATE), rng.below(stakes.max(1) as u64)),
        _ => Charge::NONE,
    }
}

/// Items of every length sort, mostly a whole number that fits.
fn items(rng: &mut Rng, records: bool) -> Vec<u8> {
    let (size, most) = if records {
        (RECORD, FULL)
    } else {
        (STAKE, MAX_ACCOUNTS)
    };
    let length = match rng.below(12) {
        0 => 0,
        1 => size * (most + 1),
        2 => size * most - 1,
        3 => size * most + 1,
        4 => rng.index(600),
        5 => size * most,
        6 => size,
        _ => size * rng.within(1, most as u64) as usize,
    };
    rng.bytes(length)
}

pub fn records_read(both: &mut Both, rng: &mut Rng) {
    for _ in 0..20 {
        let mut bytes = near_right(rng).to_vec();
        match rng.below(6) {
            0 => bytes.resize(rng.index(41), 0),
            1 if rng.chance(1, 3) => {
                let length = rng.index(41);
                bytes = rng.bytes(length);
            }
            2 => spoil_byte(rng, &mut bytes),
            _ => (),
        }
        both.record_read(&bytes);
    }
}

/// The bytes of a record, or what is nearly one.
fn near_right(rng: &mut Rng) -> Bytes {
    let mut bytes: Bytes = [0; RECORD];
    for byte in &mut bytes[..VERDICT] {
        *byte = rng.byte();
    }
    for place in RESERVED {
        bytes[place] = 0;
    }
    bytes[0] = rng.within(1, 3) as u8;
    bytes[1] = rng.below(2) as u8;
    bytes[VERDICT] = rng.below(2) as u8;
    let amount = rng.magnitude(MAX_AMOUNT);
    set_u64(&mut bytes, AMOUNT, amount);
    if rng.chance(1, 4) {
        spoil_form(rng, &mut bytes);
    }
    bytes
}

fn spoil_byte(rng: &mut Rng, bytes: &mut [u8]) {
    let place = rng.index(bytes.len());
    bytes[place] = rng.byte();
}

pub fn records_encoded(both: &mut Both, rng: &mut Rng) {
    for _ in 0..20 {
        let fields = fields(rng);
        both.record_encode(&fields);
    }
}

fn fields(rng: &mut Rng) -> Held {
    let bounds = [0, 1, 255, 256, 0x1234, 0x8000, 65_535];
    let random = rng.word();
    let high = rng.magnitude(MAX_AMOUNT);
    let wild = rng.chance(1, 3);
    let mut fields = Held {
        kind: rng.within(1, 3) as u8,
        ledger: rng.below(2) as u8,
        sender: rng.pick(&bounds),
        receiver: rng.pick(&bounds),
        number: rng.pick(&[0, 1, random, 1 << 63, u64::MAX]),
        amount: rng.pick(&[1, MAX_AMOUNT, high, high]),
        verdict: rng.below(2) as u8,
    };
    if wild {
        match rng.below(5) {
            0 => fields.kind = rng.pick(&[0, 4, 128, 129, 255]),
            1 => fields.ledger = rng.pick(&[2, 3, 128, 255]),
            2 => fields.verdict = rng.pick(&[2, 3, 128, 255]),
            3 => fields.amount = rng.pick(&[0, MAX_AMOUNT + 1, random | 1 << 63, u64::MAX]),
            _ => {
                fields = Held {
                    kind: rng.byte(),
                    ledger: rng.byte(),
                    verdict: rng.byte(),
                    amount: random,
                    ..fields
                }
            }
        }
    }
    fields
}

/// Every length from 0 to 300 in the course of some scenarios, and long ones.
pub fn sha256(both: &mut Both, rng: &mut Rng) {
    let first = rng.index(20);
    for step in 0..16 {
        let length = first + step * 20 % 301;
        let bytes = rng.bytes(length);
        both.sha256(&bytes);
    }
    for length in [55, 56, 63, 64, 119, 120] {
        let bytes = rng.bytes(length);
        both.sha256(&bytes);
    }
    let length = rng.within(301, 3_000) as usize;
    let bytes = rng.bytes(length);
    both.sha256(&bytes);
}
