//! Blocks of each kind and number, sound or with every sort of damage, the
//! check stale or computed anew, and the calls that judge and read them.

use super::forged::steps;
use super::plain::{LAWFUL_BLOCKS, OTHER_BLOCKS};
use crate::charge::{Charge, MAX_RATE};
use crate::journal::{
    kind_of, seal, BLOCK, CHARGE_ACCOUNT, CHECK, FULL, ITEMS, RATE, RECORDS, STAKE,
};
use crate::record::RECORD;
use crate::rules::MAX_ACCOUNTS;
use crate::runner::build::{charged_block, lawful_block, set_u16, Block};
use crate::runner::calls::{Both, Part};
use crate::runner::rng::Rng;

/// The bytes of a block that a scenario goes on through, and the sets of faults of
/// block 0.
const SWEPT: u64 = 8;
const CHARGES_SWEPT: u64 = 3;

pub fn scenario(both: &mut Both, rng: &mut Rng) {
    sweep(both, rng);
    for step in steps(both.scenario(), CHARGES_SWEPT) {
        sweep_charge(both, rng, step);
    }
    for _ in 0..6 {
        let right = if rng.chance(1, 4) {
            rng.below(2)
        } else {
            rng.pick(&LAWFUL_BLOCKS)
        };
        let block = some_block(rng, right);
        if right < 2 {
            both.block_balances(&block, right, 0);
        }
        for _ in 0..2 {
            let number = some_number(rng, right);
            let before = told_count(rng, number);
            let count = u64::from(block.get(5).copied().unwrap_or(0));
            let place = some_place(rng, count);
            all_calls(both, rng, &block, [number, before, place]);
        }
    }
}

/// Every byte in turn is altered alone, the check computed anew or stale.
fn sweep(both: &mut Both, rng: &mut Rng) {
    let first = both.scenario() * SWEPT;
    for step in first..first + SWEPT {
        let number = rng.pick(&[0, 1, 2, 3, 65_535]);
        let (size, _) = layout(number);
        let count = rng.within(1, 3) as usize;
        let items = rng.bytes(size * count);
        let mut block = written(rng, number, &items);
        block[step as usize % BLOCK] ^= 1 << rng.below(8);
        if rng.chance(5, 6) {
            seal(&mut block);
        }
        both.block_judge(&block, number, 14);
    }
}

/// Block 0 with each set of faults in turn: a wrong rate, a wrong account, a byte
/// after them, a wrong kind, a stale check.
fn sweep_charge(both: &mut Both, rng: &mut Rng, step: u64) {
    let has = |bit: u32| step >> bit & 1 == 1;
    let mut block = sound_block(rng, 0);
    let count = u16::from(block[5]);
    if has(0) {
        set_u16(&mut block, RATE, rng.pick(&[10_001, 0x4000, 65_535]));
    }
    if has(1) {
        let low_byte_open = 0x100 | (count - 1);
        let account = rng.pick(&[count, low_byte_open, 65_535]);
        set_u16(&mut block, CHARGE_ACCOUNT, account);
    }
    if has(2) {
        block[rng.pick(&[10, 11, 31])] = 1;
    }
    if has(3) {
        block[4] = 2;
    }
    if !has(4) || !step.is_multiple_of(3) {
        seal(&mut block);
    }
    let place = rng.pick(&[0, 13, 14]);
    both.block_balances(&block, 0, 0);
    all_calls(both, rng, &block, [0, 0, place]);
}

/// The count of the block before, mostly one that is let pass.
fn told_count(rng: &mut Rng, number: u64) -> u64 {
    let any = [0, 1, 13, 14, 15, u64::MAX];
    if number < 3 || rng.chance(1, 4) {
        return rng.pick(&any);
    }
    14
}

/// Most of the calls that take a block.
fn all_calls(both: &mut Both, rng: &mut Rng, block: &[u8], numbers: [u64; 3]) {
    let [number, before, place] = numbers;
    both.block_judge(block, number, before);
    both.block_judge_record(block, number, before, place);
    both.block_record(block, number, before, place);
    if rng.chance(1, 2) {
        both.block_count(block, number, before);
    }
    if rng.chance(1, 2) {
        both.block_balances(block, number, before);
    }
}

/// Mostly the block's own number.
fn some_number(rng: &mut Rng, right: u64) -> u64 {
    match rng.below(16) {
        0 => rng.pick(&OTHER_BLOCKS),
        1 => rng.pick(&LAWFUL_BLOCKS),
        2 => rng.pick(&[right + 1, right | 1 << 16, right | 1 << 32, right | 1 << 63]),
        _ => right,
    }
}

fn some_place(rng: &mut Rng, count: u64) -> u64 {
    let within = rng.below(count.max(1));
    let low = rng.below(14);
    // The last ones name a place of the block in their low bits.
    rng.pick(&[
        0,
        0,
        within,
        within,
        within,
        count.saturating_sub(1),
        count.saturating_sub(1),
        count,
        13,
        14,
        255,
        u64::MAX,
        1 << 59,
        low | 1 << 32,
        low | 1 << 59,
    ])
}

/// A block of this number, sound or damaged.
fn some_block(rng: &mut Rng, number: u64) -> Vec<u8> {
    let mut block = sound_block(rng, number);
    match rng.below(12) {
        0..=5 => (),
        6 => {
            let random = rng.index(BLOCK);
            let length = rng.pick(&[0, 1, 480, 511, 513, 1_024, random]);
            block.resize(length, 0);
        }
        7 if rng.chance(1, 4) => block = rng.bytes(BLOCK),
        _ => {
            for _ in 0..rng.pick(&[1, 1, 1, 2]) {
                damage(rng, &mut block, number);
            }
            if rng.chance(3, 4) {
                seal(&mut block);
            }
        }
    }
    block
}

fn sound_block(rng: &mut Rng, number: u64) -> Vec<u8> {
    let (size, most) = layout(number);
    let random = rng.within(1, most as u64) as usize;
    let count = rng.pick(&[1, most, most - 1, random, random]);
    let items = rng.bytes(size * count);
    written(rng, number, &items).to_vec()
}

/// A block as it is written; every other block 0 has a charge.
fn written(rng: &mut Rng, number: u64, items: &[u8]) -> Block {
    if number > 0 || rng.chance(1, 2) {
        return lawful_block(number, items);
    }
    let last = (items.len() / STAKE) as u64 - 1;
    let account = rng.within(0, last);
    let any = rng.within(0, MAX_RATE);
    let rate = rng.pick(&[0, 50, MAX_RATE, any]);
    charged_block(Charge::new(rate, rng.pick(&[account, last])), items)
}

fn layout(number: u64) -> (usize, usize) {
    if kind_of(number) == RECORDS {
        (RECORD, FULL)
    } else {
        (STAKE, MAX_ACCOUNTS)
    }
}

/// One damage; the check goes stale by it.
fn damage(rng: &mut Rng, block: &mut [u8], number: u64) {
    let (size, most) = layout(number);
    let used = ITEMS + usize::from(block[5]) * size;
    let bit = 1 << rng.below(8);
    if number == 0 && rng.chance(1, 2) {
        return damage_charge(rng, block);
    }
    match rng.below(8) {
        0 => block[rng.index(4)] ^= bit,
        1 => block[4] = rng.pick(&[0, 1, 2, 3, 4, 131, 255]),
        2 => {
            let most = most as u8;
            block[5] = rng.pick(&[0, 1, 13, 14, 15, 56, 57, most, most + 1, 255]);
        }
        3 => {
            let count = block[5];
            block[5] = rng.pick(&[count.wrapping_add(1), count.wrapping_sub(1), 0]);
        }
        4 => block[rng.pick(&[6, 7, 8, 9, 10, 31, 6, 16])] ^= bit,
        5 if (ITEMS..CHECK).contains(&used) => {
            let random = rng.within(used as u64, CHECK as u64 - 1) as usize;
            block[rng.pick(&[used, CHECK - 1, random])] ^= bit;
        }
        6 => block[rng.pick(&[CHECK, BLOCK - 1, CHECK + 15])] ^= bit,
        _ => block[rng.index(BLOCK)] ^= bit,
    }
}

/// The rate or the charge account of block 0 is altered, mostly to a wrong one.
fn damage_charge(rng: &mut Rng, block: &mut [u8]) {
    let any = rng.word() as u16;
    let count = u16::from(block[5]);
    if rng.chance(1, 2) {
        let rate = rng.pick(&[10_000, 10_001, 10_001, 0x1127, 0x8000, 65_535, any]);
        set_u16(block, RATE, rate);
    } else {
        let low = count.saturating_sub(1);
        let account = rng.pick(&[low, count, count, 56, 0x100 | low, 65_535, any]);
        set_u16(block, CHARGE_ACCOUNT, account);
    }
}
