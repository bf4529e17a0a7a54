//! Paper 01, "The journal", and paper 02, U3: judging a block (11 to 14, for block
//! 0 also 52), a record's place in it (4), handing back the record's part of the
//! block, and writing a block (4).

use crate::answer::{refusal, Answer};
use crate::charge::Charge;
use crate::record::{u16_at, u64_at, RECORD};
use crate::rules::MAX_ACCOUNTS;
use crate::sha256;

/// Length of a block in bytes.
pub const BLOCK: usize = 512;

/// The number of the last block that a journal may have.
pub const LAST_BLOCK: u64 = 65_535;

/// The records of a full block.
pub const FULL: usize = 14;

/// Length of a stake in bytes.
pub const STAKE: usize = 8;

/// The stakes of a block, zeros after them.
pub type Balances = [u64; MAX_ACCOUNTS];

/// The kinds of blocks.
pub const HOME_STAKES: u8 = 1;
pub const FAR_STAKES: u8 = 2;
pub const RECORDS: u8 = 3;

/// Where block 0 carries the rate of the charge and its account.
pub const RATE: usize = 6;
pub const CHARGE_ACCOUNT: usize = 8;

/// Where the items begin, and where the check begins.
pub const ITEMS: usize = 32;
pub const CHECK: usize = 480;

/// The kind that a block of this number has.
pub fn kind_of(number: u64) -> u8 {
    match number {
        0 => HOME_STAKES,
        1 => FAR_STAKES,
        _ => RECORDS,
    }
}

/// The length of an item and the most items in a block of this kind.
fn layout(kind: u8) -> (usize, usize) {
    match kind {
        RECORDS => (RECORD, FULL),
        _ => (STAKE, MAX_ACCOUNTS),
    }
}

/// Judges the block of a number. `before` is the count of the block before,
/// looked at from block 3 on.
pub fn judge_block(block: &[u8], number: u64, before: u64) -> Answer {
    Answer::at(block_refusal(block, number, before), number)
}

fn block_refusal(block: &[u8], number: u64, before: u64) -> Option<u8> {
    if block.len() != BLOCK || number > LAST_BLOCK {
        return Some(refusal::BLOCK_MISSING);
    }
    if sha256::digest(&block[..CHECK]) != block[CHECK..] {
        return Some(refusal::CHECK);
    }
    if number_in(block) != number {
        return Some(refusal::BLOCK_NUMBER);
    }
    if !form_right(block, number) || follows_short(number, before) {
        return Some(refusal::BLOCK_FORM);
    }
    charge(block, number)
        .wrong(count(block))
        .then_some(refusal::CHARGE)
}

fn number_in(block: &[u8]) -> u64 {
    u64::from(u32::from_be_bytes([block[0], block[1], block[2], block[3]]))
}

/// Kind, count and zero bytes.
fn form_right(block: &[u8], number: u64) -> bool {
    let kind = kind_of(number);
    let (length, most) = layout(kind);
    let count = usize::from(block[5]);
    block[4] == kind
        && (1..=most).contains(&count)
        && all_zero(&block[head(number)..ITEMS])
        && all_zero(&block[ITEMS + count * length..CHECK])
}

/// How many bytes of a block carry its head: block 0 has the charge in it.
fn head(number: u64) -> usize {
    match number {
        0 => CHARGE_ACCOUNT + 2,
        _ => RATE,
    }
}

/// From block 3 on, whether the block before has fewer than 14 records.
fn follows_short(number: u64, before: u64) -> bool {
    number >= 3 && before < FULL as u64
}

fn all_zero(bytes: &[u8]) -> bool {
    bytes.iter().all(|&byte| byte == 0)
}

/// The count of a block that has been judged.
pub fn count(block: &[u8]) -> usize {
    usize::from(block[5])
}

/// The charge that block 0 carries; other blocks carry none.
pub fn charge(block: &[u8], number: u64) -> Charge {
    if number != 0 {
        return Charge::NONE;
    }
    let [rate, account] = [RATE, CHARGE_ACCOUNT].map(|at| u64::from(u16_at(block, at)));
    Charge { rate, account }
}

/// The stakes of a stakes block that has been judged.
pub fn stakes(block: &[u8]) -> Vec<u64> {
    (0..count(block))
        .map(|place| u64_at(block, ITEMS + place * STAKE))
        .collect()
}

/// The records of a records block that has been judged.
pub fn records(block: &[u8]) -> std::slice::ChunksExact<'_, u8> {
    block[ITEMS..ITEMS + count(block) * RECORD].chunks_exact(RECORD)
}

/// Judges a block and a record's place in it.
pub fn judge_place(block: &[u8], number: u64, before: u64, place: u64) -> Answer {
    let block_answer = judge_block(block, number, before);
    if !block_answer.passed() {
        return block_answer;
    }
    let outside = kind_of(number) != RECORDS || place >= count(block) as u64;
    Answer::at(outside.then_some(refusal::MAKER_BLOCK), number)
}

/// Judges a block and a place, and gives the start and the length of the
/// record within the block; 0 and 0 beside a refusal.
pub fn block_record(block: &[u8], number: u64, before: u64, place: u64) -> (Answer, [usize; 2]) {
    let answer = judge_place(block, number, before, place);
    if !answer.passed() {
        return (answer, [0, 0]);
    }
    (answer, [ITEMS + place as usize * RECORD, RECORD])
}

/// The record's part of the lent block; empty where `judge_place` refuses.
pub fn part(block: &[u8], number: u64, before: u64, place: u64) -> &[u8] {
    let (_, [start, length]) = block_record(block, number, before, place);
    &block[start..start + length]
}

/// Judges a block and gives its count of items; 0 beside a refusal.
pub fn block_count(block: &[u8], number: u64, before: u64) -> (Answer, u64) {
    let answer = judge_block(block, number, before);
    if !answer.passed() {
        return (answer, 0);
    }
    (answer, count(block) as u64)
}

/// What a stakes block holds: the count of its stakes, the rate of the charge, its
/// account, and the stakes, zeros after them.
pub type Stakes = (u64, u64, u64, Balances);

/// Judges a block and gives what it holds: 4 in a block of records, after 11 to 14
/// and 52. Rate and account are 0 in block 1. Zeros beside a refusal.
pub fn block_balances(block: &[u8], number: u64, before: u64) -> (Answer, Stakes) {
    let answer = judge_balances(block, number, before);
    let mut balances = [0; MAX_ACCOUNTS];
    if !answer.passed() {
        return (answer, (0, 0, 0, balances));
    }
    let stakes = stakes(block);
    balances[..stakes.len()].copy_from_slice(&stakes);
    let Charge { rate, account } = charge(block, number);
    (answer, (stakes.len() as u64, rate, account, balances))
}

fn judge_balances(block: &[u8], number: u64, before: u64) -> Answer {
    let block_answer = judge_block(block, number, before);
    if !block_answer.passed() {
        return block_answer;
    }
    let records = kind_of(number) == RECORDS;
    Answer::at(records.then_some(refusal::MAKER_BLOCK), number)
}

/// Writes a block. The items are stakes or records as bytes, copied unjudged;
/// a refused write leaves the output as it came. The charge is looked at and written
/// for block 0 only.
pub fn write_block(
    number: u64,
    kind: u8,
    charge: Charge,
    items: &[u8],
    output: &mut [u8],
) -> Answer {
    let charge = if number == 0 { charge } else { Charge::NONE };
    if write_refused(number, kind, charge, items, output.len()) {
        return Answer::Refused {
            number: refusal::MAKER_BLOCK,
            place: number,
        };
    }
    let (length, _) = layout(kind);
    output.fill(0);
    output[..4].copy_from_slice(&(number as u32).to_be_bytes());
    output[4] = kind;
    output[5] = (items.len() / length) as u8;
    put_u16(output, RATE, charge.rate);
    put_u16(output, CHARGE_ACCOUNT, charge.account);
    output[ITEMS..ITEMS + items.len()].copy_from_slice(items);
    seal(output);
    Answer::Passed
}

/// A number that 16 bits hold.
fn put_u16(output: &mut [u8], at: usize, value: u64) {
    output[at..at + 2].copy_from_slice(&(value as u16).to_be_bytes());
}

fn write_refused(
    number: u64,
    kind: u8,
    charge: Charge,
    items: &[u8],
    output_length: usize,
) -> bool {
    let (length, most) = layout(kind);
    output_length != BLOCK
        || items.is_empty()
        || !items.len().is_multiple_of(length)
        || items.len() / length > most
        || number > LAST_BLOCK
        || kind != kind_of(number)
        || charge.wrong(items.len() / length)
}

/// Writes the check of a block's first 480 bytes.
pub fn seal(block: &mut [u8]) {
    let check = sha256::digest(&block[..CHECK]);
    block[CHECK..].copy_from_slice(&check);
}
