//! Damaged journals: every byte of the first blocks and the last one, numbers,
//! kinds, counts, charges and padding, blocks exchanged, left out or put in, journals
//! cut off or with bytes too many, and bytes of no meaning at all.

use super::Sample;
use crate::journal::{seal, BLOCK, CHARGE_ACCOUNT, CHECK, FULL, ITEMS, RATE};
use crate::record::RECORD;
use crate::runner::build::{any_block, join, set_u16, split, Block, Bytes, Opening};
use crate::runner::rng::Rng;
use crate::runner::trader::{any_opening, maybe_charged, Numbers, Trader};

pub fn fixed(rng: &mut Rng) -> Vec<Sample> {
    let opening = Opening::new(&[1_000, 500, 70], &[800, 90]);
    let sound = sound_blocks(rng, opening.clone(), 2 * FULL + 5);
    let charged = sound_blocks(rng, opening.charged(1_250, 2), 2 * FULL + 5);
    let mut samples = Vec::new();
    single_bytes(rng, &sound, &mut samples);
    heads(&charged, &mut samples);
    numbers(&sound, &mut samples);
    kinds(&sound, &mut samples);
    counts(&charged, &mut samples);
    short_blocks(&charged, &mut samples);
    several_faults(&sound, &mut samples);
    several_faults_of_block_0(&charged, &mut samples);
    moved_blocks(&sound, &mut samples);
    lengths(rng, &sound, &mut samples);
    no_journals(rng, &mut samples);
    samples
}

/// The blocks of a sound journal with so many records; the opening has credit.
pub fn sound_blocks(rng: &mut Rng, opening: Opening, records: usize) -> Vec<Block> {
    let mut trader = Trader::new(opening, Numbers::Random, Rng::new(rng.word()));
    trader.thrifty = true;
    while trader.records.len() < records {
        let ledger = trader.some_ledger();
        let record = trader.lawful(ledger).expect("credit");
        trader.hand_in(record.bytes());
    }
    split(&trader.journal())
}

/// The journal with one block changed, its check stale or computed anew.
fn changed(blocks: &[Block], at: usize, anew: bool, change: impl FnOnce(&mut Block)) -> Vec<u8> {
    let mut blocks = blocks.to_vec();
    change(&mut blocks[at]);
    if anew {
        seal(&mut blocks[at]);
    }
    join(&blocks)
}

/// Every byte of blocks 0, 1, 2 and the last one.
fn single_bytes(rng: &mut Rng, blocks: &[Block], samples: &mut Vec<Sample>) {
    for at in [0, 1, 2, blocks.len() - 1] {
        for place in 0..BLOCK {
            for anew in [false, true] {
                if anew && place >= CHECK {
                    continue;
                }
                let flip = if rng.chance(1, 2) {
                    1 << rng.below(8)
                } else {
                    rng.within(1, 255) as u8
                };
                let journal = changed(blocks, at, anew, |block| block[place] ^= flip);
                let name = format!("byte_{at}_{place}_anew_{anew}");
                samples.push(Sample::new(name, journal));
            }
        }
    }
}

/// Bytes 6-31 of each block with a few values, those of the charge with more.
fn heads(blocks: &[Block], samples: &mut Vec<Sample>) {
    for at in 0..blocks.len() {
        for place in RATE..ITEMS {
            let values: &[u8] = match place {
                RATE..=9 => &[0, 1, 2, 3, 38, 39, 40, 128, 255],
                _ => &[1, 128],
            };
            for &value in values {
                let journal = changed(blocks, at, true, |block| block[place] = value);
                let name = format!("head_{at}_{place}_{value}");
                samples.push(Sample::new(name, journal));
            }
        }
    }
}

/// Block numbers that are wrong, also by their byte order.
fn numbers(blocks: &[Block], samples: &mut Vec<Sample>) {
    for at in 0..blocks.len() {
        let right = at as u32;
        let wrong = [
            right.wrapping_add(1),
            right.wrapping_sub(1),
            right.swap_bytes(),
            right << 8,
            right | 1 << 16,
            right | 1 << 31,
            0,
            65_535,
            65_536,
            u32::MAX,
        ];
        for (which, number) in wrong.into_iter().enumerate() {
            let journal = changed(blocks, at, true, |block| {
                block[..4].copy_from_slice(&number.to_be_bytes());
            });
            samples.push(Sample::new(format!("number_{at}_{which}"), journal));
        }
    }
}

/// Every kind in every block.
fn kinds(blocks: &[Block], samples: &mut Vec<Sample>) {
    for at in 0..blocks.len() {
        for kind in (0..=8).chain([16, 51, 127, 128, 129, 130, 131, 255]) {
            let journal = changed(blocks, at, true, |block| block[4] = kind);
            samples.push(Sample::new(format!("kind_{at}_{kind}"), journal));
        }
    }
}

/// Counts in every block alone, with the items left or taken away, and every
/// combination of some counts in the stakes blocks and in the records blocks.
fn counts(blocks: &[Block], samples: &mut Vec<Sample>) {
    for at in 0..blocks.len() {
        for count in 0..=255 {
            let journal = changed(blocks, at, true, |block| block[5] = count);
            samples.push(Sample::new(format!("count_{at}_{count}"), journal));
            let journal = changed(blocks, at, true, |block| recount(block, at, count));
            samples.push(Sample::new(format!("recount_{at}_{count}"), journal));
        }
    }
    let few = [0, 1, 13, 14, 15, 255];
    for first in few {
        for second in few {
            for third in few {
                let name = format!("records_counts_{first}_{second}_{third}");
                let counts = [(2, first), (3, second), (4, third)];
                samples.push(Sample::new(name, recounted(blocks, &counts)));
            }
            let name = format!("stakes_counts_{first}_{second}");
            let counts = [(0, first), (1, second)];
            samples.push(Sample::new(name, recounted(blocks, &counts)));
        }
    }
}

fn recounted(blocks: &[Block], counts: &[(usize, u8)]) -> Vec<u8> {
    let mut blocks = blocks.to_vec();
    for &(at, count) in counts {
        recount(&mut blocks[at], at, count);
        seal(&mut blocks[at]);
    }
    join(&blocks)
}

/// Gives a block another count and takes the items beyond it away, or fills
/// up with copies of the first item.
fn recount(block: &mut Block, at: usize, count: u8) {
    let length = if at < 2 { 8 } else { RECORD };
    let first = block[ITEMS..ITEMS + length].to_vec();
    let had = usize::from(block[5]);
    block[5] = count;
    let places = block[ITEMS..CHECK].chunks_exact_mut(length);
    for (place, item) in places.enumerate() {
        if place >= usize::from(count) {
            item.fill(0);
        } else if place >= had {
            item.copy_from_slice(&first);
        }
    }
}

/// A block of fewer than 14 records, followed by a sound one, by a damaged
/// one and by one with a wrong number.
fn short_blocks(blocks: &[Block], samples: &mut Vec<Sample>) {
    for count in 1..=13 {
        let mut short = blocks.to_vec();
        recount(&mut short[2], 2, count);
        seal(&mut short[2]);
        samples.push(Sample::new(format!("short_{count}"), join(&short)));
        let name = format!("short_{count}_last");
        samples.push(Sample::new(name, join(&short[..3])));
        let name = format!("short_{count}_then_stale");
        let journal = changed(&short, 3, false, |block| block[40] ^= 4);
        samples.push(Sample::new(name, journal));
        let name = format!("short_{count}_then_number");
        let journal = changed(&short, 3, true, |block| block[3] ^= 4);
        samples.push(Sample::new(name, journal));
        let name = format!("short_{count}_then_rest");
        let rest = join(&short)[..3 * BLOCK + 100].to_vec();
        samples.push(Sample::new(name, rest));
    }
}

/// Every set of faults in block 3 at once, so that their order shows: cut
/// off, stale check, number, kind, count, padding, short block before.
fn several_faults(blocks: &[Block], samples: &mut Vec<Sample>) {
    for set in 0..1 << 7 {
        let has = |bit: u32| set >> bit & 1 == 1;
        let mut blocks = blocks[..4].to_vec();
        if has(0) {
            recount(&mut blocks[2], 2, 9);
            seal(&mut blocks[2]);
        }
        let block = &mut blocks[3];
        recount(block, 3, 11);
        if has(1) {
            block[CHECK - 1] = 1;
        }
        if has(2) {
            block[5] = 0;
        }
        if has(3) {
            block[4] = 2;
        }
        if has(4) {
            block[3] = 4;
        }
        seal(block);
        if has(5) {
            block[CHECK] ^= 1;
        }
        let mut journal = join(&blocks);
        if has(6) {
            journal.pop();
        }
        samples.push(Sample::new(format!("several_{set}"), journal));
    }
}

/// Every set of faults in block 0 at once: rate, account, a byte after them, count,
/// kind, number, stale check, cut off.
fn several_faults_of_block_0(blocks: &[Block], samples: &mut Vec<Sample>) {
    for set in 0..1 << 8 {
        let has = |bit: u32| set >> bit & 1 == 1;
        let mut blocks = blocks[..3].to_vec();
        let block = &mut blocks[0];
        if has(0) {
            set_u16(block, RATE, 10_001);
        }
        if has(1) {
            set_u16(block, CHARGE_ACCOUNT, 3);
        }
        if has(2) {
            block[CHARGE_ACCOUNT + 2] = 1;
        }
        if has(3) {
            block[5] = 57;
        }
        if has(4) {
            block[4] = 2;
        }
        if has(5) {
            block[0] = 1;
        }
        seal(block);
        if has(6) {
            block[CHECK] ^= 1;
        }
        let mut journal = join(&blocks);
        if has(7) {
            journal.truncate(BLOCK - 1);
        }
        samples.push(Sample::new(format!("several_of_block_0_{set}"), journal));
    }
}

/// Blocks exchanged, repeated, left out, or taken for one another, with their
/// own numbers and numbered anew.
fn moved_blocks(blocks: &[Block], samples: &mut Vec<Sample>) {
    let mut lists: Vec<(String, Vec<Block>)> = Vec::new();
    for one in 0..blocks.len() {
        for other in 0..blocks.len() {
            let mut list = blocks.to_vec();
            list.swap(one, other);
            lists.push((format!("exchanged_{one}_{other}"), list));
            let mut list = blocks.to_vec();
            list.insert(one, blocks[other]);
            lists.push((format!("put_in_{one}_{other}"), list));
            let mut list = blocks.to_vec();
            list[one] = blocks[other];
            lists.push((format!("replaced_{one}_{other}"), list));
        }
        let mut list = blocks.to_vec();
        list.remove(one);
        lists.push((format!("left_out_{one}"), list));
        lists.push((format!("begins_at_{one}"), blocks[one..].to_vec()));
    }
    for (name, list) in lists {
        samples.push(Sample::new(name.clone(), join(&list)));
        samples.push(Sample::new(format!("{name}_anew"), join(&numbered(&list))));
    }
}

/// The blocks numbered in order and sealed.
fn numbered(blocks: &[Block]) -> Vec<Block> {
    let mut blocks = blocks.to_vec();
    for (number, block) in (0u32..).zip(&mut blocks) {
        block[..4].copy_from_slice(&number.to_be_bytes());
        seal(block);
    }
    blocks
}

/// Cut off at every length, and with bytes after the last block.
fn lengths(rng: &mut Rng, blocks: &[Block], samples: &mut Vec<Sample>) {
    let whole = join(blocks);
    for length in 0..=1_600 {
        let name = format!("cut_off_{length}");
        samples.push(Sample::new(name, whole[..length].to_vec()));
    }
    for more in [1, 2, 7, 31, 32, 33, 255, 256, 480, 511, 512, 513, 1_024] {
        let mut journal = whole.clone();
        journal.resize(whole.len() + more, 0);
        samples.push(Sample::new(format!("zeros_after_{more}"), journal));
        let mut journal = whole.clone();
        journal.extend(rng.bytes(more));
        samples.push(Sample::new(format!("bytes_after_{more}"), journal));
    }
}

/// Nothing, bytes of no meaning, and blocks of zeros with and without check.
fn no_journals(rng: &mut Rng, samples: &mut Vec<Sample>) {
    for length in [0, 1, 511, 512, 513, 1_024, 5_000] {
        let journal = rng.bytes(length);
        samples.push(Sample::new(format!("random_{length}"), journal));
        samples.push(Sample::new(format!("zeros_{length}"), vec![0; length]));
        samples.push(Sample::new(format!("ones_{length}"), vec![255; length]));
    }
    let sealed_zeros = any_block(0, 0, 0, &[]);
    samples.push(Sample::new("sealed_zeros", join(&[sealed_zeros; 3])));
}

pub fn seeded(rng: &mut Rng) -> Vec<u8> {
    let mut blocks = random_blocks(rng);
    match rng.below(8) {
        0 => {
            let journal = join(&blocks);
            let length = rng.index(journal.len() + 1);
            journal[..length].to_vec()
        }
        1 => {
            let length = rng.index(3_000);
            rng.bytes(length)
        }
        2 => {
            rng.shuffle(&mut blocks[2..]);
            join(&numbered(&blocks))
        }
        3 => {
            let more = rng.index(1_100);
            let mut journal = join(&blocks);
            journal.extend(rng.bytes(more));
            journal
        }
        _ => {
            for _ in 0..rng.within(1, 4) {
                damage(rng, &mut blocks);
            }
            join(&blocks)
        }
    }
}

/// A journal of any opening with records of which many bytes are random.
fn random_blocks(rng: &mut Rng) -> Vec<Block> {
    let opening = maybe_charged(rng, any_opening);
    let numbers = Numbers::any(rng);
    let mut trader = Trader::new(opening, numbers, Rng::new(rng.word()));
    for _ in 0..rng.below(100) {
        let ledger = trader.some_ledger();
        let record = trader.lawful(ledger);
        let mut bytes: Bytes = record.unwrap_or(trader.aimless(ledger)).bytes();
        if rng.chance(1, 6) {
            let place = rng.index(RECORD);
            bytes[place] = rng.byte();
        }
        trader.hand_in(bytes);
    }
    split(&trader.journal())
}

/// Some bytes of a block are changed; mostly the check is computed anew.
fn damage(rng: &mut Rng, blocks: &mut [Block]) {
    let at = rng.index(blocks.len());
    let block = &mut blocks[at];
    let limit = rng.pick(&[8, ITEMS, CHECK, CHECK, BLOCK]);
    for _ in 0..rng.within(1, 3) {
        let place = rng.index(limit);
        block[place] = match rng.below(3) {
            0 => block[place] ^ (1 << rng.below(8)),
            1 => rng.byte(),
            _ => rng.pick(&[0, 1, 2, 3, 13, 14, 15, 56, 57, 255]),
        };
    }
    if rng.chance(5, 6) {
        seal(block);
    }
}
