//! The journal: blocks of 512 bytes, each with its own SHA-256 check. Block 0 holds home balances, and rate and charge account of home's
//! sendings, block 1 far balances, all others records. A journal from before there was a charge has rate 0.
//!
//! In every call `number` is that of the block that is wanted, from 0, and `before` the count of items of the block before it, which is
//! not looked at for blocks 0 to 2. The place of a refusal is `number`. A missing block is an empty one.
//!
//! ```
//! use moatbetony::journal::{self, BlockKind};
//! use moatbetony::{Kind, Ledger, PairValidator, Record, Tariff};
//!
//! // A journal with its opening, and one record.
//! let mut blocks = [[0; journal::BLOCK_SIZE]; 3];
//! let sent = Record {
//!     kind: Kind::Sending, ledger: Ledger::Home, sender: 0, receiver: 0, number: 7, amount: 30, verified: true,
//! };
//! let homes = [100u64.to_be_bytes(), 50u64.to_be_bytes()].concat();
//! let tariff = Tariff { rate: 500, charge_account: 1 };
//! journal::write_block(&mut blocks[0], 0, BlockKind::HomeBalances, tariff, &homes).into_result()?;
//! journal::write_block(&mut blocks[1], 1, BlockKind::FarBalances, tariff, &20u64.to_be_bytes()).into_result()?;
//! journal::write_block(&mut blocks[2], 2, BlockKind::Records, tariff, &sent.encode()?).into_result()?;
//!
//! // Read back, and every record checked.
//! let homes = journal::opening_balances(&blocks[0], 0, 0)?;
//! let fars = journal::opening_balances(&blocks[1], 1, 0)?;
//! let mut pair = PairValidator::open(&homes.balances, &fars.balances, homes.tariff)?;
//! let mut before = 0;
//! for (block, number) in blocks[2..].iter().zip(2..) {
//!     let count = journal::count(block, number, before)?;
//!     for place in 0..count {
//!         let record = journal::record_part(block, number, before, place)?;
//!         println!("{}", pair.take(record));
//!     }
//!     before = count;
//! }
//! assert_eq!(pair.figures()?.flight, 30);
//! assert_eq!(pair.balance(Ledger::Home, 1)?, 51);
//! # Ok::<(), moatbetony::Refusal>(())
//! ```

use crate::refusal::{value, Answer, Refusal};
use crate::{calls, Tariff};

/// The bytes of a block.
pub const BLOCK_SIZE: usize = 512;
/// The bytes of a block before its items.
pub const HEADER_SIZE: usize = 32;
/// The bytes of an opening balance in a block, highest first.
pub const BALANCE_SIZE: usize = 8;
/// The most records of a block.
pub const RECORDS_PER_BLOCK: usize = 14;
/// The most blocks of a journal.
pub const MAX_BLOCKS: u64 = 65_536;

/// What a block holds.
#[derive(Clone, Copy, Debug, PartialEq, Eq, Hash)]
pub enum BlockKind {
    /// 1 to 56 opening balances of home: block 0.
    HomeBalances,
    /// 1 to 56 opening balances of far: block 1.
    FarBalances,
    /// 1 to 14 records: all other blocks.
    Records,
}

impl BlockKind {
    /// The kind of the block with this number.
    #[must_use]
    pub fn of(number: u64) -> BlockKind {
        match number {
            0 => BlockKind::HomeBalances,
            1 => BlockKind::FarBalances,
            _ => BlockKind::Records,
        }
    }

    /// Its byte in a block: 1, 2 or 3.
    #[must_use]
    pub fn byte(self) -> u8 {
        match self {
            BlockKind::HomeBalances => 1,
            BlockKind::FarBalances => 2,
            BlockKind::Records => 3,
        }
    }
}

/// What block 0 or 1 holds.
#[derive(Clone, Debug, PartialEq, Eq, Hash)]
pub struct Opening {
    /// The balances of the block's ledger, one for each account from 0.
    pub balances: Vec<u64>,
    /// The charge on home's sendings in block 0; in block 1 [`Tariff::FREE`].
    pub tariff: Tariff,
}

/// Judges a block, and not the records in it. Refusals, in order: 11, 12, 13, 14, of block 0 then 52.
pub fn judge(block: &[u8], number: u64, before: u64) -> Answer {
    Answer::of(calls::block_judge(block, number, before))
}

/// Judges a block and the place, from 0, at which a record of it is wanted. Refusals, in order: 11, 12, 13, 14, 52, 4.
pub fn judge_record(block: &[u8], number: u64, before: u64, place: u64) -> Answer {
    Answer::of(calls::block_judge_record(block, number, before, place))
}

/// The record at a place: that part of the block, and no copy.
///
/// # Errors
///
/// As [`judge_record`].
pub fn record_part(block: &[u8], number: u64, before: u64, place: u64) -> Result<&[u8], Refusal> {
    let told = calls::block_record(block, number, before, place);
    value(told.answer, ())?;
    Ok(&block[told.start..][..told.length])
}

/// How many items a block holds: `before` of the next one.
///
/// # Errors
///
/// As [`judge`].
pub fn count(block: &[u8], number: u64, before: u64) -> Result<u64, Refusal> {
    let told = calls::block_count(block, number, before);
    value(told.answer, told.count)
}

/// The opening balances in block 0 or 1, and in block 0 the charge on home's sendings.
///
/// # Errors
///
/// As [`judge`], then [`Refusal::BlockRequest`] where `number` is 2 or more.
pub fn opening_balances(block: &[u8], number: u64, before: u64) -> Result<Opening, Refusal> {
    let told = calls::block_balances(block, number, before);
    value(told.answer, ())?;
    let balances = told.balances.iter().zip(0..told.count).map(|(&balance, _)| balance).collect();
    Ok(Opening { balances, tariff: Tariff { rate: told.rate, charge_account: told.charge_account } })
}

/// Writes block `number` of a kind into 512 bytes: balances of 8 bytes, or records of 32, which are not judged. The tariff is looked at
/// and written for block 0 alone. Refusal 4, also where 52 would refuse the block, leaves the output as it came.
pub fn write_block(out: &mut [u8], number: u64, kind: BlockKind, tariff: Tariff, items: &[u8]) -> Answer {
    Answer::of(calls::block_write(out, number, kind.byte(), tariff, items))
}
