//! Long journals: several thousand blocks; in long runs also the limit of
//! 65,536 blocks, and one byte and one block more.

use super::{Family, Sample};
use crate::charge::Charge;
use crate::journal::{seal, BLOCK, FULL};
use crate::record::RECORD;
use crate::runner::build::any_block;
use crate::runner::full::{self, Fill, MOST_BLOCKS};

#[derive(Clone, Copy, Debug)]
enum Shape {
    Blocks(usize),
    /// The last block has fewer records.
    LastShort(usize),
    /// As many blocks as there may be, and one byte more.
    ByteMore,
    /// As many blocks as there may be, and one block more.
    BlockMore,
    /// One byte is missing at the end.
    ByteLess,
    /// A bit of the last block is wrong.
    LastDamaged,
}

/// The charges of some of them.
const CHARGES: [Charge; 2] = [Charge::new(50, 55), Charge::new(10_000, 3)];

pub struct Long {
    seed: u64,
    shapes: Vec<(Shape, Fill, Charge)>,
}

impl Long {
    pub fn new(seed: u64, whole: bool) -> Long {
        let mut shapes = vec![
            (Shape::Blocks(2_500), Fill::Early, Charge::NONE),
            (Shape::Blocks(4_000), Fill::Late, CHARGES[0]),
            (Shape::LastShort(3_000), Fill::Early, CHARGES[1]),
            (Shape::LastShort(5_000), Fill::Late, Charge::NONE),
        ];
        if whole {
            shapes.extend([
                (Shape::Blocks(MOST_BLOCKS), Fill::Early, CHARGES[0]),
                (Shape::Blocks(MOST_BLOCKS), Fill::Late, Charge::NONE),
                (Shape::LastShort(MOST_BLOCKS), Fill::Late, CHARGES[1]),
                (Shape::ByteMore, Fill::Early, Charge::NONE),
                (Shape::BlockMore, Fill::Late, CHARGES[0]),
                (Shape::ByteLess, Fill::Early, Charge::NONE),
                (Shape::LastDamaged, Fill::Late, CHARGES[1]),
            ]);
        }
        Long { seed, shapes }
    }
}

impl Family for Long {
    fn name(&self) -> &str {
        "long"
    }

    fn count(&self) -> usize {
        self.shapes.len()
    }

    fn sample(&self, index: usize) -> Sample {
        let (shape, fill, charge) = self.shapes[index];
        let name = format!("{index}_{fill:?}").to_lowercase();
        Sample::new(name, journal(self.seed, shape, fill, charge))
    }

    /// These journals are large: one at a time.
    fn workers(&self) -> usize {
        1
    }
}

fn journal(seed: u64, shape: Shape, fill: Fill, charge: Charge) -> Vec<u8> {
    let whole = |blocks| full::journal(seed, fill, charge, blocks);
    match shape {
        Shape::Blocks(blocks) => whole(blocks),
        Shape::LastShort(blocks) => {
            let mut bytes = whole(blocks);
            shorten_last(&mut bytes);
            bytes
        }
        Shape::ByteMore => {
            let mut bytes = whole(MOST_BLOCKS);
            bytes.push(0);
            bytes
        }
        Shape::BlockMore => {
            let mut bytes = whole(MOST_BLOCKS);
            let last = bytes.len() - BLOCK;
            let items = bytes[last + 32..last + 480].to_vec();
            let more = any_block(MOST_BLOCKS as u32, 3, FULL as u8, &items);
            bytes.extend_from_slice(&more);
            bytes
        }
        Shape::ByteLess => {
            let mut bytes = whole(MOST_BLOCKS);
            bytes.pop();
            bytes
        }
        Shape::LastDamaged => {
            let mut bytes = whole(MOST_BLOCKS);
            let place = bytes.len() - 200;
            bytes[place] ^= 1;
            bytes
        }
    }
}

/// Leaves the last block 3 records.
fn shorten_last(bytes: &mut [u8]) {
    let last = bytes.len() - BLOCK;
    let block = &mut bytes[last..];
    block[5] = 3;
    block[32 + 3 * RECORD..480].fill(0);
    seal(block);
}
