//! Blocks and journals: written and read again, judged, cut off, damaged.

use std::io::{self, Read};

use second_validator::answer::Answer::{self, Passed};
use second_validator::charge::Charge;
use second_validator::journal::{
    judge_block, judge_place, part, seal, write_block, BLOCK, FULL, LAST_BLOCK,
};
use second_validator::listing::{list, listing};
use second_validator::record::Ledger::{Far, Home};
use second_validator::runner::build::{
    any_block, join, journal, local, split, stake_bytes, Block, Bytes, Opening,
};
use second_validator::runner::rng::Rng;

const HEADER: &str = "record number answer home far flight\n";

fn refused(number: u8, place: u64) -> Answer {
    Answer::Refused { number, place }
}

fn records(count: u64) -> Vec<Bytes> {
    (0..count)
        .map(|number| local(Home, 0, 1, number, 1).bytes())
        .collect()
}

/// A sound journal of the cases' opening.
fn blocks(count: u64) -> Vec<Block> {
    split(&journal(&Opening::of_cases(), &records(count)))
}

fn lines(journal: &[u8]) -> Vec<String> {
    let text = String::from_utf8(listing(journal)).unwrap();
    assert!(text.ends_with('\n') && text.starts_with(HEADER));
    text.lines().map(str::to_string).collect()
}

fn last_line(journal: &[u8]) -> String {
    lines(journal).pop().unwrap()
}

#[test]
fn layout_of_a_block() {
    let block = blocks(15)[3];
    assert_eq!(block[..6], [0, 0, 0, 3, 3, 1]);
    assert!(block[6..32].iter().all(|&byte| byte == 0));
    assert_eq!(block[32..64], records(15)[14]);
    assert!(block[64..480].iter().all(|&byte| byte == 0));
    let check = second_validator::sha256::digest(&block[..480]);
    assert_eq!(block[480..], check);
    let stakes = blocks(0)[0];
    assert_eq!(stakes[..6], [0, 0, 0, 0, 1, 2]);
    assert_eq!(stakes[32..48], stake_bytes(&[100, 50]));
}

#[test]
fn written_blocks_read_again() {
    let mut rng = Rng::new(3);
    for number in [2, 3, 255, 256, 65_534, LAST_BLOCK] {
        for count in 1..=FULL {
            let items = rng.bytes(32 * count);
            let mut block = [7; BLOCK];
            assert_eq!(
                write_block(number, 3, Charge::NONE, &items, &mut block),
                Passed
            );
            assert_eq!(judge_block(&block, number, 14), Passed);
            for place in 0..count {
                let wanted = &items[32 * place..32 * place + 32];
                assert_eq!(judge_place(&block, number, 14, place as u64), Passed);
                assert_eq!(part(&block, number, 14, place as u64), wanted);
            }
            for place in [count as u64, 14, 255, u64::MAX] {
                let answer = judge_place(&block, number, 14, place);
                assert_eq!(answer, refused(4, number));
                assert!(part(&block, number, 14, place).is_empty());
            }
        }
    }
}

#[test]
fn part_makes_no_copy() {
    let block = blocks(3)[2];
    let piece = part(&block, 2, 0, 1);
    assert_eq!(piece.as_ptr(), block[64..].as_ptr());
}

#[test]
fn stakes_blocks_have_no_records() {
    let blocks = blocks(0);
    for (number, block) in (0..).zip(&blocks) {
        assert_eq!(judge_block(block, number, 0), Passed);
        for place in [0, 1, 13] {
            assert_eq!(judge_place(block, number, 0, place), refused(4, number));
            assert!(part(block, number, 0, place).is_empty());
        }
    }
}

#[test]
fn refusal_4_of_the_writer() {
    let item = records(1)[0];
    let full = records(14).concat();
    let mut output = [9; BLOCK];
    let attempts: [(u64, u8, &[u8]); 12] = [
        (2, 3, &[]),
        (2, 3, &item[..31]),
        (2, 3, &full[..447]),
        (0, 1, &[]),
        (0, 1, &full[..7]),
        (0, 1, &[0; 456]),
        (2, 3, &[0; 480]),
        (0, 2, &full[..8]),
        (1, 1, &full[..8]),
        (2, 1, &full[..8]),
        (1, 3, &item),
        (LAST_BLOCK + 1, 3, &item),
    ];
    for (number, kind, items) in attempts {
        let answer = write_block(number, kind, Charge::NONE, items, &mut output);
        assert_eq!(answer, refused(4, number));
        assert_eq!(output, [9; BLOCK]);
    }
    for kind in [0, 4, 255] {
        assert_eq!(
            write_block(2, kind, Charge::NONE, &item, &mut output),
            refused(4, 2)
        );
    }
    for length in [0, 511, 513] {
        let mut output = vec![9; length];
        assert_eq!(
            write_block(2, 3, Charge::NONE, &item, &mut output),
            refused(4, 2)
        );
        assert_eq!(output, vec![9; length]);
    }
    assert_eq!(write_block(0, 1, Charge::NONE, &full, &mut output), Passed);
    assert_eq!(
        write_block(1, 2, Charge::NONE, &full[..8], &mut output),
        Passed
    );
    assert_eq!(write_block(2, 3, Charge::NONE, &full, &mut output), Passed);
}

#[test]
fn refusal_11_missing_and_lengths() {
    let block = blocks(3)[2];
    assert_eq!(judge_block(&[], 2, 0), refused(11, 2));
    assert_eq!(judge_block(&block[..511], 2, 0), refused(11, 2));
    let long = [&block[..], &[0]].concat();
    assert_eq!(judge_block(&long, 2, 0), refused(11, 2));
    let last = any_block(65_535, 3, 1, &records(1)[0]);
    assert_eq!(judge_block(&last, 65_535, 14), Passed);
    let beyond = any_block(65_536, 3, 1, &records(1)[0]);
    assert_eq!(judge_block(&beyond, 65_536, 14), refused(11, 65_536));
    assert!(part(&beyond, 65_536, 14, 0).is_empty());
    let far = u64::MAX;
    assert_eq!(judge_block(&beyond, far, 14), refused(11, far));
}

#[test]
fn refusals_12_13_14_in_order() {
    let mut block = blocks(17)[3];
    assert_eq!(judge_block(&block, 3, 14), Passed);
    assert_eq!(judge_block(&block, 3, 13), refused(14, 3));
    assert_eq!(judge_block(&block, 3, 0), refused(14, 3));
    assert_eq!(judge_block(&block, 4, 13), refused(13, 4));
    assert_eq!(judge_block(&block[..500], 4, 13), refused(11, 4));
    block[4] = 2;
    assert_eq!(judge_block(&block, 4, 13), refused(12, 4));
    assert_eq!(judge_place(&block, 4, 13, 99), refused(12, 4));
    seal(&mut block);
    assert_eq!(judge_block(&block, 4, 14), refused(13, 4));
    assert_eq!(judge_block(&block, 3, 14), refused(14, 3));
}

#[test]
fn told_count_is_looked_at_from_block_3_on() {
    let blocks = blocks(40);
    for (number, block) in (0..).zip(&blocks) {
        let short = judge_block(block, number, 0);
        let expected = if number < 3 {
            Passed
        } else {
            refused(14, number)
        };
        assert_eq!(short, expected);
        assert_eq!(judge_block(block, number, 14), Passed);
    }
}

#[test]
fn refusal_14_every_zero_byte() {
    let blocks = blocks(3);
    for (number, head, used) in [(0, 10, 16), (1, 6, 8), (2, 6, 96)] {
        for place in (head..32).chain(32 + used..480) {
            let mut block = blocks[number];
            block[place] = 1;
            seal(&mut block);
            let number = number as u64;
            assert_eq!(judge_block(&block, number, 0), refused(14, number));
        }
    }
}

#[test]
fn refusal_14_kinds_and_counts() {
    let items = [1; 448];
    for kind in 0..=255 {
        for count in 0..=255 {
            for (number, right, most) in [(0, 1, 56), (1, 2, 56), (2, 3, 14)] {
                let plausible = kind <= 4 && (count <= 16 || (54..60).contains(&count));
                if !plausible && count != 255 {
                    continue;
                }
                let length = if number == 2 { 32 } else { 8 };
                let used = (usize::from(count) * length).min(448);
                let block = any_block(number, kind, count, &items[..used]);
                let sound = kind == right && (1..=most).contains(&count);
                let number = u64::from(number);
                let expected = if sound { Passed } else { refused(14, number) };
                assert_eq!(judge_block(&block, number, 0), expected);
            }
        }
    }
}

#[test]
fn listings_of_damaged_journals() {
    let sound = blocks(33);
    assert_eq!(lines(&join(&sound)).len(), 2 + 33);
    let whole = join(&sound);
    for (length, fault, count) in [
        (0, "fault 11 0", 2),
        (511, "fault 11 0", 2),
        (512, "fault 11 1", 2),
        (1_023, "fault 11 1", 2),
        (1_025, "fault 11 2", 3),
        (1_537, "fault 11 3", 3 + 14),
    ] {
        let listed = lines(&whole[..length]);
        assert_eq!(listed.len(), count);
        assert_eq!(listed.last().unwrap(), fault);
    }
    let mut stale = sound.clone();
    stale[3][100] ^= 1;
    assert_eq!(last_line(&join(&stale)), "fault 12 3");
    assert_eq!(lines(&join(&stale)).len(), 3 + 14);
    let mut exchanged = sound.clone();
    exchanged.swap(3, 4);
    assert_eq!(last_line(&join(&exchanged)), "fault 13 3");
    let mut short = sound.clone();
    short[2][5] = 13;
    short[2][448..480].fill(0);
    seal(&mut short[2]);
    assert_eq!(last_line(&join(&short)), "fault 14 3");
    assert_eq!(lines(&join(&short)).len(), 3 + 13);
    let mut more = whole;
    more.push(0);
    assert_eq!(last_line(&more), "fault 11 5");
}

#[test]
fn refusal_2_is_told_at_block_1() {
    let above = Opening::new(&[1 << 63], &[0]);
    let bytes = journal(&above, &records(3));
    assert_eq!(lines(&bytes), [HEADER.trim_end(), "fault 2 1"]);
    // A fault of block 1 comes first, one of block 2 does not.
    let mut bad = bytes.clone();
    bad[512] = 1;
    assert_eq!(last_line(&bad), "fault 12 1");
    assert_eq!(last_line(&bytes[..512]), "fault 11 1");
    assert_eq!(last_line(&bytes[..1_030]), "fault 2 1");
}

#[test]
fn number_is_shown_even_after_21() {
    let mut record = local(Far, 0, 0, 0xfedc_ba98_7654_3210, 1).bytes();
    record[0] = 9;
    let listed = last_line(&journal(&Opening::of_cases(), &[record]));
    assert_eq!(listed, "0 fedcba9876543210 21 150 20 0");
}

#[test]
fn every_number_of_records_reads_again() {
    for count in 0..60 {
        let listed = lines(&journal(&Opening::of_cases(), &records(count)));
        assert_eq!(listed.len() as u64, 2 + count);
        for (index, line) in listed[2..].iter().enumerate() {
            assert!(line.starts_with(&format!("{index} {index:016x} 0 150 20 0")));
        }
    }
}

/// Hands out a few bytes at a time, with interruptions.
struct Trickle<'a> {
    bytes: &'a [u8],
    rng: Rng,
}

impl Read for Trickle<'_> {
    fn read(&mut self, buffer: &mut [u8]) -> io::Result<usize> {
        if self.rng.chance(1, 4) {
            return Err(io::ErrorKind::Interrupted.into());
        }
        let length = self.rng.within(1, 700) as usize;
        let length = length.min(buffer.len()).min(self.bytes.len());
        let (now, later) = self.bytes.split_at(length);
        buffer[..length].copy_from_slice(now);
        self.bytes = later;
        Ok(length)
    }
}

#[test]
fn short_reads_change_nothing() {
    let bytes = journal(&Opening::of_cases(), &records(300));
    for (seed, length) in [(1, bytes.len()), (2, bytes.len() - 1), (3, 700), (4, 0)] {
        let mut out = Vec::new();
        let trickle = Trickle {
            bytes: &bytes[..length],
            rng: Rng::new(seed),
        };
        list(trickle, &mut out).unwrap();
        assert_eq!(out, listing(&bytes[..length]));
    }
}

#[test]
fn limit_of_65_536_blocks() {
    let mut bytes = journal(&Opening::of_cases(), &[]);
    let items = records(14).concat();
    for number in 2..=LAST_BLOCK {
        let mut block = [0; BLOCK];
        write_block(number, 3, Charge::NONE, &items, &mut block);
        bytes.extend_from_slice(&block);
    }
    let listed = lines(&bytes);
    assert_eq!(listed.len(), 2 + 917_476);
    assert_eq!(
        listed.last().unwrap(),
        "917475 000000000000000d 24 150 20 0"
    );
    bytes.push(0);
    assert_eq!(last_line(&bytes), "fault 11 65536");
    bytes.pop();
    bytes.extend_from_slice(&any_block(65_536, 3, 14, &items));
    let listed = lines(&bytes);
    assert_eq!(listed.len(), 3 + 917_476);
    assert_eq!(listed.last().unwrap(), "fault 11 65536");
}
