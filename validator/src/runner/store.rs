//! A small set of stored journals with their listings: the same bytes each
//! time, one for every refusal that a journal can bring about, and some of more
//! than a hundred blocks.

use std::fs;
use std::io;
use std::path::Path;

use super::build::{
    any_block, arrival, join, journal, local, sending, split, stake_bytes, Block, Bytes, Opening,
    AMOUNT, RESERVED, VERDICT,
};
use super::families::damage::sound_blocks;
use super::families::full_tables::{case_13, filled_journal, Filled};
use super::families::honest::sample_records;
use super::families::Sample;
use super::rng::Rng;
use super::stored_charges;
use super::stored_classes;
use super::stored_long::Long;
use super::trader::{rich_opening, Numbers, Sharing, Trader};
use crate::charge::Charge;
use crate::journal::{seal, BLOCK, CHECK, FULL};
use crate::listing::listing;
use crate::record::Ledger::{self, Far, Home};
use crate::record::{Kind, Record, MAX_AMOUNT};
use crate::rules::MAX_ACCOUNTS;

/// Writes `NAME.journal` and `NAME.listing` for each stored journal.
pub fn write(folder: &Path) -> io::Result<()> {
    fs::create_dir_all(folder)?;
    for sample in samples() {
        let file = |kind: &str| folder.join(format!("{}.{kind}", sample.name));
        fs::write(file("journal"), &sample.journal)?;
        fs::write(file("listing"), listing(&sample.journal))?;
    }
    Ok(())
}

/// The stored journals.
pub fn samples() -> Vec<Sample> {
    let mut samples = Vec::new();
    push_honest(&mut samples);
    push_openings(&mut samples);
    push_blocks(&mut samples);
    push_records(&mut samples);
    push_tables(&mut samples);
    push_long(&mut samples);
    samples.extend(stored_classes::samples());
    samples.extend(stored_charges::samples());
    samples
}

fn push(samples: &mut Vec<Sample>, name: &str, journal: Vec<u8>) {
    samples.push(Sample::new(name, journal));
}

fn of_cases(records: &[Record]) -> Vec<u8> {
    let bytes: Vec<Bytes> = records.iter().map(Record::bytes).collect();
    journal(&Opening::of_cases(), &bytes)
}

fn push_honest(samples: &mut Vec<Sample>) {
    let cases = Opening::of_cases();
    push(samples, "sample", journal(&cases, &sample_records()));
    push(samples, "no_records", journal(&cases, &[]));
    push(
        samples,
        "honest_both_ways",
        traded(&[900, 40, 0], &[70], 40),
    );
    push(samples, "honest_one_account_each", traded(&[50], &[60], 14));
    let large = vec![1 << 50; MAX_ACCOUNTS];
    push(samples, "honest_56_accounts", traded(&large, &large, 100));
    push(samples, "honest_whole_total", whole_total());
    push(samples, "honest_same_number", same_number());
    push(samples, "honest_number_zero", number_zero());
    push(samples, "honest_self_transfer", self_transfer());
}

/// Lawful records on an opening.
fn traded(home: &[u64], far: &[u64], records: usize) -> Vec<u8> {
    let opening = Opening::new(home, far);
    let mut trader = Trader::new(opening, Numbers::Random, Rng::new(records as u64));
    while trader.records.len() < records {
        let ledger = trader.some_ledger();
        if let Some(record) = trader.lawful(ledger) {
            trader.hand_in(record.bytes());
        }
    }
    trader.journal()
}

/// All of 2^63-1 goes to the far ledger and back.
fn whole_total() -> Vec<u8> {
    let all = MAX_AMOUNT;
    let over = sending(Home, 0, 0, u64::MAX, all);
    let back = sending(Far, 0, 0, 1 << 63, all);
    let records = [over, over.matching_arrival(), back, back.matching_arrival()];
    let bytes: Vec<Bytes> = records.iter().map(Record::bytes).collect();
    journal(&Opening::new(&[all], &[0]), &bytes)
}

/// The same number on both ledgers; a far local strands no arrival.
fn same_number() -> Vec<u8> {
    let over = sending(Home, 0, 0, 7, 30);
    let back = sending(Far, 0, 1, 8, 5);
    of_cases(&[
        local(Home, 0, 1, 6, 1),
        local(Far, 0, 0, 6, 1),
        over,
        local(Far, 0, 0, 7, 1),
        over.matching_arrival(),
        back,
        sending(Home, 0, 0, 8, 5),
        back.matching_arrival(),
        arrival(Far, 0, 0, 8, 5),
    ])
}

fn number_zero() -> Vec<u8> {
    let over = sending(Home, 0, 0, 0, 1);
    of_cases(&[
        arrival(Far, 0, 0, 0, 1),
        over,
        over,
        over.matching_arrival(),
        over.matching_arrival(),
        local(Home, 0, 0, 0, 1),
    ])
}

fn self_transfer() -> Vec<u8> {
    of_cases(&[
        local(Home, 0, 0, 1, 100),
        local(Home, 0, 0, 2, 101),
        local(Home, 0, 1, 3, 100),
        local(Home, 1, 1, 4, 150),
        local(Home, 1, 1, 5, 151),
        local(Home, 0, 0, 6, 1),
    ])
}

fn push_openings(samples: &mut Vec<Sample>) {
    let opened = |home: &[u64], far: &[u64]| {
        let record = local(Home, 0, 0, 1, 1);
        journal(&Opening::new(home, far), &[record.bytes()])
    };
    push(samples, "total_at_limit", opened(&[MAX_AMOUNT, 0], &[0]));
    push(samples, "refusal_02_by_one", opened(&[MAX_AMOUNT], &[1]));
    push(samples, "refusal_02_one_stake", opened(&[1], &[u64::MAX]));
    let wraps = opened(&[1 << 63, 1 << 63], &[5]);
    push(samples, "refusal_02_sum_wraps", wraps);
    let mut late = opened(&[MAX_AMOUNT], &[1]);
    late[2 * BLOCK] ^= 1;
    push(samples, "refusal_02_before_bad_block_2", late);
    for (name, blocks) in [
        ("case_14_57_home", [(1, 57), (2, 1)]),
        ("case_14_57_far", [(1, 56), (2, 57)]),
        ("refusal_14_no_home_account", [(1, 0), (2, 1)]),
        ("refusal_14_no_far_account", [(1, 1), (2, 0)]),
    ] {
        push(samples, name, counted(blocks));
    }
}

/// Two stakes blocks with told counts.
fn counted(blocks: [(u8, u8); 2]) -> Vec<u8> {
    let block = |number: u32, (kind, count): (u8, u8)| {
        let stakes = vec![9; usize::from(count).min(MAX_ACCOUNTS)];
        any_block(number, kind, count, &stake_bytes(&stakes))
    };
    join(&[block(0, blocks[0]), block(1, blocks[1])])
}

fn push_blocks(samples: &mut Vec<Sample>) {
    let opening = Opening::new(&[1_000, 500, 70], &[800, 90]);
    let sound = sound_blocks(&mut Rng::new(5), opening, 2 * FULL + 5);
    let whole = join(&sound);
    push(samples, "five_sound_blocks", whole.clone());
    push(samples, "empty", Vec::new());
    for (name, length) in [
        ("refusal_11_block_0_cut_off", 511),
        ("refusal_11_block_1_missing", 512),
        ("refusal_11_block_1_cut_off", 700),
        ("refusal_11_block_2_cut_off", 1_025),
        ("refusal_11_last_cut_off", 5 * BLOCK - 1),
    ] {
        push(samples, name, whole[..length].to_vec());
    }
    let mut more = whole.clone();
    more.push(0);
    push(samples, "refusal_11_byte_after", more);
    let mut more = whole;
    more.resize(6 * BLOCK, 0);
    push(samples, "refusal_12_zeros_after", more);
    push_changed(samples, &sound);
    push_moved(samples, &sound);
}

/// What is changed: the block, the byte, its new value, check anew or not.
type Change = (&'static str, usize, usize, u8, bool);

const CHANGES: [Change; 17] = [
    ("refusal_12_block_0", 0, 40, 77, false),
    ("refusal_12_block_1", 1, 40, 77, false),
    ("refusal_12_block_2", 2, 50, 77, false),
    ("refusal_12_last_block", 4, 479, 1, false),
    ("refusal_12_check_itself", 3, 511, 0, false),
    ("refusal_13_block_0", 0, 3, 1, true),
    ("refusal_13_block_1", 1, 0, 1, true),
    ("refusal_13_block_3", 3, 3, 4, true),
    ("refusal_14_home_kind", 0, 4, 2, true),
    ("refusal_14_far_kind", 1, 4, 1, true),
    ("refusal_14_records_kind", 2, 4, 4, true),
    ("refusal_14_count_0", 4, 5, 0, true),
    ("refusal_14_count_15", 2, 5, 15, true),
    ("refusal_14_count_below_items", 3, 5, 13, true),
    ("refusal_14_reserved_byte", 2, 31, 1, true),
    ("refusal_14_padding_first_byte", 4, 32 + 5 * 32, 1, true),
    ("refusal_14_padding_stakes", 1, 479, 1, true),
];

fn push_changed(samples: &mut Vec<Sample>, sound: &[Block]) {
    for (name, at, place, value, anew) in CHANGES {
        let mut blocks = sound.to_vec();
        assert_ne!(blocks[at][place], value, "{name} changes nothing");
        blocks[at][place] = value;
        if anew {
            seal(&mut blocks[at]);
        }
        push(samples, name, join(&blocks));
    }
    // A count above the items makes records of the zeros after them.
    let mut blocks = sound.to_vec();
    blocks[4][5] = 7;
    seal(&mut blocks[4]);
    push(samples, "zeros_read_as_records", join(&blocks));
}

fn push_moved(samples: &mut Vec<Sample>, sound: &[Block]) {
    let mut exchanged = sound.to_vec();
    exchanged.swap(2, 3);
    push(samples, "refusal_13_exchanged", join(&exchanged));
    let mut short = sound.to_vec();
    short[2][5] = 13;
    short[2][CHECK - 32..CHECK].fill(0);
    seal(&mut short[2]);
    push(samples, "refusal_14_follows_short", join(&short));
    short[3][3] = 9;
    seal(&mut short[3]);
    push(samples, "refusal_13_before_follows_short", join(&short));
}

fn push_records(samples: &mut Vec<Sample>) {
    push(samples, "refusal_21", wrong_forms());
    push(samples, "refusal_22", wrong_accounts());
    push(samples, "refusal_23", bad_verdicts());
    push(samples, "refusal_24", used_numbers());
    push(samples, "refusal_25", small_balances());
    push(samples, "refusal_31", unmatched_arrivals());
    let (more, fewer) = ([100, 50, 30, 7], [40, 20]);
    push(samples, "refusal_51", absent_accounts(&more, &fewer));
    let far_larger = absent_accounts(&fewer, &more);
    push(samples, "refusal_51_far_larger", far_larger);
    push(samples, "order_of_refusals", several_faults());
    push(samples, "order_of_51", beside_an_absent_receiver());
}

/// Each field that can be wrong by itself, between two records that pass.
fn wrong_forms() -> Vec<u8> {
    let sound = local(Home, 0, 1, 0x0123_4567_89ab_cdef, 1);
    let mut changes: Vec<(usize, u8)> = vec![(0, 0), (0, 4), (0, 255), (1, 2), (1, 255)];
    changes.extend([
        (VERDICT, 2),
        (VERDICT, 255),
        (AMOUNT + 7, 0),
        (AMOUNT, 0x80),
    ]);
    changes.extend(RESERVED.map(|place| (place, 1)));
    let mut records: Vec<Bytes> = vec![local(Home, 0, 1, 1, 1).bytes()];
    for (place, value) in changes {
        let mut bytes = sound.bytes();
        bytes[place] = value;
        records.push(bytes);
    }
    records.push([255; 32]);
    records.push([0; 32]);
    records.push(sound.bytes());
    journal(&Opening::of_cases(), &records)
}

/// Accounts that are open on one ledger only: home has 0 and 1, far has 0. The
/// sender's is wrong (22), the receiver's (51) or both (22).
fn wrong_accounts() -> Vec<u8> {
    of_cases(&[
        local(Home, 2, 0, 1, 1),
        local(Home, 0, 2, 2, 1),
        local(Far, 1, 0, 3, 1),
        local(Far, 0, 1, 4, 1),
        sending(Home, 2, 0, 5, 1),
        sending(Home, 1, 1, 6, 1),
        sending(Far, 1, 1, 7, 1),
        sending(Far, 0, 2, 8, 1),
        arrival(Home, 1, 0, 9, 1),
        arrival(Home, 0, 2, 10, 1),
        arrival(Far, 2, 0, 11, 1),
        arrival(Far, 0, 1, 12, 1),
        local(Home, 256, 0, 13, 1),
        local(Home, 0, 65_535, 14, 1),
        local(Home, 55, 0, 15, 1),
        sending(Home, 1, 0, 16, 1),
        sending(Far, 0, 1, 17, 1),
    ])
}

fn bad_verdicts() -> Vec<u8> {
    let bad = |record: Record| Record {
        good: false,
        ..record
    };
    let over = sending(Home, 0, 0, 7, 30);
    of_cases(&[
        bad(local(Home, 0, 1, 1, 1)),
        bad(over),
        over,
        bad(over),
        bad(over.matching_arrival()),
        over.matching_arrival(),
    ])
}

/// A number is used by a local or a sending alike, and apart from these by an
/// arrival.
fn used_numbers() -> Vec<u8> {
    let over = sending(Home, 0, 0, 2, 30);
    of_cases(&[
        local(Home, 0, 1, 1, 1),
        local(Home, 0, 1, 1, 1),
        sending(Home, 0, 0, 1, 1),
        arrival(Home, 0, 0, 1, 1),
        over,
        local(Home, 0, 1, 2, 1),
        over.matching_arrival(),
        over.matching_arrival(),
        local(Far, 0, 0, 2, 1),
        sending(Far, 0, 0, 2, 1),
        local(Far, 0, 0, 1, 1),
    ])
}

fn small_balances() -> Vec<u8> {
    of_cases(&[
        local(Home, 1, 0, 1, 51),
        local(Home, 1, 0, 1, 50),
        local(Home, 1, 0, 2, 1),
        local(Home, 0, 0, 3, MAX_AMOUNT),
        sending(Home, 0, 0, 4, 151),
        sending(Home, 0, 0, 4, 150),
        sending(Far, 0, 1, 4, 21),
        sending(Far, 0, 1, 5, 20),
        local(Far, 0, 0, 6, 1),
    ])
}

/// Arrivals that agree with a sending in all but one thing.
fn unmatched_arrivals() -> Vec<u8> {
    let over = sending(Home, 1, 0, 7, 30);
    let right = over.matching_arrival();
    let mut records = vec![right, over];
    for amount in [29, 31] {
        records.push(Record { amount, ..right });
    }
    for number in [6, 8, 7 | 1 << 8, 7 | 1 << 32, 7 | 1 << 63] {
        records.push(Record { number, ..right });
    }
    records.push(Record { sender: 0, ..right });
    records.push(Record {
        receiver: 1,
        ..right
    });
    records.extend([
        arrival(Home, 0, 1, 9, 5),
        local(Home, 0, 1, 10, 2),
        arrival(Far, 0, 1, 10, 2),
        right,
        right,
    ]);
    let bytes: Vec<Bytes> = records.iter().map(Record::bytes).collect();
    journal(&Opening::new(&[100, 50], &[20, 4]), &bytes)
}

/// For each kind on each ledger a record that passes, and before it the same
/// with accounts that are not open: the receiver's alone (51), the sender's
/// alone (22), both (22).
fn absent_accounts(home: &[u64], far: &[u64]) -> Vec<u8> {
    let counts = [home.len() as u16, far.len() as u16];
    let mut records = vec![local(Home, 0, 0, 1, 1)];
    for kind in [Kind::Local, Kind::Sending, Kind::Arrival] {
        for ledger in Ledger::BOTH {
            let record = between_last_accounts(kind(ledger), counts);
            let senders = not_open(record.sender_ledger(), counts);
            let receivers = not_open(record.receiver_ledger(), counts);
            records.extend(receivers.map(|receiver| Record { receiver, ..record }));
            records.extend(senders.map(|sender| Record { sender, ..record }));
            records.extend(senders.into_iter().zip(receivers).map(|both| Record {
                sender: both.0,
                receiver: both.1,
                ..record
            }));
            records.push(record);
        }
    }
    let bytes: Vec<Bytes> = records.iter().map(Record::bytes).collect();
    journal(&Opening::new(home, far), &bytes)
}

/// A record between the last accounts of its two ledgers. A sending and its
/// arrival have one number.
fn between_last_accounts(kind: Kind, counts: [u16; 2]) -> Record {
    let mut record = Record {
        kind,
        sender: 0,
        receiver: 0,
        number: 9,
        amount: 5,
        good: true,
    };
    let [from, to] = [record.sender_ledger(), record.receiver_ledger()];
    record.sender = counts[from.index()] - 1;
    record.receiver = counts[to.index()] - 1;
    if from != to {
        record.number = 7 + u64::from(from.byte());
    }
    record
}

/// Accounts that are not open on a ledger: the first beyond, one more that is
/// open on the other ledger if that is larger, one with an open low byte, and
/// the highest.
fn not_open(ledger: Ledger, counts: [u16; 2]) -> [u16; 4] {
    let count = counts[ledger.index()];
    let last = counts[ledger.other().index()] - 1;
    [count, last.max(count + 1), 256, 65_535]
}

/// Records with more and more faults, from the last in the order to the first.
fn several_faults() -> Vec<u8> {
    let mut records = vec![
        local(Home, 0, 1, 1, 1).bytes(),
        local(Far, 0, 0, 1, 1).bytes(),
    ];
    for ledger in [Home, Far] {
        for kind in [local, sending, arrival] {
            records.extend(more_and_more(ledger, kind));
        }
    }
    journal(&Opening::of_cases(), &records)
}

type Shape = fn(Ledger, u16, u16, u64, u64) -> Record;

fn more_and_more(ledger: Ledger, shape: Shape) -> [Bytes; 5] {
    let uncovered = shape(ledger, 0, 0, 2, 5_000);
    let used = Record {
        number: 1,
        ..uncovered
    };
    let unsigned = Record {
        good: false,
        ..used
    };
    let absent = Record {
        receiver: 2,
        ..unsigned
    };
    let mut formless = absent.bytes();
    formless[31] = 1;
    [
        uncovered.bytes(),
        used.bytes(),
        unsigned.bytes(),
        absent.bytes(),
        formless,
    ]
}

/// A receiver's account that is not open, with each other refusal due beside
/// it, for each kind on each ledger; between any two of them a record passes.
fn beside_an_absent_receiver() -> Vec<u8> {
    let mut records = vec![
        local(Home, 0, 1, 1, 1).bytes(),
        local(Far, 0, 0, 1, 1).bytes(),
    ];
    let mut crossings = there_and_back();
    for ledger in [Home, Far] {
        for shape in [local, sending, arrival] {
            for refused in absent_with_others(ledger, shape) {
                records.push(refused);
                records.extend(crossings.next().map(|passing| passing.bytes()));
            }
        }
    }
    journal(&Opening::of_cases(), &records)
}

/// Sendings, each with its arrival after it, from home and from far in turn.
fn there_and_back() -> impl Iterator<Item = Record> {
    (1_000..).flat_map(|number| {
        let from = if number % 2 == 0 { Home } else { Far };
        let over = sending(from, 0, 0, number, 1);
        [over, over.matching_arrival()]
    })
}

/// 51 alone and with 21, 22, 23, 24, and 25 or 31 beside it, then with several
/// of them.
fn absent_with_others(ledger: Ledger, shape: Shape) -> [Bytes; 9] {
    let absent = shape(ledger, 0, 2, 2, 1);
    let with = |sender: u16, number: u64, amount: u64, good: bool| Record {
        sender,
        number,
        amount,
        good,
        ..absent
    };
    let mut formless = absent.bytes();
    formless[31] = 1;
    [
        absent.bytes(),
        formless,
        with(0, 2, 0, true).bytes(),
        with(2, 2, 1, true).bytes(),
        with(0, 2, 1, false).bytes(),
        with(0, 1, 1, true).bytes(),
        with(0, 2, 5_000, true).bytes(),
        with(0, 1, 5_000, false).bytes(),
        with(2, 1, 5_000, false).bytes(),
    ]
}

fn push_tables(samples: &mut Vec<Sample>) {
    push(samples, "case_13_home", case_13(Home));
    push(samples, "case_13_far", case_13(Far));
    let filled = Filled {
        home: 512,
        far: 512,
        sharing: Sharing::BeforeU2,
    };
    let alike = Numbers::LowBitsAlike { base: 0, shift: 32 };
    let mut rng = Rng::new(41);
    let opening = rich_opening(&mut rng);
    let both = filled_journal(&mut rng, opening, alike, filled, 60);
    push(samples, "refusal_41_both_ledgers", both);
    let last = split(&case_13(Home)).len() - 1;
    let mut damaged = case_13(Home);
    damaged[last * BLOCK + 100] ^= 1;
    push(samples, "refusal_12_after_full_table", damaged);
}

/// Journals of 130 blocks and more from before U2. Both tables fill, or one does
/// while the other has places left to the end.
fn push_long(samples: &mut Vec<Sample>) {
    let length = 128 * FULL;
    let full_last_block = Long {
        seed: 130,
        numbers: Numbers::Random,
        length,
        full_after: [length - 5 * FULL, length + 3 * FULL],
        first: Home,
        sharing: Sharing::BeforeU2,
        charge: Charge::NONE,
    };
    push(samples, "long_130_blocks", full_last_block.journal());
    let one_in_last_block = Long {
        seed: 131,
        numbers: Numbers::LowBitsAlike { base: 7, shift: 32 },
        length: length + 1,
        full_after: [length + 3 * FULL, length - 5 * FULL],
        first: Far,
        sharing: Sharing::BeforeU2,
        charge: Charge::NONE,
    };
    push(samples, "long_131_blocks", one_in_last_block.journal());
    let length = 148 * FULL;
    let longest = Long {
        seed: 150,
        numbers: Numbers::Counting(u64::MAX - 900),
        length,
        full_after: [length * 3 / 4, length + 3 * FULL],
        first: Home,
        sharing: Sharing::BeforeU2,
        charge: Charge::NONE,
    };
    let mut bad_last = longest.journal();
    *bad_last.last_mut().expect("a check") ^= 1;
    push(samples, "long_150_blocks_bad_last", bad_last);
}
