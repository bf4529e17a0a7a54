//! Paper 02, U3: the charge on leaving home, by figures worked out by hand: rules,
//! openings, states, blocks, listings and stored journals.

use second_validator::answer::Answer::{self, Passed};
use second_validator::charge::Charge;
use second_validator::guard::Guard;
use second_validator::journal::{
    block_balances, block_count, block_record, judge_block, judge_place, part, seal, write_block,
    BLOCK,
};
use second_validator::listing::listing;
use second_validator::pair::PairBook;
use second_validator::record::Ledger::{Far, Home};
use second_validator::record::{Record, MAX_AMOUNT};
use second_validator::runner::build::{
    arrival, charged_block, join, journal, lawful_block, local, sending, set_u16, split,
    stake_bytes, Block, Bytes, Opening,
};
use second_validator::runner::calls::{Oracle, Part};
use second_validator::runner::families::{self, Plan};
use second_validator::runner::store;
use second_validator::runner::trader::most_sent;
use second_validator::states::{HomeState, PairState};

const TOP: u64 = u64::MAX;

/// Rates and accounts far outside of 16 bits, right in their low bits.
const HIGH: [u64; 6] = [
    1 << 16,
    (1 << 16) + 50,
    1 << 32,
    (1 << 32) + 50,
    1 << 63,
    TOP,
];

fn refused(number: u8) -> Answer {
    refused_at(number, 0)
}

fn refused_at(number: u8, place: u64) -> Answer {
    Answer::Refused { number, place }
}

/// Home 100, 50; far 20; with a charge.
fn pair(rate: u64, account: u64) -> PairBook {
    PairBook::open(&[100, 50], &[20], Charge::new(rate, account)).unwrap()
}

fn guard(rate: u64, account: u64) -> Guard {
    Guard::open(&[100, 50], 1, 20, Charge::new(rate, account)).unwrap()
}

fn balances(book: &PairBook) -> ([u64; 2], u64) {
    let [home, far] = [0, 1].map(|side| book.sides[side].balances);
    ([home[0], home[1]], far[0])
}

#[test]
fn case_1_and_2_with_a_charge() {
    // 30 at 1,000 ten-thousandths pay 3 to account 1.
    let over = sending(Home, 0, 0, 7, 30);
    let mut book = pair(1_000, 1);
    assert_eq!(book.call(&over.bytes()), Passed);
    assert_eq!(balances(&book), ([67, 53], 20));
    assert_eq!(book.in_flight(), 30);
    assert_eq!(book.stake, 170);
    // The amount arrives, not the charge.
    for amount in [27, 33] {
        let wrong = arrival(Far, 0, 0, 7, amount);
        assert_eq!(book.call(&wrong.bytes()), refused(31));
    }
    assert_eq!(book.call(&over.matching_arrival().bytes()), Passed);
    assert_eq!(balances(&book), ([67, 53], 50));
    assert_eq!(book.in_flight(), 0);
    let mut guard = guard(1_000, 1);
    assert_eq!(guard.call(&over.bytes()), Passed);
    assert_eq!(guard.home.balances[..2], [67, 53]);
    assert_eq!((guard.home_total(), guard.far_due), (120, 50));
    let back = |amount| arrival(Home, 0, 0, 8, amount).bytes();
    assert_eq!(guard.call(&back(51)), refused(32));
    assert_eq!(guard.call(&back(50)), Passed);
    assert_eq!((guard.home.balances[0], guard.far_due), (117, 0));
}

#[test]
fn amount_plus_charge_decides_25() {
    // At 2,500: 80 pay 20, 81 pay 20 too, which is 101.
    for (amount, answer) in [(80, Passed), (81, refused(25)), (100, refused(25))] {
        let record = sending(Home, 0, 0, 1, amount).bytes();
        assert_eq!(pair(2_500, 1).call(&record), answer, "{amount}");
        assert_eq!(guard(2_500, 1).call(&record), answer, "{amount}");
    }
    // At 50: 99 pay nothing, 100 pay nothing, 199 would too.
    for (amount, answer) in [(99, Passed), (100, Passed), (101, refused(25))] {
        let record = sending(Home, 0, 0, 1, amount).bytes();
        assert_eq!(pair(50, 1).call(&record), answer, "{amount}");
    }
    // At 10,000 a sending costs twice its amount, at 9,999 one less.
    for (rate, amount, left) in [(10_000, 50, 0), (9_999, 50, 1)] {
        let mut book = pair(rate, 1);
        assert_eq!(book.call(&sending(Home, 0, 0, 1, 51).bytes()), refused(25));
        assert_eq!(book.call(&sending(Home, 0, 0, 1, amount).bytes()), Passed);
        assert_eq!(balances(&book), ([left, 100 - left], 20));
    }
}

#[test]
fn sender_is_the_charge_account() {
    // 80 and 20 leave account 0, then 20 come back.
    let mut book = pair(2_500, 0);
    assert_eq!(book.call(&sending(Home, 0, 0, 1, 81).bytes()), refused(25));
    assert_eq!(book.call(&sending(Home, 0, 0, 1, 80).bytes()), Passed);
    assert_eq!(balances(&book), ([20, 50], 20));
    let mut guard = guard(2_500, 0);
    assert_eq!(guard.call(&sending(Home, 0, 0, 1, 81).bytes()), refused(25));
    assert_eq!(guard.call(&sending(Home, 0, 0, 1, 80).bytes()), Passed);
    assert_eq!(guard.home.balances[..2], [20, 50]);
    assert_eq!(guard.far_due, 100);
}

#[test]
fn others_pay_nothing() {
    let mut book = pair(10_000, 1);
    for (record, after) in [
        (local(Home, 0, 1, 1, 100), ([0, 150], 20)),
        (local(Home, 1, 0, 2, 150), ([150, 0], 20)),
        (local(Home, 0, 0, 3, 150), ([150, 0], 20)),
        (local(Far, 0, 0, 1, 20), ([150, 0], 20)),
        (sending(Far, 0, 0, 2, 20), ([150, 0], 0)),
        (arrival(Home, 0, 0, 2, 20), ([170, 0], 0)),
        (sending(Home, 0, 0, 4, 85), ([0, 85], 0)),
        (arrival(Far, 0, 0, 4, 85), ([0, 85], 85)),
    ] {
        assert_eq!(book.call(&record.bytes()), Passed, "{record:?}");
        assert_eq!(balances(&book), after, "{record:?}");
        assert!(book.accepted());
    }
}

#[test]
fn order_around_25() {
    // 67 at 5,000 cost 100: each earlier refusal comes first, 41 after.
    let short = sending(Home, 0, 0, 1, 68);
    let with = |change: fn(Record) -> Record| change(short).bytes();
    let mut book = pair(5_000, 1);
    let mut home = guard(5_000, 1);
    for number in 2..513 {
        let record = local(Home, 1, 1, number, 1).bytes();
        assert_eq!(book.call(&record), Passed);
        assert_eq!(home.call(&record), Passed);
    }
    let tries = [
        (
            with(|record| Record {
                sender: 2,
                ..record
            }),
            22,
        ),
        (
            with(|record| Record {
                receiver: 1,
                ..record
            }),
            51,
        ),
        (
            with(|record| Record {
                good: false,
                ..record
            }),
            23,
        ),
        (
            with(|record| Record {
                number: 2,
                ..record
            }),
            24,
        ),
        (short.bytes(), 25),
        (
            with(|record| Record {
                amount: 67,
                ..record
            }),
            0,
        ),
        (
            with(|record| Record {
                number: 600,
                ..record
            }),
            25,
        ),
        (local(Home, 0, 0, 601, 1).bytes(), 25),
        (sending(Home, 1, 0, 602, 1).bytes(), 41),
        (sending(Home, 1, 0, 602, 56).bytes(), 25),
        (sending(Home, 1, 0, 602, 55).bytes(), 41),
    ];
    for (record, number) in tries {
        assert_eq!(book.call(&record).number(), number, "{record:?}");
        assert_eq!(home.call(&record).number(), number, "{record:?}");
    }
    // 50 and 33 of charge: 55 pay 27, 56 pay 28.
    assert_eq!(balances(&book).0, [0, 83]);
}

#[test]
fn charges_within_a_list() {
    // What the first one pays to account 1 is spent by the second.
    let over = sending(Home, 0, 0, 1, 60);
    let list = |amount| {
        let spent = local(Home, 1, 0, 2, amount);
        [over.bytes(), spent.bytes()].concat()
    };
    let mut book = pair(5_000, 1);
    let before = book.clone();
    assert_eq!(book.call_list(&list(81)), refused_at(25, 1));
    assert_eq!(book, before);
    assert_eq!(book.call_list(&list(80)), Passed);
    assert_eq!(balances(&book), ([90, 0], 20));
    let mut home = guard(5_000, 1);
    assert_eq!(home.call_list(&list(81)), refused_at(25, 1));
    assert_eq!(home.call_list(&list(80)), Passed);
    assert_eq!(home.home.balances[..2], [90, 0]);
}

#[test]
fn exact_near_the_limit() {
    // 2^63-1 is 922,337,203,685,477 times 10,000 and 5,807. At rate 1 the account
    // that has it all can send what with its charge comes to just that.
    let open = |rate| PairBook::open(&[MAX_AMOUNT, 0], &[0], Charge::new(rate, 1)).unwrap();
    // 9,222,449,791,875,588,249 pay 922,244,979,187,558.
    let most = 9_222_449_791_875_588_249;
    assert_eq!(most + 922_244_979_187_558, MAX_AMOUNT);
    let mut book = open(1);
    let next = sending(Home, 0, 0, 1, most + 1);
    assert_eq!(book.call(&next.bytes()), refused(25));
    assert_eq!(book.call(&sending(Home, 0, 0, 1, most).bytes()), Passed);
    assert_eq!(balances(&book).0, [0, 922_244_979_187_558]);
    assert_eq!(most_sent(Charge::new(1, 1), Home, MAX_AMOUNT), most);
    // At 10,000 half of it, at 9,999 what is left over is little.
    let half = MAX_AMOUNT / 2;
    let mut book = open(10_000);
    let next = sending(Home, 0, 0, 1, half + 1);
    assert_eq!(book.call(&next.bytes()), refused(25));
    assert_eq!(book.call(&sending(Home, 0, 0, 1, half).bytes()), Passed);
    assert_eq!(balances(&book).0, [1, half]);
    let mut book = open(9_999);
    assert_eq!(book.call(&sending(Home, 0, 0, 1, half).bytes()), Passed);
    let charge = 4_611_224_849_825_545_164;
    assert_eq!(balances(&book).0, [MAX_AMOUNT - half - charge, charge]);
    assert!(book.accepted());
    for rate in [1, 9_999, 10_000] {
        let all = sending(Home, 0, 0, 1, MAX_AMOUNT).bytes();
        assert_eq!(open(rate).call(&all), refused(25));
    }
    assert_eq!(
        open(0).call(&sending(Home, 0, 0, 1, MAX_AMOUNT).bytes()),
        Passed
    );
}

#[test]
fn openings_answer_1_then_2_then_52() {
    let pair = |home: &[u64], far: &[u64], rate, account| {
        let (answer, state) = Oracle.pair_open(home, far, rate, account);
        assert_eq!(answer.passed(), *state != PairState::ZERO);
        answer
    };
    let home = |home: &[u64], fars, total, rate, account| {
        let (answer, state) = Oracle.home_open(home, fars, total, rate, account);
        assert_eq!(answer.passed(), *state != HomeState::ZERO);
        answer
    };
    assert_eq!(pair(&[], &[1], 10_001, 0), refused(1));
    assert_eq!(pair(&[1], &[1; 57], 10_001, 0), refused(1));
    assert_eq!(pair(&[MAX_AMOUNT], &[1], 10_001, 9), refused(2));
    assert_eq!(home(&[], 1, 1, 10_001, 0), refused(1));
    assert_eq!(home(&[1], 57, 1, 10_001, 0), refused(1));
    assert_eq!(home(&[MAX_AMOUNT], 1, 1, 10_001, 9), refused(2));
    let mut wrong = vec![
        (10_001, 0),
        (0, 2),
        (0, 56),
        (50, 2),
        (10_000, 65_535),
        (10_001, 2),
    ];
    wrong.extend(HIGH.map(|rate| (rate, 0)));
    wrong.extend(HIGH.map(|account| (0, account)));
    wrong.extend(HIGH.map(|account| (50, account)));
    for (rate, account) in wrong {
        assert_eq!(pair(&[3, 4], &[5], rate, account), refused(52));
        assert_eq!(home(&[3, 4], 1, 5, rate, account), refused(52));
        // An account that is open on far only is not open.
        assert_eq!(pair(&[3, 4], &[5; 56], rate, account), refused(52));
        assert_eq!(home(&[3, 4], 56, 5, rate, account), refused(52));
    }
    for (rate, account) in [(0, 0), (0, 1), (1, 1), (9_999, 0), (10_000, 1)] {
        assert_eq!(pair(&[3, 4], &[5], rate, account), Passed);
        assert_eq!(home(&[3, 4], 1, 5, rate, account), Passed);
    }
    assert_eq!(pair(&[0; 56], &[0], 10_000, 55), Passed);
    assert_eq!(home(&[0; 56], 1, 0, 10_000, 56), refused(52));
    // Rate and account are the last two words.
    let (_, state) = Oracle.pair_open(&[1, 2, 3], &[4, 5], 50, 2);
    assert_eq!(state.words()[4_208..], [15, 3, 2, 0, 0, 50, 2]);
    let (_, state) = Oracle.home_open(&[1, 2, 3], 56, 9, 10_000, 1);
    assert_eq!(state.words()[2_104..], [15, 9, 3, 56, 0, 10_000, 1]);
}

/// States of home 100, 50 and far 20 at rate 1,000 on account 1, after 30 went from
/// home 0.
fn sent() -> (Box<PairState>, Box<HomeState>) {
    let charge = Charge::new(1_000, 1);
    let mut pair = PairState::open(&[100, 50], &[20], charge).1;
    let mut home = HomeState::open(&[100, 50], 1, 20, charge).1;
    let over = sending(Home, 0, 0, 7, 30).bytes();
    assert_eq!(pair.check_record(&over), Passed);
    assert_eq!(home.check_record(&over), Passed);
    (pair, home)
}

#[test]
fn states_keep_their_charge() {
    let (pair, home) = sent();
    assert_eq!(pair.balances(0)[..2], [67, 53]);
    assert_eq!(pair.figures(), (Passed, [120, 20, 30]));
    assert_eq!(pair.words()[4_208..], [170, 2, 1, 1, 0, 1_000, 1]);
    assert_eq!(home.balances(0)[..2], [67, 53]);
    assert_eq!(home.figures(), (Passed, [120, 50]));
    assert_eq!(home.words()[2_104..], [170, 50, 2, 1, 1, 1_000, 1]);
}

#[test]
fn wrong_charges_of_a_state_are_3() {
    let (pair, home) = sent();
    let mut wrong = vec![(10_001, 1), (1_000, 2), (0, 2), (0, 56), (1_000, 55)];
    wrong.extend(HIGH.map(|rate| (rate, 1)));
    wrong.extend(HIGH.map(|account| (1_000, account)));
    let record = local(Home, 0, 0, 9, 1).bytes();
    for (rate, account) in wrong {
        let mut state = pair.clone();
        state.words_mut()[4_213..].copy_from_slice(&[rate, account]);
        let before = state.clone();
        for bytes in [&record[..], &record[..5], &[]] {
            assert_eq!(state.check_record(bytes), refused(3));
            assert_eq!(state.check_list(bytes), refused(3));
        }
        assert_eq!(state.figures(), (refused(3), [0; 3]));
        assert_eq!(state.balance(0, 0), (refused(3), 0));
        assert_eq!(state.places_left(), (refused(3), [0; 2]));
        assert!(state == before);
        let mut state = home.clone();
        state.words_mut()[2_109..].copy_from_slice(&[rate, account]);
        let before = state.clone();
        assert_eq!(state.check_record(&record), refused(3));
        assert_eq!(state.check_list(&[]), refused(3));
        assert_eq!(state.figures(), (refused(3), [0; 2]));
        assert_eq!(state.balance(0), (refused(3), 0));
        assert_eq!(state.places_left(), (refused(3), 0));
        assert!(state == before);
    }
}

/// A state does not tell what its records have paid, so another rate or account is
/// accepted and holds from then on.
#[test]
fn other_charges_of_a_state_are_accepted() {
    let (pair, home) = sent();
    for (rate, account, after) in [
        (0, 0, [57, 53]),
        (0, 1, [57, 53]),
        (10_000, 0, [57, 53]),
        (10_000, 1, [47, 63]),
        (1_999, 1, [56, 54]),
    ] {
        let record = sending(Home, 0, 0, 9, 10).bytes();
        let mut state = pair.clone();
        state.words_mut()[4_213..].copy_from_slice(&[rate, account]);
        assert_eq!(state.check_record(&record), Passed);
        assert_eq!(state.balances(0)[..2], after);
        assert_eq!(state.charge(), Charge::new(rate, account));
        assert_eq!(state.figures(), (Passed, [110, 20, 40]));
        let mut state = home.clone();
        state.words_mut()[2_109..].copy_from_slice(&[rate, account]);
        assert_eq!(state.check_record(&record), Passed);
        assert_eq!(state.balances(0)[..2], after);
        assert_eq!(state.figures(), (Passed, [110, 60]));
    }
}

fn block_0(rate: u16, account: u16) -> Block {
    let mut block = lawful_block(0, &stake_bytes(&[100, 50]));
    set_u16(&mut block, 6, rate);
    set_u16(&mut block, 8, account);
    seal(&mut block);
    block
}

#[test]
fn block_0_carries_the_charge() {
    let block = charged_block(Charge::new(0x1234, 1), &stake_bytes(&[100, 50]));
    assert_eq!(block[..12], [0, 0, 0, 0, 1, 2, 0x12, 0x34, 0, 1, 0, 0]);
    assert!(block == block_0(0x1234, 1));
    for (rate, account) in [(0, 0), (0, 1), (1, 0), (50, 1), (9_999, 0), (10_000, 1)] {
        let block = block_0(rate, account);
        assert_eq!(judge_block(&block, 0, 0), Passed);
        assert_eq!(block_count(&block, 0, 0), (Passed, 2));
        let (answer, (count, got_rate, got_account, stakes)) = block_balances(&block, 0, 0);
        assert_eq!((answer, count, stakes[0], stakes[2]), (Passed, 2, 100, 0));
        assert_eq!((got_rate, got_account), (rate.into(), account.into()));
        assert_eq!(judge_place(&block, 0, 0, 0), refused_at(4, 0));
    }
}

#[test]
fn refusal_52_of_block_0() {
    let zeros = (0, 0, 0, [0; 56]);
    for (rate, account) in [
        (10_001, 0),
        (65_535, 1),
        (0, 2),
        (0, 256),
        (10_000, 2),
        (50, 55),
        (10_001, 65_535),
    ] {
        let block = block_0(rate, account);
        assert_eq!(judge_block(&block, 0, 0), refused(52));
        // 52 comes before the place that is wanted.
        for place in [0, 1, 13, TOP] {
            assert_eq!(judge_place(&block, 0, 0, place), refused(52));
            assert_eq!(block_record(&block, 0, 0, place), (refused(52), [0, 0]));
            assert!(part(&block, 0, 0, place).is_empty());
        }
        assert_eq!(block_count(&block, 0, 0), (refused(52), 0));
        assert_eq!(block_balances(&block, 0, 0), (refused(52), zeros));
        // 11 to 14 come before it.
        assert_eq!(judge_block(&block[..511], 0, 0), refused(11));
        assert_eq!(judge_block(&block, 1, 0), refused_at(13, 1));
        let altered = |place: usize, value| {
            let mut block = block;
            block[place] = value;
            block
        };
        assert_eq!(judge_block(&altered(40, 1), 0, 0), refused(12));
        for (place, value) in [(4, 2), (5, 0), (5, 57), (10, 1), (31, 1), (48, 1)] {
            let mut block = altered(place, value);
            seal(&mut block);
            assert_eq!(judge_block(&block, 0, 0), refused(14), "{place}");
        }
    }
}

#[test]
fn other_blocks_carry_no_charge() {
    let blocks = [
        lawful_block(1, &stake_bytes(&[20, 5])),
        lawful_block(2, &local(Home, 0, 0, 1, 1).bytes()),
        lawful_block(3, &local(Home, 0, 0, 1, 1).bytes()),
    ];
    let (answer, (count, rate, account, _)) = block_balances(&blocks[0], 1, 0);
    assert_eq!((answer, count, rate, account), (Passed, 2, 0, 0));
    for (number, block) in (1..).zip(blocks) {
        assert_eq!(judge_block(&block, number, 14), Passed);
        for place in 6..32 {
            let mut block = block;
            block[place] = 1;
            seal(&mut block);
            assert_eq!(judge_block(&block, number, 14), refused_at(14, number));
        }
    }
    for place in 10..32 {
        let mut block = block_0(50, 1);
        block[place] = 1;
        seal(&mut block);
        assert_eq!(judge_block(&block, 0, 0), refused(14));
    }
}

#[test]
fn the_writer_looks_at_the_charge_of_block_0() {
    let stakes = stake_bytes(&[7, 8, 9]);
    let write = |number, kind, rate, account, items: &[u8]| {
        let mut output = [9; BLOCK];
        let charge = Charge::new(rate, account);
        let answer = write_block(number, kind, charge, items, &mut output);
        assert_eq!(answer.passed(), output != [9; BLOCK]);
        (answer, output)
    };
    for (rate, account) in [(0, 0), (0, 2), (50, 1), (10_000, 2)] {
        let (answer, block) = write(0, 1, rate, account, &stakes);
        assert_eq!(answer, Passed);
        assert_eq!(block[6..8], (rate as u16).to_be_bytes());
        assert_eq!(block[8..10], (account as u16).to_be_bytes());
        assert_eq!(judge_block(&block, 0, 0), Passed);
    }
    let mut wrong = vec![(10_001, 0), (0, 3), (50, 3), (10_000, 56), (0, 65_535)];
    wrong.extend(HIGH.map(|rate| (rate, 0)));
    wrong.extend(HIGH.map(|account| (50, account)));
    let record = local(Home, 0, 0, 1, 1).bytes();
    for (rate, account) in wrong {
        assert_eq!(write(0, 1, rate, account, &stakes).0, refused(4));
        // Other blocks are written as without them.
        for (number, kind, items) in [(1, 2, &stakes[..]), (2, 3, &record), (65_535, 3, &record)] {
            let (answer, block) = write(number, kind, rate, account, items);
            assert_eq!(answer, Passed);
            assert!(block == lawful_block(number, items));
            assert_eq!(block[6..32], [0; 26]);
        }
    }
    // The accounts are those of the items that are written.
    assert_eq!(write(0, 1, 50, 2, &stakes[..16]).0, refused(4));
    assert_eq!(write(0, 1, 50, 55, &[0; 448]).0, Passed);
    assert_eq!(write(0, 3, 50, 0, &record).0, refused(4));
    assert_eq!(write(65_536, 3, 50, 0, &record).0, refused_at(4, 65_536));
}

fn lines(journal: &[u8]) -> Vec<String> {
    let text = String::from_utf8(listing(journal)).unwrap();
    text.lines().map(str::to_string).collect()
}

#[test]
fn listing_with_a_charge() {
    // The records of paper 01 at rate 1,000 on account 1: 30 pay 3 and far sends
    // back 45 for nothing.
    let over = sending(Home, 0, 0, 7, 30);
    let back = sending(Far, 0, 1, 8, 45);
    let records = [
        over,
        over.matching_arrival(),
        back,
        back.matching_arrival(),
        back.matching_arrival(),
        local(Home, 0, 1, 9, 68),
        local(Home, 0, 1, 9, 67),
        local(Home, 1, 0, 10, 165),
    ];
    let bytes: Vec<Bytes> = records.iter().map(Record::bytes).collect();
    let listed = lines(&journal(&Opening::of_cases().charged(1_000, 1), &bytes));
    let expected = [
        "record number answer home far flight",
        "open - 0 150 20 0",
        "0 0000000000000007 0 120 20 30",
        "1 0000000000000007 0 120 50 0",
        "2 0000000000000008 0 120 5 45",
        "3 0000000000000008 0 165 5 0",
        "4 0000000000000008 24 165 5 0",
        "5 0000000000000009 25 165 5 0",
        "6 0000000000000009 0 165 5 0",
        "7 000000000000000a 0 165 5 0",
    ];
    assert_eq!(listed, expected);
}

#[test]
fn listings_tell_52_at_block_0() {
    let opening = Opening::of_cases();
    let records = [sending(Home, 0, 0, 7, 30).bytes()];
    let sound = split(&journal(&opening, &records));
    let with = |block: Block| join(&[&[block], &sound[1..]].concat());
    let fault = |journal: &[u8]| {
        let listed = lines(journal);
        assert_eq!(listed.len(), 2);
        listed[1].clone()
    };
    assert_eq!(fault(&with(block_0(10_001, 0))), "fault 52 0");
    assert_eq!(fault(&with(block_0(0, 2))), "fault 52 0");
    // Block 1 is not looked at, whatever is wrong with it.
    let wrong = with(block_0(0, 2));
    assert_eq!(fault(&wrong[..512]), "fault 52 0");
    assert_eq!(fault(&wrong[..600]), "fault 52 0");
    let mut stale = wrong.clone();
    stale[512 + 40] ^= 1;
    assert_eq!(fault(&stale), "fault 52 0");
    // Nor is the total of the stakes.
    let above = Opening::new(&[MAX_AMOUNT, 0], &[1]);
    let mut blocks = split(&journal(&above, &records));
    assert_eq!(fault(&join(&blocks)), "fault 2 1");
    set_u16(&mut blocks[0], 8, 2);
    seal(&mut blocks[0]);
    assert_eq!(fault(&join(&blocks)), "fault 52 0");
    blocks[0][10] = 1;
    seal(&mut blocks[0]);
    assert_eq!(fault(&join(&blocks)), "fault 14 0");
    blocks[0][40] ^= 1;
    assert_eq!(fault(&join(&blocks)), "fault 12 0");
    // A right charge passes on to block 1.
    let right = with(block_0(50, 1));
    assert_eq!(fault(&right[..512]), "fault 11 1");
    assert_eq!(lines(&right)[2], "0 0000000000000007 0 120 20 30");
}

fn stored(name: &str) -> Vec<u8> {
    let mut samples = store::samples().into_iter();
    samples.find(|sample| sample.name == name).unwrap().journal
}

#[test]
fn stored_journals_with_a_charge() {
    for (name, charge, answers) in [
        ("charge_rate_0_account_1", [0, 1], "0 0 0 0 25 0"),
        ("charge_rate_1", [1, 2], "0 0 0 0 0 0 0 0 0 0 0 0 25 0 0 25"),
        (
            "charge_rate_50",
            [50, 1],
            "0 0 0 0 0 0 0 0 0 0 0 0 0 0 0 0 0 0 25 0",
        ),
        (
            "charge_rate_10000",
            [10_000, 1],
            "25 0 0 0 0 0 0 25 0 25 0 0",
        ),
        (
            "charge_sender_is_account",
            [5_000, 0],
            "25 0 25 0 25 0 0 25 0",
        ),
        (
            "charge_25",
            [50, 2],
            "25 25 25 0 23 24 51 25 0 25 0 25 0 25 0",
        ),
        (
            "charge_exact",
            [9_999, 1],
            "25 25 31 0 0 25 0 25 0 0 0 25 0 0 25 25 0",
        ),
    ] {
        let journal = stored(name);
        let (_, (_, rate, account, _)) = block_balances(&journal[..BLOCK], 0, 0);
        assert_eq!([rate, account], charge, "{name}");
        let listed = lines(&journal);
        let told = listed[2..]
            .iter()
            .map(|line| line.split(' ').nth(2).unwrap());
        assert_eq!(told.collect::<Vec<_>>().join(" "), answers, "{name}");
    }
    for (name, fault) in [
        ("fault_52_rate", "fault 52 0"),
        ("fault_52_account", "fault 52 0"),
        ("fault_52_account_rate_0", "fault 52 0"),
        ("fault_52_before_block_1", "fault 52 0"),
        ("fault_52_before_2", "fault 52 0"),
        ("fault_14_before_52", "fault 14 0"),
    ] {
        let listed = lines(&stored(name));
        assert_eq!(listed[1..], [fault.to_string()], "{name}");
    }
}

/// Stored journals from before U3 have no charge in block 0.
#[test]
fn stored_journals_from_before_have_no_charge() {
    let samples = store::samples();
    let new = |name: &str| name.contains("charge") || name.contains("52");
    let old: Vec<_> = samples.iter().filter(|sample| !new(&sample.name)).collect();
    assert_eq!(old.len(), 78);
    for sample in old {
        let head = sample.journal.get(6..10);
        assert!(head.is_none_or(|head| head == [0; 4]), "{}", sample.name);
    }
}

/// In each family some journals have a charge and a good part has none.
#[test]
fn families_have_charges() {
    let plan = Plan {
        seed: 5,
        journals: 400,
        long: false,
    };
    let mut faults = 0;
    families::each(&plan, |family| {
        let mut counts = [0; 2];
        for index in 0..family.count() {
            let journal = family.sample(index).journal;
            let head = journal.get(..BLOCK).unwrap_or(&[]);
            let (answer, (_, rate, _, _)) = block_balances(head, 0, 0);
            counts[0] += usize::from(answer.passed() && rate == 0);
            counts[1] += usize::from(rate > 0);
            faults += usize::from(answer.number() == 52);
        }
        let name = family.name();
        let all = family.count();
        assert!(5 * counts[0] > all, "{name} {counts:?} of {all}");
        assert!(10 * counts[1] > all, "{name} {counts:?} of {all}");
        Ok::<(), ()>(())
    })
    .unwrap();
    assert!(faults > 100, "{faults}");
}
