//! The cases of paper 01 and its listing, with changes U1 and U2 of paper 02.

use second_validator::answer::Answer::{self, Passed};
use second_validator::charge::Charge;
use second_validator::guard::Guard;
use second_validator::listing::listing;
use second_validator::pair::PairBook;
use second_validator::record::Ledger::{Far, Home};
use second_validator::record::{Record, MAX_AMOUNT};
use second_validator::runner::build::{arrival, journal, local, sending, Bytes, Opening};

fn refused(number: u8) -> Answer {
    Answer::Refused { number, place: 0 }
}

fn pair() -> PairBook {
    PairBook::open(&[100, 50], &[20], Charge::NONE).unwrap()
}

fn guard() -> Guard {
    Guard::open(&[100, 50], 1, 20, Charge::NONE).unwrap()
}

fn figures(book: &PairBook) -> (u64, u64, u64, u128) {
    let [home, far] = &book.sides;
    let flight = book.in_flight();
    (home.balances[0], home.balances[1], far.balances[0], flight)
}

/// A sending of 30 from home 0 to far 0 under number 7.
fn over() -> Record {
    sending(Home, 0, 0, 7, 30)
}

#[test]
fn case_1_sending() {
    let mut book = pair();
    assert_eq!(book.call(&over().bytes()), Passed);
    assert_eq!(figures(&book), (70, 50, 20, 30));
}

#[test]
fn cases_2_and_3_arrival() {
    let mut book = pair();
    book.call(&over().bytes());
    let arrived = over().matching_arrival().bytes();
    assert_eq!(book.call(&arrived), Passed);
    assert_eq!(figures(&book), (70, 50, 50, 0));
    assert_eq!(book.call(&arrived), refused(24));
    assert_eq!(figures(&book), (70, 50, 50, 0));
}

/// Paper 02, U2: a far local under number 7 strands no arrival. Case 3 keeps its
/// answer.
#[test]
fn cases_2_and_3_after_a_far_local() {
    let mut book = pair();
    book.call(&over().bytes());
    let own = local(Far, 0, 0, 7, 20).bytes();
    assert_eq!(book.call(&own), Passed);
    let arrived = over().matching_arrival().bytes();
    assert_eq!(book.call(&arrived), Passed);
    assert_eq!(figures(&book), (70, 50, 50, 0));
    assert_eq!(book.call(&arrived), refused(24));
    assert_eq!(book.call(&own), refused(24));
    assert_eq!(book.call(&sending(Far, 0, 0, 7, 1).bytes()), refused(24));
    assert_eq!(figures(&book), (70, 50, 50, 0));
}

#[test]
fn case_4_other_amount() {
    let mut book = pair();
    book.call(&over().bytes());
    assert_eq!(book.call(&arrival(Far, 0, 0, 7, 31).bytes()), refused(31));
}

#[test]
fn case_5_balance() {
    assert_eq!(pair().call(&local(Home, 1, 0, 1, 50).bytes()), Passed);
    assert_eq!(pair().call(&local(Home, 1, 0, 1, 51).bytes()), refused(25));
}

#[test]
fn case_6_self_transfer() {
    let mut book = pair();
    assert_eq!(book.call(&local(Home, 0, 0, 1, 100).bytes()), Passed);
    assert_eq!(figures(&book), (100, 50, 20, 0));
    assert_eq!(pair().call(&local(Home, 0, 0, 1, 101).bytes()), refused(25));
}

#[test]
fn case_7_account() {
    assert_eq!(pair().call(&local(Home, 2, 0, 1, 1).bytes()), refused(22));
    assert_eq!(guard().call(&local(Home, 2, 0, 1, 1).bytes()), refused(22));
}

/// Paper 02, U1: the receiver's account has its own number, after the sender's.
#[test]
fn case_7_with_the_other_account() {
    for (record, number) in [
        (local(Home, 0, 2, 1, 1), 51),
        (local(Home, 2, 2, 1, 1), 22),
        (sending(Home, 0, 1, 1, 1), 51),
        (sending(Home, 2, 1, 1, 1), 22),
        (arrival(Home, 0, 2, 1, 1), 51),
        (arrival(Home, 1, 2, 1, 1), 22),
    ] {
        assert_eq!(pair().call(&record.bytes()), refused(number));
        assert_eq!(guard().call(&record.bytes()), refused(number));
    }
}

#[test]
fn case_8_amounts() {
    let answer = |amount| pair().call(&local(Home, 0, 0, 1, amount).bytes());
    assert_eq!(answer(0), refused(21));
    assert_eq!(answer(MAX_AMOUNT), refused(25));
    assert_eq!(answer(MAX_AMOUNT + 1), refused(21));
}

#[test]
fn case_9_guard() {
    let home_arrival = |number, amount| arrival(Home, 0, 0, number, amount).bytes();
    assert_eq!(guard().call(&home_arrival(1, 20)), Passed);
    assert_eq!(guard().call(&home_arrival(1, 21)), refused(32));
    let mut sent = guard();
    assert_eq!(sent.call(&sending(Home, 0, 0, 1, 30).bytes()), Passed);
    assert_eq!(sent.clone().call(&home_arrival(2, 51)), refused(32));
    assert_eq!(sent.call(&home_arrival(2, 50)), Passed);
    assert_eq!(sent.far_due, 0);
}

#[test]
fn cases_10_and_11_verdict() {
    let mut book = pair();
    book.call(&local(Home, 0, 1, 7, 1).bytes());
    let mut bytes = local(Home, 0, 1, 7, 1).bytes();
    bytes[24] = 0;
    assert_eq!(book.call(&bytes), refused(23));
    bytes[24] = 2;
    assert_eq!(book.call(&bytes), refused(21));
}

#[test]
fn case_12_stakes_total() {
    assert!(PairBook::open(&[MAX_AMOUNT], &[0], Charge::NONE).is_ok());
    assert_eq!(
        PairBook::open(&[MAX_AMOUNT], &[1], Charge::NONE),
        Err(refused(2))
    );
    assert!(PairBook::open(&[MAX_AMOUNT, 0], &[0], Charge::NONE).is_ok());
    assert_eq!(
        PairBook::open(&[MAX_AMOUNT, 1], &[0], Charge::NONE),
        Err(refused(2))
    );
    assert!(Guard::open(&[MAX_AMOUNT], 1, 0, Charge::NONE).is_ok());
    assert_eq!(
        Guard::open(&[MAX_AMOUNT], 1, 1, Charge::NONE),
        Err(refused(2))
    );
}

#[test]
fn case_13_table() {
    for ledger in [Home, Far] {
        let record = |number| local(ledger, 0, 0, number, 1).bytes();
        let mut book = pair();
        for number in 0..512 {
            assert_eq!(book.call(&record(number)), Passed);
        }
        assert_eq!(book.call(&record(512)), refused(41));
        assert_eq!(book.call(&record(511)), refused(24));
        let other = local(ledger.other(), 0, 0, 512, 1);
        assert_eq!(book.call(&other.bytes()), Passed);
    }
}

#[test]
fn case_13_table_of_the_guard() {
    let record = |number| local(Home, 0, 0, number, 1).bytes();
    let mut guard = guard();
    for number in 0..512 {
        assert_eq!(guard.call(&record(number)), Passed);
    }
    assert_eq!(guard.call(&record(512)), refused(41));
    assert_eq!(guard.call(&record(511)), refused(24));
}

#[test]
fn case_14_account_counts() {
    assert!(PairBook::open(&[1; 56], &[1; 56], Charge::NONE).is_ok());
    assert_eq!(
        PairBook::open(&[1; 57], &[1], Charge::NONE),
        Err(refused(1))
    );
    assert_eq!(
        PairBook::open(&[1], &[1; 57], Charge::NONE),
        Err(refused(1))
    );
    assert!(Guard::open(&[1; 56], 56, 1, Charge::NONE).is_ok());
    assert_eq!(Guard::open(&[1; 57], 1, 1, Charge::NONE), Err(refused(1)));
    assert_eq!(Guard::open(&[1], 57, 1, Charge::NONE), Err(refused(1)));
}

#[test]
fn cases_15_and_16_journals_without_records() {
    let header = "record number answer home far flight\n";
    let empty = String::from_utf8(listing(&[])).unwrap();
    assert_eq!(empty, format!("{header}fault 11 0\n"));
    let opening = journal(&Opening::of_cases(), &[]);
    assert_eq!(opening.len(), 1_024);
    let read = String::from_utf8(listing(&opening)).unwrap();
    assert_eq!(read, format!("{header}open - 0 150 20 0\n"));
}

#[test]
fn listing_of_the_paper() {
    let back = sending(Far, 0, 1, 8, 45);
    let records: Vec<Bytes> = [
        over(),
        over().matching_arrival(),
        back,
        back.matching_arrival(),
        back.matching_arrival(),
    ]
    .iter()
    .map(Record::bytes)
    .collect();
    let expected = "\
record number answer home far flight
open - 0 150 20 0
0 0000000000000007 0 120 20 30
1 0000000000000007 0 120 50 0
2 0000000000000008 0 120 5 45
3 0000000000000008 0 165 5 0
4 0000000000000008 24 165 5 0
";
    let listed = listing(&journal(&Opening::of_cases(), &records));
    assert_eq!(String::from_utf8(listed).unwrap(), expected);
}
