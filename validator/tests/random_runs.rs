//! Random runs: every state reached is accepted, altered ones are not; the
//! running book, lists and the guard agree with the pair book.

use second_validator::answer::Answer;
use second_validator::guard::Guard;
use second_validator::journal::charge;
use second_validator::listing::listing;
use second_validator::pair::PairBook;
use second_validator::record::{number_of, Kind, Ledger, Record};
use second_validator::rules::CAPACITY;
use second_validator::runner::build::{Bytes, Opening};
use second_validator::runner::families::{faults, full_tables, honest, near_misses};
use second_validator::runner::rng::Rng;
use second_validator::runner::trader::{any_opening, maybe_charged, rich_opening, Numbers, Trader};

/// The opening and the records of a sound journal.
fn parts(journal: &[u8]) -> (Opening, Vec<Bytes>) {
    let stakes = |block: &[u8]| second_validator::journal::stakes(block);
    let opening = Opening {
        home: stakes(&journal[..512]),
        far: stakes(&journal[512..1_024]),
        charge: charge(journal, 0),
    };
    let records = journal[1_024..]
        .chunks_exact(512)
        .flat_map(second_validator::journal::records)
        .map(|bytes| bytes.try_into().unwrap())
        .collect();
    (opening, records)
}

fn pair_of(opening: &Opening) -> PairBook {
    PairBook::open(&opening.home, &opening.far, opening.charge).unwrap()
}

fn guard_of(opening: &Opening) -> Guard {
    let far_total = opening.far.iter().sum();
    Guard::open(&opening.home, opening.far.len(), far_total, opening.charge).unwrap()
}

/// Journals of several families.
fn journals(count: u64) -> Vec<Vec<u8>> {
    let makers = [
        honest::seeded,
        faults::seeded,
        near_misses::seeded,
        full_tables::seeded,
    ];
    (0..count)
        .map(|index| makers[index as usize % 4](&mut Rng::new(index)))
        .collect()
}

/// The listing of a journal by the plain pair book, call by call.
fn plain_listing(opening: &Opening, records: &[Bytes]) -> String {
    let mut book = pair_of(opening);
    let figures = |book: &PairBook| {
        let (home, far) = (book.home_total(), book.far_total());
        format!("{home} {far} {}", book.in_flight())
    };
    let mut text = format!(
        "record number answer home far flight\nopen - 0 {}\n",
        figures(&book)
    );
    for (index, bytes) in records.iter().enumerate() {
        let before = book.clone();
        let answer = book.call(bytes);
        assert!(book.accepted());
        assert!(answer.passed() || book == before);
        let (number, answer) = (number_of(bytes), answer.number());
        text += &format!("{index} {number:016x} {answer} {}\n", figures(&book));
    }
    text
}

#[test]
fn listings_agree_with_the_plain_pair_book() {
    for journal in journals(60) {
        let (opening, records) = parts(&journal);
        let expected = plain_listing(&opening, &records);
        assert_eq!(String::from_utf8(listing(&journal)).unwrap(), expected);
    }
}

#[test]
fn lists_agree_with_single_calls() {
    for journal in journals(24) {
        let (opening, records) = parts(&journal);
        let mut single = pair_of(&opening);
        let mut listed = single.clone();
        for some in records.chunks(7) {
            let before = single.clone();
            let answers: Vec<Answer> = some.iter().map(|bytes| single.call(bytes)).collect();
            let first = answers.iter().position(|answer| !answer.passed());
            let expected = match first {
                None => Answer::Passed,
                Some(place) => Answer::Refused {
                    number: answers[place].number(),
                    place: place as u64,
                },
            };
            assert_eq!(listed.call_list(&some.concat()), expected);
            if first.is_some() {
                assert_eq!(listed, before);
                listed = single.clone();
            }
            assert_eq!(listed, single);
        }
    }
}

/// Alters one thing of an accepted state in a way that cannot be accepted.
fn alter(rng: &mut Rng, book: &mut PairBook) {
    let side = rng.index(2);
    let accounts = book.sides[side].accounts;
    let held = book.sides[side].held.len();
    match rng.below(if held == 0 { 7 } else { 14 }) {
        0 => book.stake ^= 1 << rng.below(64),
        1 => {
            let account = rng.index(accounts);
            book.sides[side].balances[account] ^= 1 << rng.below(64);
        }
        2 => book.sides[side].accounts = rng.pick(&[0, 57, 1 << 40]),
        3 if accounts < 56 => {
            let beyond = rng.within(accounts as u64, 55) as usize;
            book.sides[side].balances[beyond] = 1;
        }
        3 | 4 => book.stake = u64::MAX,
        5 => book.charge.rate = rng.pick(&[10_001, 65_536, 1 << 32, u64::MAX]),
        6 => {
            let open = book.sides[0].accounts as u64;
            book.charge.account = rng.pick(&[open, 56, 65_536, 1 << 32, u64::MAX]);
        }
        choice => {
            let place = rng.index(held);
            let copy = book.sides[side].held[place];
            let record = &mut book.sides[side].held[place];
            match choice {
                7 => record.kind = rng.pick(&[0, 4, 200]),
                8 => record.ledger = rng.pick(&[1 - side as u8, 2, 255]),
                9 => record.verdict = rng.pick(&[0, 2, 255]),
                10 => record.amount = rng.pick(&[0, 1 << 63, u64::MAX]),
                11 => record.sender = rng.pick(&[56, 300, u16::MAX]),
                12 => record.receiver = rng.pick(&[56, 300, u16::MAX]),
                _ => book.sides[side].held.push(copy),
            }
        }
    }
}

#[test]
fn altered_states_are_refused() {
    let mut rng = Rng::new(8);
    for journal in journals(40) {
        let (opening, records) = parts(&journal);
        let mut book = pair_of(&opening);
        let stop = rng.index(records.len() + 1);
        for bytes in &records[..stop] {
            book.call(bytes);
        }
        for _ in 0..20 {
            let mut altered = book.clone();
            alter(&mut rng, &mut altered);
            let before = altered.clone();
            let refused = Answer::Refused {
                number: 3,
                place: 0,
            };
            assert_eq!(altered.call(&[0; 32]), refused);
            assert_eq!(altered.call_list(&[]), refused);
            assert_eq!(altered, before);
        }
    }
}

/// Home's part of a pair book run, beside a guard: all but arrivals without
/// a sending, which the guard cannot tell, get the same answer.
#[test]
fn guard_agrees_with_the_pair_book() {
    for journal in journals(40) {
        let (opening, records) = parts(&journal);
        let mut pair = pair_of(&opening);
        let mut guard = guard_of(&opening);
        for bytes in &records {
            let answer = pair.call(bytes);
            let far = Record::read(bytes).is_some_and(|record| record.ledger() == Ledger::Far);
            if far {
                assert_eq!(guard.clone().call(bytes).number(), 33);
            } else if answer.number() == 31 {
                assert!([0, 32, 41].contains(&guard.clone().call(bytes).number()));
            } else {
                assert_eq!(guard.call(bytes), answer);
            }
            assert!(guard.accepted());
            assert_eq!(guard.home, pair.sides[0]);
            let due = pair.far_total() + pair.in_flight();
            assert_eq!(u128::from(guard.far_due), due);
        }
    }
}

/// Whatever a guard passes, some far list makes the pair rules pass: far
/// gathers its credit in the named account and sends it.
#[test]
fn guard_passes_only_what_a_far_list_can_explain() {
    for seed in 0..40 {
        let mut rng = Rng::new(seed);
        let opening = maybe_charged(&mut rng, any_opening);
        let mut guard = guard_of(&opening);
        let mut pair = pair_of(&opening);
        let mut helper = Helper { next: 1 << 40 };
        let mut trader = Trader::new(opening, Numbers::Few(200), Rng::new(seed + 1));
        for _ in 0..60 {
            let bytes = trader.aimless(Ledger::Home);
            let amount = 1 + rng.below(guard.far_due.max(1) + 1);
            let bytes = Record { amount, ..bytes }.bytes();
            if !guard.call(&bytes).passed() {
                continue;
            }
            let record = Record::read(&bytes).unwrap();
            match record.kind {
                Kind::Arrival(_) => helper.provide(&mut pair, &record),
                _ => assert!(pair.call(&bytes).passed()),
            }
            if let Kind::Sending(_) = record.kind {
                let arrived = record.matching_arrival().bytes();
                assert!(pair.call(&arrived).passed());
            }
        }
        assert_eq!(guard.home, pair.sides[0]);
    }
}

/// The far ledger's own records.
struct Helper {
    next: u64,
}

impl Helper {
    /// Gathers all far credit in the sender's account, sends, and lets the
    /// arrival pass.
    fn provide(&mut self, pair: &mut PairBook, arrival: &Record) {
        for account in 0..pair.sides[1].accounts as u16 {
            let balance = pair.sides[1].balances[usize::from(account)];
            if balance > 0 && account != arrival.sender {
                self.next += 1;
                let gather = Record {
                    kind: Kind::Local(Ledger::Far),
                    sender: account,
                    receiver: arrival.sender,
                    number: self.next,
                    amount: balance,
                    good: true,
                };
                assert!(pair.call(&gather.bytes()).passed());
            }
        }
        assert!(pair.call(&arrival.matching_sending().bytes()).passed());
        assert!(pair.call(&arrival.bytes()).passed());
    }
}

#[test]
fn full_tables_keep_their_states_accepted() {
    let mut rng = Rng::new(77);
    let mut trader = Trader::new(rich_opening(&mut rng), Numbers::Random, Rng::new(2));
    trader.thrifty = true;
    for ledger in Ledger::BOTH {
        trader.fill(ledger, CAPACITY);
    }
    let mut book = pair_of(&trader.opening);
    for bytes in &trader.records {
        assert!(book.call(bytes).passed());
    }
    assert!(book.accepted());
    let record = trader.lawful_local(Ledger::Far).unwrap();
    assert_eq!(book.call(&record.bytes()).number(), 41);
}
