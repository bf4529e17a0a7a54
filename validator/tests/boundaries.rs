//! Every refusal of records, openings and states at its boundary.

use second_validator::answer::Answer::{self, Passed};
use second_validator::charge::Charge;
use second_validator::guard::Guard;
use second_validator::pair::PairBook;
use second_validator::record::Ledger::{self, Far, Home};
use second_validator::record::{Held, Kind, Record, MAX_AMOUNT};
use second_validator::runner::build::{arrival, local, sending, RESERVED};

fn refused(number: u8) -> Answer {
    Answer::Refused { number, place: 0 }
}

fn refused_at(number: u8, place: u64) -> Answer {
    Answer::Refused { number, place }
}

fn pair() -> PairBook {
    PairBook::open(&[100, 50], &[20], Charge::NONE).unwrap()
}

fn guard() -> Guard {
    Guard::open(&[100, 50], 1, 20, Charge::NONE).unwrap()
}

/// A pair book with a local, an arrived sending and one in flight each way.
fn traded() -> PairBook {
    let mut book = pair();
    let over = sending(Home, 0, 0, 7, 30);
    let back = sending(Far, 0, 1, 8, 5);
    for record in [
        local(Home, 0, 1, 6, 1),
        over,
        over.matching_arrival(),
        back,
        back.matching_arrival(),
        sending(Home, 1, 0, 9, 10),
        sending(Far, 0, 0, 10, 3),
    ] {
        assert_eq!(book.call(&record.bytes()), Passed);
    }
    book
}

fn traded_guard() -> Guard {
    let mut guard = guard();
    for record in [
        local(Home, 0, 1, 6, 1),
        sending(Home, 0, 0, 7, 30),
        arrival(Home, 0, 1, 8, 45),
    ] {
        assert_eq!(guard.call(&record.bytes()), Passed);
    }
    guard
}

/// The altered state is refused with 3 by both calls and handed back as it is.
fn assert_pair_refused(alter: impl FnOnce(&mut PairBook)) {
    let mut book = traded();
    alter(&mut book);
    let before = book.clone();
    let record = local(Home, 0, 0, 77, 1).bytes();
    assert_eq!(book.call(&record), refused(3));
    assert_eq!(book.call(&[]), refused(3));
    assert_eq!(book.call_list(&record), refused(3));
    assert_eq!(book.call_list(&[]), refused(3));
    assert_eq!(book, before);
}

fn assert_guard_refused(alter: impl FnOnce(&mut Guard)) {
    let mut guard = traded_guard();
    alter(&mut guard);
    let before = guard.clone();
    let record = local(Home, 0, 0, 77, 1).bytes();
    assert_eq!(guard.call(&record), refused(3));
    assert_eq!(guard.call(&[]), refused(3));
    assert_eq!(guard.call_list(&record), refused(3));
    assert_eq!(guard.call_list(&[]), refused(3));
    assert_eq!(guard, before);
}

#[test]
fn refusal_1_before_2() {
    assert_eq!(PairBook::open(&[], &[1], Charge::NONE), Err(refused(1)));
    assert_eq!(PairBook::open(&[1], &[], Charge::NONE), Err(refused(1)));
    assert_eq!(
        PairBook::open(&[u64::MAX; 57], &[1], Charge::NONE),
        Err(refused(1))
    );
    assert_eq!(Guard::open(&[], 1, 0, Charge::NONE), Err(refused(1)));
    assert_eq!(
        Guard::open(&[1], 0, u64::MAX, Charge::NONE),
        Err(refused(1))
    );
    assert!(PairBook::open(&[0], &[0], Charge::NONE).is_ok());
}

#[test]
fn refusal_2_is_exact() {
    let top = u64::MAX;
    assert_eq!(
        PairBook::open(&[1 << 63, 1 << 63], &[0], Charge::NONE),
        Err(refused(2))
    );
    assert_eq!(
        PairBook::open(&[top, 1], &[5], Charge::NONE),
        Err(refused(2))
    );
    assert_eq!(
        PairBook::open(&[top; 56], &[top; 56], Charge::NONE),
        Err(refused(2))
    );
    assert_eq!(Guard::open(&[top, 1], 1, 0, Charge::NONE), Err(refused(2)));
    assert_eq!(Guard::open(&[1], 1, top, Charge::NONE), Err(refused(2)));
    let book = PairBook::open(&[MAX_AMOUNT - 3, 1], &[2], Charge::NONE).unwrap();
    assert_eq!(book.stake, MAX_AMOUNT);
}

#[test]
fn refusal_3_counts() {
    for accounts in [0, 57, usize::MAX] {
        assert_pair_refused(|book| book.sides[0].accounts = accounts);
        assert_pair_refused(|book| book.sides[1].accounts = accounts);
        assert_guard_refused(|guard| guard.home.accounts = accounts);
        assert_guard_refused(|guard| guard.far_accounts = accounts);
    }
    let filler = |book: &mut Vec<Held>, count: u64| {
        book.extend((0..count).map(|i| Held::of(&local(Home, 0, 0, 1_000 + i, 1))));
    };
    assert_pair_refused(|book| filler(&mut book.sides[0].held, 509));
    assert_guard_refused(|guard| filler(&mut guard.home.held, 510));
    let mut full = traded();
    filler(&mut full.sides[0].held, 508);
    assert_eq!(full.call(&local(Home, 0, 0, 1, 1).bytes()), refused(41));
}

#[test]
fn refusal_3_stake_and_sums() {
    assert_pair_refused(|book| book.stake += 1);
    assert_pair_refused(|book| book.stake -= 1);
    assert_pair_refused(|book| book.sides[0].balances[0] += 1);
    assert_pair_refused(|book| book.sides[1].balances[0] -= 1);
    assert_guard_refused(|guard| guard.stake += 1);
    assert_guard_refused(|guard| guard.far_due += 1);
    assert_guard_refused(|guard| guard.home.balances[1] -= 1);
    // The stake agrees, but is too high.
    assert_pair_refused(|book| {
        book.sides[0].balances[0] += (1 << 63) - book.stake;
        book.stake = 1 << 63;
    });
    assert_guard_refused(|guard| {
        guard.far_due += (1 << 63) - guard.stake;
        guard.stake = 1 << 63;
    });
}

#[test]
fn refusal_3_sums_do_not_wrap() {
    let mut book = PairBook::open(&[5, 5], &[0], Charge::NONE).unwrap();
    book.sides[0].balances = [0; 56];
    book.sides[0].balances[0] = u64::MAX;
    book.sides[0].balances[1] = 11;
    assert_eq!(book.call(&[]), refused(3));
    let mut guard = Guard::open(&[5], 1, 5, Charge::NONE).unwrap();
    guard.home.balances[0] = u64::MAX;
    guard.far_due = 11;
    assert_eq!(guard.call(&[]), refused(3));
}

#[test]
fn refusal_3_balance_beyond_accounts() {
    // Sums agree in both states.
    assert_pair_refused(|book| {
        book.sides[0].balances[2] += 1;
        book.sides[0].balances[0] -= 1;
    });
    assert_guard_refused(|guard| {
        guard.home.balances[55] += 1;
        guard.home.balances[0] -= 1;
    });
}

#[test]
fn refusal_3_held_records() {
    let alterations: [fn(&mut Held); 10] = [
        |held| held.kind = 0,
        |held| held.kind = 4,
        |held| held.ledger = 1,
        |held| held.ledger = 2,
        |held| held.verdict = 0,
        |held| held.verdict = 2,
        |held| held.amount = 0,
        |held| held.amount = 1 << 63,
        |held| held.sender = 2,
        |held| held.receiver = 2,
    ];
    for alter in alterations {
        assert_pair_refused(|book| alter(&mut book.sides[0].held[0]));
        assert_guard_refused(|guard| alter(&mut guard.home.held[0]));
    }
    // Shared numbers.
    assert_pair_refused(|book| book.sides[0].held[0].number = 9);
    assert_guard_refused(|guard| guard.home.held[0].number = 7);
    // A far receiver that is not open.
    assert_pair_refused(|book| book.sides[0].held[3].receiver = 1);
    assert_guard_refused(|guard| guard.home.held[1].receiver = 1);
    assert_guard_refused(|guard| guard.home.held[2].sender = 1);
}

/// A held record with one account or both not open, the sending of an arrival
/// altered alike, so that nothing else is wrong.
#[test]
fn refusal_3_held_accounts() {
    let absent = |held: &mut Held, sender: Option<u16>, receiver: Option<u16>| {
        held.sender = sender.unwrap_or(held.sender);
        held.receiver = receiver.unwrap_or(held.receiver);
    };
    // Account 1 is open at home only, 2 nowhere. The ledger and place of each
    // record, then those of its other half; the ledgers of its accounts.
    let records = [
        ([(0, 0), (0, 0)], [Home, Home]),
        ([(0, 1), (1, 0)], [Home, Far]),
        ([(1, 1), (0, 2)], [Far, Home]),
        ([(0, 3), (0, 3)], [Home, Far]),
        ([(1, 2), (1, 2)], [Far, Home]),
    ];
    for (entries, ledgers) in records {
        let beyond = ledgers.map(|ledger| if ledger == Home { 2 } else { 1 });
        for more in [0, 1, 254, 65_533] {
            let [sender, receiver] = beyond.map(|account| Some(account + more));
            for (sender, receiver) in [(sender, None), (None, receiver), (sender, receiver)] {
                assert_pair_refused(|book| {
                    for (ledger, place) in entries {
                        absent(&mut book.sides[ledger].held[place], sender, receiver);
                    }
                });
            }
        }
    }
    for (place, ledgers) in [(0, [2, 2]), (1, [2, 1]), (2, [1, 2])] {
        for more in [0, 1, 254, 65_533] {
            let [sender, receiver] = ledgers.map(|account| Some(account + more));
            for (sender, receiver) in [(sender, None), (None, receiver), (sender, receiver)] {
                assert_guard_refused(|guard| {
                    absent(&mut guard.home.held[place], sender, receiver);
                });
            }
        }
    }
}

#[test]
fn refusal_3_wrong_ledger() {
    assert_pair_refused(|book| {
        let held = book.sides[0].held.remove(0);
        book.sides[1].held.push(held);
    });
    assert_guard_refused(|guard| guard.home.held.push(Held::of(&local(Far, 0, 0, 99, 1))));
}

#[test]
fn refusal_3_arrival_without_sending() {
    let unsent = Held::of(&arrival(Home, 0, 0, 50, 4));
    // The sums agree all the same.
    assert_pair_refused(|book| book.sides[0].held.push(unsent));
    assert_pair_refused(|book| book.sides[0].held[2].amount += 1);
    assert_pair_refused(|book| book.sides[0].held[2].receiver = 0);
    assert_pair_refused(|book| book.sides[0].held[2].number = 60);
    // Only a sending will do.
    assert_pair_refused(|book| book.sides[0].held[1].kind = 1);
    // The guard looks for none.
    let mut guard = traded_guard();
    guard.home.held.push(unsent);
    assert_eq!(guard.call(&local(Home, 0, 0, 77, 1).bytes()), Passed);
}

#[test]
fn states_that_stay_accepted() {
    // Nothing is asked of a local's amount or of the order of held records.
    let mut book = traded();
    book.sides[0].held[0].amount = MAX_AMOUNT;
    book.sides[0].held.reverse();
    book.sides[1].held.reverse();
    assert!(book.accepted());
}

#[test]
fn refusal_21_lengths() {
    let record = local(Home, 0, 1, 1, 1).bytes();
    for length in 0..32 {
        assert_eq!(pair().call(&record[..length]), refused(21));
        assert_eq!(guard().call(&record[..length]), refused(21));
    }
    let mut long = record.to_vec();
    long.push(0);
    assert_eq!(pair().call(&long), refused(21));
    assert_eq!(guard().call(&long), refused(21));
    assert_eq!(pair().call(&record), Passed);
}

#[test]
fn refusal_21_bytes() {
    let record = local(Home, 0, 1, 1, 1).bytes();
    for value in 1..=255 {
        for place in RESERVED {
            let mut bytes = record;
            bytes[place] = value;
            assert_eq!(pair().call(&bytes), refused(21));
        }
    }
    for value in 0..=255 {
        for (place, lawful) in [(0, 1..=3), (1, 0..=1), (24, 0..=1)] {
            let mut bytes = record;
            bytes[place] = value;
            assert_eq!(Record::read(&bytes).is_some(), lawful.contains(&value));
        }
    }
    for (amount, lawful) in [
        (0, false),
        (1, true),
        (MAX_AMOUNT, true),
        (MAX_AMOUNT + 1, false),
        (u64::MAX, false),
    ] {
        let bytes = local(Home, 0, 1, 1, amount).bytes();
        assert_eq!(Record::read(&bytes).is_some(), lawful);
    }
}

#[test]
fn records_read_as_written() {
    for kind in [local, sending, arrival] {
        for ledger in [Home, Far] {
            let record = kind(ledger, 0x1234, 0xfedc, u64::MAX - 5, MAX_AMOUNT);
            assert_eq!(Record::read(&record.bytes()), Some(record));
            let bad = Record {
                good: false,
                ..record
            };
            assert_eq!(Record::read(&bad.bytes()), Some(bad));
        }
    }
}

#[test]
fn refusals_22_and_51_look_at_the_right_ledger() {
    // Home has accounts 0 and 1, far has 0.
    let answers = [
        (local(Home, 1, 1, 1, 1), Passed),
        (local(Home, 2, 0, 1, 1), refused(22)),
        (local(Home, 0, 2, 1, 1), refused(51)),
        (local(Home, 2, 2, 1, 1), refused(22)),
        (local(Far, 0, 0, 1, 1), Passed),
        (local(Far, 1, 0, 1, 1), refused(22)),
        (local(Far, 0, 1, 1, 1), refused(51)),
        (local(Far, 1, 1, 1, 1), refused(22)),
        (sending(Home, 1, 0, 1, 1), Passed),
        (sending(Home, 2, 0, 1, 1), refused(22)),
        (sending(Home, 0, 1, 1, 1), refused(51)),
        (sending(Home, 2, 1, 1, 1), refused(22)),
        (sending(Far, 0, 1, 1, 1), Passed),
        (sending(Far, 1, 0, 1, 1), refused(22)),
        (sending(Far, 0, 2, 1, 1), refused(51)),
        (sending(Far, 1, 2, 1, 1), refused(22)),
        (arrival(Home, 0, 1, 1, 1), refused(31)),
        (arrival(Home, 1, 0, 1, 1), refused(22)),
        (arrival(Home, 0, 2, 1, 1), refused(51)),
        (arrival(Home, 1, 2, 1, 1), refused(22)),
        (arrival(Far, 1, 0, 1, 1), refused(31)),
        (arrival(Far, 2, 0, 1, 1), refused(22)),
        (arrival(Far, 0, 1, 1, 1), refused(51)),
        (arrival(Far, 2, 1, 1, 1), refused(22)),
        (local(Home, 256, 0, 1, 1), refused(22)),
        (local(Home, 0, 256, 1, 1), refused(51)),
        (local(Home, 65_535, 0, 1, 1), refused(22)),
        (local(Home, 0, 65_535, 1, 1), refused(51)),
    ];
    for (record, answer) in answers {
        assert_eq!(pair().call(&record.bytes()), answer, "{record:?}");
        let of_guard = match (record.ledger(), answer) {
            (Far, _) => refused(33),
            (Home, answer) if answer == refused(31) => Passed,
            (Home, answer) => answer,
        };
        assert_eq!(guard().call(&record.bytes()), of_guard, "{record:?}");
    }
}

/// The kinds with the ledgers of their sender and receiver, by the paper.
fn kinds_and_ledgers() -> Vec<(Kind, Ledger, Ledger)> {
    let of_ledger = |ledger: Ledger| {
        [
            (Kind::Local(ledger), ledger, ledger),
            (Kind::Sending(ledger), ledger, ledger.other()),
            (Kind::Arrival(ledger), ledger.other(), ledger),
        ]
    };
    [Home, Far].into_iter().flat_map(of_ledger).collect()
}

/// Every account at the bounds of either ledger as sender with every one as
/// receiver, for each kind, with more accounts at home, at far, and alike.
#[test]
fn accounts_at_their_bounds() {
    for (home, far) in [
        (3, 1),
        (1, 3),
        (56, 2),
        (2, 56),
        (56, 55),
        (55, 56),
        (4, 4),
        (1, 1),
        (56, 56),
    ] {
        let book = PairBook::open(&vec![9; home], &vec![9; far], Charge::NONE).unwrap();
        let guard = Guard::open(&vec![9; home], far, 9 * far as u64, Charge::NONE).unwrap();
        let mut tried = vec![0, 55, 56, 57, 255, 256, 257, 0x8000, 65_535];
        for count in [home as u16, far as u16] {
            tried.extend([count - 1, count, count + 1, 256 + count - 1]);
        }
        tried.sort_unstable();
        tried.dedup();
        for (kind, from, to) in kinds_and_ledgers() {
            let open = |ledger, account: u16| {
                let count = if ledger == Home { home } else { far };
                usize::from(account) < count
            };
            for &sender in &tried {
                for &receiver in &tried {
                    let record = Record {
                        kind,
                        sender,
                        receiver,
                        number: 1,
                        amount: 1,
                        good: true,
                    };
                    let number = match (open(from, sender), open(to, receiver)) {
                        (false, _) => Some(22),
                        (true, false) => Some(51),
                        (true, true) => None,
                    };
                    let unsent = matches!(kind, Kind::Arrival(_)).then_some(31);
                    let of_pair = Answer::at(number.or(unsent), 0);
                    let far_one = (kind.ledger() == Far).then_some(33);
                    let of_guard = Answer::at(far_one.or(number), 0);
                    let bytes = record.bytes();
                    assert_eq!(book.clone().call(&bytes), of_pair, "{record:?}");
                    assert_eq!(guard.clone().call(&bytes), of_guard, "{record:?}");
                }
            }
        }
    }
}

/// Paper 02, U2: locals and sendings are counted together, on their ledger only.
#[test]
fn refusal_24_counts_locals_and_sendings_together() {
    for ledger in [Home, Far] {
        let own = [local(ledger, 0, 0, 5, 1), sending(ledger, 0, 0, 5, 1)];
        let there = [
            local(ledger.other(), 0, 0, 5, 1),
            sending(ledger.other(), 0, 0, 5, 1),
        ];
        for first in own {
            for second in own {
                let mut book = pair();
                assert_eq!(book.call(&first.bytes()), Passed);
                assert_eq!(book.call(&second.bytes()), refused(24));
                // An arrival is not stopped by them, but nobody has sent it.
                let unsent = arrival(ledger, 0, 0, 5, 1);
                assert_eq!(book.call(&unsent.bytes()), refused(31));
                assert_eq!(book.call(&there[0].bytes()), Passed);
                assert_eq!(book.call(&there[1].bytes()), refused(24));
            }
        }
    }
    for first in [local(Home, 0, 1, 5, 1), sending(Home, 0, 0, 5, 1)] {
        let mut guard = guard();
        assert_eq!(guard.call(&first.bytes()), Passed);
        for second in [local(Home, 0, 1, 5, 1), sending(Home, 0, 0, 5, 1)] {
            assert_eq!(guard.call(&second.bytes()), refused(24));
        }
        assert_eq!(guard.call(&arrival(Home, 0, 0, 5, 1).bytes()), Passed);
        assert_eq!(guard.call(&arrival(Home, 0, 0, 5, 1).bytes()), refused(24));
    }
}

/// Paper 02, U2: a local or sending strands no arrival, whichever comes first.
#[test]
fn refusal_24_counts_arrivals_apart() {
    for ledger in [Home, Far] {
        for own in [local(ledger, 0, 0, 5, 1), sending(ledger, 0, 0, 5, 1)] {
            let over = sending(ledger.other(), 0, 0, 5, 9);
            let due = over.matching_arrival();
            for order in [[own, over, due], [over, own, due], [over, due, own]] {
                let mut book = pair();
                for record in order {
                    assert_eq!(book.call(&record.bytes()), Passed, "{order:?}");
                }
                let flying = if own.gives() { 0 } else { 1 };
                assert_eq!(book.in_flight(), flying);
                for record in order {
                    assert_eq!(book.call(&record.bytes()), refused(24));
                }
                // 24 comes before 31.
                let other = Record { amount: 8, ..due };
                assert_eq!(book.call(&other.bytes()), refused(24));
                assert!(book.accepted());
            }
        }
    }
}

/// Paper 02, U2: two crossings in opposite directions under one number. Each
/// arrival finds the sending and not the arrival of the other crossing.
#[test]
fn two_crossings_share_a_number() {
    let over = sending(Home, 0, 0, 5, 9);
    let back = sending(Far, 0, 0, 5, 4);
    let mut book = pair();
    let steps = [
        (over, 0, 9),
        (over.matching_arrival(), 0, 0),
        // What arrived at far was not sent from there.
        (arrival(Home, 0, 0, 5, 9), 31, 0),
        (back, 0, 4),
        (arrival(Home, 0, 0, 5, 9), 31, 4),
        (back.matching_arrival(), 0, 0),
        (back.matching_arrival(), 24, 0),
        (over.matching_arrival(), 24, 0),
    ];
    for (record, answer, flight) in steps {
        assert_eq!(book.call(&record.bytes()).number(), answer, "{record:?}");
        assert_eq!(book.in_flight(), flight);
        assert!(book.accepted());
    }
    assert_eq!((book.home_total(), book.far_total()), (145, 25));
}

/// Paper 02, U2, in a state: two held records of one class under one number are
/// 3, an arrival and a local or sending are not.
#[test]
fn refusal_3_numbers_by_class() {
    let over = sending(Home, 0, 0, 7, 30);
    let held = |record: Record| Held::of(&record);
    // Home holds local 6, sending 7, arrival 8 and sending 9.
    assert_pair_refused(|book| book.sides[0].held.push(held(local(Home, 0, 0, 6, 1))));
    assert_pair_refused(|book| book.sides[0].held.push(held(local(Home, 0, 0, 7, 1))));
    assert_pair_refused(|book| book.sides[0].held.push(held(over)));
    assert_pair_refused(|book| {
        let twice = book.sides[0].held[2];
        book.sides[0].held.push(twice);
    });
    assert_pair_refused(|book| book.sides[1].held.insert(0, held(over.matching_arrival())));
    assert_guard_refused(|guard| guard.home.held.push(held(local(Home, 0, 0, 6, 1))));
    assert_guard_refused(|guard| guard.home.held.push(held(sending(Home, 0, 0, 6, 1))));
    assert_guard_refused(|guard| guard.home.held.push(held(over)));
    assert_guard_refused(|guard| guard.home.held.push(held(arrival(Home, 0, 0, 8, 1))));
    for own in [local(Home, 0, 0, 8, 1), local(Far, 0, 0, 7, 1)] {
        let mut book = traded();
        book.sides[own.ledger().index()].held.insert(0, held(own));
        assert!(book.accepted(), "{own:?}");
    }
    // A sending more is in flight.
    let mut book = traded();
    book.sides[0].held.push(held(sending(Home, 0, 0, 8, 2)));
    book.sides[0].balances[0] -= 2;
    assert!(book.accepted());
    for record in [
        local(Home, 0, 0, 8, 1),
        sending(Home, 0, 0, 8, 1),
        arrival(Home, 0, 0, 6, 1),
        arrival(Home, 0, 0, 7, 1),
    ] {
        let mut guard = traded_guard();
        guard.home.held.push(held(record));
        assert!(guard.accepted(), "{record:?}");
    }
}

/// Paper 02, U2: the 512 places serve both classes.
#[test]
fn both_classes_share_the_places() {
    let mut book = PairBook::open(&[1_000], &[1_000], Charge::NONE).unwrap();
    let mut guard = Guard::open(&[1_000], 1, 1_000, Charge::NONE).unwrap();
    let over = |number| sending(Far, 0, 0, number, 1);
    let own = |number| local(Home, 0, 0, number, 1);
    for number in 0..256 {
        assert_eq!(book.call(&over(number).bytes()), Passed);
        for record in [own(number), over(number).matching_arrival()] {
            assert_eq!(book.call(&record.bytes()), Passed);
            assert_eq!(guard.call(&record.bytes()), Passed);
        }
    }
    assert_eq!(book.call(&over(256).bytes()), Passed);
    for (record, of_pair, of_guard) in [
        (own(256), 41, 41),
        (own(255), 24, 24),
        (over(256).matching_arrival(), 41, 41),
        (over(255).matching_arrival(), 24, 24),
        (over(257).matching_arrival(), 31, 41),
    ] {
        assert_eq!(book.call(&record.bytes()), refused(of_pair));
        assert_eq!(guard.call(&record.bytes()), refused(of_guard));
    }
    assert!(book.accepted() && guard.accepted());
}

#[test]
fn order_of_the_pair_book() {
    let mut book = pair();
    for number in 0..512 {
        book.call(&local(Home, 0, 0, number, 1).bytes());
    }
    let fresh = local(Home, 0, 0, 600, 1);
    let uncovered = Record {
        amount: 101,
        ..fresh
    };
    let used = Record {
        number: 3,
        ..uncovered
    };
    let unsigned = Record {
        good: false,
        ..used
    };
    let no_receiver = Record {
        receiver: 9,
        ..unsigned
    };
    let absent = Record {
        sender: 9,
        ..no_receiver
    };
    let formless = Record {
        amount: 0,
        ..absent
    };
    let unmatched = arrival(Home, 0, 0, 600, 1);
    for (record, number) in [
        (fresh, 41),
        (uncovered, 25),
        (used, 24),
        (unsigned, 23),
        (no_receiver, 51),
        (absent, 22),
        (formless, 21),
        (unmatched, 31),
    ] {
        assert_eq!(book.call(&record.bytes()), refused(number));
    }
    book.stake += 1;
    assert_eq!(book.call(&formless.bytes()), refused(3));
}

#[test]
fn order_of_the_guard() {
    let mut guard = guard();
    guard.call(&arrival(Home, 0, 1, 3, 1).bytes());
    for number in 0..511 {
        guard.call(&local(Home, 0, 0, number, 1).bytes());
    }
    let fresh = arrival(Home, 0, 0, 600, 1);
    let undue = Record {
        amount: 21,
        ..fresh
    };
    let used = Record { number: 3, ..undue };
    let unsigned = Record {
        good: false,
        ..used
    };
    let no_receiver = Record {
        receiver: 9,
        ..unsigned
    };
    let absent = Record {
        sender: 9,
        ..no_receiver
    };
    let far = Record {
        kind: local(Far, 0, 0, 0, 1).kind,
        ..absent
    };
    let formless = Record { amount: 0, ..far };
    for (record, number) in [
        (fresh, 41),
        (undue, 32),
        (used, 24),
        (unsigned, 23),
        (no_receiver, 51),
        (absent, 22),
        (far, 33),
        (formless, 21),
        (local(Home, 0, 0, 600, 101), 25),
    ] {
        assert_eq!(guard.call(&record.bytes()), refused(number));
    }
    for record in [sending(Far, 0, 0, 1, 1), arrival(Far, 0, 0, 1, 1)] {
        assert_eq!(guard.call(&record.bytes()), refused(33));
    }
    guard.stake += 1;
    assert_eq!(guard.call(&formless.bytes()), refused(3));
}

/// 51 with one other refusal due beside it, for each kind on each ledger, with
/// places left and with full tables.
#[test]
fn refusal_51_beside_each_other() {
    for full in [false, true] {
        let mut book = PairBook::open(&[100, 50], &[20, 10, 5], Charge::NONE).unwrap();
        let mut guard = Guard::open(&[100, 50], 3, 35, Charge::NONE).unwrap();
        // Number 3 is used for arrivals too.
        let over = Ledger::BOTH.map(|ledger| sending(ledger, 0, 0, 3, 1));
        let mut records = over.to_vec();
        records.extend(over.map(|sent| sent.matching_arrival()));
        for number in 4..if full { 514 } else { 9 } {
            records.extend(Ledger::BOTH.map(|ledger| local(ledger, 0, 0, number, 1)));
        }
        for record in records {
            assert_eq!(book.call(&record.bytes()), Passed);
            if record.ledger() == Home {
                assert_eq!(guard.call(&record.bytes()), Passed);
            }
        }
        for (kind, from, to) in kinds_and_ledgers() {
            let beyond = |ledger: Ledger| if ledger == Home { 2 } else { 3 };
            let absent = Record {
                kind,
                sender: 0,
                receiver: beyond(to),
                number: 600,
                amount: 1,
                good: true,
            };
            let unsigned = Record {
                good: false,
                ..absent
            };
            let used = Record {
                number: 3,
                ..absent
            };
            let uncovered = Record {
                amount: 1_000,
                ..absent
            };
            let all_later = Record {
                good: false,
                number: 3,
                ..uncovered
            };
            for record in [absent, unsigned, used, uncovered, all_later] {
                let open = Record {
                    receiver: 0,
                    ..record
                };
                let both = Record {
                    sender: beyond(from),
                    ..record
                };
                let formless = Record {
                    amount: 0,
                    ..record
                };
                for (record, number) in [(record, 51), (both, 22), (formless, 21)] {
                    let bytes = record.bytes();
                    assert_eq!(book.call(&bytes), refused(number), "{record:?}");
                    let of_guard = match kind.ledger() {
                        Far if number != 21 => 33,
                        _ => number,
                    };
                    assert_eq!(guard.call(&bytes), refused(of_guard), "{record:?}");
                }
                // What is due once the account is open.
                let crossing = matches!(kind, Kind::Arrival(_));
                let (pair_cover, home_cover) = if crossing { (31, 32) } else { (25, 25) };
                let due = |cover, unsent| match open {
                    Record { good: false, .. } => 23,
                    Record { number: 3, .. } => 24,
                    Record { amount: 1_000, .. } => cover,
                    _ if unsent => 31,
                    _ if full => 41,
                    _ => 0,
                };
                let answer = book.clone().call(&open.bytes()).number();
                assert_eq!(answer, due(pair_cover, crossing), "{open:?}");
                if kind.ledger() == Home {
                    let answer = guard.clone().call(&open.bytes()).number();
                    assert_eq!(answer, due(home_cover, false), "{open:?}");
                }
            }
        }
        book.stake += 1;
        guard.stake += 1;
        let absent = local(Home, 0, 2, 600, 1).bytes();
        assert_eq!(book.call(&absent), refused(3));
        assert_eq!(guard.call(&absent), refused(3));
    }
}

#[test]
fn lists_tell_the_place_of_22_and_51() {
    let own = |number| local(Home, 0, 1, number, 1);
    let absent = [
        (local(Home, 0, 2, 3, 1), 51),
        (sending(Home, 0, 1, 3, 1), 51),
        (arrival(Home, 0, 2, 3, 1), 51),
        (local(Home, 2, 0, 3, 1), 22),
        (sending(Home, 2, 1, 3, 1), 22),
        (arrival(Home, 1, 0, 3, 1), 22),
    ];
    for (record, number) in absent {
        for place in 0..3 {
            let mut list = vec![own(1), own(2), own(4)];
            list.insert(place, record);
            // One that is refused too stands after it.
            list.push(local(Home, 2, 2, 5, 1));
            let bytes: Vec<u8> = list.iter().flat_map(Record::bytes).collect();
            let (mut book, mut watch) = (pair(), guard());
            let answer = refused_at(number, place as u64);
            assert_eq!(book.call_list(&bytes), answer, "{record:?}");
            assert_eq!(watch.call_list(&bytes), answer, "{record:?}");
            assert!(book == pair() && watch == guard());
        }
    }
}

#[test]
fn lists_pass_whole_or_not_at_all() {
    let over = sending(Home, 0, 0, 7, 30);
    let mut list = [over.bytes(), over.matching_arrival().bytes()].concat();
    let mut book = pair();
    assert_eq!(book.call_list(&[]), Passed);
    assert_eq!(book, pair());
    assert_eq!(book.call_list(&list), Passed);
    assert_eq!(book.far_total(), 50);

    let mut book = pair();
    list.extend(over.bytes());
    assert_eq!(book.call_list(&list), refused_at(24, 2));
    assert_eq!(book, pair());
    list.truncate(64 + 5);
    assert_eq!(book.call_list(&list), refused_at(21, 2));
    assert_eq!(book, pair());

    let mut guard = guard();
    let opened = guard.clone();
    assert_eq!(guard.call_list(&list), refused_at(33, 1));
    assert_eq!(guard, opened);
    assert_eq!(guard.call_list(&list[..33]), refused_at(21, 1));
    assert_eq!(guard, opened);
    assert_eq!(guard.call_list(&list[..32]), Passed);
    assert_eq!(guard.far_due, 50);
}

#[test]
fn arrival_of_a_sending_refused_for_a_full_table() {
    let mut book = pair();
    for number in 0..512 {
        book.call(&local(Home, 0, 0, number, 1).bytes());
    }
    let over = sending(Home, 0, 0, 600, 1);
    assert_eq!(book.call(&over.bytes()), refused(41));
    assert_eq!(book.call(&over.matching_arrival().bytes()), refused(31));
    // The full ledger's arrival is refused, its sending stays in flight.
    let back = sending(Far, 0, 0, 600, 2);
    assert_eq!(book.call(&back.bytes()), Passed);
    assert_eq!(book.call(&back.matching_arrival().bytes()), refused(41));
    assert_eq!(book.in_flight(), 2);
}
