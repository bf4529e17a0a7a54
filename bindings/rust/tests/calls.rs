//! The crate's calls: the cases of document 01, the charge of document 02 (U3), states as bytes, journals.

use moatbetony::journal::{self, BlockKind, Opening};
use moatbetony::{
    sha256, Answer, HomeFigures, HomeValidator, Kind, Ledger, PairFigures, PairPlaces, PairValidator, Record, Refusal, Tariff,
    MAX_RATE, MAX_SUPPLY,
};

fn record(kind: Kind, ledger: Ledger, sender: u16, receiver: u16, number: u64, amount: u64) -> [u8; 32] {
    Record { kind, ledger, sender, receiver, number, amount, verified: true }.encode().expect("a record")
}

fn local(sender: u16, receiver: u16, number: u64, amount: u64) -> [u8; 32] {
    record(Kind::Local, Ledger::Home, sender, receiver, number, amount)
}

fn refused(refusal: Refusal, place: u64) -> Answer {
    Answer::Refused { refusal, place }
}

fn pair() -> PairValidator {
    PairValidator::open(&[100, 50], &[20], Tariff::FREE).expect("an opening")
}

fn home() -> HomeValidator {
    HomeValidator::open(&[100, 50], 1, 20, Tariff::FREE).expect("an opening")
}

#[test]
fn versions_agree() {
    assert_eq!(moatbetony::version(), moatbetony::VERSION);
    assert_eq!(moatbetony::state_version(), moatbetony::STATE_VERSION);
    assert_eq!(PairValidator::STATE_SIZE, 33_720);
    assert_eq!(HomeValidator::STATE_SIZE, 16_888);
}

#[test]
fn refusals_have_their_numbers() {
    let numbers: Vec<u32> = Refusal::ALL.iter().map(|refusal| refusal.number()).collect();
    assert_eq!(numbers, [1, 2, 3, 4, 11, 12, 13, 14, 21, 22, 23, 24, 25, 31, 32, 33, 41, 51, 52]);
    let error: Box<dyn std::error::Error> = Box::new(Refusal::AbovePool);
    assert_eq!(error.to_string(), "arrival above the far pool");
    assert_eq!(
        refused(Refusal::Balance, 3).to_string(),
        "refused with 25 at 3: balance too small (a home sending needs its charge too)"
    );
    assert_eq!(Refusal::Tariff.to_string(), "rate above 10,000, or charge account not open at home");
    assert_eq!(Answer::Passed.to_string(), "passed");
    assert_eq!(refused(Refusal::Full, 0).into_result(), Err(Refusal::Full));
}

#[test]
fn records_read_and_encode() {
    for kind in [Kind::Local, Kind::Sending, Kind::Arrival] {
        for ledger in [Ledger::Home, Ledger::Far] {
            for verified in [false, true] {
                let record =
                    Record { kind, ledger, sender: 0x0102, receiver: 0x0304, number: u64::MAX - 1, amount: MAX_SUPPLY, verified };
                let bytes = record.encode().expect("a record");
                assert_eq!(Record::read(&bytes), Ok(record));
                assert_eq!(bytes[..6], [kind.byte(), ledger.byte(), 1, 2, 3, 4]);
                assert_eq!(Record::read(&bytes[..31]), Err(Refusal::RecordForm));
            }
        }
    }
    let record = Record { kind: Kind::Local, ledger: Ledger::Home, sender: 0, receiver: 0, number: 0, amount: 0, verified: true };
    assert_eq!(record.encode(), Err(Refusal::RecordForm));
    assert_eq!(Record { amount: MAX_SUPPLY + 1, ..record }.encode(), Err(Refusal::RecordForm));
    assert_eq!(Record::read(&[]), Err(Refusal::RecordForm));
    assert_eq!(Ledger::Home.counterpart(), Ledger::Far);
}

#[test]
fn pair_validator_cases() {
    let mut it = pair();
    assert!(it.take(&record(Kind::Sending, Ledger::Home, 0, 0, 7, 30)).is_passed());
    assert_eq!(it.figures(), Ok(PairFigures { home: 120, far: 20, flight: 30 }));
    let more = record(Kind::Arrival, Ledger::Far, 0, 0, 7, 31);
    assert_eq!(it.take(&more), refused(Refusal::NoSending, 0));
    let arrival = record(Kind::Arrival, Ledger::Far, 0, 0, 7, 30);
    assert!(it.take(&arrival).is_passed());
    assert_eq!(it.figures(), Ok(PairFigures { home: 120, far: 50, flight: 0 }));
    let before = it.clone();
    assert_eq!(it.take(&arrival), refused(Refusal::NumberUsed, 0));
    assert_eq!(it, before);
    assert_eq!(it.balance(Ledger::Home, 0), Ok(70));
    assert_eq!(it.balance(Ledger::Far, 0), Ok(50));
    assert_eq!(it.balance(Ledger::Far, 1), Err(Refusal::Account));

    let mut it = pair();
    assert_eq!(it.take(&local(1, 0, 1, 51)), refused(Refusal::Balance, 0));
    assert_eq!(it.take(&local(2, 0, 1, 1)), refused(Refusal::Account, 0));
    assert_eq!(it.take(&local(0, 0, 1, MAX_SUPPLY)), refused(Refusal::Balance, 0));
    assert_eq!(it, pair());
    let list = [local(0, 1, 1, 100), local(1, 0, 2, 150), local(1, 0, 3, 1)].concat();
    assert_eq!(it.take_list(&list), refused(Refusal::Balance, 2));
    assert_eq!(it, pair());
    assert_eq!(it.take_list(&list[..65]), refused(Refusal::RecordForm, 2));
    assert_eq!(it, pair());
    assert!(it.take_list(&list[..64]).is_passed());
    assert_eq!(it.balance(Ledger::Home, 0), Ok(150));
    assert!(it.take_list(&[]).is_passed());
}

// On each ledger the numbers of arrivals are counted apart from those of locals and sendings.
#[test]
fn numbers_by_class() {
    let mut it = pair();
    assert!(it.take(&record(Kind::Sending, Ledger::Home, 0, 0, 7, 30)).is_passed());
    assert!(it.take(&record(Kind::Local, Ledger::Far, 0, 0, 7, 5)).is_passed());
    assert_eq!(it.take(&record(Kind::Sending, Ledger::Far, 0, 0, 7, 5)), refused(Refusal::NumberUsed, 0));
    let arrival = record(Kind::Arrival, Ledger::Far, 0, 0, 7, 30);
    assert!(it.take(&arrival).is_passed());
    assert_eq!(it.take(&arrival), refused(Refusal::NumberUsed, 0));
    assert_eq!(it.take(&record(Kind::Arrival, Ledger::Home, 0, 0, 7, 30)), refused(Refusal::NoSending, 0));

    let mut it = home();
    assert!(it.take(&local(0, 1, 7, 5)).is_passed());
    let arrival = record(Kind::Arrival, Ledger::Home, 0, 1, 7, 5);
    assert!(it.take(&arrival).is_passed());
    assert_eq!(it.take(&arrival), refused(Refusal::NumberUsed, 0));
    assert_eq!(it.take(&record(Kind::Sending, Ledger::Home, 0, 0, 7, 5)), refused(Refusal::NumberUsed, 0));
}

// Home has accounts 0 and 1, far has 0: of each kind the sender's account alone, the receiver's alone, and both.
#[test]
fn refusals_tell_the_account() {
    let (sender, receiver) = (refused(Refusal::Account, 0), refused(Refusal::Receiver, 0));
    for (kind, ledger, absent_sender, absent_receiver) in [
        (Kind::Local, Ledger::Home, 2, 2),
        (Kind::Sending, Ledger::Home, 2, 1),
        (Kind::Arrival, Ledger::Home, 1, 2),
        (Kind::Local, Ledger::Far, 1, 1),
        (Kind::Sending, Ledger::Far, 1, 2),
        (Kind::Arrival, Ledger::Far, 2, 1),
    ] {
        let record = |from, to| record(kind, ledger, from, to, 1, 1);
        let told = [(absent_sender, 0, sender), (0, absent_receiver, receiver), (absent_sender, absent_receiver, sender)];
        for (from, to, answer) in told {
            assert_eq!(pair().take(&record(from, to)), answer);
            assert_eq!(pair().check_record(&record(from, to)), answer);
            if ledger == Ledger::Home {
                assert_eq!(home().take(&record(from, to)), answer);
                assert_eq!(home().check_record(&record(from, to)), answer);
            }
        }
    }
    let list = [local(0, 1, 1, 1), local(0, 2, 2, 1)].concat();
    assert_eq!(pair().take_list(&list), refused(Refusal::Receiver, 1));
    assert_eq!(home().take_list(&list), refused(Refusal::Receiver, 1));
    assert_eq!(Refusal::Receiver.to_string(), "receiver's account not open");
}

// Each call in place beside its call by value, from the same state: the same answer, and every byte of the states; a refusal leaves it
// as it was.
macro_rules! in_place_as_by_value {
    ($test:ident, $type:ident, $opened:expr) => {
        #[test]
        fn $test() {
            let forged = [0, 0xff].map(|byte| $type::from_bytes(&[byte; $type::STATE_SIZE]).expect("a state's length"));
            let records = [
                local(0, 1, 1, 30),
                local(0, 1, 1, 30),
                local(0, 1, 2, 500),
                local(9, 0, 2, 1),
                record(Kind::Sending, Ledger::Home, 0, 0, 3, 30),
                record(Kind::Arrival, Ledger::Far, 0, 0, 3, 30),
                record(Kind::Arrival, Ledger::Home, 0, 0, 4, 50),
                [0; 32],
            ];
            let list = records.concat();
            let mut it = $opened;
            let mut passed = 0;
            for (i, record) in records.iter().enumerate() {
                for before in [&it, &forged[0], &forged[1]] {
                    for bytes in [&record[..], &record[..31], &[], &list[..32 * i], &list] {
                        let (mut in_place, mut by_value) = (before.clone(), before.clone());
                        let answer = in_place.take(bytes);
                        assert_eq!(answer, by_value.check_record(bytes));
                        assert_eq!(in_place, by_value);
                        assert!(answer.is_passed() || in_place == *before);
                        let (mut in_place, mut by_value) = (before.clone(), before.clone());
                        let answer = in_place.take_list(bytes);
                        assert_eq!(answer, by_value.check_list(bytes));
                        assert_eq!(in_place, by_value);
                        assert!(answer.is_passed() || in_place == *before);
                    }
                }
                passed += u32::from(it.take(record).is_passed());
            }
            assert_eq!(passed, 3);
        }
    };
}

in_place_as_by_value!(pair_in_place_as_by_value, PairValidator, pair());
in_place_as_by_value!(home_in_place_as_by_value, HomeValidator, home());

#[test]
fn openings() {
    let free = Tariff::FREE;
    assert_eq!(PairValidator::open(&[1; 57], &[1], free).err(), Some(Refusal::AccountCount));
    assert_eq!(PairValidator::open(&[], &[1], free).err(), Some(Refusal::AccountCount));
    assert!(PairValidator::open(&[1; 56], &[1; 56], free).is_ok());
    assert!(PairValidator::open(&[MAX_SUPPLY], &[0], free).is_ok());
    assert_eq!(PairValidator::open(&[MAX_SUPPLY], &[1], free).err(), Some(Refusal::Supply));
    assert_eq!(HomeValidator::open(&[1], 57, 0, free).err(), Some(Refusal::AccountCount));
    assert_eq!(HomeValidator::open(&[1], 1, MAX_SUPPLY, free).err(), Some(Refusal::Supply));
}

// Rate and account as they came, in both openings; 52 after 1 and 2, at rate 0 too, and of numbers that 16 bits would cut.
#[test]
fn tariffs_of_openings() {
    for (rate, charge_account, refusal) in [
        (0, 1, None),
        (MAX_RATE, 1, None),
        (MAX_RATE + 1, 1, Some(Refusal::Tariff)),
        (65_536, 1, Some(Refusal::Tariff)),
        (u64::MAX, 1, Some(Refusal::Tariff)),
        (0, 2, Some(Refusal::Tariff)),
        (50, 2, Some(Refusal::Tariff)),
        (50, 65_537, Some(Refusal::Tariff)),
        (0, u64::MAX, Some(Refusal::Tariff)),
    ] {
        let tariff = Tariff { rate, charge_account };
        let opened = PairValidator::open(&[100, 50], &[20, 0, 0], tariff);
        assert_eq!(opened.and_then(|it| it.tariff()), refusal.map_or(Ok(tariff), Err));
        let opened = HomeValidator::open(&[100, 50], 3, 20, tariff);
        assert_eq!(opened.and_then(|it| it.tariff()), refusal.map_or(Ok(tariff), Err));
        if refusal.is_some() {
            assert_eq!(PairValidator::open(&[], &[20], tariff).err(), Some(Refusal::AccountCount));
            assert_eq!(PairValidator::open(&[MAX_SUPPLY, 0], &[1], tariff).err(), Some(Refusal::Supply));
            assert_eq!(HomeValidator::open(&[100, 50], 0, 20, tariff).err(), Some(Refusal::AccountCount));
            assert_eq!(HomeValidator::open(&[100, 50], 1, MAX_SUPPLY, tariff).err(), Some(Refusal::Supply));
        }
    }
}

// What a sending costs, told before it is made: by its rate alone, for every amount.
#[test]
fn charges_are_told() {
    let charge = |rate, amount| Tariff { rate, charge_account: u64::MAX }.charge(amount);
    for (rate, amount, told) in [
        (0, u64::MAX, 0),
        (50, 0, 0),
        (50, 199, 0),
        (50, 200, 1),
        (50, 399, 1),
        (50, 400, 2),
        (1, 10_001, 1),
        (9_999, 10_001, 9_999),
        (9_999, MAX_SUPPLY, 9_222_449_699_651_090_329),
        (9_999, u64::MAX, 18_444_899_399_302_180_659),
        (MAX_RATE, 1, 1),
        (MAX_RATE, MAX_SUPPLY, MAX_SUPPLY),
        (MAX_RATE, u64::MAX, u64::MAX),
    ] {
        assert_eq!(charge(rate, amount), Ok(told), "rate {rate}, amount {amount}");
    }
    for rate in [MAX_RATE + 1, (1 << 16) + 50, (1 << 32) + 50, u64::MAX] {
        for amount in [0, 1, u64::MAX] {
            assert_eq!(charge(rate, amount), Err(Refusal::Tariff), "rate {rate}, amount {amount}");
        }
    }
    assert_eq!(Refusal::Tariff.number(), 52);
}

// A home sending takes amount and charge, and pays the charge; nothing else costs more than its amount. At rate 500: 96 and 4 are 100.
#[test]
fn charges() {
    let tariff = Tariff { rate: 500, charge_account: 1 };
    let sending = |sender, number, amount| record(Kind::Sending, Ledger::Home, sender, 0, number, amount);
    let mut it = PairValidator::open(&[100, 50], &[20], tariff).expect("an opening");
    assert_eq!(tariff.charge(96), Ok(4));
    assert_eq!(it.take(&sending(0, 7, 97)), refused(Refusal::Balance, 0));
    assert!(it.take(&sending(0, 7, 96)).is_passed());
    assert_eq!((it.balance(Ledger::Home, 0), it.balance(Ledger::Home, 1)), (Ok(0), Ok(54)));
    assert_eq!(it.figures(), Ok(PairFigures { home: 54, far: 20, flight: 96 }));
    let others = [
        record(Kind::Arrival, Ledger::Far, 0, 0, 7, 96),
        record(Kind::Sending, Ledger::Far, 0, 0, 8, 116),
        record(Kind::Arrival, Ledger::Home, 0, 0, 8, 116),
        local(0, 1, 9, 116),
    ];
    assert!(it.take_list(&others.concat()).is_passed());
    assert_eq!(it.balance(Ledger::Home, 1), Ok(170));
    // The charge account needs both, and then gets the charge.
    assert_eq!(it.take(&sending(1, 10, 163)), refused(Refusal::Balance, 0));
    assert!(it.take(&sending(1, 10, 162)).is_passed());
    assert_eq!(it.figures(), Ok(PairFigures { home: 8, far: 0, flight: 162 }));
    assert_eq!((it.balance(Ledger::Home, 1), it.tariff()), (Ok(8), Ok(tariff)));

    let mut it = HomeValidator::open(&[100, 50], 1, 20, tariff).expect("an opening");
    assert_eq!(it.take_list(&[sending(1, 6, 1), sending(0, 7, 97)].concat()), refused(Refusal::Balance, 1));
    assert!(it.take(&sending(0, 7, 96)).is_passed());
    assert_eq!((it.balance(0), it.balance(1)), (Ok(0), Ok(54)));
    assert_eq!(it.figures(), Ok(HomeFigures { home: 54, pool: 116 }));
    assert!(it.take(&record(Kind::Arrival, Ledger::Home, 0, 0, 7, 116)).is_passed());
    assert_eq!((it.balance(0), it.tariff()), (Ok(116), Ok(tariff)));
}

#[test]
fn home_validator_cases() {
    let arrival = |number, amount| record(Kind::Arrival, Ledger::Home, 0, 0, number, amount);
    let mut it = home();
    assert_eq!(it.take(&arrival(1, 21)), refused(Refusal::AbovePool, 0));
    assert!(it.take(&arrival(1, 20)).is_passed());
    let mut it = home();
    assert!(it.take(&record(Kind::Sending, Ledger::Home, 0, 0, 1, 30)).is_passed());
    assert_eq!(it.take(&arrival(2, 51)), refused(Refusal::AbovePool, 0));
    assert_eq!(it.figures(), Ok(HomeFigures { home: 120, pool: 50 }));
    assert!(it.take(&arrival(2, 50)).is_passed());
    assert_eq!(it.figures(), Ok(HomeFigures { home: 170, pool: 0 }));
    assert_eq!(it.balance(0), Ok(120));
    assert_eq!(it.balance(2), Err(Refusal::Account));
    let far = record(Kind::Local, Ledger::Far, 0, 0, 3, 1);
    assert_eq!(it.take_list(&[local(0, 0, 3, 1), far].concat()), refused(Refusal::FarRecord, 1));
}

#[test]
fn ledgers_fill_up() {
    let mut it = home();
    for number in 0..512 {
        assert_eq!(it.places_left(), Ok(512 - number));
        assert!(it.take(&local(0, 0, number, 1)).is_passed());
    }
    assert_eq!(it.places_left(), Ok(0));
    assert_eq!(it.take(&local(0, 0, 512, 1)), refused(Refusal::Full, 0));
    assert_eq!(it.take(&local(0, 0, 511, 1)), refused(Refusal::NumberUsed, 0));
    assert_eq!(it.places_left(), Ok(0));

    let mut it = pair();
    assert_eq!(it.places_left(), Ok(PairPlaces { home: 512, far: 512 }));
    assert!(it.take(&record(Kind::Sending, Ledger::Home, 0, 0, 7, 30)).is_passed());
    assert!(it.take(&local(0, 1, 8, 5)).is_passed());
    assert_eq!(it.take(&local(0, 1, 8, 5)), refused(Refusal::NumberUsed, 0));
    assert!(it.take(&record(Kind::Arrival, Ledger::Far, 0, 0, 7, 30)).is_passed());
    assert_eq!(it.places_left(), Ok(PairPlaces { home: 510, far: 511 }));
    let list: Vec<u8> = (0..511).flat_map(|n| record(Kind::Local, Ledger::Far, 0, 0, 1000 + n, 1)).collect();
    assert!(it.take_list(&list).is_passed());
    assert_eq!(it.places_left(), Ok(PairPlaces { home: 510, far: 0 }));
    assert_eq!(it.take(&record(Kind::Local, Ledger::Far, 0, 0, 9, 1)), refused(Refusal::Full, 0));
    assert!(it.take(&local(0, 1, 9, 1)).is_passed());
}

#[test]
fn states_as_bytes() {
    let mut it = home();
    assert!(it.take(&local(0, 1, 1, 30)).is_passed());
    assert_eq!(it.as_bytes().len(), HomeValidator::STATE_SIZE);
    // Bytes need not be aligned.
    let stored = [&[0], it.as_bytes()].concat();
    assert_eq!(HomeValidator::from_bytes(&stored[1..]), Some(it.clone()));
    assert!(HomeValidator::from_bytes(&stored).is_none());
    assert!(HomeValidator::from_bytes(&[]).is_none());
    assert!(PairValidator::from_bytes(it.as_bytes()).is_none());
    assert!(PairValidator::from_bytes(pair().as_bytes()) == Some(pair()));

    // A forged state is taken up, refused by every call, and stays as it is.
    for bytes in [vec![0; HomeValidator::STATE_SIZE], vec![0xff; HomeValidator::STATE_SIZE]] {
        let mut forged = HomeValidator::from_bytes(&bytes).expect("a state's length");
        assert_eq!(forged.take(&local(0, 0, 9, 1)), refused(Refusal::State, 0));
        assert_eq!(forged.take_list(&[]), refused(Refusal::State, 0));
        assert_eq!(forged.figures(), Err(Refusal::State));
        assert_eq!(forged.balance(0), Err(Refusal::State));
        assert_eq!(forged.places_left(), Err(Refusal::State));
        assert_eq!(forged.as_bytes(), bytes);
    }
    // Its last two words are rate and charge account.
    for (word, value) in [(2, MAX_RATE + 1), (1, 2)] {
        let mut bytes = home().as_bytes().to_vec();
        let at = bytes.len() - 8 * word;
        bytes[at..at + 8].copy_from_slice(&value.to_le_bytes());
        let forged = HomeValidator::from_bytes(&bytes).expect("a state's length");
        assert_eq!((forged.figures(), forged.tariff()), (Err(Refusal::State), Err(Refusal::State)));
    }
    let mut forged = PairValidator::from_bytes(&[0xff; PairValidator::STATE_SIZE]).expect("a state's length");
    assert_eq!(forged.take(&[]), refused(Refusal::State, 0));
    assert_eq!(forged.take_list(&[]), refused(Refusal::State, 0));
    assert_eq!(forged.figures(), Err(Refusal::State));
    assert_eq!(forged.balance(Ledger::Far, 0), Err(Refusal::State));
    assert_eq!(forged.places_left(), Err(Refusal::State));
}

#[test]
fn states_print_short() {
    assert_eq!(
        format!("{:?}", pair()),
        "PairValidator { supply: 170, accounts: [2, 1], counts: [0, 0], rate: 0, charge_account: 0, .. }"
    );
    assert_eq!(
        format!("{:?}", home()),
        "HomeValidator { supply: 170, pool: 20, home_accounts: 2, far_accounts: 1, count: 0, rate: 0, charge_account: 0, .. }"
    );
}

#[test]
fn threads_have_states_of_their_own() {
    fn anywhere<T: Send + Sync + 'static>() {}
    anywhere::<PairValidator>();
    anywhere::<HomeValidator>();
    let threads: Vec<_> = (0..8)
        .map(|t| {
            std::thread::spawn(move || {
                let mut it = pair();
                for number in 0..100 {
                    assert!(it.take(&local(0, 1, number, 1)).is_passed());
                    assert_eq!(it.take(&local(0, 1, number, 1 + t)), refused(Refusal::NumberUsed, 0));
                }
                it.figures()
            })
        })
        .collect();
    for thread in threads {
        assert_eq!(thread.join().expect("a thread"), Ok(PairFigures { home: 150, far: 20, flight: 0 }));
    }
}

// A call on a thread with so much stack, as the crate's front page says, at full tables. One that needs more ends the test by a signal.
fn fits(stack: usize, calls: fn()) {
    std::thread::Builder::new().stack_size(stack).spawn(calls).expect("a thread").join().expect("the calls pass");
}

#[test]
fn calls_fit_their_stacks() {
    fn list() -> Vec<u8> {
        (0..512).flat_map(|number| local(0, 1, number << 16, 1)).collect()
    }
    fits(256 * 1024, || {
        let mut it = PairValidator::open(&[1000; 56], &[0; 56], Tariff::FREE).expect("an opening");
        let before = it.clone();
        let mut by_value = it.clone();
        assert!(it.take_list(&list()).is_passed() && by_value.check_list(&list()).is_passed());
        assert_eq!(it.take(&local(0, 1, 1, 1)), refused(Refusal::Full, 0));
        assert_eq!(by_value.check_record(&local(0, 1, 1, 1)), refused(Refusal::Full, 0));
        assert_eq!(it, by_value);
        assert_eq!(it.balance(Ledger::Home, 0), Ok(488));
        assert_eq!(it.places_left(), Ok(PairPlaces { home: 0, far: 512 }));
        assert!(it.figures().is_ok() && it != before && PairValidator::from_bytes(it.as_bytes()) == Some(it));
    });
    fits(128 * 1024, || {
        let mut it = HomeValidator::open(&[1000; 56], 56, 0, Tariff::FREE).expect("an opening");
        let before = it.clone();
        let mut by_value = it.clone();
        assert!(it.take_list(&list()).is_passed() && by_value.check_list(&list()).is_passed());
        assert_eq!(it.take(&local(0, 1, 1, 1)), refused(Refusal::Full, 0));
        assert_eq!(by_value.check_record(&local(0, 1, 1, 1)), refused(Refusal::Full, 0));
        assert_eq!(it, by_value);
        assert_eq!(it.balance(0), Ok(488));
        assert_eq!(it.places_left(), Ok(0));
        assert!(it.figures().is_ok() && it != before && HomeValidator::from_bytes(it.as_bytes()) == Some(it));
    });
}

#[test]
fn journal_blocks() {
    let items: Vec<u8> = (0..14).flat_map(|n| local(0, 1, n, 1 + n)).collect();
    let mut block = [0xee; journal::BLOCK_SIZE];
    let free = Tariff::FREE;
    assert_eq!(journal::write_block(&mut block, 3, BlockKind::HomeBalances, free, &items), refused(Refusal::BlockRequest, 3));
    assert_eq!(journal::write_block(&mut block[1..], 3, BlockKind::Records, free, &items), refused(Refusal::BlockRequest, 3));
    assert_eq!(journal::write_block(&mut block, 3, BlockKind::Records, free, &[]), refused(Refusal::BlockRequest, 3));
    assert_eq!(block, [0xee; journal::BLOCK_SIZE]);
    assert!(journal::write_block(&mut block, 3, BlockKind::of(3), free, &items).is_passed());
    assert_eq!(block[480..], sha256(&block[..480]));
    assert!(journal::judge(&block, 3, 14).is_passed());
    assert_eq!(journal::judge(&block, 3, 13), refused(Refusal::BlockForm, 3));
    assert_eq!(journal::judge(&block, 4, 14), refused(Refusal::BlockNumber, 4));
    assert_eq!(journal::judge(&[], 4, 14), refused(Refusal::BlockMissing, 4));
    assert_eq!(journal::count(&block, 3, 14), Ok(14));
    for place in 0..14 {
        assert!(journal::judge_record(&block, 3, 14, place).is_passed());
        let part = journal::record_part(&block, 3, 14, place).expect("a record");
        assert_eq!(part, local(0, 1, place, 1 + place));
        assert!(block.as_ptr_range().contains(&part.as_ptr()));
    }
    assert_eq!(journal::judge_record(&block, 3, 14, 14), refused(Refusal::BlockRequest, 3));
    assert_eq!(journal::record_part(&block, 3, 14, 1 << 32), Err(Refusal::BlockRequest));
    assert_eq!(journal::opening_balances(&block, 3, 14), Err(Refusal::BlockRequest));
    block[100] ^= 1;
    assert_eq!(journal::judge(&block, 3, 14), refused(Refusal::BlockCheck, 3));
    assert_eq!(journal::record_part(&block, 3, 14, 0), Err(Refusal::BlockCheck));
    assert_eq!(journal::count(&block, 3, 14), Err(Refusal::BlockCheck));

    let balances: Vec<u8> = (1..=56u64).flat_map(u64::to_be_bytes).collect();
    assert!(journal::write_block(&mut block, 1, BlockKind::FarBalances, free, &balances).is_passed());
    assert_eq!(journal::opening_balances(&block, 1, 0), Ok(Opening { balances: (1..=56).collect(), tariff: free }));
    assert_eq!(journal::record_part(&block, 1, 0, 0), Err(Refusal::BlockRequest));
}

// Block 0 has rate and charge account; no other block looks at them.
#[test]
fn journal_tariffs() {
    let items = [100u64.to_be_bytes(), 50u64.to_be_bytes()].concat();
    let mut block = [0xee; journal::BLOCK_SIZE];
    let write = |block: &mut [u8], rate, charge_account| {
        journal::write_block(block, 0, BlockKind::HomeBalances, Tariff { rate, charge_account }, &items)
    };
    for (rate, charge_account) in [(MAX_RATE + 1, 0), (65_536, 0), (0, 2), (0, 65_536), (u64::MAX, u64::MAX)] {
        assert_eq!(write(&mut block, rate, charge_account), refused(Refusal::BlockRequest, 0));
        assert_eq!(block, [0xee; journal::BLOCK_SIZE]);
    }
    assert!(write(&mut block, 50, 1).is_passed());
    assert_eq!(block[6..10], [0, 50, 0, 1]);
    let tariff = Tariff { rate: 50, charge_account: 1 };
    assert_eq!(journal::opening_balances(&block, 0, 0), Ok(Opening { balances: vec![100, 50], tariff }));
    // A block by hand whose charge account is not open.
    block[9] = 2;
    let digest = sha256(&block[..480]);
    block[480..].copy_from_slice(&digest);
    assert_eq!(journal::judge(&block, 0, 0), refused(Refusal::Tariff, 0));
    assert_eq!(journal::judge_record(&block, 0, 0, 0), refused(Refusal::Tariff, 0));
    assert_eq!(journal::count(&block, 0, 0), Err(Refusal::Tariff));
    assert_eq!(journal::opening_balances(&block, 0, 0), Err(Refusal::Tariff));
    assert_eq!(journal::judge(&block, 1, 0), refused(Refusal::BlockNumber, 1));

    let wrong = Tariff { rate: u64::MAX, charge_account: u64::MAX };
    assert!(journal::write_block(&mut block, 1, BlockKind::FarBalances, wrong, &items).is_passed());
    assert_eq!(block[6..32], [0; 26]);
    assert_eq!(journal::opening_balances(&block, 1, 0), Ok(Opening { balances: vec![100, 50], tariff: Tariff::FREE }));
}
