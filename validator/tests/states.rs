//! The states as plain words: their layout, the cases of paper 01 through them,
//! forged ones, what stands beyond the counts; and the calls on blocks and
//! records that hand back plain numbers.

use second_validator::answer::Answer::{self, Passed};
use second_validator::charge::Charge;
use second_validator::journal::{
    block_balances, block_count, block_record, judge_place, part, seal, BLOCK, FULL,
};
use second_validator::record::Ledger::{self, Far, Home};
use second_validator::record::{record_encode, record_read, Held, Record, MAX_AMOUNT};
use second_validator::runner::build::{
    arrival, lawful_block, local, sending, stake_bytes, RESERVED,
};
use second_validator::runner::calls::fields::{Field, Fields};
use second_validator::runner::calls::{Oracle, Part};
use second_validator::runner::rng::Rng;
use second_validator::states::{
    bytes_of, words_of, HeldWords, HomeState, Layout, PairState, State,
};

fn refused(number: u8) -> Answer {
    refused_at(number, 0)
}

fn refused_at(number: u8, place: u64) -> Answer {
    Answer::Refused { number, place }
}

fn pair() -> Box<PairState> {
    let (answer, state) = PairState::open(&[100, 50], &[20], Charge::NONE);
    assert_eq!(answer, Passed);
    state
}

fn home() -> Box<HomeState> {
    let (answer, state) = HomeState::open(&[100, 50], 1, 20, Charge::NONE);
    assert_eq!(answer, Passed);
    state
}

fn over() -> Record {
    sending(Home, 0, 0, 7, 30)
}

/// A pair state with a local, an arrived sending and one in flight each way.
fn traded() -> Box<PairState> {
    let mut state = pair();
    let back = sending(Far, 0, 1, 8, 5);
    for record in [
        local(Home, 0, 1, 6, 1),
        over(),
        over().matching_arrival(),
        back,
        back.matching_arrival(),
        sending(Home, 1, 0, 9, 10),
        sending(Far, 0, 0, 10, 3),
    ] {
        assert_eq!(state.check_record(&record.bytes()), Passed);
    }
    state
}

fn traded_home() -> Box<HomeState> {
    let mut state = home();
    for record in [local(Home, 0, 1, 6, 1), over(), arrival(Home, 0, 1, 8, 45)] {
        assert_eq!(state.check_record(&record.bytes()), Passed);
    }
    state
}

fn assert_pair_refused(alter: impl Fn(&mut PairState)) {
    let mut state = traded();
    alter(&mut state);
    assert_pair_state_refused(&state);
}

fn assert_home_refused(alter: impl Fn(&mut HomeState)) {
    let mut state = traded_home();
    alter(&mut state);
    assert_home_state_refused(&state);
}

/// Every call refuses the state with 3, alters nothing and shows nothing.
fn assert_pair_state_refused(before: &PairState) {
    let mut state = before.clone();
    let record = local(Home, 0, 0, 77, 1).bytes();
    for bytes in [&record[..], &[], &record[..5], &[record, record].concat()] {
        assert_eq!(state.check_record(bytes), refused(3));
        assert_eq!(state.check_list(bytes), refused(3));
    }
    assert_eq!(state.figures(), (refused(3), [0; 3]));
    assert_eq!(state.balance(0, 0), (refused(3), 0));
    assert_eq!(state.balance(2, 60), (refused(3), 0));
    assert_eq!(state.places_left(), (refused(3), [0; 2]));
    assert!(state == *before);
}

fn assert_home_state_refused(before: &HomeState) {
    let mut state = before.clone();
    let record = local(Home, 0, 0, 77, 1).bytes();
    for bytes in [&record[..], &[], &record[..5], &[record, record].concat()] {
        assert_eq!(state.check_record(bytes), refused(3));
        assert_eq!(state.check_list(bytes), refused(3));
    }
    assert_eq!(state.figures(), (refused(3), [0; 2]));
    assert_eq!(state.balance(0), (refused(3), 0));
    assert_eq!(state.balance(60), (refused(3), 0));
    assert_eq!(state.places_left(), (refused(3), 0));
    assert!(state == *before);
}

/// The words of a held record.
fn held(record: &Record) -> HeldWords {
    words_of(&record.bytes())
}

/// The first entry of the far ledger's records.
const FAR: usize = 512;

/// Another value stands in a field of a state.
fn put<S: Fields>(field: Field, index: usize, value: u64) -> impl Fn(&mut S) {
    move |state| state.set(field, index, value)
}

/// A field of a state has become more, modulo 2^64.
fn more<S: Fields>(state: &mut S, field: Field, index: usize, more: u64) {
    let value = state.get(field, index).wrapping_add(more);
    state.set(field, index, value);
}

fn less<S: Fields>(state: &mut S, field: Field, index: usize, less: u64) {
    more(state, field, index, less.wrapping_neg());
}

#[test]
fn layout_of_the_states() {
    let mut state = PairState::ZERO;
    assert_eq!(state.words().len(), 4_215);
    for (word, value) in state.words_mut().iter_mut().zip(0..) {
        *word = value;
    }
    assert_eq!(state.held(0), [0, 1, 2, 3]);
    assert_eq!(state.held(511), [2_044, 2_045, 2_046, 2_047]);
    assert_eq!(state.held(FAR), [2_048, 2_049, 2_050, 2_051]);
    assert_eq!(state.held(FAR + 511)[3], 4_095);
    assert_eq!(
        (state.balances(0)[0], state.balances(0)[55]),
        (4_096, 4_151)
    );
    assert_eq!(
        (state.balances(1)[0], state.balances(1)[55]),
        (4_152, 4_207)
    );
    assert_eq!(
        (state.supply(), state.accounts(0), state.accounts(1)),
        (4_208, 4_209, 4_210)
    );
    assert_eq!((state.count(0), state.count(1)), (4_211, 4_212));
    assert_eq!(state.charge(), Charge::new(4_213, 4_214));
    let mut state = HomeState::ZERO;
    assert_eq!(state.words().len(), 2_111);
    for (word, value) in state.words_mut().iter_mut().zip(0..) {
        *word = value;
    }
    assert_eq!(state.held(0), [0, 1, 2, 3]);
    assert_eq!(state.held(511), [2_044, 2_045, 2_046, 2_047]);
    assert_eq!(
        (state.balances(0)[0], state.balances(0)[55]),
        (2_048, 2_103)
    );
    assert_eq!((state.supply(), state.pool()), (2_104, 2_105));
    assert_eq!(
        (state.accounts(0), state.accounts(1), state.count(0)),
        (2_106, 2_107, 2_108)
    );
    assert_eq!(state.charge(), Charge::new(2_109, 2_110));
    assert_eq!(size_of::<PairState>(), 8 * 4_215);
    assert_eq!(size_of::<HomeState>(), 8 * 2_111);
}

/// The fields by name are all the words, each bit once.
#[test]
fn fields_are_all_words() {
    fn assert_all<S: Fields>(mut state: S) {
        for &field in S::FIELDS {
            for index in 0..S::length(field) {
                assert_eq!(state.get(field, index), 0, "{field:?} {index}");
                state.set(field, index, u64::MAX);
            }
        }
        assert!(state.words().iter().all(|&word| word == u64::MAX));
    }
    assert_all(PairState::ZERO);
    assert_all(HomeState::ZERO);
}

#[test]
fn words_to_states_and_back() {
    let state = traded();
    assert!(PairState::from_words(state.words()) == *state);
    let state = traded_home();
    assert!(HomeState::from_words(state.words()) == *state);
    let any: Vec<u64> = (0..4_215).map(|i| u64::MAX - i).collect();
    assert_eq!(PairState::from_words(&any).words(), any);
    assert_eq!(HomeState::from_words(&any[..2_111]).words(), &any[..2_111]);
}

#[test]
#[should_panic]
fn too_few_words_make_no_state() {
    PairState::from_words(&[0; 4_214]);
}

#[test]
fn words_of_a_held_record() {
    let record = Held {
        kind: 1,
        ledger: 2,
        sender: 0x0304,
        receiver: 0x0506,
        number: 0x1112_1314_1516_1718,
        amount: 0x2122_2324_2526_2728,
        verdict: 0x31,
    };
    let words = [
        0x0102_0304_0506_0000,
        record.number,
        record.amount,
        0x31 << 56,
    ];
    assert_eq!(words_of(&record.bytes()), words);
    assert_eq!(bytes_of(words), record.bytes());
    let any: [u8; 32] = std::array::from_fn(|i| 0xf0 + i as u8 / 2);
    assert_eq!(bytes_of(words_of(&any)), any);
    let mut state = HomeState::ZERO;
    state.put_held(3, words);
    let fields = [
        1,
        2,
        0x0304,
        0x0506,
        0,
        record.number,
        record.amount,
        0x31,
        0,
    ];
    for (field, value) in Field::COLUMNS.into_iter().zip(fields) {
        assert_eq!(state.get(field, 3), value, "{field:?}");
    }
}

#[test]
fn openings() {
    let (answer, state) = PairState::open(&[1, 2, 3], &[4, 5], Charge::NONE);
    assert_eq!(answer, Passed);
    let mut right = PairState::ZERO;
    right.words[4_096..4_099].copy_from_slice(&[1, 2, 3]);
    right.words[4_152..4_154].copy_from_slice(&[4, 5]);
    right.words[4_208..].copy_from_slice(&[15, 3, 2, 0, 0, 0, 0]);
    assert!(*state == right);
    let (answer, state) = HomeState::open(&[1, 2, 3], 56, 9, Charge::NONE);
    assert_eq!(answer, Passed);
    let mut right = HomeState::ZERO;
    right.words[2_048..2_051].copy_from_slice(&[1, 2, 3]);
    right.words[2_104..].copy_from_slice(&[15, 9, 3, 56, 0, 0, 0]);
    assert!(*state == right);
}

#[test]
fn refused_openings_hand_back_zeros() {
    let top = u64::MAX;
    let openings: [(&[u64], &[u64], u8); 6] = [
        (&[], &[1], 1),
        (&[1], &[], 1),
        (&[top; 57], &[1], 1),
        (&[1], &[1; 57], 1),
        (&[MAX_AMOUNT], &[1], 2),
        (&[top, 1], &[0], 2),
    ];
    for (home, far, number) in openings {
        let (answer, state) = PairState::open(home, far, Charge::NONE);
        assert_eq!(answer, refused(number));
        assert!(*state == PairState::ZERO);
    }
    let openings: [(&[u64], usize, u64, u8); 6] = [
        (&[], 1, 0, 1),
        (&[1], 0, top, 1),
        (&[1], 57, 0, 1),
        (&[1], usize::MAX, 0, 1),
        (&[MAX_AMOUNT], 1, 1, 2),
        (&[1], 56, top, 2),
    ];
    for (home, fars, total, number) in openings {
        let (answer, state) = HomeState::open(home, fars, total, Charge::NONE);
        assert_eq!(answer, refused(number));
        assert!(*state == HomeState::ZERO);
    }
    // The state of zeros has no accounts.
    assert_eq!(PairState::ZERO.clone().check_list(&[]), refused(3));
    assert_eq!(HomeState::ZERO.clone().check_list(&[]), refused(3));
    assert_eq!(PairState::ZERO.places_left(), (refused(3), [0; 2]));
    assert_eq!(HomeState::ZERO.places_left(), (refused(3), 0));
}

#[test]
fn cases_1_to_4() {
    let mut state = pair();
    assert_eq!(state.check_record(&over().bytes()), Passed);
    assert_eq!(state.balances(0)[..2], [70, 50]);
    assert_eq!(state.figures(), (Passed, [120, 20, 30]));
    let other = arrival(Far, 0, 0, 7, 31).bytes();
    assert_eq!(state.check_record(&other), refused(31));
    let arrived = over().matching_arrival().bytes();
    assert_eq!(state.check_record(&arrived), Passed);
    assert_eq!(state.figures(), (Passed, [120, 50, 0]));
    assert_eq!(state.check_record(&arrived), refused(24));
    assert_eq!(state.balance(0, 0), (Passed, 70));
    assert_eq!(state.balance(0, 1), (Passed, 50));
    assert_eq!(state.balance(1, 0), (Passed, 50));
}

#[test]
fn cases_5_to_8() {
    let answer = |record: Record| pair().check_record(&record.bytes());
    assert_eq!(answer(local(Home, 1, 0, 1, 50)), Passed);
    assert_eq!(answer(local(Home, 1, 0, 1, 51)), refused(25));
    assert_eq!(answer(local(Home, 0, 0, 1, 100)), Passed);
    assert_eq!(answer(local(Home, 0, 0, 1, 101)), refused(25));
    assert_eq!(answer(local(Home, 2, 0, 1, 1)), refused(22));
    assert_eq!(answer(local(Home, 0, 2, 1, 1)), refused(51));
    assert_eq!(answer(local(Home, 2, 2, 1, 1)), refused(22));
    assert_eq!(answer(local(Home, 0, 0, 1, 0)), refused(21));
    assert_eq!(answer(local(Home, 0, 0, 1, MAX_AMOUNT)), refused(25));
    assert_eq!(answer(local(Home, 0, 0, 1, 1 << 63)), refused(21));
}

#[test]
fn case_9() {
    let arrived = |number, amount| arrival(Home, 0, 0, number, amount).bytes();
    assert_eq!(home().check_record(&arrived(1, 20)), Passed);
    assert_eq!(home().check_record(&arrived(1, 21)), refused(32));
    let mut state = home();
    assert_eq!(
        state.check_record(&sending(Home, 0, 0, 1, 30).bytes()),
        Passed
    );
    assert_eq!(state.figures(), (Passed, [120, 50]));
    assert_eq!(state.check_record(&arrived(2, 51)), refused(32));
    assert_eq!(state.check_record(&arrived(2, 50)), Passed);
    assert_eq!(state.figures(), (Passed, [170, 0]));
    assert_eq!(state.balance(0), (Passed, 120));
}

#[test]
fn case_13_through_lists() {
    let own = |number| local(Home, 0, 0, number, 1).bytes();
    let list: Vec<u8> = (0..513).flat_map(own).collect();
    let mut state = pair();
    let opened = state.clone();
    assert_eq!(state.check_list(&list), refused_at(41, 512));
    assert!(state == opened);
    assert_eq!(state.check_list(&list[..512 * 32]), Passed);
    assert_eq!((state.count(0), state.count(1)), (512, 0));
    assert_eq!(state.check_record(&own(512)), refused(41));
    assert_eq!(state.check_record(&own(511)), refused(24));
    assert_eq!(state.check_list(&[]), Passed);
    assert_eq!(
        state.check_record(&local(Far, 0, 0, 512, 1).bytes()),
        Passed
    );
    let mut state = home();
    assert_eq!(state.check_list(&list), refused_at(41, 512));
    assert_eq!(state.check_list(&list[..512 * 32]), Passed);
    assert_eq!(state.check_record(&own(512)), refused(41));
    assert_eq!(state.check_record(&own(511)), refused(24));
}

#[test]
fn a_passed_record_is_written_at_the_count() {
    let mut state = traded();
    let record = sending(Far, 0, 1, u64::MAX, 2);
    assert_eq!(state.check_record(&record.bytes()), Passed);
    assert_eq!((state.count(0), state.count(1)), (4, 4));
    let head = 0x0201_0000_0001_0000;
    assert_eq!(state.held(FAR + 3), [head, u64::MAX, 2, 1 << 56]);
    assert_eq!(state.held(3), held(&sending(Home, 1, 0, 9, 10)));
    let mut state = traded_home();
    let record = arrival(Home, 0, 1, 0, 2);
    assert_eq!(state.check_record(&record.bytes()), Passed);
    assert_eq!(state.count(0), 4);
    assert_eq!(state.held(3), held(&record));
}

/// Puts anything at and beyond the counts.
fn junk(state: &mut PairState) {
    let mut rng = Rng::new(4);
    for ledger in 0..2 {
        for place in state.count(ledger) as usize..512 {
            // One of the numbers in use, among others.
            let number = rng.pick(&[6, 7, 8, 0, u64::MAX]);
            let held = [rng.word(), number, rng.word(), rng.word()];
            state.put_held(FAR * ledger + place, held);
        }
    }
}

#[test]
fn entries_beyond_the_counts_stay() {
    let mut state = traded();
    junk(&mut state);
    let before = state.clone();
    assert_eq!(state.figures(), traded().figures());
    assert_eq!(state.places_left(), (Passed, [508, 509]));
    let list = [local(Home, 0, 1, 20, 1), local(Home, 1, 0, 21, 1)];
    let bytes: Vec<u8> = list.iter().flat_map(Record::bytes).collect();
    assert_eq!(
        state.check_list(&[&bytes[..], &[0; 32]].concat()),
        refused_at(21, 2)
    );
    assert_eq!(state.check_list(&bytes[..63]), refused_at(21, 1));
    assert_eq!(
        state.check_record(&local(Home, 0, 0, 6, 1).bytes()),
        refused(24)
    );
    assert!(state == before);
    assert_eq!(state.check_list(&bytes), Passed);
    assert_eq!((state.count(0), state.count(1)), (6, 3));
    for entry in (0..1_024).filter(|entry| ![4, 5].contains(entry)) {
        assert_eq!(state.held(entry), before.held(entry));
    }
    assert_eq!(state.held(4), held(&list[0]));
    assert_eq!(state.held(5), held(&list[1]));
    assert_eq!(state.words[4_096..4_211], before.words[4_096..4_211]);
}

#[test]
fn entries_beyond_the_count_of_the_guard_stay() {
    let mut state = traded_home();
    let odd = [77 << 56, 6, u64::MAX, 0];
    for entry in 3..512 {
        state.put_held(entry, odd);
    }
    let before = state.clone();
    assert_eq!(state.places_left(), (Passed, 509));
    assert_eq!(
        state.check_record(&local(Home, 0, 0, 6, 1).bytes()),
        refused(24)
    );
    assert!(state == before);
    assert_eq!(state.check_record(&local(Home, 0, 0, 5, 1).bytes()), Passed);
    assert_eq!(state.count(0), 4);
    assert!((4..512).all(|entry| state.held(entry) == odd));
}

/// A sending stands beyond the count, where no arrival finds it; an arrival
/// there lets no sending land, and a number there is not used.
#[test]
fn entries_beyond_the_counts_are_not_looked_at() {
    let mut state = traded();
    state.put_held(4, held(&sending(Home, 0, 0, 30, 2)));
    state.put_held(
        FAR + 3,
        held(&sending(Home, 1, 0, 9, 10).matching_arrival()),
    );
    assert_eq!(state.figures(), traded().figures());
    let unsent = arrival(Far, 0, 0, 30, 2).bytes();
    assert_eq!(state.check_record(&unsent), refused(31));
    assert_eq!(
        state.check_record(&local(Home, 0, 0, 30, 1).bytes()),
        Passed
    );
    let arrived = sending(Home, 1, 0, 9, 10).matching_arrival().bytes();
    assert_eq!(state.check_record(&arrived), Passed);
}

#[test]
fn counts_out_of_bounds() {
    for wrong in [0, 57, 112, 65_535, 1 << 32, (1 << 32) + 2, u64::MAX] {
        for ledger in [0, 1] {
            assert_pair_refused(put(Field::Accounts, ledger, wrong));
            assert_home_refused(put(Field::Accounts, ledger, wrong));
        }
    }
    for wrong in [
        513,
        514,
        1_024,
        1 << 32,
        (1 << 32) + 3,
        (1 << 63) + 3,
        u64::MAX,
    ] {
        for ledger in [0, 1] {
            assert_pair_refused(put(Field::Counts, ledger, wrong));
        }
        assert_home_refused(put(Field::Counts, 0, wrong));
    }
}

#[test]
fn forged_pair_states() {
    assert_pair_refused(|state| more(state, Field::Supply, 0, 1));
    assert_pair_refused(put(Field::Supply, 0, u64::MAX));
    assert_pair_refused(|state| more(state, Field::Balances, 0, 1));
    assert_pair_refused(|state| less(state, Field::Balances, 56, 1));
    // Sums agree, but not within the open accounts.
    for beyond in [2, 55, 57, 111] {
        assert_pair_refused(|state| {
            less(state, Field::Balances, 0, 1);
            more(state, Field::Balances, beyond, 1);
        });
    }
    // Sums agree modulo 2^64.
    assert_pair_refused(|state| {
        more(state, Field::Balances, 0, 1 << 63);
        more(state, Field::Balances, 1, 1 << 63);
    });
    // The supply agrees, but is too high.
    assert_pair_refused(|state| {
        let high = (1 << 63) - state.supply();
        more(state, Field::Balances, 0, high);
        more(state, Field::Supply, 0, high);
    });
    assert_pair_refused(put(Field::Numbers, 0, 7));
    assert_pair_refused(put(Field::Ledgers, 0, 1));
    assert_pair_refused(put(Field::Ledgers, FAR, 0));
    assert_pair_refused(put(Field::Senders, 0, 2));
    // The far ledger's first record is an arrival: it keeps its sending.
    assert_pair_refused(|state| more(state, Field::Amounts, FAR, 1));
    assert_pair_refused(put(Field::Numbers, FAR, 77));
    // One more record than there is: zeros do not read as one.
    assert_pair_refused(|state| more(state, Field::Counts, 0, 1));
}

#[test]
fn forged_home_states() {
    assert_home_refused(|state| more(state, Field::Supply, 0, 1));
    assert_home_refused(|state| more(state, Field::Pool, 0, 1));
    assert_home_refused(|state| less(state, Field::Balances, 1, 1));
    for beyond in [2, 55] {
        assert_home_refused(|state| {
            less(state, Field::Balances, 0, 1);
            more(state, Field::Balances, beyond, 1);
        });
    }
    assert_home_refused(|state| {
        more(state, Field::Balances, 0, 1 << 63);
        more(state, Field::Pool, 0, 1 << 63);
    });
    assert_home_refused(|state| {
        let high = (1 << 63) - state.supply();
        more(state, Field::Pool, 0, high);
        more(state, Field::Supply, 0, high);
    });
    assert_home_refused(put(Field::Numbers, 0, 7));
    assert_home_refused(put(Field::Kinds, 1, 9));
    assert_home_refused(put(Field::Ledgers, 1, 1));
    assert_home_refused(put(Field::Receivers, 1, 1));
    assert_home_refused(|state| more(state, Field::Counts, 0, 1));
}

/// What no held record may have: none of these alters a sum.
#[test]
fn forged_held_records() {
    let values = [
        (Field::Kinds, &[0, 4, 255][..]),
        (Field::Ledgers, &[2, 255]),
        (Field::Senders, &[2, 256, 65_535]),
        (Field::Receivers, &[2, 256, 65_535]),
        (Field::HeadZeros, &[1, 0x80, 0x0100, 0x8000]),
        (Field::Amounts, &[0, 1 << 63, u64::MAX]),
        (Field::Verdicts, &[0, 2, 255]),
        (
            Field::TailZeros,
            &[
                1,
                1 << 8,
                1 << 16,
                1 << 24,
                1 << 32,
                1 << 40,
                1 << 48,
                1 << 55,
            ],
        ),
    ];
    for (field, values) in values {
        for &value in values {
            // A local, both times.
            assert_pair_refused(put(field, 0, value));
            assert_home_refused(put(field, 0, value));
        }
    }
}

/// A held record with a sender, a receiver or both that are not open, on states
/// where home has more accounts and where far has. A sending and its arrival are
/// altered alike, so that nothing else is wrong.
#[test]
fn forged_held_accounts() {
    for counts in [[3_u64, 1], [1, 3]] {
        let good = crossed(counts);
        // The entries of a record and of its other half, and the ledgers of its
        // sender and receiver.
        for (entries, ledgers) in [
            ([0, 0], [0, 0]),
            ([FAR, FAR], [1, 1]),
            ([1, FAR + 3], [0, 1]),
            ([FAR + 1, 3], [1, 0]),
            ([2, 2], [0, 1]),
            ([FAR + 2, FAR + 2], [1, 0]),
        ] {
            for more in [0, 1, 253, 65_532] {
                let [sender, receiver] = ledgers.map(|ledger| counts[ledger] + more);
                let [sender, receiver] = [(Field::Senders, sender), (Field::Receivers, receiver)];
                for fields in [&[sender][..], &[receiver], &[sender, receiver]] {
                    let mut state = good.clone();
                    for entry in entries {
                        for &(field, account) in fields {
                            state.set(field, entry, account);
                        }
                    }
                    assert_pair_state_refused(&state);
                    if entries.iter().any(|&entry| entry < FAR) {
                        assert_home_state_refused(&home_of(&state));
                    }
                }
            }
        }
        assert_eq!(good.places_left().0, Passed);
        assert_eq!(home_of(&good).places_left().0, Passed);
    }
}

/// A pair state with so many accounts whose ledgers each hold a local, a sending
/// that has arrived, one in flight and an arrival.
fn crossed(counts: [u64; 2]) -> Box<PairState> {
    let [home, far] = counts.map(|count| vec![20; count as usize]);
    let (_, mut state) = PairState::open(&home, &far, Charge::NONE);
    let last = |ledger: Ledger| counts[ledger.index()] as u16 - 1;
    for ledger in [Home, Far] {
        let [here, there] = [last(ledger), last(ledger.other())];
        for record in [
            local(ledger, here, 0, 1, 1),
            sending(ledger, here, there, 2 + u64::from(ledger.byte()), 2),
            sending(ledger, 0, there, 4, 3),
        ] {
            assert_eq!(state.check_record(&record.bytes()), Passed);
        }
    }
    for ledger in [Home, Far] {
        let [here, there] = [last(ledger), last(ledger.other())];
        let number = 2 + u64::from(ledger.other().byte());
        let record = arrival(ledger, there, here, number, 2);
        assert_eq!(state.check_record(&record.bytes()), Passed);
    }
    state
}

/// The guard's state with home's part of a pair state.
fn home_of(state: &PairState) -> Box<HomeState> {
    let home = state.balances(0)[..state.accounts(0) as usize].to_vec();
    let rest = state.supply() - home.iter().sum::<u64>();
    let (answer, mut guard) =
        HomeState::open(&home, state.accounts(1) as usize, rest, Charge::NONE);
    assert_eq!(answer, Passed);
    for entry in 0..state.count(0) as usize {
        guard.put_held(entry, state.held(entry));
    }
    guard.words[HomeState::COUNTS] = state.count(0);
    guard
}

/// 22 and 51 of both checkers, by record and by list, leave every word of the
/// state, and a list tells their place.
#[test]
fn absent_accounts_leave_the_states() {
    for counts in [[3_u64, 1], [1, 3]] {
        let good = crossed(counts);
        let guard = home_of(&good);
        let [home, far] = counts.map(|count| count as u16);
        for (record, number) in [
            (local(Home, 0, home, 50, 1), 51),
            (local(Home, home, 0, 50, 1), 22),
            (local(Home, home, home, 50, 1), 22),
            (sending(Home, 0, far, 50, 1), 51),
            (sending(Home, home, 0, 50, 1), 22),
            (sending(Home, home, far, 50, 1), 22),
            (arrival(Home, 0, home, 50, 1), 51),
            (arrival(Home, far, 0, 50, 1), 22),
            (arrival(Home, far, home, 50, 1), 22),
            (local(Far, 0, far, 50, 1), 51),
            (sending(Far, 0, home, 50, 1), 51),
            (arrival(Far, 0, far, 50, 1), 51),
            (arrival(Far, home, far, 50, 1), 22),
        ] {
            let before = [local(Home, 0, 0, 51, 1), local(Home, 0, 0, 52, 1)];
            let mut list: Vec<u8> = before.iter().flat_map(Record::bytes).collect();
            list.extend(record.bytes());
            let mut state = good.clone();
            assert_eq!(state.check_record(&record.bytes()), refused(number));
            assert_eq!(state.check_list(&list), refused_at(number, 2));
            assert!(state == good);
            let number = if record.ledger() == Far { 33 } else { number };
            let mut state = guard.clone();
            assert_eq!(state.check_record(&record.bytes()), refused(number));
            assert_eq!(state.check_list(&list), refused_at(number, 2));
            assert!(state == guard);
        }
    }
}

/// A sending that differs from what its arrival wants in one byte alone: its
/// number has arrived all the same, so that no sum is altered but for the
/// number, which is then in flight.
#[test]
fn a_held_arrival_wants_its_sending() {
    for (arrival, sent) in [(FAR, 1), (2, FAR + 1)] {
        assert_eq!(traded().get(Field::Kinds, arrival), 3);
        assert_eq!(traded().get(Field::Kinds, sent), 2);
        for byte in 0..32 {
            for bit in 0..8 {
                assert_pair_refused(|state| {
                    let mut bytes = bytes_of(state.held(sent));
                    bytes[byte] ^= 1 << bit;
                    state.put_held(sent, words_of(&bytes));
                    if (8..16).contains(&byte) {
                        let amount = state.get(Field::Amounts, sent);
                        more(state, Field::Supply, 0, amount);
                    }
                });
            }
        }
        for kind in [1, 3] {
            assert_pair_refused(put(Field::Kinds, sent, kind));
        }
    }
}

#[test]
fn forged_states_that_are_accepted() {
    let record = local(Home, 0, 0, 77, 1).bytes();
    let alterations: [fn(&mut PairState); 7] = [
        |state| state.balances_mut(0).swap(0, 1),
        |state| {
            state.balances_mut(0)[0] += 3;
            state.balances_mut(1)[0] -= 3;
        },
        |state| state.set(Field::Amounts, 0, MAX_AMOUNT),
        |state| {
            for entry in [0, 2] {
                state.put_held(entry, traded().held(2 - entry));
            }
        },
        |state| {
            let high = MAX_AMOUNT - state.supply();
            state.balances_mut(0)[1] += high;
            state.words[PairState::SUPPLY] += high;
        },
        |state| state.set(Field::Accounts, 1, 56),
        |state| {
            // The far sending in flight never was.
            less(state, Field::Counts, 1, 1);
            state.balances_mut(1)[0] += 3;
        },
    ];
    for alter in alterations {
        let mut state = traded();
        alter(&mut state);
        assert_eq!(state.check_record(&record), Passed);
    }
    // The guard looks for no sending, and asks nothing of the amounts.
    let mut state = traded_home();
    state.set(Field::Kinds, 0, 3);
    state.set(Field::Amounts, 1, 5);
    assert_eq!(state.check_record(&record), Passed);
}

/// Paper 02, U2: every two kinds under one number on each ledger, the second
/// added at the end or at the beginning, with all sums in order.
#[test]
fn held_numbers_by_class() {
    let shapes: [Shape; 3] = [local, sending, arrival];
    for ledger in [Home, Far] {
        for (first, one) in shapes.iter().enumerate() {
            for (second, other) in shapes.iter().enumerate() {
                let of_number = |shape: &Shape| shape(ledger, 0, 0, 40, 2);
                let sent = sending(ledger.other(), 0, 0, 40, 2);
                let records = [sent, of_number(one), of_number(other)];
                let apart = (first == 2) != (second == 2);
                let answer = if apart { Passed } else { refused(3) };
                for front in [false, true] {
                    let mut state = traded();
                    for record in &records {
                        hold(&mut *state, record, front);
                    }
                    fit_supply(&mut state);
                    assert_eq!(state.figures().0, answer, "{records:?}");
                    let own = local(ledger, 0, 0, 77, 1).bytes();
                    assert_eq!(state.check_record(&own), answer);
                    assert_eq!(state.check_list(&[]), answer);
                    let mut state = traded_home();
                    if ledger == Home {
                        for record in &records[1..] {
                            hold(&mut *state, record, front);
                        }
                        assert_eq!(state.places_left().0, answer);
                        assert_eq!(state.check_record(&own), answer);
                        assert_eq!(state.check_list(&[]), answer);
                    }
                }
            }
        }
    }
}

type Shape = fn(Ledger, u16, u16, u64, u64) -> Record;

/// Adds a held record, or puts it first and the first one last.
fn hold<const N: usize>(state: &mut State<N>, record: &Record, front: bool)
where
    State<N>: Fields + Layout,
{
    let ledger = record.ledger().index();
    let first = 512 * ledger;
    let last = first + state.count(ledger) as usize;
    state.put_held(last, held(record));
    if front {
        let moved = state.held(first);
        state.put_held(first, held(record));
        state.put_held(last, moved);
    }
    more(state, Field::Counts, ledger, 1);
}

/// The supply becomes what the state comes to.
fn fit_supply(state: &mut PairState) {
    let book = state.book().unwrap();
    let sum = book.home_total() + book.far_total() + book.in_flight();
    state.words[PairState::SUPPLY] = u64::try_from(sum).unwrap();
}

/// Paper 02, U2: numbers of both classes that agree in their low 12 bits, to full
/// tables, alone and by one list.
#[test]
fn full_tables_of_alike_numbers() {
    let number = |step: u64| step << 12 | 0x7ff;
    let mut records = Vec::new();
    for step in 0..256 {
        let [over, back] = [Home, Far].map(|from| sending(from, 0, 0, number(step), 1));
        records.extend([over, back, over.matching_arrival(), back.matching_arrival()]);
    }
    let (_, mut state) = PairState::open(&[1_000], &[1_000], Charge::NONE);
    let (_, mut guard) = HomeState::open(&[1_000], 1, 1_000, Charge::NONE);
    let mut listed = state.clone();
    for record in &records {
        assert_eq!(state.check_record(&record.bytes()), Passed);
        if record.ledger() == Home {
            assert_eq!(guard.check_record(&record.bytes()), Passed);
        }
    }
    let bytes: Vec<u8> = records.iter().flat_map(Record::bytes).collect();
    assert_eq!(listed.check_list(&bytes), Passed);
    assert!(listed == state);
    assert_eq!(state.places_left(), (Passed, [0, 0]));
    assert_eq!(state.figures(), (Passed, [1_000, 1_000, 0]));
    assert_eq!(guard.places_left(), (Passed, 0));
    for record in &records {
        assert_eq!(state.check_record(&record.bytes()), refused(24));
        if record.ledger() == Home {
            assert_eq!(guard.check_record(&record.bytes()), refused(24));
        }
    }
    let fresh = local(Home, 0, 0, number(256), 1).bytes();
    assert_eq!(state.check_record(&fresh), refused(41));
    assert_eq!(guard.check_record(&fresh), refused(41));
}

/// The calls in place and those by value, on a passed and a refused record,
/// a passed and a refused list.
#[test]
fn calls_in_place_are_those_by_value() {
    let own = |number| local(Home, 0, 1, number, 1).bytes();
    let astray = local(Home, 0, 2, 21, 1).bytes();
    let list = [own(20), own(21)].concat();
    let late = [own(20), own(20)].concat();
    let lost = [own(20), astray].concat();
    for (pair, home) in [
        (traded(), traded_home()),
        (Box::new(PairState::ZERO), Box::new(HomeState::ZERO)),
    ] {
        let handed = [&own(20)[..], &own(6), &list, &late, &astray, &lost];
        for bytes in handed.into_iter().chain([&list[..40], &[]]) {
            let right = Oracle.pair_check_record(&pair, bytes);
            let mut state = pair.clone();
            assert_eq!(
                (Oracle.pair_take(&mut state, bytes), &state),
                (right.0, &right.1)
            );
            assert_eq!(right.0.passed(), pair != state);
            let right = Oracle.pair_check_list(&pair, bytes);
            let mut state = pair.clone();
            assert_eq!(
                (Oracle.pair_take_list(&mut state, bytes), &state),
                (right.0, &right.1)
            );
            assert!(right.0.passed() || pair == state);
            let right = Oracle.home_check_record(&home, bytes);
            let mut state = home.clone();
            assert_eq!(
                (Oracle.home_take(&mut state, bytes), &state),
                (right.0, &right.1)
            );
            assert_eq!(right.0.passed(), home != state);
            let right = Oracle.home_check_list(&home, bytes);
            let mut state = home.clone();
            assert_eq!(
                (Oracle.home_take_list(&mut state, bytes), &state),
                (right.0, &right.1)
            );
            assert!(right.0.passed() || home == state);
        }
    }
}

#[test]
fn balances_of_accounts() {
    let state = traded();
    for (ledger, account) in [
        (0, 2),
        (0, 55),
        (0, 56),
        (0, 65_535),
        (1, 1),
        (2, 0),
        (255, 0),
    ] {
        assert_eq!(state.balance(ledger, account), (refused(22), 0));
    }
    assert_eq!(state.balance(0, 1), (Passed, state.balances(0)[1]));
    assert_eq!(state.balance(1, 0), (Passed, state.balances(1)[0]));
    let state = traded_home();
    assert_eq!(state.balance(1), (Passed, state.balances(0)[1]));
    for account in [2, 55, 56, 65_535] {
        assert_eq!(state.balance(account), (refused(22), 0));
    }
    // Each ledger by its own number of accounts.
    let (_, more_at_far) = PairState::open(&[1], &[2; 3], Charge::NONE);
    assert_eq!(more_at_far.balance(0, 1), (refused(22), 0));
    assert_eq!(more_at_far.balance(1, 2), (Passed, 2));
    assert_eq!(more_at_far.balance(1, 3), (refused(22), 0));
    let (_, more_at_far) = HomeState::open(&[1], 3, 6, Charge::NONE);
    assert_eq!(more_at_far.balance(1), (refused(22), 0));
    let (_, full) = PairState::open(&[1; 56], &[2; 56], Charge::NONE);
    assert_eq!(full.balance(0, 55), (Passed, 1));
    assert_eq!(full.balance(1, 55), (Passed, 2));
    assert_eq!(full.balance(1, 56), (refused(22), 0));
}

#[test]
fn places_left_of_both_ledgers() {
    assert_eq!(pair().places_left(), (Passed, [512, 512]));
    assert_eq!(traded().places_left(), (Passed, [508, 509]));
    let mut state = traded();
    let before = state.clone();
    for (record, answer) in [
        (local(Home, 0, 0, 6, 1), refused(24)),
        (local(Far, 0, 0, 11, MAX_AMOUNT), refused(25)),
        (arrival(Far, 0, 0, 11, 1), refused(31)),
    ] {
        assert_eq!(state.check_record(&record.bytes()), answer);
        assert_eq!(state.places_left(), (Passed, [508, 509]));
    }
    assert!(state == before);
    // Each arrival and each sending takes a place on its own ledger.
    let arrived = sending(Home, 1, 0, 9, 10).matching_arrival();
    assert_eq!(state.check_record(&arrived.bytes()), Passed);
    assert_eq!(state.places_left(), (Passed, [508, 508]));
    let list = [sending(Home, 0, 0, 20, 1), sending(Home, 0, 0, 21, 1)];
    let bytes: Vec<u8> = list.iter().flat_map(Record::bytes).collect();
    assert_eq!(state.check_list(&bytes), Passed);
    assert_eq!(state.places_left(), (Passed, [506, 508]));
    assert_eq!(state.check_list(&bytes), refused(24));
    assert_eq!(state.places_left(), (Passed, [506, 508]));
    // A held record less leaves a place more, as far as it is accepted.
    less(&mut *state, Field::Counts, 0, 1);
    assert_eq!(state.places_left(), (refused(3), [0, 0]));
    state.balances_mut(0)[0] += 1;
    assert_eq!(state.places_left(), (Passed, [507, 508]));
}

#[test]
fn places_left_down_to_full_tables() {
    let mut state = pair();
    let mut guard = home();
    for number in 0..512 {
        let left = 512 - number;
        assert_eq!(state.places_left(), (Passed, [left, 512]));
        assert_eq!(guard.places_left(), (Passed, left));
        let record = local(Home, 0, 0, number, 1).bytes();
        assert_eq!(state.check_record(&record), Passed);
        assert_eq!(guard.check_record(&record), Passed);
    }
    let record = local(Home, 0, 0, 512, 1).bytes();
    assert_eq!(state.check_record(&record), refused(41));
    assert_eq!(state.places_left(), (Passed, [0, 512]));
    assert_eq!(guard.check_record(&record), refused(41));
    assert_eq!(guard.places_left(), (Passed, 0));
    let far = |number| local(Far, 0, 0, number, 1).bytes();
    let list: Vec<u8> = (0..511).flat_map(far).collect();
    assert_eq!(state.check_list(&list), Passed);
    assert_eq!(state.places_left(), (Passed, [0, 1]));
    assert_eq!(state.check_record(&far(511)), Passed);
    assert_eq!(state.places_left(), (Passed, [0, 0]));
    // A full table of a refused state is told as zeros too, and refused.
    state.words[PairState::SUPPLY] -= 1;
    assert_eq!(state.places_left(), (refused(3), [0, 0]));
    guard.words[HomeState::FAR_DUE] += 1;
    assert_eq!(guard.places_left(), (refused(3), 0));
}

#[test]
fn places_left_of_the_guard() {
    assert_eq!(home().places_left(), (Passed, 512));
    let mut state = traded_home();
    assert_eq!(state.places_left(), (Passed, 509));
    let far = local(Far, 0, 0, 1, 1).bytes();
    assert_eq!(state.check_record(&far), refused(33));
    assert_eq!(state.places_left(), (Passed, 509));
    assert_eq!(
        state.check_record(&arrival(Home, 0, 0, 1, 1).bytes()),
        Passed
    );
    assert_eq!(state.places_left(), (Passed, 508));
    // The guard asks nothing of what its records have moved.
    less(&mut *state, Field::Counts, 0, 1);
    assert_eq!(state.places_left(), (Passed, 509));
}

#[test]
fn figures_at_the_limit() {
    let (_, state) = PairState::open(&[MAX_AMOUNT - 1], &[1], Charge::NONE);
    assert_eq!(state.figures(), (Passed, [MAX_AMOUNT - 1, 1, 0]));
    let (_, state) = HomeState::open(&[0], 1, MAX_AMOUNT, Charge::NONE);
    assert_eq!(state.figures(), (Passed, [0, MAX_AMOUNT]));
}

#[test]
fn guard_is_given_far_records() {
    let far = local(Far, 0, 0, 1, 1).bytes();
    assert_eq!(home().check_record(&far), refused(33));
    let mut unreadable = far;
    unreadable[31] = 1;
    assert_eq!(home().check_record(&unreadable), refused(21));
    let list = [local(Home, 0, 0, 1, 1).bytes(), far].concat();
    assert_eq!(home().check_list(&list), refused_at(33, 1));
    let absent = local(Far, 9, 9, 1, 1).bytes();
    assert_eq!(home().check_record(&absent), refused(33));
}

#[test]
fn records_read_into_fields_and_back() {
    let record = arrival(Far, 0x1234, 0xfedc, u64::MAX, MAX_AMOUNT);
    let unsigned = Record {
        good: false,
        ..record
    };
    for record in [record, unsigned] {
        let fields = Held::of(&record);
        assert_eq!(record_read(&record.bytes()), (Passed, fields));
        assert_eq!(record_encode(&fields), (Passed, record.bytes()));
    }
    for length in (0..32).chain(33..40) {
        let mut bytes = record.bytes().to_vec();
        bytes.resize(length, 0);
        assert_eq!(record_read(&bytes), (refused(21), Held::ZERO));
    }
    for place in RESERVED {
        let mut bytes = record.bytes();
        bytes[place] = 1;
        assert_eq!(record_read(&bytes), (refused(21), Held::ZERO));
    }
}

#[test]
fn fields_that_do_not_make_a_record() {
    let right = Held::of(&local(Home, 0, 0, 0, 1));
    let alterations: [fn(&mut Held); 8] = [
        |fields| fields.kind = 0,
        |fields| fields.kind = 4,
        |fields| fields.ledger = 2,
        |fields| fields.verdict = 2,
        |fields| fields.verdict = 255,
        |fields| fields.amount = 0,
        |fields| fields.amount = 1 << 63,
        |fields| fields.amount = u64::MAX,
    ];
    for alter in alterations {
        let mut fields = right;
        alter(&mut fields);
        assert_eq!(record_encode(&fields), (refused(21), [0; 32]));
    }
    assert_eq!(record_encode(&right).0, Passed);
}

#[test]
fn records_of_blocks() {
    let items = Rng::new(1).bytes(3 * 32);
    let block = lawful_block(65_535, &items);
    for place in 0..3 {
        let bounds = [32 + 32 * place as usize, 32];
        let answer = block_record(&block, 65_535, 14, place);
        assert_eq!(answer, (Passed, bounds));
        let start = 32 * place as usize;
        assert_eq!(part(&block, 65_535, 14, place), &items[start..start + 32]);
    }
    for place in [3, 13, 14, 1 << 59, u64::MAX] {
        let answer = block_record(&block, 65_535, 14, place);
        assert_eq!(answer, (refused_at(4, 65_535), [0, 0]));
    }
    for (bytes, number, before) in [
        (&block[..], 65_535, 13),
        (&block[..], 65_536, 14),
        (&block[..], 65_534, 14),
        (&block[..511], 65_535, 14),
        (&[], 2, 14),
    ] {
        let (answer, bounds) = block_record(bytes, number, before, 0);
        assert!(!answer.passed());
        assert_eq!(answer, judge_place(bytes, number, before, 0));
        assert_eq!(bounds, [0, 0]);
    }
    let stakes = lawful_block(0, &stake_bytes(&[1, 2]));
    assert_eq!(block_record(&stakes, 0, 0, 0), (refused_at(4, 0), [0, 0]));
}

#[test]
fn counts_of_blocks() {
    for count in 1..=FULL {
        let block = lawful_block(3, &vec![9; 32 * count]);
        assert_eq!(block_count(&block, 3, 14), (Passed, count as u64));
        assert_eq!(block_count(&block, 3, u64::MAX), (Passed, count as u64));
        assert_eq!(block_count(&block, 3, 13), (refused_at(14, 3), 0));
        assert_eq!(block_count(&block, 4, 14), (refused_at(13, 4), 0));
    }
    for count in [1, 55, 56] {
        let block = lawful_block(1, &stake_bytes(&vec![9; count]));
        assert_eq!(block_count(&block, 1, 0), (Passed, count as u64));
    }
    assert_eq!(block_count(&[0; BLOCK], 0, 0), (refused_at(12, 0), 0));
    assert_eq!(block_count(&[], 70_000, 0), (refused_at(11, 70_000), 0));
}

#[test]
fn balances_of_blocks() {
    let zeros = [0; 56];
    for (number, count) in [(0, 1), (0, 55), (1, 2), (1, 56)] {
        let stakes: Vec<u64> = (0..count).map(|i| u64::MAX - i).collect();
        let block = lawful_block(number, &stake_bytes(&stakes));
        let (answer, (got, rate, account, balances)) = block_balances(&block, number, 0);
        assert_eq!((answer, got), (Passed, count));
        assert_eq!((rate, account), (0, 0));
        assert_eq!(balances[..count as usize], stakes[..]);
        assert!(balances[count as usize..].iter().all(|&b| b == 0));
        let other = 1 - number;
        let wrong = block_balances(&block, other, 0);
        assert_eq!(wrong, (refused_at(13, other), (0, 0, 0, zeros)));
    }
    let mut block = lawful_block(2, &[7; 64]);
    assert_eq!(
        block_balances(&block, 2, 0),
        (refused_at(4, 2), (0, 0, 0, zeros))
    );
    block[4] = 1;
    assert_eq!(
        block_balances(&block, 2, 0),
        (refused_at(12, 2), (0, 0, 0, zeros))
    );
    seal(&mut block);
    assert_eq!(
        block_balances(&block, 2, 0),
        (refused_at(14, 2), (0, 0, 0, zeros))
    );
    assert_eq!(
        block_balances(&[], 0, 0),
        (refused_at(11, 0), (0, 0, 0, zeros))
    );
}
