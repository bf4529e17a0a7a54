//! The comparison of calls: the library against itself, and against parts that
//! are wrong in one thing each.

use std::collections::BTreeSet;

use second_validator::answer::Answer::{self, Passed, Refused};
use second_validator::charge::Charge;
use second_validator::journal::{seal, Stakes};
use second_validator::record::{Held, Kind, Ledger, Record, MAX_AMOUNT, RECORD};
use second_validator::runner::calls::fields::{Field, Fields};
use second_validator::runner::calls::{compare, Oracle, Part};
use second_validator::states::{bytes_of, words_of, HomeState, Layout, PairState, State};

const CALLS: u64 = 20_000;

#[test]
fn library_against_itself() {
    let report = compare(&mut Oracle, 1, CALLS, u64::MAX);
    assert_eq!((report.differences, report.kept.len()), (0, 0));
    assert!(report.calls >= CALLS && report.calls < CALLS + 500);
    let answers = report.answers();
    let all = [
        0, 1, 2, 3, 4, 11, 12, 13, 14, 21, 22, 23, 24, 25, 31, 32, 33, 41, 51, 52,
    ];
    for number in all {
        assert!(answers.get(&number) > Some(&10), "{number} {answers:?}");
    }
    assert_eq!(answers.len(), all.len());
    assert_eq!(answers.values().sum::<u64>(), report.calls);
    for family in ["pair_runs", "home_runs"] {
        let (calls, passed) = (report.family_calls(family), report.family_passed(family));
        assert!(3 * passed > calls, "{family}: {passed} of {calls}");
    }
    assert_eq!(report.by_call.len(), 25);
    assert_eq!(report.by_family.len(), 17);
    // Each record and each list is handed in by value and in place.
    for side in ["pair", "home"] {
        for (by_value, in_place) in [("check_record", "take"), ("check_list", "take_list")] {
            let [by_value, in_place] = [by_value, in_place].map(|call| format!("{side}_{call}"));
            assert_eq!(report.by_call[&*by_value], report.by_call[&*in_place]);
        }
    }
    for call in ["check_record", "check_list", "take", "take_list"] {
        for side in ["pair", "home"] {
            let answers = &report.by_call[&*format!("{side}_{call}")];
            for number in [22, 51] {
                assert!(
                    answers.get(&number) > Some(&10),
                    "{side}_{call} {answers:?}"
                );
            }
        }
    }
    for call in ["pair_open", "home_open", "block_judge", "block_balances"] {
        let answers = &report.by_call[call];
        assert!(answers.get(&52) > Some(&10), "{call} {answers:?}");
    }
    // A balance knows 22 alone.
    for call in ["pair_balance", "home_balance"] {
        let answers = report.by_call[call].keys();
        assert_eq!(answers.copied().collect::<Vec<_>>(), [0, 3, 22]);
    }
    for call in ["pair_places_left", "home_places_left"] {
        let answers = &report.by_call[call];
        assert!(answers[&0] > 150 && answers[&3] > 100, "{call} {answers:?}");
        assert_eq!(answers.len(), 2);
    }
}

#[test]
fn forged_states_are_refused_and_accepted() {
    let report = compare(&mut Oracle, 2, CALLS, u64::MAX);
    for family in ["pair_forged", "home_forged"] {
        let answers = &report.by_family[family];
        let calls = report.family_calls(family);
        assert!(5 * answers[&0] > calls, "{family} {answers:?}");
        assert!(5 * answers[&3] > calls, "{family} {answers:?}");
    }
}

#[test]
fn fields_are_altered_alone_and_in_pairs() {
    for seed in [1, 7, 1_000_003] {
        let mut part = Wrong::new(Fault::None);
        part.listener.altered = Some(Default::default());
        compare(&mut part, seed, CALLS, u64::MAX);
        let (pair, home) = part.listener.altered.unwrap();
        // The pair state has 27 parts, 20 of them with many entries; the home
        // state has 17 and 10.
        assert_eq!(pair.expected().len(), 27 + 27 * 26 / 2 + 20);
        assert_eq!(home.expected().len(), 17 + 17 * 16 / 2 + 10);
        assert_eq!(pair.missing(), Vec::<Parts>::new());
        assert_eq!(home.missing(), Vec::<Parts>::new());
        for values in [pair.values, home.values] {
            assert_forged_values(&values);
        }
    }
}

/// A record with an account that is not open, handed in alone or refused in a
/// list.
#[derive(Clone, Copy, Debug, PartialEq, Eq, PartialOrd, Ord)]
struct Absent {
    guard: bool,
    handed: Handed,
    kind: u8,
    ledger: u8,
    sender: bool,
    receiver: bool,
    /// Which ledger has more accounts, if one has.
    larger: Option<u8>,
    /// What is answered once its accounts are open.
    beside: u8,
}

#[test]
fn absent_accounts_of_every_sort_are_handed_in() {
    for seed in [1, 7, 1_000_003] {
        let mut part = Wrong::new(Fault::None);
        part.listener.absent = Some(BTreeSet::new());
        compare(&mut part, seed, CALLS, u64::MAX);
        let found = part.listener.absent.unwrap();
        for wanted in every_absent() {
            // In lists and on full tables either ledger may have more accounts.
            let either = [Some(0), Some(1)].map(|larger| Absent { larger, ..wanted });
            let any = wanted.handed == Handed::List || wanted.beside == 41;
            let met = if any {
                either.iter().any(|absent| found.contains(absent))
            } else {
                found.contains(&wanted)
            };
            assert!(met, "{wanted:?}");
        }
    }
}

/// Each kind with one account or both not open, and with each answer beside it.
fn every_absent() -> Vec<Absent> {
    let mut all = Vec::new();
    for (guard, ledger) in [(false, 0), (false, 1), (true, 0)] {
        for kind in 1..=3 {
            // No passed sending matches an arrival with such an account.
            let beside = match (kind, guard) {
                (3, false) => &[23, 24, 31][..],
                (3, true) => &[0, 23, 24, 32, 41],
                _ => &[0, 23, 24, 25, 41],
            };
            for (sender, receiver) in [(false, true), (true, false), (true, true)] {
                for handed in [Handed::Record, Handed::List] {
                    for larger in [Some(0), Some(1)] {
                        all.extend(beside.iter().map(|&beside| Absent {
                            guard,
                            handed,
                            kind,
                            ledger,
                            sender,
                            receiver,
                            larger,
                            beside,
                        }));
                    }
                }
            }
        }
    }
    all
}

/// What a ledger and the other one hold under the number of a record that is
/// handed in, alone or in a list: 1 for a local, 2 for a sending, 4 for an
/// arrival, added up. The guard has no other one.
#[derive(Clone, Copy, Debug, PartialEq, Eq, PartialOrd, Ord)]
struct Under {
    guard: bool,
    handed: Handed,
    kind: u8,
    ledger: u8,
    held: [u8; 2],
}

#[test]
fn records_of_every_kind_under_every_number_are_handed_in() {
    for seed in [1, 7, 1_000_003] {
        let mut part = Wrong::new(Fault::None);
        part.listener.under = Some(BTreeSet::new());
        compare(&mut part, seed, CALLS, u64::MAX);
        let found = part.listener.under.unwrap();
        let wanted = every_under();
        assert_eq!(wanted.len(), 2 * 3 * (2 * 16 + 6));
        let missing: Vec<&Under> = wanted.difference(&found).collect();
        assert_eq!(missing, Vec::<&Under>::new(), "{seed}");
    }
}

/// Each way in which a number can be held. In the pair book an arrival has its
/// sending on the other ledger.
fn every_under() -> BTreeSet<Under> {
    let mut all = BTreeSet::new();
    let has = |held: u8, kind: u8| held & kind == kind;
    for own in 0..7 {
        for other in 0..7 {
            let single = ![own, other].iter().any(|&held| has(held, 3));
            let sent = (!has(own, 4) || has(other, 2)) && (!has(other, 4) || has(own, 2));
            for (guard, ledger) in [(false, 0), (false, 1), (true, 0)] {
                let met = if guard { other == 0 } else { sent };
                if !single || !met {
                    continue;
                }
                for kind in 1..=3 {
                    all.extend([Handed::Record, Handed::List].map(|handed| Under {
                        guard,
                        handed,
                        kind,
                        ledger,
                        held: [own, other],
                    }));
                }
            }
        }
    }
    all
}

/// Full tables in which both classes of a ledger have many numbers that agree in
/// their low 12 bits.
#[test]
fn full_tables_of_alike_numbers_are_handed_in() {
    for seed in [1, 7, 1_000_003] {
        let mut part = Wrong::new(Fault::None);
        part.listener.alike = Some([0; 2]);
        compare(&mut part, seed, CALLS, u64::MAX);
        for alike in part.listener.alike.unwrap() {
            assert!(alike > 200, "{alike}");
        }
    }
}

/// What stands in a field that is altered alone, among other values.
fn assert_forged_values(values: &BTreeSet<(String, u64)>) {
    let wanted = [
        (Field::Kinds, &[0, 4, 255][..]),
        (Field::Ledgers, &[2, 255]),
        (Field::Senders, &[65_535]),
        (Field::Receivers, &[65_535]),
        (Field::Amounts, &[0, 1 << 63, u64::MAX]),
        (Field::Verdicts, &[0, 2, 255]),
        (Field::Counts, &[513, 1 << 32, u64::MAX]),
        (Field::Accounts, &[0, 57, 65_535, 1 << 32, u64::MAX]),
        (Field::Supply, &[0, 1 << 63, u64::MAX]),
        (Field::Rate, &[10_001, 65_536, 1 << 32, u64::MAX]),
        (Field::ChargeAccount, &[57, 65_536, 1 << 32, u64::MAX]),
    ];
    for (field, wanted) in wanted {
        for &value in wanted {
            assert!(
                values.contains(&(format!("{field:?}"), value)),
                "{field:?} {value}"
            );
        }
    }
    for (field, bytes) in [(Field::HeadZeros, 2), (Field::TailZeros, 7)] {
        for byte in 0..bytes {
            let alone = |(name, value): &(String, u64)| {
                *name == format!("{field:?}") && value & !(0xff << (8 * byte)) == 0
            };
            assert!(values.iter().any(alone), "{field:?} {byte}");
        }
    }
}

/// The names of the parts that are altered together. What home and what far
/// have of a field are two parts.
type Parts = Vec<String>;

fn part_name<S: Fields>(field: Field, index: usize) -> String {
    let ledgers = if field == Field::Accounts {
        2
    } else {
        S::LEDGERS
    };
    format!("{field:?} {}", index * ledgers / S::length(field))
}

/// Takes down in which one or two entries a state that is handed in differs
/// from a good one, and the value of one that differs alone. Good is what the
/// last opening has handed back, and what lists have made of it before any
/// other state was handed in.
struct Altered<S> {
    good: Vec<Box<S>>,
    left: bool,
    met: BTreeSet<Parts>,
    values: BTreeSet<(String, u64)>,
}

impl<S> Default for Altered<S> {
    fn default() -> Altered<S> {
        Altered {
            good: Vec::new(),
            left: false,
            met: BTreeSet::new(),
            values: BTreeSet::new(),
        }
    }
}

impl<S: Fields + Clone + PartialEq> Altered<S> {
    fn opened(&mut self, state: &S) {
        self.good = vec![Box::new(state.clone())];
        self.left = false;
    }

    fn listed(&mut self, next: &S) {
        if !self.left {
            self.good.push(Box::new(next.clone()));
        }
    }

    fn handed_in(&mut self, state: &S) {
        if self.good.iter().any(|good| **good == *state) {
            return;
        }
        self.left = true;
        for good in &self.good {
            let entries = S::FIELDS
                .iter()
                .flat_map(|&field| (0..S::length(field)).map(move |index| (field, index)));
            let differ: Vec<(Field, usize)> = entries
                .filter(|&(field, index)| state.get(field, index) != good.get(field, index))
                .take(3)
                .collect();
            if let [(field, index)] = differ[..] {
                let value = state.get(field, index);
                self.values.insert((format!("{field:?}"), value));
            }
            if differ.len() < 3 {
                let name = |&(field, index): &(Field, usize)| part_name::<S>(field, index);
                let mut parts: Parts = differ.iter().map(name).collect();
                parts.sort();
                self.met.insert(parts);
            }
        }
    }

    /// Each part, any two of them, and two entries of each that has many.
    fn expected(&self) -> BTreeSet<Parts> {
        let mut names: Vec<String> = Vec::new();
        for &field in S::FIELDS {
            for index in 0..S::length(field) {
                let name = part_name::<S>(field, index);
                // Two of its entries stand for all.
                if names.iter().filter(|&other| *other == name).count() < 2 {
                    names.push(name);
                }
            }
        }
        names.sort();
        let mut expected = BTreeSet::new();
        for (at, one) in names.iter().enumerate() {
            expected.insert(vec![one.clone()]);
            for other in &names[at + 1..] {
                expected.insert(vec![one.clone(), other.clone()]);
            }
        }
        expected
    }

    fn missing(&self) -> Vec<Parts> {
        self.expected().difference(&self.met).cloned().collect()
    }
}

/// Takes down the calls that are made, as a sum of them, and if asked to the
/// parts of states that are altered and the accounts that are not open.
#[derive(Default)]
struct Listener {
    sum: u64,
    altered: Option<(Altered<PairState>, Altered<HomeState>)>,
    absent: Option<BTreeSet<Absent>>,
    under: Option<BTreeSet<Under>>,
    /// Of pair book and guard: the numbers alike in their low 12 bits that each
    /// class of a full table has, the most so far.
    alike: Option<[usize; 2]>,
}

impl Listener {
    /// A record that is not refused before its number is looked up.
    fn number_looked_up<S: Fields>(
        &mut self,
        handed: Handed,
        bytes: &[u8],
        state: &S,
        answer: Answer,
    ) {
        self.table(state);
        let (Some(under), Some(record)) = (&mut self.under, Record::read(bytes)) else {
            return;
        };
        if BEFORE_NUMBER.contains(&answer.number()) {
            return;
        }
        let ledger = record.ledger().index();
        let held = [ledger, 1 - ledger].map(|ledger| kinds_under(state, ledger, record.number));
        under.insert(Under {
            guard: S::LEDGERS == 1,
            handed,
            kind: bytes[0],
            ledger: bytes[1],
            held,
        });
    }

    /// A full table.
    fn table<S: Fields>(&mut self, state: &S) {
        let full = state.get(Field::Counts, 0) == 512;
        if let (Some(alike), true) = (&mut self.alike, full) {
            let held = held_records(state, 0);
            let low = |record: &Record| record.number & 0xfff;
            let of_class = |arrival| {
                let first = held.first().map(low);
                let same = |record: &&Record| Some(low(record)) == first;
                let class = |record: &&Record| record.takes() != arrival;
                held.iter().filter(class).filter(same).count()
            };
            let most = &mut alike[2 - S::LEDGERS];
            *most = (*most).max(of_class(true).min(of_class(false)));
        }
    }

    fn note(&mut self, bytes: &[u8]) {
        for &byte in bytes {
            self.sum = (self.sum ^ u64::from(byte)).wrapping_mul(0x0100_0000_01b3);
        }
    }

    fn pair_opened(&mut self, state: &PairState) {
        if let Some((pair, _)) = &mut self.altered {
            pair.opened(state);
        }
    }

    fn pair_listed(&mut self, next: &PairState) {
        if let Some((pair, _)) = &mut self.altered {
            pair.listed(next);
        }
    }

    fn pair_handed_in(&mut self, state: &PairState) {
        if let Some((pair, _)) = &mut self.altered {
            pair.handed_in(state);
        }
    }

    fn home_opened(&mut self, state: &HomeState) {
        if let Some((_, home)) = &mut self.altered {
            home.opened(state);
        }
    }

    fn home_listed(&mut self, next: &HomeState) {
        if let Some((_, home)) = &mut self.altered {
            home.listed(next);
        }
    }

    fn home_handed_in(&mut self, state: &HomeState) {
        if let Some((_, home)) = &mut self.altered {
            home.handed_in(state);
        }
    }

    /// Where the last record of a list begins that was looked at, if numbers are
    /// taken down.
    fn last_at(&self, bytes: &[u8], answer: Answer) -> Option<usize> {
        self.under.as_ref()?;
        let place = match answer {
            Passed => (bytes.len() / RECORD).checked_sub(1)?,
            Refused { place, .. } => place as usize,
        };
        (bytes.len() >= (place + 1) * RECORD).then_some(place * RECORD)
    }

    /// Where a record begins that is refused for its accounts, if they are taken
    /// down.
    fn absent_at(&self, answer: Answer) -> Option<usize> {
        match (&self.absent, answer) {
            (Some(_), Refused { number, place }) if [22, 51].contains(&number) => {
                Some(place as usize * RECORD)
            }
            _ => None,
        }
    }

    /// A record that is refused for its accounts; `right` is what the library
    /// answers to others in its place.
    fn refused<S: Fields>(
        &mut self,
        handed: Handed,
        bytes: &[u8],
        state: &S,
        right: impl Fn(&[u8]) -> Answer,
    ) {
        let (Some(absent), Some(record)) = (&mut self.absent, Record::read(bytes)) else {
            return;
        };
        let counts = counts_of(state);
        let [sender, receiver] = Accounts::OneNumber.seen_open(&record, counts);
        absent.insert(Absent {
            guard: S::LEDGERS == 1,
            handed,
            kind: bytes[0],
            ledger: bytes[1],
            sender: !sender,
            receiver: !receiver,
            larger: match counts {
                [home, far] if home == far => None,
                [home, far] => Some(u8::from(home < far)),
            },
            beside: right(&opened(&record, counts).bytes()).number(),
        });
    }

    fn note_state<S: Fields>(&mut self, state: &S) {
        for field in [Field::Supply, Field::Counts, Field::Balances] {
            for index in 0..S::length(field) {
                self.note(&state.get(field, index).to_le_bytes());
            }
        }
    }
}

/// What a part is wrong in.
#[derive(Clone, Copy, Debug, PartialEq, Eq)]
enum Fault {
    None,
    ArrivalByNumber,
    KeepsWhatStoodBefore,
    WritesBeyondTheCount,
    ClearsBeyondTheCount,
    FarRecordBeforeForm,
    NumberZeroIsEmpty,
    PlaceAlwaysZero,
    PlaceOneTooHigh,
    LowBitsOfNumbers(u32),
    SelfTransferGives,
    FullBeforeUsed,
    FullBeforeCover,
    FullAt511,
    DueOneTooHigh,
    DueReached,
    WrappedSums,
    BeyondAccounts,
    HeldVerdict,
    HeldNumberTwice,
    HeldArrivalByNumber,
    /// An arrival that is held is not compared with its sending in this.
    HeldMatch(Field),
    HeldSendingOfAnyKind,
    /// This of a held record is not looked at.
    HeldNotLookedAt(Field),
    HeldKind(u64),
    HeldLedgerByLowBit,
    HeldVerdictNotZero,
    HeldZeroByte(usize),
    LowBitsOfCounts(Field, u32),
    LooksBeyondTheCount(Beyond),
    SupplyLimit,
    EmptyListPasses,
    FormBeforeState,
    StateWithinList,
    LongRecordCut,
    RestNotSeen,
    FiguresBesideRefusal,
    LedgerTwoIsFar,
    BalanceBeyondAccounts,
    OpeningKept,
    OpeningWraps,
    OutputTouched,
    LongOutput,
    OutputTail,
    CountBeforeBlock2,
    ToldCountNotLookedAt,
    PlaceBeforeBlock,
    LowBitsOfPlace,
    LowBitsOfBlockNumber,
    Block65536,
    BalancesOfRecords,
    CountBesideRefusal,
    ZeroBytesOfBlock,
    ReservedByte,
    EncodesAnyVerdict,
    Padding,
    PairPlaces(Places),
    HomePlaces(Places),
    PairInPlace(InPlace),
    HomeInPlace(InPlace),
    PairAccounts(Accounts, Handed),
    HomeAccounts(Accounts, Handed),
    PairBalanceTellsReceiver,
    HomeBalanceTellsReceiver,
    /// In place of 3, 22 or 51 is told of a held record.
    HeldAccountTold(Field),
    /// An account of a held record may be open on either ledger.
    HeldOpenOnEither(Field),
    PairNumbers(Numbers, Handed),
    HomeNumbers(Numbers, Handed),
    /// Held records of these two kinds may share a number on a ledger.
    HeldMayShare(u64, u64),
    /// Held records of these two kinds may not.
    HeldMayNotShare(u64, u64),
    HeldMatchFindsArrival,
    HeldMatchFindsFirst,
    Flight(Flight),
    PairCharges(Charges, Handed),
    HomeCharges(Charges, Handed),
    /// The rate or the charge account of a state is seen by so many low bits.
    LowBitsOfCharge(Field, u32),
    /// It is not looked at.
    ChargeNotLookedAt(Field),
    ChargeAccountOneTooMany,
    FlightWithCharges,
    Opening52(Opening52),
    Block52(Block52),
    Writer52(Writer52),
}

/// What a part is wrong in when it charges.
#[derive(Clone, Copy, Debug, PartialEq, Eq)]
enum Charges {
    Nothing,
    RoundsUp,
    RoundsToNearest,
    Wraps64,
    DividesFirst,
    LowBitsOfAmount,
    /// The amount alone decides 25.
    AmountDecides,
    /// Amount and charge must be less than the balance.
    BalanceNotReached,
    OwnAccountNeedsAmount,
    OwnAccountPaysNothing,
    /// The charge account's balance of before is raised by the charge.
    OwnAccountReadTooEarly,
    NotReceived,
    PaidToAccount0,
    PaidToReceiver,
    LocalsPay,
    ArrivalsPay,
    /// The far due has the charge too.
    DueWithCharge,
    FarPays,
}

/// Those that a part can be wrong in for either checker.
const CHARGES: [Charges; 16] = [
    Charges::Nothing,
    Charges::RoundsUp,
    Charges::RoundsToNearest,
    Charges::Wraps64,
    Charges::DividesFirst,
    Charges::LowBitsOfAmount,
    Charges::AmountDecides,
    Charges::BalanceNotReached,
    Charges::OwnAccountNeedsAmount,
    Charges::OwnAccountPaysNothing,
    Charges::OwnAccountReadTooEarly,
    Charges::NotReceived,
    Charges::PaidToAccount0,
    Charges::PaidToReceiver,
    Charges::LocalsPay,
    Charges::ArrivalsPay,
];

/// What a part is wrong in when it opens.
#[derive(Clone, Copy, Debug, PartialEq, Eq)]
enum Opening52 {
    NotTold,
    ToldAs(u8),
    BeforeStakes,
    BeforeCounts,
    NotWithRate0,
    LowBits(u32),
    RateNotLookedAt,
    AccountNotLookedAt,
    NotWritten,
}

const OPENINGS: [Opening52; 11] = [
    Opening52::NotTold,
    Opening52::ToldAs(1),
    Opening52::ToldAs(2),
    Opening52::BeforeStakes,
    Opening52::BeforeCounts,
    Opening52::NotWithRate0,
    Opening52::LowBits(16),
    Opening52::LowBits(32),
    Opening52::RateNotLookedAt,
    Opening52::AccountNotLookedAt,
    Opening52::NotWritten,
];

/// What a part is wrong in when it judges block 0.
#[derive(Clone, Copy, Debug, PartialEq, Eq)]
enum Block52 {
    NotTold,
    RateAlone,
    AccountAlone,
    ToldAs14,
    Before14,
    /// A place that is wanted comes first.
    AfterPlace,
    PlaceOfBlock1,
    AsBeforeU3,
    InBlock1Too,
    RateAndAccountExchanged,
    NotHandedOut,
    BesideRefusal,
}

const BLOCKS: [Block52; 12] = [
    Block52::NotTold,
    Block52::RateAlone,
    Block52::AccountAlone,
    Block52::ToldAs14,
    Block52::Before14,
    Block52::AfterPlace,
    Block52::PlaceOfBlock1,
    Block52::AsBeforeU3,
    Block52::InBlock1Too,
    Block52::RateAndAccountExchanged,
    Block52::NotHandedOut,
    Block52::BesideRefusal,
];

/// What a part is wrong in when it writes.
#[derive(Clone, Copy, Debug, PartialEq, Eq)]
enum Writer52 {
    NotLookedAt,
    ToldAs52,
    InBlock1Too,
    InAllBlocks,
    NotWritten,
    WrittenInBlock1,
    LowBits(u32),
    NotWithRate0,
}

const WRITERS: [Writer52; 9] = [
    Writer52::NotLookedAt,
    Writer52::ToldAs52,
    Writer52::InBlock1Too,
    Writer52::InAllBlocks,
    Writer52::NotWritten,
    Writer52::WrittenInBlock1,
    Writer52::LowBits(16),
    Writer52::LowBits(32),
    Writer52::NotWithRate0,
];

#[test]
fn wrong_charges_are_found() {
    for (seed, handed) in [(7, Handed::Record), (8, Handed::List)] {
        for wrong in CHARGES.into_iter().chain([Charges::FarPays]) {
            assert_call_found(Fault::PairCharges(wrong, handed), seed, "pair", handed);
        }
        for wrong in CHARGES.into_iter().chain([Charges::DueWithCharge]) {
            assert_call_found(Fault::HomeCharges(wrong, handed), seed, "home", handed);
        }
    }
}

fn assert_call_found(fault: Fault, seed: u64, side: &str, handed: Handed) {
    let report = compare(&mut Wrong::new(fault), seed, CALLS, 1);
    assert!(report.differences > 0, "{fault:?} was not found by {seed}");
    let call = match handed {
        Handed::Record => "check_record",
        Handed::List => "check_list",
    };
    assert_eq!(report.kept[0].call, format!("{side}_{call}"), "{fault:?}");
}

#[test]
fn wrong_charges_of_states_are_found() {
    let mut faults = vec![Fault::ChargeAccountOneTooMany];
    for field in [Field::Rate, Field::ChargeAccount] {
        faults.push(Fault::ChargeNotLookedAt(field));
        faults.extend([16, 32, 63].map(|bits| Fault::LowBitsOfCharge(field, bits)));
    }
    for &fault in &faults {
        assert_held_found(fault, "pair", 7);
        assert_held_found(fault, "home", 8);
    }
    assert_held_found(Fault::FlightWithCharges, "pair", 7);
}

#[test]
fn wrong_52_is_found() {
    for wrong in OPENINGS {
        assert_held_found(Fault::Opening52(wrong), "pair", 7);
        assert_held_found(Fault::Opening52(wrong), "home", 8);
    }
    for wrong in BLOCKS {
        assert_held_found(Fault::Block52(wrong), "block", 7);
    }
    for wrong in WRITERS {
        assert_held_found(Fault::Writer52(wrong), "block_write", 7);
    }
}

/// What a part is wrong in when it looks a number up.
#[derive(Clone, Copy, Debug, PartialEq, Eq)]
enum Numbers {
    /// All kinds are counted together, as before U2; on one ledger only.
    OneClass,
    OneClassOn(u8),
    NeverUsed(u8),
    EachKindApart,
    /// These two kinds are counted together and the third apart.
    Together(u8, u8),
    /// Records of the first kind are refused for one of the second.
    RefusedFor(u8, u8),
    /// Of numbers that are alike in their low 12 bits, only so many are seen.
    FewAlike(usize),
    /// A table of 512 or of 256 for each class.
    TableForEachClass(usize),
    /// The match looks at an arrival of the number where there is one, at the
    /// first record of it, or at any that has the accounts and amount.
    MatchFindsArrival,
    MatchFindsFirst,
    MatchOfAnyKind,
    MatchOfArrivalToo,
}

/// Those that a part can be wrong in for either checker.
const NUMBERS: [Numbers; 17] = [
    Numbers::OneClass,
    Numbers::OneClassOn(0),
    Numbers::NeverUsed(1),
    Numbers::NeverUsed(2),
    Numbers::NeverUsed(3),
    Numbers::EachKindApart,
    Numbers::Together(1, 3),
    Numbers::Together(2, 3),
    Numbers::RefusedFor(1, 3),
    Numbers::RefusedFor(2, 3),
    Numbers::RefusedFor(3, 1),
    Numbers::RefusedFor(3, 2),
    Numbers::FewAlike(1),
    Numbers::FewAlike(16),
    Numbers::FewAlike(200),
    Numbers::TableForEachClass(512),
    Numbers::TableForEachClass(256),
];

const NUMBERS_OF_PAIR: [Numbers; 5] = [
    Numbers::OneClassOn(1),
    Numbers::MatchFindsArrival,
    Numbers::MatchFindsFirst,
    Numbers::MatchOfAnyKind,
    Numbers::MatchOfArrivalToo,
];

/// What ends a crossing for a part that is wrong in what is in flight.
#[derive(Clone, Copy, Debug, PartialEq, Eq)]
enum Flight {
    /// Any record of its number on the other ledger, or the first of them if it
    /// is an arrival.
    AnyThere,
    FirstThere,
    /// An arrival of its number on the sending's own ledger too.
    ArrivalHere,
}

/// Longer lists are told right by a part that is wrong in this, to save time.
const LONGEST_TOLD: usize = 40 * RECORD;

/// The refusals that come before 24.
const BEFORE_NUMBER: [u8; 6] = [3, 21, 33, 22, 51, 23];

#[test]
fn wrong_numbers_are_found() {
    for seed in [7, 8, 1_000_003] {
        for handed in [Handed::Record, Handed::List] {
            for wrong in NUMBERS.into_iter().chain(NUMBERS_OF_PAIR) {
                assert_accounts_found(Fault::PairNumbers(wrong, handed), seed, "pair", handed);
            }
            for wrong in NUMBERS {
                assert_accounts_found(Fault::HomeNumbers(wrong, handed), seed, "home", handed);
            }
        }
    }
}

#[test]
fn wrong_numbers_of_states_are_found() {
    let of_pair = [
        Fault::HeldMatchFindsArrival,
        Fault::HeldMatchFindsFirst,
        Fault::Flight(Flight::AnyThere),
        Fault::Flight(Flight::FirstThere),
        Fault::Flight(Flight::ArrivalHere),
    ];
    let of_both = [
        Fault::HeldMayShare(1, 1),
        Fault::HeldMayShare(2, 2),
        Fault::HeldMayShare(3, 3),
        Fault::HeldMayShare(1, 2),
        Fault::HeldMayNotShare(1, 3),
        Fault::HeldMayNotShare(2, 3),
    ];
    for seed in [7, 8, 1_000_003] {
        for fault in of_pair {
            assert_held_found(fault, "pair", seed);
        }
        for fault in of_both {
            assert_held_found(fault, "pair", seed);
            assert_held_found(fault, "home", seed);
        }
    }
}

fn assert_held_found(fault: Fault, side: &'static str, seed: u64) {
    let mut part = Wrong::new(fault);
    part.only = Some(side);
    let report = compare(&mut part, seed, CALLS, 1);
    assert!(report.differences > 0, "{fault:?} {side} {seed}");
    assert!(report.kept[0].call.starts_with(side), "{fault:?}");
}

/// How a record comes to a part.
#[derive(Clone, Copy, Debug, PartialEq, Eq, PartialOrd, Ord)]
enum Handed {
    Record,
    List,
}

/// What a part is wrong in when it looks up the accounts of a record.
#[derive(Clone, Copy, Debug, PartialEq, Eq)]
enum Accounts {
    /// 22 for the receiver's account too.
    OneNumber,
    /// The same for one kind on one ledger only.
    OneNumberOf(u8, u8),
    Exchanged,
    ReceiverFirst,
    /// The receiver's or the sender's account is looked up only after this.
    ReceiverAfter(u8),
    SenderAfter(u8),
    ReceiverBeforeForm,
    ReceiverBeforeState,
    ReceiverBeforeFarRecord,
    NotLookedAt(Field),
    LowByte(Field),
    OneTooMany(Field),
    OneTooFew(Field),
    /// The account of one kind is looked up on the wrong ledger.
    OnOtherLedger(u8, Field),
    OnLargerLedger,
    OnSmallerLedger,
}

/// Those that a part can be wrong in for either checker.
const ACCOUNTS: [Accounts; 32] = [
    Accounts::OneNumber,
    Accounts::OneNumberOf(1, 0),
    Accounts::OneNumberOf(2, 0),
    Accounts::OneNumberOf(3, 0),
    Accounts::Exchanged,
    Accounts::ReceiverFirst,
    Accounts::ReceiverAfter(23),
    Accounts::ReceiverAfter(24),
    Accounts::ReceiverAfter(32),
    Accounts::ReceiverAfter(41),
    Accounts::SenderAfter(51),
    Accounts::SenderAfter(23),
    Accounts::SenderAfter(24),
    Accounts::SenderAfter(32),
    Accounts::ReceiverBeforeForm,
    Accounts::ReceiverBeforeState,
    Accounts::NotLookedAt(Field::Senders),
    Accounts::NotLookedAt(Field::Receivers),
    Accounts::LowByte(Field::Senders),
    Accounts::LowByte(Field::Receivers),
    Accounts::OneTooMany(Field::Senders),
    Accounts::OneTooMany(Field::Receivers),
    Accounts::OneTooFew(Field::Senders),
    Accounts::OneTooFew(Field::Receivers),
    Accounts::OnOtherLedger(1, Field::Senders),
    Accounts::OnOtherLedger(1, Field::Receivers),
    Accounts::OnOtherLedger(2, Field::Senders),
    Accounts::OnOtherLedger(2, Field::Receivers),
    Accounts::OnOtherLedger(3, Field::Senders),
    Accounts::OnOtherLedger(3, Field::Receivers),
    Accounts::OnLargerLedger,
    Accounts::OnSmallerLedger,
];

const ACCOUNTS_OF_PAIR: [Accounts; 3] = [
    Accounts::OneNumberOf(1, 1),
    Accounts::OneNumberOf(2, 1),
    Accounts::OneNumberOf(3, 1),
];

const ACCOUNTS_OF_HOME: [Accounts; 1] = [Accounts::ReceiverBeforeFarRecord];

/// The refusals that come after 22, in their order.
const AFTER_SENDER: [u8; 7] = [51, 23, 24, 25, 31, 32, 41];

#[test]
fn wrong_accounts_are_found() {
    for seed in [7, 8, 1_000_003] {
        for handed in [Handed::Record, Handed::List] {
            for wrong in ACCOUNTS.into_iter().chain(ACCOUNTS_OF_PAIR) {
                assert_accounts_found(Fault::PairAccounts(wrong, handed), seed, "pair", handed);
            }
            for wrong in ACCOUNTS.into_iter().chain(ACCOUNTS_OF_HOME) {
                assert_accounts_found(Fault::HomeAccounts(wrong, handed), seed, "home", handed);
            }
        }
    }
}

fn assert_accounts_found(fault: Fault, seed: u64, side: &str, handed: Handed) {
    let report = compare(&mut Wrong::new(fault), seed, CALLS, 1);
    assert!(report.differences > 0, "{fault:?} was not found by {seed}");
    let call = match handed {
        Handed::Record => "check_record",
        Handed::List => "check_list",
    };
    assert_eq!(report.kept[0].call, format!("{side}_{call}"), "{fault:?}");
    assert!(report.kept[0].found[0].starts_with("answer: "), "{fault:?}");
}

/// What a part takes for held though it stands beyond the count.
#[derive(Clone, Copy, Debug, PartialEq, Eq)]
enum Beyond {
    Numbers,
    Sendings,
    Arrivals,
}

/// What a part is wrong in only when it alters a state in place.
#[derive(Clone, Copy, Debug, PartialEq, Eq)]
enum InPlace {
    NothingAltered,
    BalancesNotAltered,
    RecordNotWritten,
    CountNotRaised,
    RefusedIsCounted,
    RefusedIsWritten,
    RefusedListIsKept,
    NextPlaceCleared,
    ZeroedBeyond,
    OneWordOfTheLast,
    StateClearedOnRefusal,
    AnswerOfBefore,
    PlaceAlwaysZero,
}

const IN_PLACE: [InPlace; 13] = [
    InPlace::NothingAltered,
    InPlace::BalancesNotAltered,
    InPlace::RecordNotWritten,
    InPlace::CountNotRaised,
    InPlace::RefusedIsCounted,
    InPlace::RefusedIsWritten,
    InPlace::RefusedListIsKept,
    InPlace::NextPlaceCleared,
    InPlace::ZeroedBeyond,
    InPlace::OneWordOfTheLast,
    InPlace::StateClearedOnRefusal,
    InPlace::AnswerOfBefore,
    InPlace::PlaceAlwaysZero,
];

const FAULTS: [Fault; 85] = [
    Fault::ArrivalByNumber,
    Fault::KeepsWhatStoodBefore,
    Fault::WritesBeyondTheCount,
    Fault::ClearsBeyondTheCount,
    Fault::FarRecordBeforeForm,
    Fault::NumberZeroIsEmpty,
    Fault::PlaceAlwaysZero,
    Fault::PlaceOneTooHigh,
    Fault::LowBitsOfNumbers(11),
    Fault::LowBitsOfNumbers(16),
    Fault::LowBitsOfNumbers(32),
    Fault::LowBitsOfNumbers(63),
    Fault::SelfTransferGives,
    Fault::FullBeforeUsed,
    Fault::FullBeforeCover,
    Fault::FullAt511,
    Fault::DueOneTooHigh,
    Fault::DueReached,
    Fault::WrappedSums,
    Fault::BeyondAccounts,
    Fault::HeldVerdict,
    Fault::HeldNumberTwice,
    Fault::HeldArrivalByNumber,
    Fault::HeldMatch(Field::Amounts),
    Fault::HeldMatch(Field::Senders),
    Fault::HeldMatch(Field::Receivers),
    Fault::HeldSendingOfAnyKind,
    Fault::HeldNotLookedAt(Field::Kinds),
    Fault::HeldNotLookedAt(Field::Ledgers),
    Fault::HeldNotLookedAt(Field::Senders),
    Fault::HeldNotLookedAt(Field::Receivers),
    Fault::HeldNotLookedAt(Field::HeadZeros),
    Fault::HeldNotLookedAt(Field::Amounts),
    Fault::HeldNotLookedAt(Field::TailZeros),
    Fault::HeldKind(0),
    Fault::HeldKind(4),
    Fault::HeldKind(255),
    Fault::HeldLedgerByLowBit,
    Fault::HeldVerdictNotZero,
    Fault::HeldZeroByte(6),
    Fault::HeldZeroByte(7),
    Fault::HeldZeroByte(25),
    Fault::HeldZeroByte(28),
    Fault::HeldZeroByte(31),
    Fault::LowBitsOfCounts(Field::Counts, 16),
    Fault::LowBitsOfCounts(Field::Counts, 32),
    Fault::LowBitsOfCounts(Field::Counts, 63),
    Fault::LowBitsOfCounts(Field::Accounts, 16),
    Fault::LowBitsOfCounts(Field::Accounts, 32),
    Fault::LowBitsOfCounts(Field::Accounts, 63),
    Fault::LooksBeyondTheCount(Beyond::Numbers),
    Fault::LooksBeyondTheCount(Beyond::Sendings),
    Fault::LooksBeyondTheCount(Beyond::Arrivals),
    Fault::SupplyLimit,
    Fault::EmptyListPasses,
    Fault::FormBeforeState,
    Fault::StateWithinList,
    Fault::LongRecordCut,
    Fault::RestNotSeen,
    Fault::FiguresBesideRefusal,
    Fault::LedgerTwoIsFar,
    Fault::BalanceBeyondAccounts,
    Fault::OpeningKept,
    Fault::OpeningWraps,
    Fault::OutputTouched,
    Fault::LongOutput,
    Fault::OutputTail,
    Fault::CountBeforeBlock2,
    Fault::ToldCountNotLookedAt,
    Fault::PlaceBeforeBlock,
    Fault::LowBitsOfPlace,
    Fault::LowBitsOfBlockNumber,
    Fault::Block65536,
    Fault::BalancesOfRecords,
    Fault::CountBesideRefusal,
    Fault::ZeroBytesOfBlock,
    Fault::ReservedByte,
    Fault::EncodesAnyVerdict,
    Fault::Padding,
    Fault::PairBalanceTellsReceiver,
    Fault::HomeBalanceTellsReceiver,
    Fault::HeldAccountTold(Field::Senders),
    Fault::HeldAccountTold(Field::Receivers),
    Fault::HeldOpenOnEither(Field::Senders),
    Fault::HeldOpenOnEither(Field::Receivers),
];

impl Numbers {
    /// Whether a record's number is used by those that are held on its ledger.
    fn used(self, record: &Record, held: &[Record]) -> bool {
        let kind = record.kind.byte();
        let class = |kind: u8| kind == 3;
        let counted = |other: &&Record| {
            let other = other.kind.byte();
            let right = class(kind) == class(other);
            match self {
                Numbers::OneClass => true,
                Numbers::OneClassOn(ledger) => right || record.ledger().byte() == ledger,
                Numbers::NeverUsed(never) => right && kind != never,
                Numbers::EachKindApart => kind == other,
                Numbers::Together(one, two) => {
                    let class = |kind| kind == one || kind == two;
                    class(kind) == class(other)
                }
                Numbers::RefusedFor(one, two) => right || (kind, other) == (one, two),
                _ => right,
            }
        };
        let alike = |other: &&Record| (other.number ^ record.number) & 0xfff == 0;
        let few = match self {
            Numbers::FewAlike(few) => few,
            _ => usize::MAX,
        };
        let mut seen = held.iter().filter(counted).filter(alike).take(few);
        seen.any(|other| other.number == record.number)
    }

    /// Whether those that are held on the other ledger have sent an arrival.
    fn sent(self, record: &Record, held: &[Record]) -> bool {
        let sending = record.matching_sending();
        let mut under = held.iter().filter(|other| other.number == record.number);
        let alike = |other: &Record| {
            Record {
                kind: sending.kind,
                ..*other
            } == sending
        };
        match self {
            Numbers::MatchFindsArrival => {
                let arrived = under.clone().any(|other| other.kind.is_arrival());
                !arrived && under.any(|other| *other == sending)
            }
            Numbers::MatchFindsFirst => under.next() == Some(&sending),
            Numbers::MatchOfAnyKind => under.any(alike),
            Numbers::MatchOfArrivalToo => {
                let sent_or_arrived = |other: &Record| alike(other) && !is_local(other);
                under.any(sent_or_arrived)
            }
            _ => under.any(|other| *other == sending),
        }
    }

    fn full(self, record: &Record, held: &[Record]) -> bool {
        match self {
            Numbers::TableForEachClass(places) => {
                let same = |other: &&Record| other.takes() == record.takes();
                held.iter().filter(same).count() >= places
            }
            _ => held.len() >= 512,
        }
    }

    /// The answer to one record, from the right one.
    fn told<S: Fields>(self, state: &S, bytes: &[u8], right: Answer) -> Answer {
        let Some(record) = Record::read(bytes) else {
            return right;
        };
        if BEFORE_NUMBER.contains(&right.number()) {
            return right;
        }
        let ledger = record.ledger().index();
        let held = held_records(state, ledger);
        let balance = state.get(
            Field::Balances,
            56 * ledger + usize::from(record.sender) % 56,
        );
        let [rate, account] = [Field::Rate, Field::ChargeAccount].map(|field| state.get(field, 0));
        let charge = Charge { rate, account };
        match (record.takes(), S::LEDGERS) {
            _ if self.used(&record, &held) => refused(24),
            (true, _) if charge.cost(&record) > balance => refused(25),
            (false, 1) if record.amount > state.get(Field::Pool, 0) => refused(32),
            (false, 2) if !self.sent(&record, &held_records(state, 1 - ledger)) => refused(31),
            _ if self.full(&record, &held) => refused(41),
            _ => Passed,
        }
    }

    /// The answer to a list. `right` is what the library makes of one record.
    fn told_of_list<const N: usize>(
        self,
        state: &State<N>,
        bytes: &[u8],
        right: impl Fn(&State<N>, &[u8]) -> (Answer, Box<State<N>>),
    ) -> Answer
    where
        State<N>: Fields,
    {
        let mut state = Box::new(state.clone());
        for (place, record) in bytes.chunks(RECORD).enumerate() {
            let (answer, next) = right(&state, record);
            match self.told(&*state, record, answer) {
                Passed if answer.passed() => state = next,
                Passed => break,
                Refused { number, .. } => {
                    let place = place as u64;
                    return Refused { number, place };
                }
            }
        }
        Passed
    }
}

impl Charges {
    /// What a record that pays is charged.
    fn of(self, amount: u64, rate: u64) -> u64 {
        let product = u128::from(amount) * u128::from(rate);
        let charge = match self {
            Charges::Nothing => 0,
            Charges::RoundsUp => product.div_ceil(10_000),
            Charges::RoundsToNearest => (product + 5_000) / 10_000,
            Charges::Wraps64 => u128::from(amount.wrapping_mul(rate) / 10_000),
            Charges::DividesFirst => u128::from(amount / 10_000) * u128::from(rate),
            Charges::LowBitsOfAmount => u128::from((amount & 0xffff_ffff) * rate / 10_000),
            _ => product / 10_000,
        };
        charge as u64
    }

    /// Whether a record is charged.
    fn pays(self, record: &Record) -> bool {
        match record.kind {
            Kind::Sending(Ledger::Home) => true,
            Kind::Sending(Ledger::Far) => self == Charges::FarPays,
            Kind::Local(Ledger::Home) => self == Charges::LocalsPay,
            Kind::Arrival(Ledger::Home) => self == Charges::ArrivalsPay,
            _ => false,
        }
    }

    /// What one record comes to, from what is right.
    fn told<S: Fields + Clone>(
        self,
        state: &S,
        bytes: &[u8],
        right: (Answer, Box<S>),
    ) -> (Answer, Box<S>) {
        let record = Record::read(bytes).filter(|record| self.pays(record));
        let (Some(record), 0 | 25 | 41) = (record, right.0.number()) else {
            return right;
        };
        let account = state.get(Field::ChargeAccount, 0);
        let own = u64::from(record.sender) == account && !record.kind.is_arrival();
        let mut charge = self.of(record.amount, state.get(Field::Rate, 0));
        if own && self == Charges::OwnAccountPaysNothing {
            charge = 0;
        }
        let both = record.amount + charge;
        let needed = match self {
            Charges::AmountDecides => record.amount,
            Charges::BalanceNotReached => both + 1,
            Charges::OwnAccountNeedsAmount if own => record.amount,
            _ => both,
        };
        let ledger = record.ledger().index();
        let sender = 56 * ledger + usize::from(record.sender);
        if record.takes() && needed > state.get(Field::Balances, sender) {
            return (refused(25), Box::new(state.clone()));
        }
        if !right.0.passed() {
            let full = state.get(Field::Counts, ledger) == 512;
            return if full { right } else { (Passed, right.1) };
        }
        let mut next = right.1;
        for entry in 0..S::length(Field::Balances) {
            next.set(Field::Balances, entry, state.get(Field::Balances, entry));
        }
        let mut move_by = |entry: usize, by: u64| {
            let balance = next.get(Field::Balances, entry).wrapping_add(by);
            next.set(Field::Balances, entry, balance);
        };
        let receiver = 56 * ledger + usize::from(record.receiver) % 56;
        if record.takes() {
            move_by(sender, both.wrapping_neg());
        }
        if record.gives() {
            let kept = if record.takes() { 0 } else { charge };
            move_by(receiver, record.amount.wrapping_sub(kept));
        }
        match self {
            Charges::NotReceived => (),
            Charges::PaidToAccount0 => move_by(0, charge),
            Charges::PaidToReceiver => move_by(receiver, charge),
            Charges::OwnAccountReadTooEarly if own => move_by(sender, both + charge),
            _ => move_by(account as usize, charge),
        }
        if self == Charges::DueWithCharge {
            let due = next.get(Field::Pool, 0) + charge;
            next.set(Field::Pool, 0, due);
        }
        (Passed, next)
    }

    /// What a list comes to. `right` is what the library makes of one record.
    fn told_of_list<S: Fields + Clone>(
        self,
        state: &S,
        bytes: &[u8],
        right: impl Fn(&S, &[u8]) -> (Answer, Box<S>),
    ) -> (Answer, Box<S>) {
        let mut now = Box::new(state.clone());
        for (place, record) in bytes.chunks(RECORD).enumerate() {
            let (answer, next) = self.told(&*now, record, right(&now, record));
            if let Refused { number, .. } = answer {
                let place = place as u64;
                return (Refused { number, place }, Box::new(state.clone()));
            }
            now = next;
        }
        (Passed, now)
    }
}

/// Whether a rate or an account is wrong, the rate first.
fn charge_wrong(rate: u64, account: u64, accounts: usize) -> [bool; 2] {
    [rate > 10_000, account >= accounts as u64]
}

fn low_bits(value: u64, bits: u32) -> u64 {
    value & ((1 << bits) - 1)
}

impl Opening52 {
    /// What an opening comes to, from what is right. `open` is what the library
    /// makes of another charge.
    fn told<const N: usize>(
        self,
        [rate, account]: [u64; 2],
        accounts: usize,
        right: (Answer, Box<State<N>>),
        open: impl Fn(u64, u64) -> (Answer, Box<State<N>>),
    ) -> (Answer, Box<State<N>>)
    where
        State<N>: Fields,
    {
        let wrong = charge_wrong(rate, account, accounts).contains(&true);
        let (answer, mut state) = right;
        match (self, answer.number()) {
            (Opening52::NotTold, 52) => open(0, 0),
            (Opening52::ToldAs(number), 52) => (refused(number), state),
            (Opening52::BeforeStakes, 2) if wrong => (refused(52), state),
            (Opening52::BeforeCounts, 1) if wrong => (refused(52), state),
            (Opening52::NotWithRate0, 52) if rate == 0 => open(0, 0),
            (Opening52::LowBits(bits), _) => open(low_bits(rate, bits), low_bits(account, bits)),
            (Opening52::RateNotLookedAt, 52) => open(rate.min(10_000), account),
            (Opening52::AccountNotLookedAt, 52) => open(rate, 0),
            (Opening52::NotWritten, 0) => {
                state.set(Field::Rate, 0, 0);
                (answer, state)
            }
            _ => (answer, state),
        }
    }
}

impl Writer52 {
    fn write(
        self,
        output: &mut [u8],
        [number, kind]: [u64; 2],
        [rate, account]: [u64; 2],
        items: &[u8],
    ) -> Answer {
        let kind = kind as u8;
        let wrong = |size: usize| {
            let wrong = charge_wrong(rate, account, items.len() / size);
            wrong.contains(&true)
        };
        let refused = |refusal| Refused {
            number: refusal,
            place: number,
        };
        let (rate, account) = match self {
            Writer52::NotLookedAt | Writer52::ToldAs52 if number == 0 && wrong(8) => (0, 0),
            Writer52::InBlock1Too if number == 1 && wrong(8) => return refused(4),
            Writer52::InAllBlocks if number > 1 && wrong(RECORD) => return refused(4),
            Writer52::NotWritten if number == 0 && !wrong(8) => (0, 0),
            Writer52::LowBits(bits) => (low_bits(rate, bits), low_bits(account, bits)),
            Writer52::NotWithRate0 if rate == 0 && wrong(8) => (0, 0),
            _ => (rate, account),
        };
        let before = output.to_vec();
        let answer = Oracle.block_write(output, number, kind, rate, account, items);
        if self == Writer52::ToldAs52 && answer.passed() && number == 0 && wrong(8) {
            output.copy_from_slice(&before);
            return refused(52);
        }
        if self == Writer52::WrittenInBlock1 && answer.passed() && number == 1 {
            output[6..8].copy_from_slice(&(rate as u16).to_be_bytes());
            seal(output);
        }
        answer
    }
}

/// Rate and charge account as they stand in a block.
fn charge_in(block: &[u8]) -> [u64; 2] {
    [6, 8].map(|at| u64::from(u16::from_be_bytes([block[at], block[at + 1]])))
}

impl Block52 {
    /// The answer to a block, from the right one.
    fn told(self, block: &[u8], number: u64, answer: Answer) -> Answer {
        if block.len() != 512 || number > 1 {
            return answer;
        }
        let [rate, account] = charge_in(block);
        let wrong = charge_wrong(rate, account, usize::from(block[5]));
        let refused = |refusal| Refused {
            number: refusal,
            place: number,
        };
        match (self, answer.number(), number) {
            (Block52::NotTold, 52, _) => Passed,
            (Block52::RateAlone, 52, _) if !wrong[0] => Passed,
            (Block52::AccountAlone, 52, _) if !wrong[1] => Passed,
            (Block52::ToldAs14, 52, _) => refused(14),
            (Block52::Before14, 14, 0) if wrong.contains(&true) => refused(52),
            (Block52::PlaceOfBlock1, 52, _) => Refused {
                number: 52,
                place: 1,
            },
            (Block52::AsBeforeU3, 0 | 4 | 52, 0) if [rate, account] != [0, 0] => refused(14),
            (Block52::InBlock1Too, 14, 1) => {
                let mut block = block.to_vec();
                block[6..10].fill(0);
                seal(&mut block);
                Oracle.block_judge(&block, number, 0)
            }
            _ => answer,
        }
    }
}

impl Flight {
    /// What is in flight as a part tells it that is wrong in this.
    fn told(self, state: &PairState) -> u64 {
        let tables = [0, 1].map(|ledger| held_records(state, ledger));
        let flying = |sent: &&Record| {
            let own = sent.ledger().index();
            let under = |record: &&Record| record.number == sent.number;
            let mut there = tables[1 - own].iter().filter(under);
            let mut here = tables[own].iter().filter(under);
            let ended = match self {
                Flight::AnyThere => there.next().is_some(),
                Flight::FirstThere => there.next().is_some_and(|first| !first.takes()),
                Flight::ArrivalHere => there.chain(&mut here).any(|record| !record.takes()),
            };
            !ended
        };
        let sendings = tables.iter().flatten().filter(|record| !record.gives());
        sendings.filter(flying).map(|sent| sent.amount).sum()
    }
}

fn is_local(record: &Record) -> bool {
    record.takes() && record.gives()
}

/// The held records of a ledger that read as such.
fn held_records<S: Fields>(state: &S, ledger: usize) -> Vec<Record> {
    held_entries(state, ledger)
        .filter_map(|entry| {
            let words = &state.words()[4 * entry..4 * entry + 4];
            Record::read(&bytes_of(words.try_into().unwrap()))
        })
        .collect()
}

/// The kinds that a ledger holds under a number: 1, 2 and 4 for the three.
fn kinds_under<S: Fields>(state: &S, ledger: usize, number: u64) -> u8 {
    if ledger >= S::LEDGERS {
        return 0;
    }
    held_entries(state, ledger)
        .filter(|&entry| state.get(Field::Numbers, entry) == number)
        .fold(0, |held, entry| {
            held | 1 << (state.get(Field::Kinds, entry) as u8 - 1)
        })
}

/// Whether two held records of a ledger are of these kinds and share a number.
fn shares_number<S: Fields>(state: &S, kinds: [u64; 2]) -> bool {
    (0..S::LEDGERS).any(|ledger| {
        let of_kind = |kind| {
            let entries = held_entries(state, ledger);
            entries.filter(move |&entry| state.get(Field::Kinds, entry) == kind)
        };
        let number = |entry| state.get(Field::Numbers, entry);
        let first: BTreeSet<u64> = of_kind(kinds[0]).map(number).collect();
        of_kind(kinds[1]).any(|entry| first.contains(&number(entry)))
    })
}

/// Leaves away held records of the second kind that share their number with one
/// of the first; the supply goes along with what was in flight.
fn drop_sharing<S: Fields>(state: &mut S, kinds: [u64; 2], in_flight: impl Fn(&S) -> u64) {
    let before = in_flight(state);
    for ledger in 0..S::LEDGERS {
        let mut entry = 512 * ledger;
        while entry < held_entries(state, ledger).end {
            let number = state.get(Field::Numbers, entry);
            let mut others = held_entries(state, ledger).filter(|&other| other != entry);
            let shared = others.any(|other| {
                state.get(Field::Kinds, other) == kinds[0]
                    && state.get(Field::Numbers, other) == number
            });
            if shared && state.get(Field::Kinds, entry) == kinds[1] {
                let last = held_entries(state, ledger).end - 1;
                let words: Vec<u64> = state.words()[4 * last..4 * last + 4].to_vec();
                state.words_mut()[4 * entry..4 * entry + 4].copy_from_slice(&words);
                state.set(Field::Counts, ledger, (last - 512 * ledger) as u64);
            } else {
                entry += 1;
            }
        }
    }
    let less = before.wrapping_sub(in_flight(state));
    let supply = state.get(Field::Supply, 0).wrapping_sub(less);
    state.set(Field::Supply, 0, supply);
}

/// What is in flight, whatever else is wrong with a state.
fn in_flight<S: Fields>(state: &S) -> u64 {
    if S::LEDGERS == 1 {
        return 0;
    }
    let tables = [0, 1].map(|ledger| held_records(state, ledger));
    let flying = |sent: &&Record| {
        let there = &tables[sent.ledger().other().index()];
        let arrived = |record: &Record| !record.takes() && record.number == sent.number;
        !sent.gives() && !there.iter().any(arrived)
    };
    let sendings = tables.iter().flatten().filter(flying);
    sendings.fold(0, |sum: u64, sent| sum.wrapping_add(sent.amount))
}

/// Whether each held arrival finds its sending, by a wrong match.
fn arrivals_find_sendings(state: &PairState, wrong: Numbers) -> bool {
    let tables = [0, 1].map(|ledger| held_records(state, ledger));
    let mut arrivals = tables.iter().flatten().filter(|record| !record.takes());
    arrivals.all(|arrival| wrong.sent(arrival, &tables[arrival.ledger().other().index()]))
}

/// What a part is wrong in when it tells the places left.
#[derive(Clone, Copy, Debug, PartialEq, Eq)]
enum Places {
    /// What is held in place of what is left.
    Held,
    OneTooFew,
    OneTooMany,
    /// Wrong by one only where a table is full, or has one place.
    OneWhenFull,
    NoneForTheLast,
    LowByte,
    /// Told by the entries and not by the count.
    EmptyEntries,
    NumberZeroIsEmpty,
    FullIsRefused,
    RefusedPasses,
    ZerosPass,
    BoundsAlone,
    SumNotLookedAt,
    BesideRefusal,
    PlaceOfRefusal,
    /// These need two ledgers.
    Exchanged,
    HomeTwice,
    FarTwice,
    OneTableForBoth,
    ZerosForFarOnly,
}

/// Those that a part can be wrong in for one ledger too.
const PLACES: [Places; 15] = [
    Places::Held,
    Places::OneTooFew,
    Places::OneTooMany,
    Places::OneWhenFull,
    Places::NoneForTheLast,
    Places::LowByte,
    Places::EmptyEntries,
    Places::NumberZeroIsEmpty,
    Places::FullIsRefused,
    Places::RefusedPasses,
    Places::ZerosPass,
    Places::BoundsAlone,
    Places::SumNotLookedAt,
    Places::BesideRefusal,
    Places::PlaceOfRefusal,
];

const PLACES_OF_TWO: [Places; 5] = [
    Places::Exchanged,
    Places::HomeTwice,
    Places::FarTwice,
    Places::OneTableForBoth,
    Places::ZerosForFarOnly,
];

#[test]
fn wrong_places_left_are_found() {
    for seed in [7, 8, 1_000_003] {
        for wrong in PLACES.into_iter().chain(PLACES_OF_TWO) {
            assert_places_found(Fault::PairPlaces(wrong), seed, "pair_places_left");
        }
        for wrong in PLACES {
            assert_places_found(Fault::HomePlaces(wrong), seed, "home_places_left");
        }
    }
}

fn assert_places_found(fault: Fault, seed: u64, call: &str) {
    let report = compare(&mut Wrong::new(fault), seed, CALLS, 1);
    assert!(report.differences > 0, "{fault:?} was not found");
    assert_eq!(report.kept[0].call, call, "{fault:?}");
    assert!(report.kept[0].inputs.contains("Counts: "), "{fault:?}");
}

#[test]
fn wrong_calls_in_place_are_found() {
    for wrong in IN_PLACE {
        for (fault, side) in [
            (Fault::PairInPlace(wrong), "pair_take"),
            (Fault::HomeInPlace(wrong), "home_take"),
        ] {
            let report = compare(&mut Wrong::new(fault), 7, CALLS, 1);
            assert!(report.differences > 0, "{fault:?} was not found");
            assert!(report.kept[0].call.starts_with(side), "{fault:?}");
        }
    }
}

#[test]
fn wrong_parts_are_found() {
    for fault in FAULTS {
        let mut part = Wrong::new(fault);
        let report = compare(&mut part, 7, CALLS, 1);
        assert!(report.differences > 0, "{fault:?} was not found");
        assert!(!report.kept[0].found.is_empty(), "{fault:?}");
        assert!(!report.kept[0].inputs.is_empty(), "{fault:?}");
    }
}

#[test]
fn right_parts_are_not_found_wrong() {
    let report = compare(&mut Wrong::new(Fault::None), 7, 3_000, u64::MAX);
    assert_eq!(report.differences, 0);
}

#[test]
fn same_seed_same_calls() {
    let sum = |seed, fault| {
        let mut part = Wrong::new(fault);
        compare(&mut part, seed, 2_000, u64::MAX);
        part.listener.sum
    };
    let first = sum(3, Fault::None);
    assert_eq!(first, sum(3, Fault::None));
    assert_ne!(first, sum(4, Fault::None));
    // What the part answers has no influence on the calls.
    for fault in [
        Fault::WritesBeyondTheCount,
        Fault::PairPlaces(Places::RefusedPasses),
        Fault::HomePlaces(Places::Held),
    ] {
        assert_eq!(first, sum(3, fault));
    }
}

#[test]
fn differences_are_kept_and_shown() {
    let mut part = Wrong::new(Fault::PlaceOneTooHigh);
    let report = compare(&mut part, 5, 2_000, u64::MAX);
    assert!(report.differences > 20);
    assert_eq!(report.kept.len(), 20);
    let kept = &report.kept[0];
    assert!(kept.call.ends_with("check_list"));
    assert!(kept.found[0].starts_with("answer: Refused"));
    for word in ["Supply: ", "Balances: ", "Verdicts: ", " bytes: "] {
        assert!(kept.inputs.contains(word), "{}", kept.inputs);
    }
    let text = report.to_string();
    assert!(text.starts_with("seed 5\n"));
    assert!(text.contains("family pair_runs: "));
    assert!(text.contains("call block_write: "));
    let (calls, differ) = (report.calls, report.differences);
    assert!(text.ends_with(&format!("\n{calls} calls compared, {differ} differ\n")));
    // It ends early once there are enough.
    let early = compare(&mut part, 5, 2_000, 2);
    assert!(early.calls < report.calls && early.differences >= 2);
}

/// The library with one fault.
struct Wrong {
    fault: Fault,
    right: Oracle,
    listener: Listener,
    /// The checker that a fault of states is confined to, if it is.
    only: Option<&'static str>,
}

impl Wrong {
    fn new(fault: Fault) -> Wrong {
        Wrong {
            fault,
            right: Oracle,
            listener: Listener::default(),
            only: None,
        }
    }

    /// Whether the checker of this state is wrong.
    fn concerns<S: Fields>(&self) -> bool {
        let side = if S::LEDGERS == 2 { "pair" } else { "home" };
        self.only.is_none_or(|only| only == side)
    }

    /// Whether an accepted state is refused for numbers of held records.
    fn held_refused<S: Fields>(&self, state: &S) -> bool {
        match self.fault {
            Fault::HeldMayNotShare(one, two) if self.concerns::<S>() => {
                shares_number(state, [one, two])
            }
            _ => false,
        }
    }

    fn pair_held_refused(&self, state: &PairState) -> bool {
        let wrong = match self.fault {
            Fault::HeldMatchFindsArrival => Numbers::MatchFindsArrival,
            Fault::HeldMatchFindsFirst => Numbers::MatchFindsFirst,
            _ => return self.held_refused(state),
        };
        !arrivals_find_sendings(state, wrong)
    }

    fn is(&self, fault: Fault) -> bool {
        self.fault == fault
    }

    /// A place in a list that is told wrong.
    fn place(&self, answer: Answer) -> Answer {
        match (answer, self.fault) {
            (Refused { number, .. }, Fault::PlaceAlwaysZero) => Refused { number, place: 0 },
            (Refused { number, place }, Fault::PlaceOneTooHigh) if number != 3 => Refused {
                number,
                place: place + 1,
            },
            _ => answer,
        }
    }

    /// The bytes of one record as a part with a fault takes them.
    fn record<'b>(&self, bytes: &'b [u8]) -> &'b [u8] {
        if self.is(Fault::LongRecordCut) && bytes.len() > RECORD {
            return &bytes[..RECORD];
        }
        bytes
    }

    /// The bytes of a list as a part with a fault takes them.
    fn list<'b>(&self, bytes: &'b [u8]) -> &'b [u8] {
        if self.is(Fault::RestNotSeen) {
            return &bytes[..bytes.len() / RECORD * RECORD];
        }
        bytes
    }

    /// A refused state that a part with a fault takes for this one.
    fn pair_repaired(&self, state: &PairState) -> Option<Box<PairState>> {
        let mut state = Box::new(state.clone());
        match self.fault {
            Fault::WrappedSums => {
                let book = state.book()?;
                let flight = book.in_flight();
                let total = book.home_total() + book.far_total() + flight;
                if total as u64 != state.supply() {
                    return None;
                }
                set_all(&mut *state, Field::Balances, 0);
                state.balances_mut(0)[0] =
                    state.supply().checked_sub(u64::try_from(flight).ok()?)?;
            }
            Fault::HeldNumberTwice => renumber_locals(&mut state),
            Fault::HeldArrivalByNumber => {
                fit_arrivals(
                    &mut state,
                    &[Field::Amounts, Field::Senders, Field::Receivers],
                );
            }
            Fault::HeldMatch(field) => fit_arrivals(&mut state, &[field]),
            Fault::HeldSendingOfAnyKind => fit_kinds(&mut state),
            Fault::SupplyLimit if state.supply() > MAX_AMOUNT => {
                let half = state.supply() / 2 + 1;
                let rich = state.words[4_096..4_208].iter().position(|&b| b >= half)?;
                state.words[PairState::SUPPLY] -= half;
                state.words[4_096 + rich] -= half;
            }
            _ => self.repair(&mut *state)?,
        }
        Some(state)
    }

    /// What a part with a fault does not see in either state.
    fn repair<S: Fields>(&self, state: &mut S) -> Option<()> {
        match self.fault {
            Fault::BeyondAccounts => {
                (0..S::LEDGERS).for_each(|ledger| state.set(Field::Accounts, ledger, 56));
            }
            Fault::HeldVerdict => set_all(state, Field::Verdicts, 1),
            Fault::HeldVerdictNotZero => replace(state, Field::Verdicts, |old| old.min(1)),
            Fault::HeldNotLookedAt(Field::Kinds) => {
                replace(state, Field::Kinds, |old| {
                    if (1..4).contains(&old) {
                        old
                    } else {
                        1
                    }
                });
            }
            Fault::HeldNotLookedAt(Field::Amounts) => {
                replace(state, Field::Amounts, |old| old.clamp(1, MAX_AMOUNT));
            }
            Fault::HeldNotLookedAt(Field::Ledgers) => {
                for index in 0..S::length(Field::Ledgers) {
                    state.set(Field::Ledgers, index, (index / 512) as u64);
                }
            }
            Fault::HeldNotLookedAt(field) => set_all(state, field, 0),
            Fault::HeldKind(kind) => {
                replace(state, Field::Kinds, |old| if old == kind { 1 } else { old });
            }
            Fault::HeldLedgerByLowBit => replace(state, Field::Ledgers, |old| old & 1),
            Fault::HeldZeroByte(byte) => {
                let words = state.words_mut()[byte / 8..].iter_mut().step_by(4);
                let bits = 0xff << (8 * (7 - byte % 8));
                words.take(512 * S::LEDGERS).for_each(|word| *word &= !bits);
            }
            Fault::LowBitsOfCounts(field, bits) => {
                replace(state, field, |old| old & ((1 << bits) - 1))
            }
            Fault::HeldOpenOnEither(field) => open_on_either(state, field),
            Fault::LowBitsOfCharge(field, bits) if self.concerns::<S>() => {
                replace(state, field, |old| low_bits(old, bits));
            }
            Fault::ChargeNotLookedAt(field) if self.concerns::<S>() => set_all(state, field, 0),
            Fault::ChargeAccountOneTooMany if self.concerns::<S>() => {
                let open = state.get(Field::Accounts, 0);
                replace(state, Field::ChargeAccount, |old| {
                    if old == open {
                        0
                    } else {
                        old
                    }
                });
            }
            Fault::HeldMayShare(one, two) if self.concerns::<S>() && in_bounds(state) => {
                drop_sharing(state, [one, two], in_flight);
            }
            _ => return None,
        }
        Some(())
    }

    /// The number that is told of held accounts in place of 3.
    fn held_told<S: Fields + Clone>(
        &self,
        state: &S,
        accepted: impl Fn(&S) -> bool,
    ) -> Option<Answer> {
        let Fault::HeldAccountTold(field) = self.fault else {
            return None;
        };
        let mut mended = Box::new(state.clone());
        set_all(&mut *mended, field, 0);
        let number = if field == Field::Senders { 22 } else { 51 };
        accepted(&mended).then_some(refused(number))
    }

    fn home_repaired(&self, state: &HomeState) -> Option<Box<HomeState>> {
        let mut state = Box::new(state.clone());
        match self.fault {
            Fault::WrappedSums => {
                let total = state
                    .balances(0)
                    .iter()
                    .fold(state.pool(), |a, &b| a.wrapping_add(b));
                if total != state.supply() {
                    return None;
                }
                state.balances_mut(0).fill(0);
                state.words[HomeState::FAR_DUE] = state.supply();
            }
            _ => self.repair(&mut *state)?,
        }
        Some(state)
    }

    /// One record, by value or in place.
    fn pair_record(&mut self, state: &PairState, bytes: &[u8]) -> (Answer, Box<PairState>) {
        let bytes = self.record(bytes);
        let (mut answer, mut next) = self.right.pair_check_record(state, bytes);
        if let Fault::PairAccounts(wrong, Handed::Record) = self.fault {
            let right = |bytes: &[u8]| Oracle.pair_check_record(state, bytes).0;
            return (wrong.told(bytes, counts_of(state), right), next);
        }
        if let Fault::PairNumbers(wrong, Handed::Record) = self.fault {
            return (wrong.told(state, bytes, answer), next);
        }
        if let Fault::PairCharges(wrong, Handed::Record) = self.fault {
            return wrong.told(state, bytes, (answer, next));
        }
        if answer.number() != 3 && self.pair_held_refused(state) {
            return (refused(3), Box::new(state.clone()));
        }
        if answer.number() == 3 {
            let accepted = |state: &PairState| state.figures().0.passed();
            if let Some(told) = self.held_told(state, accepted) {
                return (told, next);
            }
            if let Some(repaired) = self.pair_repaired(state) {
                answer = self.right.pair_check_record(&repaired, bytes).0;
            }
        }
        answer = self.one_answer(answer, bytes, &Seen::of_pair(state, bytes));
        self.miswrite(answer, bytes, state, &mut next);
        (answer, next)
    }

    /// What a part with a fault writes into the state that it hands back.
    fn miswrite(&self, answer: Answer, bytes: &[u8], state: &PairState, next: &mut PairState) {
        if self.is(Fault::WritesBeyondTheCount) && !answer.passed() {
            if let Some(record) = Record::read(bytes) {
                let at = record.ledger().index();
                if state.count(at) < 512 {
                    let entry = held_entries(state, at).end;
                    next.put_held(entry, words_of(&record.bytes()));
                }
            }
        }
        if self.is(Fault::ClearsBeyondTheCount) && answer.passed() {
            next.put_held(511, [0; 4]);
        }
        if let (true, Some(record)) = (answer.passed(), is_local_to_itself(bytes)) {
            if self.is(Fault::SelfTransferGives) {
                let balances = next.balances_mut(record.ledger().index());
                balances[usize::from(record.sender)] += record.amount;
            }
        }
    }

    /// A list, by value or in place.
    fn pair_list(&mut self, state: &PairState, bytes: &[u8]) -> (Answer, Box<PairState>) {
        if self.is(Fault::EmptyListPasses) && bytes.is_empty() {
            return (Passed, Box::new(state.clone()));
        }
        let bytes = self.list(bytes);
        let (answer, next) = self.right.pair_check_list(state, bytes);
        if let Fault::PairAccounts(wrong, Handed::List) = self.fault {
            let right = |before: &[u8], record: &[u8]| {
                let state = Oracle.pair_check_list(state, before).1;
                Oracle.pair_check_record(&state, record).0
            };
            let told = wrong.told_of_list(answer, bytes, counts_of(state), right);
            return (told, next);
        }
        if let Fault::PairNumbers(wrong, Handed::List) = self.fault {
            if answer.number() != 3 && bytes.len() <= LONGEST_TOLD {
                let right =
                    |state: &PairState, record: &[u8]| Oracle.pair_check_record(state, record);
                return (wrong.told_of_list(state, bytes, right), next);
            }
        }
        if let Fault::PairCharges(wrong, Handed::List) = self.fault {
            if answer.number() != 3 && bytes.len() <= LONGEST_TOLD {
                return wrong.told_of_list(state, bytes, |state: &PairState, record| {
                    Oracle.pair_check_record(state, record)
                });
            }
        }
        if let (Fault::KeepsWhatStoodBefore, Refused { place, .. }) = (self.fault, answer) {
            let before = &bytes[..place as usize * RECORD];
            return (answer, self.right.pair_check_list(state, before).1);
        }
        if self.is(Fault::StateWithinList) && answer.number() == 3 && !whole(bytes) {
            return (refused(21), next);
        }
        (self.place(answer), next)
    }

    /// What is left in the state by a call in place.
    fn pair_taken(
        &mut self,
        state: &mut PairState,
        bytes: &[u8],
        handed: (Answer, Box<PairState>),
    ) -> Answer {
        let (answer, next) = match self.fault {
            Fault::PairInPlace(wrong) => wrong.taken(state, bytes, handed, |bytes| {
                Oracle.pair_check_list(state, bytes).1
            }),
            _ => handed,
        };
        *state = *next;
        answer
    }

    fn home_record(&mut self, state: &HomeState, bytes: &[u8]) -> (Answer, Box<HomeState>) {
        let bytes = self.record(bytes);
        let (mut answer, next) = self.right.home_check_record(state, bytes);
        if let Fault::HomeAccounts(wrong, Handed::Record) = self.fault {
            let right = |bytes: &[u8]| Oracle.home_check_record(state, bytes).0;
            return (wrong.told(bytes, counts_of(state), right), next);
        }
        if let Fault::HomeNumbers(wrong, Handed::Record) = self.fault {
            return (wrong.told(state, bytes, answer), next);
        }
        if let Fault::HomeCharges(wrong, Handed::Record) = self.fault {
            return wrong.told(state, bytes, (answer, next));
        }
        if answer.number() != 3 && self.held_refused(state) {
            return (refused(3), Box::new(state.clone()));
        }
        if answer.number() == 3 {
            let accepted = |state: &HomeState| state.figures().0.passed();
            if let Some(told) = self.held_told(state, accepted) {
                return (told, next);
            }
            if let Some(repaired) = self.home_repaired(state) {
                answer = self.right.home_check_record(&repaired, bytes).0;
            }
        }
        let seen = Seen::of_home(state, bytes);
        (self.one_answer(answer, bytes, &seen), next)
    }

    fn home_list(&mut self, state: &HomeState, bytes: &[u8]) -> (Answer, Box<HomeState>) {
        let (answer, next) = self.right.home_check_list(state, self.list(bytes));
        if let Fault::HomeAccounts(wrong, Handed::List) = self.fault {
            let right = |before: &[u8], record: &[u8]| {
                let state = Oracle.home_check_list(state, before).1;
                Oracle.home_check_record(&state, record).0
            };
            let told = wrong.told_of_list(answer, bytes, counts_of(state), right);
            return (told, next);
        }
        if let Fault::HomeNumbers(wrong, Handed::List) = self.fault {
            if answer.number() != 3 && bytes.len() <= LONGEST_TOLD {
                let right =
                    |state: &HomeState, record: &[u8]| Oracle.home_check_record(state, record);
                return (wrong.told_of_list(state, bytes, right), next);
            }
        }
        if let Fault::HomeCharges(wrong, Handed::List) = self.fault {
            if answer.number() != 3 && bytes.len() <= LONGEST_TOLD {
                return wrong.told_of_list(state, bytes, |state: &HomeState, record| {
                    Oracle.home_check_record(state, record)
                });
            }
        }
        (self.place(answer), next)
    }

    /// The answer to a block, from the right one.
    fn block(&self, block: &[u8], number: u64, answer: Answer) -> Answer {
        match self.fault {
            Fault::Block52(wrong) => wrong.told(block, number, answer),
            _ => answer,
        }
    }

    fn home_taken(
        &mut self,
        state: &mut HomeState,
        bytes: &[u8],
        handed: (Answer, Box<HomeState>),
    ) -> Answer {
        let (answer, next) = match self.fault {
            Fault::HomeInPlace(wrong) => wrong.taken(state, bytes, handed, |bytes| {
                Oracle.home_check_list(state, bytes).1
            }),
            _ => handed,
        };
        *state = *next;
        answer
    }

    /// The answers of one record that a part with a fault gives otherwise.
    fn one_answer(&self, answer: Answer, bytes: &[u8], seen: &Seen) -> Answer {
        let Some(record) = Record::read(bytes) else {
            let far = bytes.len() == RECORD && bytes[1] == 1;
            if self.is(Fault::FarRecordBeforeForm) && far && seen.guard {
                return refused(33);
            }
            if self.is(Fault::FormBeforeState) {
                return refused(21);
            }
            return answer;
        };
        let full = seen.count == 512;
        match (self.fault, answer.number()) {
            (Fault::ArrivalByNumber, 31) if seen.sent_under_number => Passed,
            (Fault::NumberZeroIsEmpty, 24) if record.number == 0 => Passed,
            (Fault::LowBitsOfNumbers(bits), 0) if seen.low_bits_used(record.number, bits) => {
                refused(24)
            }
            (Fault::LooksBeyondTheCount(Beyond::Numbers), 0) if seen.beyond(&record) => refused(24),
            (Fault::LooksBeyondTheCount(Beyond::Sendings), 31) if seen.sent_beyond => Passed,
            (Fault::FullBeforeUsed, 24) if full => refused(41),
            (Fault::FullBeforeCover, 25 | 31 | 32) if full => refused(41),
            (Fault::FullAt511, 0) if seen.count == 511 => refused(41),
            (Fault::DueOneTooHigh, 32) if record.amount == seen.due + 1 => Passed,
            (Fault::DueReached, 0) if seen.arrival_of(&record) == Some(seen.due) => refused(32),
            _ => answer,
        }
    }
}

impl Accounts {
    /// Whether sender and receiver are open as a part sees it that is wrong in
    /// this.
    fn seen_open(self, record: &Record, counts: [u64; 2]) -> [bool; 2] {
        let sender = (Field::Senders, record.sender, record.sender_ledger());
        let receiver = (Field::Receivers, record.receiver, record.receiver_ledger());
        [sender, receiver].map(|(field, account, ledger)| {
            let [own, other] = [ledger, ledger.other()].map(|ledger| counts[ledger.index()]);
            let account = u64::from(account);
            let kind = record.kind.byte();
            match self {
                Accounts::NotLookedAt(wrong) if wrong == field => true,
                Accounts::LowByte(wrong) if wrong == field => account & 0xff < own,
                Accounts::OneTooMany(wrong) if wrong == field => account <= own,
                Accounts::OneTooFew(wrong) if wrong == field => account + 1 < own,
                Accounts::OnOtherLedger(of, wrong) if (of, wrong) == (kind, field) => {
                    account < other
                }
                Accounts::OnLargerLedger => account < own.max(other),
                Accounts::OnSmallerLedger => account < own.min(other),
                _ => account < own,
            }
        })
    }

    /// The answer to one record. `right` is what the library answers on the
    /// same state.
    fn told(self, bytes: &[u8], counts: [u64; 2], right: impl Fn(&[u8]) -> Answer) -> Answer {
        let answer = right(bytes);
        let Some(record) = Record::read(bytes) else {
            let early = self == Accounts::ReceiverBeforeForm && answer.number() == 21;
            let astray = early && receiver_astray(bytes, counts);
            return if astray { refused(51) } else { answer };
        };
        let [sender, receiver] = self.seen_open(&record, counts);
        match (self, answer.number()) {
            (Accounts::OneNumber | Accounts::Exchanged, 51) => refused(22),
            (Accounts::OneNumberOf(kind, ledger), 51) if bytes[..2] == [kind, ledger] => {
                refused(22)
            }
            (Accounts::Exchanged, 22) => refused(51),
            (Accounts::ReceiverFirst, 22) if !receiver => refused(51),
            (Accounts::ReceiverAfter(last), 51) => {
                let receiver = 0;
                let open = Record { receiver, ..record };
                if_not_after(right(&open.bytes()), last).unwrap_or(answer)
            }
            (Accounts::SenderAfter(last), 22) => {
                let open = Record {
                    sender: 0,
                    ..record
                };
                if_not_after(right(&open.bytes()), last).unwrap_or(answer)
            }
            (Accounts::ReceiverBeforeState, 3) if !receiver => refused(51),
            (Accounts::ReceiverBeforeFarRecord, 33) if !receiver => refused(51),
            (_, 3 | 33) => answer,
            _ if !sender => refused(22),
            _ if !receiver => refused(51),
            _ => right(&opened(&record, counts).bytes()),
        }
    }

    /// The answer to a list, from the right one. `right` is what the library
    /// answers to a record after others of the list.
    fn told_of_list(
        self,
        answer: Answer,
        bytes: &[u8],
        counts: [u64; 2],
        right: impl Fn(&[u8], &[u8]) -> Answer,
    ) -> Answer {
        let passed = match answer {
            Passed => bytes.len() / RECORD,
            Refused { place, .. } => place as usize,
        };
        let mut records = bytes.chunks(RECORD).enumerate();
        // Records that pass are told otherwise for their accounts alone.
        for (place, record) in records.by_ref().take(passed) {
            let record = Record::read(record).expect("a passed record");
            let open = self.seen_open(&record, counts);
            if open != [true; 2] {
                let number = if open[0] { 51 } else { 22 };
                let place = place as u64;
                return Refused { number, place };
            }
        }
        let Some((place, record)) = records.next() else {
            return answer;
        };
        let before = &bytes[..place * RECORD];
        match self.told(record, counts, |record| right(before, record)) {
            Passed => Passed,
            Refused { number, .. } => {
                let place = place as u64;
                Refused { number, place }
            }
        }
    }
}

/// An answer, if it is a refusal that comes up to this one in the order.
fn if_not_after(answer: Answer, last: u8) -> Option<Answer> {
    let rank = |number| AFTER_SENDER.iter().position(|&other| other == number);
    let early = rank(answer.number()).is_some_and(|own| Some(own) <= rank(last));
    early.then_some(answer)
}

/// Whether bytes that do not read as a record have a receiver's account that is
/// not open all the same.
fn receiver_astray(bytes: &[u8], counts: [u64; 2]) -> bool {
    if bytes.len() != RECORD {
        return false;
    }
    let Some(kind) = Kind::from_bytes(bytes[0], bytes[1]) else {
        return false;
    };
    let record = Record {
        kind,
        sender: 0,
        receiver: u16::from_be_bytes([bytes[4], bytes[5]]),
        number: 0,
        amount: 1,
        good: true,
    };
    !Accounts::OneNumber.seen_open(&record, counts)[1]
}

/// A record with account 0 for each that is not open.
fn opened(record: &Record, counts: [u64; 2]) -> Record {
    let [sender, receiver] = Accounts::OneNumber.seen_open(record, counts);
    Record {
        sender: if sender { record.sender } else { 0 },
        receiver: if receiver { record.receiver } else { 0 },
        ..*record
    }
}

/// The open accounts of home and far.
fn counts_of<S: Fields>(state: &S) -> [u64; 2] {
    [0, 1].map(|ledger| state.get(Field::Accounts, ledger))
}

/// Held accounts that are open on the other ledger only become 0.
fn open_on_either<S: Fields>(state: &mut S, field: Field) {
    let counts = counts_of(state);
    for ledger in 0..S::LEDGERS {
        for entry in held_entries(state, ledger) {
            let crossing = if field == Field::Senders { 3 } else { 2 };
            let there = state.get(Field::Kinds, entry) == crossing;
            let own = if there { 1 - ledger } else { ledger };
            let account = state.get(field, entry);
            if (counts[own]..counts[1 - own]).contains(&account) {
                state.set(field, entry, 0);
            }
        }
    }
}

/// Every entry of a field gets a value.
fn set_all<S: Fields>(state: &mut S, field: Field, value: u64) {
    replace(state, field, |_| value);
}

/// Every entry of a field gets a value for its old one.
fn replace<S: Fields>(state: &mut S, field: Field, value: impl Fn(u64) -> u64) {
    for index in 0..S::length(field) {
        let value = value(state.get(field, index));
        state.set(field, index, value);
    }
}

/// The entries of a ledger's held records.
fn held_entries<S: Fields>(state: &S, ledger: usize) -> std::ops::Range<usize> {
    let count = state.get(Field::Counts, ledger).min(512) as usize;
    512 * ledger..512 * ledger + count
}

/// The entries of a ledger that are beyond the count.
fn entries_beyond<S: Fields>(state: &S, ledger: usize) -> std::ops::Range<usize> {
    held_entries(state, ledger).end..512 * (ledger + 1)
}

/// Gives each local a number of its own.
fn renumber_locals(state: &mut PairState) {
    for ledger in 0..2 {
        for entry in held_entries(state, ledger) {
            if state.get(Field::Kinds, entry) == 1 {
                state.set(Field::Numbers, entry, 0x7e57_0000_0000_0000 + entry as u64);
            }
        }
    }
}

/// The arrivals that are held, each with the record of its number on the other
/// ledger that a condition finds.
fn crossings(state: &PairState, wanted: impl Fn(u64) -> bool) -> Vec<(usize, usize)> {
    let mut found = Vec::new();
    for ledger in 0..2 {
        for entry in held_entries(state, ledger) {
            let number = state.get(Field::Numbers, entry);
            let sent = held_entries(state, 1 - ledger).find(|&other| {
                wanted(state.get(Field::Kinds, other)) && state.get(Field::Numbers, other) == number
            });
            if let (3, Some(sent)) = (state.get(Field::Kinds, entry), sent) {
                found.push((entry, sent));
            }
        }
    }
    found
}

/// Makes each arrival fit the sending of its number in these fields.
fn fit_arrivals(state: &mut PairState, fields: &[Field]) {
    for (arrived, sent) in crossings(state, |kind| kind == 2) {
        for &field in fields {
            let value = state.get(field, sent);
            state.set(field, arrived, value);
        }
    }
}

/// Makes each record of an arrival's number a sending.
fn fit_kinds(state: &mut PairState) {
    for (_, sent) in crossings(state, |_| true) {
        state.set(Field::Kinds, sent, 2);
    }
}

impl InPlace {
    /// What a call in place leaves in the state, and its answer, from what it
    /// was handed and what is right.
    fn taken<const N: usize>(
        self,
        before: &State<N>,
        bytes: &[u8],
        right: (Answer, Box<State<N>>),
        as_far: impl Fn(&[u8]) -> Box<State<N>>,
    ) -> (Answer, Box<State<N>>)
    where
        State<N>: Layout,
    {
        let (answer, mut next) = right;
        let counts: Vec<usize> = (0..State::<N>::LEDGERS)
            .map(|ledger| before.count(ledger).min(512) as usize)
            .collect();
        let firsts: Vec<usize> = counts
            .iter()
            .zip([0, 512])
            .map(|(count, first)| first + count)
            .collect();
        match (self, answer) {
            (InPlace::NothingAltered, _) => next = Box::new(before.clone()),
            (InPlace::BalancesNotAltered, _) => {
                for ledger in 0..State::<N>::LEDGERS {
                    next.balances_mut(ledger)
                        .copy_from_slice(before.balances(ledger));
                }
            }
            (InPlace::RecordNotWritten, Passed) => {
                for entry in firsts.into_iter().filter(|entry| entry % 512 != 0) {
                    next.put_held(entry, before.held(entry));
                }
            }
            (InPlace::CountNotRaised, Passed) => {
                let counts = State::<N>::COUNTS..State::<N>::COUNTS + State::<N>::LEDGERS;
                next.words[counts.clone()].copy_from_slice(&before.words[counts]);
            }
            (InPlace::RefusedIsCounted, Refused { number: 25, .. }) => {
                next.words[State::<N>::COUNTS] += 1;
            }
            (InPlace::RefusedIsWritten, Refused { number: 24, .. }) if counts[0] < 512 => {
                next.put_held(firsts[0], words_of(bytes[..RECORD].try_into().unwrap()));
            }
            (InPlace::RefusedListIsKept, Refused { place, .. }) => {
                next = as_far(&bytes[..place as usize * RECORD]);
            }
            (InPlace::NextPlaceCleared, Passed) if next.count(0) < 512 => {
                next.put_held(next.count(0) as usize, [0; 4]);
            }
            (InPlace::ZeroedBeyond, Refused { .. }) if counts[0] < 512 => {
                next.put_held(511, [0; 4]);
            }
            (InPlace::OneWordOfTheLast, Passed) if next.count(0) > counts[0] as u64 => {
                next.words[4 * next.count(0) as usize - 1] |= 1;
            }
            (InPlace::StateClearedOnRefusal, Refused { number: 3, .. }) => {
                next = Box::new(State::ZERO);
            }
            (InPlace::AnswerOfBefore, Refused { number: 41, .. }) => return (Passed, next),
            (InPlace::PlaceAlwaysZero, Refused { number, .. }) => {
                return (Refused { number, place: 0 }, next);
            }
            _ => (),
        }
        (answer, next)
    }
}

impl Places {
    /// The places left as a part tells them that is wrong in this, from the
    /// right answer. `sum_wrong` says that the state is refused for its sum
    /// alone.
    fn told<S: Fields>(
        self,
        state: &S,
        right: (Answer, Vec<u64>),
        sum_wrong: bool,
    ) -> (Answer, Vec<u64>) {
        let (answer, left) = right;
        if answer.passed() {
            return self.told_of_accepted(state, left);
        }
        let mut unjudged: Vec<u64> = (0..S::LEDGERS)
            .map(|ledger| 512_u64.saturating_sub(state.get(Field::Counts, ledger)))
            .collect();
        match self {
            Places::RefusedPasses => (Passed, unjudged),
            Places::ZerosPass if all_zero(state) => (Passed, unjudged),
            Places::BoundsAlone if in_bounds(state) => (Passed, unjudged),
            Places::SumNotLookedAt if sum_wrong => (Passed, unjudged),
            Places::BesideRefusal => (answer, unjudged),
            Places::ZerosForFarOnly => {
                unjudged[1] = 0;
                (answer, unjudged)
            }
            Places::PlaceOfRefusal => {
                let number = answer.number();
                (Refused { number, place: 1 }, left)
            }
            _ => (answer, left),
        }
    }

    fn told_of_accepted<S: Fields>(self, state: &S, left: Vec<u64>) -> (Answer, Vec<u64>) {
        let told = match self {
            Places::FullIsRefused if left.contains(&0) => {
                return (refused(41), vec![0; left.len()]);
            }
            Places::Exchanged => vec![left[1], left[0]],
            Places::HomeTwice => vec![left[0]; 2],
            Places::FarTwice => vec![left[1]; 2],
            Places::OneTableForBoth => vec![(left[0] + left[1]).saturating_sub(512); 2],
            _ => (0..left.len())
                .map(|ledger| self.told_of_ledger(state, ledger, left[ledger]))
                .collect(),
        };
        (Passed, told)
    }

    fn told_of_ledger<S: Fields>(self, state: &S, ledger: usize, left: u64) -> u64 {
        let zeros = |field, entries: std::ops::Range<usize>| {
            let zero = |&entry: &usize| state.get(field, 512 * ledger + entry) == 0;
            entries.filter(zero).count() as u64
        };
        match self {
            Places::Held => 512 - left,
            Places::OneTooFew => left.saturating_sub(1),
            Places::OneTooMany => left + 1,
            Places::OneWhenFull => left.max(1),
            Places::NoneForTheLast if left == 1 => 0,
            Places::LowByte => left & 0xff,
            Places::EmptyEntries => zeros(Field::Kinds, 0..512),
            Places::NumberZeroIsEmpty => left + zeros(Field::Numbers, 0..512 - left as usize),
            _ => left,
        }
    }
}

fn all_zero<S: Fields>(state: &S) -> bool {
    let zero = |&field: &Field| (0..S::length(field)).all(|index| state.get(field, index) == 0);
    S::FIELDS.iter().all(zero)
}

/// Whether the counts are within bounds.
fn in_bounds<S: Fields>(state: &S) -> bool {
    let accounts = |ledger| (1..=56).contains(&state.get(Field::Accounts, ledger));
    let held = |ledger| state.get(Field::Counts, ledger) <= 512;
    (0..2).all(accounts) && (0..S::LEDGERS).all(held)
}

/// The state with the stake that its sum asks for.
fn pair_with_sum(state: &PairState) -> Option<Box<PairState>> {
    let book = state.book()?;
    let sum = book.home_total() + book.far_total() + book.in_flight();
    let mut state = Box::new(state.clone());
    state.words[PairState::SUPPLY] = u64::try_from(sum).ok()?;
    Some(state)
}

fn home_with_sum(state: &HomeState) -> Option<Box<HomeState>> {
    let sum = state.guard()?.home_total() + u128::from(state.pool());
    let mut state = Box::new(state.clone());
    state.words[HomeState::SUPPLY] = u64::try_from(sum).ok()?;
    Some(state)
}

/// In flight as a part tells it that takes arrivals beyond the count for held.
fn flight_with_arrivals_beyond(state: &PairState) -> u64 {
    let entries = |ledger: usize| 512 * ledger..512 * (ledger + 1);
    let arrived = |ledger, number| {
        entries(ledger).any(|entry| {
            state.get(Field::Kinds, entry) == 3 && state.get(Field::Numbers, entry) == number
        })
    };
    (0..2)
        .flat_map(|ledger| held_entries(state, ledger).map(move |entry| (ledger, entry)))
        .filter(|&(_, entry)| state.get(Field::Kinds, entry) == 2)
        .filter(|&(ledger, entry)| !arrived(1 - ledger, state.get(Field::Numbers, entry)))
        .map(|(_, entry)| state.get(Field::Amounts, entry))
        .sum()
}

/// What a wrong part looks at.
struct Seen {
    guard: bool,
    count: u64,
    numbers: Vec<u64>,
    numbers_beyond: Vec<u64>,
    sent_under_number: bool,
    sent_beyond: bool,
    due: u64,
}

impl Seen {
    fn of_pair(state: &PairState, bytes: &[u8]) -> Seen {
        let record = Record::read(bytes);
        let at = record.map_or(0, |record| record.ledger().index());
        let sent = |entry| {
            state.get(Field::Kinds, entry) == 2
                && record.is_some_and(|record| state.get(Field::Numbers, entry) == record.number)
        };
        Seen {
            guard: false,
            sent_under_number: held_entries(state, 1 - at).any(sent),
            sent_beyond: entries_beyond(state, 1 - at).any(sent),
            due: 0,
            ..Seen::of_side(state, at, bytes)
        }
    }

    fn of_home(state: &HomeState, bytes: &[u8]) -> Seen {
        Seen {
            due: state.pool(),
            ..Seen::of_side(state, 0, bytes)
        }
    }

    /// Of the numbers those that are counted with the record's.
    fn of_side<S: Fields>(state: &S, ledger: usize, bytes: &[u8]) -> Seen {
        let arrival = bytes.first() == Some(&3);
        let class = |entry: &usize| (state.get(Field::Kinds, *entry) == 3) == arrival;
        let number = |entry| state.get(Field::Numbers, entry);
        let numbers = |entries: std::ops::Range<usize>| entries.filter(class).map(number).collect();
        Seen {
            guard: true,
            count: state.get(Field::Counts, ledger),
            numbers: numbers(held_entries(state, ledger)),
            numbers_beyond: numbers(entries_beyond(state, ledger)),
            sent_under_number: false,
            sent_beyond: false,
            due: 0,
        }
    }

    /// Whether the record's number stands beyond the count.
    fn beyond(&self, record: &Record) -> bool {
        self.numbers_beyond.contains(&record.number)
    }

    fn low_bits_used(&self, number: u64, bits: u32) -> bool {
        let alike = |&used: &u64| (used ^ number) << (64 - bits) == 0;
        self.numbers.iter().any(alike)
    }

    fn arrival_of(&self, record: &Record) -> Option<u64> {
        (self.guard && !record.takes()).then_some(record.amount)
    }
}

fn refused(number: u8) -> Answer {
    Refused { number, place: 0 }
}

fn whole(bytes: &[u8]) -> bool {
    bytes.len().is_multiple_of(RECORD)
}

fn is_local_to_itself(bytes: &[u8]) -> Option<Record> {
    Record::read(bytes)
        .filter(|record| record.takes() && record.gives() && record.sender == record.receiver)
}

impl Part for Wrong {
    fn pair_open(
        &mut self,
        home: &[u64],
        far: &[u64],
        rate: u64,
        charge_account: u64,
    ) -> (Answer, Box<PairState>) {
        self.listener.note(&[home.len() as u8, far.len() as u8]);
        let (answer, mut state) = self.right.pair_open(home, far, rate, charge_account);
        self.listener.pair_opened(&state);
        if let (Fault::Opening52(wrong), true) = (self.fault, self.concerns::<PairState>()) {
            let charge = [rate, charge_account];
            return wrong.told(charge, home.len(), (answer, state), |rate, account| {
                Oracle.pair_open(home, far, rate, account)
            });
        }
        if self.is(Fault::OpeningKept) && !answer.passed() {
            state.set(Field::Accounts, 0, home.len() as u64);
            state.set(Field::Accounts, 1, far.len() as u64);
        }
        if self.is(Fault::OpeningWraps) && answer.number() == 2 {
            let total = home
                .iter()
                .chain(far)
                .fold(0, |a: u64, &b| a.wrapping_add(b));
            if total < 1 << 63 {
                return (Passed, state);
            }
        }
        (answer, state)
    }

    fn pair_check_record(&mut self, state: &PairState, bytes: &[u8]) -> (Answer, Box<PairState>) {
        self.listener.note(bytes);
        self.listener.note_state(state);
        self.listener.pair_handed_in(state);
        let handed = self.pair_record(state, bytes);
        self.listener
            .number_looked_up(Handed::Record, bytes, state, handed.0);
        if self.listener.absent_at(handed.0).is_some() {
            let right = |bytes: &[u8]| Oracle.pair_check_record(state, bytes).0;
            self.listener.refused(Handed::Record, bytes, state, right);
        }
        handed
    }

    fn pair_check_list(&mut self, state: &PairState, bytes: &[u8]) -> (Answer, Box<PairState>) {
        self.listener.note(bytes);
        self.listener.pair_handed_in(state);
        let (answer, next) = self.pair_list(state, bytes);
        self.listener.pair_listed(&next);
        if let Some(at) = self.listener.last_at(bytes, answer) {
            let state = Oracle.pair_check_list(state, &bytes[..at]).1;
            let record = &bytes[at..at + RECORD];
            self.listener
                .number_looked_up(Handed::List, record, &*state, answer);
        }
        if let Some(at) = self.listener.absent_at(answer) {
            let state = Oracle.pair_check_list(state, &bytes[..at]).1;
            let right = |bytes: &[u8]| Oracle.pair_check_record(&state, bytes).0;
            let record = &bytes[at..at + RECORD];
            self.listener.refused(Handed::List, record, &*state, right);
        }
        (answer, next)
    }

    fn pair_take(&mut self, state: &mut PairState, bytes: &[u8]) -> Answer {
        let handed = self.pair_record(state, bytes);
        self.pair_taken(state, bytes, handed)
    }

    fn pair_take_list(&mut self, state: &mut PairState, bytes: &[u8]) -> Answer {
        let handed = self.pair_list(state, bytes);
        self.pair_taken(state, bytes, handed)
    }

    fn pair_figures(&mut self, state: &PairState) -> (Answer, [u64; 3]) {
        self.listener.pair_handed_in(state);
        let (answer, figures) = self.right.pair_figures(state);
        if self.is(Fault::FiguresBesideRefusal) && !answer.passed() {
            return (answer, [state.supply(), 0, 0]);
        }
        if let (Fault::FlightWithCharges, Passed) = (self.fault, answer) {
            let home = held_records(state, 0);
            let sent = home.iter().filter(|record| !record.gives());
            let rate = state.get(Field::Rate, 0);
            let charges: u64 = sent
                .map(|sent| Charges::FarPays.of(sent.amount, rate))
                .sum();
            return (answer, [figures[0], figures[1], figures[2] + charges]);
        }
        if let (Fault::Flight(wrong), Passed) = (self.fault, answer) {
            return (answer, [figures[0], figures[1], wrong.told(state)]);
        }
        if self.is(Fault::LooksBeyondTheCount(Beyond::Arrivals)) && answer.passed() {
            return (
                answer,
                [figures[0], figures[1], flight_with_arrivals_beyond(state)],
            );
        }
        (answer, figures)
    }

    fn pair_balance(&mut self, state: &PairState, ledger: u8, account: u16) -> (Answer, u64) {
        self.listener.pair_handed_in(state);
        if self.is(Fault::LedgerTwoIsFar) {
            return self.right.pair_balance(state, ledger.min(1), account);
        }
        let (answer, balance) = self.right.pair_balance(state, ledger, account);
        if self.is(Fault::PairBalanceTellsReceiver) && answer.number() == 22 {
            return (refused(51), balance);
        }
        let account = usize::from(account);
        if self.is(Fault::BalanceBeyondAccounts) && answer.number() == 22 && account < 56 {
            return (Passed, state.balances(0)[account]);
        }
        (answer, balance)
    }

    fn pair_places_left(&mut self, state: &PairState) -> (Answer, [u64; 2]) {
        self.listener.note_state(state);
        self.listener.pair_handed_in(state);
        let (answer, left) = self.right.pair_places_left(state);
        let Fault::PairPlaces(wrong) = self.fault else {
            return (answer, left);
        };
        let sum_wrong = pair_with_sum(state).is_some_and(|state| state.places_left().0.passed());
        let (answer, told) = wrong.told(state, (answer, left.to_vec()), sum_wrong);
        (answer, [told[0], told[1]])
    }

    fn home_open(
        &mut self,
        home: &[u64],
        fars: usize,
        far_total: u64,
        rate: u64,
        charge_account: u64,
    ) -> (Answer, Box<HomeState>) {
        let (answer, state) = self
            .right
            .home_open(home, fars, far_total, rate, charge_account);
        self.listener.home_opened(&state);
        if let (Fault::Opening52(wrong), true) = (self.fault, self.concerns::<HomeState>()) {
            let charge = [rate, charge_account];
            return wrong.told(charge, home.len(), (answer, state), |rate, account| {
                Oracle.home_open(home, fars, far_total, rate, account)
            });
        }
        (answer, state)
    }

    fn home_check_record(&mut self, state: &HomeState, bytes: &[u8]) -> (Answer, Box<HomeState>) {
        self.listener.note(bytes);
        self.listener.note_state(state);
        self.listener.home_handed_in(state);
        let handed = self.home_record(state, bytes);
        self.listener
            .number_looked_up(Handed::Record, bytes, state, handed.0);
        if self.listener.absent_at(handed.0).is_some() {
            let right = |bytes: &[u8]| Oracle.home_check_record(state, bytes).0;
            self.listener.refused(Handed::Record, bytes, state, right);
        }
        handed
    }

    fn home_check_list(&mut self, state: &HomeState, bytes: &[u8]) -> (Answer, Box<HomeState>) {
        self.listener.note(bytes);
        self.listener.home_handed_in(state);
        let (answer, next) = self.home_list(state, bytes);
        self.listener.home_listed(&next);
        if let Some(at) = self.listener.last_at(bytes, answer) {
            let state = Oracle.home_check_list(state, &bytes[..at]).1;
            let record = &bytes[at..at + RECORD];
            self.listener
                .number_looked_up(Handed::List, record, &*state, answer);
        }
        if let Some(at) = self.listener.absent_at(answer) {
            let state = Oracle.home_check_list(state, &bytes[..at]).1;
            let right = |bytes: &[u8]| Oracle.home_check_record(&state, bytes).0;
            let record = &bytes[at..at + RECORD];
            self.listener.refused(Handed::List, record, &*state, right);
        }
        (answer, next)
    }

    fn home_take(&mut self, state: &mut HomeState, bytes: &[u8]) -> Answer {
        let handed = self.home_record(state, bytes);
        self.home_taken(state, bytes, handed)
    }

    fn home_take_list(&mut self, state: &mut HomeState, bytes: &[u8]) -> Answer {
        let handed = self.home_list(state, bytes);
        self.home_taken(state, bytes, handed)
    }

    fn home_figures(&mut self, state: &HomeState) -> (Answer, [u64; 2]) {
        self.listener.home_handed_in(state);
        self.right.home_figures(state)
    }

    fn home_balance(&mut self, state: &HomeState, account: u16) -> (Answer, u64) {
        self.listener.home_handed_in(state);
        let (answer, balance) = self.right.home_balance(state, account);
        if self.is(Fault::HomeBalanceTellsReceiver) && answer.number() == 22 {
            return (refused(51), balance);
        }
        (answer, balance)
    }

    fn home_places_left(&mut self, state: &HomeState) -> (Answer, u64) {
        self.listener.note_state(state);
        self.listener.home_handed_in(state);
        let (answer, left) = self.right.home_places_left(state);
        let Fault::HomePlaces(wrong) = self.fault else {
            return (answer, left);
        };
        let sum_wrong = home_with_sum(state).is_some_and(|state| state.places_left().0.passed());
        let (answer, told) = wrong.told(state, (answer, vec![left]), sum_wrong);
        (answer, told[0])
    }

    fn record_read(&mut self, bytes: &[u8]) -> (Answer, Held) {
        self.listener.note(bytes);
        if self.is(Fault::ReservedByte) && bytes.len() == RECORD {
            let mut bytes = bytes.to_vec();
            bytes[31] = 0;
            return self.right.record_read(&bytes);
        }
        self.right.record_read(bytes)
    }

    fn record_encode(&mut self, fields: &Held) -> (Answer, [u8; RECORD]) {
        let (answer, bytes) = self.right.record_encode(fields);
        if self.is(Fault::EncodesAnyVerdict) && !answer.passed() {
            let verdict = 1;
            return self.right.record_encode(&Held { verdict, ..*fields });
        }
        (answer, bytes)
    }

    fn block_judge(&mut self, block: &[u8], number: u64, before: u64) -> Answer {
        self.listener.note(block);
        let answer = self.right.block_judge(block, number, before);
        match self.fault {
            Fault::CountBeforeBlock2 if answer.passed() && number == 2 && before < 14 => Refused {
                number: 14,
                place: number,
            },
            Fault::ToldCountNotLookedAt => self.right.block_judge(block, number, 14),
            Fault::LowBitsOfBlockNumber => {
                let low = number & 0xffff_ffff;
                match self.right.block_judge(block, low, before) {
                    Passed => Passed,
                    _ => answer,
                }
            }
            Fault::Block65536 if number == 65_536 && block.len() == 512 => Refused {
                number: 12,
                place: number,
            },
            Fault::ZeroBytesOfBlock if answer.number() == 14 && block[31] != 0 => Passed,
            _ => self.block(block, number, answer),
        }
    }

    fn block_judge_record(&mut self, block: &[u8], number: u64, before: u64, place: u64) -> Answer {
        if self.is(Fault::PlaceBeforeBlock) && place >= 14 {
            return Refused {
                number: 4,
                place: number,
            };
        }
        let answer = self.right.block_judge_record(block, number, before, place);
        if self.is(Fault::Block52(Block52::AfterPlace)) && answer.number() == 52 {
            return refused(4);
        }
        answer
    }

    fn block_record(
        &mut self,
        block: &[u8],
        number: u64,
        before: u64,
        place: u64,
    ) -> (Answer, [usize; 2]) {
        let place = match self.fault {
            Fault::LowBitsOfPlace => place & 0xffff_ffff,
            _ => place,
        };
        self.right.block_record(block, number, before, place)
    }

    fn block_count(&mut self, block: &[u8], number: u64, before: u64) -> (Answer, u64) {
        let (answer, count) = self.right.block_count(block, number, before);
        if self.is(Fault::CountBesideRefusal) && answer.number() == 14 {
            return (answer, u64::from(block[5]));
        }
        (answer, count)
    }

    fn block_balances(&mut self, block: &[u8], number: u64, before: u64) -> (Answer, Stakes) {
        let (answer, handed) = self.right.block_balances(block, number, before);
        if self.is(Fault::BalancesOfRecords) && answer.number() == 4 {
            return (Passed, handed);
        }
        let (count, rate, account, balances) = handed;
        let (rate, account) = match (self.fault, answer.number()) {
            (Fault::Block52(Block52::RateAndAccountExchanged), 0) => (account, rate),
            (Fault::Block52(Block52::NotHandedOut), 0) => (0, 0),
            (Fault::Block52(Block52::BesideRefusal), 52) => (charge_in(block)[0], account),
            _ => (rate, account),
        };
        (answer, (count, rate, account, balances))
    }

    fn block_write(
        &mut self,
        output: &mut [u8],
        number: u64,
        kind: u8,
        rate: u64,
        charge_account: u64,
        items: &[u8],
    ) -> Answer {
        self.listener.note(output);
        if self.is(Fault::LongOutput) && output.len() > 512 {
            let output = &mut output[..512];
            return self
                .right
                .block_write(output, number, kind, rate, charge_account, items);
        }
        if let Fault::Writer52(wrong) = self.fault {
            return wrong.write(
                output,
                [number, u64::from(kind)],
                [rate, charge_account],
                items,
            );
        }
        let answer = self
            .right
            .block_write(output, number, kind, rate, charge_account, items);
        if self.is(Fault::OutputTouched) && !answer.passed() {
            if let Some(first) = output.first_mut() {
                *first ^= 1;
            }
        }
        if self.is(Fault::OutputTail) && !answer.passed() && output.len() > 512 {
            output[512] = !output[512];
        }
        answer
    }

    fn sha256(&mut self, bytes: &[u8]) -> [u8; 32] {
        let mut digest = self.right.sha256(bytes);
        if self.is(Fault::Padding) && bytes.len() % 64 == 55 {
            digest[31] ^= 1;
        }
        digest
    }
}
