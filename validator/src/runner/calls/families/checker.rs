//! Pair book and guard seen alike, so that runs and forged states are made for
//! both in the same way.

use crate::answer::Answer;
use crate::charge::Charge;
use crate::record::{Ledger, Record, RECORD};
use crate::rules::{Book, CAPACITY};
use crate::runner::build::{Bytes, Opening};
use crate::runner::calls::fields::Fields;
use crate::runner::calls::makers::{self, due_list, home_record, lawful, pair_record, take_back};
use crate::runner::calls::{Both, Part};
use crate::runner::rng::Rng;
use crate::runner::trader::{maybe_charged, rich_opening, Trader};
use crate::states::{HomeState, PairState};

/// The calls of one of the two checkers.
pub trait Checker {
    type State: Fields + Clone;

    fn open(both: &mut Both, opening: &Opening) -> (Answer, Box<Self::State>);

    /// One record, by value, and in place on a copy.
    fn check_record(
        both: &mut Both,
        state: &Self::State,
        bytes: &[u8],
    ) -> (Answer, Box<Self::State>);

    /// A list, by value, and in place on a copy.
    fn check_list(both: &mut Both, state: &Self::State, bytes: &[u8])
        -> (Answer, Box<Self::State>);

    fn figures(both: &mut Both, state: &Self::State);

    fn balance(both: &mut Both, state: &Self::State, ledger: u8, account: u16);

    fn places_left(both: &mut Both, state: &Self::State);

    /// Some record for this state.
    fn record(trader: &mut Trader, state: &Self::State) -> Vec<u8>;

    /// A record that mostly passes.
    fn lawful(trader: &mut Trader) -> Bytes;

    /// A list for which the trader goes along.
    fn list(trader: &mut Trader, state: &Self::State) -> Vec<u8> {
        let any = |trader: &mut Trader| Self::record(trader, state);
        makers::list(trader, Self::lawful, any)
    }

    /// Whether the checker is handed this ledger's records.
    fn sees(ledger: Ledger) -> bool;
}

pub struct Pair;

impl Checker for Pair {
    type State = PairState;

    fn open(both: &mut Both, opening: &Opening) -> (Answer, Box<PairState>) {
        let Charge { rate, account } = opening.charge;
        both.pair_open(&opening.home, &opening.far, rate, account)
    }

    fn check_record(both: &mut Both, state: &PairState, bytes: &[u8]) -> (Answer, Box<PairState>) {
        let handed = both.pair_check_record(state, bytes);
        both.pair_take(&mut state.clone(), bytes);
        handed
    }

    fn check_list(both: &mut Both, state: &PairState, bytes: &[u8]) -> (Answer, Box<PairState>) {
        let handed = both.pair_check_list(state, bytes);
        both.pair_take_list(&mut state.clone(), bytes);
        handed
    }

    fn figures(both: &mut Both, state: &PairState) {
        both.pair_figures(state);
    }

    fn balance(both: &mut Both, state: &PairState, ledger: u8, account: u16) {
        both.pair_balance(state, ledger, account);
    }

    fn places_left(both: &mut Both, state: &PairState) {
        both.pair_places_left(state);
    }

    fn record(trader: &mut Trader, _: &PairState) -> Vec<u8> {
        pair_record(trader)
    }

    fn lawful(trader: &mut Trader) -> Bytes {
        let ledger = trader.some_ledger();
        lawful(trader, ledger)
    }

    fn sees(_: Ledger) -> bool {
        true
    }
}

pub struct Home;

impl Checker for Home {
    type State = HomeState;

    fn open(both: &mut Both, opening: &Opening) -> (Answer, Box<HomeState>) {
        let total = opening.far.iter().fold(0, |a: u64, &b| a.saturating_add(b));
        let Charge { rate, account } = opening.charge;
        both.home_open(&opening.home, opening.far.len(), total, rate, account)
    }

    fn check_record(both: &mut Both, state: &HomeState, bytes: &[u8]) -> (Answer, Box<HomeState>) {
        let handed = both.home_check_record(state, bytes);
        both.home_take(&mut state.clone(), bytes);
        handed
    }

    fn check_list(both: &mut Both, state: &HomeState, bytes: &[u8]) -> (Answer, Box<HomeState>) {
        let handed = both.home_check_list(state, bytes);
        both.home_take_list(&mut state.clone(), bytes);
        handed
    }

    fn figures(both: &mut Both, state: &HomeState) {
        both.home_figures(state);
    }

    fn balance(both: &mut Both, state: &HomeState, _: u8, account: u16) {
        both.home_balance(state, account);
    }

    fn places_left(both: &mut Both, state: &HomeState) {
        both.home_places_left(state);
    }

    fn record(trader: &mut Trader, state: &HomeState) -> Vec<u8> {
        home_record(trader, state)
    }

    fn lawful(trader: &mut Trader) -> Bytes {
        lawful(trader, Ledger::Home)
    }

    fn list(trader: &mut Trader, state: &HomeState) -> Vec<u8> {
        if trader.rng.chance(1, 5) {
            return due_list(trader, state);
        }
        let any = |trader: &mut Trader| home_record(trader, state);
        makers::list(trader, Home::lawful, any)
    }

    fn sees(ledger: Ledger) -> bool {
        ledger == Ledger::Home
    }
}

/// A state that a run has reached, with the trader that goes along.
pub struct Reached<C: Checker> {
    pub trader: Trader,
    pub state: Box<C::State>,
}

impl<C: Checker> Reached<C> {
    /// Opens with accepted stakes.
    pub fn open(both: &mut Both, rng: &mut Rng, opening: Opening) -> Reached<C> {
        let (_, state) = C::open(both, &opening);
        Reached {
            trader: makers::trader(rng, opening),
            state,
        }
    }

    /// The same once more, with luck of its own.
    pub fn branch(&self, rng: &mut Rng) -> Reached<C> {
        let mut trader = self.trader.clone();
        trader.rng = Rng::new(rng.word());
        Reached {
            trader,
            state: self.state.clone(),
        }
    }

    /// Hands in one record and goes on from what comes back.
    pub fn hand_in(&mut self, both: &mut Both, bytes: &[u8]) -> Answer {
        let (answer, next) = C::check_record(both, &self.state, bytes);
        self.state = next;
        if let Ok(record) = Bytes::try_from(bytes) {
            self.trader.try_out(&record);
        }
        answer
    }

    /// Hands in those of some records that the checker sees as one list that
    /// passes. The trader goes along with all.
    pub fn hand_in_list(&mut self, both: &mut Both, records: &[Record]) {
        let seen = records.iter().filter(|record| C::sees(record.ledger()));
        let bytes: Vec<u8> = seen.flat_map(Record::bytes).collect();
        self.state = C::check_list(both, &self.state, &bytes).1;
        for record in records {
            self.trader.try_out(&record.bytes());
        }
    }

    /// Some record.
    pub fn any_record(&mut self, both: &mut Both) {
        let bytes = C::record(&mut self.trader, &self.state);
        self.hand_in(both, &bytes);
    }

    /// Some list.
    pub fn any_list(&mut self, both: &mut Both) {
        let before = self.trader.clone();
        let bytes = C::list(&mut self.trader, &self.state);
        let (answer, next) = C::check_list(both, &self.state, &bytes);
        self.state = next;
        if !answer.passed() {
            take_back(&mut self.trader, before);
        }
    }

    /// Figures, the places left or a balance.
    pub fn look(&mut self, both: &mut Both) {
        match self.trader.rng.below(6) {
            0 | 1 => C::figures(both, &self.state),
            2 => C::places_left(both, &self.state),
            _ => self.look_at_balance(both),
        }
    }

    fn look_at_balance(&mut self, both: &mut Both) {
        let rng = &mut self.trader.rng;
        let ledger = rng.pick(&[0, 0, 0, 0, 1, 1, 1, 1, 2, 255]);
        let opening = &self.trader.opening;
        let mut open = [opening.home.len() as u16, opening.far.len() as u16];
        if ledger == 1 {
            open.swap(0, 1);
        }
        let [here, there] = open;
        let within = rng.index(usize::from(here)) as u16;
        let choices = [
            0,
            within,
            within,
            within,
            here - 1,
            here,
            there,
            55,
            56,
            256,
            65_535,
        ];
        let account = rng.pick(&choices);
        C::balance(both, &self.state, ledger, account);
    }

    /// The places left, then after each of some records that mostly pass.
    pub fn count_down(&mut self, both: &mut Both, records: u64) {
        C::places_left(both, &self.state);
        for _ in 0..records {
            let bytes = C::lawful(&mut self.trader);
            self.hand_in(both, &bytes);
            C::places_left(both, &self.state);
        }
    }

    /// Some calls of a run.
    pub fn go_on(&mut self, both: &mut Both, calls: u64) {
        for _ in 0..calls {
            match self.trader.rng.below(12) {
                0..=7 => self.any_record(both),
                8..=10 => self.any_list(both),
                _ => self.look(both),
            }
        }
    }
}

/// A state of any size: as opened, with a few held records, half full, full.
pub fn reached<C: Checker>(both: &mut Both, rng: &mut Rng) -> Reached<C> {
    match rng.below(8) {
        0 => {
            let opening = makers::lawful_opening(rng);
            Reached::open(both, rng, opening)
        }
        1..=3 => {
            let few = [rng.index(12), rng.index(12)];
            filled(both, rng, few)
        }
        4 | 5 => {
            let some = [rng.index(300), rng.index(300)];
            filled(both, rng, some)
        }
        _ => full(both, rng),
    }
}

/// A state with full tables, or nearly so.
pub fn full<C: Checker>(both: &mut Both, rng: &mut Rng) -> Reached<C> {
    let targets = [
        [512, 512],
        [512, 20],
        [30, 512],
        [511, 512],
        [512, 509],
        [508, 511],
        [500, 505],
        [507, 490],
    ];
    let targets = rng.pick(&targets);
    filled(both, rng, targets)
}

/// Fills the tables of a rich opening so far by few list calls.
fn filled<C: Checker>(both: &mut Both, rng: &mut Rng, targets: [usize; 2]) -> Reached<C> {
    let opening = maybe_charged(rng, rich_opening);
    filled_from(both, rng, opening, targets)
}

/// Fills the tables so far by few list calls.
pub fn filled_from<C: Checker>(
    both: &mut Both,
    rng: &mut Rng,
    opening: Opening,
    targets: [usize; 2],
) -> Reached<C> {
    let mut reached = Reached::<C>::open(both, rng, opening);
    reached.trader.thrifty = true;
    let records = fill(&mut reached.trader, targets);
    let seen: Vec<u8> = records
        .iter()
        .filter(|bytes| C::sees(ledger_of(bytes)))
        .flatten()
        .copied()
        .collect();
    if rng.chance(1, 3) {
        // One that the tables may have no place for.
        let more = C::lawful(&mut reached.trader);
        C::check_list(both, &reached.state, &[&seen[..], &more].concat());
    }
    let pieces = rng.pick(&[1, 1, 2, 3]);
    let length = (seen.len() / RECORD).div_ceil(pieces).max(1) * RECORD;
    for piece in seen.chunks(length) {
        reached.state = C::check_list(both, &reached.state, piece).1;
    }
    reached
}

fn ledger_of(bytes: &Bytes) -> Ledger {
    Ledger::from_byte(bytes[1]).expect("a lawful record")
}

/// Lets the trader fill its tables. The records, all passed.
fn fill(trader: &mut Trader, targets: [usize; 2]) -> Vec<Bytes> {
    let targets = targets.map(|target| target.min(CAPACITY));
    loop {
        let below = |ledger: &Ledger| trader.book.passed_count(*ledger) < targets[ledger.index()];
        let open: Vec<Ledger> = Ledger::BOTH.into_iter().filter(below).collect();
        if open.is_empty() {
            break;
        }
        let ledger = trader.rng.pick(&open);
        let record = if trader.rng.chance(1, 2) {
            trader.lawful_local(ledger)
        } else {
            trader.lawful(ledger)
        };
        let Some(record) = record else {
            break;
        };
        trader.hand_in(record.bytes());
    }
    std::mem::take(&mut trader.records)
}
