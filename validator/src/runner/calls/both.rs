//! Two parts at once: each call is made on the part under comparison and on
//! the library, and all that comes back is compared.

use std::fmt::Debug;
use std::hint::black_box;

use super::fields::{differing, runs, shown, Fields};
use super::report::{Difference, Report, KEPT};
use super::{Oracle, Part};
use crate::answer::Answer;
use crate::journal::Stakes;
use crate::record::{Held, RECORD};
use crate::states::{HomeState, PairState, State};

/// The bytes around a lent output, and the words around a state that is lent
/// to be altered; they must stay as they are.
const MARGIN: usize = 64;
const MARGIN_WORDS: [u64; 8] = [0xa5a5_a5a5_a5a5_a5a5; 8];

/// The part under comparison and the library. As a part it answers what the
/// library answers.
pub struct Both<'a> {
    part: &'a mut dyn Part,
    oracle: Oracle,
    report: Report,
    family: &'static str,
    scenario: u64,
}

/// A thing that is lent to a call.
trait Lent: PartialEq {
    fn copy(&self) -> Box<Self>;

    fn shown(&self) -> String;
}

/// A thing that a call hands back beside its answer.
trait Handed: PartialEq {
    /// In what it differs from what was got.
    fn differing(&self, got: &Self) -> Vec<String>;
}

impl<'a> Both<'a> {
    pub fn new(part: &'a mut dyn Part, seed: u64) -> Both<'a> {
        Both {
            part,
            oracle: Oracle,
            report: Report {
                seed,
                ..Report::default()
            },
            family: "",
            scenario: 0,
        }
    }

    /// Names what the next calls belong to.
    pub fn begin(&mut self, family: &'static str, scenario: u64) {
        self.family = family;
        self.scenario = scenario;
    }

    /// The seed of the comparison.
    pub fn seed(&self) -> u64 {
        self.report.seed
    }

    /// The index of the scenario in its family.
    pub fn scenario(&self) -> u64 {
        self.scenario
    }

    /// The calls made so far.
    pub fn calls(&self) -> u64 {
        self.report.calls
    }

    /// The calls that differ so far.
    pub fn differences(&self) -> u64 {
        self.report.differences
    }

    pub fn into_report(self) -> Report {
        self.report
    }

    /// Makes a call on both with two lent things and some numbers, and hands
    /// back what the library does.
    fn call<I: Lent + ?Sized, J: Lent + ?Sized, T: Handed>(
        &mut self,
        name: &'static str,
        lent: (&I, &J),
        numbers: &[u64],
        make: impl Fn(&mut dyn Part, &I, &J) -> (Answer, T),
    ) -> (Answer, T) {
        let right = make(&mut self.oracle, lent.0, lent.1);
        let copies = (lent.0.copy(), lent.1.copy());
        let got = make(self.part, &copies.0, &copies.1);
        // The lent things are looked at anew, whatever was promised of them.
        let untouched = black_box(&*copies.0) == lent.0 && black_box(&*copies.1) == lent.1;
        self.count(name, right.0);
        if right.0 != got.0 || right.1 != got.1 || !untouched {
            let mut found = Vec::new();
            if right.0 != got.0 {
                found.push(format!("answer: {:?} but {:?}", right.0, got.0));
            }
            found.extend(right.1.differing(&got.1));
            if !untouched {
                found.push("a lent thing was altered".to_string());
            }
            let lent = format!("{}{}", lent.0.shown(), lent.1.shown());
            self.differ(name, lent + &numbers_shown(numbers), found);
        }
        right
    }

    /// Makes a call on both that alters a state in place, and leaves in it what
    /// the library does.
    fn take<const N: usize>(
        &mut self,
        name: &'static str,
        state: &mut State<N>,
        bytes: &[u8],
        make: impl Fn(&mut dyn Part, &mut State<N>, &[u8]) -> Answer,
    ) -> Answer
    where
        State<N>: Fields,
    {
        let lent = (&*state, bytes);
        let (answer, taken) = self.call(name, lent, &[], |part, state, bytes| {
            let mut taken = Box::new(Taken::of(state));
            let answer = make(part, &mut taken.state, bytes);
            // The words around it are looked at anew too.
            (answer, black_box(taken))
        });
        *state = taken.state;
        answer
    }

    fn count(&mut self, name: &'static str, answer: Answer) {
        let report = &mut self.report;
        report.calls += 1;
        for answers in [
            report.by_family.entry(self.family).or_default(),
            report.by_call.entry(name).or_default(),
        ] {
            *answers.entry(answer.number()).or_default() += 1;
        }
    }

    fn differ(&mut self, call: &'static str, inputs: String, found: Vec<String>) {
        self.report.differences += 1;
        if self.report.kept.len() < KEPT {
            self.report.kept.push(Difference {
                index: self.report.calls - 1,
                family: self.family,
                scenario: self.scenario,
                call,
                inputs,
                found,
            });
        }
    }
}

fn numbers_shown(numbers: &[u64]) -> String {
    if numbers.is_empty() {
        return String::new();
    }
    let words: Vec<String> = numbers.iter().map(u64::to_string).collect();
    format!("  numbers: {}\n", words.join(", "))
}

impl Lent for () {
    fn copy(&self) -> Box<()> {
        Box::new(())
    }

    fn shown(&self) -> String {
        String::new()
    }
}

impl Lent for [u8] {
    fn copy(&self) -> Box<[u8]> {
        self.into()
    }

    fn shown(&self) -> String {
        let digits: String = self.iter().map(|byte| format!("{byte:02x}")).collect();
        format!("  {} bytes: {digits}\n", self.len())
    }
}

impl Lent for [u64] {
    fn copy(&self) -> Box<[u64]> {
        self.into()
    }

    fn shown(&self) -> String {
        format!("  {} stakes: {}\n", self.len(), runs(self.iter().copied()))
    }
}

impl Lent for Held {
    fn copy(&self) -> Box<Held> {
        Box::new(*self)
    }

    fn shown(&self) -> String {
        format!("  fields: {self:?}\n")
    }
}

impl<const N: usize> Lent for State<N>
where
    State<N>: Fields,
{
    fn copy(&self) -> Box<State<N>> {
        Box::new(self.clone())
    }

    fn shown(&self) -> String {
        format!("  state of {N} words:\n{}", shown(self))
    }
}

/// What differs in a thing that is shown as a whole.
fn whole<T: PartialEq + Debug>(right: &T, got: &T) -> Vec<String> {
    if right == got {
        return Vec::new();
    }
    vec![format!("handed back: {right:?} but {got:?}")]
}

/// Things that are shown as a whole.
macro_rules! handed_whole {
    ($($thing:ty),*) => {
        $(impl Handed for $thing {
            fn differing(&self, got: &Self) -> Vec<String> {
                whole(self, got)
            }
        })*
    };
}

handed_whole!(
    (),
    u64,
    [u64; 2],
    [u64; 3],
    [usize; 2],
    Stakes,
    Held,
    [u8; RECORD]
);

impl<const N: usize> Handed for Box<State<N>>
where
    State<N>: Fields,
{
    fn differing(&self, got: &Self) -> Vec<String> {
        differing(&**self, &**got)
    }
}

/// A state that is lent to be altered, with the words around it.
#[derive(PartialEq)]
#[repr(C)]
struct Taken<const N: usize> {
    before: [u64; 8],
    state: State<N>,
    after: [u64; 8],
}

impl<const N: usize> Taken<N> {
    fn of(state: &State<N>) -> Taken<N> {
        Taken {
            before: MARGIN_WORDS,
            state: state.clone(),
            after: MARGIN_WORDS,
        }
    }
}

impl<const N: usize> Handed for Box<Taken<N>>
where
    State<N>: Fields,
{
    fn differing(&self, got: &Self) -> Vec<String> {
        let mut found = differing(&self.state, &got.state);
        if (got.before, got.after) != (MARGIN_WORDS, MARGIN_WORDS) {
            found.push("words around the state were altered".to_string());
        }
        found
    }
}

/// An output with the bytes around it.
#[derive(PartialEq)]
struct Output(Vec<u8>);

impl Output {
    fn around(bytes: &[u8]) -> Output {
        let margin = [0xa5; MARGIN];
        Output([&margin[..], bytes, &margin[..]].concat())
    }

    fn inner(&mut self) -> &mut [u8] {
        let end = self.0.len() - MARGIN;
        &mut self.0[MARGIN..end]
    }
}

impl Handed for Output {
    fn differing(&self, got: &Self) -> Vec<String> {
        let differ = (0..self.0.len()).filter(|&at| self.0[at] != got.0[at]);
        let shown = |at: usize| {
            let place = at as i64 - MARGIN as i64;
            format!("output[{place}]: {} but {}", self.0[at], got.0[at])
        };
        differ.take(3).map(shown).collect()
    }
}

impl Part for Both<'_> {
    fn pair_open(
        &mut self,
        home: &[u64],
        far: &[u64],
        rate: u64,
        charge_account: u64,
    ) -> (Answer, Box<PairState>) {
        let numbers = [rate, charge_account];
        self.call("pair_open", (home, far), &numbers, |part, home, far| {
            part.pair_open(home, far, rate, charge_account)
        })
    }

    fn pair_check_record(&mut self, state: &PairState, bytes: &[u8]) -> (Answer, Box<PairState>) {
        let lent = (state, bytes);
        self.call("pair_check_record", lent, &[], |part, state, bytes| {
            part.pair_check_record(state, bytes)
        })
    }

    fn pair_check_list(&mut self, state: &PairState, bytes: &[u8]) -> (Answer, Box<PairState>) {
        let lent = (state, bytes);
        self.call("pair_check_list", lent, &[], |part, state, bytes| {
            part.pair_check_list(state, bytes)
        })
    }

    fn pair_take(&mut self, state: &mut PairState, bytes: &[u8]) -> Answer {
        self.take("pair_take", state, bytes, |part, state, bytes| {
            part.pair_take(state, bytes)
        })
    }

    fn pair_take_list(&mut self, state: &mut PairState, bytes: &[u8]) -> Answer {
        self.take("pair_take_list", state, bytes, |part, state, bytes| {
            part.pair_take_list(state, bytes)
        })
    }

    fn pair_figures(&mut self, state: &PairState) -> (Answer, [u64; 3]) {
        self.call("pair_figures", (state, &()), &[], |part, state, _| {
            part.pair_figures(state)
        })
    }

    fn pair_balance(&mut self, state: &PairState, ledger: u8, account: u16) -> (Answer, u64) {
        let numbers = [u64::from(ledger), u64::from(account)];
        self.call("pair_balance", (state, &()), &numbers, |part, state, _| {
            part.pair_balance(state, ledger, account)
        })
    }

    fn pair_places_left(&mut self, state: &PairState) -> (Answer, [u64; 2]) {
        self.call("pair_places_left", (state, &()), &[], |part, state, _| {
            part.pair_places_left(state)
        })
    }

    fn home_open(
        &mut self,
        home: &[u64],
        fars: usize,
        far_total: u64,
        rate: u64,
        charge_account: u64,
    ) -> (Answer, Box<HomeState>) {
        let numbers = [fars as u64, far_total, rate, charge_account];
        self.call("home_open", (home, &()), &numbers, |part, home, _| {
            part.home_open(home, fars, far_total, rate, charge_account)
        })
    }

    fn home_check_record(&mut self, state: &HomeState, bytes: &[u8]) -> (Answer, Box<HomeState>) {
        let lent = (state, bytes);
        self.call("home_check_record", lent, &[], |part, state, bytes| {
            part.home_check_record(state, bytes)
        })
    }

    fn home_check_list(&mut self, state: &HomeState, bytes: &[u8]) -> (Answer, Box<HomeState>) {
        let lent = (state, bytes);
        self.call("home_check_list", lent, &[], |part, state, bytes| {
            part.home_check_list(state, bytes)
        })
    }

    fn home_take(&mut self, state: &mut HomeState, bytes: &[u8]) -> Answer {
        self.take("home_take", state, bytes, |part, state, bytes| {
            part.home_take(state, bytes)
        })
    }

    fn home_take_list(&mut self, state: &mut HomeState, bytes: &[u8]) -> Answer {
        self.take("home_take_list", state, bytes, |part, state, bytes| {
            part.home_take_list(state, bytes)
        })
    }

    fn home_figures(&mut self, state: &HomeState) -> (Answer, [u64; 2]) {
        self.call("home_figures", (state, &()), &[], |part, state, _| {
            part.home_figures(state)
        })
    }

    fn home_balance(&mut self, state: &HomeState, account: u16) -> (Answer, u64) {
        let numbers = [u64::from(account)];
        self.call("home_balance", (state, &()), &numbers, |part, state, _| {
            part.home_balance(state, account)
        })
    }

    fn home_places_left(&mut self, state: &HomeState) -> (Answer, u64) {
        self.call("home_places_left", (state, &()), &[], |part, state, _| {
            part.home_places_left(state)
        })
    }

    fn record_read(&mut self, bytes: &[u8]) -> (Answer, Held) {
        self.call("record_read", (bytes, &()), &[], |part, bytes, _| {
            part.record_read(bytes)
        })
    }

    fn record_encode(&mut self, fields: &Held) -> (Answer, [u8; RECORD]) {
        self.call("record_encode", (fields, &()), &[], |part, fields, _| {
            part.record_encode(fields)
        })
    }

    fn block_judge(&mut self, block: &[u8], number: u64, before: u64) -> Answer {
        let numbers = [number, before];
        let make = |part: &mut dyn Part, block: &[u8], _: &()| {
            (part.block_judge(block, number, before), ())
        };
        self.call("block_judge", (block, &()), &numbers, make).0
    }

    fn block_judge_record(&mut self, block: &[u8], number: u64, before: u64, place: u64) -> Answer {
        let numbers = [number, before, place];
        let make = |part: &mut dyn Part, block: &[u8], _: &()| {
            (part.block_judge_record(block, number, before, place), ())
        };
        self.call("block_judge_record", (block, &()), &numbers, make)
            .0
    }

    fn block_record(
        &mut self,
        block: &[u8],
        number: u64,
        before: u64,
        place: u64,
    ) -> (Answer, [usize; 2]) {
        let numbers = [number, before, place];
        self.call("block_record", (block, &()), &numbers, |part, block, _| {
            part.block_record(block, number, before, place)
        })
    }

    fn block_count(&mut self, block: &[u8], number: u64, before: u64) -> (Answer, u64) {
        let numbers = [number, before];
        self.call("block_count", (block, &()), &numbers, |part, block, _| {
            part.block_count(block, number, before)
        })
    }

    fn block_balances(&mut self, block: &[u8], number: u64, before: u64) -> (Answer, Stakes) {
        let numbers = [number, before];
        let make =
            |part: &mut dyn Part, block: &[u8], _: &()| part.block_balances(block, number, before);
        self.call("block_balances", (block, &()), &numbers, make)
    }

    fn block_write(
        &mut self,
        output: &mut [u8],
        number: u64,
        kind: u8,
        rate: u64,
        charge_account: u64,
        items: &[u8],
    ) -> Answer {
        let numbers = [number, u64::from(kind), rate, charge_account];
        let lent = (items, &*output);
        let make = |part: &mut dyn Part, items: &[u8], output: &[u8]| {
            let mut output = Output::around(output);
            let answer =
                part.block_write(output.inner(), number, kind, rate, charge_account, items);
            (answer, output)
        };
        let (answer, mut written) = self.call("block_write", lent, &numbers, make);
        output.copy_from_slice(written.inner());
        answer
    }

    fn sha256(&mut self, bytes: &[u8]) -> [u8; 32] {
        let make = |part: &mut dyn Part, bytes: &[u8], _: &()| (Answer::Passed, part.sha256(bytes));
        self.call("sha256", (bytes, &()), &[], make).1
    }
}
