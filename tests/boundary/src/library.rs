//! The library, called over its C boundary, as a part that the second validator can compare with itself. What is lent, a state in place
//! too, lies flush against a closed page, and an empty slice goes as a null pointer.

use second_validator::answer::Answer;
use second_validator::journal::Stakes;
use second_validator::record::{Held, RECORD};
use second_validator::runner::calls::Part;
use second_validator::states::{HomeState, PairState};

use crate::ffi::{self, HomeValidator, PairValidator};
use crate::guarded::Guarded;

/// With room for the slices and the state of a call.
pub struct Library {
    first: Guarded,
    second: Guarded,
    state: Guarded,
}

impl Library {
    pub fn new() -> Library {
        Library { first: Guarded::new(1 << 16), second: Guarded::new(1 << 16), state: Guarded::new(1 << 16) }
    }

    /// A call in place: its answer, and the words as it left them.
    fn take<S: Words>(
        &mut self,
        state: S,
        bytes: &[u8],
        call: unsafe extern "C" fn(*mut S, *const u8, usize) -> ffi::PlainAnswer,
    ) -> (Answer, S) {
        let mut words = words_of(&state).to_vec();
        let lent = self.state.lend(&words).cast::<S>();
        // SAFETY: the words of a state, lent for writing, and a slice with its length.
        let told = unsafe { call(lent, self.first.lend(bytes), bytes.len()) };
        self.state.take_back(&mut words);
        (answer(told), of_words(&words))
    }
}

/// A state as it crosses: words of 64 bits and nothing else.
///
/// # Safety
///
/// Only for such types.
unsafe trait Words: Copy {}

// SAFETY: repr(C) with u64 fields alone, and arrays and structs of them.
unsafe impl Words for PairValidator {}
// SAFETY: as above.
unsafe impl Words for HomeValidator {}

fn words_of<S: Words>(state: &S) -> &[u64] {
    // SAFETY: the state is lent as long as the slice, and is so many words.
    unsafe { std::slice::from_raw_parts(std::ptr::from_ref(state).cast(), size_of::<S>() / 8) }
}

fn of_words<S: Words>(words: &[u64]) -> S {
    assert_eq!(8 * words.len(), size_of::<S>(), "the words of a state");
    // SAFETY: as many words as the state has, and any words are one.
    unsafe { words.as_ptr().cast::<S>().read() }
}

/// An answer as it crosses. One whose number and `passed` contradict each other, or that passed with a place, is no answer of the papers,
/// and differs from every one of theirs.
fn answer(told: ffi::PlainAnswer) -> Answer {
    match told {
        ffi::PlainAnswer { number: 0, passed: 1, place: 0 } => Answer::Passed,
        ffi::PlainAnswer { number: number @ 1.., passed: 0, place } => {
            Answer::Refused { number: u8::try_from(number).unwrap_or(u8::MAX), place }
        }
        ffi::PlainAnswer { place, .. } => Answer::Refused { number: u8::MAX, place },
    }
}

fn pair_in(state: &PairState) -> PairValidator {
    of_words(&state.words()[..])
}

fn pair_back(state: &PairValidator) -> PairState {
    PairState::from_words(words_of(state).try_into().expect("as many words"))
}

fn home_in(state: &HomeState) -> HomeValidator {
    of_words(&state.words()[..])
}

fn home_back(state: &HomeValidator) -> HomeState {
    HomeState::from_words(words_of(state).try_into().expect("as many words"))
}

fn pair_out(told: ffi::PlainPairOutcome) -> (Answer, Box<PairState>) {
    (answer(told.answer), Box::new(pair_back(&told.state)))
}

fn home_out(told: ffi::PlainHomeOutcome) -> (Answer, Box<HomeState>) {
    (answer(told.answer), Box::new(home_back(&told.state)))
}

// SAFETY of every call below: a pointer and its length are those of one slice, lent for the call; states and numbers go by value. The
// calls in place are made above.
impl Part for Library {
    fn pair_open(&mut self, home: &[u64], far: &[u64], rate: u64, charge_account: u64) -> (Answer, Box<PairState>) {
        let (homes, fars) = (self.first.lend(home), self.second.lend(far));
        pair_out(unsafe { ffi::moatbetony_pair_open(homes, home.len(), fars, far.len(), rate, charge_account) })
    }

    fn pair_take(&mut self, state: &mut PairState, bytes: &[u8]) -> Answer {
        let (answer, after) = self.take(pair_in(state), bytes, ffi::moatbetony_pair_take);
        *state = pair_back(&after);
        answer
    }

    fn pair_take_list(&mut self, state: &mut PairState, bytes: &[u8]) -> Answer {
        let (answer, after) = self.take(pair_in(state), bytes, ffi::moatbetony_pair_take_list);
        *state = pair_back(&after);
        answer
    }

    fn pair_check_record(&mut self, state: &PairState, bytes: &[u8]) -> (Answer, Box<PairState>) {
        pair_out(unsafe { ffi::moatbetony_pair_check_record(pair_in(state), self.first.lend(bytes), bytes.len()) })
    }

    fn pair_check_list(&mut self, state: &PairState, bytes: &[u8]) -> (Answer, Box<PairState>) {
        pair_out(unsafe { ffi::moatbetony_pair_check_list(pair_in(state), self.first.lend(bytes), bytes.len()) })
    }

    fn pair_figures(&mut self, state: &PairState) -> (Answer, [u64; 3]) {
        let told = unsafe { ffi::moatbetony_pair_figures(pair_in(state)) };
        (answer(told.answer), [told.home, told.far, told.flight])
    }

    fn pair_balance(&mut self, state: &PairState, ledger: u8, account: u16) -> (Answer, u64) {
        let told = unsafe { ffi::moatbetony_pair_balance(pair_in(state), ledger, account) };
        (answer(told.answer), told.balance)
    }

    fn pair_places_left(&mut self, state: &PairState) -> (Answer, [u64; 2]) {
        let told = unsafe { ffi::moatbetony_pair_places_left(pair_in(state)) };
        (answer(told.answer), [told.home, told.far])
    }

    fn home_open(&mut self, home: &[u64], fars: usize, far_total: u64, rate: u64, charge_account: u64) -> (Answer, Box<HomeState>) {
        let homes = self.first.lend(home);
        home_out(unsafe { ffi::moatbetony_home_open(homes, home.len(), fars, far_total, rate, charge_account) })
    }

    fn home_take(&mut self, state: &mut HomeState, bytes: &[u8]) -> Answer {
        let (answer, after) = self.take(home_in(state), bytes, ffi::moatbetony_home_take);
        *state = home_back(&after);
        answer
    }

    fn home_take_list(&mut self, state: &mut HomeState, bytes: &[u8]) -> Answer {
        let (answer, after) = self.take(home_in(state), bytes, ffi::moatbetony_home_take_list);
        *state = home_back(&after);
        answer
    }

    fn home_check_record(&mut self, state: &HomeState, bytes: &[u8]) -> (Answer, Box<HomeState>) {
        home_out(unsafe { ffi::moatbetony_home_check_record(home_in(state), self.first.lend(bytes), bytes.len()) })
    }

    fn home_check_list(&mut self, state: &HomeState, bytes: &[u8]) -> (Answer, Box<HomeState>) {
        home_out(unsafe { ffi::moatbetony_home_check_list(home_in(state), self.first.lend(bytes), bytes.len()) })
    }

    fn home_figures(&mut self, state: &HomeState) -> (Answer, [u64; 2]) {
        let told = unsafe { ffi::moatbetony_home_figures(home_in(state)) };
        (answer(told.answer), [told.home, told.pool])
    }

    fn home_balance(&mut self, state: &HomeState, account: u16) -> (Answer, u64) {
        let told = unsafe { ffi::moatbetony_home_balance(home_in(state), account) };
        (answer(told.answer), told.balance)
    }

    fn home_places_left(&mut self, state: &HomeState) -> (Answer, u64) {
        let told = unsafe { ffi::moatbetony_home_places_left(home_in(state)) };
        (answer(told.answer), told.home)
    }

    fn record_read(&mut self, bytes: &[u8]) -> (Answer, Held) {
        let told = unsafe { ffi::moatbetony_record_read(self.first.lend(bytes), bytes.len()) };
        let ffi::PlainRecord { answer: told, kind, ledger, sender, receiver, number, amount, verdict } = told;
        (answer(told), Held { kind, ledger, sender, receiver, number, amount, verdict })
    }

    fn record_encode(&mut self, f: &Held) -> (Answer, [u8; RECORD]) {
        let told = unsafe { ffi::moatbetony_record_encode(f.kind, f.ledger, f.sender, f.receiver, f.number, f.amount, f.verdict) };
        (answer(told.answer), told.bytes)
    }

    fn block_judge(&mut self, block: &[u8], number: u64, before: u64) -> Answer {
        answer(unsafe { ffi::moatbetony_block_judge(self.first.lend(block), block.len(), number, before) })
    }

    fn block_judge_record(&mut self, block: &[u8], number: u64, before: u64, place: u64) -> Answer {
        answer(unsafe { ffi::moatbetony_block_judge_record(self.first.lend(block), block.len(), number, before, place) })
    }

    fn block_record(&mut self, block: &[u8], number: u64, before: u64, place: u64) -> (Answer, [usize; 2]) {
        let told = unsafe { ffi::moatbetony_block_record(self.first.lend(block), block.len(), number, before, place) };
        (answer(told.answer), [told.start, told.length])
    }

    fn block_count(&mut self, block: &[u8], number: u64, before: u64) -> (Answer, u64) {
        let told = unsafe { ffi::moatbetony_block_count(self.first.lend(block), block.len(), number, before) };
        (answer(told.answer), told.count)
    }

    fn block_balances(&mut self, block: &[u8], number: u64, before: u64) -> (Answer, Stakes) {
        let told = unsafe { ffi::moatbetony_block_balances(self.first.lend(block), block.len(), number, before) };
        (answer(told.answer), (told.count, told.rate, told.charge_account, told.balances))
    }

    fn block_write(&mut self, output: &mut [u8], number: u64, kind: u8, rate: u64, charge_account: u64, items: &[u8]) -> Answer {
        let (out, from, size) = (self.first.lend(output), self.second.lend(items), output.len());
        let told = unsafe { ffi::moatbetony_block_write(out, size, number, kind, rate, charge_account, from, items.len()) };
        self.first.take_back(output);
        answer(told)
    }

    fn sha256(&mut self, bytes: &[u8]) -> [u8; 32] {
        unsafe { ffi::moatbetony_sha256(self.first.lend(bytes), bytes.len()) }.bytes
    }
}
