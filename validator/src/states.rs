//! Paper 01, refusal 3 and "The runs of demand 3", and paper 02, U3: the states of pair book and
//! guard as plain words, so that every forged value can stand in them, and the
//! calls that are handed such a state and alter it in place. The papers have
//! neither the layout of the words nor the places left; the list of calls has.
//!
//! The rules are those of `pair` and `guard`. What stands at or beyond a count
//! is not looked at and stays as it came, and a refused call alters nothing.

use crate::answer::{refusal, Answer};
use crate::charge::Charge;
use crate::guard::Guard;
use crate::pair::PairBook;
use crate::record::{u64_at, Held, Ledger, Record, RECORD};
use crate::rules::{Book, CAPACITY, MAX_ACCOUNTS};
use crate::side::Side;

/// The words of a held record.
pub const HELD: usize = 4;

/// A held record: its 32 bytes, each word the big-endian number of eight.
pub type HeldWords = [u64; HELD];

/// A state: one array of words, each of which can be forged.
#[derive(Clone, Debug, PartialEq, Eq)]
#[repr(transparent)]
pub struct State<const N: usize> {
    pub words: [u64; N],
}

/// The state of the pair book.
pub type PairState = State<4_215>;

/// The state of the guard.
pub type HomeState = State<2_111>;

/// Where the fields of a state begin among its words. The held records begin
/// at word 0. What far has of a field comes after what home has of it.
pub trait Layout {
    /// The ledgers whose balances and records the state holds.
    const LEDGERS: usize;
    /// The balances, 56 for each ledger.
    const BALANCES: usize;
    /// The stake.
    const SUPPLY: usize;
    /// The far due, where the state has it.
    const POOL: Option<usize>;
    /// The open accounts of home and far.
    const ACCOUNTS: usize;
    /// The held records of each ledger.
    const COUNTS: usize;
    /// The rate of the charge, then its account.
    const CHARGE: usize;
}

impl Layout for PairState {
    const LEDGERS: usize = 2;
    const BALANCES: usize = 4_096;
    const SUPPLY: usize = 4_208;
    const POOL: Option<usize> = None;
    const ACCOUNTS: usize = 4_209;
    const COUNTS: usize = 4_211;
    const CHARGE: usize = 4_213;
}

impl Layout for HomeState {
    const LEDGERS: usize = 1;
    const BALANCES: usize = 2_048;
    const SUPPLY: usize = 2_104;
    const POOL: Option<usize> = Some(HomeState::FAR_DUE);
    const ACCOUNTS: usize = 2_106;
    const COUNTS: usize = 2_108;
    const CHARGE: usize = 2_109;
}

/// The words of a record's 32 bytes.
pub fn words_of(bytes: &[u8; RECORD]) -> HeldWords {
    [0, 8, 16, 24].map(|at| u64_at(bytes, at))
}

/// The 32 bytes of a held record.
pub fn bytes_of(held: HeldWords) -> [u8; RECORD] {
    let mut bytes = [0; RECORD];
    for (eight, word) in bytes.chunks_exact_mut(8).zip(held) {
        eight.copy_from_slice(&word.to_be_bytes());
    }
    bytes
}

/// A held record as the record reader reads it; nothing where 21 is due.
fn read(held: HeldWords) -> Option<Held> {
    Record::read(&bytes_of(held)).map(|record| Held::of(&record))
}

impl<const N: usize> State<N> {
    pub const ZERO: State<N> = State { words: [0; N] };

    /// The state of these words, which must be as many as it has.
    pub fn from_words(words: &[u64]) -> State<N> {
        let words = words.try_into().expect("as many words as the state has");
        State { words }
    }

    pub fn words(&self) -> &[u64] {
        &self.words
    }

    pub fn words_mut(&mut self) -> &mut [u64] {
        &mut self.words
    }

    /// The held record at an entry, within its count or not. The 512 entries
    /// of far come after those of home.
    pub fn held(&self, entry: usize) -> HeldWords {
        let words = &self.words[entry * HELD..][..HELD];
        words.try_into().expect("four words")
    }

    /// Writes a held record at an entry.
    pub fn put_held(&mut self, entry: usize, held: HeldWords) {
        self.words[entry * HELD..][..HELD].copy_from_slice(&held);
    }
}

impl<const N: usize> State<N>
where
    State<N>: Layout,
{
    pub fn supply(&self) -> u64 {
        self.words[Self::SUPPLY]
    }

    /// The open accounts of a ledger: 0 is home, 1 is far.
    pub fn accounts(&self, ledger: usize) -> u64 {
        self.words[Self::ACCOUNTS + ledger]
    }

    /// The held records of a ledger.
    pub fn count(&self, ledger: usize) -> u64 {
        self.words[Self::COUNTS + ledger]
    }

    /// The rate of the charge and its account.
    pub fn charge(&self) -> Charge {
        Charge::new(self.words[Self::CHARGE], self.words[Self::CHARGE + 1])
    }

    fn put_charge(&mut self, charge: Charge) {
        self.words[Self::CHARGE..][..2].copy_from_slice(&[charge.rate, charge.account]);
    }

    /// The 56 balances of a ledger.
    pub fn balances(&self, ledger: usize) -> &[u64] {
        &self.words[Self::BALANCES + ledger * MAX_ACCOUNTS..][..MAX_ACCOUNTS]
    }

    pub fn balances_mut(&mut self, ledger: usize) -> &mut [u64] {
        &mut self.words[Self::BALANCES + ledger * MAX_ACCOUNTS..][..MAX_ACCOUNTS]
    }

    /// One ledger's part of the state, if its table can have so many held
    /// records and each of them reads as one.
    fn side(&self, ledger: usize) -> Option<Side> {
        if self.count(ledger) > CAPACITY as u64 {
            return None;
        }
        let first = ledger * CAPACITY;
        let entries = first..first + self.count(ledger) as usize;
        Some(Side {
            accounts: usize::try_from(self.accounts(ledger)).ok()?,
            balances: self.balances(ledger).try_into().expect("56 balances"),
            held: entries
                .map(|entry| read(self.held(entry)))
                .collect::<Option<_>>()?,
        })
    }

    /// Writes one ledger's part, its held records from the first new one on.
    fn put_side(&mut self, ledger: usize, side: &Side) {
        let before = self.count(ledger) as usize;
        for (place, held) in side.held.iter().enumerate().skip(before) {
            self.put_held(ledger * CAPACITY + place, words_of(&held.bytes()));
        }
        self.balances_mut(ledger).copy_from_slice(&side.balances);
        self.words[Self::ACCOUNTS + ledger] = side.accounts as u64;
        self.words[Self::COUNTS + ledger] = side.held.len() as u64;
    }
}

impl PairState {
    /// Opens a book: 1, 2, 52. Beside a refusal stands the state of zeros.
    pub fn open(home: &[u64], far: &[u64], charge: Charge) -> (Answer, Box<PairState>) {
        let mut state = Box::new(PairState::ZERO);
        match PairBook::open(home, far, charge) {
            Ok(book) => {
                state.put_book(&book);
                (Answer::Passed, state)
            }
            Err(answer) => (answer, state),
        }
    }

    /// A call with one record, in place.
    pub fn check_record(&mut self, bytes: &[u8]) -> Answer {
        self.check(|book| book.call(bytes))
    }

    /// A call with a list of records, in place: all pass, or none.
    pub fn check_list(&mut self, bytes: &[u8]) -> Answer {
        self.check(|book| book.call_list(bytes))
    }

    fn check(&mut self, call: impl FnOnce(&mut PairBook) -> Answer) -> Answer {
        let Some(mut book) = self.book() else {
            return refused(refusal::STATE);
        };
        let answer = call(&mut book);
        if answer.passed() {
            self.put_book(&book);
        }
        answer
    }

    /// Home total, far total and in flight: 3. Zeros beside a refusal.
    pub fn figures(&self) -> (Answer, [u64; 3]) {
        let Some(book) = self.accepted_book() else {
            return (refused(refusal::STATE), [0; 3]);
        };
        let totals = [book.home_total(), book.far_total(), book.in_flight()];
        (Answer::Passed, totals.map(within_stake))
    }

    /// The balance of an account: 3, then 22 where there is no such ledger or
    /// the account is not open on it. 0 beside a refusal.
    pub fn balance(&self, ledger: u8, account: u16) -> (Answer, u64) {
        let Some(book) = self.accepted_book() else {
            return (refused(refusal::STATE), 0);
        };
        let open = Ledger::from_byte(ledger)
            .filter(|&ledger| usize::from(account) < book.accounts(ledger));
        match open {
            Some(ledger) => (Answer::Passed, book.balance(ledger, account)),
            None => (refused(refusal::ACCOUNT), 0),
        }
    }

    /// How many more passed records home and far can take: 3. Zeros beside a
    /// refusal.
    pub fn places_left(&self) -> (Answer, [u64; 2]) {
        let Some(book) = self.accepted_book() else {
            return (refused(refusal::STATE), [0; 2]);
        };
        let left = Ledger::BOTH.map(|ledger| places_left(&book, ledger));
        (Answer::Passed, left)
    }

    /// The pair book of this state, if its tables can be read; all else is
    /// judged by the book.
    pub fn book(&self) -> Option<PairBook> {
        Some(PairBook {
            sides: [self.side(0)?, self.side(1)?],
            stake: self.supply(),
            charge: self.charge(),
        })
    }

    fn accepted_book(&self) -> Option<PairBook> {
        self.book().filter(PairBook::accepted)
    }

    /// Writes a book that goes on from this state.
    fn put_book(&mut self, book: &PairBook) {
        self.words[Self::SUPPLY] = book.stake;
        self.put_charge(book.charge);
        for (ledger, side) in book.sides.iter().enumerate() {
            self.put_side(ledger, side);
        }
    }
}

impl HomeState {
    /// The word of the far due.
    pub const FAR_DUE: usize = 2_105;

    /// Opens a guard: 1, 2, 52. Beside a refusal stands the state of zeros.
    pub fn open(
        home: &[u64],
        fars: usize,
        far_total: u64,
        charge: Charge,
    ) -> (Answer, Box<HomeState>) {
        let mut state = Box::new(HomeState::ZERO);
        match Guard::open(home, fars, far_total, charge) {
            Ok(guard) => {
                state.put_guard(&guard);
                (Answer::Passed, state)
            }
            Err(answer) => (answer, state),
        }
    }

    /// The far due.
    pub fn pool(&self) -> u64 {
        self.words[Self::FAR_DUE]
    }

    /// A call with one record, in place.
    pub fn check_record(&mut self, bytes: &[u8]) -> Answer {
        self.check(|guard| guard.call(bytes))
    }

    /// A call with a list of records, in place: all pass, or none.
    pub fn check_list(&mut self, bytes: &[u8]) -> Answer {
        self.check(|guard| guard.call_list(bytes))
    }

    fn check(&mut self, call: impl FnOnce(&mut Guard) -> Answer) -> Answer {
        let Some(mut guard) = self.guard() else {
            return refused(refusal::STATE);
        };
        let answer = call(&mut guard);
        if answer.passed() {
            self.put_guard(&guard);
        }
        answer
    }

    /// Home total and far due: 3. Zeros beside a refusal.
    pub fn figures(&self) -> (Answer, [u64; 2]) {
        let Some(guard) = self.accepted_guard() else {
            return (refused(refusal::STATE), [0; 2]);
        };
        let home = within_stake(guard.home_total());
        (Answer::Passed, [home, guard.far_due])
    }

    /// The balance of a home account: 3, then 22 where it is not open. 0
    /// beside a refusal.
    pub fn balance(&self, account: u16) -> (Answer, u64) {
        let Some(guard) = self.accepted_guard() else {
            return (refused(refusal::STATE), 0);
        };
        if usize::from(account) >= guard.accounts(Ledger::Home) {
            return (refused(refusal::ACCOUNT), 0);
        }
        (Answer::Passed, guard.balance(Ledger::Home, account))
    }

    /// How many more passed records home can take: 3. 0 beside a refusal.
    pub fn places_left(&self) -> (Answer, u64) {
        let Some(guard) = self.accepted_guard() else {
            return (refused(refusal::STATE), 0);
        };
        (Answer::Passed, places_left(&guard, Ledger::Home))
    }

    /// The guard of this state, if its table can be read; all else is judged
    /// by the guard.
    pub fn guard(&self) -> Option<Guard> {
        Some(Guard {
            home: self.side(0)?,
            far_accounts: usize::try_from(self.accounts(1)).ok()?,
            far_due: self.pool(),
            stake: self.supply(),
            charge: self.charge(),
        })
    }

    fn accepted_guard(&self) -> Option<Guard> {
        self.guard().filter(Guard::accepted)
    }

    /// Writes a guard that goes on from this state.
    fn put_guard(&mut self, guard: &Guard) {
        self.words[Self::SUPPLY] = guard.stake;
        self.put_charge(guard.charge);
        self.words[Self::FAR_DUE] = guard.far_due;
        self.put_side(0, &guard.home);
        self.words[Self::ACCOUNTS + 1] = guard.far_accounts as u64;
    }
}

fn refused(number: u8) -> Answer {
    Answer::at(Some(number), 0)
}

/// The places that an accepted state's table has left: it holds at most 512.
fn places_left(book: &impl Book, ledger: Ledger) -> u64 {
    (CAPACITY - book.passed_count(ledger)) as u64
}

/// A figure of an accepted state: it is at most the stake.
fn within_stake(figure: u128) -> u64 {
    u64::try_from(figure).expect("at most the stake")
}
