// Times the validators' published calls in echoes, at full tables. An echo takes a state by value and hands it back, as the calls by value
// do, and does nothing else. The calls in place are handed a pointer and are timed beside them. States are made by the calls themselves,
// and each call's answer is looked at before it is timed. Each call by value hands its state back at another place of a page than the one
// before: how fast a processor copies can depend on how far apart source and target lie, and a fixed distance would time that.
use std::hint::black_box;
use std::marker::PhantomData;
use std::mem::MaybeUninit;
use std::time::Instant;

const ACCOUNTS: usize = 56;
const CAPACITY: usize = number(env!("CAPACITY"));

const fn number(text: &str) -> usize {
    let (digits, mut n, mut i) = (text.as_bytes(), 0, 0);
    while i < digits.len() {
        n = 10 * n + (digits[i] - b'0') as usize;
        i += 1;
    }
    n
}

// A held record: the four words of its 32 bytes, each the number of eight bytes, highest first.
#[repr(C)]
#[derive(Clone, Copy)]
pub struct Held {
    head: u64,
    number: u64,
    amount: u64,
    tail: u64,
}

impl Held {
    fn kind(&self) -> u8 {
        (self.head >> 56) as u8
    }

    // Sender and receiver.
    fn accounts(&self) -> u32 {
        (self.head >> 16) as u32
    }
}

#[repr(C)]
#[derive(Clone, Copy)]
pub struct Pair {
    records: [[Held; CAPACITY]; 2],
    balances: [[u64; ACCOUNTS]; 2],
    supply: u64,
    accounts: [u64; 2],
    counts: [u64; 2],
    rate: u64,
    charge_account: u64,
}

#[repr(C)]
#[derive(Clone, Copy)]
pub struct Home {
    records: [Held; CAPACITY],
    balances: [u64; ACCOUNTS],
    supply: u64,
    pool: u64,
    home_accounts: u64,
    far_accounts: u64,
    count: u64,
    rate: u64,
    charge_account: u64,
}

#[repr(C)]
pub struct Answer {
    number: u32,
    passed: u32,
    place: u64,
}

#[repr(C)]
pub struct Outcome<S> {
    number: u32,
    passed: u32,
    place: u64,
    state: S,
}

#[repr(C)]
pub struct PairFigures {
    number: u32,
    passed: u32,
    place: u64,
    home: u64,
    far: u64,
    flight: u64,
}

#[repr(C)]
pub struct HomeFigures {
    number: u32,
    passed: u32,
    place: u64,
    home: u64,
    pool: u64,
}

// A slice is a pointer and a length. A returned struct is written where a pointer before the arguments says, as the calling convention
// has it; where it is named here, the caller chooses the place.
extern "C" {
    fn moatbetony_pair_open(homes: *const u64, h: usize, fars: *const u64, f: usize, rate: u64, account: u64) -> Outcome<Pair>;
    fn moatbetony_pair_take(state: *mut Pair, bytes: *const u8, n: usize) -> Answer;
    fn moatbetony_pair_take_list(state: *mut Pair, bytes: *const u8, n: usize) -> Answer;
    fn moatbetony_pair_check_record(out: *mut Outcome<Pair>, state: Pair, bytes: *const u8, n: usize) -> *mut Outcome<Pair>;
    fn moatbetony_pair_check_list(out: *mut Outcome<Pair>, state: Pair, bytes: *const u8, n: usize) -> *mut Outcome<Pair>;
    fn moatbetony_pair_figures(state: Pair) -> PairFigures;
    fn bench_pair_echo(out: *mut Outcome<Pair>, state: Pair) -> *mut Outcome<Pair>;
    fn moatbetony_home_open(balances: *const u64, h: usize, fars: usize, far_total: u64, rate: u64, account: u64) -> Outcome<Home>;
    fn moatbetony_home_take(state: *mut Home, bytes: *const u8, n: usize) -> Answer;
    fn moatbetony_home_take_list(state: *mut Home, bytes: *const u8, n: usize) -> Answer;
    fn moatbetony_home_check_record(out: *mut Outcome<Home>, state: Home, bytes: *const u8, n: usize) -> *mut Outcome<Home>;
    fn moatbetony_home_check_list(out: *mut Outcome<Home>, state: Home, bytes: *const u8, n: usize) -> *mut Outcome<Home>;
    fn moatbetony_home_figures(state: Home) -> HomeFigures;
    fn bench_home_echo(out: *mut Outcome<Home>, state: Home) -> *mut Outcome<Home>;
}

trait Validator: Copy {
    const NAME: &'static str;
    fn open() -> Outcome<Self>;
    fn one(&self, out: &mut MaybeUninit<Outcome<Self>>, bytes: &[u8]);
    fn list(&self, out: &mut MaybeUninit<Outcome<Self>>, bytes: &[u8]);
    fn take(&mut self, bytes: &[u8]) -> Answer;
    fn take_list(&mut self, bytes: &[u8]) -> Answer;
    fn echo(&self, out: &mut MaybeUninit<Outcome<Self>>);
    // The sum of its figures, and the refusal.
    fn figures(&self) -> (u64, u32);
    // The records that it is handed.
    fn sees(record: &Record) -> bool;
    // What plain Rust needs for the part of refusal 3 that looks at pairs of records.
    fn compares_all(&self) -> bool;
}

const BALANCE: u64 = 1 << 40;

impl Validator for Pair {
    const NAME: &'static str = "pair";
    fn open() -> Outcome<Pair> {
        let balances = [BALANCE; ACCOUNTS];
        unsafe { moatbetony_pair_open(balances.as_ptr(), ACCOUNTS, balances.as_ptr(), ACCOUNTS, 0, 0) }
    }
    #[inline(always)]
    fn one(&self, out: &mut MaybeUninit<Outcome<Pair>>, bytes: &[u8]) {
        unsafe { moatbetony_pair_check_record(out.as_mut_ptr(), *self, bytes.as_ptr(), bytes.len()) };
    }
    #[inline(always)]
    fn list(&self, out: &mut MaybeUninit<Outcome<Pair>>, bytes: &[u8]) {
        unsafe { moatbetony_pair_check_list(out.as_mut_ptr(), *self, bytes.as_ptr(), bytes.len()) };
    }
    #[inline(always)]
    fn take(&mut self, bytes: &[u8]) -> Answer {
        unsafe { moatbetony_pair_take(self, bytes.as_ptr(), bytes.len()) }
    }
    #[inline(always)]
    fn take_list(&mut self, bytes: &[u8]) -> Answer {
        unsafe { moatbetony_pair_take_list(self, bytes.as_ptr(), bytes.len()) }
    }
    #[inline(always)]
    fn echo(&self, out: &mut MaybeUninit<Outcome<Pair>>) {
        unsafe { bench_pair_echo(out.as_mut_ptr(), *self) };
    }
    #[inline(always)]
    fn figures(&self) -> (u64, u32) {
        let f = unsafe { moatbetony_pair_figures(*self) };
        (f.home + f.far + f.flight + f.place, f.number)
    }
    fn sees(_: &Record) -> bool {
        true
    }
    fn compares_all(&self) -> bool {
        let home = &self.records[0][..self.counts[0] as usize];
        let far = &self.records[1][..self.counts[1] as usize];
        let (home_numbers, far_numbers) = (numbers(home), numbers(far));
        apart(&home_numbers[..home.len()])
            && apart(&far_numbers[..far.len()])
            && is_backed(home, far, &far_numbers[..far.len()])
            && is_backed(far, home, &home_numbers[..home.len()])
    }
}

// Whether each arrival of some records has its sending among others, whose numbers stand beside them.
fn is_backed(own: &[Held], other: &[Held], numbers: &[u64]) -> bool {
    own.iter().filter(|held| held.kind() == RECEIVING).all(|held| {
        let sends = |it: &Held| it.kind() == SENDING && it.accounts() == held.accounts() && it.amount == held.amount;
        (0..numbers.len()).any(|at| numbers[at] == held.number && sends(&other[at]))
    })
}

// The numbers of records, side by side, as comparing all pairs goes through them fastest.
fn numbers(records: &[Held]) -> [u64; CAPACITY] {
    let mut numbers = [0; CAPACITY];
    for (number, held) in numbers.iter_mut().zip(records) {
        *number = held.number;
    }
    numbers
}

impl Validator for Home {
    const NAME: &'static str = "home";
    fn open() -> Outcome<Home> {
        let balances = [BALANCE; ACCOUNTS];
        unsafe { moatbetony_home_open(balances.as_ptr(), ACCOUNTS, ACCOUNTS, ACCOUNTS as u64 * BALANCE, 0, 0) }
    }
    #[inline(always)]
    fn one(&self, out: &mut MaybeUninit<Outcome<Home>>, bytes: &[u8]) {
        unsafe { moatbetony_home_check_record(out.as_mut_ptr(), *self, bytes.as_ptr(), bytes.len()) };
    }
    #[inline(always)]
    fn list(&self, out: &mut MaybeUninit<Outcome<Home>>, bytes: &[u8]) {
        unsafe { moatbetony_home_check_list(out.as_mut_ptr(), *self, bytes.as_ptr(), bytes.len()) };
    }
    #[inline(always)]
    fn take(&mut self, bytes: &[u8]) -> Answer {
        unsafe { moatbetony_home_take(self, bytes.as_ptr(), bytes.len()) }
    }
    #[inline(always)]
    fn take_list(&mut self, bytes: &[u8]) -> Answer {
        unsafe { moatbetony_home_take_list(self, bytes.as_ptr(), bytes.len()) }
    }
    #[inline(always)]
    fn echo(&self, out: &mut MaybeUninit<Outcome<Home>>) {
        unsafe { bench_home_echo(out.as_mut_ptr(), *self) };
    }
    #[inline(always)]
    fn figures(&self) -> (u64, u32) {
        let f = unsafe { moatbetony_home_figures(*self) };
        (f.home + f.pool + f.place, f.number)
    }
    fn sees(record: &Record) -> bool {
        record[1] == 0
    }
    fn compares_all(&self) -> bool {
        let records = &self.records[..self.count as usize];
        apart(&numbers(records)[..records.len()])
    }
}

#[inline(never)]
fn apart(numbers: &[u64]) -> bool {
    for i in 0..numbers.len() {
        for j in 0..i {
            if numbers[j] == numbers[i] {
                return false;
            }
        }
    }
    true
}

type Record = [u8; 32];

const LOCAL: u8 = 1;
const SENDING: u8 = 2;
const RECEIVING: u8 = 3;

// The records of both ledgers so far: transfers of all four sorts at random, between accounts at random.
struct History {
    seed: u64,
    number: fn(u64) -> u64,
    transfers: u64,
    counts: [usize; 2],
    records: Vec<Record>,
}

impl History {
    fn new(number: fn(u64) -> u64) -> History {
        History { seed: 1 << 32, number, transfers: 0, counts: [0; 2], records: Vec::new() }
    }

    fn below(&mut self, n: u64) -> u64 {
        self.seed += 1;
        random(self.seed) % n
    }

    // The record of a new transfer: from an account to an account, with number and amount.
    fn transfer(&mut self) -> Record {
        let mut record = [0; 32];
        record[3] = self.below(ACCOUNTS as u64) as u8;
        record[5] = self.below(ACCOUNTS as u64) as u8;
        record[8..16].copy_from_slice(&(self.number)(self.transfers).to_be_bytes());
        record[16..24].copy_from_slice(&(1 + self.below(1000)).to_be_bytes());
        record[24] = 1;
        self.transfers += 1;
        record
    }

    fn push(&mut self, kind: u8, ledger: usize, transfer: Record) {
        self.records.push(as_kind(kind, ledger, transfer));
        self.counts[ledger] += 1;
    }

    // Until so many records are on each ledger.
    fn fill(&mut self, home: usize, far: usize) {
        let wanted = [home, far];
        while self.counts != wanted {
            let l = self.below(2) as usize;
            let crosses = self.below(2) == 0;
            if self.counts[l] == wanted[l] {
                continue;
            }
            let transfer = self.transfer();
            if crosses && self.counts[1 - l] < wanted[1 - l] {
                self.push(SENDING, l, transfer);
                self.push(RECEIVING, 1 - l, transfer);
            } else {
                self.push(LOCAL, l, transfer);
            }
        }
    }

    // The state after all of it, by list calls.
    fn state<V: Validator>(&self) -> Box<V> {
        let opened = V::open();
        assert!(opened.number == 0);
        let mut state = Box::new(opened.state);
        for list in bytes_for::<V>(&self.records).chunks(32 * 100) {
            let mut room = Room::new();
            state.list(room.next(), list);
            let told = room.told();
            assert!(told.number == 0, "refusal {} at {} of a list", told.number, told.place);
            *state = told.state;
        }
        assert!(state.figures() == (2 * ACCOUNTS as u64 * BALANCE, 0));
        state
    }
}

// The bytes of those records that a validator is handed.
fn bytes_for<V: Validator>(records: &[Record]) -> Vec<u8> {
    records.iter().filter(|r| V::sees(r)).flatten().copied().collect()
}

fn as_kind(kind: u8, ledger: usize, transfer: Record) -> Record {
    let mut record = transfer;
    record[0] = kind;
    record[1] = ledger as u8;
    record
}

// A number for each k, all different, that no compiler or processor can foresee.
fn random(k: u64) -> u64 {
    let mut x = k.wrapping_mul(0x9e3779b97f4a7c15);
    x = (x ^ x >> 30).wrapping_mul(0xbf58476d1ce4e5b9);
    x = (x ^ x >> 27).wrapping_mul(0x94d049bb133111eb);
    x ^ x >> 31
}

// A home ledger with a place left and one with none, beside a full far ledger whose last record is a sending; and its arrival.
fn full_tables<V: Validator>(number: fn(u64) -> u64) -> (Box<V>, Box<V>, Record) {
    let mut history = History::new(number);
    history.fill(CAPACITY - 1, CAPACITY - 1);
    let sending = history.transfer();
    history.push(SENDING, 1, sending);
    let nearly = history.state();
    history.fill(CAPACITY, CAPACITY);
    (nearly, history.state(), as_kind(RECEIVING, 0, sending))
}

// Half full tables, and a list of all kinds that fills them. The far ledger filled with sendings, and a list of their arrivals.
fn lists<V: Validator>() -> [(Box<V>, Vec<u8>); 2] {
    let mut history = History::new(|k| k + 1);
    history.fill(CAPACITY / 2, CAPACITY / 2);
    let half = history.state();
    let mut later = History { transfers: history.transfers, counts: history.counts, ..History::new(|k| k + 1) };
    later.fill(CAPACITY, CAPACITY);
    let mut arrivals = Vec::new();
    while history.counts[1] < CAPACITY {
        let sending = history.transfer();
        history.push(SENDING, 1, sending);
        let at = history.below(arrivals.len() as u64 + 1) as usize;
        arrivals.insert(at, as_kind(RECEIVING, 0, sending));
    }
    [(half, bytes_for::<V>(&later.records)), (history.state(), bytes_for::<V>(&arrivals))]
}

// Room for what a call hands back, which moves through a page.
struct Room<V> {
    words: Vec<u64>,
    at: usize,
    what: PhantomData<V>,
}

impl<V> Room<V> {
    const PAGE: usize = 512;

    fn new() -> Room<V> {
        let words = vec![0; Self::PAGE + size_of::<Outcome<V>>().div_ceil(8)];
        Room { words, at: 0, what: PhantomData }
    }

    // The next place, 272 bytes on.
    fn next(&mut self) -> &mut MaybeUninit<Outcome<V>> {
        self.at = (self.at + 34) % Self::PAGE;
        black_box(unsafe { &mut *self.words[self.at..].as_mut_ptr().cast() })
    }

    // What stands at the last place, once a call has written there.
    fn told(&self) -> &Outcome<V> {
        unsafe { &*self.words[self.at..].as_ptr().cast() }
    }
}

// A call that is timed, with its result left where it stands.
type Call<'a> = Box<dyn FnMut() + 'a>;

fn echo<V: Validator>(state: &V) -> Call<'_> {
    let mut room = Room::new();
    Box::new(move || black_box(state).echo(room.next()))
}

fn one<'a, V: Validator>(state: &'a V, bytes: &'a [u8], answer: u32) -> Call<'a> {
    let mut room = Room::new();
    state.one(room.next(), bytes);
    assert!(room.told().number == answer);
    Box::new(move || black_box(state).one(room.next(), black_box(bytes)))
}

fn list<'a, V: Validator>(state: &'a V, bytes: &'a [u8]) -> Call<'a> {
    let mut room = Room::new();
    state.list(room.next(), bytes);
    assert!(room.told().number == 0);
    Box::new(move || black_box(state).list(room.next(), black_box(bytes)))
}

// A call in place, on a state of its own, in which the words that it altered are put back after it; and the putting back alone.
fn in_place<'a, V: Validator + 'a>(state: &V, bytes: &'a [u8], answer: u32, take: fn(&mut V, &[u8]) -> Answer) -> [Call<'a>; 2] {
    let (mut own, mut other) = (Box::new(*state), Box::new(*state));
    assert!(take(&mut own, bytes).number == answer);
    let (after, before) = (words(&mut *own), words(&mut *other));
    let altered: Vec<(usize, u64)> = (0..before.len()).filter(|&i| after[i] != before[i]).map(|i| (i, before[i])).collect();
    assert!(altered.is_empty() == (answer != 0));
    put_back(&mut *own, &altered);
    let same = altered.clone();
    let call = move || {
        black_box(&take(black_box(&mut *own), black_box(bytes)));
        put_back(&mut *own, &altered);
    };
    [Box::new(call), Box::new(move || put_back(black_box(&mut *other), &same))]
}

// A state is words of 64 bits and nothing else.
fn words<V: Validator>(state: &mut V) -> &mut [u64] {
    unsafe { std::slice::from_raw_parts_mut(std::ptr::from_mut(state).cast(), size_of::<V>() / 8) }
}

fn put_back<V: Validator>(state: &mut V, altered: &[(usize, u64)]) {
    let words = words(state);
    for &(at, word) in altered {
        words[at] = word;
    }
}

fn figures<V: Validator>(state: &V) -> Call<'_> {
    Box::new(move || {
        black_box(&black_box(state).figures());
    })
}

fn all_pairs<V: Validator>(state: &V) -> Call<'_> {
    assert!(state.compares_all());
    Box::new(move || {
        black_box(black_box(state).compares_all());
    })
}

// The median times of calls in ns: all in turns, each so many times in a row.
fn medians<const N: usize>(turns: usize, mut calls: [(usize, Call); N]) -> [f64; N] {
    let mut times = [(); N].map(|_| Vec::new());
    for _ in 0..turns {
        for ((row, call), times) in calls.iter_mut().zip(&mut times) {
            let start = Instant::now();
            for _ in 0..*row {
                call();
            }
            times.push(start.elapsed().as_nanos() as f64 / *row as f64);
        }
    }
    times.map(|mut times| {
        times.sort_by(f64::total_cmp);
        times[turns / 2]
    })
}

// A line: the time, what it is in echoes, and the limit.
fn line(what: &str, ns: f64, echoes: f64, limit: f64) {
    let held = if echoes <= limit { "held" } else { "MISSED" };
    println!("  {what:<44} {ns:>9.0} {echoes:>8.2}   {limit} {held}");
}

// One without a limit.
fn free_line(what: &str, ns: f64, echoes: f64) {
    println!("  {what:<44} {ns:>9.0} {echoes:>8.2}");
}

// Calls with one record at full tables.
fn measure_one<V: Validator>(name: &str, number: fn(u64) -> u64) {
    let (nearly, full, arrival) = full_tables::<V>(number);
    let [refused, _] = in_place(&*full, &arrival, 41, V::take);
    let [passed, back] = in_place(&*nearly, &arrival, 0, V::take);
    let calls = [echo(&*full), one(&*full, &arrival, 41), one(&*nearly, &arrival, 0), figures(&*full), refused, passed, back];
    let t = medians(1001, calls.map(|call| (20, call)));
    println!("  {:<44} {:>9.0}", format!("echo, {name} numbers"), t[0]);
    free_line("one record, refused with 41", t[1], t[1] / t[0]);
    free_line("one record, passed", t[2], t[2] / t[0]);
    free_line("one record in place, refused with 41", t[4], t[4] / t[0]);
    free_line("one record in place, passed", t[5] - t[6], (t[5] - t[6]) / t[0]);
    free_line("figures", t[3], t[3] / t[0]);
}

// List calls of two lengths, and what one record more costs.
fn measure_list<V: Validator>(name: &str, state: &V, bytes: &[u8]) {
    let (short, long) = (CAPACITY / 8, CAPACITY / 2);
    let (fewer, further) = (&bytes[..32 * short], &bytes[..32 * long]);
    let (less, more) = (list(state, fewer), list(state, further));
    let [less_in_place, less_back] = in_place(state, fewer, 0, V::take_list);
    let [more_in_place, more_back] = in_place(state, further, 0, V::take_list);
    let calls = [less, more, less_in_place, more_in_place, less_back, more_back].map(|call| (5, call));
    let [less, more, less_in_place, more_in_place, less_back, more_back] = calls;
    let t = medians(101, [(20, echo(state)), less, more, less_in_place, more_in_place, less_back, more_back]);
    let records = (long - short) as f64;
    let each = (t[2] - t[1]) / records;
    line(&format!("list {name}, a record ({short} to {long})"), each, each / t[0], 0.5);
    let (less, more) = (t[3] - t[5], t[4] - t[6]);
    let each = (more - less) / records;
    free_line(&format!("in place {name}, a record"), each, each / t[0]);
    free_line(&format!("list of {long}, by value"), t[2], t[2] / t[0]);
    free_line(&format!("list of {long}, in place"), more, more / t[0]);
}

// Numbers that all fall into one chain: one record, against all pairs in plain Rust and an echo.
fn measure_hostile<V: Validator>(name: &str, number: fn(u64) -> u64) {
    let (_, full, arrival) = full_tables::<V>(number);
    let t = medians(51, [(20, echo(&*full)), (1, one(&*full, &arrival, 41)), (1, all_pairs(&*full))]);
    let (wanted, ratio) = (t[2] + t[0], t[1] / (t[2] + t[0]));
    let held = if ratio <= 1.0 { "held" } else { "MISSED" };
    let what = format!("equal modulo {name}: all pairs {wanted:.0}; one record");
    println!("  {what:<44} {:>9.0} {ratio:>8.2} of all pairs   1 {held}", t[1]);
}

fn measure<V: Validator>() {
    println!("{} validator, {CAPACITY} records a ledger, a state of {} bytes", V::NAME, size_of::<V>());
    println!("  {:<44} {:>9} {:>8}   limit", "", "ns", "echoes");
    measure_one::<V>("consecutive", |k| k + 1);
    measure_one::<V>("random", random);
    let [(half, mixed), (sent, arrivals)] = lists::<V>();
    measure_list("of all kinds", &*half, &mixed);
    measure_list("of arrivals", &*sent, &arrivals);
    measure_hostile::<V>("2^12", |k| (k << 12) + 5);
    measure_hostile::<V>("2^16", |k| (k << 16) + 5);
    measure_hostile::<V>("2^32", |k| (k << 32) + 5);
}

fn main() {
    measure::<Pair>();
    measure::<Home>();
}
