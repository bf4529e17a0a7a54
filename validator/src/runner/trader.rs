//! Makes the records of a journal one after the other, knowing what the rules
//! say of each, so that lawful records and near misses can be aimed at.

use super::build::{self, arrival, local, sending, Bytes, Opening};
use super::rng::Rng;
use crate::charge::{Charge, MAX_RATE};
use crate::record::{Counted, Kind, Ledger, Record, MAX_AMOUNT};
use crate::rules::{Book, MAX_ACCOUNTS};
use crate::running::RunningBook;

/// How transfer numbers are chosen.
#[derive(Clone, Copy, Debug)]
pub enum Numbers {
    Random,
    /// One after the other from a first one.
    Counting(u64),
    /// Below a small limit, so that both ledgers often use the same.
    Few(u64),
    /// All bits alike but those from this one up.
    LowBitsAlike {
        base: u64,
        shift: u32,
    },
}

impl Numbers {
    /// Some way of choosing.
    pub fn any(rng: &mut Rng) -> Numbers {
        match rng.below(6) {
            0 | 1 => Numbers::Random,
            2 => Numbers::Counting(0),
            3 => Numbers::Counting(rng.pick(&[1, 0xff, 0xffff_fff0, u64::MAX - 20, 1 << 63])),
            4 => Numbers::Few(rng.pick(&[8, 40, 3000])),
            _ => Numbers::colliding(rng),
        }
    }

    /// Some way of choosing numbers that are all different.
    pub fn any_wide(rng: &mut Rng) -> Numbers {
        match rng.below(3) {
            0 => Numbers::Random,
            1 => Numbers::Counting(rng.pick(&[0, u64::MAX - 20])),
            _ => Numbers::colliding(rng),
        }
    }

    /// Numbers that agree in their low bits.
    pub fn colliding(rng: &mut Rng) -> Numbers {
        let random = rng.word();
        Numbers::LowBitsAlike {
            base: rng.pick(&[0, 1, 7, random]),
            shift: rng.pick(&[8, 10, 11, 12, 16, 32, 48]),
        }
    }

    fn number(self, rng: &mut Rng, counter: u64) -> u64 {
        match self {
            Numbers::Random => rng.word(),
            Numbers::Counting(first) => first.wrapping_add(counter),
            Numbers::Few(limit) => rng.below(limit),
            Numbers::LowBitsAlike { base, shift } => base.wrapping_add(counter << shift),
        }
    }
}

/// Whether records of both classes that a ledger counts share numbers.
#[derive(Clone, Copy, Debug, PartialEq, Eq)]
pub enum Sharing {
    /// Locals and sendings have fresh numbers.
    Never,
    /// They often have the number of another record.
    Often,
    /// They have fresh numbers, and the trader takes a number for used whatever
    /// record has it. Stored journals from before U2 are made so; they are judged
    /// by U2 all the same.
    BeforeU2,
}

impl Sharing {
    /// Often or never.
    pub fn any(rng: &mut Rng) -> Sharing {
        rng.pick(&[Sharing::Often, Sharing::Never])
    }
}

#[derive(Clone)]
pub struct Trader {
    pub rng: Rng,
    pub opening: Opening,
    pub book: RunningBook,
    /// All records handed in, refused ones included.
    pub records: Vec<Bytes>,
    /// The passed records of each ledger.
    pub passed: [Vec<Record>; 2],
    /// Passed sendings without a passed arrival.
    pub pending: Vec<Record>,
    /// Sendings that were refused for a full table.
    pub refused_sendings: Vec<Record>,
    pub numbers: Numbers,
    counter: u64,
    /// Amounts are kept small, so that balances last.
    pub thrifty: bool,
    pub sharing: Sharing,
}

impl Trader {
    pub fn new(opening: Opening, numbers: Numbers, rng: Rng) -> Trader {
        let book = opening.book();
        Trader {
            rng,
            opening,
            book,
            records: Vec::new(),
            passed: [Vec::new(), Vec::new()],
            pending: Vec::new(),
            refused_sendings: Vec::new(),
            numbers,
            counter: 0,
            thrifty: false,
            sharing: Sharing::Never,
        }
    }

    pub fn journal(&self) -> Vec<u8> {
        build::journal(&self.opening, &self.records)
    }

    /// Hands in a record and keeps it for the journal. The answer's number.
    pub fn hand_in(&mut self, bytes: Bytes) -> u8 {
        let answer = self.try_out(&bytes);
        self.records.push(bytes);
        answer
    }

    /// As `hand_in`, without keeping the record.
    pub fn try_out(&mut self, bytes: &Bytes) -> u8 {
        let answer = if self.refused_before_u2(bytes) {
            24
        } else {
            self.book.call(bytes).unwrap_or(0)
        };
        if let Some(record) = Record::read(bytes) {
            match answer {
                0 => self.note_passed(record),
                41 => self.note_full(record),
                _ => (),
            }
        }
        answer
    }

    /// Whether a trader from before U2 refuses a record for its number.
    fn refused_before_u2(&self, bytes: &Bytes) -> bool {
        self.sharing == Sharing::BeforeU2
            && !matches!(self.book.judge(bytes), Some(21 | 22 | 51 | 23))
            && Record::read(bytes).is_some_and(|record| self.number_used(&record))
    }

    /// Whether a record's number is used, as the trader sees it.
    fn number_used(&self, record: &Record) -> bool {
        if self.sharing == Sharing::BeforeU2 {
            return self.book.number_met(record.ledger(), record.number);
        }
        self.book.number_used(record)
    }

    fn note_passed(&mut self, record: Record) {
        self.passed[record.ledger().index()].push(record);
        match record.kind {
            Kind::Local(_) => (),
            Kind::Sending(_) => self.pending.push(record),
            Kind::Arrival(_) => {
                let sending = record.matching_sending();
                self.pending.retain(|pending| *pending != sending);
            }
        }
    }

    fn note_full(&mut self, record: Record) {
        if matches!(record.kind, Kind::Sending(_)) && self.refused_sendings.len() < 64 {
            self.refused_sendings.push(record);
        }
    }

    pub fn some_ledger(&mut self) -> Ledger {
        self.rng.pick(&Ledger::BOTH)
    }

    /// An open account.
    pub fn account(&mut self, ledger: Ledger) -> u16 {
        let count = self.book.accounts(ledger);
        self.rng.index(count) as u16
    }

    /// An account number that is not open on the ledger: just beyond, open on
    /// the other ledger only, or with a low byte that is open.
    pub fn absent_account(&mut self, ledger: Ledger) -> u16 {
        let count = self.book.accounts(ledger) as u16;
        let other = self.book.accounts(ledger.other()) as u16;
        let choices = [count, other - 1, 56, 255, 256, 0x0100 | (count - 1), 65_535];
        let absent: Vec<u16> = choices.into_iter().filter(|&a| a >= count).collect();
        self.rng.pick(&absent)
    }

    /// A number that no record passed on the ledger has.
    pub fn fresh_number(&mut self, ledger: Ledger) -> u64 {
        for _ in 0..50 {
            let number = self.numbers.number(&mut self.rng, self.counter);
            self.counter += 1;
            if !self.book.number_met(ledger, number) {
                return number;
            }
        }
        loop {
            let number = self.rng.word();
            if !self.book.number_met(ledger, number) {
                return number;
            }
        }
    }

    /// A number for a local or sending: fresh, or one that another record has.
    fn number(&mut self, ledger: Ledger) -> u64 {
        let shared = self.sharing == Sharing::Often && self.rng.chance(2, 5);
        shared
            .then(|| self.shared_number(ledger, false))
            .flatten()
            .unwrap_or_else(|| self.fresh_number(ledger))
    }

    /// A number that a passed record of either ledger has, but none of this one
    /// that is counted with arrivals, or with locals and sendings.
    pub fn shared_number(&mut self, ledger: Ledger, arrival: bool) -> Option<u64> {
        for _ in 0..4 {
            let other = self.some_ledger();
            let number = self.used_number(other)?;
            if !self.book.counts(ledger, Counted { arrival, number }) {
                return Some(number);
            }
        }
        None
    }

    /// A number that a record passed on the ledger has, if there is one.
    pub fn used_number(&mut self, ledger: Ledger) -> Option<u64> {
        let passed = &self.passed[ledger.index()];
        (!passed.is_empty()).then(|| self.rng.pick(passed).number)
    }

    /// A number for which a record is refused, if there is one.
    pub fn used_for(&mut self, record: &Record) -> Option<u64> {
        let any = self.sharing == Sharing::BeforeU2;
        let used: Vec<u64> = self.passed[record.ledger().index()]
            .iter()
            .filter(|passed| any || passed.takes() == record.takes())
            .map(|passed| passed.number)
            .collect();
        (!used.is_empty()).then(|| self.rng.pick(&used))
    }

    /// An account that has so much.
    fn rich_account(&mut self, ledger: Ledger, least: u64) -> Option<u16> {
        let balances = self.book.balances(ledger);
        let rich: Vec<u16> = (0..balances.len() as u16)
            .filter(|&account| balances[usize::from(account)] >= least)
            .collect();
        (!rich.is_empty()).then(|| self.rng.pick(&rich))
    }

    fn some_amount(&mut self, balance: u64) -> u64 {
        if self.thrifty {
            return self.rng.within(1, balance.min(3));
        }
        match self.rng.below(8) {
            0 => balance,
            1 => 1,
            2 => self.rng.within(1, balance),
            _ => self.rng.magnitude(balance),
        }
    }

    /// A local that the rules pass, if the ledger has any credit.
    pub fn lawful_local(&mut self, ledger: Ledger) -> Option<Record> {
        let sender = self.rich_account(ledger, 1)?;
        let receiver = self.account(ledger);
        let number = self.number(ledger);
        let amount = self.some_amount(self.book.balance(ledger, sender));
        Some(local(ledger, sender, receiver, number, amount))
    }

    /// A sending that the rules pass, if the ledger has any credit.
    pub fn lawful_sending(&mut self, ledger: Ledger) -> Option<Record> {
        let sender = self.rich_account(ledger, self.cost_of_sending(ledger, 1))?;
        let receiver = self.account(ledger.other());
        let number = self.number(ledger);
        let amount = self.sent_amount(ledger, sender);
        Some(sending(ledger, sender, receiver, number, amount))
    }

    /// What an amount costs that leaves a ledger.
    fn cost_of_sending(&self, ledger: Ledger, amount: u64) -> u64 {
        cost_of_sending(self.book.charge(), ledger, amount)
    }

    /// The highest amount that an account can send, 0 if it can send none.
    pub fn most_sent(&self, ledger: Ledger, account: u16) -> u64 {
        let balance = self.book.balance(ledger, account);
        most_sent(self.book.charge(), ledger, balance)
    }

    /// An amount that an account can send; where it is charged, often just where
    /// the charge becomes one more.
    fn sent_amount(&mut self, ledger: Ledger, sender: u16) -> u64 {
        let most = self.most_sent(ledger, sender);
        let amount = self.some_amount(most);
        if self.thrifty || self.cost_of_sending(ledger, MAX_AMOUNT) == MAX_AMOUNT {
            return amount;
        }
        match self.rng.below(6) {
            0 => near_multiple(&mut self.rng, amount, MAX_RATE).clamp(1, most),
            1 => {
                let charge = self.cost_of_sending(ledger, amount) - amount;
                let rate = self.book.charge().rate;
                near_step(&mut self.rng, charge, rate).clamp(1, most)
            }
            _ => amount,
        }
    }

    /// An arrival that the rules pass, if a sending to the ledger is pending.
    pub fn lawful_arrival(&mut self, ledger: Ledger) -> Option<Record> {
        let open: Vec<Record> = self
            .pending
            .iter()
            .map(Record::matching_arrival)
            .filter(|record| record.ledger() == ledger)
            .filter(|record| !self.number_used(record))
            .collect();
        (!open.is_empty()).then(|| self.rng.pick(&open))
    }

    pub fn lawful_of(&mut self, kind: Kind) -> Option<Record> {
        match kind {
            Kind::Local(ledger) => self.lawful_local(ledger),
            Kind::Sending(ledger) => self.lawful_sending(ledger),
            Kind::Arrival(ledger) => self.lawful_arrival(ledger),
        }
    }

    /// A record of the ledger that the rules pass, if one is found.
    pub fn lawful(&mut self, ledger: Ledger) -> Option<Record> {
        let kinds = [
            Kind::Local(ledger),
            Kind::Sending(ledger),
            Kind::Arrival(ledger),
        ];
        let kind = self.rng.pick(&kinds);
        self.lawful_of(kind)
            .or_else(|| self.lawful_local(ledger))
            .or_else(|| self.lawful_arrival(ledger))
    }

    /// A record of right form with open accounts and a number of no meaning;
    /// nothing is aimed at.
    pub fn aimless(&mut self, ledger: Ledger) -> Record {
        let number = match self.rng.below(3) {
            0 => self.rng.below(8),
            1 => self.rng.word(),
            _ => self.used_number(ledger.other()).unwrap_or(0),
        };
        let amount = self.rng.magnitude(MAX_AMOUNT);
        let here = self.account(ledger);
        let there = self.account(ledger.other());
        match self.rng.below(3) {
            0 => local(ledger, here, self.account(ledger), number, amount),
            1 => sending(ledger, here, there, number, amount),
            _ => arrival(ledger, there, here, number, amount),
        }
    }

    /// Fills the table of a ledger to `count` passed records, if it has credit.
    pub fn fill(&mut self, ledger: Ledger, count: usize) {
        while self.book.passed_count(ledger) < count {
            let Some(record) = self.lawful_local(ledger) else {
                return;
            };
            self.hand_in(record.bytes());
        }
    }
}

fn cost_of_sending(charge: Charge, ledger: Ledger, amount: u64) -> u64 {
    charge.cost(&sending(ledger, 0, 0, 0, amount))
}

/// The highest amount that can be sent from a balance, 0 if there is none. The rate
/// must be a right one.
pub fn most_sent(charge: Charge, ledger: Ledger, balance: u64) -> u64 {
    let (mut most, mut above) = (0, balance.min(MAX_AMOUNT) + 1);
    while most + 1 < above {
        let middle = most + (above - most) / 2;
        if cost_of_sending(charge, ledger, middle) <= balance {
            most = middle;
        } else {
            above = middle;
        }
    }
    most
}

/// A multiple near an amount, or one more or less.
fn near_multiple(rng: &mut Rng, amount: u64, of: u64) -> u64 {
    (amount / of * of + rng.below(3)).saturating_sub(1)
}

/// The least amount that pays so much at a rate, or one less.
fn near_step(rng: &mut Rng, charge: u64, rate: u64) -> u64 {
    let whole = u128::from(charge) * u128::from(MAX_RATE);
    let least = whole.div_ceil(u128::from(rate)) as u64;
    least.saturating_sub(rng.below(2))
}

/// The opening, every other time with a charge.
pub fn maybe_charged(rng: &mut Rng, make: impl FnOnce(&mut Rng) -> Opening) -> Opening {
    let opening = make(rng);
    match rng.below(2) {
        0 => opening,
        _ => charged(rng, opening),
    }
}

/// The opening with a charge of any rate, 0 too, and on any account.
pub fn charged(rng: &mut Rng, opening: Opening) -> Opening {
    let any = rng.within(0, MAX_RATE);
    let rate = rng.pick(&[0, 1, 50, 50, 5_000, 9_999, MAX_RATE, MAX_RATE, any, any]);
    let last = opening.home.len() as u64 - 1;
    let any = rng.within(0, last);
    let account = rng.pick(&[0, last, any, any]);
    opening.charged(rate, account)
}

/// An opening of any size: 1 to 56 accounts, stakes of all magnitudes, 0 too,
/// now and then a total of exactly 2^63-1.
pub fn any_opening(rng: &mut Rng) -> Opening {
    let home = account_count(rng);
    let far = account_count(rng);
    let scale = rng.magnitude(MAX_AMOUNT);
    let mut left = MAX_AMOUNT;
    let mut stakes: Vec<u64> = (0..home + far)
        .map(|_| some_stake(rng, scale, &mut left))
        .collect();
    rng.shuffle(&mut stakes);
    if rng.chance(1, 6) {
        let lucky = rng.index(stakes.len());
        stakes[lucky] += left;
    }
    Opening::new(&stakes[..home], &stakes[home..])
}

/// An opening with credit on both ledgers and at least two accounts each.
pub fn rich_opening(rng: &mut Rng) -> Opening {
    let scale = rng.pick(&[1_000, 1_000_000, 1 << 40, 1 << 56]);
    let home = rng.pick(&[2, 3, 3, 4, 12, 56]);
    let far = rng.pick(&[2, 3, 5, 5, 7, 56]);
    let [home, far] = [home, far].map(|count| rich_stakes(rng, count, scale));
    Opening::new(&home, &far)
}

/// An opening with credit in every account and with more accounts on the given
/// ledger than on the other.
pub fn unequal_opening(rng: &mut Rng, larger: Ledger) -> Opening {
    let [more, fewer] = rng.pick(&[[2, 1], [3, 2], [5, 2], [12, 7], [56, 1], [56, 55]]);
    let more = rich_stakes(rng, more, 1_000_000);
    let fewer = rich_stakes(rng, fewer, 1_000_000);
    match larger {
        Ledger::Home => Opening::new(&more, &fewer),
        Ledger::Far => Opening::new(&fewer, &more),
    }
}

fn rich_stakes(rng: &mut Rng, count: usize, scale: u64) -> Vec<u64> {
    (0..count).map(|_| 1_000 + rng.below(scale)).collect()
}

fn account_count(rng: &mut Rng) -> usize {
    match rng.below(6) {
        0 => 1,
        1 => MAX_ACCOUNTS,
        2 => rng.within(1, MAX_ACCOUNTS as u64) as usize,
        _ => rng.within(1, 5) as usize,
    }
}

fn some_stake(rng: &mut Rng, scale: u64, left: &mut u64) -> u64 {
    if *left == 0 || rng.chance(1, 5) {
        return 0;
    }
    let stake = rng.magnitude(scale).min(*left);
    *left -= stake;
    stake
}
