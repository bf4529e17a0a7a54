//! Near misses of each trap that paper 01 names: arrivals that agree with a
//! sending in all but one thing, number 0, self transfers, the same number on
//! both ledgers, numbers that agree in some of their bits, amounts and
//! accounts at their bounds, every value of each byte that has few lawful ones.
//! By U2, every list of five records of one number, and numbers that both
//! classes of a ledger have. By U3, amounts around what a sender can pay, also near
//! 2^63-1.

use super::faults::{kinds, other_amount};
use super::honest::RATES;
use super::Sample;
use crate::record::{Kind, Ledger, Record, MAX_AMOUNT};
use crate::rules::Book;
use crate::runner::build::{
    arrival, local, sending, set_u16, set_u64, Bytes, Opening, AMOUNT, NUMBER, RECEIVER, RESERVED,
    SENDER, VERDICT,
};
use crate::runner::calls::makers::{charge_miss, class_miss, lawful};
use crate::runner::rng::Rng;
use crate::runner::trader::{
    any_opening, charged, maybe_charged, rich_opening, unequal_opening, Numbers, Sharing, Trader,
};

const NUMBERS: [u64; 7] = [0, 1, 7, 255, 1 << 32, 1 << 63, u64::MAX];
const BITS: [u32; 7] = [4, 8, 11, 12, 16, 32, 63];

pub fn fixed(rng: &mut Rng) -> Vec<Sample> {
    let mut samples = Vec::new();
    for (place, number) in NUMBERS.into_iter().enumerate() {
        for from in Ledger::BOTH {
            let name = format!("near_arrivals_{place}_{from:?}").to_lowercase();
            samples.push(Sample::new(name, near_arrivals(rng, from, number)));
            let name = format!("same_number_{place}_{from:?}").to_lowercase();
            samples.push(Sample::new(name, same_number(rng, from, number)));
        }
    }
    for bits in BITS {
        let name = format!("low_bits_alike_{bits}");
        samples.push(Sample::new(name, alike_numbers(rng, bits, true)));
        let name = format!("high_bits_alike_{bits}");
        samples.push(Sample::new(name, alike_numbers(rng, bits, false)));
    }
    for place in [0, 1, VERDICT].into_iter().chain(RESERVED) {
        let name = format!("every_value_of_byte_{place}");
        samples.push(Sample::new(name, every_value(rng, place)));
    }
    samples.push(Sample::new("number_zero", number_zero(rng)));
    samples.push(Sample::new("self_transfers", self_transfers(rng)));
    samples.push(Sample::new("there_and_back", there_and_back(rng)));
    samples.push(Sample::new("amounts", amounts(rng)));
    samples.push(Sample::new("amounts_at_limit", amounts_at_limit(rng)));
    samples.push(Sample::new("accounts", accounts(rng)));
    for larger in Ledger::BOTH {
        let name = format!("accounts_{larger:?}_larger").to_lowercase();
        samples.push(Sample::new(name, accounts_unequal(rng, larger)));
    }
    for rate in RATES {
        for account in 0..3 {
            let name = format!("charges_{rate}_{account}");
            let opening = Opening::new(&[50_000, 12_345, 0], &[40_000, 1]).charged(rate, account);
            samples.push(Sample::new(name, charges_on(rng, opening)));
            let name = format!("charges_at_limit_{rate}_{account}");
            let opening = at_limit(rng).charged(rate, account);
            samples.push(Sample::new(name, charges_on(rng, opening)));
        }
    }
    for (place, first) in every_kind().into_iter().enumerate() {
        for (next, second) in every_kind().into_iter().enumerate() {
            let name = format!("one_number_{place}_{next}");
            samples.push(Sample::new(name, one_number(rng, [first, second])));
        }
    }
    samples
}

pub fn seeded(rng: &mut Rng) -> Vec<u8> {
    let from = rng.pick(&Ledger::BOTH);
    let random = rng.word();
    let number = rng.pick(&[0, 1, random, random, u64::MAX]);
    match rng.below(17) {
        10..=12 => both_classes(rng),
        13..=16 => charges(rng),
        0..=2 => near_arrivals(rng, from, number),
        3 => same_number(rng, from, number),
        4 => {
            let bits = rng.within(1, 63) as u32;
            let low = rng.chance(1, 2);
            alike_numbers(rng, bits, low)
        }
        5 => self_transfers(rng),
        6 => there_and_back(rng),
        7 => amounts(rng),
        8 => amounts_at_limit(rng),
        _ => accounts(rng),
    }
}

fn trader(rng: &mut Rng) -> Trader {
    let opening = maybe_charged(rng, rich_opening);
    Trader::new(opening, Numbers::Random, Rng::new(rng.word()))
}

fn hand_in_all(trader: &mut Trader, records: &[Record]) {
    for record in records {
        trader.hand_in(record.bytes());
    }
}

/// A sending and everything that looks like its arrival, before it, after it
/// and after its arrival.
fn near_arrivals(rng: &mut Rng, from: Ledger, number: u64) -> Vec<u8> {
    let mut trader = trader(rng);
    let mut sent = trader.lawful_sending(from).expect("credit");
    sent.number = number;
    let right = sent.matching_arrival();
    let near = lookalikes(&mut trader, &right);
    for stage in [None, Some(sent), Some(right), Some(right), Some(sent)] {
        if let Some(record) = stage {
            trader.hand_in(record.bytes());
        } else {
            trader.hand_in(right.bytes());
        }
        for &bytes in &near {
            trader.hand_in(bytes);
        }
    }
    trader.journal()
}

/// Arrivals that differ from the right one in one thing. None of them passes.
fn lookalikes(trader: &mut Trader, right: &Record) -> Vec<Bytes> {
    let mut near = Vec::new();
    let base = right.bytes();
    let mut differ = |change: &dyn Fn(&mut Bytes)| {
        let mut bytes = base;
        change(&mut bytes);
        if bytes != base {
            near.push(bytes);
        }
    };
    for bit in 0..64 {
        differ(&|bytes| set_u64(bytes, NUMBER, right.number ^ (1 << bit)));
        differ(&|bytes| set_u64(bytes, AMOUNT, right.amount ^ (1 << bit)));
    }
    for more in [false, true] {
        differ(&|bytes| set_u64(bytes, AMOUNT, other_amount(right.amount, more)));
    }
    for account in 0..trader.book.accounts(right.sender_ledger()) as u16 {
        differ(&|bytes| set_u16(bytes, SENDER, account));
    }
    for account in 0..trader.book.accounts(right.receiver_ledger()) as u16 {
        differ(&|bytes| set_u16(bytes, RECEIVER, account));
    }
    differ(&|bytes| {
        set_u16(bytes, SENDER, right.receiver);
        set_u16(bytes, RECEIVER, right.sender);
    });
    differ(&|bytes| bytes[VERDICT] = 0);
    differ(&|bytes| bytes[VERDICT] = 2);
    differ(&|bytes| bytes[1] = right.ledger().other().byte());
    near
}

/// One number used on both ledgers, each pair of kinds, either ledger first:
/// lawful, and it strands no arrival.
fn same_number(rng: &mut Rng, first: Ledger, number: u64) -> Vec<u8> {
    let mut trader = trader(rng);
    trader.thrifty = true;
    let second = first.other();
    for (step, pair) in (0..4).zip([(false, false), (false, true), (true, false), (true, true)]) {
        let number = number.wrapping_add(step);
        let one = used(&mut trader, first, pair.0, number);
        let two = used(&mut trader, second, pair.1, number);
        let tries = [
            two.matching_arrival(),
            one,
            one.matching_arrival(),
            two,
            two.matching_arrival(),
            one.matching_arrival(),
            one,
            two,
        ];
        hand_in_all(&mut trader, &tries);
    }
    trader.journal()
}

/// A local or a sending under a given number.
fn used(trader: &mut Trader, ledger: Ledger, crossing: bool, number: u64) -> Record {
    let record = if crossing {
        trader.lawful_sending(ledger)
    } else {
        trader.lawful_local(ledger)
    };
    Record {
        number,
        ..record.expect("credit")
    }
}

/// Each kind on each ledger.
fn every_kind() -> [Kind; 6] {
    let [[a, b, c], [d, e, f]] = Ledger::BOTH.map(kinds);
    [a, b, c, d, e, f]
}

/// Every list of five records of one number that begins with these two kinds,
/// each list under a number of its own. All else is alike, so that one record
/// could be taken for another.
fn one_number(rng: &mut Rng, first: [Kind; 2]) -> Vec<u8> {
    let opening = Opening::new(&[100_000], &[100_000]);
    let numbers = Numbers::any_wide(rng);
    let mut trader = Trader::new(opening, numbers, Rng::new(rng.word()));
    let alphabet = every_kind();
    for list in 0..alphabet.len().pow(3) {
        let number = trader.fresh_number(Ledger::Home);
        let rest = [list / 36, list / 6 % 6, list % 6].map(|letter| alphabet[letter]);
        for kind in first.into_iter().chain(rest) {
            let record = Record {
                kind,
                ..local(Ledger::Home, 0, 0, number, 1)
            };
            trader.hand_in(record.bytes());
        }
    }
    trader.journal()
}

/// Trading in which numbers are often those of other records.
fn both_classes(rng: &mut Rng) -> Vec<u8> {
    let mut trader = trader(rng);
    trader.numbers = Numbers::any(rng);
    trader.sharing = Sharing::Often;
    trader.thrifty = true;
    for _ in 0..rng.within(40, 160) {
        let ledger = trader.some_ledger();
        let bytes = if trader.rng.chance(1, 2) {
            class_miss(&mut trader, ledger)
        } else {
            lawful(&mut trader, ledger)
        };
        trader.hand_in(bytes);
    }
    trader.journal()
}

/// A total of 2^63-1 or a little less, most of it at home, so that amounts times
/// rates need more than 64 bits.
fn at_limit(rng: &mut Rng) -> Opening {
    let small = rng.within(1, 20_000);
    let less = rng.below(3);
    let large = MAX_AMOUNT - 2 * small - less;
    let split = rng.within(large / 2, large);
    Opening::new(&[split, large - split, small], &[small])
}

/// Sendings around what their senders can pay, on any opening with a charge.
fn charges(rng: &mut Rng) -> Vec<u8> {
    let opening = match rng.below(3) {
        0 => at_limit(rng),
        1 => any_opening(rng),
        _ => rich_opening(rng),
    };
    let opening = charged(rng, opening);
    charges_on(rng, opening)
}

/// Sendings around what their senders can pay, with what they moved on its way,
/// back home and among the accounts.
fn charges_on(rng: &mut Rng, opening: Opening) -> Vec<u8> {
    let mut trader = Trader::new(opening, Numbers::Random, Rng::new(rng.word()));
    for _ in 0..80 {
        let ledger = trader.some_ledger();
        let bytes = match trader.rng.below(5) {
            0 | 1 => charge_miss(&mut trader),
            2 => part_of_charge(&mut trader),
            _ => lawful(&mut trader, ledger),
        };
        trader.hand_in(bytes);
    }
    trader.journal()
}

/// All that the charge account has, or one more, goes to another account: it tells
/// what was paid to it.
fn part_of_charge(trader: &mut Trader) -> Bytes {
    let account = trader.book.charge().account as u16;
    let balance = trader.book.balance(Ledger::Home, account);
    let amount = trader.rng.pick(&[balance, balance, balance + 1]).max(1);
    let receiver = trader.account(Ledger::Home);
    let number = trader.fresh_number(Ledger::Home);
    local(Ledger::Home, account, receiver, number, amount).bytes()
}

/// Numbers that agree in their low or high bits, as locals, sendings and
/// arrivals; each a second time.
fn alike_numbers(rng: &mut Rng, bits: u32, low: bool) -> Vec<u8> {
    let mut trader = trader(rng);
    trader.thrifty = true;
    let base = rng.word();
    for _ in 0..40 {
        let ledger = trader.some_ledger();
        let number = alike(&mut trader.rng, base, bits, low);
        let crossing = trader.rng.chance(1, 2);
        let record = used(&mut trader, ledger, crossing, number);
        let stranger = Record {
            number: alike(&mut trader.rng, base, bits, low),
            ..record.matching_arrival()
        };
        let tries = [
            record,
            record,
            stranger,
            record.matching_arrival(),
            record.matching_arrival(),
        ];
        hand_in_all(&mut trader, &tries);
    }
    trader.journal()
}

fn alike(rng: &mut Rng, base: u64, bits: u32, low: bool) -> u64 {
    let mask = if low {
        (1 << bits) - 1
    } else {
        !(u64::MAX >> bits)
    };
    (base & mask) | (rng.word() & !mask)
}

/// One byte of a record takes each of its 256 values, the rest being lawful.
fn every_value(rng: &mut Rng, place: usize) -> Vec<u8> {
    let opening = Opening::new(&[100_000, 5], &[100_000, 5]);
    let mut trader = Trader::new(opening, Numbers::Counting(0), Rng::new(rng.word()));
    for value in 0..=255 {
        for ledger in Ledger::BOTH {
            let number = trader.fresh_number(ledger);
            let mut bytes = local(ledger, 0, 1, number, 1).bytes();
            bytes[place] = value;
            trader.hand_in(bytes);
        }
    }
    trader.journal()
}

/// Number 0 is a number like any other: nothing passed has it at first.
fn number_zero(rng: &mut Rng) -> Vec<u8> {
    let mut trader = trader(rng);
    for ledger in Ledger::BOTH {
        for amount in [1, 2] {
            trader.hand_in(arrival(ledger, 0, 0, 0, amount).bytes());
        }
        let tries = [
            local(ledger, 0, 0, 0, 1),
            local(ledger, 0, 1, 0, 1),
            sending(ledger, 0, 0, 0, 1),
            arrival(ledger, 0, 0, 0, 1),
            arrival(ledger.other(), 0, 0, 0, 1),
        ];
        hand_in_all(&mut trader, &tries);
    }
    trader.journal()
}

/// Locals from an account to itself around its balance.
fn self_transfers(rng: &mut Rng) -> Vec<u8> {
    let mut trader = trader(rng);
    for _ in 0..12 {
        let ledger = trader.some_ledger();
        let account = trader.account(ledger);
        let balance = trader.book.balance(ledger, account);
        for amount in [
            1,
            balance.saturating_sub(1),
            balance,
            balance + 1,
            MAX_AMOUNT,
        ] {
            let number = trader.fresh_number(ledger);
            trader.hand_in(local(ledger, account, account, number, amount).bytes());
        }
        let receiver = trader.account(ledger);
        let number = trader.fresh_number(ledger);
        trader.hand_in(local(ledger, account, receiver, number, balance).bytes());
    }
    trader.journal()
}

/// Whole balances go from one account to the other and back, so that a
/// receiver's balance that was read too early shows.
fn there_and_back(rng: &mut Rng) -> Vec<u8> {
    let mut trader = trader(rng);
    for _ in 0..20 {
        let ledger = trader.some_ledger();
        let from = trader.account(ledger);
        let to = trader.account(ledger);
        for (sender, receiver) in [(from, to), (to, from), (from, from)] {
            let balance = trader.book.balance(ledger, sender);
            let number = trader.fresh_number(ledger);
            let all = local(ledger, sender, receiver, number, balance.max(1));
            let number = trader.fresh_number(ledger);
            let more = Record {
                number,
                amount: balance + 1,
                ..all
            };
            hand_in_all(&mut trader, &[more, all, all]);
        }
    }
    trader.journal()
}

/// Amounts at their bounds, for each kind of record.
fn amounts(rng: &mut Rng) -> Vec<u8> {
    let mut trader = trader(rng);
    bound_amounts(&mut trader);
    trader.journal()
}

/// The same with a total of exactly 2^63-1, mostly in one account.
fn amounts_at_limit(rng: &mut Rng) -> Vec<u8> {
    let small = rng.below(3);
    let mut home = vec![small, MAX_AMOUNT - 2 * small];
    let mut far = vec![small, 0];
    if rng.chance(1, 2) {
        std::mem::swap(&mut home, &mut far);
    }
    let opening = maybe_charged(rng, |_| Opening::new(&home, &far));
    let mut trader = Trader::new(opening, Numbers::Random, Rng::new(rng.word()));
    bound_amounts(&mut trader);
    trader.journal()
}

fn bound_amounts(trader: &mut Trader) {
    for _ in 0..10 {
        let ledger = trader.some_ledger();
        let sender = trader.account(ledger);
        let receiver = trader.account(ledger);
        let over = trader.account(ledger.other());
        let balance = trader.book.balance(ledger, sender);
        let amounts = [
            0,
            balance + 1,
            balance | 1 << 63,
            (1 << 32) + balance % (1 << 32),
            MAX_AMOUNT,
            MAX_AMOUNT + 1,
            u64::MAX,
            u64::MAX - balance,
            1,
            balance,
        ];
        for amount in amounts {
            let number = trader.fresh_number(ledger);
            let mut tries = [
                local(ledger, sender, receiver, number, amount),
                sending(ledger, sender, over, number, amount),
                arrival(ledger.other(), sender, over, number, amount),
            ];
            if trader.rng.chance(1, 2) {
                tries.swap(0, 1);
            }
            hand_in_all(trader, &tries);
        }
    }
}

/// Account numbers at their bounds, for sender and receiver of each kind.
fn accounts(rng: &mut Rng) -> Vec<u8> {
    let mut trader = trader(rng);
    bound_accounts(&mut trader);
    trader.journal()
}

/// The same with more accounts on one ledger than on the other.
fn accounts_unequal(rng: &mut Rng, larger: Ledger) -> Vec<u8> {
    let opening = maybe_charged(rng, |rng| unequal_opening(rng, larger));
    let mut trader = Trader::new(opening, Numbers::Random, Rng::new(rng.word()));
    bound_accounts(&mut trader);
    trader.journal()
}

fn bound_accounts(trader: &mut Trader) {
    trader.thrifty = true;
    let counts = Ledger::BOTH.map(|ledger| trader.book.accounts(ledger) as u16);
    let mut bounds = vec![
        0, 55, 56, 57, 127, 128, 255, 256, 257, 0x8000, 0xff00, 65_535,
    ];
    for count in counts {
        bounds.extend([count - 1, count, count + 1, 0x100 | (count - 1)]);
    }
    for ledger in Ledger::BOTH {
        for &account in &bounds {
            let number = trader.fresh_number(ledger);
            let tries = [
                local(ledger, account, 0, number, 1),
                local(ledger, 0, account, number, 1),
                sending(ledger, account, 0, number, 1),
                sending(ledger, 0, account, number, 1),
                arrival(ledger, account, 0, number, 1),
                arrival(ledger, 0, account, number, 1),
            ];
            for record in tries {
                let number = trader.fresh_number(ledger);
                trader.hand_in(Record { number, ..record }.bytes());
                trader.hand_in(record.matching_arrival().bytes());
            }
        }
    }
}
