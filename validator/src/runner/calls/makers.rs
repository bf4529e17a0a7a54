//! Openings, records and lists for calls: honest trading, each refusal, near
//! misses of the traps that paper 01 lists, of the numbers that U2 counts and of
//! what U3 charges.

use crate::charge::Charge;
use crate::record::{Kind, Ledger, Record, MAX_AMOUNT, RECORD};
use crate::rules::{Book, MAX_ACCOUNTS};
use crate::runner::build::{
    arrival, local, sending, set_u16, set_u64, Bytes, Opening, AMOUNT, NUMBER, RECEIVER, RESERVED,
    SENDER, VERDICT,
};
use crate::runner::families::faults::{kinds, other_amount, some_faults, spoil, spoil_form};
use crate::runner::rng::Rng;
use crate::runner::trader::{
    any_opening, maybe_charged, most_sent, rich_opening, Numbers, Sharing, Trader,
};
use crate::states::HomeState;

/// Bits from which on numbers differ while those below are alike.
const SHIFTS: [u32; 6] = [8, 11, 12, 16, 32, 63];

/// An opening that is accepted, every other one with a charge.
pub fn lawful_opening(rng: &mut Rng) -> Opening {
    maybe_charged(rng, |rng| match rng.below(8) {
        0 => Opening::of_cases(),
        1 => at_limit(rng, MAX_AMOUNT),
        2 | 3 => any_opening(rng),
        _ => rich_opening(rng),
    })
}

/// Rates that a call can be handed, right or not; some are right in their low bits.
const RATES: [u64; 14] = [
    0,
    1,
    50,
    9_999,
    10_000,
    10_001,
    65_535,
    65_536,
    65_536 + 50,
    1 << 32,
    (1 << 32) + 50,
    1 << 63,
    (1 << 63) + 50,
    u64::MAX,
];

/// A charge that is right or not for so many home accounts, also far outside of 16
/// bits.
pub fn doubtful_charge(rng: &mut Rng, accounts: usize) -> Charge {
    let next = accounts as u64;
    let last = next.saturating_sub(1);
    let any = rng.within(0, last);
    let high = any | rng.pick(&[1 << 16, 1 << 32, 1 << 63]);
    let beyond = rng.pick(&[
        next,
        next + 1,
        56,
        57,
        65_535,
        65_536,
        1 << 32,
        u64::MAX,
        high,
    ]);
    let right = rng.pick(&[0, last, any]);
    Charge {
        rate: if rng.chance(1, 4) {
            0
        } else {
            rng.pick(&RATES)
        },
        account: rng.pick(&[right, right, beyond]),
    }
}

/// An opening that is mostly refused: account counts, totals and charges at their
/// bounds.
pub fn doubtful_opening(rng: &mut Rng) -> Opening {
    let opening = doubtful_stakes(rng);
    let charge = doubtful_charge(rng, opening.home.len());
    if rng.chance(1, 3) {
        return opening;
    }
    Opening { charge, ..opening }
}

fn doubtful_stakes(rng: &mut Rng) -> Opening {
    let top = rng.pick(&[MAX_AMOUNT, MAX_AMOUNT + 1, u64::MAX]);
    if rng.chance(1, 2) {
        return at_limit(rng, top);
    }
    let counts = [0, 1, 2, 55, 56, 57, 58, 112, 300];
    let [home, far] = [rng.pick(&counts), rng.pick(&counts)];
    let most = rng.pick(&[0, 1, 1_000, MAX_AMOUNT / 112, MAX_AMOUNT / 3, u64::MAX]);
    let mut stakes = |count| -> Vec<u64> { (0..count).map(|_| rng.within(0, most)).collect() };
    Opening::new(&stakes(home), &stakes(far))
}

/// Stakes that come to `total` exactly, or to 2^64 more or 1 more.
fn at_limit(rng: &mut Rng, total: u64) -> Opening {
    let small = rng.below(4);
    let mut stakes = vec![small, total - small, 0];
    if total != MAX_AMOUNT {
        stakes[2] = rng.pick(&[0, 1, 2, u64::MAX, 1 << 63]);
    }
    rng.shuffle(&mut stakes);
    let split = rng.within(1, 2) as usize;
    Opening::new(&stakes[..split], &stakes[split..])
}

/// A trader for an accepted opening.
pub fn trader(rng: &mut Rng, opening: Opening) -> Trader {
    let numbers = Numbers::any(rng);
    let mut trader = Trader::new(opening, numbers, Rng::new(rng.word()));
    trader.thrifty = rng.chance(1, 2);
    trader.sharing = Sharing::any(rng);
    trader
}

/// A record for the pair book.
pub fn pair_record(trader: &mut Trader) -> Vec<u8> {
    let ledger = trader.some_ledger();
    match trader.rng.below(20) {
        0..=11 => lawful(trader, ledger).to_vec(),
        12..=14 => spoilt(trader, ledger).to_vec(),
        15..=18 => some_miss(trader, ledger).to_vec(),
        _ => other_length(trader, ledger),
    }
}

/// A record for the guard.
pub fn home_record(trader: &mut Trader, state: &HomeState) -> Vec<u8> {
    far_trades(trader);
    match trader.rng.below(20) {
        0..=7 => lawful(trader, Ledger::Home).to_vec(),
        8..=11 => invented_arrival(trader, state).to_vec(),
        12 | 13 => spoilt(trader, Ledger::Home).to_vec(),
        14..=16 => some_miss(trader, Ledger::Home).to_vec(),
        17 => at_balance(trader, state).to_vec(),
        18 => far_record(trader).to_vec(),
        _ => other_length(trader, Ledger::Home),
    }
}

/// The far ledger trades unseen by the guard.
fn far_trades(trader: &mut Trader) {
    if trader.rng.chance(1, 3) {
        if let Some(record) = trader.lawful(Ledger::Far) {
            trader.try_out(&record.bytes());
        }
    }
}

/// A record of the ledger that the rules pass, or one of the other ledger.
pub fn lawful(trader: &mut Trader, ledger: Ledger) -> Bytes {
    let record = trader
        .lawful(ledger)
        .or_else(|| trader.lawful(ledger.other()))
        .unwrap_or_else(|| trader.aimless(ledger));
    record.bytes()
}

/// A record with one to three faults at once.
pub fn spoilt(trader: &mut Trader, ledger: Ledger) -> Bytes {
    let kind = trader.rng.pick(&kinds(ledger));
    let record = trader
        .lawful_of(kind)
        .or_else(|| trader.lawful(ledger))
        .unwrap_or_else(|| trader.aimless(ledger));
    let faults = some_faults(&mut trader.rng);
    spoil(trader, &record, &faults)
}

/// Bytes that are too few or too many for a record, otherwise right.
fn other_length(trader: &mut Trader, ledger: Ledger) -> Vec<u8> {
    let mut bytes = lawful(trader, ledger).to_vec();
    let any = trader.rng.index(RECORD);
    let length = trader.rng.pick(&[0, 1, any, 24, 25, 31, 33, 40, 64]);
    bytes.resize(length, 0);
    bytes
}

fn some_miss(trader: &mut Trader, ledger: Ledger) -> Bytes {
    if trader.book.charge().rate > 0 && trader.rng.chance(1, 4) {
        charge_miss(trader)
    } else if trader.rng.chance(2, 5) {
        class_miss(trader, ledger)
    } else {
        near_miss(trader, ledger)
    }
}

/// A record that comes near to a trap of the paper.
pub fn near_miss(trader: &mut Trader, ledger: Ledger) -> Bytes {
    match trader.rng.below(10) {
        0 | 1 => near_arrival(trader, ledger),
        2 => number_zero(trader, ledger).bytes(),
        3 => low_bits_alike(trader, ledger),
        4 => self_transfer(trader, ledger).bytes(),
        5 => bound_amount(trader, ledger).bytes(),
        6 => stranding(trader, ledger),
        7 => once_more(trader, ledger),
        8 => byte_wrong(trader, ledger),
        _ => trader.aimless(ledger).bytes(),
    }
}

/// An arrival that agrees with a pending sending in all but one thing, its
/// number mostly alike.
fn near_arrival(trader: &mut Trader, ledger: Ledger) -> Bytes {
    let Some(right) = trader
        .lawful_arrival(ledger)
        .or_else(|| trader.lawful_arrival(ledger.other()))
    else {
        return lawful(trader, ledger);
    };
    let mut bytes = right.bytes();
    match trader.rng.below(7) {
        0 => set_u64(&mut bytes, AMOUNT, other_amount(right.amount, true)),
        1 => set_u64(&mut bytes, AMOUNT, other_amount(right.amount, false)),
        2 => {
            let account = trader.account(right.sender_ledger());
            set_u16(&mut bytes, SENDER, account);
        }
        3 => {
            let account = trader.account(right.receiver_ledger());
            set_u16(&mut bytes, RECEIVER, account);
        }
        4 => {
            let bit = trader.rng.below(64);
            set_u64(&mut bytes, NUMBER, right.number ^ (1 << bit));
        }
        5 => {
            set_u16(&mut bytes, SENDER, right.receiver);
            set_u16(&mut bytes, RECEIVER, right.sender);
        }
        _ => bytes[1] = right.ledger().other().byte(),
    }
    bytes
}

/// Number 0, used or not.
fn number_zero(trader: &mut Trader, ledger: Ledger) -> Record {
    let record = match trader.rng.below(3) {
        0 => trader.lawful_sending(ledger),
        1 => trader.lawful_local(ledger),
        _ => Some(arrival(ledger, 0, 0, 0, 1)),
    };
    let record = record.unwrap_or_else(|| local(ledger, 0, 0, 0, 1));
    Record {
        number: 0,
        ..record
    }
}

/// A number that agrees with a used one in its low bits.
fn low_bits_alike(trader: &mut Trader, ledger: Ledger) -> Bytes {
    let used = trader.used_number(ledger).unwrap_or(0);
    let shift = trader.rng.pick(&SHIFTS);
    let times = trader.rng.within(1, 3);
    let mut bytes = lawful(trader, ledger);
    set_u64(&mut bytes, NUMBER, used.wrapping_add(times << shift));
    bytes
}

/// A local from an account to itself, around its balance.
fn self_transfer(trader: &mut Trader, ledger: Ledger) -> Record {
    let account = trader.account(ledger);
    let balance = trader.book.balance(ledger, account);
    let number = trader.fresh_number(ledger);
    let amount = trader.rng.pick(&[1, balance, balance + 1, MAX_AMOUNT]);
    local(ledger, account, account, number, amount)
}

/// Amounts at the bounds of the form and of the sender's balance.
fn bound_amount(trader: &mut Trader, ledger: Ledger) -> Record {
    let sender = trader.account(ledger);
    let balance = trader.book.balance(ledger, sender);
    let amounts = [
        0,
        1,
        balance,
        balance + 1,
        MAX_AMOUNT,
        MAX_AMOUNT + 1,
        u64::MAX,
        balance | 1 << 63,
    ];
    let amount = trader.rng.pick(&amounts);
    let number = trader.fresh_number(ledger);
    let here = trader.account(ledger);
    let there = trader.account(ledger.other());
    match trader.rng.below(3) {
        0 => local(ledger, sender, here, number, amount),
        1 => sending(ledger, sender, there, number, amount),
        _ => arrival(ledger, there, here, number, amount),
    }
}

/// A home sending, now and then a local, for which the sender has just enough or
/// one too few, by the amount alone or with its charge. The sender is often the
/// charge account.
pub fn charge_miss(trader: &mut Trader) -> Bytes {
    let ledger = Ledger::Home;
    let charged = trader.book.charge().account as u16;
    let any = trader.account(ledger);
    let sender = trader.rng.pick(&[charged, any]);
    let receiver = trader.account(ledger.other());
    let number = trader.fresh_number(ledger);
    let balance = trader.book.balance(ledger, sender);
    let most = trader.most_sent(ledger, sender);
    let amounts = [most, most + 1, most + 1, balance, balance + 1];
    let amount = trader.rng.pick(&amounts).clamp(1, MAX_AMOUNT);
    if trader.rng.chance(1, 8) {
        return local(ledger, sender, charged, number, amount).bytes();
    }
    sending(ledger, sender, receiver, number, amount).bytes()
}

/// A record under a number that its ledger, or the other one, has met.
pub fn class_miss(trader: &mut Trader, ledger: Ledger) -> Bytes {
    match trader.rng.below(6) {
        0 => under_arrival(trader, ledger),
        1 => arrival_again(trader, ledger),
        2 => number_again(trader, ledger),
        3 => stranding(trader, ledger),
        4 => arrival_alike(trader, ledger),
        _ => arrival_unsent(trader, ledger),
    }
}

/// Some record passed on the ledger, an arrival or one of the others.
fn some_passed(trader: &mut Trader, ledger: Ledger, arrival: bool) -> Option<Record> {
    let alike: Vec<Record> = trader.passed[ledger.index()]
        .iter()
        .copied()
        .filter(|passed| passed.kind.is_arrival() == arrival)
        .collect();
    (!alike.is_empty()).then(|| trader.rng.pick(&alike))
}

/// A local or sending that the rules would pass under a fresh number.
fn local_or_sending(trader: &mut Trader, ledger: Ledger) -> Option<Record> {
    if trader.rng.chance(1, 2) {
        trader.lawful_local(ledger)
    } else {
        trader.lawful_sending(ledger)
    }
}

/// A local or sending under the number of an arrival that passed here.
fn under_arrival(trader: &mut Trader, ledger: Ledger) -> Bytes {
    let passed = some_passed(trader, ledger, true);
    match (passed, local_or_sending(trader, ledger)) {
        (Some(Record { number, .. }), Some(record)) => Record { number, ..record }.bytes(),
        _ => lawful(trader, ledger),
    }
}

/// An arrival that passed here once more, as it was or with another amount.
fn arrival_again(trader: &mut Trader, ledger: Ledger) -> Bytes {
    let Some(mut record) = some_passed(trader, ledger, true) else {
        return lawful(trader, ledger);
    };
    if trader.rng.chance(1, 3) {
        record.amount = other_amount(record.amount, true);
    }
    record.bytes()
}

/// A local or sending under the number of one that passed here, alike or not.
fn number_again(trader: &mut Trader, ledger: Ledger) -> Bytes {
    let passed = some_passed(trader, ledger, false);
    match (passed, local_or_sending(trader, ledger)) {
        (Some(Record { number, .. }), Some(record)) => Record { number, ..record }.bytes(),
        _ => lawful(trader, ledger),
    }
}

/// An arrival with all that a record of the other ledger has which is mostly not
/// its sending but a local or an arrival.
fn arrival_alike(trader: &mut Trader, ledger: Ledger) -> Bytes {
    let arrived = trader.rng.chance(2, 3);
    let Some(other) = some_passed(trader, ledger.other(), arrived) else {
        return lawful(trader, ledger);
    };
    let kind = Kind::Arrival(ledger);
    Record { kind, ..other }.bytes()
}

/// An arrival under the number of a local or sending that passed here. Mostly
/// nobody has sent it.
fn arrival_unsent(trader: &mut Trader, ledger: Ledger) -> Bytes {
    let Some(Record { number, .. }) = some_passed(trader, ledger, false) else {
        return lawful(trader, ledger);
    };
    let sender = trader.account(ledger.other());
    let receiver = trader.account(ledger);
    arrival(ledger, sender, receiver, number, 1).bytes()
}

/// A local under the number of a sending whose arrival is due here.
fn stranding(trader: &mut Trader, ledger: Ledger) -> Bytes {
    let due = trader.lawful_arrival(ledger);
    match (due, trader.lawful_local(ledger)) {
        (Some(Record { number, .. }), Some(local)) => Record { number, ..local }.bytes(),
        _ => lawful(trader, ledger),
    }
}

/// A record that passed already, or another under its number.
fn once_more(trader: &mut Trader, ledger: Ledger) -> Bytes {
    let passed = &trader.passed[ledger.index()];
    if passed.is_empty() {
        return lawful(trader, ledger);
    }
    let record = trader.rng.pick(passed);
    if trader.rng.chance(1, 2) {
        return record.bytes();
    }
    let mut bytes = lawful(trader, ledger);
    set_u64(&mut bytes, NUMBER, record.number);
    bytes
}

/// A lawful record with one byte that is not.
fn byte_wrong(trader: &mut Trader, ledger: Ledger) -> Bytes {
    let mut bytes = lawful(trader, ledger);
    match trader.rng.below(5) {
        0 => bytes[VERDICT] = 0,
        1 => bytes[VERDICT] = 2,
        2 => {
            let place = trader.rng.pick(&RESERVED);
            bytes[place] = trader.rng.within(1, 255) as u8;
        }
        3 => bytes[0] = trader.rng.pick(&[0, 4, 255]),
        _ => bytes[1] = trader.rng.pick(&[2, 255]),
    }
    bytes
}

/// An arrival at home that the far ledger makes up, around the far due.
fn invented_arrival(trader: &mut Trader, state: &HomeState) -> Bytes {
    let number = invented_number(trader);
    let sender = trader.account(Ledger::Far);
    let receiver = trader.account(Ledger::Home);
    let due = state.pool();
    let amount = match trader.rng.below(8) {
        0 => due,
        1 => due.saturating_add(1),
        2 => trader.rng.pick(&[0, MAX_AMOUNT, MAX_AMOUNT + 1]),
        3 => 1,
        _ => trader.rng.magnitude(due.max(1)),
    };
    arrival(Ledger::Home, sender, receiver, number, amount).bytes()
}

/// A number for such an arrival: fresh, or one that a record of home has.
fn invented_number(trader: &mut Trader) -> u64 {
    let shared = trader.rng.chance(1, 3);
    shared
        .then(|| trader.shared_number(Ledger::Home, true))
        .flatten()
        .unwrap_or_else(|| trader.fresh_number(Ledger::Home))
}

/// A list for the guard in which the far due goes up by sendings and down to
/// nothing, or by one too much.
pub fn due_list(trader: &mut Trader, state: &HomeState) -> Vec<u8> {
    let mut bytes = Vec::new();
    let mut due = state.pool();
    for _ in 0..trader.rng.below(3) {
        if let Some(sent) = trader.lawful_sending(Ledger::Home) {
            trader.try_out(&sent.bytes());
            due = due.saturating_add(sent.amount);
            bytes.extend(sent.bytes());
        }
    }
    let first = trader.rng.within(0, due);
    let over = trader.rng.below(2);
    for amount in [first, (due - first).saturating_add(over)] {
        if amount > 0 {
            let number = invented_number(trader);
            let sender = trader.account(Ledger::Far);
            let receiver = trader.account(Ledger::Home);
            bytes.extend(arrival(Ledger::Home, sender, receiver, number, amount).bytes());
        }
    }
    bytes
}

/// A home record around the balance that stands in the state.
fn at_balance(trader: &mut Trader, state: &HomeState) -> Bytes {
    let sender = trader.account(Ledger::Home);
    let balance = state.balances(0)[usize::from(sender) % MAX_ACCOUNTS];
    let kind = trader
        .rng
        .pick(&[Kind::Local(Ledger::Home), Kind::Sending(Ledger::Home)]);
    let most = match kind {
        Kind::Sending(ledger) => most_sent(trader.book.charge(), ledger, balance),
        _ => balance,
    };
    let amounts = [most, most, most.saturating_add(1), balance, 1];
    let amount = trader.rng.pick(&amounts);
    let number = trader.fresh_number(Ledger::Home);
    let record = Record {
        kind,
        sender,
        receiver: 0,
        number,
        amount,
        good: true,
    };
    record.bytes()
}

/// A far record, right or with some fault, also one that does not read.
fn far_record(trader: &mut Trader) -> Bytes {
    match trader.rng.below(3) {
        0 => lawful(trader, Ledger::Far),
        1 => spoilt(trader, Ledger::Far),
        _ => {
            let mut bytes = lawful(trader, Ledger::Far);
            bytes[1] = Ledger::Far.byte();
            spoil_form(&mut trader.rng, &mut bytes);
            bytes
        }
    }
}

/// The length of a list, mostly short.
fn list_length(rng: &mut Rng) -> u64 {
    let longer = rng.within(1, 30);
    rng.pick(&[0, 1, 1, 2, 2, 3, 3, 4, 5, 8, 14, longer])
}

/// A list of records for which the trader goes along. Mostly lawful ones;
/// in some lists one record is of any sort, in some there is a short rest.
pub fn list(
    trader: &mut Trader,
    lawful: impl Fn(&mut Trader) -> Bytes,
    any: impl Fn(&mut Trader) -> Vec<u8>,
) -> Vec<u8> {
    let length = list_length(&mut trader.rng);
    let odd = trader
        .rng
        .chance(2, 5)
        .then(|| trader.rng.below(length + 1));
    let mut bytes = Vec::new();
    for place in 0..length {
        if odd == Some(place) {
            // A record of another length would shift those after it.
            let mut record = any(trader);
            record.resize(RECORD, 0);
            bytes.extend(record);
        } else {
            bytes.extend(lawful(trader));
        }
        let last: Bytes = bytes[bytes.len() - RECORD..].try_into().expect("32 bytes");
        trader.try_out(&last);
    }
    if trader.rng.chance(1, 8) {
        let rest = lawful(trader);
        let length = trader.rng.within(1, 31) as usize;
        bytes.extend(&rest[..length]);
    }
    bytes
}

/// The trader as it was before a refused list, with new luck.
pub fn take_back(trader: &mut Trader, before: Trader) {
    let rng = trader.rng.clone();
    *trader = before;
    trader.rng = rng;
}
