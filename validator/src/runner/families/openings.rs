//! Openings: every account count in either stakes block, totals about 2^63-1
//! and sums that a machine word cannot hold; by U3, every charge account, rates at
//! their bounds, and 52 before and after other faults.

use super::Sample;
use crate::journal::{seal, CHARGE_ACCOUNT, FAR_STAKES, HOME_STAKES, RATE};
use crate::record::{Ledger, MAX_AMOUNT};
use crate::rules::MAX_ACCOUNTS;
use crate::runner::build::{
    any_block, join, journal, local, push_block, sending, set_u16, split, stake_bytes, Block,
    Bytes, Opening,
};
use crate::runner::rng::Rng;
use crate::runner::trader::{any_opening, charged, maybe_charged, Numbers, Trader};

const LIMIT: u64 = MAX_AMOUNT;

pub fn fixed(rng: &mut Rng) -> Vec<Sample> {
    let mut samples = Vec::new();
    for count in (0..=57).chain([58, 63, 64, 128, 255]) {
        for ledger in Ledger::BOTH {
            let name = format!("count_{count}_{ledger:?}").to_lowercase();
            samples.push(Sample::new(name, counted(rng, count, ledger)));
        }
        let both = stakes_journal(count, &[1; MAX_ACCOUNTS], count, &[2; MAX_ACCOUNTS]);
        samples.push(Sample::new(format!("count_{count}_both"), both));
    }
    for (place, (home, far)) in totals().into_iter().enumerate() {
        let opening = Opening::new(&home, &far);
        let swapped = Opening::new(&far, &home);
        samples.push(Sample::new(format!("total_{place}"), with_record(&opening)));
        let name = format!("total_{place}_swapped");
        samples.push(Sample::new(name, with_record(&swapped)));
        let name = format!("total_{place}_block_1_bad");
        samples.push(Sample::new(name, second_block_bad(&opening)));
        let name = format!("total_{place}_block_2_bad");
        samples.push(Sample::new(name, third_block_bad(&opening)));
    }
    charges(&mut samples);
    samples
}

/// Rates and charge accounts, the most that bytes 6-9 can hold among them.
const RATES: [u16; 12] = [
    0, 1, 50, 9_999, 10_000, 10_001, 10_002, 0x1127, 0x7fff, 0x8000, 0xff00, 65_535,
];
const ACCOUNTS: [u16; 9] = [0, 1, 2, 3, 55, 56, 255, 256, 65_535];

/// Every account of the largest ledger and some beyond, and each rate with each
/// account on a small one.
fn charges(samples: &mut Vec<Sample>) {
    let large = Opening::new(&[1_000; MAX_ACCOUNTS], &[5]);
    for account in (0..60).chain([64, 255, 256, 0x3700, 65_535]) {
        let name = format!("charge_account_{account}");
        samples.push(Sample::new(name, with_charge(&large, 2_500, account)));
    }
    let small = Opening::new(&[900, 600, 0], &[5]);
    for rate in RATES {
        for account in ACCOUNTS {
            let name = format!("charge_{rate}_{account}");
            samples.push(Sample::new(name, with_charge(&small, rate, account)));
        }
    }
    let above = Opening::new(&[LIMIT, 0, 0], &[1]);
    for (rate, account) in [(0, 0), (50, 2), (10_001, 0), (0, 3)] {
        let of = |opening: &Opening| with_charge(opening, rate, account);
        let name = |what: &str| format!("charge_{rate}_{account}_{what}");
        samples.push(Sample::new(name("total_above"), of(&above)));
        samples.push(Sample::new(
            name("block_0_alone"),
            of(&small)[..512].to_vec(),
        ));
        samples.push(Sample::new(
            name("block_1_cut_off"),
            of(&small)[..700].to_vec(),
        ));
        let mut bad = of(&small);
        bad[512 + 33] ^= 1;
        samples.push(Sample::new(name("block_1_bad"), bad));
    }
}

/// Any rate and account in block 0, then crossings from each home account and from
/// the one that the charge is paid to, if it is open.
fn with_charge(opening: &Opening, rate: u16, account: u16) -> Vec<u8> {
    let accounts = opening.home.len() as u16;
    let paid = Some(account).filter(|&account| account < accounts);
    let senders = (0..accounts).chain(paid).chain(paid);
    let crossings = (0..)
        .zip(senders)
        .map(|(number, sender)| sending(Ledger::Home, sender, 0, number, 500 + number));
    let records: Vec<Bytes> = crossings
        .flat_map(|over| [over.bytes(), over.matching_arrival().bytes()])
        .collect();
    let mut blocks = split(&journal(opening, &records));
    set_u16(&mut blocks[0], RATE, rate);
    set_u16(&mut blocks[0], CHARGE_ACCOUNT, account);
    seal(&mut blocks[0]);
    join(&blocks)
}

/// A count in one stakes block, with as many stakes as there is room for.
fn counted(rng: &mut Rng, count: u8, ledger: Ledger) -> Vec<u8> {
    let room = usize::from(count).min(MAX_ACCOUNTS);
    let stakes: Vec<u64> = (0..room).map(|_| rng.within(1, 1 << 50)).collect();
    match ledger {
        Ledger::Home => stakes_journal(count, &stakes, 1, &[3]),
        Ledger::Far => stakes_journal(2, &[3, 4], count, &stakes),
    }
}

/// Two stakes blocks with told counts, then a block with one record. Stakes
/// beyond the told count are left away.
fn stakes_journal(home_count: u8, home: &[u64], far_count: u8, far: &[u64]) -> Vec<u8> {
    let mut bytes = join(&[
        stakes_block(0, HOME_STAKES, home_count, home),
        stakes_block(1, FAR_STAKES, far_count, far),
    ]);
    push_block(&mut bytes, &local(Ledger::Home, 0, 0, 1, 1).bytes());
    bytes
}

fn stakes_block(number: u32, kind: u8, count: u8, stakes: &[u64]) -> Block {
    let shown = stakes.len().min(usize::from(count));
    any_block(number, kind, count, &stake_bytes(&stakes[..shown]))
}

/// Stakes with totals about 2^63-1, 2^64 and beyond.
fn totals() -> Vec<(Vec<u64>, Vec<u64>)> {
    let top = u64::MAX;
    let share = LIMIT / 112;
    let mut exact = vec![share; MAX_ACCOUNTS];
    exact[7] += LIMIT - 112 * share;
    let mut above = exact.clone();
    above[55] += 1;
    vec![
        (vec![LIMIT], vec![0]),
        (vec![LIMIT], vec![1]),
        (vec![LIMIT, 0], vec![0]),
        (vec![LIMIT, 1], vec![0]),
        (vec![LIMIT - 1], vec![1]),
        (vec![LIMIT - 1], vec![2]),
        (vec![LIMIT + 1], vec![0]),
        (vec![LIMIT], vec![LIMIT]),
        (vec![LIMIT + 1], vec![LIMIT + 1]),
        (vec![LIMIT + 1, LIMIT + 1], vec![0]),
        (vec![LIMIT + 1, LIMIT + 1], vec![5]),
        (vec![top], vec![0]),
        (vec![top], vec![1]),
        (vec![top, 1], vec![0]),
        (vec![top, 2], vec![7]),
        (vec![top], vec![top]),
        (vec![top, 1, top, 1], vec![top, 1]),
        (vec![top; 56], vec![top; 56]),
        (vec![1 << 63; 56], vec![1 << 63; 56]),
        (vec![1 << 60; 16], vec![0]),
        (vec![1 << 60; 8], vec![0]),
        (vec![1 << 60; 7], vec![(1 << 60) - 1]),
        (vec![0; 56], vec![0; 56]),
        (vec![0], vec![0]),
        (exact.clone(), vec![share; MAX_ACCOUNTS]),
        (above, vec![share; MAX_ACCOUNTS]),
        (exact, vec![share + 1; MAX_ACCOUNTS]),
    ]
}

fn with_record(opening: &Opening) -> Vec<u8> {
    journal(opening, &[local(Ledger::Home, 0, 0, 1, 1).bytes()])
}

/// The fault of block 1 comes before a total that is too high.
fn second_block_bad(opening: &Opening) -> Vec<u8> {
    let mut bytes = with_record(opening);
    bytes[512 + 33] ^= 1;
    bytes
}

/// A total that is too high comes before the fault of block 2.
fn third_block_bad(opening: &Opening) -> Vec<u8> {
    let mut bytes = with_record(opening);
    bytes[1024 + 33] ^= 1;
    bytes
}

pub fn seeded(rng: &mut Rng) -> Vec<u8> {
    match rng.below(5) {
        0 => any_opening_traded(rng),
        4 => any_charge(rng),
        1 => {
            let opening = maybe_charged(rng, wild_opening);
            with_record(&opening)
        }
        2 => near_limit(rng),
        _ => {
            let mut blocks = split(&any_opening_traded(rng));
            let wrong = rng.index(2);
            let count = rng.byte();
            blocks[wrong][5] = count;
            seal(&mut blocks[wrong]);
            join(&blocks)
        }
    }
}

/// A few records on any opening.
fn any_opening_traded(rng: &mut Rng) -> Vec<u8> {
    let opening = maybe_charged(rng, any_opening);
    let mut trader = Trader::new(opening, Numbers::any(rng), Rng::new(rng.word()));
    for _ in 0..20 {
        let ledger = trader.some_ledger();
        if let Some(record) = trader.lawful(ledger) {
            trader.hand_in(record.bytes());
        }
    }
    trader.journal()
}

/// A charge that is right or not, on any opening.
fn any_charge(rng: &mut Rng) -> Vec<u8> {
    let opening = any_opening(rng);
    let right = charged(rng, opening.clone()).charge;
    let any = rng.word() as u16;
    let rate = rng.pick(&[right.rate as u16, right.rate as u16, any, 10_001]);
    let next = opening.home.len() as u16;
    let account = rng.pick(&[right.account as u16, right.account as u16, any, next]);
    with_charge(&opening, rate, account)
}

/// Stakes without regard to their total.
fn wild_opening(rng: &mut Rng) -> Opening {
    let [home, far] = [56, 3].map(|most| wild_stakes(rng, most));
    Opening::new(&home, &far)
}

fn wild_stakes(rng: &mut Rng, most: u64) -> Vec<u64> {
    let count = rng.within(1, most);
    (0..count).map(|_| rng.magnitude(u64::MAX)).collect()
}

/// A total a little below, at or above 2^63-1.
fn near_limit(rng: &mut Rng) -> Vec<u8> {
    let mut opening = maybe_charged(rng, any_opening);
    let sum: u64 = opening.home.iter().chain(&opening.far).sum();
    let wanted = LIMIT - 2 + rng.below(5);
    let last = opening.far.len() - 1;
    opening.far[last] += wanted.saturating_sub(sum);
    with_record(&opening)
}
