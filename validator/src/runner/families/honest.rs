//! Honest trading: any opening, half of them with a charge, mostly records that
//! pass.

use super::Sample;
use crate::record::{Ledger, MAX_AMOUNT};
use crate::runner::build::{arrival, journal, local, sending, Bytes, Opening};
use crate::runner::rng::Rng;
use crate::runner::trader::{any_opening, maybe_charged, Numbers, Sharing, Trader};

/// Rates at their bounds and in between.
pub const RATES: [u64; 8] = [0, 1, 50, 3_333, 5_000, 6_667, 9_999, 10_000];

/// The records of the paper's listing.
pub fn sample_records() -> Vec<Bytes> {
    use Ledger::{Far, Home};
    let back = arrival(Home, 0, 1, 8, 45);
    [
        sending(Home, 0, 0, 7, 30),
        arrival(Far, 0, 0, 7, 30),
        sending(Far, 0, 1, 8, 45),
        back,
        back,
    ]
    .iter()
    .map(|record| record.bytes())
    .collect()
}

pub fn fixed(_rng: &mut Rng) -> Vec<Sample> {
    let cases = Opening::of_cases();
    let mut samples = vec![
        Sample::new("sample", journal(&cases, &sample_records())),
        Sample::new("no_records", journal(&cases, &[])),
        Sample::new("whole_total_moves", whole_total_moves()),
    ];
    for rate in RATES {
        for account in 0..2 {
            let opening = Opening::of_cases().charged(rate, account);
            let name = format!("sample_charged_{rate}_{account}");
            samples.push(Sample::new(name, journal(&opening, &sample_records())));
        }
    }
    samples
}

/// A total of 2^63-1 goes round: local, sending, arrival, and back.
fn whole_total_moves() -> Vec<u8> {
    use Ledger::{Far, Home};
    let all = MAX_AMOUNT;
    let records: Vec<Bytes> = [
        local(Home, 0, 1, 0, all),
        local(Home, 1, 1, 1, all),
        sending(Home, 1, 0, 2, all),
        arrival(Far, 1, 0, 2, all),
        local(Far, 0, 0, 3, all),
        sending(Far, 0, 0, u64::MAX, all),
        arrival(Home, 0, 0, u64::MAX, all),
    ]
    .iter()
    .map(|record| record.bytes())
    .collect();
    journal(&Opening::new(&[all, 0], &[0]), &records)
}

pub fn seeded(rng: &mut Rng) -> Vec<u8> {
    let opening = maybe_charged(rng, any_opening);
    let numbers = Numbers::any(rng);
    let length = match rng.below(20) {
        0 => 1_400,
        1..=4 => rng.below(400),
        _ => rng.below(60),
    };
    let mut trader = Trader::new(opening, numbers, rng.clone());
    trader.thrifty = trader.rng.chance(1, 3);
    trader.sharing = Sharing::any(&mut trader.rng);
    for _ in 0..length {
        let ledger = trader.some_ledger();
        let aimless = trader.rng.chance(1, 15);
        let record = match trader.lawful(ledger) {
            Some(record) if !aimless => record,
            _ => trader.aimless(ledger),
        };
        trader.hand_in(record.bytes());
    }
    trader.journal()
}
