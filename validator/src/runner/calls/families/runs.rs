//! Runs from random openings, refused ones too: single records and lists,
//! honest trading with every refusal and near miss, tables filled to 512 and
//! beyond.

use super::checker::{full, Checker, Reached};
use crate::charge::Charge;
use crate::record::{Ledger, Record};
use crate::runner::build::{local, sending, Opening};
use crate::runner::calls::makers::{doubtful_opening, lawful_opening};
use crate::runner::calls::{Both, Part};
use crate::runner::rng::Rng;

pub fn scenario<C: Checker>(both: &mut Both, rng: &mut Rng) {
    match rng.below(8) {
        0 => refused_openings::<C>(both, rng),
        1 if rng.chance(1, 2) => cases::<C>(both),
        2 => {
            let base = full::<C>(both, rng);
            base.branch(rng).count_down(both, 8);
            for _ in 0..6 {
                base.branch(rng).go_on(both, 16);
            }
        }
        _ => {
            let opening = lawful_opening(rng);
            let calls = rng.within(5, 100);
            Reached::<C>::open(both, rng, opening).go_on(both, calls);
        }
    }
}

/// Openings that are mostly refused, and calls on what they hand back.
fn refused_openings<C: Checker>(both: &mut Both, rng: &mut Rng) {
    for _ in 0..10 {
        let opening = doubtful_opening(rng);
        let (answer, state) = C::open(both, &opening);
        if !answer.passed() && rng.chance(1, 6) {
            C::check_record(both, &state, &local(Ledger::Home, 0, 0, 1, 1).bytes());
            C::check_list(both, &state, &[]);
            C::figures(both, &state);
            C::balance(both, &state, 0, 0);
            C::places_left(both, &state);
        }
        let fars = rng.pick(&[1, 1, 56, 0, 57, usize::MAX]);
        let total = rng.pick(&[0, 1, (1 << 63) - 1, 1 << 63, u64::MAX]);
        let Charge { rate, account } = opening.charge;
        both.home_open(&opening.home, fars, total, rate, account);
    }
}

/// The cases of the paper, one after the other from its opening.
fn cases<C: Checker>(both: &mut Both) {
    let home = Ledger::Home;
    let over = sending(home, 0, 0, 7, 30);
    let unsigned = Record {
        good: false,
        ..over
    };
    let records = [
        over,
        over.matching_arrival(),
        over.matching_arrival(),
        unsigned,
        Record { amount: 31, ..over }.matching_arrival(),
        local(home, 1, 0, 1, 51),
        local(home, 1, 0, 1, 50),
        local(home, 0, 0, 2, 120),
        local(home, 0, 0, 3, 121),
        local(home, 2, 0, 4, 1),
        local(home, 0, 0, 5, 0),
        local(home, 0, 0, 5, (1 << 63) - 1),
        local(home, 0, 0, 5, 1 << 63),
    ];
    let (_, mut state) = C::open(both, &Opening::of_cases());
    for record in records {
        state = C::check_record(both, &state, &record.bytes()).1;
        C::figures(both, &state);
        C::places_left(both, &state);
    }
}
