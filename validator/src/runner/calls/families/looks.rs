//! Figures, balances and the places left of states that a run has reached, and
//! of the state of zeros; the places also after each of some more records, down
//! to full tables.

use super::checker::{full, reached, Checker};
use crate::runner::build::Opening;
use crate::runner::calls::Both;
use crate::runner::rng::Rng;

pub fn scenario<C: Checker>(both: &mut Both, rng: &mut Rng) {
    let mut reached = if rng.chance(1, 3) {
        full::<C>(both, rng)
    } else {
        reached::<C>(both, rng)
    };
    for _ in 0..20 {
        reached.look(both);
    }
    reached.count_down(both, 6);
    if rng.chance(1, 2) {
        zeros::<C>(both);
    }
}

/// The state that a refused opening hands back.
fn zeros<C: Checker>(both: &mut Both) {
    let (_, state) = C::open(both, &Opening::new(&[], &[]));
    C::figures(both, &state);
    C::balance(both, &state, 0, 0);
    C::places_left(both, &state);
}
