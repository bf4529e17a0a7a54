//! The families of calls that are compared. A family makes its calls by
//! scenarios, each from its own generator.

pub mod accounts;
pub mod beyond;
pub mod blocks;
pub mod charges;
pub mod checker;
pub mod forged;
pub mod held;
pub mod looks;
pub mod numbers;
pub mod plain;
pub mod runs;
pub mod sweeps;

use super::Both;
use crate::runner::rng::Rng;
use checker::{Home, Pair};

pub struct Family {
    pub name: &'static str,
    /// Its share of the calls, beside those of the others.
    pub share: u64,
    /// Makes the calls of one scenario.
    pub run: fn(&mut Both, &mut Rng),
}

pub const FAMILIES: [Family; 17] = [
    family("pair_runs", 17, runs::scenario::<Pair>),
    family("home_runs", 13, runs::scenario::<Home>),
    family("pair_forged", 22, forged::scenario::<Pair>),
    family("home_forged", 15, forged::scenario::<Home>),
    family("pair_looks", 3, looks::scenario::<Pair>),
    family("home_looks", 2, looks::scenario::<Home>),
    family("blocks", 10, blocks::scenario),
    family("writes", 3, plain::writes),
    family("records_read", 2, plain::records_read),
    family("records_encoded", 2, plain::records_encoded),
    family("sha256", 1, plain::sha256),
    family("pair_accounts", 8, accounts::scenario::<Pair>),
    family("home_accounts", 5, accounts::scenario::<Home>),
    family("pair_numbers", 8, numbers::scenario::<Pair>),
    family("home_numbers", 5, numbers::scenario::<Home>),
    family("pair_charges", 5, charges::scenario::<Pair>),
    family("home_charges", 5, charges::scenario::<Home>),
];

const fn family(name: &'static str, share: u64, run: fn(&mut Both, &mut Rng)) -> Family {
    Family { name, share, run }
}
