//! The library as a part.

use super::Part;
use crate::answer::Answer;
use crate::charge::Charge;
use crate::journal::{self, Stakes};
use crate::record::{self, Held, RECORD};
use crate::sha256;
use crate::states::{HomeState, PairState};

/// The calls as this library answers them.
#[derive(Clone, Copy, Debug, Default)]
pub struct Oracle;

impl Part for Oracle {
    fn pair_open(
        &mut self,
        home: &[u64],
        far: &[u64],
        rate: u64,
        charge_account: u64,
    ) -> (Answer, Box<PairState>) {
        PairState::open(home, far, Charge::new(rate, charge_account))
    }

    fn pair_check_record(&mut self, state: &PairState, bytes: &[u8]) -> (Answer, Box<PairState>) {
        let mut state = Box::new(state.clone());
        (state.check_record(bytes), state)
    }

    fn pair_check_list(&mut self, state: &PairState, bytes: &[u8]) -> (Answer, Box<PairState>) {
        let mut state = Box::new(state.clone());
        (state.check_list(bytes), state)
    }

    fn pair_take(&mut self, state: &mut PairState, bytes: &[u8]) -> Answer {
        state.check_record(bytes)
    }

    fn pair_take_list(&mut self, state: &mut PairState, bytes: &[u8]) -> Answer {
        state.check_list(bytes)
    }

    fn pair_figures(&mut self, state: &PairState) -> (Answer, [u64; 3]) {
        state.figures()
    }

    fn pair_balance(&mut self, state: &PairState, ledger: u8, account: u16) -> (Answer, u64) {
        state.balance(ledger, account)
    }

    fn pair_places_left(&mut self, state: &PairState) -> (Answer, [u64; 2]) {
        state.places_left()
    }

    fn home_open(
        &mut self,
        home: &[u64],
        fars: usize,
        far_total: u64,
        rate: u64,
        charge_account: u64,
    ) -> (Answer, Box<HomeState>) {
        HomeState::open(home, fars, far_total, Charge::new(rate, charge_account))
    }

    fn home_check_record(&mut self, state: &HomeState, bytes: &[u8]) -> (Answer, Box<HomeState>) {
        let mut state = Box::new(state.clone());
        (state.check_record(bytes), state)
    }

    fn home_check_list(&mut self, state: &HomeState, bytes: &[u8]) -> (Answer, Box<HomeState>) {
        let mut state = Box::new(state.clone());
        (state.check_list(bytes), state)
    }

    fn home_take(&mut self, state: &mut HomeState, bytes: &[u8]) -> Answer {
        state.check_record(bytes)
    }

    fn home_take_list(&mut self, state: &mut HomeState, bytes: &[u8]) -> Answer {
        state.check_list(bytes)
    }

    fn home_figures(&mut self, state: &HomeState) -> (Answer, [u64; 2]) {
        state.figures()
    }

    fn home_balance(&mut self, state: &HomeState, account: u16) -> (Answer, u64) {
        state.balance(account)
    }

    fn home_places_left(&mut self, state: &HomeState) -> (Answer, u64) {
        state.places_left()
    }

    fn record_read(&mut self, bytes: &[u8]) -> (Answer, Held) {
        record::record_read(bytes)
    }

    fn record_encode(&mut self, fields: &Held) -> (Answer, [u8; RECORD]) {
        record::record_encode(fields)
    }

    fn block_judge(&mut self, block: &[u8], number: u64, before: u64) -> Answer {
        journal::judge_block(block, number, before)
    }

    fn block_judge_record(&mut self, block: &[u8], number: u64, before: u64, place: u64) -> Answer {
        journal::judge_place(block, number, before, place)
    }

    fn block_record(
        &mut self,
        block: &[u8],
        number: u64,
        before: u64,
        place: u64,
    ) -> (Answer, [usize; 2]) {
        journal::block_record(block, number, before, place)
    }

    fn block_count(&mut self, block: &[u8], number: u64, before: u64) -> (Answer, u64) {
        journal::block_count(block, number, before)
    }

    fn block_balances(&mut self, block: &[u8], number: u64, before: u64) -> (Answer, Stakes) {
        journal::block_balances(block, number, before)
    }

    fn block_write(
        &mut self,
        output: &mut [u8],
        number: u64,
        kind: u8,
        rate: u64,
        charge_account: u64,
        items: &[u8],
    ) -> Answer {
        let charge = Charge::new(rate, charge_account);
        journal::write_block(number, kind, charge, items, output)
    }

    fn sha256(&mut self, bytes: &[u8]) -> [u8; 32] {
        sha256::digest(bytes)
    }
}
