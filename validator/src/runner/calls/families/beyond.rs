//! What stands at and beyond the counts: it must not be looked at, and must be
//! left alone.

use super::checker::{Checker, Reached};
use super::forged::{count, put};
use crate::record::Record;
use crate::rules::CAPACITY;
use crate::runner::build::arrival;
use crate::runner::calls::fields::Fields;
use crate::runner::calls::Both;
use crate::runner::rng::Rng;
use crate::runner::trader::Trader;
use crate::states::HELD;

/// Any words stand at and beyond the counts.
pub(super) fn beyond_the_counts<S: Fields>(rng: &mut Rng, state: &mut S) {
    for ledger in 0..S::LEDGERS {
        let first = ledger * CAPACITY + count(state, ledger);
        let end = (ledger + 1) * CAPACITY;
        for word in &mut state.words_mut()[first * HELD..end * HELD] {
            *word = rng.word();
        }
    }
}

/// Records stand there that would alter answers and figures if they were held:
/// the one that is handed in, the sending or arrival that would match it, and
/// the arrival of a sending in flight.
pub(super) fn tempted<C: Checker>(both: &mut Both, rng: &mut Rng, reached: &mut Reached<C>) {
    beyond_the_counts(rng, &mut *reached.state);
    let record = some_record::<C>(rng, &mut reached.trader);
    let mut tempting = vec![record, record.matching_sending(), record.matching_arrival()];
    tempting.extend(reached.trader.pending.first().map(Record::matching_arrival));
    rng.shuffle(&mut tempting);
    for record in &tempting {
        put_beyond(rng, &mut *reached.state, record);
    }
    C::figures(both, &reached.state);
    reached.hand_in(both, &record.bytes());
    reached.any_list(both);
}

/// A record that mostly passes, or an arrival that nobody has sent.
fn some_record<C: Checker>(rng: &mut Rng, trader: &mut Trader) -> Record {
    let lawful = Record::read(&C::lawful(trader)).expect("a lawful record");
    if !C::sees(lawful.ledger()) || rng.chance(1, 2) {
        return lawful;
    }
    let ledger = lawful.ledger();
    let sender = trader.account(ledger.other());
    let receiver = trader.account(ledger);
    let number = trader.fresh_number(ledger);
    arrival(ledger, sender, receiver, number, 1)
}

/// Writes a record at one to three places beyond the count of its ledger, if
/// the state has that ledger and such places.
fn put_beyond<S: Fields>(rng: &mut Rng, state: &mut S, record: &Record) {
    let ledger = record.ledger().index();
    if ledger >= S::LEDGERS || count(state, ledger) == CAPACITY {
        return;
    }
    let first = ledger * CAPACITY + count(state, ledger);
    let beyond = CAPACITY - count(state, ledger);
    for place in [rng.index(beyond), rng.index(beyond.min(3)), beyond - 1] {
        put(state, first + place, record);
    }
}
