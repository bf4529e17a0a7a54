//! Paper 02, U2: what both ledgers hold under a number, each way in turn, and
//! each kind of record handed in under it, alone and after the same within one
//! list; tables full of numbers that both classes have; and held records that
//! share a number, each two kinds in turn. The numbers of a scenario often agree
//! in their low bits.

use super::checker::{Checker, Reached};
use super::forged::{call, held_entry, put, some_ledger, steps, under_number};
use super::forged::{ARRIVAL, LOCAL, SENDING};
use super::held::{add, mend};
use crate::record::{Kind, Ledger, Record};
use crate::rules::{Book, CAPACITY};
use crate::runner::build::{arrival, local, sending, Bytes};
use crate::runner::calls::fields::{Field, Fields};
use crate::runner::calls::Both;
use crate::runner::rng::Rng;
use crate::runner::trader::{maybe_charged, rich_opening, Numbers, Sharing};
use crate::states::HELD;

/// The steps that a scenario goes on through the probes of what is held, and
/// through the held records that share a number.
const PROBED: u64 = 16;
const SHARED: u64 = 5;

pub fn scenario<C: Checker>(both: &mut Both, rng: &mut Rng) {
    let mut base = open::<C>(both, rng);
    let cells = hand_in_cells(both, rng, &mut base);
    let probes = probes::<C>();
    for step in steps(both.scenario(), PROBED) {
        let probe = probes[(step % probes.len() as u64) as usize];
        hand_in_probe(both, rng, &base, probe, &cells);
    }
    for step in steps(both.scenario(), SHARED) {
        shared(both, rng, &base, step);
    }
    base.trader.sharing = Sharing::Often;
    base.branch(rng).go_on(both, 6);
    if both.scenario().is_multiple_of(3) {
        fill(both, &mut base);
        for _ in 0..5 {
            let probe = rng.pick(&probes);
            hand_in_probe(both, rng, &base, probe, &cells);
        }
        once_more(both, rng, &base);
        let step = rng.below(9);
        shared(both, rng, &base, step);
        base.branch(rng).go_on(both, 6);
    }
}

/// An opening with credit, and a trader whose numbers are all different. In
/// every other scenario their low 12 bits are alike.
fn open<C: Checker>(both: &mut Both, rng: &mut Rng) -> Reached<C> {
    let opening = maybe_charged(rng, rich_opening);
    let mut base = Reached::<C>::open(both, rng, opening);
    base.trader.thrifty = true;
    base.trader.sharing = Sharing::Never;
    base.trader.numbers = match both.scenario() % 2 {
        0 => Numbers::LowBitsAlike {
            base: rng.word(),
            shift: 12,
        },
        _ => Numbers::any_wide(rng),
    };
    base
}

/// What the ledgers hold under a number.
#[derive(Clone, Copy)]
struct Cell {
    number: u64,
    /// A local or a sending of home and of far.
    taken: [Option<Kind>; 2],
    /// An arrival at home and at far; the other ledger has its sending.
    arrived: [bool; 2],
    /// The sender, receiver and amount of what home and far send.
    crossings: [(u16, u16, u64); 2],
}

/// The ways in which a number can be held: none, a local or a sending on each
/// ledger, and arrivals of what was sent.
fn ways() -> Vec<([Option<Kind>; 2], [bool; 2])> {
    let kinds = |ledger| [None, Some(Kind::Local(ledger)), Some(Kind::Sending(ledger))];
    let mut ways = Vec::new();
    for home in kinds(Ledger::Home) {
        for far in kinds(Ledger::Far) {
            for arrived in [[false, false], [true, false], [false, true], [true, true]] {
                let sent = [far, home].map(|kind| matches!(kind, Some(Kind::Sending(_))));
                if (0..2).all(|ledger| sent[ledger] || !arrived[ledger]) {
                    ways.push(([home, far], arrived));
                }
            }
        }
    }
    ways
}

impl Cell {
    /// A cell with luck of its own; the two crossings are often alike.
    fn new(rng: &mut Rng, number: u64, way: usize) -> Cell {
        let (taken, arrived) = ways()[way];
        let mut some = || (rng.below(2) as u16, rng.below(2) as u16, rng.within(1, 2));
        let [over, back] = [some(), some()];
        let back = if rng.chance(1, 2) { over } else { back };
        Cell {
            number,
            taken,
            arrived,
            crossings: [over, back],
        }
    }

    fn record(&self, kind: Kind, crossing: (u16, u16, u64)) -> Record {
        let (sender, receiver, amount) = crossing;
        Record {
            kind,
            ..local(Ledger::Home, sender, receiver, self.number, amount)
        }
    }

    /// The arrival of what the other ledger sends.
    fn arrival(&self, ledger: Ledger) -> Record {
        let sent = self.crossings[ledger.other().index()];
        self.record(Kind::Arrival(ledger), sent)
    }

    /// The records that bring the cell about, in an order in which they pass.
    fn records(&self, rng: &mut Rng) -> Vec<Record> {
        let mut records = Vec::new();
        for ledger in Ledger::BOTH {
            let crossing = self.crossings[ledger.index()];
            records.extend(self.taken[ledger.index()].map(|kind| self.record(kind, crossing)));
            records.extend(self.arrived[ledger.index()].then(|| self.arrival(ledger)));
        }
        let order = rng.below(3);
        records.sort_by_key(|record| match (order, record.kind) {
            (0, Kind::Local(_) | Kind::Sending(_)) => 0,
            (0, Kind::Arrival(_)) => 1,
            // One crossing after the other, locals first or last.
            (1, Kind::Local(_)) => 0,
            (_, Kind::Local(_)) => 5,
            (_, Kind::Sending(ledger)) => 1 + 2 * ledger.index(),
            (_, Kind::Arrival(ledger)) => 2 + 2 * ledger.other().index(),
        });
        records
    }
}

/// Brings every cell about by one list. The cells.
fn hand_in_cells<C: Checker>(both: &mut Both, rng: &mut Rng, base: &mut Reached<C>) -> Vec<Cell> {
    let mut cells = Vec::new();
    let mut records = Vec::new();
    for way in 0..ways().len() {
        let number = base.trader.fresh_number(Ledger::Home);
        let cell = Cell::new(rng, number, way);
        records.extend(cell.records(rng));
        cells.push(cell);
    }
    base.hand_in_list(both, &records);
    cells
}

/// Records that are handed in under the number of a cell.
#[derive(Clone, Copy)]
struct Probe {
    cell: usize,
    ledger: Ledger,
    sort: Sort,
}

#[derive(Clone, Copy, PartialEq, Eq)]
enum Sort {
    Local,
    Sending,
    /// The arrival of what the other ledger sends, if it does.
    Arrival,
    /// An arrival with the other ledger's own crossing in place of that, which
    /// may be held there as an arrival, and one of another amount.
    NearArrival,
}

/// Every probe of the ledgers that the checker sees.
fn probes<C: Checker>() -> Vec<Probe> {
    let mut probes = Vec::new();
    for ledger in Ledger::BOTH.into_iter().filter(|&ledger| C::sees(ledger)) {
        for cell in 0..ways().len() {
            let sorts = [Sort::Local, Sort::Sending, Sort::Arrival, Sort::NearArrival];
            probes.extend(sorts.map(|sort| Probe { cell, ledger, sort }));
        }
    }
    probes
}

impl Probe {
    fn records(self, cell: &Cell) -> Vec<Record> {
        let Probe { ledger, sort, .. } = self;
        let right = cell.arrival(ledger);
        match sort {
            Sort::Local => vec![local(ledger, 0, 0, cell.number, 1)],
            Sort::Sending => vec![sending(ledger, 0, 0, cell.number, 1)],
            Sort::Arrival => vec![right],
            Sort::NearArrival => {
                let alike = cell.record(right.kind, cell.crossings[ledger.index()]);
                let amount = right.amount + 2;
                vec![alike, Record { amount, ..right }]
            }
        }
    }
}

/// A probe of a cell that is held, and of such a cell of a new number, all in one
/// list.
fn hand_in_probe<C: Checker>(
    both: &mut Both,
    rng: &mut Rng,
    base: &Reached<C>,
    probe: Probe,
    cells: &[Cell],
) {
    for record in probe.records(&cells[probe.cell]) {
        C::check_record(both, &base.state, &record.bytes());
    }
    within_list(both, base.branch(rng), probe);
}

fn within_list<C: Checker>(both: &mut Both, mut reached: Reached<C>, probe: Probe) {
    let number = reached.trader.fresh_number(Ledger::Home);
    let rng = &mut reached.trader.rng;
    let cell = Cell::new(rng, number, probe.cell);
    let mut records = cell.records(rng);
    let probes = probe.records(&cell);
    records.push(rng.pick(&probes));
    let seen = records.iter().filter(|record| C::sees(record.ledger()));
    let bytes: Vec<Bytes> = seen.map(Record::bytes).collect();
    C::check_list(both, &reached.state, &bytes.concat());
}

/// Fills the tables with sendings and arrivals of the same numbers, then with
/// locals.
fn fill<C: Checker>(both: &mut Both, base: &mut Reached<C>) {
    let trader = &mut base.trader;
    let mut records = Vec::new();
    let held = Ledger::BOTH.map(|ledger| trader.book.passed_count(ledger));
    let pairs = (CAPACITY - held[0].max(held[1])) / 2;
    for _ in 0..pairs {
        let number = trader.fresh_number(Ledger::Home);
        let [over, back] = Ledger::BOTH.map(|ledger| sending(ledger, 0, 0, number, 1));
        records.extend([over, back, back.matching_arrival(), over.matching_arrival()]);
    }
    for ledger in Ledger::BOTH {
        for _ in held[ledger.index()] + 2 * pairs..CAPACITY {
            let number = trader.fresh_number(ledger);
            records.push(local(ledger, 0, 0, number, 1));
        }
    }
    base.hand_in_list(both, &records);
}

/// The last held records of each class and some other ones once more.
fn once_more<C: Checker>(both: &mut Both, rng: &mut Rng, base: &Reached<C>) {
    for ledger in Ledger::BOTH.into_iter().filter(|&ledger| C::sees(ledger)) {
        let passed = &base.trader.passed[ledger.index()];
        let last = |arrival| {
            let mut backwards = passed.iter().rev();
            backwards.find(|record| record.kind.is_arrival() == arrival)
        };
        let some = passed[rng.index(passed.len())];
        let all = [last(true).copied(), last(false).copied(), Some(some)];
        for record in all.into_iter().flatten() {
            C::check_record(both, &base.state, &record.bytes());
            C::check_list(both, &base.state, &record.bytes());
        }
    }
}

/// A held record of a kind in turn gets another one of each kind under its
/// number, then calls on that state, among them records of that number.
fn shared<C: Checker>(both: &mut Both, rng: &mut Rng, base: &Reached<C>, step: u64) {
    let mut forged = base.branch(rng);
    let kinds = [LOCAL, SENDING, ARRIVAL];
    let [first, second] = [step % 3, step / 3 % 3].map(|at| kinds[at as usize]);
    let Some(number) = share(rng, &mut *forged.state, first, second) else {
        return;
    };
    mend(&mut *forged.state);
    let mut once = forged.branch(rng);
    call(both, rng, &mut once);
    C::figures(both, &forged.state);
    for ledger in Ledger::BOTH.into_iter().filter(|&ledger| C::sees(ledger)) {
        let tries = [
            local(ledger, 0, 0, number, 1),
            arrival(ledger, 0, 0, number, 1),
        ];
        C::check_record(both, &forged.state, &rng.pick(&tries).bytes());
    }
}

/// Gives the number of a held record of one kind to another of some kind, which
/// is added or takes the place of a local. An arrival comes with its sending.
fn share<S: Fields>(rng: &mut Rng, state: &mut S, first: u64, second: u64) -> Option<u64> {
    let ledger = some_ledger(rng, state);
    let held = held_entry(rng, state, ledger, first)?;
    let number = state.get(Field::Numbers, held);
    let here = Ledger::BOTH[ledger];
    let record = match second {
        LOCAL => local(here, 0, 0, number, 1),
        SENDING => sending(here, 0, 0, number, 1),
        _ => arrival_under(state, held, here)?,
    };
    let unsent = S::LEDGERS == 2 && under_number(state, held, 1 - ledger, SENDING).is_none();
    if second == ARRIVAL && unsent {
        put_in(rng, state, &record.matching_sending(), held)?;
    }
    put_in(rng, state, &record, held)?;
    Some(number)
}

/// An arrival under the number of a held record: of the sending that is held on
/// the other ledger, if there is one. Nothing if a local is in its way there.
fn arrival_under<S: Fields>(state: &S, held: usize, here: Ledger) -> Option<Record> {
    let number = state.get(Field::Numbers, held);
    let other = here.other().index();
    if S::LEDGERS == 1 {
        return Some(arrival(here, 0, 0, number, 1));
    }
    let Some(sent) = under_number(state, held, other, SENDING) else {
        let free = under_number(state, held, other, LOCAL).is_none();
        return free.then(|| arrival(here, 0, 0, number, 1));
    };
    let [sender, receiver] =
        [Field::Senders, Field::Receivers].map(|field| state.get(field, sent) as u16);
    let amount = state.get(Field::Amounts, sent);
    Some(arrival(here, sender, receiver, number, amount))
}

/// Adds a held record, or puts it in the place of a local where the table is
/// full. Then it often changes places with another.
fn put_in<S: Fields>(rng: &mut Rng, state: &mut S, record: &Record, held: usize) -> Option<()> {
    let ledger = record.ledger().index();
    let count = state.get(Field::Counts, ledger) as usize;
    if count == CAPACITY {
        let entry = held_entry(rng, state, ledger, LOCAL).filter(|&entry| entry != held)?;
        put(state, entry, record);
        return Some(());
    }
    let entry = add(state, record);
    if rng.chance(1, 2) {
        let other = ledger * CAPACITY + rng.index(count + 1);
        for word in 0..HELD {
            state
                .words_mut()
                .swap(entry * HELD + word, other * HELD + word);
        }
    }
    Some(())
}
