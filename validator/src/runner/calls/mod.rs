//! The comparison of calls: another part and the library are handed the same
//! calls, made from a seed, and everything that they hand back must agree.

pub mod both;
pub mod families;
pub mod fields;
pub mod makers;
pub mod oracle;
pub mod report;

pub use both::Both;
pub use oracle::Oracle;
pub use report::{Difference, Report};

use super::rng::Rng;
use crate::answer::Answer;
use crate::journal::Stakes;
use crate::record::{Held, RECORD};
use crate::states::{HomeState, PairState};
use families::FAMILIES;

/// A part with all calls of the papers, on plain words and numbers, and with the
/// places left, which they do not have. Lent things stay as they are; a
/// state comes back beside the answer, refused or passed. Only the calls that
/// take are lent a state to alter, and a refusal leaves each word of it as it
/// was. There are no ready-made methods, so that none is left out unseen.
pub trait Part {
    /// Opens a pair book: 1, 2, 52. The state of zeros beside a refusal.
    fn pair_open(
        &mut self,
        home: &[u64],
        far: &[u64],
        rate: u64,
        charge_account: u64,
    ) -> (Answer, Box<PairState>);

    /// One record: 3, 21, 22, 51, 23 to 25, 31, 41.
    fn pair_check_record(&mut self, state: &PairState, bytes: &[u8]) -> (Answer, Box<PairState>);

    /// A list of records: as one record, with the index of the refused one.
    fn pair_check_list(&mut self, state: &PairState, bytes: &[u8]) -> (Answer, Box<PairState>);

    /// One record in place, with the answers of `pair_check_record`.
    fn pair_take(&mut self, state: &mut PairState, bytes: &[u8]) -> Answer;

    /// A list of records in place, with the answers of `pair_check_list`.
    fn pair_take_list(&mut self, state: &mut PairState, bytes: &[u8]) -> Answer;

    /// Home total, far total and in flight: 3. Zeros beside a refusal.
    fn pair_figures(&mut self, state: &PairState) -> (Answer, [u64; 3]);

    /// A balance: 3, 22 where the account is not open. 0 beside a refusal.
    fn pair_balance(&mut self, state: &PairState, ledger: u8, account: u16) -> (Answer, u64);

    /// How many more passed records home and far can take: 3. Zeros beside a
    /// refusal.
    fn pair_places_left(&mut self, state: &PairState) -> (Answer, [u64; 2]);

    /// Opens a guard: 1, 2, 52. The state of zeros beside a refusal.
    fn home_open(
        &mut self,
        home: &[u64],
        fars: usize,
        far_total: u64,
        rate: u64,
        charge_account: u64,
    ) -> (Answer, Box<HomeState>);

    /// One record: 3, 21, 33, 22, 51, 23 to 25, 32, 41.
    fn home_check_record(&mut self, state: &HomeState, bytes: &[u8]) -> (Answer, Box<HomeState>);

    /// A list of records: as one record, with the index of the refused one.
    fn home_check_list(&mut self, state: &HomeState, bytes: &[u8]) -> (Answer, Box<HomeState>);

    /// One record in place, with the answers of `home_check_record`.
    fn home_take(&mut self, state: &mut HomeState, bytes: &[u8]) -> Answer;

    /// A list of records in place, with the answers of `home_check_list`.
    fn home_take_list(&mut self, state: &mut HomeState, bytes: &[u8]) -> Answer;

    /// Home total and far due: 3. Zeros beside a refusal.
    fn home_figures(&mut self, state: &HomeState) -> (Answer, [u64; 2]);

    /// A balance of home: 3, 22 where the account is not open. 0 beside a
    /// refusal.
    fn home_balance(&mut self, state: &HomeState, account: u16) -> (Answer, u64);

    /// How many more passed records home can take: 3. 0 beside a refusal.
    fn home_places_left(&mut self, state: &HomeState) -> (Answer, u64);

    /// The plain fields of a record: 21. Zeros beside a refusal.
    fn record_read(&mut self, bytes: &[u8]) -> (Answer, Held);

    /// The bytes of plain fields: 21. Zeros beside a refusal.
    fn record_encode(&mut self, fields: &Held) -> (Answer, [u8; RECORD]);

    /// Judges a block: 11 to 14, 52 in block 0.
    fn block_judge(&mut self, block: &[u8], number: u64, before: u64) -> Answer;

    /// Judges a block and a record's place: 11 to 14, 52, 4.
    fn block_judge_record(&mut self, block: &[u8], number: u64, before: u64, place: u64) -> Answer;

    /// The same, with the record's start and length. Zeros beside a refusal.
    fn block_record(
        &mut self,
        block: &[u8],
        number: u64,
        before: u64,
        place: u64,
    ) -> (Answer, [usize; 2]);

    /// The count of a block: 11 to 14, 52. 0 beside a refusal.
    fn block_count(&mut self, block: &[u8], number: u64, before: u64) -> (Answer, u64);

    /// The count, rate, charge account and 56 stakes of a block: 11 to 14, 52, 4.
    /// Zeros beside a refusal; rate and account are 0 in block 1.
    fn block_balances(&mut self, block: &[u8], number: u64, before: u64) -> (Answer, Stakes);

    /// Writes a block: 4. The output stays as it came beside a refusal. Rate and
    /// account are looked at for block 0 only.
    fn block_write(
        &mut self,
        output: &mut [u8],
        number: u64,
        kind: u8,
        rate: u64,
        charge_account: u64,
        items: &[u8],
    ) -> Answer;

    fn sha256(&mut self, bytes: &[u8]) -> [u8; 32];
}

/// Makes at least so many calls from a seed on a part and on the library, and
/// stops before that once `enough` differences are found. The same seed and
/// number of calls make the same calls; what the part hands back has no
/// influence on them.
pub fn compare(part: &mut dyn Part, seed: u64, calls: u64, enough: u64) -> Report {
    let mut both = Both::new(part, seed);
    let mut made = [0; FAMILIES.len()];
    let mut scenarios = [0; FAMILIES.len()];
    while both.calls() < calls && both.differences() < enough {
        let next = furthest_behind(&made);
        let family = &FAMILIES[next];
        let mut rng = Rng::for_journal(seed, family.name, scenarios[next]);
        both.begin(family.name, scenarios[next]);
        let before = both.calls();
        (family.run)(&mut both, &mut rng);
        made[next] += both.calls() - before;
        scenarios[next] += 1;
    }
    both.into_report()
}

/// The family with the fewest calls for its share.
fn furthest_behind(made: &[u64; FAMILIES.len()]) -> usize {
    (0..FAMILIES.len())
        .min_by_key(|&at| made[at] * 1_000 / FAMILIES[at].share)
        .expect("there are families")
}
