//! The C calls with slices and references. The only module with `unsafe`.
//!
//! What holds of every call here. The archive is the one that `ffi` declares: but for the two versions, every call asks that first. A
//! slice lends its pointer and its length, so the library reads (for `out`: writes) within it, during the call alone; an empty slice's
//! pointer is not followed. A state in place is lent for writing, and being borrowed so overlaps nothing else. Other states and results
//! cross by value. All are plain integers, so any bits will do. The library takes every value, keeps nothing and has no data that is
//! written.

use crate::{ffi, Tariff, STATE_VERSION, VERSION};
use std::sync::OnceLock;

/// Panics, each time, if the archive is not of this crate's version. It is asked once.
fn belongs() {
    static BELONGS: OnceLock<bool> = OnceLock::new();
    let belongs = *BELONGS.get_or_init(|| version() == VERSION && state_version() == STATE_VERSION);
    assert!(belongs, "libmoatbetony.a and this crate do not belong together");
}

pub(crate) fn version() -> u32 {
    // SAFETY: no argument.
    unsafe { ffi::moatbetony_version() }
}

pub(crate) fn state_version() -> u32 {
    // SAFETY: no argument.
    unsafe { ffi::moatbetony_state_version() }
}

pub(crate) fn pair_open(home_balances: &[u64], far_balances: &[u64], tariff: Tariff) -> ffi::PlainPairOutcome {
    belongs();
    let Tariff { rate, charge_account } = tariff;
    let (homes, fars) = (home_balances.len(), far_balances.len());
    // SAFETY: both slices are lent with their lengths.
    unsafe { ffi::moatbetony_pair_open(home_balances.as_ptr(), homes, far_balances.as_ptr(), fars, rate, charge_account) }
}

pub(crate) fn pair_take(state: &mut ffi::PairValidator, bytes: &[u8]) -> ffi::PlainAnswer {
    belongs();
    // SAFETY: the state is lent for writing, and the slice with its length.
    unsafe { ffi::moatbetony_pair_take(state, bytes.as_ptr(), bytes.len()) }
}

pub(crate) fn pair_take_list(state: &mut ffi::PairValidator, bytes: &[u8]) -> ffi::PlainAnswer {
    belongs();
    // SAFETY: the state is lent for writing, and the slice with its length.
    unsafe { ffi::moatbetony_pair_take_list(state, bytes.as_ptr(), bytes.len()) }
}

pub(crate) fn pair_check_record(state: &ffi::PairValidator, bytes: &[u8]) -> ffi::PlainPairOutcome {
    belongs();
    // SAFETY: the slice is lent with its length.
    unsafe { ffi::moatbetony_pair_check_record(*state, bytes.as_ptr(), bytes.len()) }
}

pub(crate) fn pair_check_list(state: &ffi::PairValidator, bytes: &[u8]) -> ffi::PlainPairOutcome {
    belongs();
    // SAFETY: the slice is lent with its length.
    unsafe { ffi::moatbetony_pair_check_list(*state, bytes.as_ptr(), bytes.len()) }
}

pub(crate) fn pair_figures(state: &ffi::PairValidator) -> ffi::PlainPairFigures {
    belongs();
    // SAFETY: values alone.
    unsafe { ffi::moatbetony_pair_figures(*state) }
}

pub(crate) fn pair_balance(state: &ffi::PairValidator, ledger: u8, account: u16) -> ffi::PlainBalance {
    belongs();
    // SAFETY: values alone.
    unsafe { ffi::moatbetony_pair_balance(*state, ledger, account) }
}

pub(crate) fn pair_places_left(state: &ffi::PairValidator) -> ffi::PlainPairPlaces {
    belongs();
    // SAFETY: values alone.
    unsafe { ffi::moatbetony_pair_places_left(*state) }
}

pub(crate) fn home_open(home_balances: &[u64], far_accounts: usize, far_total: u64, tariff: Tariff) -> ffi::PlainHomeOutcome {
    belongs();
    let Tariff { rate, charge_account } = tariff;
    let homes = home_balances.len();
    // SAFETY: the slice is lent with its length.
    unsafe { ffi::moatbetony_home_open(home_balances.as_ptr(), homes, far_accounts, far_total, rate, charge_account) }
}

pub(crate) fn home_take(state: &mut ffi::HomeValidator, bytes: &[u8]) -> ffi::PlainAnswer {
    belongs();
    // SAFETY: the state is lent for writing, and the slice with its length.
    unsafe { ffi::moatbetony_home_take(state, bytes.as_ptr(), bytes.len()) }
}

pub(crate) fn home_take_list(state: &mut ffi::HomeValidator, bytes: &[u8]) -> ffi::PlainAnswer {
    belongs();
    // SAFETY: the state is lent for writing, and the slice with its length.
    unsafe { ffi::moatbetony_home_take_list(state, bytes.as_ptr(), bytes.len()) }
}

pub(crate) fn home_check_record(state: &ffi::HomeValidator, bytes: &[u8]) -> ffi::PlainHomeOutcome {
    belongs();
    // SAFETY: the slice is lent with its length.
    unsafe { ffi::moatbetony_home_check_record(*state, bytes.as_ptr(), bytes.len()) }
}

pub(crate) fn home_check_list(state: &ffi::HomeValidator, bytes: &[u8]) -> ffi::PlainHomeOutcome {
    belongs();
    // SAFETY: the slice is lent with its length.
    unsafe { ffi::moatbetony_home_check_list(*state, bytes.as_ptr(), bytes.len()) }
}

pub(crate) fn home_figures(state: &ffi::HomeValidator) -> ffi::PlainHomeFigures {
    belongs();
    // SAFETY: values alone.
    unsafe { ffi::moatbetony_home_figures(*state) }
}

pub(crate) fn home_balance(state: &ffi::HomeValidator, account: u16) -> ffi::PlainBalance {
    belongs();
    // SAFETY: values alone.
    unsafe { ffi::moatbetony_home_balance(*state, account) }
}

pub(crate) fn home_places_left(state: &ffi::HomeValidator) -> ffi::PlainHomePlaces {
    belongs();
    // SAFETY: values alone.
    unsafe { ffi::moatbetony_home_places_left(*state) }
}

pub(crate) fn record_read(bytes: &[u8]) -> ffi::PlainRecord {
    belongs();
    // SAFETY: the slice is lent with its length.
    unsafe { ffi::moatbetony_record_read(bytes.as_ptr(), bytes.len()) }
}

pub(crate) fn record_encode(
    kind: u8,
    ledger: u8,
    sender: u16,
    receiver: u16,
    number: u64,
    amount: u64,
    verdict: u8,
) -> ffi::PlainEncoded {
    belongs();
    // SAFETY: values alone.
    unsafe { ffi::moatbetony_record_encode(kind, ledger, sender, receiver, number, amount, verdict) }
}

pub(crate) fn charge(rate: u64, amount: u64) -> ffi::PlainCharge {
    belongs();
    // SAFETY: values alone.
    unsafe { ffi::moatbetony_charge(rate, amount) }
}

pub(crate) fn block_judge(block: &[u8], number: u64, before: u64) -> ffi::PlainAnswer {
    belongs();
    // SAFETY: the slice is lent with its length.
    unsafe { ffi::moatbetony_block_judge(block.as_ptr(), block.len(), number, before) }
}

pub(crate) fn block_judge_record(block: &[u8], number: u64, before: u64, place: u64) -> ffi::PlainAnswer {
    belongs();
    // SAFETY: the slice is lent with its length.
    unsafe { ffi::moatbetony_block_judge_record(block.as_ptr(), block.len(), number, before, place) }
}

pub(crate) fn block_record(block: &[u8], number: u64, before: u64, place: u64) -> ffi::PlainPart {
    belongs();
    // SAFETY: the slice is lent with its length.
    unsafe { ffi::moatbetony_block_record(block.as_ptr(), block.len(), number, before, place) }
}

pub(crate) fn block_count(block: &[u8], number: u64, before: u64) -> ffi::PlainCount {
    belongs();
    // SAFETY: the slice is lent with its length.
    unsafe { ffi::moatbetony_block_count(block.as_ptr(), block.len(), number, before) }
}

pub(crate) fn block_balances(block: &[u8], number: u64, before: u64) -> ffi::PlainBalances {
    belongs();
    // SAFETY: the slice is lent with its length.
    unsafe { ffi::moatbetony_block_balances(block.as_ptr(), block.len(), number, before) }
}

pub(crate) fn block_write(out: &mut [u8], number: u64, kind: u8, tariff: Tariff, items: &[u8]) -> ffi::PlainAnswer {
    belongs();
    let Tariff { rate, charge_account } = tariff;
    let (size, from, length) = (out.len(), items.as_ptr(), items.len());
    // SAFETY: both slices are lent with their lengths, the output for writing; being borrowed so, they do not overlap.
    unsafe { ffi::moatbetony_block_write(out.as_mut_ptr(), size, number, kind, rate, charge_account, from, length) }
}

pub(crate) fn sha256(message: &[u8]) -> ffi::PlainDigest {
    belongs();
    // SAFETY: the slice is lent with its length.
    unsafe { ffi::moatbetony_sha256(message.as_ptr(), message.len()) }
}

/// A state: integers alone, in C's layout, with no padding, so that it is its bytes and every bytes of its length are one.
///
/// # Safety
///
/// Only for such types.
pub(crate) unsafe trait Plain: Copy {}

// SAFETY: repr(C) with integer fields alone; the sizes below are the sums of their fields.
unsafe impl Plain for ffi::PairValidator {}
// SAFETY: as above.
unsafe impl Plain for ffi::HomeValidator {}
const _: () = assert!(size_of::<ffi::PairValidator>() == 8 * (2 * 512 * 4 + 2 * 56 + 1 + 2 + 2 + 2));
const _: () = assert!(size_of::<ffi::HomeValidator>() == 8 * (512 * 4 + 56 + 7));

/// The bytes of a state.
pub(crate) fn bytes_of<T: Plain>(state: &T) -> &[u8] {
    // SAFETY: the state is lent as long as the slice, and has no byte that is not a field's.
    unsafe { std::slice::from_raw_parts(std::ptr::from_ref(state).cast(), size_of::<T>()) }
}

/// The state of these bytes, if they are as many as it has.
pub(crate) fn from_bytes<T: Plain>(bytes: &[u8]) -> Option<Box<T>> {
    if bytes.len() != size_of::<T>() {
        return None;
    }
    // SAFETY: so many bytes can be read, which need not be aligned, and any of them are a state.
    Some(Box::new(unsafe { bytes.as_ptr().cast::<T>().read_unaligned() }))
}
