//! The library's C interface, as `include/moatbetony.h` has it. A slice crosses as pointer and length.

#[repr(C)]
#[derive(Clone, Copy)]
pub(crate) struct PlainAnswer {
    pub(crate) number: u32,
    pub(crate) passed: u32,
    pub(crate) place: u64,
}

#[repr(C)]
#[derive(Clone, Copy)]
pub(crate) struct Held {
    pub(crate) head: u64,
    pub(crate) number: u64,
    pub(crate) amount: u64,
    pub(crate) tail: u64,
}

#[repr(C)]
#[derive(Clone, Copy)]
pub(crate) struct PairValidator {
    pub(crate) records: [[Held; 512]; 2],
    pub(crate) balances: [[u64; 56]; 2],
    pub(crate) supply: u64,
    pub(crate) accounts: [u64; 2],
    pub(crate) counts: [u64; 2],
    pub(crate) rate: u64,
    pub(crate) charge_account: u64,
}

#[repr(C)]
#[derive(Clone, Copy)]
pub(crate) struct HomeValidator {
    pub(crate) records: [Held; 512],
    pub(crate) balances: [u64; 56],
    pub(crate) supply: u64,
    pub(crate) pool: u64,
    pub(crate) home_accounts: u64,
    pub(crate) far_accounts: u64,
    pub(crate) count: u64,
    pub(crate) rate: u64,
    pub(crate) charge_account: u64,
}

#[repr(C)]
pub(crate) struct PlainPairOutcome {
    pub(crate) answer: PlainAnswer,
    pub(crate) state: PairValidator,
}

#[repr(C)]
pub(crate) struct PlainPairFigures {
    pub(crate) answer: PlainAnswer,
    pub(crate) home: u64,
    pub(crate) far: u64,
    pub(crate) flight: u64,
}

#[repr(C)]
pub(crate) struct PlainPairPlaces {
    pub(crate) answer: PlainAnswer,
    pub(crate) home: u64,
    pub(crate) far: u64,
}

#[repr(C)]
pub(crate) struct PlainHomeOutcome {
    pub(crate) answer: PlainAnswer,
    pub(crate) state: HomeValidator,
}

#[repr(C)]
pub(crate) struct PlainHomeFigures {
    pub(crate) answer: PlainAnswer,
    pub(crate) home: u64,
    pub(crate) pool: u64,
}

#[repr(C)]
pub(crate) struct PlainHomePlaces {
    pub(crate) answer: PlainAnswer,
    pub(crate) home: u64,
}

#[repr(C)]
pub(crate) struct PlainBalance {
    pub(crate) answer: PlainAnswer,
    pub(crate) balance: u64,
}

#[repr(C)]
pub(crate) struct PlainRecord {
    pub(crate) answer: PlainAnswer,
    pub(crate) kind: u8,
    pub(crate) ledger: u8,
    pub(crate) sender: u16,
    pub(crate) receiver: u16,
    pub(crate) number: u64,
    pub(crate) amount: u64,
    pub(crate) verdict: u8,
}

#[repr(C)]
pub(crate) struct PlainEncoded {
    pub(crate) answer: PlainAnswer,
    pub(crate) bytes: [u8; 32],
}

#[repr(C)]
pub(crate) struct PlainCharge {
    pub(crate) answer: PlainAnswer,
    pub(crate) charge: u64,
}

#[repr(C)]
pub(crate) struct PlainPart {
    pub(crate) answer: PlainAnswer,
    pub(crate) start: usize,
    pub(crate) length: usize,
}

#[repr(C)]
pub(crate) struct PlainCount {
    pub(crate) answer: PlainAnswer,
    pub(crate) count: u64,
}

#[repr(C)]
pub(crate) struct PlainBalances {
    pub(crate) answer: PlainAnswer,
    pub(crate) count: u64,
    pub(crate) rate: u64,
    pub(crate) charge_account: u64,
    pub(crate) balances: [u64; 56],
}

#[repr(C)]
pub(crate) struct PlainDigest {
    pub(crate) bytes: [u8; 32],
}

extern "C" {
    pub(crate) fn moatbetony_version() -> u32;
    pub(crate) fn moatbetony_state_version() -> u32;
    pub(crate) fn moatbetony_pair_open(
        home_balances: *const u64,
        home_balances_len: usize,
        far_balances: *const u64,
        far_balances_len: usize,
        rate: u64,
        charge_account: u64,
    ) -> PlainPairOutcome;
    pub(crate) fn moatbetony_pair_take(state: *mut PairValidator, bytes: *const u8, bytes_len: usize) -> PlainAnswer;
    pub(crate) fn moatbetony_pair_take_list(state: *mut PairValidator, bytes: *const u8, bytes_len: usize) -> PlainAnswer;
    pub(crate) fn moatbetony_pair_check_record(state: PairValidator, bytes: *const u8, bytes_len: usize) -> PlainPairOutcome;
    pub(crate) fn moatbetony_pair_check_list(state: PairValidator, bytes: *const u8, bytes_len: usize) -> PlainPairOutcome;
    pub(crate) fn moatbetony_pair_figures(state: PairValidator) -> PlainPairFigures;
    pub(crate) fn moatbetony_pair_balance(state: PairValidator, ledger: u8, account: u16) -> PlainBalance;
    pub(crate) fn moatbetony_pair_places_left(state: PairValidator) -> PlainPairPlaces;
    pub(crate) fn moatbetony_home_open(
        home_balances: *const u64,
        home_balances_len: usize,
        far_accounts: usize,
        far_total: u64,
        rate: u64,
        charge_account: u64,
    ) -> PlainHomeOutcome;
    pub(crate) fn moatbetony_home_take(state: *mut HomeValidator, bytes: *const u8, bytes_len: usize) -> PlainAnswer;
    pub(crate) fn moatbetony_home_take_list(state: *mut HomeValidator, bytes: *const u8, bytes_len: usize) -> PlainAnswer;
    pub(crate) fn moatbetony_home_check_record(state: HomeValidator, bytes: *const u8, bytes_len: usize) -> PlainHomeOutcome;
    pub(crate) fn moatbetony_home_check_list(state: HomeValidator, bytes: *const u8, bytes_len: usize) -> PlainHomeOutcome;
    pub(crate) fn moatbetony_home_figures(state: HomeValidator) -> PlainHomeFigures;
    pub(crate) fn moatbetony_home_balance(state: HomeValidator, account: u16) -> PlainBalance;
    pub(crate) fn moatbetony_home_places_left(state: HomeValidator) -> PlainHomePlaces;
    pub(crate) fn moatbetony_record_read(bytes: *const u8, bytes_len: usize) -> PlainRecord;
    pub(crate) fn moatbetony_record_encode(
        kind: u8,
        ledger: u8,
        sender: u16,
        receiver: u16,
        number: u64,
        amount: u64,
        verdict: u8,
    ) -> PlainEncoded;
    pub(crate) fn moatbetony_charge(rate: u64, amount: u64) -> PlainCharge;
    pub(crate) fn moatbetony_block_judge(block: *const u8, block_len: usize, number: u64, before: u64) -> PlainAnswer;
    pub(crate) fn moatbetony_block_judge_record(
        block: *const u8,
        block_len: usize,
        number: u64,
        before: u64,
        place: u64,
    ) -> PlainAnswer;
    pub(crate) fn moatbetony_block_record(block: *const u8, block_len: usize, number: u64, before: u64, place: u64) -> PlainPart;
    pub(crate) fn moatbetony_block_count(block: *const u8, block_len: usize, number: u64, before: u64) -> PlainCount;
    pub(crate) fn moatbetony_block_balances(block: *const u8, block_len: usize, number: u64, before: u64) -> PlainBalances;
    pub(crate) fn moatbetony_block_write(
        out: *mut u8,
        out_len: usize,
        number: u64,
        kind: u8,
        rate: u64,
        charge_account: u64,
        items: *const u8,
        items_len: usize,
    ) -> PlainAnswer;
    pub(crate) fn moatbetony_sha256(message: *const u8, message_len: usize) -> PlainDigest;
}
