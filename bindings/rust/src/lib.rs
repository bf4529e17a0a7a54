//! Moatbetony: a proved checker of two linked ledgers that trade one credit, a home ledger and a far ledger run by people nobody here
//! has met. This crate is the safe Rust side of its C library.
//!
//! A desk that sees home alone opens a [`HomeValidator`], hands in each record of 32 bytes, and hands goods over where the answer is
//! [`Answer::Passed`] and the record pays the desk:
//!
//! ```
//! use moatbetony::{Answer, HomeValidator, Kind, Ledger, Record, Tariff};
//!
//! // Home balances of two accounts; one far account, with 20; no charge on home's sendings.
//! let mut desk = HomeValidator::open(&[100, 50], 1, 20, Tariff::FREE)?;
//!
//! // What came in: a customer pays 30 from account 0 into the desk's account 1.
//! # let sent = Record {
//! #     kind: Kind::Local, ledger: Ledger::Home, sender: 0, receiver: 1, number: 1, amount: 30, verified: true,
//! # };
//! # let (mut bytes, signature_good) = (sent.encode()?, true);
//! // What the desk's own check of the signature found, over whatever the sender wrote there.
//! bytes[24] = signature_good.into();
//! match desk.take(&bytes) {
//!     Answer::Passed => {
//!         let record = Record::read(&bytes)?;
//!         let comes_in = record.kind == Kind::Arrival || record.kind == Kind::Local && record.sender != 1;
//!         if record.ledger == Ledger::Home && comes_in && record.receiver == 1 && record.amount >= 30 {
//!             println!("handed over");
//!         }
//!     }
//!     Answer::Refused { refusal, .. } => println!("not handed over: {refusal} ({})", refusal.number()),
//! }
//! assert_eq!(desk.balance(1)?, 80);
//!
//! // The same record once more is refused, and moves nothing.
//! assert!(!desk.take(&bytes).is_passed());
//! assert_eq!(desk.balance(1)?, 80);
//! # Ok::<(), moatbetony::Refusal>(())
//! ```
//!
//! Signatures are not checked here. Byte 24 of a record says what the caller's own check of its signature found (1 good, 0 bad). Write
//! it yourself, over whatever came in, before the record is handed in: a record whose byte 24 its sender wrote is one that nobody has
//! checked.
//!
//! Passed says that the record is in order and its credit has moved. Whether it pays you, and enough, you read with [`Record::read`]: a
//! local or an arrival on home, to your account, from another one if it is a local, of the price.
//!
//! Home's network takes a charge on each home sending, which its sender pays beside the amount: a [`Tariff`] tells the rate and the
//! account that is paid, and [`Tariff::charge`] asks the library what a sending costs, so that a desk can show it before.
//!
//! A validator takes any bytes, always answers, and a refusal leaves it untouched. `take` and `take_list` alter its state in place, by
//! proved calls; `check_record` and `check_list` answer the same, by calls that are handed a copy of it. A state can be stored and taken
//! up again:
//!
//! ```
//! use moatbetony::{sha256, HomeValidator, Tariff, STATE_VERSION};
//!
//! let desk = HomeValidator::open(&[100, 50], 1, 20, Tariff::FREE)?;
//! let (version, stored, digest) = (STATE_VERSION, desk.as_bytes().to_vec(), sha256(desk.as_bytes()));
//!
//! // Only under the same layout, and only where the digest is the same.
//! assert!(version == STATE_VERSION && sha256(&stored) == digest);
//! let again = HomeValidator::from_bytes(&stored).expect("a state's length");
//! assert_eq!(again, desk);
//! # Ok::<(), moatbetony::Refusal>(())
//! ```
//!
//! Every call judges its state first (refusal 3). 3 says that a state's numbers fit together, and no more. It does not see two balances
//! exchanged, a balance raised together with the supply (home: or at the far pool's cost), another tariff that an opening would take,
//! held records left out, so that they pass again, or an older state put back. Keep the latest digest of a stored state where nobody
//! else can write it, and store a new state before goods are handed over on it.
//!
//! A validator holds [`CAPACITY`] passed records of a ledger, and then passes no further one (41, [`Refusal::Full`]): no record makes
//! room again. Ask [`HomeValidator::places_left`] or [`PairValidator::places_left`] before each record, so that you see 41 coming: warn
//! while there is time for the networks to make a new opening, and close the desk with no place left. A state that is refused (3) is an
//! error there, and says nothing of the places.
//!
//! What is proved is the library's code, for every input. This crate, like every caller, is not covered by the proofs: it turns slices
//! into pointers and lengths, and numbers into enums. A thread that calls needs 256 KB of stack for a [`PairValidator`] and 128 KB for a
//! [`HomeValidator`]; Rust's own threads have 2 MB. Any number of threads may call at once, each with a validator of its own.
//!
//! The crate links `libmoatbetony.a` from the folder that `MOATBETONY_LIB_DIR` names at build time. The archive of another version may
//! have other arguments and other states, so the first call compares [`version`] and [`state_version`] with [`VERSION`] and
//! [`STATE_VERSION`]; where they differ, it and every later call but these two panic with "libmoatbetony.a and this crate do not belong
//! together". An answer crosses as a number and as whether it passed. Where the two contradict each other, which the library never
//! tells, a call panics.

#![deny(missing_docs)]
#![deny(unsafe_code)]

#[cfg(not(all(target_arch = "x86_64", target_os = "linux", target_pointer_width = "64")))]
compile_error!("moatbetony is built for x86-64 Linux with 64-bit pointers");

#[allow(unsafe_code)]
mod calls;
mod ffi;
pub mod journal;
mod record;
mod refusal;
mod tariff;
mod validators;

pub use record::{Kind, Ledger, Record};
pub use refusal::{Answer, Refusal};
pub use tariff::Tariff;
pub use validators::{HomeFigures, HomeValidator, PairFigures, PairPlaces, PairValidator};

/// The library's version that this crate was written for: major * 10,000 + minor * 100 + patch.
pub const VERSION: u32 = 601;
/// The layout of the two states. Store it with a state, and take a state up only under its own.
pub const STATE_VERSION: u32 = 3;
/// The bytes of a record.
pub const RECORD_SIZE: usize = 32;
/// The most accounts of a ledger.
pub const MAX_ACCOUNTS: usize = 56;
/// The passed records that a validator holds of a ledger.
pub const CAPACITY: usize = 512;
/// The greatest rate of the charge on home's sendings, in ten-thousandths of what is sent.
pub const MAX_RATE: u64 = 10_000;
/// The most credit that both ledgers hold, and the most that a record moves: 2^63-1.
pub const MAX_SUPPLY: u64 = (1 << 63) - 1;

/// The version of the library that is linked. Equal to [`VERSION`] if it and this crate belong together; never panics.
#[must_use]
pub fn version() -> u32 {
    calls::version()
}

/// The linked library's layout of the two states. Equal to [`STATE_VERSION`] if it and this crate belong together; never panics.
#[must_use]
pub fn state_version() -> u32 {
    calls::state_version()
}

/// The SHA-256 digest of a message (FIPS 180-4).
///
/// ```
/// assert_eq!(moatbetony::sha256(b"abc")[..4], [0xba, 0x78, 0x16, 0xbf]);
/// ```
#[must_use]
pub fn sha256(message: &[u8]) -> [u8; 32] {
    calls::sha256(message).bytes
}
