//! A second validator for the crossing book: two linked ledgers, their pair
//! book, the guard of the home ledger, the journal and its listing.
//!
//! The modules follow the parts of paper 01, changed by U1, U2 and U3 of paper 02.
//! `runner` is not part of the papers: it makes journals and calls, and holds another
//! program's listings and another part's answers to the ones made here.

pub mod answer;
pub mod charge;
pub mod guard;
pub mod journal;
pub mod listing;
pub mod pair;
pub mod record;
pub mod rules;
pub mod runner;
pub mod running;
pub mod sha256;
pub mod side;
pub mod states;
