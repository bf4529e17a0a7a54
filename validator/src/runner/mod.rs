//! Not part of the papers: journals and calls made from a seed, the comparison of
//! another program's listings and of another part's answers with the library's,
//! and stored and full journals.

pub mod absent;
pub mod build;
pub mod calls;
pub mod compare;
pub mod families;
pub mod full;
pub mod process;
pub mod rng;
pub mod store;
pub mod stored_charges;
pub mod stored_classes;
pub mod stored_long;
pub mod trader;
