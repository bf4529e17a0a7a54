//! Holds the library's calls, over its C boundary, to the second validator's: `boundary [--seed N|random] [--calls N]`. The declarations
//! are the Rust binding's own. Exit status: 0; 1 if a call differs; 2 for wrong use.

use std::process::ExitCode;
use std::time::{SystemTime, UNIX_EPOCH};

use second_validator::runner::calls::compare;

#[rustfmt::skip] // laid out by its own crate
#[allow(dead_code)] // the second validator has no call that tells a charge
#[path = "../../../bindings/rust/src/ffi.rs"]
mod ffi;
mod guarded;
mod library;

const SEED: u64 = 20_240_607;
const CALLS: u64 = 50_000;
const ENOUGH: u64 = 20;

fn main() -> ExitCode {
    let arguments: Vec<String> = std::env::args().skip(1).collect();
    let Some((seed, calls)) = options(&arguments) else {
        eprintln!("usage: boundary [--seed N|random] [--calls N]");
        return ExitCode::from(2);
    };
    let version = unsafe { (ffi::moatbetony_version(), ffi::moatbetony_state_version()) };
    println!("library version {}, state version {}", version.0, version.1);
    let report = compare(&mut library::Library::new(), seed, calls, ENOUGH);
    print!("{report}");
    ExitCode::from(u8::from(report.differences != 0))
}

fn options(arguments: &[String]) -> Option<(u64, u64)> {
    let (mut seed, mut calls) = (SEED, CALLS);
    for option in arguments.chunks(2) {
        match option {
            [name, value] if name == "--seed" && value == "random" => {
                seed = SystemTime::now().duration_since(UNIX_EPOCH).ok()?.as_nanos() as u64;
            }
            [name, value] if name == "--seed" => seed = value.parse().ok()?,
            [name, value] if name == "--calls" => calls = value.parse().ok()?,
            _ => return None,
        }
    }
    Some((seed, calls))
}
