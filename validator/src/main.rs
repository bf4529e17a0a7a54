//! The command line: `list`, `compare`, `calls`, `full` and `store`.

use std::io::{self, BufWriter, Write};
use std::path::PathBuf;
use std::process::ExitCode;
use std::time::{Duration, SystemTime, UNIX_EPOCH};

use second_validator::charge::Charge;
use second_validator::listing;
use second_validator::runner::calls::{self, Oracle};
use second_validator::runner::compare::{compare, Options};
use second_validator::runner::families::Plan;
use second_validator::runner::full::{self, Fill, MOST_BLOCKS};
use second_validator::runner::store;

const USAGE: &str = "\
usage: second-validator list
           journal on standard input, listing on standard output
       second-validator compare --crosslist PATH [--seed N|random] [--journals N]
                                [--keep DIR] [--limit SECONDS] [--long]
           holds the listings of the program PATH to the library's
       second-validator calls [--seed N|random] [--calls N]
           counts the calls that a comparison of calls makes, by answer
       second-validator full --fill early|late [--seed N|random]
           a full journal on standard output
       second-validator store DIR
           a fixed set of journals and their listings into DIR
";

const SEED: u64 = 20_240_607;
const JOURNALS: usize = 3_000;
const CALLS: u64 = 20_000;
const LIMIT_SECONDS: u64 = 20;

/// Why a command did not do its work.
enum Failure {
    WrongUse(String),
    Io(io::Error),
}

impl From<io::Error> for Failure {
    fn from(error: io::Error) -> Failure {
        Failure::Io(error)
    }
}

fn main() -> ExitCode {
    let arguments: Vec<String> = std::env::args().skip(1).collect();
    match run(&arguments) {
        Ok(code) => code,
        Err(Failure::WrongUse(why)) => {
            eprintln!("{why}\n{USAGE}");
            ExitCode::from(2)
        }
        Err(Failure::Io(error)) => {
            eprintln!("second-validator: {error}");
            ExitCode::from(3)
        }
    }
}

fn run(arguments: &[String]) -> Result<ExitCode, Failure> {
    let Some((command, rest)) = arguments.split_first() else {
        return Err(wrong("a command is wanted"));
    };
    match command.as_str() {
        "list" => run_list(rest),
        "compare" => run_compare(rest),
        "calls" => run_calls(rest),
        "full" => run_full(rest),
        "store" => run_store(rest),
        other => Err(wrong(format!("no such command: {other}"))),
    }
}

fn wrong(why: impl Into<String>) -> Failure {
    Failure::WrongUse(why.into())
}

fn run_list(rest: &[String]) -> Result<ExitCode, Failure> {
    if !rest.is_empty() {
        return Err(wrong("list takes no arguments"));
    }
    listing::list(io::stdin().lock(), io::stdout().lock())?;
    Ok(ExitCode::SUCCESS)
}

fn run_compare(rest: &[String]) -> Result<ExitCode, Failure> {
    let mut program = None;
    let mut seed = SEED;
    let mut journals = JOURNALS;
    let mut keep = PathBuf::from("target/differences");
    let mut limit = LIMIT_SECONDS;
    let mut long = false;
    let mut words = rest.iter();
    while let Some(word) = words.next() {
        match word.as_str() {
            "--crosslist" => program = Some(PathBuf::from(value(word, &mut words)?)),
            "--seed" => seed = seed_value(value(word, &mut words)?)?,
            "--journals" => journals = number(value(word, &mut words)?)? as usize,
            "--keep" => keep = PathBuf::from(value(word, &mut words)?),
            "--limit" => limit = number(value(word, &mut words)?)?,
            "--long" => long = true,
            other => return Err(wrong(format!("not known: {other}"))),
        }
    }
    let program = program.ok_or_else(|| wrong("--crosslist PATH is wanted"))?;
    let program = program
        .canonicalize()
        .map_err(|error| wrong(format!("{}: {error}", program.display())))?;
    let options = Options {
        program,
        plan: Plan {
            seed,
            journals,
            long,
        },
        keep,
        limit: Duration::from_secs(limit),
    };
    let tally = compare(&options, &mut io::stdout().lock())?;
    Ok(ExitCode::from(u8::from(tally.differ > 0)))
}

/// The library is compared with itself: another part is linked with the
/// library and handed to `calls::compare`.
fn run_calls(rest: &[String]) -> Result<ExitCode, Failure> {
    let mut seed = SEED;
    let mut count = CALLS;
    let mut words = rest.iter();
    while let Some(word) = words.next() {
        match word.as_str() {
            "--seed" => seed = seed_value(value(word, &mut words)?)?,
            "--calls" => count = number(value(word, &mut words)?)?,
            other => return Err(wrong(format!("not known: {other}"))),
        }
    }
    let report = calls::compare(&mut Oracle, seed, count, u64::MAX);
    write!(io::stdout().lock(), "{report}")?;
    Ok(ExitCode::from(u8::from(report.differences > 0)))
}

fn run_full(rest: &[String]) -> Result<ExitCode, Failure> {
    let mut fill = None;
    let mut seed = SEED;
    let mut words = rest.iter();
    while let Some(word) = words.next() {
        match word.as_str() {
            "--fill" => fill = Some(fill_value(value(word, &mut words)?)?),
            "--seed" => seed = seed_value(value(word, &mut words)?)?,
            other => return Err(wrong(format!("not known: {other}"))),
        }
    }
    let fill = fill.ok_or_else(|| wrong("--fill early|late is wanted"))?;
    let mut output = BufWriter::with_capacity(1 << 16, io::stdout().lock());
    full::write(seed, fill, Charge::NONE, MOST_BLOCKS, &mut output)?;
    output.flush()?;
    Ok(ExitCode::SUCCESS)
}

fn run_store(rest: &[String]) -> Result<ExitCode, Failure> {
    match rest {
        [folder] if !folder.starts_with("--") => {
            store::write(folder.as_ref())?;
            Ok(ExitCode::SUCCESS)
        }
        _ => Err(wrong("store takes one folder")),
    }
}

/// The word after an option.
fn value<'a>(
    option: &str,
    words: &mut impl Iterator<Item = &'a String>,
) -> Result<&'a str, Failure> {
    words
        .next()
        .map(String::as_str)
        .ok_or_else(|| wrong(format!("{option} wants a value")))
}

fn number(word: &str) -> Result<u64, Failure> {
    word.parse()
        .map_err(|_| wrong(format!("not a number: {word}")))
}

/// A seed, or one from the clock.
fn seed_value(word: &str) -> Result<u64, Failure> {
    if word != "random" {
        return number(word);
    }
    let clock = SystemTime::now().duration_since(UNIX_EPOCH);
    clock
        .map(|time| time.as_nanos() as u64)
        .map_err(|error| Failure::Io(io::Error::other(error)))
}

fn fill_value(word: &str) -> Result<Fill, Failure> {
    match word {
        "early" => Ok(Fill::Early),
        "late" => Ok(Fill::Late),
        other => Err(wrong(format!("no such fill: {other}"))),
    }
}
