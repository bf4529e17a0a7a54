//! The differential runner: the program under test and the library list the
//! same journals, and every byte of the two listings must agree.

use std::fs;
use std::io::{self, Write};
use std::path::{Path, PathBuf};
use std::sync::atomic::{AtomicUsize, Ordering};
use std::sync::Mutex;
use std::thread;
use std::time::Duration;

use super::families::{self, Family, Plan, Sample};
use super::process::{PrivateFolder, Run, Runner};
use crate::listing::listing;

pub struct Options {
    pub program: PathBuf,
    pub plan: Plan,
    /// Where journals with differing listings are kept.
    pub keep: PathBuf,
    /// The time that a run on one journal may take.
    pub limit: Duration,
}

/// The counts of a run.
#[derive(Clone, Copy, Debug, Default, PartialEq, Eq)]
pub struct Tally {
    pub compared: usize,
    pub differ: usize,
}

/// Compares all families and reports on `out`.
pub fn compare(options: &Options, out: &mut impl Write) -> io::Result<Tally> {
    writeln!(out, "seed {}", options.plan.seed)?;
    let folder = PrivateFolder::new()?;
    let mut tally = Tally::default();
    families::each(&options.plan, |family| {
        let differ = compare_family(options, folder.path(), family)?;
        writeln!(out, "{}: {} compared", family.name(), family.count())?;
        out.flush()?;
        tally.compared += family.count();
        tally.differ += differ;
        io::Result::Ok(())
    })?;
    writeln!(out, "{} compared, {} differ", tally.compared, tally.differ)?;
    Ok(tally)
}

/// Compares one family with its workers. How many journals differ.
fn compare_family(options: &Options, folder: &Path, family: &dyn Family) -> io::Result<usize> {
    let next = AtomicUsize::new(0);
    let differ = AtomicUsize::new(0);
    let failure = Mutex::new(None);
    thread::scope(|scope| {
        for worker in 0..family.workers() {
            let runner = Runner::new(&options.program, folder, worker, options.limit);
            let (next, differ, failure) = (&next, &differ, &failure);
            scope.spawn(move || loop {
                let index = next.fetch_add(1, Ordering::Relaxed);
                if index >= family.count() {
                    break;
                }
                let sample = family.sample(index);
                match compare_one(&runner, options, family.name(), &sample) {
                    Ok(true) => (),
                    Ok(false) => {
                        differ.fetch_add(1, Ordering::Relaxed);
                    }
                    Err(error) => {
                        // The others stop too: the run itself has failed.
                        next.store(family.count(), Ordering::Relaxed);
                        *failure.lock().expect("no worker panics") = Some(error);
                    }
                }
            });
        }
    });
    match failure.into_inner().expect("no worker panics") {
        Some(error) => Err(error),
        None => Ok(differ.into_inner()),
    }
}

/// Whether the two listings of a journal agree; if not they are kept.
fn compare_one(
    runner: &Runner,
    options: &Options,
    family: &str,
    sample: &Sample,
) -> io::Result<bool> {
    let expected = listing(&sample.journal);
    let run = runner.run(&sample.journal, expected.len())?;
    let reason = match &run.fault {
        Some(fault) => fault.clone(),
        None if run.output == expected => return Ok(true),
        None => first_difference(&expected, &run.output),
    };
    let name = format!("{family}_{}", sample.name);
    eprintln!("differs: {name}: {reason}");
    keep(&options.keep, &name, sample, &expected, &run, &reason)?;
    Ok(false)
}

/// Names the first line in which two listings differ.
fn first_difference(expected: &[u8], got: &[u8]) -> String {
    let mut ours = expected.split_inclusive(|&byte| byte == b'\n');
    let mut theirs = got.split_inclusive(|&byte| byte == b'\n');
    let mut line = 1;
    loop {
        let (our, their) = (ours.next(), theirs.next());
        if our != their || our.is_none() {
            return format!("line {line}: {} but {}", shown(our), shown(their));
        }
        line += 1;
    }
}

fn shown(line: Option<&[u8]>) -> String {
    match line {
        Some(bytes) => format!(
            "{:?}",
            String::from_utf8_lossy(&bytes[..bytes.len().min(120)])
        ),
        None => "nothing".to_string(),
    }
}

fn keep(
    folder: &Path,
    name: &str,
    sample: &Sample,
    expected: &[u8],
    run: &Run,
    reason: &str,
) -> io::Result<()> {
    fs::create_dir_all(folder)?;
    let file = |kind: &str| folder.join(format!("{name}.{kind}"));
    fs::write(file("journal"), &sample.journal)?;
    fs::write(file("listing"), expected)?;
    fs::write(file("other"), &run.output)?;
    fs::write(file("reason"), format!("{reason}\n"))?;
    if !run.errors.is_empty() {
        fs::write(file("errors"), &run.errors)?;
    }
    Ok(())
}
