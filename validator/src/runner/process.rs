//! Runs the program under test on one journal: the journal as its standard
//! input, its standard output kept. Files are used for both, so neither side
//! can wait for the other.

use std::fs::{self, DirBuilder, File};
use std::io;
use std::os::unix::fs::DirBuilderExt;
use std::path::{Path, PathBuf};
use std::process::{Child, Command, ExitStatus};
use std::thread;
use std::time::{Duration, Instant, SystemTime, UNIX_EPOCH};

/// A fresh folder of our own, removed at the end.
pub struct PrivateFolder {
    path: PathBuf,
}

impl PrivateFolder {
    pub fn new() -> io::Result<PrivateFolder> {
        let clock = SystemTime::now()
            .duration_since(UNIX_EPOCH)
            .map_or(0, |time| time.as_nanos());
        let name = format!("second-validator-{}-{clock}", std::process::id());
        let path = std::env::temp_dir().join(name);
        DirBuilder::new().mode(0o700).create(&path)?;
        Ok(PrivateFolder { path })
    }

    pub fn path(&self) -> &Path {
        &self.path
    }
}

impl Drop for PrivateFolder {
    fn drop(&mut self) {
        // Nothing is lost if this fails.
        let _ = fs::remove_dir_all(&self.path);
    }
}

/// What the program made of a journal.
pub struct Run {
    pub output: Vec<u8>,
    pub errors: Vec<u8>,
    /// Why the run does not count, whatever the output is.
    pub fault: Option<String>,
}

/// Where and how the program is run.
pub struct Runner {
    program: PathBuf,
    input: PathBuf,
    output: PathBuf,
    errors: PathBuf,
    limit: Duration,
}

impl Runner {
    /// A runner with files of its own in `folder`.
    pub fn new(program: &Path, folder: &Path, worker: usize, limit: Duration) -> Runner {
        let file = |kind: &str| folder.join(format!("worker_{worker}.{kind}"));
        Runner {
            program: program.to_path_buf(),
            input: file("journal"),
            output: file("output"),
            errors: file("errors"),
            limit,
        }
    }

    /// Runs the program. Output much longer than `expected` bytes ends it.
    pub fn run(&self, journal: &[u8], expected: usize) -> io::Result<Run> {
        fs::write(&self.input, journal)?;
        let mut child = Command::new(&self.program)
            .stdin(File::open(&self.input)?)
            .stdout(File::create(&self.output)?)
            .stderr(File::create(&self.errors)?)
            .spawn()?;
        let most = expected as u64 + (1 << 20);
        let fault = match self.wait(&mut child, most)? {
            Ended::By(status) => signal_fault(status),
            Ended::TooSlow => Some(format!("no end within {} s", self.limit.as_secs())),
            Ended::TooLong => Some("output without end".to_string()),
        };
        Ok(Run {
            output: read_up_to(&self.output, most)?,
            errors: read_up_to(&self.errors, 1 << 16)?,
            fault,
        })
    }

    /// Waits for the end, or brings it about.
    fn wait(&self, child: &mut Child, most: u64) -> io::Result<Ended> {
        let start = Instant::now();
        loop {
            if let Some(status) = child.try_wait()? {
                return Ok(Ended::By(status));
            }
            let elapsed = start.elapsed();
            if elapsed > self.limit {
                return stop(child, Ended::TooSlow);
            }
            if elapsed > Duration::from_millis(50) && fs::metadata(&self.output)?.len() > most {
                return stop(child, Ended::TooLong);
            }
            thread::sleep(pause(elapsed));
        }
    }
}

enum Ended {
    By(ExitStatus),
    TooSlow,
    TooLong,
}

fn stop(child: &mut Child, why: Ended) -> io::Result<Ended> {
    child.kill()?;
    child.wait()?;
    Ok(why)
}

/// Short pauses at first, since most runs take about a millisecond.
fn pause(elapsed: Duration) -> Duration {
    if elapsed < Duration::from_millis(20) {
        Duration::from_micros(100)
    } else {
        Duration::from_millis(2)
    }
}

/// The exit status is not laid down, but no run may end by a signal.
fn signal_fault(status: ExitStatus) -> Option<String> {
    match status.code() {
        Some(_) => None,
        None => Some(format!("ended by {status}")),
    }
}

fn read_up_to(path: &Path, most: u64) -> io::Result<Vec<u8>> {
    use std::io::Read;
    let mut bytes = Vec::new();
    File::open(path)?.take(most).read_to_end(&mut bytes)?;
    Ok(bytes)
}
