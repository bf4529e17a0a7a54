//! A paying desk that sees the home ledger alone. It takes records one by one, hands goods over where a record passed and pays the
//! desk, says why not otherwise, shows what a payment to the far ledger costs before it is made, keeps its state in a file and takes it
//! up again, warns when the ledger has few places left, and closes when it has none.
//!
//!     cargo run --example desk STATE_FILE
//!
//! The file has the layout's version in 4 bytes, the state, and the SHA-256 of both. What guards a stored state:
//! - The digest finds damage, and a change by anyone who cannot write the digest too.
//! - Refusal 3 says that a state's numbers fit together, and no more. It does not see two balances exchanged, a balance raised together
//!   with the supply or at the far pool's cost, another rate or charge account, held records left out, so that they pass again, or an
//!   older state put back.
//! - Neither finds a forger who rewrites state and digest to fit, or who puts an older pair of them back. Keep the latest digest where
//!   nobody else can write it.

use moatbetony::{sha256, state_version, Answer, HomeFigures, HomeValidator, Kind, Ledger, Record, Refusal, Tariff, CAPACITY};
use std::error::Error;
use std::fs::{self, File};
use std::io::Write;
use std::path::{Path, PathBuf};

type Outcome<T> = Result<T, Box<dyn Error>>;

// The desk's account, what its goods cost, and below how many places it warns.
const OURS: u16 = 1;
const PRICE: u64 = 30;
const FEW_PLACES: u64 = 50;

// What home's network takes of a sending, in ten-thousandths, and its account.
const RATE: u64 = 50;
const CHARGE_ACCOUNT: u16 = 3;

// Where a state's balances and its count of held records stand in its bytes (include/moatbetony.h). Only somebody who alters a state
// needs to know.
const BALANCES: usize = 8 * 2048;
const COUNT: usize = 8 * 2108;

struct Desk {
    path: PathBuf,
    validator: HomeValidator,
}

impl Desk {
    fn open(path: &Path) -> Outcome<Desk> {
        let tariff = Tariff { rate: RATE, charge_account: CHARGE_ACCOUNT.into() };
        let desk = Desk { path: path.into(), validator: HomeValidator::open(&[100, 500, 0, 0], 1, 20, tariff)? };
        desk.store()?;
        Ok(desk)
    }

    fn store(&self) -> Outcome<()> {
        write_file(&self.path, &sealed(self.validator.as_bytes()))
    }

    // The stored state, if its layout is the library's and its digest agrees.
    fn take_up(path: &Path) -> Outcome<Option<Desk>> {
        let bytes = fs::read(path)?;
        let state = bytes.get(4..4 + HomeValidator::STATE_SIZE).ok_or("the state could not be read")?;
        if bytes != sealed(state) {
            return Ok(None);
        }
        Ok(HomeValidator::from_bytes(state).map(|validator| Desk { path: path.into(), validator }))
    }

    fn print_figures(&self, label: &str) {
        match (self.validator.figures(), self.validator.balance(CHARGE_ACCOUNT)) {
            (Ok(HomeFigures { home, pool }), Ok(charges)) => {
                println!("{label}: home {home}, of it {charges} on the charge account, far pool {pool}")
            }
            (Err(refusal), _) | (_, Err(refusal)) => print_refused(label, refusal),
        }
    }

    // Whether the ledger has a place for a customer's record; if not, says why. With none left the desk is closed: no record makes room
    // again, and the networks make a new opening together, which takes time. So it warns before. A state that is refused tells nothing
    // of the ledger's places.
    fn is_open(&self, label: &str) -> bool {
        match self.validator.places_left() {
            Err(refusal) => print_refused(label, refusal),
            Ok(0) => println!("{label}: no place left, closed until the networks make a new opening"),
            Ok(places) => {
                if places < FEW_PLACES {
                    println!("warning: places left: {places} of {CAPACITY}, a new opening is due");
                }
                return true;
            }
        }
        false
    }

    // Every customer comes here. Looks whether the desk is open, and takes the bytes that came over the wire, beside what the host's
    // own check of their signature found. That finding goes into byte 24, over what the sender wrote there. Bytes that are not as long
    // as a record are refused as they are. The state is stored before goods are handed over, so that a desk that is started again
    // refuses the same record.
    fn serve(&mut self, label: &str, came_in: &[u8], signature_good: bool) -> Outcome<()> {
        if !self.is_open(label) {
            return Ok(());
        }
        let mut own = [0; Record::SIZE];
        let mut bytes = came_in;
        if came_in.len() == own.len() {
            own.copy_from_slice(came_in);
            own[24] = signature_good.into();
            bytes = &own;
        }
        match self.validator.take(bytes) {
            Answer::Passed => {
                self.store()?;
                let paid = pays_us(&Record::read(bytes)?);
                let what = if paid { "handed over" } else { "but does not pay us the price, nothing handed over" };
                println!("{label}: passed, {what}");
            }
            Answer::Refused { refusal, .. } => print_refused(label, refusal),
        }
        Ok(())
    }

    // Records as one list, all or none, whose signatures the host found good. Stored like everything that passed, before anything is
    // said of it.
    fn serve_list(&mut self, label: &str, list: &mut [[u8; Record::SIZE]]) -> Outcome<()> {
        if !self.is_open(label) {
            return Ok(());
        }
        for record in &mut *list {
            record[24] = 1;
        }
        match self.validator.take_list(&list.concat()) {
            Answer::Passed => {
                self.store()?;
                let mut paid = 0;
                for record in &*list {
                    paid += u64::from(pays_us(&Record::read(record)?));
                }
                println!("{label}: passed, handed over for {paid} of {}", list.len());
            }
            Answer::Refused { refusal, place } => {
                println!("{label}: refused with {} at record {place}, nothing of it is kept", refusal.number())
            }
        }
        Ok(())
    }

    // A payment of ours to far account 0. Before it is signed it shows what leaves our account, which is the amount and home's charge on
    // it, and what we have.
    fn pay_out(&mut self, label: &str, number: u64, amount: u64) -> Outcome<()> {
        let ours = self.validator.balance(OURS)?;
        let charge = self.validator.tariff()?.charge(amount)?;
        println!("{label}: costs {} with its charge of {charge}; we have {ours}", amount + charge);
        self.serve(label, &wire(Kind::Sending, Ledger::Home, OURS, 0, number, amount)?, true)
    }

    fn serve_customers(&mut self) -> Outcome<()> {
        let home = |kind, sender, receiver, number, amount| wire(kind, Ledger::Home, sender, receiver, number, amount);
        self.serve("a payment of 30", &payment(1, 30)?, true)?;
        self.serve("the same record again", &payment(1, 30)?, true)?;
        self.serve("a payment of 500", &payment(2, 500)?, true)?;
        self.serve("a payment to account 9", &home(Kind::Local, 0, 9, 2, 30)?, true)?;
        self.serve("a payment from account 9", &home(Kind::Local, 9, OURS, 2, 30)?, true)?;
        self.serve("a payment from account 9 to account 9", &home(Kind::Local, 9, 9, 2, 30)?, true)?;
        self.serve("a sending to far account 1", &home(Kind::Sending, OURS, 1, 2, 30)?, true)?;
        self.serve("a payment with a bad signature", &payment(2, 30)?, false)?;
        self.serve("a payment cut off after 31 bytes", &payment(2, 30)?[..31], true)?;
        self.serve("a record of the far ledger", &wire(Kind::Local, Ledger::Far, 0, 0, 2, 30)?, true)?;
        self.serve("a payment of 1", &payment(2, 1)?, true)?;
        self.serve("a payment to somebody else", &home(Kind::Local, 0, 2, 3, 30)?, true)?;
        self.serve("a payment of the customer to itself", &home(Kind::Local, 0, 0, 4, 30)?, true)?;
        self.serve("a payment of our account to itself", &home(Kind::Local, OURS, OURS, 5, 30)?, true)?;
        self.serve("an arrival of 21, above the far pool of 20", &home(Kind::Arrival, 0, OURS, 6, 21)?, true)?;
        self.pay_out("a sending of 530", 7, 530)?;
        self.pay_out("a sending of 400", 7, 400)?;
        // Arrivals' numbers are counted apart: the number of a payment does not stop one, that of an arrival does.
        let arrival = home(Kind::Arrival, 0, OURS, 1, 420)?;
        self.serve("an arrival of 420, now in the far pool, under the first payment's number", &arrival, true)?;
        self.serve("the same arrival again", &arrival, true)?;
        self.serve("a sending under that number", &home(Kind::Sending, OURS, 0, 1, 30)?, true)?;
        self.serve("an arrival of 1 more", &home(Kind::Arrival, 0, OURS, 8, 1)?, true)?;

        self.serve_list("a list of 10 and 500", &mut [payment(9, 10)?, payment(10, 500)?])
    }

    // A day that fills the ledger: records of our account to itself on all places but one, as one list, and then two customers more. A
    // desk that did not look would learn from refusal 41 that the ledger is full, with the customer standing there.
    fn busy_day(&mut self) -> Outcome<()> {
        let places = self.validator.places_left()?;
        println!("places left: {places} of {CAPACITY}");
        let mut list = Vec::new();
        for number in 1000..1000 + places - 1 {
            list.push(wire(Kind::Local, Ledger::Home, OURS, OURS, number, 1)?);
        }
        self.serve_list("a list of all but one", &mut list)?;
        self.serve("a payment of 30 at the last place", &payment(2000, 30)?, true)?;
        self.serve("a payment of 1 after it", &payment(2001, 1)?, true)?;
        match self.validator.take(&payment(2001, 1)?) {
            Answer::Passed => return Err("a full ledger took a record".into()),
            Answer::Refused { refusal, .. } => print_refused("the same, had nobody looked", refusal),
        }
        Ok(())
    }
}

fn print_refused(label: &str, refusal: Refusal) {
    println!("{label}: refused with {}, {refusal}", refusal.number());
}

// Whether a record that passed pays the desk the price. One account paying itself, or somebody else, passes too.
fn pays_us(record: &Record) -> bool {
    let comes_in = match record.kind {
        Kind::Local => record.sender != OURS,
        Kind::Sending => false,
        Kind::Arrival => true,
    };
    record.ledger == Ledger::Home && comes_in && record.receiver == OURS && record.amount >= PRICE
}

// The file of a state: the layout's version, the state, and the digest of both.
fn sealed(state: &[u8]) -> Vec<u8> {
    let mut bytes = state_version().to_be_bytes().to_vec();
    bytes.extend(state);
    let digest = sha256(&bytes);
    bytes.extend(digest);
    bytes
}

// The old file stays whole until the new one is put in its place; once the folder is written to the disk, the new one stays there.
fn write_file(path: &Path, bytes: &[u8]) -> Outcome<()> {
    let mut fresh = path.to_path_buf().into_os_string();
    fresh.push(".new");
    let mut file = File::create(&fresh)?;
    file.write_all(bytes)?;
    file.sync_all()?;
    fs::rename(fresh, path)?;
    let folder = path.parent().filter(|folder| !folder.as_os_str().is_empty());
    File::open(folder.unwrap_or(Path::new(".")))?.sync_all()?;
    Ok(())
}

// A record as its sender wrote it, who always says that the signature is good.
fn wire(kind: Kind, ledger: Ledger, sender: u16, receiver: u16, number: u64, amount: u64) -> Outcome<[u8; Record::SIZE]> {
    Ok(Record { kind, ledger, sender, receiver, number, amount, verified: true }.encode()?)
}

fn payment(number: u64, amount: u64) -> Outcome<[u8; Record::SIZE]> {
    wire(Kind::Local, Ledger::Home, 0, OURS, number, amount)
}

// Stores a good state, alters it in its file, with a digest made anew or not, and lets the desk take it up and serve a payment of 30
// under a number.
fn tamper(good: &Desk, label: &str, change: fn(&mut [u8]), with_digest: bool, number: u64) -> Outcome<()> {
    good.store()?;
    let mut bytes = fs::read(&good.path)?;
    let end = bytes.len() - 32;
    change(&mut bytes[4..end]);
    if with_digest {
        bytes = sealed(&bytes[4..end]);
    }
    write_file(&good.path, &bytes)?;

    match Desk::take_up(&good.path)? {
        Some(mut desk) => desk.serve(label, &payment(number, 30)?, true)?,
        None => println!("{label}: the digest differs, not taken up"),
    }
    Ok(())
}

fn raise_a_balance(state: &mut [u8]) {
    let balance = &mut state[BALANCES..BALANCES + 8];
    let raised = u64::from_le_bytes(balance.try_into().expect("8 bytes")) + 1000;
    balance.copy_from_slice(&raised.to_le_bytes());
}

fn exchange_balances(state: &mut [u8]) {
    state[BALANCES..BALANCES + 16].rotate_left(8);
}

fn leave_records_out(state: &mut [u8]) {
    state[COUNT..COUNT + 8].fill(0);
}

fn main() -> Outcome<()> {
    let path = PathBuf::from(std::env::args_os().nth(1).ok_or("usage: desk STATE_FILE")?);
    let (yesterdays, fresh) = (1, 11);

    let mut desk = Desk::open(&path)?;
    let first_file = fs::read(&path)?;
    desk.print_figures("opened");
    desk.serve_customers()?;
    desk.print_figures("at closing time");
    drop(desk);

    let mut desk = Desk::take_up(&path)?.ok_or("the stored state was not taken up")?;
    desk.print_figures("the next day, taken up from the file");
    desk.serve("yesterday's payment of 30 again", &payment(yesterdays, 30)?, true)?;
    // A copy, and the desk goes on below from before that day.
    Desk { path: path.clone(), validator: desk.validator.clone() }.busy_day()?;

    println!("a payment of 30, after somebody altered the file:");
    tamper(&desk, "a balance raised", raise_a_balance, false, fresh)?;
    tamper(&desk, "a balance raised, and the digest made anew", raise_a_balance, true, fresh)?;
    tamper(&desk, "two balances exchanged", exchange_balances, false, fresh)?;
    tamper(&desk, "two balances exchanged, and the digest made anew", exchange_balances, true, fresh)?;
    let label = "held records left out, and yesterday's payment again";
    tamper(&desk, label, leave_records_out, false, yesterdays)?;
    let label = "held records left out, the digest made anew, and yesterday's payment again";
    tamper(&desk, label, leave_records_out, true, yesterdays)?;
    write_file(&path, &first_file)?;
    let mut desk = Desk::take_up(&path)?.ok_or("the first file was not taken up")?;
    desk.serve("the first file put back, and yesterday's payment again", &payment(yesterdays, 30)?, true)?;
    println!("refusal 3 does not see two balances exchanged or held records left out, which the digest does.");
    println!("neither sees who makes the digest anew or puts an older file back:");
    println!("keep the latest digest where nobody else can write it.");
    Ok(())
}
