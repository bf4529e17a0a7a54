//! Paper 01, "Cases": the lines that `crosslist` prints for a journal.
//! The memory used does not depend on the journal's length.

use std::io::{self, BufReader, ErrorKind, Read, Write};

use crate::answer::Answer;
use crate::charge::Charge;
use crate::journal::{self, BLOCK};
use crate::record::{number_of, Ledger};
use crate::running::RunningBook;

/// Size of the buffers for reading and writing.
const BUFFER: usize = 64 * 1024;

const HEADER: &[u8] = b"record number answer home far flight\n";

/// Lists the journal read from `input` on `output`.
pub fn list(input: impl Read, output: impl Write) -> io::Result<()> {
    let mut input = BufReader::with_capacity(BUFFER, input);
    let mut lines = Lines::new(output);
    lines.text(HEADER);
    let listed = list_blocks(&mut input, &mut lines);
    lines.flush()?;
    listed
}

/// The listing of a journal that is at hand.
pub fn listing(journal: &[u8]) -> Vec<u8> {
    let mut out = Vec::new();
    list(journal, &mut out).expect("reading and writing memory does not fail");
    out
}

fn list_blocks(input: &mut impl Read, lines: &mut Lines<impl Write>) -> io::Result<()> {
    let Some(mut book) = open(input, lines)? else {
        return Ok(());
    };
    lines.opening(&book);
    let mut block = [0; BLOCK];
    let mut before = 0;
    let mut index = 0;
    for block_number in 2.. {
        let length = read_block(input, &mut block)?;
        if length == 0 {
            break;
        }
        let answer = journal::judge_block(&block[..length], block_number, before);
        if let Answer::Refused { number, place } = answer {
            lines.fault(number, place);
            break;
        }
        for record in journal::records(&block) {
            let refused = book.call(record);
            if refused.is_none() {
                lines.set_totals(&book);
            }
            lines.record(index, number_of(record), refused.unwrap_or(0))?;
            index += 1;
        }
        before = journal::count(&block) as u64;
    }
    Ok(())
}

/// Opens the book with blocks 0 and 1; a fault is listed.
fn open(input: &mut impl Read, lines: &mut Lines<impl Write>) -> io::Result<Option<RunningBook>> {
    let mut block = [0; BLOCK];
    let mut stakes = [Vec::new(), Vec::new()];
    let mut charge = Charge::NONE;
    for (block_number, ledger) in (0..).zip(Ledger::BOTH) {
        let length = read_block(input, &mut block)?;
        let answer = journal::judge_block(&block[..length], block_number, 0);
        if let Answer::Refused { number, place } = answer {
            lines.fault(number, place);
            return Ok(None);
        }
        if ledger == Ledger::Home {
            charge = journal::charge(&block, block_number);
        }
        stakes[ledger.index()] = journal::stakes(&block);
    }
    match RunningBook::open(&stakes[0], &stakes[1], charge) {
        Ok(book) => Ok(Some(book)),
        Err(number) => {
            lines.fault(number, 1);
            Ok(None)
        }
    }
}

/// Reads a block, or what is left of the input: short reads are gone on with.
/// The length read.
fn read_block(input: &mut impl Read, block: &mut [u8; BLOCK]) -> io::Result<usize> {
    let mut length = 0;
    while length < BLOCK {
        match input.read(&mut block[length..]) {
            Ok(0) => break,
            Ok(more) => length += more,
            Err(error) if error.kind() == ErrorKind::Interrupted => (),
            Err(error) => return Err(error),
        }
    }
    Ok(length)
}

/// The lines on their way out.
struct Lines<W: Write> {
    output: W,
    buffer: Vec<u8>,
    /// The last three fields with the line feed, as they now stand.
    totals: Vec<u8>,
}

impl<W: Write> Lines<W> {
    fn new(output: W) -> Lines<W> {
        Lines {
            output,
            buffer: Vec::with_capacity(2 * BUFFER),
            totals: Vec::new(),
        }
    }

    fn text(&mut self, text: &[u8]) {
        self.buffer.extend_from_slice(text);
    }

    fn set_totals(&mut self, book: &RunningBook) {
        self.totals.clear();
        let home = book.total(Ledger::Home);
        let far = book.total(Ledger::Far);
        for figure in [home, far, book.in_flight()] {
            self.totals.push(b' ');
            push_decimal(&mut self.totals, figure);
        }
        self.totals.push(b'\n');
    }

    fn opening(&mut self, book: &RunningBook) {
        self.set_totals(book);
        self.buffer.extend_from_slice(b"open - 0");
        self.buffer.extend_from_slice(&self.totals);
    }

    fn record(&mut self, index: u64, number: u64, answer: u8) -> io::Result<()> {
        push_decimal(&mut self.buffer, index);
        self.buffer.push(b' ');
        push_hexadecimal(&mut self.buffer, number);
        self.buffer.push(b' ');
        push_decimal(&mut self.buffer, u64::from(answer));
        self.buffer.extend_from_slice(&self.totals);
        if self.buffer.len() >= BUFFER {
            self.pass_on()?;
        }
        Ok(())
    }

    fn fault(&mut self, number: u8, block: u64) {
        self.buffer.extend_from_slice(b"fault ");
        push_decimal(&mut self.buffer, u64::from(number));
        self.buffer.push(b' ');
        push_decimal(&mut self.buffer, block);
        self.buffer.push(b'\n');
    }

    fn pass_on(&mut self) -> io::Result<()> {
        self.output.write_all(&self.buffer)?;
        self.buffer.clear();
        Ok(())
    }

    fn flush(&mut self) -> io::Result<()> {
        self.pass_on()?;
        self.output.flush()
    }
}

fn push_decimal(out: &mut Vec<u8>, mut figure: u64) {
    let mut digits = [0; 20];
    let mut start = digits.len();
    loop {
        start -= 1;
        digits[start] = b'0' + (figure % 10) as u8;
        figure /= 10;
        if figure == 0 {
            break;
        }
    }
    out.extend_from_slice(&digits[start..]);
}

fn push_hexadecimal(out: &mut Vec<u8>, number: u64) {
    let mut digits = [0; 16];
    for (place, digit) in digits.iter_mut().enumerate() {
        let four_bits = (number >> (60 - 4 * place)) & 15;
        *digit = b"0123456789abcdef"[four_bits as usize];
    }
    out.extend_from_slice(&digits);
}
