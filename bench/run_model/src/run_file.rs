//! Run files: recorded sessions that are played on a part, with a printed line for each record.

use std::io::Write;

use crate::cells::Cells;
use crate::dialect::Dialect;
use crate::machine::Part;
use crate::refusal::{Answer, Refusal};
use crate::watch::{Note, Watch};

/// The most bytes that a file may have. One more is read, so that a longer file is noticed.
pub const LONGEST: usize = 65_535;
const MOST_RECORDS: usize = 1_024;

/// Why a file does not open, and the place in it where that shows.
#[derive(Clone, Copy, Debug, PartialEq, Eq)]
pub struct OpeningFault {
    pub number: u8,
    pub place: usize,
}

const NO_TABLE: OpeningFault = OpeningFault { number: 31, place: 0 };

/// A file whose table is sound.
pub struct RunFile<'a> {
    bytes: &'a [u8],
    count: usize,
}

/// The number of two bytes at a place.
fn number_at(bytes: &[u8], place: usize) -> usize {
    usize::from(bytes[place]) << 8 | usize::from(bytes[place + 1])
}

fn table_end(count: usize) -> usize {
    2 + 4 * count
}

impl<'a> RunFile<'a> {
    /// Looks at the table only. What the records hold is found out when they are played.
    pub fn open(bytes: &'a [u8]) -> Result<Self, OpeningFault> {
        if bytes.len() > LONGEST || bytes.len() < 2 {
            return Err(NO_TABLE);
        }
        let count = number_at(bytes, 0);
        if count > MOST_RECORDS || bytes.len() < table_end(count) {
            return Err(NO_TABLE);
        }
        let file = Self { bytes, count };
        file.check_pairs()?;
        Ok(file)
    }

    fn check_pairs(&self) -> Result<(), OpeningFault> {
        let mut earliest = table_end(self.count);
        for index in 0..self.count {
            let (offset, length) = self.pair(index);
            let fault = |number| OpeningFault { number, place: table_end(index) };
            if length == 0 || offset < earliest {
                return Err(fault(32));
            }
            if offset + length > self.bytes.len() {
                return Err(fault(33));
            }
            earliest = offset + length;
        }
        Ok(())
    }

    /// The offset and the length of a record.
    fn pair(&self, index: usize) -> (usize, usize) {
        // A table of `index` pairs ends where the pair with that number stands.
        let place = table_end(index);
        (number_at(self.bytes, place), number_at(self.bytes, place + 2))
    }

    pub fn records(&self) -> impl Iterator<Item = &'a [u8]> + '_ {
        (0..self.count).map(|index| {
            let (offset, length) = self.pair(index);
            &self.bytes[offset..offset + length]
        })
    }
}

/// What a record stands for.
#[derive(Clone, Copy, Debug, PartialEq, Eq)]
pub enum Record<'a> {
    Transfer { clocks: u8, bytes: &'a [u8] },
    Ticks(u8),
    Cut { charged: bool },
    Hold(bool),
    PowerUp,
}

impl<'a> Record<'a> {
    /// Reads a record, or answers the number of its fault: 34 for an unknown letter, 35 for anything wrong behind a known one.
    pub fn read(record: &'a [u8]) -> Result<Self, u8> {
        match record {
            [b'T', clocks @ 0..=7, bytes @ ..] => Ok(Self::Transfer { clocks: *clocks, bytes }),
            [b'K', ticks @ 1..=255] => Ok(Self::Ticks(*ticks)),
            [b'C', charged @ 0..=1] => Ok(Self::Cut { charged: *charged == 1 }),
            [b'H', held @ 0..=1] => Ok(Self::Hold(*held == 1)),
            [b'P'] => Ok(Self::PowerUp),
            [b'T' | b'K' | b'C' | b'H' | b'P', ..] => Err(35),
            _ => Err(34),
        }
    }
}

/// The letter that is printed for a record: its own, if it is one of the five.
fn printed_letter(record: &[u8]) -> u8 {
    match record.first() {
        Some(&letter @ (b'T' | b'K' | b'C' | b'H' | b'P')) => letter,
        _ => b'?',
    }
}

fn number_of(answer: Answer) -> u8 {
    answer.map_or_else(Refusal::number, |()| 0)
}

/// Plays a file on a part and adds what is to be printed to `out`.
pub fn play<D: Dialect, C: Cells, W: Watch>(bytes: &[u8], part: &mut Part<D, C, W>, out: &mut Vec<u8>) {
    match RunFile::open(bytes) {
        Ok(file) => {
            part.watch().note(Note::Opened);
            let mut player = Player { part, held: false, tail: Vec::new() };
            for (index, record) in file.records().enumerate() {
                player.line(index, record, out);
            }
        }
        Err(fault) => {
            part.watch().note(Note::OpeningFault(fault.number));
            print(out, format_args!("F {} {}\n", fault.number, fault.place));
        }
    }
}

fn print(out: &mut Vec<u8>, what: std::fmt::Arguments) {
    out.write_fmt(what).expect("a vector takes all that is written to it");
}

struct Player<'p, D, C, W> {
    part: &'p mut Part<D, C, W>,
    held: bool,
    /// What a line has behind its result. The result is known last but printed first; this buffer is used for all lines.
    tail: Vec<u8>,
}

impl<D: Dialect, C: Cells, W: Watch> Player<'_, D, C, W> {
    fn line(&mut self, index: usize, record: &[u8], out: &mut Vec<u8>) {
        self.tail.clear();
        let result = match Record::read(record) {
            Ok(record) => number_of(self.carry_out(record)),
            Err(number) => number,
        };
        let letter = printed_letter(record);
        print(out, format_args!("{index} {} {result}", char::from(letter)));
        out.extend_from_slice(&self.tail);
        out.push(b'\n');
        self.part.watch().note(Note::Record { letter, result });
    }

    fn carry_out(&mut self, record: Record) -> Answer {
        match record {
            Record::Transfer { clocks, bytes } => self.transfer(clocks, bytes),
            Record::Ticks(ticks) => self.ticks(ticks),
            Record::Cut { charged } => self.part.cut(charged),
            Record::PowerUp => self.part.power_up(),
            Record::Hold(held) => {
                self.held = held;
                Ok(())
            }
        }
    }

    fn transfer(&mut self, clocks: u8, bytes: &[u8]) -> Answer {
        self.part.select()?;
        self.tail.reserve(3 * bytes.len());
        for &byte in bytes {
            match self.part.byte(byte, self.held) {
                Ok(Some(driven)) => self.tail.extend_from_slice(&[b' ', hex(driven >> 4), hex(driven & 15)]),
                // A selected part refuses no byte, so this is a byte at which nothing was driven.
                Ok(None) | Err(_) => self.tail.extend_from_slice(b" --"),
            }
        }
        self.part.release(clocks)
    }

    fn ticks(&mut self, ticks: u8) -> Answer {
        let mut to_go = 0;
        for _ in 0..ticks {
            to_go = self.part.tick()?;
        }
        print(&mut self.tail, format_args!(" {to_go}"));
        Ok(())
    }
}

fn hex(digit: u8) -> u8 {
    b"0123456789ABCDEF"[usize::from(digit)]
}
