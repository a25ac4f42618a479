//! Counts of what happened in runs, to see what a set of files reaches.

use std::collections::BTreeMap;
use std::fmt;

use crate::dialect::Instruction;
use crate::watch::{Doing, FrameEnd, Note, Watch};

/// What is counted. The order of the cases is the order of the table.
#[derive(Clone, Copy, Debug, PartialEq, Eq, PartialOrd, Ord)]
enum Key {
    Opened,
    OpeningFault(u8),
    Letter(u8),
    Result(u8, u8),
    Accepted(Instruction),
    Opcode(Doing),
    Cut { charged: bool, found: Doing },
    Frame(FrameEnd),
    Put,
    Keep,
    Recall,
    Fade,
    HeldByte,
    PageChange,
    LongWrite,
}

impl fmt::Display for Key {
    fn fmt(&self, f: &mut fmt::Formatter) -> fmt::Result {
        match self {
            Self::Opened => write!(f, "opened"),
            Self::OpeningFault(number) => write!(f, "F {number}"),
            Self::Letter(letter) => write!(f, "{}", char::from(*letter)),
            Self::Result(letter, number) => write!(f, "{} {number}", char::from(*letter)),
            Self::Accepted(instruction) => write!(f, "accepted {}", words(instruction)),
            Self::Opcode(doing) => write!(f, "opcode {}", words(doing)),
            Self::Cut { charged, found } => {
                write!(f, "cut {} {}", if *charged { "charged" } else { "uncharged" }, words(found))
            }
            Self::Frame(end) => write!(f, "frame {}", words(end)),
            Self::Put => write!(f, "puts"),
            Self::Keep => write!(f, "keeps"),
            Self::Recall => write!(f, "recalls"),
            Self::Fade => write!(f, "fades"),
            Self::HeldByte => write!(f, "held bytes"),
            Self::PageChange => write!(f, "page changes"),
            Self::LongWrite => write!(f, "long writes"),
        }
    }
}

/// The name of a case in small letters, with a space between its words.
fn words(case: impl fmt::Debug) -> String {
    let mut words = String::new();
    for letter in format!("{case:?}").chars() {
        if letter.is_uppercase() && !words.is_empty() {
            words.push(' ');
        }
        words.extend(letter.to_lowercase());
    }
    words
}

/// The numbers that could be thought of for each letter, also those that the bounds of the records shut out.
const RESULTS: [(u8, &[u8]); 6] = [
    (b'T', &[0, 1, 2, 3, 4, 5, 10, 11, 12, 13, 14, 15, 16, 17, 35]),
    (b'K', &[0, 1, 2, 35]),
    (b'C', &[0, 1, 2, 35]),
    (b'H', &[0, 35]),
    (b'P', &[0, 1, 6, 35]),
    (b'?', &[34]),
];

const INSTRUCTIONS: [Instruction; 11] = [
    Instruction::Enable,
    Instruction::Disable,
    Instruction::ReadStatus,
    Instruction::WriteStatus,
    Instruction::Read,
    Instruction::Write,
    Instruction::SecureRead,
    Instruction::SecureWrite,
    Instruction::Store,
    Instruction::Recall,
    Instruction::Nothing,
];

pub struct Tally {
    counts: BTreeMap<Key, u64>,
}

impl Default for Tally {
    /// A table with a row for everything, so that what is never reached shows as 0.
    fn default() -> Self {
        use Key::*;
        let mut keys = vec![Opened, Put, Keep, Recall, Fade, HeldByte, PageChange, LongWrite];
        keys.extend([31, 32, 33].map(OpeningFault));
        for (letter, numbers) in RESULTS {
            keys.push(Letter(letter));
            keys.extend(numbers.iter().map(|&number| Result(letter, number)));
        }
        keys.extend(INSTRUCTIONS.map(Accepted));
        for found in [Doing::Idle, Doing::Storing, Doing::Recalling, Doing::Waking] {
            keys.push(Opcode(found));
            keys.extend([false, true].map(|charged| Cut { charged, found }));
        }
        keys.extend([FrameEnd::Right, FrameEnd::Wrong, FrameEnd::Protected].map(Frame));
        Self { counts: keys.into_iter().map(|key| (key, 0)).collect() }
    }
}

impl Tally {
    fn count(&mut self, key: Key) {
        *self.counts.entry(key).or_default() += 1;
    }
}

impl Watch for Tally {
    fn note(&mut self, note: Note) {
        let key = match note {
            Note::Put { .. } => Key::Put,
            Note::Keep { .. } => Key::Keep,
            Note::Recall { .. } => Key::Recall,
            Note::Fade => Key::Fade,
            Note::Opcode(doing) => Key::Opcode(doing),
            Note::Accepted(instruction) => Key::Accepted(instruction),
            Note::Cut { charged, found } => Key::Cut { charged, found },
            Note::Frame(end) => Key::Frame(end),
            Note::HeldByte => Key::HeldByte,
            Note::PageChange => Key::PageChange,
            Note::LongWrite => Key::LongWrite,
            Note::Opened => Key::Opened,
            Note::OpeningFault(number) => Key::OpeningFault(number),
            Note::Record { letter, result } => {
                self.count(Key::Letter(letter));
                Key::Result(letter, result)
            }
        };
        self.count(key);
    }
}

impl fmt::Display for Tally {
    fn fmt(&self, f: &mut fmt::Formatter) -> fmt::Result {
        self.counts.iter().try_for_each(|(key, count)| writeln!(f, "{key} {count}"))
    }
}
