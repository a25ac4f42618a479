//! A window into a run, for tests and tallies. It never influences what a part does.

use crate::dialect::Instruction;

/// What a part that is on is doing, without its place.
#[derive(Clone, Copy, Debug, PartialEq, Eq, PartialOrd, Ord)]
pub enum Doing {
    Idle,
    Storing,
    Recalling,
    Waking,
}

/// How a secure frame of the right length, without leftover clocks, came out.
#[derive(Clone, Copy, Debug, PartialEq, Eq, PartialOrd, Ord)]
pub enum FrameEnd {
    Right,
    Wrong,
    Protected,
}

/// Something that happened in a run. The first four are the events that reach the cells.
#[derive(Clone, Copy, Debug, PartialEq, Eq)]
pub enum Note {
    Put {
        address: usize,
        value: u8,
    },
    Keep {
        page: usize,
    },
    Recall {
        page: usize,
    },
    Fade,
    /// An opcode arrived while the part was doing this.
    Opcode(Doing),
    Accepted(Instruction),
    Cut {
        charged: bool,
        found: Doing,
    },
    Frame(FrameEnd),
    HeldByte,
    /// A write that runs on has filled a page.
    PageChange,
    /// A write of more than 64 data bytes was released.
    LongWrite,
    Opened,
    OpeningFault(u8),
    /// A record with this printed letter came to this result.
    Record {
        letter: u8,
        result: u8,
    },
}

pub trait Watch {
    fn note(&mut self, note: Note);
}

/// Nobody watches. The compiler drops these notes altogether.
impl Watch for () {
    fn note(&mut self, _note: Note) {}
}

/// Keeps every note in order.
impl Watch for Vec<Note> {
    fn note(&mut self, note: Note) {
        self.push(note);
    }
}
