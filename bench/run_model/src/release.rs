//! The release call: what ends a selection, and what is done then.

use std::mem;

use crate::cells::{Cells, PAGE};
use crate::dialect::{Dialect, Instruction};
use crate::direct::DirectWrite;
use crate::machine::{Activity, Job, Part};
use crate::paged::PagedWrite;
use crate::refusal::{Answer, Refusal};
use crate::secure::SecureWrite;
use crate::selection::Selection;
use crate::watch::{FrameEnd, Note, Watch};

/// The two faults of form that most instructions share, in their order.
fn check_form(length_fits: bool, clocks: u8) -> Answer {
    if !length_fits {
        Err(Refusal::WrongLength)
    } else if clocks > 0 {
        Err(Refusal::LeftoverClocks)
    } else {
        Ok(())
    }
}

fn check_protection(fell_in_protected: bool) -> Answer {
    if fell_in_protected {
        Err(Refusal::Protected)
    } else {
        Ok(())
    }
}

impl<D: Dialect, C: Cells, W: Watch> Part<D, C, W> {
    /// Ends the selection, with so many clocks left over behind the last whole byte.
    pub fn release(&mut self, clocks: u8) -> Answer {
        self.working()?;
        if !self.selection.is_open() {
            return Err(Refusal::NotSelected);
        }
        if clocks > 7 {
            return Err(Refusal::TooManyClocks);
        }
        let ended = mem::replace(&mut self.selection, Selection::Unselected);
        if ended.named_write() {
            // Whatever comes of it: each write must be enabled anew.
            self.latch = false;
        }
        match ended {
            Selection::Unselected | Selection::Opened => Err(Refusal::NoByte),
            Selection::TurnedAway { refusal, .. } => Err(refusal),
            Selection::Bare { instruction, followed } => {
                check_form(!followed, clocks)?;
                self.carry_out(instruction);
                Ok(())
            }
            Selection::ReadStatus | Selection::Read(_) | Selection::SecureRead(_) => Ok(()),
            Selection::WriteStatus { first, data_bytes } => {
                check_form(data_bytes == 1, clocks)?;
                self.status = first & D::MASK;
                Ok(())
            }
            Selection::PagedWrite(write) => self.end_paged_write(write, clocks),
            Selection::DirectWrite(write) => self.end_direct_write(&write, clocks),
            Selection::SecureWrite(write) => self.end_secure_write(write, clocks),
        }
    }

    /// Does an instruction that has no bytes of its own.
    fn carry_out(&mut self, instruction: Instruction) {
        match instruction {
            Instruction::Enable => self.latch = true,
            Instruction::Disable => self.latch = false,
            Instruction::Store => self.activity = Some(Activity::start(Job::Storing)),
            Instruction::Recall => {
                self.memory.written = false;
                self.activity = Some(Activity::start(Job::Recalling));
            }
            _ => {}
        }
    }

    fn note_length(&mut self, data_bytes: usize) {
        if data_bytes > PAGE {
            self.memory.watch.note(Note::LongWrite);
        }
    }

    /// Data outside the protected range are put even if other data of the selection fell in it.
    fn end_paged_write(&mut self, mut write: PagedWrite, clocks: u8) -> Answer {
        self.note_length(write.data_bytes());
        check_form(write.data_bytes() > 0, clocks)?;
        write.accept(&mut self.memory);
        check_protection(write.fell_in_protected())
    }

    fn end_direct_write(&mut self, write: &DirectWrite, clocks: u8) -> Answer {
        self.note_length(write.data_bytes());
        check_form(write.data_bytes() > 0, clocks)?;
        check_protection(write.fell_in_protected())
    }

    /// A wrong sum is told before protection is looked at, and only a frame that is done clears the fail mark.
    fn end_secure_write(&mut self, mut write: SecureWrite, clocks: u8) -> Answer {
        check_form(write.is_whole_frame(), clocks)?;
        if !write.is_right() {
            self.memory.watch.note(Note::Frame(FrameEnd::Wrong));
            self.fail = true;
            return Err(Refusal::WrongSum);
        }
        if D::protected(self.status, self.memory.size()).contains(&(write.page() * PAGE)) {
            self.memory.watch.note(Note::Frame(FrameEnd::Protected));
            return Err(Refusal::Protected);
        }
        self.memory.watch.note(Note::Frame(FrameEnd::Right));
        write.put_data(&mut self.memory);
        self.fail = false;
        Ok(())
    }
}
