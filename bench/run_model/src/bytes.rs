//! The byte call: what each byte of a selection does.

use crate::address::Address;
use crate::cells::Cells;
use crate::dialect::{Dialect, Instruction};
use crate::direct::DirectWrite;
use crate::machine::{Activity, Job, Part};
use crate::paged::PagedWrite;
use crate::refusal::{Answer, Refusal};
use crate::secure::{SecureRead, SecureWrite};
use crate::selection::Selection;
use crate::watch::{Note, Watch};

impl<D: Dialect, C: Cells, W: Watch> Part<D, C, W> {
    /// Sends a byte, and answers the byte that was driven meanwhile, if any. What a byte has done wrong is told at the release.
    pub fn byte(&mut self, byte: u8, held: bool) -> Answer<Option<u8>> {
        let activity = self.working()?;
        if !self.selection.is_open() {
            return Err(Refusal::NotSelected);
        }
        if held {
            self.memory.watch.note(Note::HeldByte);
            return Ok(None);
        }
        Ok(self.count_byte(byte, activity))
    }

    /// A byte of an open selection that is not under hold.
    fn count_byte(&mut self, byte: u8, activity: Activity) -> Option<u8> {
        let memory = &mut self.memory;
        match &mut self.selection {
            Selection::Unselected | Selection::TurnedAway { .. } => {}
            Selection::Opened => self.selection = self.opcode(byte, activity),
            Selection::Bare { followed, .. } => *followed = true,
            Selection::ReadStatus => return Some(self.status_byte(activity)),
            Selection::WriteStatus { first, data_bytes } => {
                if *data_bytes == 0 {
                    *first = byte;
                }
                *data_bytes += 1;
            }
            Selection::Read(address) if address.is_whole() => {
                let driven = memory.get(address.value());
                address.advance(memory.size());
                return Some(driven);
            }
            Selection::Read(address) => address.take(byte, memory.size()),
            Selection::SecureRead(read) => return read.byte(byte, D::ADDRESS_BYTES, memory),
            Selection::PagedWrite(write) => write.byte(byte, memory),
            Selection::DirectWrite(write) => write.byte(byte, memory),
            Selection::SecureWrite(write) => write.byte(byte, D::ADDRESS_BYTES, memory.size()),
        }
        None
    }

    /// R together with the marks that the status shows.
    fn status_byte(&self, activity: Activity) -> u8 {
        let fail = if self.fail { D::FAIL_BIT } else { 0 };
        let latch = if self.latch { 2 } else { 0 };
        let busy = u8::from(activity != Activity::Idle);
        self.status | fail | latch | busy
    }

    /// How the selection goes on behind its opcode.
    fn opcode(&mut self, opcode: u8, activity: Activity) -> Selection {
        self.memory.watch.note(Note::Opcode(activity.doing()));
        let named = D::decode(opcode);
        match self.judge(named, activity) {
            Ok(instruction) => {
                self.memory.watch.note(Note::Accepted(instruction));
                self.begin(instruction)
            }
            Err(refusal) => {
                let named_write = named.is_some_and(Instruction::is_write);
                Selection::TurnedAway { refusal, named_write }
            }
        }
    }

    /// Whether the instruction that an opcode named can be done now. Being busy goes first: an unknown opcode
    /// is told that too.
    fn judge(&self, named: Option<Instruction>, activity: Activity) -> Answer<Instruction> {
        let busy = match activity {
            Activity::Idle => false,
            Activity::Busy { job: Job::Waking, .. } => true,
            Activity::Busy { .. } => named != Some(Instruction::ReadStatus),
        };
        if busy {
            return Err(Refusal::Busy);
        }
        let instruction = named.ok_or(Refusal::UnknownOpcode)?;
        if instruction.is_write() && !self.latch {
            return Err(Refusal::NotEnabled);
        }
        Ok(instruction)
    }

    fn begin(&self, instruction: Instruction) -> Selection {
        let protected = || D::protected(self.status, self.memory.size());
        match instruction {
            Instruction::ReadStatus => Selection::ReadStatus,
            Instruction::WriteStatus => Selection::WriteStatus { first: 0, data_bytes: 0 },
            Instruction::Read => Selection::Read(Address::awaiting(D::ADDRESS_BYTES)),
            Instruction::SecureRead => Selection::SecureRead(SecureRead::new(D::ADDRESS_BYTES)),
            Instruction::SecureWrite => Selection::SecureWrite(SecureWrite::new(D::ADDRESS_BYTES)),
            Instruction::Write if D::DIRECT => Selection::DirectWrite(DirectWrite::new(D::ADDRESS_BYTES, protected())),
            Instruction::Write => {
                let runs_on = D::runs_on(self.status);
                Selection::PagedWrite(PagedWrite::new(D::ADDRESS_BYTES, protected(), runs_on))
            }
            Instruction::Enable
            | Instruction::Disable
            | Instruction::Store
            | Instruction::Recall
            | Instruction::Nothing => Selection::Bare { instruction, followed: false },
        }
    }
}
