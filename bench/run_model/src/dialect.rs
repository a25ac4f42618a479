//! How a part speaks: its opcodes, and what its status bits mean.

use std::ops::Range;

#[derive(Clone, Copy, Debug, PartialEq, Eq, PartialOrd, Ord)]
pub enum Instruction {
    Enable,
    Disable,
    ReadStatus,
    WriteStatus,
    Read,
    Write,
    SecureRead,
    SecureWrite,
    Store,
    Recall,
    Nothing,
}

impl Instruction {
    /// The three instructions that need the latch, and whose release leaves it clear.
    pub fn is_write(self) -> bool {
        matches!(self, Self::WriteStatus | Self::Write | Self::SecureWrite)
    }
}

/// The fixed facts of a dialect. `status` is always R, the status bits that a part keeps.
pub trait Dialect {
    /// How many bytes an address is sent in.
    const ADDRESS_BYTES: usize;
    /// The largest array above which a part is alive.
    const LARGEST: usize;
    /// The bits that a status write sets.
    const MASK: u8;
    /// The bit by which the status shows the fail mark, or 0.
    const FAIL_BIT: u8;
    /// Whether a write puts each byte as it arrives, instead of gathering a page.
    const DIRECT: bool;

    fn decode(opcode: u8) -> Option<Instruction>;

    /// The addresses that are protected in an array of `size` bytes.
    fn protected(status: u8, size: usize) -> Range<usize>;

    /// Whether a paged write goes on at the next page when its page is full.
    fn runs_on(status: u8) -> bool;

    /// Whether a charged part that loses power while idle keeps what was written.
    fn power_store(status: u8) -> bool;

    fn is_alive(size: usize) -> bool {
        size.is_power_of_two() && (256..=Self::LARGEST).contains(&size)
    }
}

/// The opcodes that both dialects have.
fn decode_common(opcode: u8) -> Option<Instruction> {
    match opcode {
        0x06 => Some(Instruction::Enable),
        0x04 => Some(Instruction::Disable),
        0x05 => Some(Instruction::ReadStatus),
        0x01 => Some(Instruction::WriteStatus),
        0x03 => Some(Instruction::Read),
        0x02 => Some(Instruction::Write),
        _ => None,
    }
}

/// The 256 kbit nvSRAM: paged writes, secure frames, stores and recalls.
pub struct Nv;

impl Dialect for Nv {
    const ADDRESS_BYTES: usize = 2;
    const LARGEST: usize = 32_768;
    const MASK: u8 = 0x6C;
    const FAIL_BIT: u8 = 0x10;
    const DIRECT: bool = false;

    fn decode(opcode: u8) -> Option<Instruction> {
        match opcode {
            0x13 => Some(Instruction::SecureRead),
            0x12 => Some(Instruction::SecureWrite),
            0x3C => Some(Instruction::Store),
            0x60 => Some(Instruction::Recall),
            _ => decode_common(opcode),
        }
    }

    fn protected(status: u8, size: usize) -> Range<usize> {
        let bytes = match status >> 2 & 3 {
            0 => 0,
            1 => size / 4,
            2 => size / 2,
            _ => size,
        };
        size - bytes..size
    }

    fn runs_on(status: u8) -> bool {
        status & 0x20 != 0
    }

    fn power_store(status: u8) -> bool {
        status & 0x40 == 0
    }
}

/// The 1 Mbit MRAM: each byte is put as it arrives, and nothing needs to be stored.
pub struct Mr;

impl Dialect for Mr {
    const ADDRESS_BYTES: usize = 3;
    const LARGEST: usize = 131_072;
    const MASK: u8 = 0xBC;
    const FAIL_BIT: u8 = 0;
    const DIRECT: bool = true;

    fn decode(opcode: u8) -> Option<Instruction> {
        match opcode {
            0x00 => Some(Instruction::Nothing),
            _ => decode_common(opcode),
        }
    }

    fn protected(status: u8, size: usize) -> Range<usize> {
        let bytes = match status >> 2 & 7 {
            0 => 0,
            level => size >> (7 - level),
        };
        if status & 0x20 != 0 {
            0..bytes
        } else {
            size - bytes..size
        }
    }

    fn runs_on(_status: u8) -> bool {
        false
    }

    fn power_store(_status: u8) -> bool {
        true
    }
}
