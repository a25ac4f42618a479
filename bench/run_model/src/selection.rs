//! How far a selection has come.

use crate::address::Address;
use crate::dialect::Instruction;
use crate::direct::DirectWrite;
use crate::paged::PagedWrite;
use crate::refusal::Refusal;
use crate::secure::{SecureRead, SecureWrite};

pub enum Selection {
    Unselected,
    /// Selected, but no byte came yet, or only bytes under hold.
    Opened,
    /// The opcode was turned away. That it named a write still clears the latch at the release.
    TurnedAway {
        refusal: Refusal,
        named_write: bool,
    },
    /// An instruction without any bytes of its own: enable, disable, store, recall or nothing.
    Bare {
        instruction: Instruction,
        followed: bool,
    },
    ReadStatus,
    WriteStatus {
        first: u8,
        data_bytes: usize,
    },
    Read(Address),
    SecureRead(SecureRead),
    PagedWrite(PagedWrite),
    DirectWrite(DirectWrite),
    SecureWrite(SecureWrite),
}

impl Selection {
    pub fn is_open(&self) -> bool {
        !matches!(self, Self::Unselected)
    }

    /// Whether the opcode named a write status, a write or a secure write.
    pub fn named_write(&self) -> bool {
        match self {
            Self::TurnedAway { named_write, .. } => *named_write,
            Self::WriteStatus { .. } | Self::PagedWrite(_) | Self::DirectWrite(_) | Self::SecureWrite(_) => true,
            _ => false,
        }
    }
}
