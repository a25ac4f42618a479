//! Writes that put each byte as it arrives.

use std::ops::Range;

use crate::address::Address;
use crate::cells::Cells;
use crate::memory::Memory;
use crate::watch::Watch;

/// A direct write in progress. The protected range is asked once, at the opcode, as the status bits cannot change meanwhile.
pub struct DirectWrite {
    address: Address,
    protected: Range<usize>,
    data_bytes: usize,
    fell_in_protected: bool,
}

impl DirectWrite {
    pub fn new(address_bytes: usize, protected: Range<usize>) -> Self {
        Self { address: Address::awaiting(address_bytes), protected, data_bytes: 0, fell_in_protected: false }
    }

    pub fn byte<C: Cells, W: Watch>(&mut self, byte: u8, memory: &mut Memory<C, W>) {
        if !self.address.is_whole() {
            self.address.take(byte, memory.size());
            return;
        }
        self.data_bytes += 1;
        if self.protected.contains(&self.address.value()) {
            self.fell_in_protected = true;
        } else {
            memory.put(self.address.value(), byte);
        }
        self.address.advance(memory.size());
    }

    pub fn data_bytes(&self) -> usize {
        self.data_bytes
    }

    pub fn fell_in_protected(&self) -> bool {
        self.fell_in_protected
    }
}
