//! Page transfers with a sum, in both directions.

use crate::address::Address;
use crate::cells::{Cells, PAGE};
use crate::memory::Memory;
use crate::paged::PageBuffer;
use crate::sum;
use crate::watch::Watch;

/// The place of the sum's high byte and low byte behind the address, and the first place behind a whole transfer.
const HIGH: usize = PAGE;
const LOW: usize = PAGE + 1;
const END: usize = PAGE + 2;

/// A secure read in progress. The sum grows with the bytes as they are driven.
pub struct SecureRead {
    address: Address,
    driven: usize,
    sum: u16,
}

impl SecureRead {
    pub fn new(address_bytes: usize) -> Self {
        Self { address: Address::awaiting(address_bytes), driven: 0, sum: 0 }
    }

    pub fn byte<C: Cells, W: Watch>(&mut self, byte: u8, address_bytes: usize, memory: &Memory<C, W>) -> Option<u8> {
        if !self.address.is_whole() {
            self.address.take(byte, memory.size());
            self.sum = sum::after_address(self.address.value(), address_bytes);
            return None;
        }
        let driven = match self.driven {
            0..HIGH => self.next_data(memory),
            HIGH => (self.sum >> 8) as u8,
            LOW => self.sum as u8,
            _ => return None,
        };
        self.driven += 1;
        Some(driven)
    }

    fn next_data<C: Cells, W: Watch>(&mut self, memory: &Memory<C, W>) -> u8 {
        let address = self.address.value();
        let page_start = address - address % PAGE;
        let data = memory.get(page_start + (address + self.driven) % PAGE);
        self.sum = sum::next(self.sum, data);
        data
    }
}

/// A secure write in progress.
pub struct SecureWrite {
    address: Address,
    buffer: PageBuffer,
    /// The bytes behind the address.
    followed: usize,
    /// The sum of the address and of the data so far.
    due: u16,
    /// The sum that was sent.
    sent: u16,
}

impl SecureWrite {
    pub fn new(address_bytes: usize) -> Self {
        Self {
            address: Address::awaiting(address_bytes),
            buffer: PageBuffer::starting_at(0),
            followed: 0,
            due: 0,
            sent: 0,
        }
    }

    pub fn byte(&mut self, byte: u8, address_bytes: usize, size: usize) {
        if !self.address.is_whole() {
            self.address.take(byte, size);
            if self.address.is_whole() {
                self.due = sum::after_address(self.address.value(), address_bytes);
                self.buffer = PageBuffer::starting_at(self.address.value() % PAGE);
            }
            return;
        }
        if self.followed < HIGH {
            self.due = sum::next(self.due, byte);
            self.buffer.push(byte);
        } else {
            // Bytes behind the sum spoil `sent`, but then the length is wrong and nobody looks at it.
            self.sent = self.sent << 8 | u16::from(byte);
        }
        self.followed += 1;
    }

    pub fn is_whole_frame(&self) -> bool {
        self.address.is_whole() && self.followed == END
    }

    pub fn is_right(&self) -> bool {
        self.due == self.sent
    }

    pub fn page(&self) -> usize {
        self.address.value() / PAGE
    }

    /// Puts the data as a write that rolls over in its page would.
    pub fn put_data<C: Cells, W: Watch>(&mut self, memory: &mut Memory<C, W>) {
        self.buffer.put_into(self.page(), memory);
    }
}
