//! Writes that gather their data in a buffer of one page.

use std::ops::Range;

use crate::address::Address;
use crate::cells::{Cells, PAGE};
use crate::memory::Memory;
use crate::watch::{Note, Watch};

/// The latest byte of each filled offset of a page. Offsets fill one behind the other and wrap at the page's end, so where
/// the next one goes and how many are filled say everything about their order.
pub struct PageBuffer {
    bytes: [u8; PAGE],
    next: usize,
    filled: usize,
}

impl PageBuffer {
    pub fn starting_at(offset: usize) -> Self {
        Self { bytes: [0; PAGE], next: offset, filled: 0 }
    }

    pub fn push(&mut self, byte: u8) {
        self.bytes[self.next] = byte;
        self.next = (self.next + 1) % PAGE;
        self.filled = PAGE.min(self.filled + 1);
    }

    /// Puts what the buffer holds into a page, the byte sent first first, and empties the buffer.
    pub fn put_into<C: Cells, W: Watch>(&mut self, page: usize, memory: &mut Memory<C, W>) {
        let oldest = self.next + PAGE - self.filled;
        for offset in (oldest..oldest + self.filled).map(|place| place % PAGE) {
            memory.put(page * PAGE + offset, self.bytes[offset]);
        }
        self.filled = 0;
    }
}

/// A paged write in progress. The protected range and whether the write runs on are asked once, at the opcode: the status bits
/// cannot change while a selection is open.
pub struct PagedWrite {
    address: Address,
    protected: Range<usize>,
    runs_on: bool,
    page: usize,
    buffer: PageBuffer,
    data_bytes: usize,
    fell_in_protected: bool,
}

impl PagedWrite {
    pub fn new(address_bytes: usize, protected: Range<usize>, runs_on: bool) -> Self {
        Self {
            address: Address::awaiting(address_bytes),
            protected,
            runs_on,
            page: 0,
            buffer: PageBuffer::starting_at(0),
            data_bytes: 0,
            fell_in_protected: false,
        }
    }

    pub fn byte<C: Cells, W: Watch>(&mut self, byte: u8, memory: &mut Memory<C, W>) {
        if !self.address.is_whole() {
            self.take_address(byte, memory.size());
            return;
        }
        self.data_bytes += 1;
        self.fell_in_protected |= self.page_is_protected();
        self.buffer.push(byte);
        if self.runs_on && self.buffer.next == 0 {
            self.accept(memory);
            self.page = (self.page + 1) % memory.pages();
            memory.watch.note(Note::PageChange);
        }
    }

    fn take_address(&mut self, byte: u8, size: usize) {
        self.address.take(byte, size);
        self.page = self.address.value() / PAGE;
        self.buffer.next = self.address.value() % PAGE;
    }

    fn page_is_protected(&self) -> bool {
        self.protected.contains(&(self.page * PAGE))
    }

    /// Puts what the buffer holds, unless the page is protected.
    pub fn accept<C: Cells, W: Watch>(&mut self, memory: &mut Memory<C, W>) {
        if self.page_is_protected() {
            self.buffer.filled = 0;
        } else {
            self.buffer.put_into(self.page, memory);
        }
    }

    pub fn data_bytes(&self) -> usize {
        self.data_bytes
    }

    pub fn fell_in_protected(&self) -> bool {
        self.fell_in_protected
    }
}
