//! An address that arrives byte by byte and then moves on.

/// The bytes of an address, highest first, as far as they have come.
#[derive(Clone, Copy, Debug)]
pub struct Address {
    missing: usize,
    value: usize,
}

impl Address {
    pub fn awaiting(bytes: usize) -> Self {
        Self { missing: bytes, value: 0 }
    }

    pub fn is_whole(&self) -> bool {
        self.missing == 0
    }

    /// Takes one more byte. The size of the array is a power of two, so bits above it may be dropped as they move up.
    pub fn take(&mut self, byte: u8, size: usize) {
        self.value = (self.value << 8 | usize::from(byte)) & (size - 1);
        self.missing -= 1;
    }

    pub fn value(&self) -> usize {
        self.value
    }

    /// Goes to the next address; behind the last comes 0.
    pub fn advance(&mut self, size: usize) {
        self.value = (self.value + 1) & (size - 1);
    }
}
