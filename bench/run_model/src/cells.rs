//! The memory inside a part: a working image that is read and written, and a kept image that outlasts the loss of power.
//!
//! A part asks only for addresses and pages that lie in the array, so these calls have no refusals of their own. An address
//! past the end would be a fault of the model, and panics.

use std::ops::Range;

/// The bytes of a page.
pub const PAGE: usize = 64;

pub trait Cells {
    /// N, the bytes of each image.
    fn size(&self) -> usize;
    /// The working byte at an address.
    fn get(&self, address: usize) -> u8;
    fn put(&mut self, address: usize, value: u8);
    /// Copies a page of the working image to the kept image.
    fn keep(&mut self, page: usize);
    /// Copies a page of the kept image to the working image.
    fn recall(&mut self, page: usize);
    /// What the loss of power does to the working image.
    fn fade(&mut self);
}

fn page_range(page: usize) -> Range<usize> {
    page * PAGE..(page + 1) * PAGE
}

/// Cells whose kept image changes only by a keep. A fade leaves FFh everywhere.
pub struct Shadowed {
    working: Vec<u8>,
    kept: Vec<u8>,
}

impl Shadowed {
    /// Both images hold `fill` at first.
    pub fn filled(size: usize, fill: u8) -> Self {
        Self { working: vec![fill; size], kept: vec![fill; size] }
    }

    pub fn kept(&self) -> &[u8] {
        &self.kept
    }

    pub fn working(&self) -> &[u8] {
        &self.working
    }
}

impl Cells for Shadowed {
    fn size(&self) -> usize {
        self.working.len()
    }

    fn get(&self, address: usize) -> u8 {
        self.working[address]
    }

    fn put(&mut self, address: usize, value: u8) {
        self.working[address] = value;
    }

    fn keep(&mut self, page: usize) {
        let range = page_range(page);
        self.kept[range.clone()].copy_from_slice(&self.working[range]);
    }

    fn recall(&mut self, page: usize) {
        let range = page_range(page);
        self.working[range.clone()].copy_from_slice(&self.kept[range]);
    }

    fn fade(&mut self) {
        self.working.fill(0xFF);
    }
}

/// Cells in which a put lasts at once: one image is both, so that keep, recall and fade have nothing to do.
pub struct Lasting {
    image: Vec<u8>,
}

impl Lasting {
    pub fn filled(size: usize, fill: u8) -> Self {
        Self { image: vec![fill; size] }
    }

    pub fn image(&self) -> &[u8] {
        &self.image
    }
}

impl Cells for Lasting {
    fn size(&self) -> usize {
        self.image.len()
    }

    fn get(&self, address: usize) -> u8 {
        self.image[address]
    }

    fn put(&mut self, address: usize, value: u8) {
        self.image[address] = value;
    }

    fn keep(&mut self, _page: usize) {}

    fn recall(&mut self, _page: usize) {}

    fn fade(&mut self) {}
}
