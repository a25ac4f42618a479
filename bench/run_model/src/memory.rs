//! The cells of a part with the mark that goes along with every put.

use crate::cells::{Cells, PAGE};
use crate::watch::{Note, Watch};

/// All events pass through here, so that none escapes the watch and no put forgets the written mark.
pub struct Memory<C, W> {
    cells: C,
    size: usize,
    /// Whether something was put that a cut would lose.
    pub written: bool,
    pub watch: W,
}

impl<C: Cells, W: Watch> Memory<C, W> {
    pub fn new(cells: C, watch: W) -> Self {
        let size = cells.size();
        Self { cells, size, written: false, watch }
    }

    pub fn cells(&self) -> &C {
        &self.cells
    }

    pub fn size(&self) -> usize {
        self.size
    }

    pub fn pages(&self) -> usize {
        self.size / PAGE
    }

    pub fn get(&self, address: usize) -> u8 {
        self.cells.get(address)
    }

    pub fn put(&mut self, address: usize, value: u8) {
        self.cells.put(address, value);
        self.written = true;
        self.watch.note(Note::Put { address, value });
    }

    pub fn keep(&mut self, page: usize) {
        self.cells.keep(page);
        self.watch.note(Note::Keep { page });
    }

    pub fn recall(&mut self, page: usize) {
        self.cells.recall(page);
        self.watch.note(Note::Recall { page });
    }

    pub fn fade(&mut self) {
        self.cells.fade();
        self.watch.note(Note::Fade);
    }
}
