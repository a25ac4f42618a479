//! Gathers the records of a session.

use super::random::Random;
use crate::run_file::LONGEST;
use crate::sum;

/// The addresses at which a protected range of some level begins or ends in an array of 256 bytes, and the ends of the pages.
const EDGES: [usize; 14] = [0, 4, 8, 16, 32, 64, 128, 192, 224, 240, 248, 252, 255, 256];

pub struct Session {
    pub random: Random,
    pub address_bytes: usize,
    pub records: Vec<Vec<u8>>,
    wanted: usize,
    length: usize,
}

impl Session {
    /// A session that takes `wanted` records and then no more.
    pub fn new(random: Random, address_bytes: usize, wanted: usize) -> Self {
        Self { random, address_bytes, records: Vec::new(), wanted, length: 2 }
    }

    pub fn is_full(&self) -> bool {
        self.records.len() >= self.wanted
    }

    pub fn want_more(&mut self, records: usize) {
        self.wanted = self.records.len() + records;
    }

    /// Whether the dialect for which the session is made is mr, which has three address bytes.
    pub fn is_for_mr(&self) -> bool {
        self.address_bytes == 3
    }

    /// Adds a record, unless it would leave too little room in the file for a short one for each record still wanted.
    pub fn push(&mut self, record: Vec<u8>) {
        let length = self.length + 4 + record.len();
        let left = self.wanted.saturating_sub(self.records.len() + 1);
        if !self.is_full() && length + 8 * left <= LONGEST {
            self.length = length;
            self.records.push(record);
        }
    }

    pub fn transfer_with(&mut self, clocks: u8, bytes: &[u8]) {
        let mut record = vec![b'T', clocks];
        record.extend_from_slice(bytes);
        self.push(record);
    }

    /// A transfer that now and then has leftover clocks.
    pub fn transfer(&mut self, bytes: &[u8]) {
        let clocks = if self.random.one_in(25) { self.random.from_to(1, 7) as u8 } else { 0 };
        self.transfer_with(clocks, bytes);
    }

    pub fn ticks(&mut self, ticks: usize) {
        self.push(vec![b'K', ticks as u8]);
    }

    pub fn cut(&mut self, charged: bool) {
        self.push(vec![b'C', u8::from(charged)]);
    }

    pub fn hold(&mut self, held: bool) {
        self.push(vec![b'H', u8::from(held)]);
    }

    pub fn power_up(&mut self) {
        self.push(vec![b'P']);
    }

    /// Enables writes, but for a time in twenty.
    pub fn enable(&mut self) {
        if !self.random.one_in(20) {
            self.transfer(&[0x06]);
        }
    }

    /// An address, mostly close to where something changes.
    pub fn place(&mut self) -> usize {
        if self.random.one_in(4) {
            return self.random.below(256);
        }
        let edge = self.random.pick(&EDGES);
        (edge + 256 + self.random.below(7) - 3) % 256
    }

    /// The bytes of an address. Those above the array may hold anything.
    pub fn address(&mut self, place: usize) -> Vec<u8> {
        let mut bytes = vec![0; self.address_bytes - 1];
        if self.random.one_in(3) {
            bytes = self.random.bytes(self.address_bytes - 1);
        }
        bytes.push(place as u8);
        bytes
    }

    /// An opcode and an address, which is incomplete a time in thirty.
    pub fn addressed(&mut self, opcode: u8, place: usize) -> Vec<u8> {
        let mut bytes = vec![opcode];
        bytes.extend(self.address(place));
        if self.random.one_in(30) {
            bytes.truncate(self.random.from_to(1, self.address_bytes));
        }
        bytes
    }

    /// How many data bytes a write has.
    pub fn data_length(&mut self) -> usize {
        match self.random.below(16) {
            0 => 0,
            1 | 2 => 1,
            3..=6 => self.random.from_to(2, 20),
            7..=11 => self.random.from_to(63, 70),
            12 | 13 => self.random.from_to(126, 140),
            14 => self.random.from_to(190, 330),
            _ => self.random.from_to(21, 62),
        }
    }

    /// The sum that a right frame has for these data at a place.
    pub fn frame_sum(&self, place: usize, data: &[u8]) -> u16 {
        let start = sum::after_address(place, self.address_bytes);
        data.iter().fold(start, |register, &byte| sum::next(register, byte))
    }
}
