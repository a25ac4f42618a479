//! One fixed file as long as a file may be, full of traffic, for timing.

use crate::bench::Bench;
use crate::make::packing::{pack, packed_length};
use crate::make::random::Random;
use crate::run_file::LONGEST;
use crate::sum;

/// Records that are gathered round by round.
struct Traffic {
    random: Random,
    address_bytes: usize,
    records: Vec<Vec<u8>>,
}

impl Traffic {
    fn transfer(&mut self, bytes: &[u8]) {
        let mut record = vec![b'T', 0];
        record.extend_from_slice(bytes);
        self.records.push(record);
    }

    fn addressed(&self, opcode: u8, address: usize) -> Vec<u8> {
        let mut bytes = vec![opcode];
        bytes.resize(self.address_bytes, 0);
        bytes.push(address as u8);
        bytes
    }

    fn status(&mut self, bits: u8) {
        self.transfer(&[0x06]);
        self.transfer(&[0x01, bits]);
        self.transfer(&[0x05, 0, 0, 0]);
    }

    fn write(&mut self, address: usize, length: usize) {
        self.transfer(&[0x06]);
        let mut bytes = self.addressed(0x02, address);
        bytes.extend(self.random.bytes(length));
        self.transfer(&bytes);
    }

    /// A read, or with opcode 13h a secure read.
    fn read(&mut self, opcode: u8, address: usize, length: usize) {
        let mut bytes = self.addressed(opcode, address);
        bytes.resize(bytes.len() + length, 0);
        self.transfer(&bytes);
    }

    fn secure_write(&mut self, address: usize) {
        self.transfer(&[0x06]);
        let mut bytes = self.addressed(0x12, address);
        bytes.extend(self.random.bytes(64));
        let sum = sum::of(&bytes[1..]);
        bytes.extend(sum.to_be_bytes());
        self.transfer(&bytes);
    }

    /// A cut and the waking behind it.
    fn cut(&mut self, charged: bool) {
        self.records.extend([vec![b'C', charged.into()], vec![b'P'], vec![b'K', 4]]);
    }

    fn round_of_nv(&mut self, address: usize) {
        self.status(0x20);
        self.write(address, 700);
        self.read(0x03, address, 900);
        self.secure_write(address);
        self.read(0x13, address, 66);
        self.transfer(&[0x3C]);
        self.records.push(vec![b'K', 4]);
        self.status(0x04);
        self.write(address + 60, 130);
        self.secure_write(address + 77);
        self.read(0x03, address, 300);
        self.transfer(&[0x60]);
        self.records.push(vec![b'K', 4]);
        self.cut(address.is_multiple_of(2));
    }

    fn round_of_mr(&mut self, address: usize) {
        self.status(0x00);
        self.write(address, 900);
        self.read(0x03, address, 900);
        self.status(0x2C);
        self.write(address + 60, 300);
        self.read(0x03, address, 300);
        self.transfer(&[0x00]);
        self.cut(address.is_multiple_of(2));
    }
}

/// The file: as many whole rounds as fit, and one last read that fills it up.
pub fn file(bench: Bench) -> Vec<u8> {
    let address_bytes = if bench == Bench::Nv { 2 } else { 3 };
    let mut traffic = Traffic { random: Random::for_file(1, 0), address_bytes, records: Vec::new() };
    traffic.records.extend([vec![b'P'], vec![b'K', 4]]);
    let mut whole = traffic.records.len();
    for round in 0.. {
        match bench {
            Bench::Nv => traffic.round_of_nv(37 * round % 256),
            Bench::Mr => traffic.round_of_mr(37 * round % 256),
        }
        // Room is left for the letter, the clocks and the opcode of the last read and for its pair.
        if packed_length(&traffic.records) + 7 > LONGEST {
            break;
        }
        whole = traffic.records.len();
    }
    traffic.records.truncate(whole);
    let left = LONGEST - packed_length(&traffic.records) - 7;
    let mut last = vec![0x03];
    last.resize(1 + left, 0);
    traffic.transfer(&last);
    pack(&traffic.records)
}
