//! A part of dialect nv above shadowed cells, written from docs/RULES.md.
//!
//! The bytes of a write or of a secure frame are kept whole in a vector; what they come to is worked out from it. Answers
//! are the numbers of the rules: 0 is done.

use crate::sum;

const ENABLE: u8 = 0x06;
const DISABLE: u8 = 0x04;
const READ_STATUS: u8 = 0x05;
const WRITE_STATUS: u8 = 0x01;
const READ: u8 = 0x03;
const WRITE: u8 = 0x02;
const SECURE_READ: u8 = 0x13;
const SECURE_WRITE: u8 = 0x12;
const STORE: u8 = 0x3C;
const RECALL: u8 = 0x60;

const KNOWN: [u8; 10] =
    [ENABLE, DISABLE, READ_STATUS, WRITE_STATUS, READ, WRITE, SECURE_READ, SECURE_WRITE, STORE, RECALL];

#[derive(Clone, Copy, PartialEq)]
enum Job {
    Storing,
    Recalling,
    Waking,
}

#[derive(Clone, Copy, PartialEq)]
enum Power {
    Off,
    Idle,
    /// A job, and its next page.
    At(Job, usize),
}

/// What has come of a selection.
struct Selection {
    /// The opcode, if it came, and why it was turned away, or 0.
    opcode: Option<(u8, u8)>,
    /// How many bytes came behind the opcode.
    count: usize,
    /// The address, as far as it came; of a read, the next address.
    address: usize,
    /// Where the data begin that are not yet put, in all the bytes behind the opcode; and the address of their page.
    buffer: usize,
    page: usize,
    /// Whether some data fell in a protected page.
    blocked: bool,
}

pub struct Machine {
    working: Vec<u8>,
    kept: Vec<u8>,
    alive: bool,
    power: Power,
    selected: bool,
    selection: Selection,
    /// The bytes behind the opcode of a status write, a write or a secure write.
    bytes: Vec<u8>,
    status_bits: u8,
    latch: bool,
    failed: bool,
    written: bool,
}

const NOTHING_YET: Selection =
    Selection { opcode: None, count: 0, address: 0, buffer: 2, page: 0, blocked: false };

fn is_write(opcode: u8) -> bool {
    matches!(opcode, WRITE_STATUS | WRITE | SECURE_WRITE)
}

impl Machine {
    /// A part as made, with all bytes of both images 0.
    pub fn new(size: usize) -> Machine {
        Machine {
            working: vec![0; size],
            kept: vec![0; size],
            alive: size.is_power_of_two() && (256..=32768).contains(&size),
            power: Power::Off,
            selected: false,
            selection: NOTHING_YET,
            bytes: Vec::new(),
            status_bits: 0,
            latch: false,
            failed: false,
            written: false,
        }
    }

    fn ready(&self) -> Result<(), u8> {
        match self {
            Machine { alive: false, .. } => Err(1),
            Machine { power: Power::Off, .. } => Err(2),
            _ => Ok(()),
        }
    }

    fn size(&self) -> usize {
        self.working.len()
    }

    /// Whether the page with this address is protected.
    fn protects(&self, page: usize) -> bool {
        let size = self.size();
        let bytes = match self.status_bits >> 2 & 3 {
            0 => 0,
            1 => size / 4,
            2 => size / 2,
            _ => size,
        };
        page >= size - bytes
    }

    fn runs_on(&self) -> bool {
        self.status_bits & 0x20 != 0
    }

    pub fn select(&mut self) -> Result<(), u8> {
        self.ready()?;
        if self.selected {
            return Err(3);
        }
        self.selected = true;
        self.selection = NOTHING_YET;
        self.bytes.clear();
        Ok(())
    }

    fn why_not(&self, opcode: u8) -> u8 {
        match self.power {
            Power::At(Job::Waking, _) => 11,
            Power::At(..) if opcode != READ_STATUS => 11,
            _ if !KNOWN.contains(&opcode) => 12,
            _ if is_write(opcode) && !self.latch => 13,
            _ => 0,
        }
    }

    fn status(&self) -> u8 {
        self.status_bits
            | if self.failed { 0x10 } else { 0 }
            | if self.latch { 2 } else { 0 }
            | if self.power == Power::Idle { 0 } else { 1 }
    }

    pub fn byte(&mut self, value: u8, held: bool) -> Result<Option<u8>, u8> {
        self.ready()?;
        if !self.selected {
            return Err(4);
        }
        if held {
            return Ok(None);
        }
        match self.selection.opcode {
            None => {
                self.selection.opcode = Some((value, self.why_not(value)));
                Ok(None)
            }
            Some((opcode, 0)) => {
                let driven = self.behind(opcode, value);
                self.selection.count += 1;
                Ok(driven)
            }
            Some(_) => Ok(None),
        }
    }

    /// A byte behind an opcode that was accepted.
    fn behind(&mut self, opcode: u8, value: u8) -> Option<u8> {
        let size = self.size();
        let selection = &mut self.selection;
        match opcode {
            READ_STATUS => return Some(self.status()),
            READ | WRITE | SECURE_READ if selection.count < 2 => {
                selection.address = (selection.address << 8 | usize::from(value)) & (size - 1);
                selection.page = selection.address & !63;
                self.bytes.push(value);
            }
            READ => {
                let driven = self.working[selection.address];
                selection.address = (selection.address + 1) & (size - 1);
                return Some(driven);
            }
            SECURE_READ => return self.secure_read(),
            WRITE => {
                self.bytes.push(value);
                if (selection.address + selection.count - 2) % 64 == 63 && self.runs_on() {
                    self.accept();
                    self.selection.page = (self.selection.page + 64) & (size - 1);
                    self.selection.buffer = self.bytes.len();
                }
            }
            WRITE_STATUS | SECURE_WRITE => self.bytes.push(value),
            _ => {}
        }
        None
    }

    fn secure_read(&self) -> Option<u8> {
        let (address, n) = (self.selection.address, self.selection.count - 2);
        let page = &self.working[address & !63..][..64];
        match n {
            0..=63 => Some(page[(address + n) % 64]),
            64 | 65 => {
                let (before, from) = page.split_at(address % 64);
                let register = sum::update(sum::START, &(address as u16).to_be_bytes());
                let sum = sum::update(sum::update(register, from), before);
                Some(sum.to_be_bytes()[n - 64])
            }
            _ => None,
        }
    }

    /// Puts what the buffer holds, unless the page is protected.
    fn accept(&mut self) {
        let Selection { address, buffer, page, .. } = self.selection;
        let data = self.bytes.len() - buffer;
        if data == 0 {
            return;
        }
        if self.protects(page) {
            self.selection.blocked = true;
            return;
        }
        let first = address + buffer - 2;
        let page = &mut self.working[page..][..64];
        for (i, byte) in self.bytes[buffer..].iter().enumerate().skip(data.saturating_sub(64)) {
            page[(first + i) % 64] = *byte;
        }
        self.written = true;
    }

    pub fn release(&mut self, clocks: u8) -> Result<(), u8> {
        self.ready()?;
        if !self.selected {
            return Err(4);
        }
        if clocks > 7 {
            return Err(5);
        }
        self.selected = false;
        let (opcode, why_not) = self.selection.opcode.ok_or(10)?;
        if is_write(opcode) {
            self.latch = false;
        }
        if why_not != 0 {
            return Err(why_not);
        }
        let count = self.selection.count;
        let right_length = match opcode {
            READ_STATUS | READ | SECURE_READ => return Ok(()),
            WRITE_STATUS => count == 1,
            WRITE => count > 2,
            SECURE_WRITE => count == 68,
            _ => count == 0,
        };
        match (right_length, clocks) {
            (false, _) => return Err(15),
            (true, 0) => {}
            (true, _) => return Err(16),
        }
        match opcode {
            ENABLE => self.latch = true,
            DISABLE => self.latch = false,
            STORE => self.power = Power::At(Job::Storing, 0),
            RECALL => {
                self.written = false;
                self.power = Power::At(Job::Recalling, 0);
            }
            WRITE_STATUS => self.status_bits = self.bytes[0] & 0x6C,
            WRITE => {
                self.accept();
                if self.selection.blocked {
                    return Err(14);
                }
            }
            _ => return self.frame(),
        }
        Ok(())
    }

    /// The release of a whole secure frame.
    fn frame(&mut self) -> Result<(), u8> {
        let address = usize::from(u16::from_be_bytes([self.bytes[0], self.bytes[1]])) & (self.size() - 1);
        let register = sum::update(sum::START, &(address as u16).to_be_bytes());
        if sum::update(register, &self.bytes[2..66]).to_be_bytes() != self.bytes[66..68] {
            self.failed = true;
            return Err(17);
        }
        if self.protects(address & !63) {
            return Err(14);
        }
        let page = &mut self.working[address & !63..][..64];
        for (i, byte) in self.bytes[2..66].iter().enumerate() {
            page[(address + i) % 64] = *byte;
        }
        self.failed = false;
        self.written = true;
        Ok(())
    }

    pub fn tick(&mut self) -> Result<u32, u8> {
        self.ready()?;
        let Power::At(job, page) = self.power else { return Ok(0) };
        let place = page * 64..page * 64 + 64;
        match job {
            Job::Storing => self.kept[place.clone()].copy_from_slice(&self.working[place]),
            _ => self.working[place.clone()].copy_from_slice(&self.kept[place]),
        }
        let to_go = self.size() / 64 - page - 1;
        if to_go == 0 {
            self.power = Power::Idle;
            self.written &= job != Job::Storing;
        } else {
            self.power = Power::At(job, page + 1);
        }
        Ok(to_go as u32)
    }

    pub fn cut(&mut self, charged: bool) -> Result<(), u8> {
        self.ready()?;
        let from = match self.power {
            _ if !charged => self.size(),
            Power::At(Job::Storing, page) => page * 64,
            Power::Idle if self.written && self.status_bits & 0x40 == 0 => 0,
            _ => self.size(),
        };
        self.kept[from..].copy_from_slice(&self.working[from..]);
        self.working.fill(0x55);
        self.power = Power::Off;
        self.selected = false;
        Ok(())
    }

    pub fn power_up(&mut self) -> Result<(), u8> {
        match self.ready() {
            Ok(()) => Err(6),
            Err(1) => Err(1),
            Err(_) => {
                self.latch = false;
                self.failed = false;
                self.written = false;
                self.power = Power::At(Job::Waking, 0);
                Ok(())
            }
        }
    }
}
