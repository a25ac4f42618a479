//! Plays the traffic of crates/partload on a model of the same machine in ordinary Rust, to compare output and speed with.
//! The model is written from docs/RULES.md and shares no code with the proved part; the traffic is the same call by call.

mod machine;
mod sum;

use machine::Machine;

const SIZE: usize = 32768;
const PAGES: u32 = 512;

struct Load {
    machine: Machine,
    seed: u32,
    total: u32,
}

impl Load {
    fn draw(&mut self) -> u32 {
        self.seed = self.seed.wrapping_mul(1664525).wrapping_add(1013904223);
        self.seed >> 16
    }

    fn draw_byte(&mut self) -> u8 {
        self.draw() as u8
    }

    fn once_in(&mut self, times: u32) -> bool {
        self.draw() % times == 0
    }

    fn note(&mut self, value: u32) {
        self.total = self.total.wrapping_mul(16777619).wrapping_add(value);
    }

    fn note_answer(&mut self, answer: Result<(), u8>) {
        self.note(answer.err().map_or(0, u32::from));
    }

    fn send(&mut self, value: u8, held: bool) {
        let noted = match self.machine.byte(value, held) {
            Ok(driven) => driven.map_or(0, |byte| 256 + u32::from(byte)),
            Err(refusal) => u32::from(refusal),
        };
        self.note(noted);
    }

    fn open(&mut self, opcode: u8) {
        let answer = self.machine.select();
        self.note_answer(answer);
        self.send(opcode, false);
    }

    fn close(&mut self, clocks: u8) {
        let answer = self.machine.release(clocks);
        self.note_answer(answer);
    }

    fn wait(&mut self, pages: u32) {
        for _ in 0..pages {
            let noted = self.machine.tick().unwrap_or_else(u32::from);
            self.note(noted);
        }
    }

    fn wait_long(&mut self) {
        let pages = PAGES - self.draw() % 16;
        self.wait(pages);
    }

    fn wake(&mut self) {
        let answer = self.machine.power_up();
        self.note_answer(answer);
        self.wait_long();
    }

    fn command(&mut self, opcode: u8) {
        self.open(opcode);
        self.close(0);
    }

    fn send_pair(&mut self, pair: u32) {
        self.send((pair >> 8) as u8, false);
        self.send(pair as u8, false);
    }

    fn begin_write(&mut self) {
        self.command(0x06);
        self.open(0x02);
        let address = self.draw();
        self.send_pair(address);
        self.send(0xAA, true);
        for _ in 0..72 {
            let value = self.draw_byte();
            self.send(value, false);
        }
    }

    fn read(&mut self, opcode: u8, count: u32) {
        self.open(opcode);
        let address = self.draw();
        self.send_pair(address);
        for _ in 0..count {
            self.send(0, false);
        }
        self.close(0);
    }

    fn write_frame(&mut self) {
        let address = self.draw();
        let data = [self.draw_byte(); 64];
        let place = (address as usize % SIZE) as u16;
        let right = sum::update(sum::update(sum::START, &place.to_be_bytes()), &data);
        let sum = right ^ u16::from(self.once_in(4));
        self.command(0x06);
        self.open(0x12);
        self.send_pair(address);
        for byte in data {
            self.send(byte, false);
        }
        self.send_pair(sum.into());
        self.close(0);
    }

    fn cut(&mut self) {
        let charged = self.once_in(2);
        let answer = self.machine.cut(charged);
        self.note_answer(answer);
        self.command(0x05);
        self.wake();
    }

    fn play_seldom(&mut self) {
        match self.draw() % 64 {
            0..=7 => {
                self.command(0x06);
                self.open(0x01);
                let value = self.draw_byte();
                self.send(value, false);
                self.close(0);
            }
            8..=11 => {
                let opcode = self.draw_byte();
                self.open(opcode);
                self.send(opcode, false);
                let clocks = (self.draw() % 9) as u8;
                self.close(clocks);
                self.close(0);
            }
            which @ 12..=13 => {
                self.command(if which == 12 { 0x3C } else { 0x60 });
                self.wait_long();
            }
            14 => self.begin_write(),
            _ => {}
        }
    }

    fn play_round(&mut self) {
        self.wait(4);
        self.begin_write();
        let clocks = (self.draw() % 16 == 15).into();
        self.close(clocks);
        self.read(0x03, 64);
        self.read(0x13, 66);
        self.read(0x05, 1);
        if self.once_in(4) {
            self.write_frame();
        }
        self.play_seldom();
        if self.once_in(64) {
            self.cut();
        }
    }
}

fn main() {
    for word in std::env::args().skip(1) {
        let rounds = word.parse::<u32>().unwrap_or(0);
        let mut load = Load { machine: Machine::new(SIZE), seed: 1, total: 0 };
        load.wake();
        for _ in 0..rounds {
            load.play_round();
        }
        println!("{rounds} rounds: {:08X}", load.total);
    }
}
