//! What the tests share: parts that are awake, whole transfers, and the events of a run.

#![allow(dead_code)] // Each test file uses some of these.

use run_model::cells::{Cells, Lasting, Shadowed};
use run_model::dialect::{Dialect, Mr, Nv};
use run_model::machine::Part;
use run_model::refusal::{Answer, Refusal};
use run_model::watch::Note;

pub type Watched<D, C> = Part<D, C, Vec<Note>>;

pub const ENABLE: &[u8] = &[0x06];

/// An nv part of 256 bytes above shadowed cells, all FFh, after its waking.
pub fn nv() -> Watched<Nv, Shadowed> {
    awake(Part::new(Shadowed::filled(256, 0xFF), Vec::new()))
}

/// An mr part of 256 bytes above lasting cells, all FFh, after its waking.
pub fn mr() -> Watched<Mr, Lasting> {
    awake(Part::new(Lasting::filled(256, 0xFF), Vec::new()))
}

pub fn awake<D: Dialect, C: Cells>(mut part: Watched<D, C>) -> Watched<D, C> {
    part.power_up().unwrap();
    while part.tick().unwrap() > 0 {}
    events(&mut part);
    part
}

/// The number that a call answers.
pub fn number<T>(answer: Answer<T>) -> u8 {
    answer.map_or_else(Refusal::number, |_| 0)
}

/// Sends bytes within a selection, and answers what was driven at each.
pub fn send<D: Dialect, C: Cells>(part: &mut Watched<D, C>, bytes: &[u8]) -> Vec<Option<u8>> {
    bytes.iter().map(|&byte| part.byte(byte, false).unwrap()).collect()
}

/// A whole transfer: its number, and what was driven at each byte.
pub fn transfer<D: Dialect, C: Cells>(part: &mut Watched<D, C>, clocks: u8, bytes: &[u8]) -> (u8, Vec<Option<u8>>) {
    part.select().unwrap();
    let driven = send(part, bytes);
    (number(part.release(clocks)), driven)
}

/// The number of a whole transfer without leftover clocks.
pub fn answer<D: Dialect, C: Cells>(part: &mut Watched<D, C>, bytes: &[u8]) -> u8 {
    transfer(part, 0, bytes).0
}

/// Enables writes and makes a transfer.
pub fn enabled<D: Dialect, C: Cells>(part: &mut Watched<D, C>, bytes: &[u8]) -> u8 {
    assert_eq!(answer(part, ENABLE), 0);
    answer(part, bytes)
}

/// The status byte.
pub fn status<D: Dialect, C: Cells>(part: &mut Watched<D, C>) -> u8 {
    transfer(part, 0, &[0x05, 0x00]).1[1].unwrap()
}

/// The events since the last question.
pub fn events<D: Dialect, C: Cells>(part: &mut Watched<D, C>) -> Vec<Note> {
    let is_event =
        |note: &Note| matches!(note, Note::Put { .. } | Note::Keep { .. } | Note::Recall { .. } | Note::Fade);
    std::mem::take(part.watch()).into_iter().filter(is_event).collect()
}

pub fn put(address: usize, value: u8) -> Note {
    Note::Put { address, value }
}

pub fn keep(page: usize) -> Note {
    Note::Keep { page }
}

pub fn recall(page: usize) -> Note {
    Note::Recall { page }
}

/// The sum, one bit at a time, as the rule is worded.
pub fn slow_sum(message: &[u8]) -> u16 {
    let mut register = 0xFFFFu16;
    for byte in message {
        for place in (0..8).rev() {
            let fell_out = register >> 15;
            register <<= 1;
            if fell_out != u16::from(byte >> place & 1) {
                register ^= 0x1021;
            }
        }
    }
    register
}

/// A secure write of 64 data bytes at a two-byte address, with the right sum for an array of 256 bytes.
pub fn frame(address: u16, data: &[u8; 64]) -> Vec<u8> {
    let mut summed = vec![0x00, address as u8];
    summed.extend_from_slice(data);
    let mut bytes = vec![0x12, (address >> 8) as u8, address as u8];
    bytes.extend_from_slice(data);
    bytes.extend_from_slice(&slow_sum(&summed).to_be_bytes());
    bytes
}
