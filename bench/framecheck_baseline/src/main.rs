//! The job of framecheck in ordinary Rust, written apart from it, to compare speed and output with.
//!
//! The sum steps by whole bytes over a table of 256 entries. Everything else is what a Rust programmer would write
//! without a thought of speed: slices, iterators, `?` and a buffered writer.

use std::io::{self, BufWriter, Read, Write};

const TABLE: [u16; 256] = table();

const fn table() -> [u16; 256] {
    let mut table = [0; 256];
    let mut i = 0;
    while i < 256 {
        let mut register = (i as u16) << 8;
        let mut bit = 0;
        while bit < 8 {
            register = if register & 0x8000 == 0 { register << 1 } else { register << 1 ^ 0x1021 };
            bit += 1;
        }
        table[i] = register;
        i += 1;
    }
    table
}

fn update(register: u16, message: &[u8]) -> u16 {
    message.iter().fold(register, |r, byte| r << 8 ^ TABLE[usize::from((r >> 8) as u8 ^ byte)])
}

enum Unreadable {
    Empty,
    Size,
    AddressBytes,
    NotHexadecimal,
    HalfByte,
    TooShort,
    TooLong,
}

impl Unreadable {
    fn reason(&self) -> &'static str {
        match self {
            Unreadable::Empty => "nothing stands on the line",
            Unreadable::Size => "the size is no power of two from 256 to 65536 (2 address bytes) or 16777216 (3)",
            Unreadable::AddressBytes => "the number of address bytes is not 2 or 3",
            Unreadable::NotHexadecimal => "a character is no hexadecimal digit",
            Unreadable::HalfByte => "a byte has one hexadecimal digit only",
            Unreadable::TooShort => "the line ends before the frame does",
            Unreadable::TooLong => "something stands behind the frame",
        }
    }
}

struct Verdict {
    right: bool,
    page: u32,
    offset: u32,
    sent: u16,
    worked_out: u16,
}

fn is_blank(c: u8) -> bool {
    matches!(c, b' ' | b'\t' | b'\r')
}

fn skip_blanks(text: &[u8]) -> &[u8] {
    let blanks = text.iter().take_while(|c| is_blank(**c)).count();
    &text[blanks..]
}

/// A word of decimal digits, as a number, and the text behind it.
fn number(text: &[u8]) -> Option<(u64, &[u8])> {
    let end = text.iter().position(|c| is_blank(*c)).unwrap_or(text.len());
    let (word, rest) = text.split_at(end);
    if word.is_empty() || !word.iter().all(u8::is_ascii_digit) {
        return None;
    }
    let value = word.iter().fold(0u64, |n, c| n.saturating_mul(10).saturating_add(u64::from(c - b'0')));
    Some((value, rest))
}

fn digit(c: u8) -> Option<u8> {
    char::from(c).to_digit(16).map(|d| d as u8)
}

/// A byte of two hexadecimal digits, and the text behind it.
fn byte(text: &[u8]) -> Result<(u8, &[u8]), Unreadable> {
    let (&first, text) = skip_blanks(text).split_first().ok_or(Unreadable::TooShort)?;
    let high = digit(first).ok_or(Unreadable::NotHexadecimal)?;
    let (&second, text) = text.split_first().ok_or(Unreadable::HalfByte)?;
    let low = digit(second).ok_or(if is_blank(second) { Unreadable::HalfByte } else { Unreadable::NotHexadecimal })?;
    Ok((high << 4 | low, text))
}

fn examine(line: &[u8]) -> Result<Verdict, Unreadable> {
    let text = skip_blanks(line);
    if text.is_empty() {
        return Err(Unreadable::Empty);
    }
    let (size, text) = number(text).ok_or(Unreadable::Size)?;
    let (k, text) = number(skip_blanks(text)).ok_or(Unreadable::AddressBytes)?;
    if k != 2 && k != 3 {
        return Err(Unreadable::AddressBytes);
    }
    if !(256..=1 << (8 * k)).contains(&size) || !size.is_power_of_two() {
        return Err(Unreadable::Size);
    }
    let k = k as usize;
    let mut frame = [0; 69];
    let frame = &mut frame[..k + 66];
    let mut rest = text;
    for place in frame.iter_mut() {
        (*place, rest) = byte(rest)?;
    }
    if !skip_blanks(rest).is_empty() {
        return Err(Unreadable::TooLong);
    }
    let address = frame[..k].iter().fold(0, |n, byte| n << 8 | u32::from(*byte)) % size as u32;
    let sent = u16::from_be_bytes([frame[k + 64], frame[k + 65]]);
    let worked_out = update(update(0xFFFF, &address.to_be_bytes()[4 - k..]), &frame[k..k + 64]);
    Ok(Verdict { right: sent == worked_out, page: address / 64, offset: address % 64, sent, worked_out })
}

fn main() -> io::Result<()> {
    let mut text = Vec::new();
    io::stdin().lock().read_to_end(&mut text)?;
    let mut out = BufWriter::with_capacity(65_536, io::stdout().lock());
    let (mut right, mut wrong, mut unreadable) = (0, 0, 0);
    let lines = text.split_inclusive(|c| *c == b'\n').map(|line| line.strip_suffix(b"\n").unwrap_or(line));
    for (i, line) in lines.enumerate() {
        match examine(line) {
            Ok(v) => {
                let word = if v.right { "right" } else { "wrong" };
                *(if v.right { &mut right } else { &mut wrong }) += 1;
                writeln!(
                    out,
                    "{} {word} page {} offset {} sum sent {:04X} worked out {:04X}",
                    i + 1,
                    v.page,
                    v.offset,
                    v.sent,
                    v.worked_out
                )?;
            }
            Err(why) => {
                unreadable += 1;
                writeln!(out, "{} unreadable: {}", i + 1, why.reason())?;
            }
        }
    }
    writeln!(out, "{right} right, {wrong} wrong, {unreadable} unreadable")?;
    out.flush()
}
