//! Spoils records, tables and whole files.

use super::packing::{pack, pack_with_gaps};
use super::random::Random;

/// A file made of these records with some fault in it, or with bytes that belong to no record.
pub fn damaged(random: &mut Random, mut records: Vec<Vec<u8>>) -> Vec<u8> {
    match random.below(16) {
        0..=4 => {
            for _ in 0..random.from_to(1, 4) {
                spoil_record(random, &mut records);
            }
            pack(&records)
        }
        5 | 6 => with_gaps(random, &records),
        7 => {
            let length = random.pick(&[0, 1, 2, 3, 4, 5, 6, 30, 100, 700]);
            random.bytes(length)
        }
        8 => {
            // Few records, so that what stands in the table makes some sense.
            let mut file = vec![0, random.below(4) as u8];
            let length = random.below(40);
            file.extend(random.bytes(length));
            file
        }
        9 => truncated(random, pack(&records)),
        10 => flipped(random, pack(&records)),
        _ => bad_table(random, pack(&records)),
    }
}

/// Puts a record with fault 34 or 35 in the place of another or between two.
fn spoil_record(random: &mut Random, records: &mut Vec<Vec<u8>>) {
    let place = random.below(records.len() + 1);
    let bad = bad_record(random);
    if place < records.len() && random.one_in(2) {
        if random.one_in(2) {
            records[place][0] = random.byte();
        } else {
            records[place] = bad;
        }
    } else {
        records.insert(place, bad);
    }
}

fn bad_record(random: &mut Random) -> Vec<u8> {
    let any = random.byte();
    let too_much = random.from_to(2, 255) as u8;
    match random.below(13) {
        0 => vec![b'T'],
        1 => vec![b'T', random.from_to(8, 255) as u8, 0x06],
        2 => vec![b'T', 8],
        3 => vec![b'K'],
        4 => vec![b'K', 0],
        5 => vec![b'K', any, 1],
        6 => vec![b'C'],
        7 => vec![b'C', too_much],
        8 => vec![b'H', too_much],
        9 => vec![random.pick(b"CH"), any & 1, any],
        10 => vec![b'H'],
        11 => vec![b'P', any],
        _ => vec![random.pick(b"tkchpU\0\xFF"), any & 1],
    }
}

/// Unused bytes between the records and behind the last one.
fn with_gaps(random: &mut Random, records: &[Vec<u8>]) -> Vec<u8> {
    let mut file = pack_with_gaps(records, || {
        let length = random.pick(&[0, 0, 1, 2, 9]);
        random.bytes(length)
    });
    let behind = random.below(12);
    file.extend(random.bytes(behind));
    file
}

fn truncated(random: &mut Random, mut file: Vec<u8>) -> Vec<u8> {
    // Half of the time only the last record is hurt, else maybe the table too.
    let lost = if random.one_in(2) { 1 + random.below(3) } else { random.below(file.len()) };
    file.truncate(file.len().saturating_sub(lost));
    file
}

fn flipped(random: &mut Random, mut file: Vec<u8>) -> Vec<u8> {
    for _ in 0..random.from_to(1, 5) {
        let place = random.below(file.len());
        file[place] ^= 1 << random.below(8);
    }
    file
}

/// Changes the count, or one number of one pair, or spoils a pair in two ways at once.
fn bad_table(random: &mut Random, mut file: Vec<u8>) -> Vec<u8> {
    let count = usize::from(u16::from_be_bytes([file[0], file[1]]));
    let place = 2 + 4 * random.below(count);
    if random.one_in(6) {
        // The length is 0 or the offset lies too early, and the end lies behind the file too.
        let pair = random.pick(&[[0xFF, 0xFF, 0x00, 0x00], [0x00, 0x03, 0xFF, 0xF0]]);
        file[place..place + 4].copy_from_slice(&pair);
        return file;
    }
    let old = |at: usize| u16::from_be_bytes([file[at], file[at + 1]]);
    let (offset, length) = (old(place), old(place + 2));
    let back = random.from_to(1, 9) as u16;
    let far = random.pick(&[1, 2, 300, 40_000]);
    let (at, number) = match random.below(8) {
        0 => (0, count as u16 + random.pick(&[1, 2, 100])),
        1 => (0, random.pick(&[1_025, 1_024, 4_096, 65_535])),
        2 => (place + 2, 0),
        3 => (place, offset.wrapping_sub(back)),
        4 => (place, random.byte().into()),
        5 => (place, offset.wrapping_add(far)),
        6 => (place + 2, length.wrapping_add(far)),
        _ => (0, random.below(count) as u16),
    };
    file[at..at + 2].copy_from_slice(&number.to_be_bytes());
    file
}
