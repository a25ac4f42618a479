//! Short scenes of statuses, writes and reads, from which sessions are made.

use super::power;
use super::session::Session;

/// Plays one scene. For mr, those that it cannot follow are rare.
pub fn any(session: &mut Session) {
    match session.random.below(40) {
        0..=3 => set_status(session),
        4..=9 => write(session),
        10..=12 => read(session),
        13 | 14 => read_status(session),
        15 => look(session),
        16..=19 => power::cut_and_wake(session),
        20 => power::under_hold(session),
        21..=23 => oddity(session),
        24 => session_ticks(session),
        _ => by_dialect(session),
    }
}

fn by_dialect(session: &mut Session) {
    if session.is_for_mr() && !session.random.one_in(8) {
        return match session.random.below(8) {
            0..=1 => set_status(session),
            2..=4 => write(session),
            5 => read(session),
            6 => power::cut_and_wake(session),
            _ => bare(session, 0x00),
        };
    }
    match session.random.below(16) {
        0..=2 => secure_write(session),
        3 | 4 => frames(session),
        5 | 6 => secure_read(session),
        7..=10 => power::job(session, 0x3C),
        11..=13 => power::job(session, 0x60),
        _ => power::store_and_lose(session),
    }
}

/// Status bits in which every level and every other bit comes up, and those that protect everything not too often.
fn status_bits(session: &mut Session) -> u8 {
    let random = &mut session.random;
    if random.one_in(12) {
        return random.byte();
    }
    let level = if session.address_bytes == 3 {
        random.pick(&[0, 0, 1, 2, 3, 4, 5, 6, 6, 7])
    } else {
        random.pick(&[0, 0, 0, 0, 1, 1, 1, 2, 2, 3])
    };
    let mut bits = level << 2;
    for (bit, times) in [(0x20, 2), (0x40, 4), (0x80, 3), (0x13, 8)] {
        if random.one_in(times) {
            bits ^= bit;
        }
    }
    bits
}

pub fn set_status(session: &mut Session) {
    session.enable();
    let bits = status_bits(session);
    match session.random.below(20) {
        0 => session.transfer(&[0x01]),
        1 => session.transfer(&[0x01, bits, 0x00]),
        _ => session.transfer(&[0x01, bits]),
    }
    if session.random.one_in(2) {
        read_status(session);
    }
}

pub fn read_status(session: &mut Session) {
    let mut bytes = vec![0x05];
    bytes.resize(1 + session.random.from_to(0, 3), 0);
    session.transfer(&bytes);
}

pub fn write(session: &mut Session) {
    session.enable();
    let place = session.place();
    let mut bytes = session.addressed(0x02, place);
    let length = session.data_length();
    bytes.extend(session.random.bytes(length));
    session.transfer(&bytes);
    match session.random.below(4) {
        0 | 1 => read_from(session, place + 248, 16 + length.min(250)),
        2 => read_status(session),
        _ => {}
    }
}

/// Writes the whole array, so that afterwards every page differs from the kept one.
pub fn fill(session: &mut Session) {
    session.transfer_with(0, &[0x06]);
    session.transfer_with(0, &[0x01, 0x20]);
    session.transfer_with(0, &[0x06]);
    let mut bytes = vec![0x02];
    bytes.resize(1 + session.address_bytes, 0);
    bytes.extend(session.random.bytes(256));
    session.transfer_with(0, &bytes);
}

pub fn read(session: &mut Session) {
    let place = session.place();
    let length = session.random.pick(&[0, 1, 3, 9, 20, 66, 130, 300]);
    read_from(session, place, length);
}

fn read_from(session: &mut Session, place: usize, length: usize) {
    let mut bytes = session.addressed(0x03, place % 256);
    bytes.extend(session.random.bytes(length));
    session.transfer(&bytes);
}

/// Reads the whole status and the whole array, so that whatever went wrong before shows.
pub fn look(session: &mut Session) {
    session.transfer_with(0, &[0x05, 0x00]);
    let mut bytes = vec![0x03];
    bytes.resize(1 + session.address_bytes + 258, 0);
    session.transfer_with(0, &bytes);
}

pub fn secure_write(session: &mut Session) {
    session.enable();
    let place = session.place();
    let mut bytes = vec![0x12];
    bytes.extend(session.address(place));
    let data = session.random.bytes(64);
    let sum = session.frame_sum(place, &data);
    bytes.extend(data);
    bytes.extend(sum.to_be_bytes());
    match session.random.below(16) {
        0 => bytes.truncate(session.random.below(bytes.len()) + 1),
        1 => bytes.push(session.random.byte()),
        2 => *bytes.last_mut().unwrap() ^= session.random.from_to(1, 255) as u8,
        3..=5 => burst(session, &mut bytes),
        _ => {}
    }
    session.transfer(&bytes);
    match session.random.below(4) {
        0 => secure_read(session),
        1 => read_status(session),
        2 => read_from(session, place, 66),
        _ => {}
    }
}

/// Several frames one behind the other, with the status read behind each, so that the fail mark is seen to come, stay and go.
fn frames(session: &mut Session) {
    for _ in 0..session.random.from_to(2, 4) {
        if session.random.one_in(3) {
            set_status(session);
        }
        secure_write(session);
        session.transfer_with(0, &[0x05, 0x00]);
    }
}

/// Damages up to 16 bits behind the opcode that lie next to each other.
fn burst(session: &mut Session, bytes: &mut [u8]) {
    let bits = session.random.from_to(1, 0xFFFF) as u32;
    let shifted = (bits << session.random.below(8)).to_be_bytes();
    let at = session.random.from_to(1, bytes.len() - 4);
    for (byte, damage) in bytes[at..].iter_mut().zip(shifted) {
        *byte ^= damage;
    }
}

pub fn secure_read(session: &mut Session) {
    let place = session.place();
    let mut bytes = session.addressed(0x13, place);
    let length = session.random.pick(&[0, 5, 64, 65, 66, 66, 66, 67, 70, 130]);
    bytes.extend(session.random.bytes(length));
    session.transfer(&bytes);
}

/// An instruction that takes no bytes, sometimes with one or with clocks all the same.
pub fn bare(session: &mut Session, opcode: u8) {
    match session.random.below(5) {
        0 => session.transfer(&[opcode, 0x00]),
        1 => {
            let clocks = session.random.from_to(1, 7) as u8;
            session.transfer_with(clocks, &[opcode]);
        }
        _ => session.transfer(&[opcode]),
    }
}

/// Transfers that do nothing or should not be there.
pub fn oddity(session: &mut Session) {
    match session.random.below(8) {
        0 => session.transfer(&[]),
        1 => {
            let clocks = session.random.from_to(1, 7) as u8;
            session.transfer_with(clocks, &[]);
        }
        2 | 3 => {
            let opcode = session.random.byte();
            let length = session.random.below(5);
            let mut bytes = vec![opcode];
            bytes.extend(session.random.bytes(length));
            session.transfer(&bytes);
        }
        4 => session.power_up(),
        5 => {
            // The latch is set, and then it is seen whether it is clear again.
            session.enable();
            bare(session, 0x04);
            read_status(session);
        }
        _ => {
            let opcode = session.random.pick(&[0x06, 0x04, 0x00, 0x3C, 0x60]);
            bare(session, opcode);
        }
    }
}

fn session_ticks(session: &mut Session) {
    let ticks = session.random.pick(&[1, 2, 3, 4, 5, 255]);
    session.ticks(ticks);
}
