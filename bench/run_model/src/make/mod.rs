//! Makes pseudo-random run files that are mostly whole sessions, so that deep states of a part are reached.

mod damage;
pub mod packing;
mod power;
pub mod random;
mod scenes;
mod session;

use std::fs;
use std::io;
use std::path::Path;

use packing::pack;
use random::Random;
use session::Session;

use crate::run_file::LONGEST;

/// Writes the first `count` files of a seed into a directory.
pub fn write_files(seed: u64, count: u64, directory: &Path) -> io::Result<()> {
    fs::create_dir_all(directory)?;
    for index in 0..count {
        fs::write(directory.join(format!("{index:06}.run")), file(seed, index))?;
    }
    Ok(())
}

/// File `index` of a seed.
pub fn file(seed: u64, index: u64) -> Vec<u8> {
    let mut random = Random::for_file(seed, index);
    match random.below(240) {
        0 | 1 => pack(&exactly(random, 1_024)),
        2 | 3 => pack(&exactly(random, 1_025)),
        4 | 5 => stretched(random, LONGEST),
        6 | 7 => stretched(random, LONGEST + 1),
        8..=13 => {
            let wanted = random.from_to(100, 400);
            pack(&session(random, wanted).records)
        }
        14..=54 => {
            let wanted = random.from_to(4, 40);
            let mut session = session(random, wanted);
            damage::damaged(&mut session.random, session.records)
        }
        _ => {
            let wanted = random.from_to(5, 60);
            pack(&session(random, wanted).records)
        }
    }
}

/// A session for one of the dialects. It ends with a look at the whole part.
fn session(mut random: Random, wanted: usize) -> Session {
    let address_bytes = random.from_to(2, 3);
    let mut session = Session::new(random, address_bytes, wanted);
    play_until_full(&mut session);
    session.want_more(2);
    scenes::look(&mut session);
    session
}

fn play_until_full(session: &mut Session) {
    if !session.random.one_in(20) {
        power::wake(session);
    }
    while !session.is_full() {
        scenes::any(session);
    }
}

/// The records of a session of exactly so many.
fn exactly(mut random: Random, count: usize) -> Vec<Vec<u8>> {
    let address_bytes = random.from_to(2, 3);
    let mut session = Session::new(random, address_bytes, count);
    play_until_full(&mut session);
    session.records
}

/// A file of exactly so many bytes: the last bytes belong to no record, or to one long transfer.
fn stretched(mut random: Random, length: usize) -> Vec<u8> {
    let wanted = random.from_to(20, 200);
    let mut session = session(random, wanted);
    if session.random.one_in(2) {
        session.want_more(2);
        session.transfer_with(0, &[0x06]);
        let opcode = session.random.pick(&[0x03, 0x02, 0x05, 0x13]);
        let mut last = vec![b'T', 0, opcode];
        let taken = packing::packed_length(&session.records) + 4 + last.len();
        last.extend(session.random.bytes(LONGEST.saturating_sub(taken)));
        session.push(last);
    }
    let mut file = pack(&session.records);
    file.resize(length, 0x50);
    file
}
