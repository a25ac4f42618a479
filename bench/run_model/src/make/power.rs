//! Scenes of stores and recalls, of the loss and return of power, and of the hold line.

use super::scenes;
use super::session::Session;

/// Power returns. Mostly the waking is waited for, and a time in four something is tried too early.
pub fn wake(session: &mut Session) {
    session.power_up();
    if !session.random.one_in(4) {
        let ticks = session.random.pick(&[4, 4, 4, 4, 5, 255]);
        session.ticks(ticks);
        return;
    }
    let early = session.random.below(4);
    if early > 0 {
        session.ticks(early);
    }
    poke(session);
    match session.random.below(4) {
        0 => {
            cut(session);
            session.power_up();
            session.ticks(4);
        }
        _ => session.ticks(4 - early),
    }
}

fn cut(session: &mut Session) {
    let charged = !session.random.one_in(3);
    session.cut(charged);
}

/// A cut, sometimes right behind a write, then perhaps calls without power, and mostly a waking.
pub fn cut_and_wake(session: &mut Session) {
    if session.random.one_in(3) {
        scenes::write(session);
    }
    cut(session);
    if session.random.one_in(4) {
        without_power(session);
    }
    wake(session);
    if session.random.one_in(3) {
        scenes::look(session);
    }
}

fn without_power(session: &mut Session) {
    match session.random.below(4) {
        0 => cut(session),
        1 => session.ticks(2),
        _ => poke(session),
    }
}

/// A store or a recall of four ticks, with something tried in between, or cut on its way.
pub fn job(session: &mut Session, opcode: u8) {
    match session.random.below(4) {
        0 | 1 => scenes::fill(session),
        2 => scenes::write(session),
        _ => {}
    }
    if session.random.one_in(3) {
        // The latch is then set while the part is busy.
        session.enable();
    }
    scenes::bare(session, opcode);
    let done = session.random.below(5);
    if done > 0 {
        session.ticks(done);
    }
    for _ in 0..session.random.below(3) {
        poke(session);
    }
    match session.random.below(4) {
        0 | 1 => {
            cut(session);
            wake(session);
            scenes::look(session);
        }
        2 => {
            session.ticks(5 - done);
            scenes::look(session);
        }
        _ => session.ticks(5 - done),
    }
}

/// What is stored must come back after a loss of power, and what is written behind the store only if the cut is charged.
pub fn store_and_lose(session: &mut Session) {
    scenes::write(session);
    session.transfer(&[0x3C]);
    session.ticks(4);
    scenes::write(session);
    cut(session);
    wake(session);
    scenes::look(session);
}

/// A transfer of any sort, without setting the latch before. Behind a write the status tells whether the latch is clear.
fn poke(session: &mut Session) {
    let place = session.place();
    match session.random.below(8) {
        0..=2 => scenes::read_status(session),
        3 => {
            let mut bytes = session.addressed(0x02, place);
            bytes.push(session.random.byte());
            session.transfer(&bytes);
            scenes::read_status(session);
        }
        4 => {
            session.transfer(&[0x01, 0x0C]);
            scenes::read_status(session);
        }
        5 => {
            let opcode = session.random.byte();
            session.transfer(&[opcode, 0x00]);
        }
        6 => {
            let opcode = session.random.pick(&[0x06, 0x04, 0x3C, 0x60, 0x00]);
            session.transfer(&[opcode]);
        }
        _ => {
            let mut bytes = session.addressed(0x03, place);
            bytes.extend([0, 0, 0]);
            session.transfer(&bytes);
        }
    }
}

/// Scenes while the hold line is active. A time in ten it stays so.
pub fn under_hold(session: &mut Session) {
    session.hold(true);
    for _ in 0..session.random.from_to(1, 3) {
        match session.random.below(4) {
            0 => scenes::set_status(session),
            1 => scenes::write(session),
            2 => scenes::read_status(session),
            _ => scenes::oddity(session),
        }
    }
    if !session.random.one_in(10) {
        session.hold(false);
    }
}
