//! The instructions of mr, with values worked out from the rules.

mod common;

use common::*;
use run_model::cells::Lasting;
use run_model::dialect::{Dialect, Mr, Nv};
use run_model::machine::Part;
use run_model::watch::Note;

#[test]
fn opcodes_that_mr_has_and_has_not() {
    let mut part = mr();
    assert_eq!(answer(&mut part, &[0x00]), 0);
    assert_eq!(answer(&mut part, &[0x00, 0x00]), 15);
    assert_eq!(transfer(&mut part, 6, &[0x00]).0, 16);
    for opcode in [0x12, 0x13, 0x3C, 0x60] {
        assert_eq!(answer(&mut part, &[opcode]), 12);
    }
}

#[test]
fn write_status_keeps_the_mask() {
    let mut part = mr();
    assert_eq!(enabled(&mut part, &[0x01, 0xFF]), 0);
    assert_eq!(status(&mut part), 0xBC);
}

#[test]
fn each_byte_is_put_as_it_arrives() {
    let mut part = mr();
    answer(&mut part, ENABLE);
    part.select().unwrap();
    send(&mut part, &[0x02, 0x55, 0xAA, 0xFF]);
    assert_eq!(events(&mut part), []);
    send(&mut part, &[1, 2]);
    assert_eq!(events(&mut part), [put(255, 1), put(0, 2)]);
    // Leftover clocks refuse the write, but its puts stand.
    assert_eq!(number(part.release(1)), 16);
    let (number, driven) = transfer(&mut part, 0, &[0x03, 0, 0, 0xFF, 0, 0]);
    assert_eq!((number, &driven[4..]), (0, &[Some(1), Some(2)][..]));
    assert_eq!(status(&mut part), 0x00);
}

#[test]
fn a_write_without_data_has_a_wrong_length() {
    let mut part = mr();
    assert_eq!(enabled(&mut part, &[0x02, 0, 0, 0]), 15);
    assert_eq!(enabled(&mut part, &[0x02, 0, 0]), 15);
}

#[test]
fn protection_goes_byte_by_byte() {
    let mut part = mr();
    // Level 1 protects 256 / 64 = 4 bytes at the top: 252 to 255.
    assert_eq!(enabled(&mut part, &[0x01, 0x04]), 0);
    assert_eq!(enabled(&mut part, &[0x02, 0, 0, 250, 1, 2, 3, 4, 5, 6, 7]), 14);
    assert_eq!(events(&mut part), [put(250, 1), put(251, 2), put(0, 7)]);
    // The same level at the bottom: 0 to 3.
    assert_eq!(enabled(&mut part, &[0x01, 0x24]), 0);
    assert_eq!(enabled(&mut part, &[0x02, 0, 0, 3, 8, 9]), 14);
    assert_eq!(events(&mut part), [put(4, 9)]);
    assert_eq!(enabled(&mut part, &[0x02, 0, 0, 252, 10]), 0);
}

#[test]
fn a_cut_keeps_what_was_written_and_lasting_cells_lose_nothing() {
    let mut part = mr();
    assert_eq!(enabled(&mut part, &[0x02, 0, 0, 16, 0x5A]), 0);
    events(&mut part);
    part.cut(true).unwrap();
    assert_eq!(events(&mut part), [keep(0), keep(1), keep(2), keep(3), Note::Fade]);
    let mut part = awake(part);
    assert_eq!(enabled(&mut part, &[0x02, 0, 0, 17, 0x5B]), 0);
    part.cut(false).unwrap();
    let mut part = awake(part);
    assert_eq!(transfer(&mut part, 0, &[0x03, 0, 0, 16, 0, 0]).1[4..], [Some(0x5A), Some(0x5B)]);
}

#[test]
fn an_array_of_full_size_uses_three_address_bytes() {
    let mut part: Watched<Mr, Lasting> = awake(Part::new(Lasting::filled(131_072, 0xFF), Vec::new()));
    assert_eq!(enabled(&mut part, &[0x02, 0xFF, 0xFF, 0xFF, 1, 2]), 0);
    assert_eq!(events(&mut part), [put(131_071, 1), put(0, 2)]);
}

#[test]
fn protected_ranges_of_the_tables() {
    assert_eq!(Mr::protected(0x14, 131_072), 98_304..131_072);
    assert_eq!(Mr::protected(0x34, 131_072), 0..32_768);
    assert_eq!(Mr::protected(0x1C, 256), 0..256);
    assert!(Mr::protected(0x00, 256).is_empty());
    assert!(Mr::protected(0x20, 256).is_empty());
    assert_eq!(Nv::protected(0x64, 32_768), 24_576..32_768);
    assert_eq!(Nv::protected(0x08, 32_768), 16_384..32_768);
    assert_eq!(Nv::protected(0x2C, 32_768), 0..32_768);
    assert!(Nv::protected(0x60, 32_768).is_empty());
}
