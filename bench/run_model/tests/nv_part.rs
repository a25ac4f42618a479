//! The instructions of nv, with values worked out from the rules.

mod common;

use common::*;

#[test]
fn enable_and_disable() {
    let mut part = nv();
    assert_eq!(status(&mut part), 0x00);
    assert_eq!(transfer(&mut part, 0, &[0x06, 0x00]), (15, vec![None, None]));
    assert_eq!(transfer(&mut part, 1, &[0x06]).0, 16);
    assert_eq!(transfer(&mut part, 1, &[0x06, 0x00]).0, 15);
    assert_eq!(status(&mut part), 0x00);
    assert_eq!(answer(&mut part, ENABLE), 0);
    assert_eq!(status(&mut part), 0x02);
    assert_eq!(transfer(&mut part, 7, &[0x04]).0, 16);
    assert_eq!(status(&mut part), 0x02);
    assert_eq!(answer(&mut part, &[0x04]), 0);
    assert_eq!(status(&mut part), 0x00);
}

#[test]
fn write_status_keeps_the_mask_and_clears_the_latch() {
    let mut part = nv();
    assert_eq!(answer(&mut part, &[0x01, 0xFF]), 13);
    assert_eq!(enabled(&mut part, &[0x01, 0xFF]), 0);
    assert_eq!(status(&mut part), 0x6C);
    assert_eq!(enabled(&mut part, &[0x01]), 15);
    assert_eq!(enabled(&mut part, &[0x01, 0x00, 0x00]), 15);
    answer(&mut part, ENABLE);
    assert_eq!(transfer(&mut part, 2, &[0x01, 0x00]).0, 16);
    assert_eq!(status(&mut part), 0x6C);
}

#[test]
fn a_read_goes_round_and_drops_high_address_bits() {
    let mut part = nv();
    assert_eq!(enabled(&mut part, &[0x02, 0x00, 0xFF, 0x77]), 0);
    assert_eq!(enabled(&mut part, &[0x02, 0x00, 0x00, 0x88]), 0);
    let (number, driven) = transfer(&mut part, 5, &[0x03, 0x12, 0xFE, 0, 0, 0, 0]);
    assert_eq!(number, 0);
    assert_eq!(driven, [None, None, None, Some(0xFF), Some(0x77), Some(0x88), Some(0xFF)]);
    assert_eq!(transfer(&mut part, 0, &[0x03, 0x12]), (0, vec![None, None]));
}

#[test]
fn of_a_long_write_the_last_64_bytes_are_put_in_the_order_of_sending() {
    let mut part = nv();
    let mut bytes = vec![0x02, 0x00, 0x7F];
    bytes.extend(0..66u8);
    assert_eq!(enabled(&mut part, &bytes), 0);
    // Byte 0 went to 127, bytes 1 to 64 to 64..=127, byte 65 to 64 again: 2 to 65 are left.
    let mut due: Vec<_> = (2..=64u8).map(|i| put(63 + usize::from(i), i)).collect();
    due.push(put(64, 65));
    assert_eq!(events(&mut part), due);
}

#[test]
fn a_write_that_runs_on_puts_a_page_when_it_is_full() {
    let mut part = nv();
    assert_eq!(enabled(&mut part, &[0x01, 0x20]), 0);
    answer(&mut part, ENABLE);
    part.select().unwrap();
    send(&mut part, &[0x02, 0x00, 0xFE, 0x01]);
    assert_eq!(events(&mut part), []);
    send(&mut part, &[0x02]);
    assert_eq!(events(&mut part), [put(254, 1), put(255, 2)]);
    send(&mut part, &[0x03]);
    assert_eq!(number(part.release(0)), 0);
    assert_eq!(events(&mut part), [put(0, 3)]);
}

#[test]
fn a_write_that_ran_on_may_end_at_a_page_end() {
    let mut part = nv();
    assert_eq!(enabled(&mut part, &[0x01, 0x20]), 0);
    assert_eq!(enabled(&mut part, &[0x02, 0x00, 0x3F, 0x55]), 0);
    assert_eq!(events(&mut part), [put(63, 0x55)]);
}

#[test]
fn leftover_clocks_drop_the_buffer_only() {
    let mut part = nv();
    assert_eq!(enabled(&mut part, &[0x01, 0x20]), 0);
    answer(&mut part, ENABLE);
    assert_eq!(transfer(&mut part, 1, &[0x02, 0x00, 0x3F, 0x55, 0x66]).0, 16);
    assert_eq!(events(&mut part), [put(63, 0x55)]);
    assert_eq!(status(&mut part), 0x20);
}

#[test]
fn writes_without_address_or_data_have_a_wrong_length() {
    let mut part = nv();
    for bytes in [&[0x02][..], &[0x02, 0x00], &[0x02, 0x00, 0x00]] {
        assert_eq!(enabled(&mut part, bytes), 15);
        assert_eq!(status(&mut part), 0x00);
    }
    assert_eq!(events(&mut part), []);
}

#[test]
fn protected_pages_keep_their_bytes() {
    let mut part = nv();
    // Level 1 protects 192 to 255; the write runs on.
    assert_eq!(enabled(&mut part, &[0x01, 0x24]), 0);
    assert_eq!(enabled(&mut part, &[0x02, 0x00, 0xBE, 1, 2, 3, 4]), 14);
    assert_eq!(events(&mut part), [put(190, 1), put(191, 2)]);
    assert_eq!(enabled(&mut part, &[0x02, 0x00, 0xFF, 5, 6]), 14);
    assert_eq!(events(&mut part), [put(0, 6)]);
    // Without running on, the write rolls over inside the protected page.
    assert_eq!(enabled(&mut part, &[0x01, 0x04]), 0);
    assert_eq!(enabled(&mut part, &[0x02, 0x00, 0xFF, 5, 6]), 14);
    assert_eq!(enabled(&mut part, &[0x02, 0x00, 0xBF, 7, 8]), 0);
    assert_eq!(events(&mut part), [put(191, 7), put(128, 8)]);
    // Level 3 protects everything.
    assert_eq!(enabled(&mut part, &[0x01, 0x0C]), 0);
    assert_eq!(enabled(&mut part, &[0x02, 0x00, 0x00, 9]), 14);
    assert_eq!(status(&mut part), 0x0C);
}

#[test]
fn bytes_under_hold_do_not_count() {
    let mut part = nv();
    answer(&mut part, ENABLE);
    part.select().unwrap();
    assert_eq!(part.byte(0x60, true), Ok(None));
    for byte in [0x02, 0x00, 0x10] {
        part.byte(byte, false).unwrap();
        assert_eq!(part.byte(0xEE, true), Ok(None));
    }
    part.byte(0x33, false).unwrap();
    assert_eq!(number(part.release(0)), 0);
    assert_eq!(events(&mut part), [put(16, 0x33)]);
    part.select().unwrap();
    part.byte(0x06, true).unwrap();
    assert_eq!(number(part.release(0)), 10);
    assert_eq!(number(part.release(0)), 4);
}

#[test]
fn opcodes_that_are_turned_away() {
    let mut part = nv();
    assert_eq!(transfer(&mut part, 3, &[]).0, 10);
    assert_eq!(transfer(&mut part, 3, &[0x00, 1, 2]), (12, vec![None; 3]));
    assert_eq!(transfer(&mut part, 3, &[0x02, 1, 2]), (13, vec![None; 3]));
    answer(&mut part, ENABLE);
    assert_eq!(answer(&mut part, &[]), 10);
    assert_eq!(answer(&mut part, &[0xAA]), 12);
    assert_eq!(status(&mut part), 0x02);
}
