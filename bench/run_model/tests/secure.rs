//! Secure reads and writes of nv.

mod common;

use common::*;

#[test]
fn a_right_frame_is_put_and_a_secure_read_gives_it_back() {
    let mut part = nv();
    let data: [u8; 64] = std::array::from_fn(|i| i as u8 + 100);
    let frame = frame(0x0045, &data);
    assert_eq!(enabled(&mut part, &frame), 0);
    // Address 45h is offset 5 of page 1. Data byte 59 fills its last offset, and byte 60 its first.
    let due: Vec<_> = (0..64).map(|i| put(64 + (5 + i) % 64, i as u8 + 100)).collect();
    assert_eq!(due[59], put(64, 159));
    assert_eq!(events(&mut part), due);

    let mut bytes = vec![0x13, 0x00, 0x45];
    bytes.resize(3 + 68, 0);
    let (number, driven) = transfer(&mut part, 4, &bytes);
    assert_eq!(number, 0);
    assert_eq!(driven[..3], [None; 3]);
    let got: Vec<u8> = driven[3..69].iter().map(|byte| byte.unwrap()).collect();
    assert_eq!(got, frame[3..]);
    assert_eq!(driven[69..], [None, None]);
}

#[test]
fn the_sum_is_that_of_the_address_in_the_array() {
    let mut part = nv();
    let data = [0x5A; 64];
    // The frame's address has bits above the array; its sum was worked out without them.
    assert_eq!(enabled(&mut part, &frame(0x7F80, &data)), 0);
    // With the sum of the address as it was sent the frame is wrong.
    let mut bytes = vec![0x12, 0x7F, 0x80];
    bytes.extend_from_slice(&data);
    bytes.extend_from_slice(&slow_sum(&bytes[1..]).to_be_bytes());
    assert_eq!(enabled(&mut part, &bytes), 17);
}

#[test]
fn the_fail_mark_comes_with_a_wrong_sum_and_goes_with_a_frame_that_is_done() {
    let mut part = nv();
    let right = frame(0x00C0, &[0x11; 64]);
    let mut wrong = right.clone();
    wrong[20] ^= 0x01;
    assert_eq!(enabled(&mut part, &wrong), 17);
    assert_eq!(status(&mut part), 0x10);
    assert_eq!(events(&mut part), []);
    // A wrong length, leftover clocks or protection leave the mark as it is.
    assert_eq!(enabled(&mut part, &right[..68]), 15);
    answer(&mut part, ENABLE);
    assert_eq!(transfer(&mut part, 1, &right).0, 16);
    assert_eq!(enabled(&mut part, &[0x01, 0x04]), 0);
    assert_eq!(enabled(&mut part, &right), 14);
    assert_eq!(enabled(&mut part, &wrong), 17);
    assert_eq!(status(&mut part), 0x14);
    assert_eq!(enabled(&mut part, &[0x01, 0x00]), 0);
    assert_eq!(enabled(&mut part, &right), 0);
    assert_eq!(status(&mut part), 0x00);
}

#[test]
fn a_frame_with_a_byte_too_many_has_a_wrong_length() {
    let mut part = nv();
    let mut bytes = frame(0x0000, &[0; 64]);
    bytes.push(0);
    assert_eq!(enabled(&mut part, &bytes), 15);
    assert_eq!(enabled(&mut part, &[0x12]), 15);
    assert_eq!(status(&mut part), 0x00);
}

#[test]
fn power_up_clears_the_fail_mark() {
    let mut part = nv();
    let mut wrong = frame(0x0000, &[0; 64]);
    wrong[68] ^= 0x80;
    assert_eq!(enabled(&mut part, &wrong), 17);
    part.cut(false).unwrap();
    let mut part = awake(part);
    assert_eq!(status(&mut part), 0x00);
}

#[test]
fn secure_instructions_need_what_others_need() {
    let mut part = nv();
    assert_eq!(answer(&mut part, &frame(0, &[0; 64])), 13);
    assert_eq!(transfer(&mut part, 0, &[0x13, 0x00]), (0, vec![None, None]));
}
