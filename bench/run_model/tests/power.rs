//! Stores, recalls, cuts and wakings.

mod common;

use common::*;
use run_model::cells::Shadowed;
use run_model::dialect::{Mr, Nv};
use run_model::machine::Part;
use run_model::watch::Note;

#[test]
fn a_store_keeps_a_page_at_each_tick() {
    let mut part = nv();
    assert_eq!(transfer(&mut part, 0, &[0x3C, 0x00]).0, 15);
    assert_eq!(transfer(&mut part, 1, &[0x3C]).0, 16);
    assert_eq!(part.tick(), Ok(0));
    assert_eq!(answer(&mut part, &[0x3C]), 0);
    // A selection may stay open over ticks, and the status is that at each byte.
    part.select().unwrap();
    assert_eq!(send(&mut part, &[0x05, 0x00]), [None, Some(0x01)]);
    assert_eq!([3, 2, 1, 0].map(Ok), [part.tick(), part.tick(), part.tick(), part.tick()]);
    assert_eq!(send(&mut part, &[0x00]), [Some(0x00)]);
    assert_eq!(number(part.release(0)), 0);
    assert_eq!(events(&mut part), [keep(0), keep(1), keep(2), keep(3)]);
}

#[test]
fn a_recall_brings_the_kept_image_back_and_clears_the_written_mark() {
    let mut part = nv();
    assert_eq!(enabled(&mut part, &[0x02, 0x00, 0x40, 0x12]), 0);
    assert_eq!(answer(&mut part, &[0x60]), 0);
    part.tick().unwrap();
    part.tick().unwrap();
    assert_eq!(part.cells().working()[64], 0xFF);
    part.tick().unwrap();
    assert_eq!(part.tick(), Ok(0));
    events(&mut part);
    part.cut(true).unwrap();
    assert_eq!(events(&mut part), [Note::Fade]);
}

#[test]
fn busy_comes_before_all_other_reasons() {
    let mut part = nv();
    answer(&mut part, ENABLE);
    assert_eq!(answer(&mut part, &[0x3C]), 0);
    assert_eq!(answer(&mut part, &[0xAA]), 11);
    assert_eq!(answer(&mut part, &[0x03, 0, 0, 0]), 11);
    assert_eq!(status(&mut part), 0x03);
    // The opcode of a write clears the latch even now.
    assert_eq!(answer(&mut part, &[0x02, 0, 0, 0]), 11);
    assert_eq!(status(&mut part), 0x01);
}

#[test]
fn an_opcode_turned_away_stays_so_when_the_part_becomes_idle() {
    let mut part = nv();
    assert_eq!(answer(&mut part, &[0x60]), 0);
    part.select().unwrap();
    send(&mut part, &[0x06]);
    for _ in 0..4 {
        part.tick().unwrap();
    }
    send(&mut part, &[0x06]);
    assert_eq!(number(part.release(0)), 11);
    assert_eq!(status(&mut part), 0x00);
}

#[test]
fn a_selection_may_begin_while_waking() {
    let mut part: Watched<Nv, Shadowed> = Part::new(Shadowed::filled(256, 0xFF), Vec::new());
    part.power_up().unwrap();
    assert_eq!(answer(&mut part, &[0x05, 0x00]), 11);
    part.select().unwrap();
    for _ in 0..4 {
        part.tick().unwrap();
    }
    send(&mut part, &[0x06]);
    assert_eq!(number(part.release(0)), 0);
}

#[test]
fn a_cut_in_a_store_keeps_the_pages_still_to_go_if_charged() {
    for (charged, due) in [(true, vec![keep(2), keep(3), Note::Fade]), (false, vec![Note::Fade])] {
        let mut part = nv();
        // PowerStore is off, which does not matter while storing.
        assert_eq!(enabled(&mut part, &[0x01, 0x40]), 0);
        assert_eq!(answer(&mut part, &[0x3C]), 0);
        part.tick().unwrap();
        part.tick().unwrap();
        events(&mut part);
        part.cut(charged).unwrap();
        assert_eq!(events(&mut part), due);
    }
}

#[test]
fn an_idle_cut_keeps_what_was_written_if_power_store_is_on() {
    for (bits, kept) in [(0x00, 0x12), (0x40, 0xFF)] {
        let mut part = nv();
        assert_eq!(enabled(&mut part, &[0x01, bits]), 0);
        part.cut(true).unwrap();
        assert_eq!(events(&mut part), [Note::Fade]);
        let mut part = awake(part);
        assert_eq!(enabled(&mut part, &[0x02, 0x00, 0x10, 0x12]), 0);
        part.cut(true).unwrap();
        let mut part = awake(part);
        // The status bits outlast the cut.
        assert_eq!(status(&mut part), bits);
        assert_eq!(part.cells().working()[16], kept);
    }
}

#[test]
fn puts_of_an_open_selection_count_for_the_cut_but_its_buffer_is_lost() {
    let mut part = nv();
    assert_eq!(enabled(&mut part, &[0x01, 0x20]), 0);
    answer(&mut part, ENABLE);
    part.select().unwrap();
    send(&mut part, &[0x02, 0x00, 0x3F, 0x11, 0x22]);
    part.cut(true).unwrap();
    assert_eq!(events(&mut part), [put(63, 0x11), keep(0), keep(1), keep(2), keep(3), Note::Fade]);
    assert_eq!((part.cells().kept()[63], part.cells().kept()[64]), (0x11, 0xFF));
    assert_eq!(number(part.cut(true)), 2);
    assert_eq!(events(&mut part), []);
    // The selection is gone too.
    part.power_up().unwrap();
    assert_eq!(number(part.release(0)), 4);
}

#[test]
fn a_finished_store_leaves_nothing_for_a_cut_to_keep() {
    let mut part = nv();
    assert_eq!(enabled(&mut part, &[0x02, 0x00, 0x10, 0x12]), 0);
    assert_eq!(answer(&mut part, &[0x3C]), 0);
    for _ in 0..4 {
        part.tick().unwrap();
    }
    events(&mut part);
    part.cut(true).unwrap();
    assert_eq!(events(&mut part), [Note::Fade]);
}

#[test]
fn cuts_while_recalling_or_waking_keep_nothing() {
    let mut part = nv();
    assert_eq!(enabled(&mut part, &[0x02, 0x00, 0x10, 0x12]), 0);
    assert_eq!(answer(&mut part, &[0x60]), 0);
    events(&mut part);
    part.cut(true).unwrap();
    part.power_up().unwrap();
    part.tick().unwrap();
    part.cut(true).unwrap();
    assert_eq!(events(&mut part), [Note::Fade, recall(0), Note::Fade]);
}

#[test]
fn power_up_clears_the_latch() {
    let mut part = nv();
    answer(&mut part, ENABLE);
    part.cut(false).unwrap();
    let mut part = awake(part);
    assert_eq!(status(&mut part), 0x00);
}

#[test]
fn refusals_before_all_else() {
    let mut part: Watched<Nv, Shadowed> = Part::new(Shadowed::filled(256, 0xFF), Vec::new());
    assert_eq!(number(part.select()), 2);
    assert_eq!(number(part.byte(0, true)), 2);
    assert_eq!(number(part.release(9)), 2);
    assert_eq!(number(part.tick()), 2);
    part.power_up().unwrap();
    assert_eq!(number(part.power_up()), 6);
    assert_eq!(number(part.byte(0, true)), 4);
    assert_eq!(number(part.release(9)), 4);
    part.select().unwrap();
    assert_eq!(number(part.select()), 3);
    assert_eq!(number(part.release(8)), 5);
    assert_eq!(number(part.release(7)), 10);
}

#[test]
fn dead_sizes_refuse_everything() {
    for size in [0, 128, 320, 65_536] {
        let mut part: Watched<Nv, Shadowed> = Part::new(Shadowed::filled(size, 0xFF), Vec::new());
        let answers = [
            number(part.power_up()),
            number(part.select()),
            number(part.byte(0, false)),
            number(part.release(0)),
            number(part.tick()),
            number(part.cut(true)),
        ];
        assert_eq!(answers, [1; 6]);
    }
    let mut largest: Watched<Mr, Shadowed> = Part::new(Shadowed::filled(131_072, 0xFF), Vec::new());
    assert_eq!(number(largest.power_up()), 0);
    assert_eq!(largest.tick(), Ok(2047));
}
