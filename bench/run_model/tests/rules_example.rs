//! The worked example of the rules, and the walk of the cells.

mod common;

use common::*;
use run_model::cells::{Cells, Lasting, Shadowed};
use run_model::dialect::Nv;
use run_model::machine::Part;
use run_model::watch::Note;

#[test]
fn the_example_of_the_rules() {
    let mut part: Watched<Nv, Shadowed> = Part::new(Shadowed::filled(256, 0x00), Vec::new());
    assert_eq!(part.power_up(), Ok(()));
    assert_eq!([3, 2, 1, 0].map(Ok), [part.tick(), part.tick(), part.tick(), part.tick()]);
    assert_eq!(events(&mut part), [recall(0), recall(1), recall(2), recall(3)]);

    assert_eq!(transfer(&mut part, 0, &[0x06]), (0, vec![None]));
    part.select().unwrap();
    assert_eq!(send(&mut part, &[0x02, 0x00, 0x3F, 0x11, 0x22]), vec![None; 5]);
    assert_eq!(events(&mut part), []);
    assert_eq!(part.release(0), Ok(()));
    assert_eq!(events(&mut part), [put(63, 0x11), put(0, 0x22)]);

    assert_eq!(transfer(&mut part, 3, &[0x05, 0x00]), (0, vec![None, Some(0x00)]));
    assert_eq!(part.cut(true), Ok(()));
    assert_eq!(events(&mut part), [keep(0), keep(1), keep(2), keep(3), Note::Fade]);
}

#[test]
fn the_walk_in_shadowed_cells() {
    let mut cells = Shadowed::filled(256, 0xFF);
    cells.put(16, 0x5A);
    cells.put(70, 0x11);
    assert_eq!((cells.get(16), cells.kept()[16]), (0x5A, 0xFF));
    cells.keep(0);
    assert_eq!((cells.kept()[16], cells.kept()[70]), (0x5A, 0xFF));
    cells.put(17, 0x22);
    cells.fade();
    assert!(cells.working().iter().all(|&byte| byte == 0xFF));
    cells.recall(0);
    cells.recall(1);
    assert_eq!([16, 17, 70].map(|address| cells.get(address)), [0x5A, 0xFF, 0xFF]);
}

#[test]
fn the_walk_in_lasting_cells() {
    let mut cells = Lasting::filled(256, 0xFF);
    cells.put(16, 0x5A);
    cells.put(70, 0x11);
    cells.keep(0);
    cells.put(17, 0x22);
    cells.fade();
    cells.recall(0);
    cells.recall(1);
    assert_eq!([16, 17, 70].map(|address| cells.get(address)), [0x5A, 0x22, 0x11]);
}
