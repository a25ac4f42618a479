//! Opening and playing run files.

use run_model::bench::Bench;
use run_model::make;
use run_model::make::packing::{pack, pack_with_gaps};

const EXAMPLE: [u8; 40] = [
    0x00, 0x05, 0x00, 0x16, 0x00, 0x01, 0x00, 0x17, 0x00, 0x02, 0x00, 0x19, 0x00, 0x03, 0x00, 0x1C, 0x00, 0x06, 0x00,
    0x22, 0x00, 0x06, 0x50, 0x4B, 0x04, 0x54, 0x00, 0x06, 0x54, 0x00, 0x02, 0x00, 0x10, 0x5A, 0x54, 0x00, 0x03, 0x00,
    0x10, 0x00,
];

fn printed(bench: Bench, file: &[u8]) -> String {
    String::from_utf8(bench.print(file)).unwrap()
}

/// What nvbench prints for these records.
fn lines(records: &[&[u8]]) -> String {
    let records: Vec<Vec<u8>> = records.iter().map(|record| record.to_vec()).collect();
    printed(Bench::Nv, &pack(&records))
}

#[test]
fn the_example_on_both_benches() {
    assert_eq!(printed(Bench::Nv, &EXAMPLE), "0 P 0\n1 K 0 0\n2 T 0 --\n3 T 0 -- -- -- --\n4 T 0 -- -- -- 5A\n");
    assert_eq!(printed(Bench::Mr, &EXAMPLE), "0 P 0\n1 K 0 0\n2 T 0 --\n3 T 15 -- -- -- --\n4 T 0 -- -- -- --\n");
}

#[test]
fn packing_makes_the_bytes_of_the_example() {
    let records: [&[u8]; 5] = [b"P", b"K\x04", b"T\0\x06", b"T\0\x02\x00\x10\x5A", b"T\0\x03\x00\x10\x00"];
    assert_eq!(pack(&records.map(|record| record.to_vec())), EXAMPLE);
}

#[test]
fn files_without_a_whole_table() {
    for file in [&[][..], &[0x00], &[0x00, 0x01], &[0x00, 0x01, 0x00, 0x06, 0x00], &[0x04, 0x01]] {
        assert_eq!(printed(Bench::Nv, file), "F 31 0\n");
    }
    let mut many = vec![0x04, 0x01];
    many.resize(60_000, 0);
    assert_eq!(printed(Bench::Mr, &many), "F 31 0\n");
    // A file may have 65,535 bytes, and not one more.
    assert_eq!(printed(Bench::Nv, &vec![0; 65_535]), "");
    assert_eq!(printed(Bench::Nv, &vec![0; 65_536]), "F 31 0\n");
}

#[test]
fn faults_of_pairs() {
    let fault_of = |pairs: &[[u8; 4]], body: usize| {
        let mut file = vec![0, pairs.len() as u8];
        file.extend(pairs.concat());
        file.resize(file.len() + body, b'P');
        printed(Bench::Nv, &file)
    };
    // With two pairs the table ends at 10.
    assert_eq!(fault_of(&[[0, 10, 0, 0], [0, 10, 0, 1]], 5), "F 32 2\n");
    assert_eq!(fault_of(&[[0, 9, 0, 1], [0, 10, 0, 1]], 5), "F 32 2\n");
    assert_eq!(fault_of(&[[0, 10, 0, 2], [0, 11, 0, 1]], 5), "F 32 6\n");
    assert_eq!(fault_of(&[[0, 10, 0, 1], [0, 14, 0, 2]], 5), "F 33 6\n");
    assert_eq!(fault_of(&[[0, 10, 0, 6], [0, 10, 0, 0]], 5), "F 33 2\n");
    assert_eq!(fault_of(&[[255, 255, 0, 0], [0, 10, 0, 1]], 5), "F 32 2\n");
    assert_eq!(fault_of(&[[255, 255, 255, 255], [0, 10, 0, 1]], 5), "F 33 2\n");
    assert_eq!(fault_of(&[[0, 10, 0, 1], [0, 14, 0, 1]], 5), "0 P 0\n1 P 6\n");
}

#[test]
fn bytes_between_records_mean_nothing() {
    let records: Vec<Vec<u8>> = vec![b"P".to_vec(), b"K\x03".to_vec()];
    let mut file = pack_with_gaps(&records, || b"PPP".to_vec());
    file.extend(b"xyz");
    assert_eq!(printed(Bench::Nv, &file), "0 P 0\n1 K 0 1\n");
}

#[test]
fn faults_of_records_make_no_call() {
    let records: [&[u8]; 14] = [
        b"P",
        b"P\0",
        b"T",
        b"T\x08",
        b"T\0",
        b"K",
        b"K\0",
        b"K\x01\x01",
        b"C\x02",
        b"C",
        b"H\x02",
        b"H\x01\x01",
        b"p",
        b"K\x01",
    ];
    let due = "0 P 0\n1 P 35\n2 T 35\n3 T 35\n4 T 10\n5 K 35\n6 K 35\n7 K 35\n8 C 35\n9 C 35\n10 H 35\n11 H 35\n\
        12 ? 34\n13 K 0 3\n";
    assert_eq!(lines(&records), due);
}

#[test]
fn the_hold_level_lasts_over_cuts() {
    let records: [&[u8]; 8] = [b"H\x01", b"P", b"K\xFF", b"C\x00", b"P", b"K\x04", b"T\0\x05\0", b"H\0"];
    assert_eq!(lines(&records), "0 H 0\n1 P 0\n2 K 0 0\n3 C 0\n4 P 0\n5 K 0 0\n6 T 10 -- --\n7 H 0\n");
}

#[test]
fn without_power_a_transfer_drives_nothing_and_prints_nothing() {
    let records: [&[u8]; 4] = [b"T\0\x05\0", b"K\x02", b"C\x01", b"H\x01"];
    assert_eq!(lines(&records), "0 T 2\n1 K 2\n2 C 2\n3 H 0\n");
}

#[test]
fn a_transfer_refused_at_its_release_prints_all_its_bytes() {
    let records: [&[u8]; 4] = [b"P", b"K\x01", b"T\x03\x05\0\0", b"K\x02"];
    assert_eq!(lines(&records), "0 P 0\n1 K 0 3\n2 T 11 -- -- --\n3 K 0 1\n");
}

#[test]
fn made_files_are_the_same_each_time_and_open_mostly() {
    let files: Vec<Vec<u8>> = (0..300).map(|index| make::file(7, index)).collect();
    assert!((0..300).all(|index| make::file(7, index) == files[index as usize]));
    let refused = files.iter().filter(|file| Bench::Nv.print(file).first() == Some(&b'F')).count();
    assert!((10..75).contains(&refused), "{refused} of 300 files do not open");
}

#[test]
fn dense_files_are_as_long_as_a_file_may_be_and_open() {
    for bench in [Bench::Nv, Bench::Mr] {
        let file = run_model::dense::file(bench);
        assert_eq!(file.len(), 65_535);
        assert_eq!(bench.print(&file)[0], b'0');
    }
}
