//! The readings of document 01 that concern sheets, one test an id.

mod common;
use common::*;
use second::sheet::{made_file, read, write, Done, SHEET_LIMIT};

type Answer = Result<(usize, usize), (u8, usize, usize)>;

fn plain(done: Result<Done, second::refusal::Refusal>) -> Answer {
    done.map(|done| (done.records, done.bytes)).map_err(|why| (why.number, why.record, why.field))
}

fn written(flow: &str, sheet: &[u8], room: usize) -> Answer {
    plain(write(flow.as_bytes(), sheet, &mut vec![0; room]))
}

fn example_sheet() -> Vec<u8> {
    sheet_of(&lines("P0138001"))
}

#[test]
fn w1_a_footer_line_is_judged_where_it_stands() {
    let with = |line: &str| written("P0138001", &[&example_sheet()[..], line.as_bytes()].concat(), 500);
    assert_eq!(with("ZPT\t4\t812996689\n"), Err((5, 5, 1)));
    assert_eq!(with("ZPT\t4\t812996688\n"), Err((13, 4, 3)));
    assert_eq!(with("ZPT\t5\t812996689\n"), Err((12, 4, 2)));
    assert_eq!(with("ZPT\t4\n"), Err((6, 4, 0)));
    assert_eq!(with("ZPT\t4\t\n"), Err((7, 4, 3)));
    assert_eq!(written("P0138001", b"ZPT\t1\t0\n", 500), Err((5, 1, 1)));
}

#[test]
fn w2_a_bar_before_an_absent_line_feed() {
    assert_eq!(written("P0138001", b"ZHD\tA\nSUB|B", 500), Err((16, 2, 0)));
    assert_eq!(written("P0138001", b"X|\nSUB|B\n", 500), Err((16, 1, 0)));
}

#[test]
fn w3_every_line_of_a_sheet_is_ended() {
    let sheet = example_sheet();
    assert_eq!(written("P0138001", &sheet[..sheet.len() - 1], 500), Err((15, 3, 0)));
}

#[test]
fn w4_the_empty_sheet() {
    assert_eq!(written("P0138001", b"", 500), Err((5, 1, 1)));
}

#[test]
fn w5_the_writer_counts_the_records_of_the_made_file() {
    let mut room = [0; 88];
    assert_eq!(plain(write(b"P0138001", &example_sheet(), &mut room)), Ok((4, 88)));
    assert_eq!(room, EXAMPLE);
}

#[test]
fn w6_the_reader_counts_the_records_of_the_file() {
    let mut room = [b'#'; 80];
    assert_eq!(plain(read(b"P0138001", EXAMPLE, &mut room)), Ok((4, 72)));
    assert_eq!(&room[..72], &example_sheet()[..]);
    assert_eq!(plain(read(b"P0138001", &EXAMPLE[..87], &mut room)), Ok((4, 72)));
}

#[test]
fn w7_a_refusal_leaves_the_room_alone() {
    let mut room = [b'#'; 87];
    assert_eq!(plain(write(b"P0138001", &example_sheet(), &mut room)), Err((17, 0, 0)));
    assert_eq!(plain(write(b"P0138001", b"ZHD\n", &mut room)), Err((6, 1, 0)));
    assert_eq!(plain(read(b"P0138001", EXAMPLE, &mut room[..71])), Err((17, 0, 0)));
    assert_eq!(room, [b'#'; 87]);
    let mut room = [b'#'; 90];
    assert_eq!(plain(write(b"P0138001", &example_sheet(), &mut room)), Ok((4, 88)));
    assert_eq!(&room[88..], b"##");
}

#[test]
fn w8_room_for_exactly_the_result_is_enough() {
    assert_eq!(written("P0138001", &example_sheet(), 88), Ok((4, 88)));
    assert_eq!(written("P0138001", &example_sheet(), 87), Err((17, 0, 0)));
    assert!(read(b"P0138001", EXAMPLE, &mut [0; 72]).is_ok());
    assert!(read(b"P0138001", EXAMPLE, &mut [0; 71]).is_err());
}

#[test]
fn w9_a_made_file_is_never_over_the_limit() {
    let sheet = vec![b'\n'; SHEET_LIMIT];
    assert_eq!(made_file(&sheet).len(), SHEET_LIMIT + "ZPT|1048001|0\n".len());
    assert_eq!(written("P0138001", &sheet, 0), Err((4, 1, 1)));
    assert_eq!(written("P0138001", &[&sheet[..], b"\n"].concat(), 0), Err((2, 0, 0)));
    assert_eq!(written("P0138002", &[&sheet[..], b"|"].concat(), 0), Err((1, 0, 0)));
    assert_eq!(written("P0138001", &[&sheet[..], b"|"].concat(), 0), Err((2, 0, 0)));
}

#[test]
fn w10_a_tab_always_parts_fields() {
    let sheet = replaced(&example_sheet(), "SVAA", "SV\tA");
    assert_eq!(written("P0138001", &sheet, 500), Err((6, 1, 0)));
}

#[test]
fn w11_room_is_asked_for_last() {
    assert_eq!(written("P0138001", &replaced(&example_sheet(), "1.0250", "1"), 0), Err((8, 3, 2)));
    let file = good("P0012001");
    let unended = &file[..file.len() - 1];
    assert_eq!(plain(read(b"P0012001", unended, &mut [])), Err((15, 7, 0)));
    assert_eq!(plain(read(b"P0012001", &file, &mut [])), Err((17, 0, 0)));
}

#[test]
fn w12_a_sheet_that_is_read_may_be_longer_than_the_writer_takes() {
    let header = "ZHD\tP0134001\tZ\tSVAA\tZ\tPOOL\t20240105120000\n";
    let line = "SB2\tM\tSUPPLIER\t20240105\tM\n";
    let sheet = [header.as_bytes(), line.repeat(40_320).as_bytes()].concat();
    assert!(sheet.len() > SHEET_LIMIT);
    let mut room = vec![0; sheet.len()];
    assert_eq!(plain(read(b"P0134001", &made_file(&sheet), &mut room)), Ok((40_322, sheet.len())));
    assert_eq!(room, sheet);
    assert_eq!(written("P0134001", &sheet, 0), Err((2, 0, 0)));
}
