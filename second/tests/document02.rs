//! Document 02's requests that have landed, one test a clause.

mod common;
use common::*;
use second::answer::answer;
use second::field::Value;
use second::index::{index, Entry};
use second::judge::{judge, value};
use second::refusal::Refusal;
use second::sheet::{read, write};
use second::step::step;
use second::stream::cases_of;

/// A file of P0164001 with these dates of SP7, in sets parted by SUB.
fn p0164(sets: &[&[&str]]) -> Vec<u8> {
    let mut rows = vec![lines("P0164001")[0].to_string()];
    for dates in sets {
        rows.push("SUB|B|X|SUPP|20240105|M".to_string());
        rows.extend(dates.iter().map(|date| format!("SP7|_A|NHHD|A|{}|SF|12", date)));
    }
    footed(&rows)
}

/// A file of P0012001 with these rows behind its HDR.
fn p0012(rows: [&str; 2]) -> Vec<u8> {
    footed(&[&lines("P0012001")[..3], &rows].concat())
}

#[test]
fn c11_one_date_in_several_rows_under_a_sub() {
    let rows = [
        "ZHD|P0164001|G|SVAA|Z|POOL|20240105120000",
        "SUB|B|X|SUPP|20240105|M",
        "SP7|_A|NHHD|A|20240101|SF|12",
        "SP7|_B|NHHD|A|20240101|SF|13",
        "SP7|_A|OTHR|A|20240101|SF|14",
        "SP7|_A|NHHD|A|20240101|R1|15",
        "SP7|_A|NHHD|A|20240102|SF|12",
    ];
    assert_eq!(judged("P0164001", &footed(&rows)), Ok(8));
    assert_eq!(judged("P0164001", &p0164(&[&["20240101", "20240101"]])), Ok(5));
    assert_eq!(judged("P0164001", &p0164(&[&["00010101", "00010101", "99991231", "99991231"]])), Ok(7));
}

#[test]
fn c11_a_falling_date_is_out_of_its_order() {
    assert_eq!(judged("P0164001", &p0164(&[&["20240102", "20240101"]])), Err((11, 4, 5)));
    assert_eq!(judged("P0164001", &p0164(&[&["20240101", "20231231"]])), Err((11, 4, 5)));
    // A date that stood before, but not just before.
    assert_eq!(
        judged("P0164001", &p0164(&[&["20240101", "20240101", "20240102", "20240101"]])),
        Err((11, 6, 5))
    );
}

#[test]
fn c11_dates_start_anew_at_each_sub() {
    assert_eq!(judged("P0164001", &p0164(&[&["20240102", "20240102"], &["20240101", "20240101"]])), Ok(8));
    assert_eq!(judged("P0164001", &p0164(&[&["20240102"], &["20240101", "20231231"]])), Err((11, 6, 5)));
}

#[test]
fn c11_all_other_keys_stay_strict() {
    assert_eq!(judged("P0012001", &p0012(["GSP|7|1|1.0000", "GSP|7|1|1.0000"])), Err((11, 5, 2)));
    assert_eq!(judged("P0012001", &p0012(["GSP|7|1|1.0000", "GSP|8|1|1.0000"])), Ok(6));
    assert_eq!(judged("P0012001", &p0012(["GS2|7|0|1.0000", "GS2|7|0|1.0000"])), Err((11, 5, 2)));
    assert_eq!(judged("P0012001", &p0012(["GS2|7|0|1.0000", "GS2|8|0|1.0000"])), Ok(6));
    assert_eq!(judged_with("P0181002", 6, 2, b"AAAA"), Err((11, 6, 2)), "SUP");
    assert_eq!(judged_with("P0181002", 5, 2, b"2__AAAA001"), Err((11, 5, 2)), "BMU");
}

#[test]
fn c11_sheets_follow_the_reader() {
    let mut room = [b'#'; 400];
    let file = p0164(&[&["20240101", "20240101"]]);
    let read = read(b"P0164001", &file, &mut room).unwrap();
    let sheet = room[..read.bytes].to_vec();
    let written = write(b"P0164001", &sheet, &mut room).unwrap();
    assert_eq!((written.records, &room[..written.bytes]), (5, &file[..]));
    let falling = replaced(&sheet, "20240101", "20240102");
    let refusal = write(b"P0164001", &falling, &mut room).unwrap_err();
    assert_eq!((refusal.number, refusal.record, refusal.field), (11, 4, 5));
}

/// The example's sheet: its lines start at 0, 42 and 61, and it ends at 72.
const SHEET: &[u8] =
    b"ZHD\tP0138001\tG\tSVAA\tZ\tPOOL\t20240105120000\nSUB\tB\t\t\t20231231\tM\nTA2\t1.0250\n";

/// A refusal's number, record, field and place.
type Pointed = (u8, usize, usize, usize);

fn pointed(refusal: Refusal) -> Pointed {
    (refusal.number, refusal.record, refusal.field, refusal.place)
}

fn refused(flow: &str, file: &[u8]) -> Pointed {
    pointed(judge(flow.as_bytes(), file).unwrap_err())
}

/// The refusal of the example with one text replaced by another.
fn refused_with(old: &str, new: &str) -> Pointed {
    refused("P0138001", &replaced(EXAMPLE, old, new))
}

fn refused_value(file: &[u8], record: usize, field: usize) -> Pointed {
    pointed(value(b"P0138001", file, record, field).unwrap_err())
}

fn refused_sheet(sheet: &[u8]) -> Pointed {
    pointed(write(b"P0138001", sheet, &mut [0; 200]).unwrap_err())
}

/// The answer's line to a case.
fn line(header: &str, body: &[u8]) -> String {
    let stream = [header.as_bytes(), b"\n", body].concat();
    let case = cases_of(&stream).next().expect("one case").expect("a good header");
    String::from_utf8(answer(&case.ask)).expect("plain text")
}

#[test]
fn c12_the_first_byte_of_the_named_field() {
    assert_eq!(refused_with("812996689", "812996688"), (13, 4, 3, 78));
    assert_eq!(refused_with("ZPT|4", "ZPT|5"), (12, 4, 2, 76));
    assert_eq!(refused_with("TA2|1.0250\n", ""), (5, 3, 1, 61));
    assert_eq!(refused_with("SUB|B|||", "SUB|B|NULL||"), (10, 2, 3, 48));
    assert_eq!(refused_with("SUB|B|||", "SUB|B||NULL|"), (10, 2, 4, 49));
    assert_eq!(refused_with("120000", "120060"), (9, 1, 7, 27));
    assert_eq!(refused_with("1.0250", "1.025"), (8, 3, 2, 65));
    assert_eq!(refused_with("TA2", "TA3"), (4, 3, 1, 61));
    assert_eq!(refused("P0164001", &p0164(&[&["20240102", "20240101"]])), (11, 4, 5, 109));
    assert_eq!(refused("P0012001", &p0012(["GSP|7|1|1.0000", "GSP|7|1|1.0000"])), (11, 5, 2, 94));
}

#[test]
fn c12_a_field_of_no_bytes_has_its_place_too() {
    assert_eq!(refused_with("20231231", ""), (7, 2, 5, 50));
    assert_eq!(refused_with("20231231|M", "20231231|"), (7, 2, 6, 59));
    assert_eq!(refused_with("TA2|1.0250", ""), (4, 3, 1, 61), "an empty record");
    assert_eq!(refused("P0138001", &EXAMPLE[..78]), (7, 4, 3, 78), "the last byte is the bar before it");
}

#[test]
fn c12_the_first_byte_of_the_record_where_the_field_is_0() {
    assert_eq!(refused("P0138001", &[&EXAMPLE[..61], &[b'X'; 513]].concat()), (3, 3, 0, 61));
    assert_eq!(refused_with("SUB|B|||20231231|M", "SUB"), (6, 2, 0, 42));
    assert_eq!(refused_with("1.0250", "1.0250|"), (6, 3, 0, 61));
    let file = good("P0012001");
    assert_eq!(refused("P0012001", &file[..file.len() - 1]), (15, 7, 0, 128));
}

#[test]
fn c12_0_where_the_record_is_0() {
    assert_eq!(refused("P0138002", EXAMPLE), (1, 0, 0, 0));
    assert_eq!(refused("P0138001", &[b'\n'; 1_048_577]), (2, 0, 0, 0));
    assert_eq!(pointed(step(b"P0138002", b"ZHDSUB").unwrap_err()), (1, 0, 0, 0));
    assert_eq!(pointed(read(b"P0138001", EXAMPLE, &mut [0; 71]).unwrap_err()), (17, 0, 0, 0));
    assert_eq!(pointed(write(b"P0138001", SHEET, &mut [0; 87]).unwrap_err()), (17, 0, 0, 0));
    assert_eq!(pointed(write(b"P0138002", SHEET, &mut []).unwrap_err()), (1, 0, 0, 0));
    assert_eq!(refused_sheet(&[b'\n'; 1_048_001]), (2, 0, 0, 0));
    assert_eq!(line("field\tint(2)\t-\t0\t3", b"100"), "refused\t9\t0\t0\t0\n");
}

#[test]
fn c12_0_where_record_0_is_asked_for() {
    assert_eq!(refused_value(EXAMPLE, 0, 0), (18, 0, 0, 0));
    assert_eq!(refused_value(EXAMPLE, 0, 2), (18, 0, 2, 0));
    assert_eq!(refused_value(EXAMPLE, 0, 1_000_000_000), (18, 0, 1_000_000_000, 0));
}

#[test]
fn c12_the_files_length_where_the_records_end_before_zpt() {
    assert_eq!(refused("P0138001", &EXAMPLE[..72]), (14, 4, 0, 72));
    assert_eq!(refused("P0138001", &EXAMPLE[..71]), (14, 4, 0, 71), "no last line feed");
    assert_eq!(refused("P0138001", &EXAMPLE[..61]), (14, 3, 0, 61));
    assert_eq!(refused("P0138001", b""), (14, 1, 0, 0));
}

#[test]
fn c12_the_files_length_where_the_record_asked_for_does_not_exist() {
    assert_eq!(refused_value(EXAMPLE, 5, 1), (18, 5, 1, 88));
    assert_eq!(refused_value(EXAMPLE, 5, 0), (18, 5, 0, 88));
    assert_eq!(refused_value(EXAMPLE, 1_000_000_000, 7), (18, 1_000_000_000, 7, 88));
    assert_eq!(refused_value(&EXAMPLE[..87], 5, 1), (18, 5, 1, 87));
}

#[test]
fn c12_a_missing_field_takes_its_records_place() {
    assert_eq!(refused_value(EXAMPLE, 1, 8), (18, 1, 8, 0));
    assert_eq!(refused_value(EXAMPLE, 2, 7), (18, 2, 7, 42));
    assert_eq!(refused_value(EXAMPLE, 3, 3), (18, 3, 3, 61));
    assert_eq!(refused_value(EXAMPLE, 3, 0), (18, 3, 0, 61));
    assert_eq!(refused_value(EXAMPLE, 4, 1_000_000_000), (18, 4, 1_000_000_000, 72));
}

#[test]
fn c12_the_files_own_refusal_points_before_the_asked_field_does() {
    let file = replaced(EXAMPLE, "SUB|B|||", "SUB|B|NULL||");
    assert_eq!(refused_value(&file, 0, 0), (10, 2, 3, 48));
    assert_eq!(refused_value(&file, 9, 9), (10, 2, 3, 48));
}

#[test]
fn c12_an_unended_last_record_is_a_record() {
    assert_eq!(refused("P0138001", &EXAMPLE[..86]), (13, 4, 3, 78));
    assert_eq!(refused("P0138001", &EXAMPLE[..77]), (6, 4, 0, 72));
    assert_eq!(refused("P0138001", &EXAMPLE[..74]), (4, 4, 1, 72));
    assert_eq!(refused("P0138001", &[EXAMPLE, b"Z"].concat()), (4, 5, 1, 88));
    assert_eq!(refused("P0138001", &[EXAMPLE, &[b'Z'; 513]].concat()), (3, 5, 0, 88));
    assert_eq!(refused_value(&EXAMPLE[..87], 4, 4), (18, 4, 4, 72));
    assert_eq!(refused_value(&EXAMPLE[..87], 4, 0), (18, 4, 0, 72));
}

#[test]
fn c12_the_reader_of_sheets_points_into_the_file() {
    let file = replaced(EXAMPLE, "SUB|B|||", "SUB|B|NULL||");
    assert_eq!(pointed(read(b"P0138001", &file, &mut [0; 200]).unwrap_err()), (10, 2, 3, 48));
    assert_eq!(pointed(read(b"P0138001", &EXAMPLE[..72], &mut [0; 200]).unwrap_err()), (14, 4, 0, 72));
}

#[test]
fn c12_the_writer_points_into_the_sheet() {
    let other = |old, new| refused_sheet(&replaced(SHEET, old, new));
    assert_eq!(other("SUB\tB\t\t\t", "SUB\tB\tNULL\t\t"), (10, 2, 3, 48));
    assert_eq!(other("20231231\tM", "20231231\t"), (7, 2, 6, 59));
    assert_eq!(other("1.0250", "1.025"), (8, 3, 2, 65));
    assert_eq!(other("1.0250", "1.0250\t"), (6, 3, 0, 61));
    assert_eq!(other("SUB", "SUX"), (4, 2, 1, 42));
    assert_eq!(refused_sheet(&[SHEET, b"ZPT\t4\t812996688\n"].concat()), (13, 4, 3, 78), "its own footer");
}

#[test]
fn c12_a_line_with_a_bar_and_a_line_without_its_line_feed() {
    assert_eq!(refused_sheet(b"ZHD\tA\nSUB\tB|C\n|\n"), (16, 2, 0, 6));
    assert_eq!(refused_sheet(b"ZHD\tA\nSUB\tB|C"), (16, 2, 0, 6), "not ended either");
    assert_eq!(refused_sheet(b"ZHD|A\nSUB\tB\n"), (16, 1, 0, 0));
    assert_eq!(refused_sheet(&SHEET[..71]), (15, 3, 0, 61));
    assert_eq!(refused_sheet(b"ZHD"), (15, 1, 0, 0));
}

#[test]
fn c12_the_sheets_length_where_the_made_footer_is_meant() {
    assert_eq!(refused_sheet(&SHEET[..61]), (5, 3, 1, 61));
    assert_eq!(refused_sheet(&[SHEET, b"ZPT\t4\t812996689\n"].concat()), (5, 5, 1, 88));
    assert_eq!(refused_sheet(b""), (5, 1, 1, 0));
}

#[test]
fn c12_the_line_gains_a_fifth_word() {
    assert_eq!(line("judge\tP0138001\t88", EXAMPLE), "ok\t0\t4\t0\t0\n");
    assert_eq!(line("judge\tP0138001\t86", &EXAMPLE[..86]), "refused\t13\t4\t3\t78\n");
    assert_eq!(line("value\tP0138001\t3\t3\t88", EXAMPLE), "refused\t18\t3\t3\t61\n");
    assert_eq!(line("read\tP0138001\t9\t86", &EXAMPLE[..86]), "refused\t13\t4\t3\t78\t1\n");
    assert_eq!(line("write\tP0138001\t9\t71", &SHEET[..71]), "refused\t15\t3\t0\t61\t1\n");
    assert_eq!(line("step\tP0138002\t3", b"ZHD"), "refused\t1\t0\t0\t0\n");
}

#[test]
fn c12_numbers_and_order_are_unchanged() {
    // The key, which comes after the fields, stands at 94.
    assert_eq!(refused("P0012001", &p0012(["GSP|7|1|1.0000", "GSP|7|x|1.0000"])), (8, 5, 3, 96));
    // The number of fields, which comes after the kind, is wrong too, and points at the same byte.
    assert_eq!(refused_with("TA2|1.0250", "ZPT"), (5, 3, 1, 61));
    // The first line is wrong too, and stands before the bar.
    assert_eq!(refused_sheet(b"ZHD\tA\nSUB|B\n"), (16, 2, 0, 6));
    // The last line is not ended, and an earlier one is wrong.
    assert_eq!(refused_sheet(b"ZHD\tA\nSUB"), (15, 2, 0, 6));
}

/// An entry's record, place, parent and children.
type Row = (usize, usize, usize, usize);

/// What each entry of a lent list holds before.
const HELD: Row = (99, 98, 97, 96);

/// The answer of an index, records and entries, and all of the list behind it.
fn indexed(flow: &str, file: &[u8], room: usize) -> (Result<(usize, usize), Pointed>, Vec<Row>) {
    let (record, place, parent, children) = HELD;
    let mut list = vec![Entry { record, place, parent, children }; room];
    let answer = index(flow.as_bytes(), file, &mut list);
    let rows = list.iter().map(|entry| (entry.record, entry.place, entry.parent, entry.children));
    (answer.map(|indexed| (indexed.records, indexed.entries)).map_err(pointed), rows.collect())
}

/// GS7 without SUP at the start, in between and at the end; SUP with several BMU and with one.
const SETS: [&str; 14] = [
    "ZHD|P0181002|S|SSAA|P|POOL|20240105120000",
    "GS7|_A",
    "GS7|_B",
    "SUP|AAAA",
    "BMU|A|20240101||T",
    "BMU|B|20240101||T",
    "BMU|C|20240101||T",
    "SUP|BBBB",
    "BMU|A|20240101||T",
    "GS7|_C",
    "GS7|_C",
    "SUP|AAAA",
    "BMU|A|20240101||T",
    "GS7|_D",
];

/// The index of these sets. A line feed counts: ZHD takes 42 bytes, GS7 7, SUP 9 and BMU 18.
const OF_SETS: [Row; 8] = [
    (2, 42, 1, 0),
    (3, 49, 2, 2),
    (4, 56, 2, 3),
    (8, 119, 2, 1),
    (10, 146, 5, 0),
    (11, 153, 6, 1),
    (12, 160, 6, 1),
    (14, 187, 8, 0),
];

#[test]
fn c13_an_entry_for_each_gs7_and_sup() {
    assert_eq!(indexed("P0181002", &footed(&SETS), 8), (Ok((15, 8)), OF_SETS.to_vec()));
}

#[test]
fn c13_an_entry_for_each_sb1_sb2_and_sub() {
    let of_small = |flow, room| indexed(flow, &good(flow), room);
    assert_eq!(of_small("P0133001", 2), (Ok((6, 2)), vec![(2, 42, 1, 2), (5, 99, 2, 0)]));
    assert_eq!(of_small("P0134001", 1), (Ok((4, 1)), vec![(2, 42, 1, 1)]));
    assert_eq!(of_small("P0164001", 2), (Ok((7, 2)), vec![(2, 42, 1, 2), (5, 124, 2, 1)]));
}

#[test]
fn c13_heads_without_children() {
    let twice = |flow: &str, head: &str| indexed(flow, &footed(&[lines(flow)[0], head, head]), 2);
    assert_eq!(twice("P0181002", "GS7|_A"), (Ok((4, 2)), vec![(2, 42, 1, 0), (3, 49, 2, 0)]));
    assert_eq!(
        twice("P0133001", "SB1|H|M|OTHER|20240105|M"),
        (Ok((4, 2)), vec![(2, 42, 1, 0), (3, 67, 2, 0)])
    );
    assert_eq!(twice("P0134001", "SB2|M|OTHER|20240105|M"), (Ok((4, 2)), vec![(2, 42, 1, 0), (3, 65, 2, 0)]));
    assert_eq!(
        twice("P0164001", "SUB|B|X|SUPP|20240105|M"),
        (Ok((4, 2)), vec![(2, 42, 1, 0), (3, 66, 2, 0)])
    );
}

#[test]
fn c13_children_of_a_child_are_not_direct() {
    let one_sup = [&SETS[..2], &SETS[3..7]].concat();
    assert_eq!(indexed("P0181002", &footed(&one_sup), 2), (Ok((7, 2)), vec![(2, 42, 1, 1), (3, 49, 1, 3)]));
}

#[test]
fn c13_no_entry_where_no_record_may_have_children() {
    let held = vec![HELD; 2];
    assert_eq!(indexed("P0138001", EXAMPLE, 2), (Ok((4, 0)), held.clone()), "SUB heads no set here");
    assert_eq!(indexed("P0138001", EXAMPLE, 0), (Ok((4, 0)), vec![]));
    assert_eq!(indexed("P0012001", &good("P0012001"), 2), (Ok((7, 0)), held.clone()), "nor does HDR");
    assert_eq!(indexed("P0012001", &good("P0012001"), 0), (Ok((7, 0)), vec![]));
    for flow in ["P0133001", "P0134001", "P0164001"] {
        let no_sets = footed(&lines(flow)[..1]);
        assert_eq!(indexed(flow, &no_sets, 2), (Ok((2, 0)), held.clone()), "{}", flow);
        assert_eq!(indexed(flow, &no_sets, 0), (Ok((2, 0)), vec![]), "{}", flow);
    }
}

#[test]
fn c13_entries_past_the_last_keep_what_they_held() {
    let (answer, rows) = indexed("P0181002", &footed(&SETS), 11);
    assert_eq!(answer, Ok((15, 8)));
    assert_eq!((&rows[..8], &rows[8..]), (&OF_SETS[..], &[HELD; 3][..]));
}

#[test]
fn c13_19_where_the_list_is_too_short() {
    for room in 0..8 {
        let untouched = vec![HELD; room];
        assert_eq!(indexed("P0181002", &footed(&SETS), room), (Err((19, 0, 0, 0)), untouched), "{}", room);
    }
    assert_eq!(indexed("P0134001", &good("P0134001"), 0), (Err((19, 0, 0, 0)), vec![]));
}

#[test]
fn c13_an_absent_last_line_feed() {
    let unended = |flow: &str, room| indexed(flow, good(flow).strip_suffix(b"\n").expect("ended"), room);
    assert_eq!(unended("P0133001", 2), (Ok((6, 2)), vec![(2, 42, 1, 2), (5, 99, 2, 0)]));
    assert_eq!(unended("P0134001", 1), (Ok((4, 1)), vec![(2, 42, 1, 1)]));
    assert_eq!(unended("P0164001", 2), (Ok((7, 2)), vec![(2, 42, 1, 2), (5, 124, 2, 1)]));
    assert_eq!(unended("P0138001", 0), (Ok((4, 0)), vec![]));
    assert_eq!(unended("P0181002", 9), (Err((15, 11, 0, 199)), vec![HELD; 9]));
    assert_eq!(unended("P0181002", 0), (Err((15, 11, 0, 199)), vec![]));
}

/// The sets with one text replaced and the footer right again.
fn sets_with(old: &str, new: &str) -> Vec<u8> {
    let rows = String::from_utf8(replaced(SETS.join("\n").as_bytes(), old, new)).expect("plain text");
    footed(&rows.split('\n').collect::<Vec<_>>())
}

#[test]
fn c13_each_of_the_readers_refusals_comes_before_19() {
    let whole = footed(&SETS);
    let spoiled: [(Pointed, Vec<u8>); 13] = [
        ((2, 0, 0, 0), vec![b'\n'; 1_048_577]),
        ((3, 3, 0, 49), sets_with("_B", &"B".repeat(509))),
        ((4, 3, 1, 49), sets_with("GS7|_B", "GS8|_B")),
        ((5, 3, 1, 49), sets_with("GS7|_B", "BMU|A|20240101||T")),
        ((6, 3, 0, 49), sets_with("_B", "_B|")),
        ((7, 3, 2, 53), sets_with("_B", "")),
        ((8, 3, 2, 53), sets_with("_B", " B")),
        ((9, 3, 2, 53), sets_with("_B", "__B")),
        ((10, 1, 2, 4), sets_with("P0181002", "P0181003")),
        ((11, 8, 2, 123), sets_with("BBBB", "AAAA")),
        ((12, 15, 2, 198), replaced(&whole, "ZPT|15", "ZPT|16")),
        ((13, 15, 3, 201), replaced(&whole, "_B", "_X")),
        ((14, 15, 0, 194), whole[..194].to_vec()),
    ];
    for (refusal, file) in spoiled {
        for room in [0, 7, 8, 9] {
            assert_eq!(indexed("P0181002", &file, room), (Err(refusal), vec![HELD; room]));
        }
    }
    assert_eq!(indexed("P0181003", &whole, 0), (Err((1, 0, 0, 0)), vec![]));
}

#[test]
fn c13_the_line_and_the_entries_lines() {
    let file = footed(&SETS);
    let header = |room: usize| format!("index\tP0181002\t{}\t{}", room, file.len());
    let entries = "2\t42\t1\t0\n3\t49\t2\t2\n4\t56\t2\t3\n8\t119\t2\t1\n\
                   10\t146\t5\t0\n11\t153\t6\t1\n12\t160\t6\t1\n14\t187\t8\t0\n";
    for room in [8, 9, 8192] {
        assert_eq!(line(&header(room), &file), format!("ok\t0\t15\t8\t0\t1\n{}", entries));
    }
    assert_eq!(line(&header(7), &file), "refused\t19\t0\t0\t0\t1\n");
}

#[test]
fn c14_the_last_day_of_a_month_and_the_day_after_it() {
    let days = [
        ("19000228", "19000229"),
        ("20000229", "20000230"),
        ("20230228", "20230229"),
        ("20240229", "20240230"),
        ("20230131", "20230132"),
        ("20230331", "20230332"),
        ("20230430", "20230431"),
        ("20230531", "20230532"),
        ("20230630", "20230631"),
        ("20230731", "20230732"),
        ("20230831", "20230832"),
        ("20230930", "20230931"),
        ("20231031", "20231032"),
        ("20231130", "20231131"),
        ("20231231", "20231232"),
    ];
    for (last, after) in days {
        let number = last.parse().expect("digits");
        assert_eq!(field("date", last.as_bytes()), Ok(Value::Number(number)));
        assert_eq!(field("date", after.as_bytes()), Err(9));
        assert_eq!(judged_with("P0138001", 2, 5, last.as_bytes()), Ok(4));
        assert_eq!(judged_with("P0138001", 2, 5, after.as_bytes()), Err((9, 2, 5)));
        let noon = |day: &str| format!("{}120000", day).into_bytes();
        assert_eq!(judged_with("P0138001", 1, 7, &noon(last)), Ok(4));
        assert_eq!(judged_with("P0138001", 1, 7, &noon(after)), Err((9, 1, 7)));
    }
}
