//! The newer subject header (document 02's C-16): P0133001 in each edition, the words that name an
//! edition, and 21 in every part. All files and answers are written out by hand.

mod common;
use common::*;
use second::csv::export;
use second::field::Value::{self, *};
use second::index::{index, Entry};
use second::judge::{judge, value};
use second::refusal::Refusal;
use second::sheet::{read, write, Done};
use second::step::{step, Step};

/// One file as each edition has it: its records start at 0, 42, 69, 85, 99 and 123 in the older, at 0,
/// 42, 67, 83, 97 and 119 in the newer.
const OLDER: &[u8] = b"ZHD|P0133001|Z|CDCA|Z|POOL|20240205090000
SB1|H|M|MOA_ONE|20240131|M
CM1|_A|12|2.5|3
CM1||0|0.0|-1
SB1|H|M|MOA2|20240131|M
ZPT|6|1819152411
";
const NEWER: &[u8] = b"ZHD|P0133001|Z|CDCA|Z|POOL|20240205090000
SB1|M|MOA_ONE|20240131|M
CM1|_A|12|2.5|3
CM1||0|0.0|-1
SB1|M|MOA2|20240131|M
ZPT|6|738676850
";
/// A file with no subject at all.
const ALONE: &[u8] = b"ZHD|P0133001|Z|CDCA|Z|POOL|20240205090000
ZPT|2|525559052
";
const HEADER: &str = "ZHD|P0133001|Z|CDCA|Z|POOL|20240205090000";

/// The words of the older edition, which is meant where none is named, and those of the newer.
const OLDER_WORDS: [&str; 2] = ["P0133001", "P0133001 533"];
const NEWER_WORDS: &str = "P0133001 711";

/// A refusal's number, record, field and place.
type Pointed = (u8, usize, usize, usize);

fn pointed(refusal: Refusal) -> Pointed {
    (refusal.number, refusal.record, refusal.field, refusal.place)
}

fn refused(words: &str, file: &[u8]) -> Pointed {
    pointed(judge(words.as_bytes(), file).unwrap_err())
}

/// What a room and an entry of a list hold before.
const HELD: u8 = b'#';
const BLANK: Entry = Entry { record: 99, place: 98, parent: 97, children: 96 };

/// The refusals of every part that takes a flow: judge, value, step, write, read, index and export. Where
/// the last four all refuse, what was lent to them must be as it was.
fn refusals(words: &[u8], bytes: &[u8]) -> [Option<Pointed>; 7] {
    let (mut room, mut list) = ([HELD; 400], [BLANK; 9]);
    let all = [
        judge(words, bytes).err(),
        value(words, bytes, 1, 1).err(),
        step(words, bytes).err(),
        write(words, bytes, &mut room).err(),
        read(words, bytes, &mut room).err(),
        index(words, bytes, &mut list).err(),
        export(words, bytes, &mut room).err(),
    ];
    assert!(all[3..].contains(&None) || (room == [HELD; 400] && list == [BLANK; 9]));
    all.map(|refusal| refusal.map(pointed))
}

const NO_FLOW: [Option<Pointed>; 7] = [Some((1, 0, 0, 0)); 7];
const NO_EDITION: [Option<Pointed>; 7] = [Some((21, 0, 0, 0)); 7];

/// What may stand behind a flow's name that names no edition.
const ODD_EDITIONS: [&str; 24] = [
    " ", "  ", "  711", " 0711", " 711 ", " 71", " 7111", " 711\r", "  533", " 0533", " 533 ", " 53",
    " 5333", " 533\r", " 712", " 532", " 0", " 533 711", " 711 533", " 711x", " x711", " +711", " 711\n",
    " seven eleven",
];

#[test]
fn c16_the_file_of_each_edition() {
    for words in OLDER_WORDS {
        assert_eq!(judged(words, OLDER), Ok(6), "{}", words);
        assert_eq!(refused(words, NEWER), (6, 2, 0, 42), "{}", words);
    }
    assert_eq!(judged(NEWER_WORDS, NEWER), Ok(6));
    assert_eq!(refused(NEWER_WORDS, OLDER), (6, 2, 0, 42));
    assert_eq!(
        (judged("P0133001", &good("P0133001")), judged(NEWER_WORDS, &good(NEWER_WORDS))),
        (Ok(6), Ok(6))
    );
}

/// The answers to a file with this subject header alone: in the older edition, and in the newer. A
/// refusal gives number and field.
fn of_subject(record: &str) -> [Result<(), (u8, usize)>; 2] {
    let file = footed(&[HEADER, record]);
    let answer = |words: &str| match judged(words, &file) {
        Ok(records) => {
            assert_eq!(records, 3);
            Ok(())
        }
        Err((number, at, field)) => {
            assert_eq!(at, 2, "{}", record);
            Err((number, field))
        }
    };
    let [plain, named] = OLDER_WORDS.map(answer);
    assert_eq!(plain, named, "{}", record);
    [plain, answer(NEWER_WORDS)]
}

#[test]
fn c16_the_number_of_fields_of_a_subject_header() {
    assert_eq!(of_subject("SB1|H|M|MOA_ONE|20240131|M"), [Ok(()), Err((6, 0))]);
    assert_eq!(of_subject("SB1|M|MOA_ONE|20240131|M"), [Err((6, 0)), Ok(())]);
    for record in ["SB1", "SB1|M|MOA_ONE|20240131", "SB1|H|M|MOA_ONE|20240131|M|", "SB1|||||||"] {
        assert_eq!(of_subject(record), [Err((6, 0)); 2], "{}", record);
    }
}

#[test]
fn c16_a_field_left_out_or_put_in_at_another_place() {
    assert_eq!(of_subject("SB1|H|MOA_ONE|20240131|M"), [Err((6, 0)), Err((10, 2))]);
    assert_eq!(of_subject("SB1|H|M|20240131|M"), [Err((6, 0)), Err((10, 2))]);
    assert_eq!(of_subject("SB1|H|M|MOA_ONE|20240131"), [Err((6, 0)), Err((10, 2))]);
    assert_eq!(of_subject("SB1|M|20240131|MOA_ONE|M"), [Err((6, 0)), Err((8, 4))]);
    assert_eq!(of_subject("SB1|M|MOA_ONE|20240131|M|"), [Err((10, 2)), Err((6, 0))]);
    assert_eq!(of_subject("SB1|M|H|MOA_ONE|20240131|M"), [Err((10, 2)), Err((6, 0))]);
    assert_eq!(of_subject("SB1||M|MOA_ONE|20240131|M"), [Err((7, 2)), Err((6, 0))]);
}

#[test]
fn c16_role_id_date_and_periodicity() {
    let newer = |record: &str| of_subject(record)[1];
    assert_eq!(newer("SB1||MOA_ONE|20240131|M"), Err((7, 2)));
    assert_eq!(newer("SB1| |MOA_ONE|20240131|M"), Err((8, 2)));
    assert_eq!(newer("SB1|MM|MOA_ONE|20240131|M"), Err((9, 2)));
    assert_eq!(newer("SB1|m|MOA_ONE|20240131|M"), Err((10, 2)));
    assert_eq!(newer("SB1|M||20240131|M"), Err((7, 3)));
    assert_eq!(newer("SB1|M|MOA#ONE|20240131|M"), Err((8, 3)));
    assert_eq!(newer("SB1|M|MOA_NINE9|20240131|M"), Err((9, 3)));
    assert_eq!(newer("SB1|M|MOA, 8c.|20240131|M"), Ok(()));
    assert_eq!(newer("SB1|M|H|20240131|M"), Ok(()));
    assert_eq!(newer("SB1|M|MOA_ONE||M"), Err((7, 4)));
    assert_eq!(newer("SB1|M|MOA_ONE|2024131|M"), Err((8, 4)));
    assert_eq!(newer("SB1|M|MOA_ONE|20230229|M"), Err((9, 4)));
    assert_eq!(newer("SB1|M|MOA_ONE|20240131|"), Err((7, 5)));
    assert_eq!(newer("SB1|M|MOA_ONE|20240131|M\r"), Err((8, 5)));
    assert_eq!(newer("SB1|M|MOA_ONE|20240131|MM"), Err((9, 5)));
    assert_eq!(newer("SB1|M|MOA_ONE|20240131|D"), Err((10, 5)));
}

/// Holds a file's answer, which is the same in both editions. Its lines are the newer edition's; the
/// older one's have `H` in front of each role.
fn as_before(lines: &[&str], answer: Result<usize, (u8, usize, usize)>) {
    let older: Vec<String> = lines.iter().map(|line| line.replace("SB1|", "SB1|H|")).collect();
    assert_eq!(judged(NEWER_WORDS, &footed(lines)), answer, "{:?}", lines);
    for words in OLDER_WORDS {
        assert_eq!(judged(words, &footed(&older)), answer, "{:?}", older);
    }
}

#[test]
fn c16_the_other_kinds_are_as_before() {
    let subject = "SB1|M|MOA_ONE|20240131|M";
    let rows = |row: &str, answer| as_before(&[HEADER, subject, row], answer);
    rows("CM1|_A|12|2.5|3", Ok(4));
    rows("CM1||-9999999|-0.1|9999999", Ok(4));
    rows("CM1|NULL|12|2.5|3", Err((9, 3, 2)));
    rows("CM1|_A||2.5|3", Err((7, 3, 3)));
    rows("CM1|_A|12|2|3", Err((8, 3, 4)));
    rows("CM1|_A|12|1000.0|3", Err((9, 3, 4)));
    rows("CM1|_A|12|2.5", Err((6, 3, 0)));
    rows("SB2|M|MOA_ONE|20240131|M", Err((4, 3, 1)));
    let header = |header: &str, answer| as_before(&[header, subject], answer);
    header("ZHD|P0133001|Z|CDCA|Z|POOL|20240205090000", Ok(3));
    header("ZHD|P0133711|Z|CDCA|Z|POOL|20240205090000", Err((10, 1, 2)));
    header("ZHD|P0133001 711|Z|CDCA|Z|POOL|20240205090000", Err((9, 1, 2)));
    header("ZHD|P0134001|Z|CDCA|Z|POOL|20240205090000", Err((10, 1, 2)));
    header("ZHD|P0133001|G|CDCA|Z|POOL|20240205090000", Err((10, 1, 3)));
    header("ZHD|P0133001|Z|CDCA|X|POOL|20240205090000", Err((10, 1, 5)));
    assert_eq!(refused(NEWER_WORDS, &replaced(NEWER, "ZPT|6", "ZPT|5")), (12, 6, 2, 123));
    assert_eq!(refused(NEWER_WORDS, &replaced(NEWER, "738676850", "1819152411")), (13, 6, 3, 125));
}

#[test]
fn c16_the_grammar_is_as_before() {
    let (subject, row) = ("SB1|M|MOA_ONE|20240131|M", "CM1|_A|12|2.5|3");
    as_before(&[HEADER], Ok(2));
    as_before(&[HEADER, subject, subject, row, row, subject], Ok(7));
    as_before(&[HEADER, row], Err((5, 2, 1)));
    as_before(&[HEADER, HEADER], Err((5, 2, 1)));
    as_before(&[subject], Err((5, 1, 1)));
    assert_eq!(refused(NEWER_WORDS, &NEWER[..119]), (14, 6, 0, 119));
    assert_eq!(judged(NEWER_WORDS, NEWER.strip_suffix(b"\n").expect("ended")), Ok(6), "no last line feed");
}

#[test]
fn c16_steps_under_each_edition() {
    let open = |follow: &[[u8; 3]]| Step::Through { complete: false, follow: follow.to_vec() };
    for words in [OLDER_WORDS[0], OLDER_WORDS[1], NEWER_WORDS] {
        let stepped = |kinds: &[u8]| step(words.as_bytes(), kinds).expect("a flow and an edition");
        assert_eq!(stepped(b""), open(&[*b"ZHD"]));
        assert_eq!(stepped(b"ZHD"), open(&[*b"SB1", *b"ZPT"]));
        assert_eq!(stepped(b"ZHDSB1"), open(&[*b"SB1", *b"CM1", *b"ZPT"]));
        assert_eq!(stepped(b"ZHDSB1CM1"), open(&[*b"SB1", *b"CM1", *b"ZPT"]));
        assert_eq!(stepped(b"ZHDSB1CM1SB1ZPT"), Step::Through { complete: true, follow: vec![] });
        assert_eq!(stepped(b"ZHDZPT"), Step::Through { complete: true, follow: vec![] });
        assert_eq!(stepped(b"ZHDCM1"), Step::Stopped(2));
        assert_eq!(stepped(b"ZHDSB2"), Step::Stopped(2));
        assert_eq!(stepped(b"ZHDSB1S"), Step::Stopped(3));
    }
}

fn value_of<'a>(words: &str, file: &'a [u8], record: usize, field: usize) -> Result<Value<'a>, Pointed> {
    value(words.as_bytes(), file, record, field).map_err(pointed)
}

#[test]
fn c16_values_of_a_subject_header() {
    let newer = |field| value_of(NEWER_WORDS, NEWER, 2, field);
    assert_eq!(newer(1), Ok(Text(b"SB1")));
    assert_eq!(newer(2), Ok(Text(b"M")));
    assert_eq!(newer(3), Ok(Text(b"MOA_ONE")));
    assert_eq!(newer(4), Ok(Number(20_240_131)));
    assert_eq!(newer(5), Ok(Text(b"M")));
    assert_eq!(newer(6), Err((18, 2, 6, 42)));
    assert_eq!(value_of(NEWER_WORDS, NEWER, 5, 3), Ok(Text(b"MOA2")));
    assert_eq!(value_of(NEWER_WORDS, NEWER, 5, 6), Err((18, 5, 6, 97)));
    assert_eq!(value_of(NEWER_WORDS, NEWER, 3, 4), Ok(Number(25)));
    assert_eq!(value_of(NEWER_WORDS, OLDER, 2, 3), Err((6, 2, 0, 42)));
    for words in OLDER_WORDS {
        let older = |field| value_of(words, OLDER, 2, field);
        assert_eq!((older(2), older(3)), (Ok(Text(b"H")), Ok(Text(b"M"))));
        assert_eq!((older(4), older(5)), (Ok(Text(b"MOA_ONE")), Ok(Number(20_240_131))));
        assert_eq!((older(6), older(7)), (Ok(Text(b"M")), Err((18, 2, 7, 42))));
        assert_eq!(value_of(words, NEWER, 2, 3), Err((6, 2, 0, 42)));
    }
}

/// What a part answers, records and bytes or a refusal, and what its room then holds.
fn in_room(
    put: impl FnOnce(&mut [u8]) -> Result<Done, Refusal>,
) -> (Result<(usize, usize), Pointed>, Vec<u8>) {
    let mut room = vec![HELD; 200];
    let answer = put(&mut room).map(|done| (done.records, done.bytes)).map_err(pointed);
    (answer, room)
}

/// An acceptance in such a room.
fn made(records: usize, bytes: &[u8]) -> (Result<(usize, usize), Pointed>, Vec<u8>) {
    let mut room = bytes.to_vec();
    room.resize(200, HELD);
    (Ok((records, bytes.len())), room)
}

/// A refusal that leaves such a room as it was.
fn kept(refusal: Pointed) -> (Result<(usize, usize), Pointed>, Vec<u8>) {
    (Err(refusal), vec![HELD; 200])
}

#[test]
fn c16_sheets_under_each_edition() {
    let newer: &[u8] = b"ZHD\tP0133001\tZ\tCDCA\tZ\tPOOL\t20240205090000\nSB1\tM\tMOA_ONE\t20240131\tM\n\
        CM1\t_A\t12\t2.5\t3\nCM1\t\t0\t0.0\t-1\nSB1\tM\tMOA2\t20240131\tM\n";
    let older = replaced(&replaced(newer, "\tM\tMOA_ONE", "\tH\tM\tMOA_ONE"), "\tM\tMOA2", "\tH\tM\tMOA2");
    let written = |words: &str, sheet: &[u8]| in_room(|room| write(words.as_bytes(), sheet, room));
    let read = |words: &str, file: &[u8]| in_room(|room| read(words.as_bytes(), file, room));
    assert_eq!(written(NEWER_WORDS, newer), made(6, NEWER));
    assert_eq!(read(NEWER_WORDS, NEWER), made(6, newer));
    assert_eq!(written(NEWER_WORDS, &older), kept((6, 2, 0, 42)));
    assert_eq!(read(NEWER_WORDS, OLDER), kept((6, 2, 0, 42)));
    for words in OLDER_WORDS {
        assert_eq!(written(words, &older), made(6, OLDER));
        assert_eq!(read(words, OLDER), made(6, &older));
        assert_eq!(written(words, newer), kept((6, 2, 0, 42)));
        assert_eq!(read(words, NEWER), kept((6, 2, 0, 42)));
    }
}

#[test]
fn c16_exports_under_each_edition() {
    let newer: &[u8] = b"ZHD,P0133001,Z,CDCA,Z,POOL,20240205090000\r\nSB1,M,MOA_ONE,20240131,M\r\n\
        CM1,_A,12,2.5,3\r\nCM1,,0,0.0,-1\r\nSB1,M,MOA2,20240131,M\r\n";
    let older = replaced(&replaced(newer, ",M,MOA_ONE", ",H,M,MOA_ONE"), ",M,MOA2", ",H,M,MOA2");
    let exported = |words: &str, file: &[u8]| in_room(|room| export(words.as_bytes(), file, room));
    assert_eq!(exported(NEWER_WORDS, NEWER), made(6, newer));
    assert_eq!(exported(NEWER_WORDS, OLDER), kept((6, 2, 0, 42)));
    for words in OLDER_WORDS {
        assert_eq!(exported(words, OLDER), made(6, &older));
        assert_eq!(exported(words, NEWER), kept((6, 2, 0, 42)));
    }
}

#[test]
fn c16_indexes_under_each_edition() {
    let entry = |record, place, parent, children| Entry { record, place, parent, children };
    let indexed = |words: &str, file: &[u8]| {
        let mut list = [BLANK; 3];
        let answer = index(words.as_bytes(), file, &mut list);
        (answer.map(|indexed| (indexed.records, indexed.entries)).map_err(pointed), list)
    };
    let (older, newer) =
        ([entry(2, 42, 1, 2), entry(5, 99, 2, 0), BLANK], [entry(2, 42, 1, 2), entry(5, 97, 2, 0), BLANK]);
    assert_eq!(indexed(NEWER_WORDS, NEWER), (Ok((6, 2)), newer));
    assert_eq!(indexed(NEWER_WORDS, OLDER), (Err((6, 2, 0, 42)), [BLANK; 3]));
    for words in OLDER_WORDS {
        assert_eq!(indexed(words, OLDER), (Ok((6, 2)), older));
        assert_eq!(indexed(words, NEWER), (Err((6, 2, 0, 42)), [BLANK; 3]));
    }
}

/// All lists of so many of the words.
fn lists_of(words: &[&str], length: usize) -> Vec<Vec<String>> {
    let mut lists = vec![Vec::new()];
    for _ in 0..length {
        let longer = |list: &Vec<String>| {
            let list = list.clone();
            words.iter().map(move |word| [&list[..], &[word.to_string()]].concat()).collect::<Vec<_>>()
        };
        lists = lists.iter().flat_map(longer).collect();
    }
    lists
}

#[test]
fn c16_no_subject_header_meets_both_editions() {
    let words = ["", "H", "M", "MOA", "20240131"];
    let mut met = [0; 2];
    for fields in (0..=6).flat_map(|length| lists_of(&words, length)) {
        let record = [&["SB1".to_string()], &fields[..]].concat().join("|");
        let answers = of_subject(&record).map(|answer| usize::from(answer.is_ok()));
        assert!(answers != [1, 1], "{}", record);
        met = [met[0] + answers[0], met[1] + answers[1]];
    }
    // Each id that is not empty, between the fixed fields and the date.
    assert_eq!(met, [4, 4]);
}

#[test]
fn c16_a_file_with_a_subject_is_never_accepted_under_both() {
    let subjects = ["SB1|H|M|MOA|20240131|M", "SB1|M|MOA|20240131|M", "CM1|_A|12|2.5|3"];
    let mut accepted = [0; 2];
    for rows in (1..=5).flat_map(|length| lists_of(&subjects, length)) {
        let file = footed(&[&[HEADER.to_string()], &rows[..]].concat());
        let has_subject = rows.iter().any(|row| row.starts_with("SB1"));
        let answers = [OLDER_WORDS[1], NEWER_WORDS].map(|words| usize::from(judged(words, &file).is_ok()));
        assert!(!(has_subject && answers == [1, 1]), "{:?}", rows);
        accepted = [accepted[0] + answers[0], accepted[1] + answers[1]];
    }
    // The first row is a subject of the edition, and each behind it is one or a CM1: 1, 2, 4, 8 and 16.
    assert_eq!(accepted, [31, 31]);
}

#[test]
fn c16_subjects_of_both_editions_in_one_file_are_refused_under_each() {
    let (older, newer) = ("SB1|H|M|MOA|20240131|M", "SB1|M|MOA|20240131|M");
    let [first, second] = [[older, newer], [newer, older]].map(|[one, other]| footed(&[HEADER, one, other]));
    for words in OLDER_WORDS {
        assert_eq!(refused(words, &first), (6, 3, 0, 65));
        assert_eq!(refused(words, &second), (6, 2, 0, 42));
    }
    assert_eq!(refused(NEWER_WORDS, &first), (6, 2, 0, 42));
    assert_eq!(refused(NEWER_WORDS, &second), (6, 3, 0, 63));
}

#[test]
fn c16_a_header_and_a_footer_alone_are_accepted_under_both() {
    for words in [OLDER_WORDS[0], OLDER_WORDS[1], NEWER_WORDS] {
        assert_eq!(judged(words, ALONE), Ok(2), "{}", words);
        assert_eq!(judged(words, &ALONE[..57]), Ok(2), "{}", words);
    }
}

/// All that every part makes of the small good file of a flow, by these words.
fn all_of(words: &str, flow: &str) -> String {
    let (bytes, file) = (words.as_bytes(), good(flow));
    let mut all = format!("{:?}\n", judge(bytes, &file));
    for (record, line) in (1..).zip(lines(flow)) {
        for field in 1..=line.split('|').count() + 1 {
            all += &format!("{:?}\n", value(bytes, &file, record, field));
        }
    }
    all += &format!("{:?}\n", step(bytes, b"ZHD"));
    let (mut room, mut list) = ([HELD; 600], [BLANK; 9]);
    all += &format!("{:?}{:?}\n", write(bytes, &sheet_of(&lines(flow)), &mut room), room);
    all += &format!("{:?}{:?}\n", read(bytes, &file, &mut room), room);
    all += &format!("{:?}{:?}\n", export(bytes, &file, &mut room), room);
    all + &format!("{:?}{:?}\n", index(bytes, &file, &mut list), list)
}

#[test]
fn c16_other_flows_have_the_same_layout_in_each() {
    for flow in FLOWS.iter().filter(|flow| **flow != "P0133001") {
        let records = lines(flow).len() + 1;
        let [older, newer] = ["533", "711"].map(|edition| format!("{} {}", flow, edition));
        for words in [&older, &newer] {
            assert_eq!(judged(words, &good(flow)), Ok(records), "{}", words);
            assert_eq!(judged(words, &with(flow, 1, 3, b"")), Err((7, 1, 3)), "{}", words);
            assert_eq!(all_of(words, flow), all_of(flow, flow), "{}", words);
        }
    }
    for words in ["P0138001 533", "P0138001 711"] {
        assert_eq!(judged(words, EXAMPLE), Ok(4));
        assert_eq!(refused(words, &replaced(EXAMPLE, "1.0250", "1.025")), (8, 3, 2, 65));
    }
    assert_eq!(judged("P0134001 711", &with("P0134001", 2, 2, b"H")), Err((10, 2, 2)));
}

#[test]
fn c16_533_is_meant_where_no_edition_is_named() {
    assert_eq!(all_of("P0133001", "P0133001"), all_of("P0133001 533", "P0133001"));
    assert_eq!(all_of("P0133001", NEWER_WORDS), all_of("P0133001 533", NEWER_WORDS));
    assert_ne!(all_of("P0133001", NEWER_WORDS), all_of("P0133001 711", NEWER_WORDS));
}

#[test]
fn c16_no_such_edition_in_every_part_and_for_every_flow() {
    for flow in FLOWS {
        for odd in ODD_EDITIONS {
            let words = format!("{}{}", flow, odd);
            assert_eq!(refusals(words.as_bytes(), &good(flow)), NO_EDITION, "{:?}", words);
        }
    }
}

#[test]
fn c16_every_byte_around_an_edition() {
    let of = |parts: [&[u8]; 3]| refusals(&parts.concat(), ALONE);
    for byte in 0..=255 {
        assert_eq!(of([b"P0133001 ", &[byte], b""]), NO_EDITION, "{}", byte);
        assert_eq!(of([b"P0133001", &[byte], b""]) == NO_EDITION, byte == b' ', "{}", byte);
        for edition in [b"533", b"711"] {
            assert_eq!(of([b"P0133001 ", edition, &[byte]]), NO_EDITION, "{}", byte);
            assert_eq!(of([b"P0133001 ", &[byte], edition]), NO_EDITION, "{}", byte);
            match of([b"P0133001", &[byte], edition]) {
                [None, ..] => assert_eq!(byte, b' '),
                refusals => assert_eq!(refusals, NO_FLOW, "{}", byte),
            }
        }
    }
}

#[test]
fn c16_two_editions_and_no_other_number() {
    for flow in FLOWS {
        let is_held = |number: &u16| judged(&format!("{} {:03}", flow, number), b"") == Err((14, 1, 0));
        assert_eq!((0..1000).filter(is_held).collect::<Vec<_>>(), [533, 711], "{}", flow);
        let is_none = |number: &u16| judged(&format!("{} {:03}", flow, number), b"") == Err((21, 0, 0));
        assert_eq!((0..1000).filter(is_none).count(), 998, "{}", flow);
    }
}

#[test]
fn c16_no_such_flow_comes_before_the_edition() {
    let unknown = [
        "", " ", "711", " 711", "533 P0133001", "P0133002", "P0133002 711", "P0133002 712", "P0133002 ",
        "p0133001 711", "p0133001 712", "P0133001x", "P0133001x 711", "P0133001x 712", "P0133001711",
        "P0133001-711", "P0133001\t711", "P0133001\r", "P0133001\r711", "P0133001\n711", "P013300",
        "P013300 711", "P013300  711", "P013300 1 711", " P0133001", " P0133001 711", "P01330011",
        "P01330011 711", "P0133001\u{a0}711",
    ];
    for words in unknown {
        for bytes in [NEWER, OLDER, b"", b"A|B"] {
            assert_eq!(refusals(words.as_bytes(), bytes), NO_FLOW, "{:?}", words);
        }
    }
}

#[test]
fn c16_21_comes_before_every_refusal_of_the_bytes() {
    // Over the limit of a file and of a sheet; a bar in a sheet; a last line without its line feed;
    // nothing at all; a kind, a grammar, a field and a footer that are wrong.
    let long = vec![b'\n'; 1_048_577];
    let spoiled = replaced(NEWER, "20240131", "20240132");
    let wrong_sum = replaced(NEWER, "738676850", "738676851");
    let bytes: [&[u8]; 9] = [
        &long,
        &long[..1_048_001],
        b"A|B\n",
        b"ZHD\tA",
        b"",
        b"XXX\n",
        b"CM1|_A|12|2.5|3\n",
        &spoiled,
        &wrong_sum,
    ];
    for bytes in bytes {
        for words in ["P0133001 712", "P0133001 ", "P0133001 711 "] {
            assert_eq!(refusals(words.as_bytes(), bytes), NO_EDITION);
        }
        // With an edition that is held each of them is refused for itself.
        let judged = refusals(b"P0133001 711", bytes)[0].expect("no good file");
        assert!((2..=14).contains(&judged.0), "{}", judged.0);
    }
    let writer = |bytes: &[u8]| refusals(b"P0133001 711", bytes)[3].map(|refusal| refusal.0);
    assert_eq!(writer(&long[..1_048_001]), Some(2));
    assert_eq!((writer(b"A|B"), writer(b"ZHD\tA")), (Some(16), Some(15)));
    assert_eq!((writer(b"XXX\n"), writer(b"")), (Some(4), Some(5)));
}

#[test]
fn c16_21_comes_before_what_was_asked_and_lent() {
    let sheet = sheet_of(&lines(NEWER_WORDS));
    let late = |words: &[u8]| {
        let refusals = [
            value(words, NEWER, 7, 1).err(),
            value(words, NEWER, 2, 6).err(),
            write(words, &sheet, &mut []).err(),
            read(words, NEWER, &mut []).err(),
            export(words, NEWER, &mut []).err(),
            index(words, NEWER, &mut []).err(),
        ];
        refusals.map(|refusal| pointed(refusal.expect("too little was lent, or nothing is there")))
    };
    let for_itself = [18, 18, 17, 17, 17, 19];
    assert_eq!(late(b"P0133001 711").map(|(number, ..)| number), for_itself);
    assert_eq!(late(b"P0133001 117"), [(21, 0, 0, 0); 6]);
    assert_eq!(step(b"P0133001 711", b"XXX"), Ok(Step::Stopped(1)));
    assert_eq!(step(b"P0133001 117", b"XXX").map_err(pointed), Err((21, 0, 0, 0)));
}
