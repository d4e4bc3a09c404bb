//! Comma-separated export and import (document 02's C-15): each clause by hand, and the texts' language
//! by a third route.

mod common;
use common::*;
use second::bytes::records_of;
use second::csv::{export, import, imported, made_text, TEXT_LIMIT};
use second::judge::{judge, FILE_LIMIT};
use second::refusal::Refusal;
use second::sheet::{made_sheet, Done, SHEET_LIMIT};
use std::collections::BTreeMap;

/// Records or lines and bytes, or number, record, field and place.
type Answer = Result<(usize, usize), (u8, usize, usize, usize)>;

/// What a room holds before.
const HELD: u8 = b'#';

/// The answer in a room of this length, and all that the room holds after it.
fn in_room(room: usize, put: impl FnOnce(&mut [u8]) -> Result<Done, Refusal>) -> (Answer, Vec<u8>) {
    let mut room = vec![HELD; room];
    let done = put(&mut room);
    let answer = done
        .map(|done| (done.records, done.bytes))
        .map_err(|why| (why.number, why.record, why.field, why.place));
    (answer, room)
}

fn exported(flow: &str, file: &[u8], room: usize) -> (Answer, Vec<u8>) {
    in_room(room, |room| export(flow.as_bytes(), file, room))
}

fn imported_to(text: &[u8], room: usize) -> (Answer, Vec<u8>) {
    in_room(room, |room| import(text, room))
}

/// Holds an import that is taken: the lines and the sheet, in a room of just its length and in one
/// with bytes to spare.
fn takes(text: &[u8], lines: usize, sheet: &[u8]) {
    let done = Ok((lines, sheet.len()));
    let shown = text.escape_ascii();
    assert_eq!(imported_to(text, sheet.len()), (done, sheet.to_vec()), "{}", shown);
    assert_eq!(imported_to(text, sheet.len() + 3), (done, [sheet, b"###"].concat()), "{}", shown);
}

/// Holds an import that is refused, in no room and in more than enough: both stay as they were.
fn refuses(text: &[u8], number: u8, line: usize, place: usize) {
    let why = Err((number, line, 0, place));
    let shown = text[..text.len().min(80)].escape_ascii();
    assert_eq!(imported_to(text, 0), (why, vec![]), "{}", shown);
    let room = text.len() + 2;
    assert_eq!(imported_to(text, room), (why, vec![HELD; room]), "{}", shown);
}

const EXAMPLE_TEXT: &[u8] = b"ZHD,P0138001,G,SVAA,Z,POOL,20240105120000\r\n\
                              SUB,B,,,20231231,M\r\n\
                              TA2,1.0250\r\n";

/// A small good file with commas and quotation marks in its texts: without its footer, and its export.
const LOUD: [&str; 5] = [
    "ZHD|P0181002|\"|S,AA|,|\"\"\"\"|20240105120000",
    "GS7|,\"",
    "SUP|A\"B,",
    "BMU|2__A, \"B\"|20240101||T",
    "GS7|'1",
];
const LOUD_TEXT: &[u8] = b"ZHD,P0181002,\"\"\"\",\"S,AA\",\",\",\"\"\"\"\"\"\"\"\"\",20240105120000\r\n\
                           GS7,\",\"\"\"\r\n\
                           SUP,\"A\"\"B,\"\r\n\
                           BMU,\"2__A, \"\"B\"\"\",20240101,,T\r\n\
                           GS7,'1\r\n";

#[test]
fn an_export_has_a_line_a_record_without_zpt() {
    assert_eq!(exported("P0138001", EXAMPLE, 75), (Ok((4, 75)), EXAMPLE_TEXT.to_vec()));
    let (answer, room) = exported("P0138001", EXAMPLE, 78);
    assert_eq!((answer, &room[..75], &room[75..]), (Ok((4, 75)), EXAMPLE_TEXT, &b"###"[..]));
    let unended = &EXAMPLE[..87];
    assert_eq!(exported("P0138001", unended, 75), (Ok((4, 75)), EXAMPLE_TEXT.to_vec()));
}

#[test]
fn an_export_quotes_exactly_what_holds_a_comma_or_a_mark() {
    let length = LOUD_TEXT.len();
    assert_eq!(exported("P0181002", &footed(&LOUD), length), (Ok((6, length)), LOUD_TEXT.to_vec()));
    // All other text characters stay as they are.
    let others = "A a9.-()/'+:=?!%&*;<>_";
    for part in [&others[..11], &others[11..]] {
        let rows = [LOUD[0], "GS7|A", "SUP|A", &format!("BMU|{}|20240101||F", part)];
        let text = format!("\r\nBMU,{},20240101,,F\r\n", part);
        assert!(made_text(&footed(&rows)).ends_with(text.as_bytes()), "{}", part);
        assert!(judge(b"P0181002", &footed(&rows)).is_ok());
    }
}

#[test]
fn an_export_is_refused_as_the_reader_refuses_then_for_its_room() {
    let untouched = |room: usize| vec![HELD; room];
    for room in [0, 1, 74] {
        assert_eq!(exported("P0138001", EXAMPLE, room), (Err((17, 0, 0, 0)), untouched(room)));
    }
    let quoted = LOUD_TEXT.len() - 1;
    assert_eq!(exported("P0181002", &footed(&LOUD), quoted), (Err((17, 0, 0, 0)), untouched(quoted)));
    let spoiled: [(u8, usize, usize, usize, Vec<u8>); 6] = [
        (2, 0, 0, 0, vec![b'\n'; FILE_LIMIT + 1]),
        (8, 3, 2, 65, replaced(EXAMPLE, "1.0250", "1,0250")),
        (10, 2, 3, 48, replaced(EXAMPLE, "B|||", "B|,||")),
        (13, 4, 3, 78, replaced(EXAMPLE, "89\n", "88\n")),
        (14, 4, 0, 72, EXAMPLE[..72].to_vec()),
        (5, 1, 1, 0, b"ZPT|1|0\n".to_vec()),
    ];
    for (number, record, field, place, file) in spoiled {
        for room in [0, 74, 75, 200] {
            let why = Err((number, record, field, place));
            assert_eq!(exported("P0138001", &file, room), (why, untouched(room)));
        }
    }
    assert_eq!(exported("P0138002", EXAMPLE, 9), (Err((1, 0, 0, 0)), untouched(9)));
    let unended = &good("P0181002")[..];
    let unended = &unended[..unended.len() - 1];
    assert_eq!(exported("P0181002", unended, 0).0, Err((15, 11, 0, 199)));
}

#[test]
fn an_import_makes_a_sheet() {
    takes(EXAMPLE_TEXT, 3, &sheet_of(&lines("P0138001")));
    takes(LOUD_TEXT, 5, &sheet_of(&LOUD));
    takes(b"A", 1, b"A\n");
    takes(b"A,B\r\nC\r\n", 2, b"A\tB\nC\n");
    takes(b" A , B \r\n", 1, b" A \t B \n");
    takes(b"!#$%&'()*+-./:;<=>?@[\\]^_`{}~", 1, b"!#$%&'()*+-./:;<=>?@[\\]^_`{}~\n");
}

#[test]
fn an_import_takes_any_quoting() {
    takes(b"\"A\",B,\"C\"\r\n\"D\"\r\n", 2, b"A\tB\tC\nD\n");
    takes(b"\"\"\r\n", 1, b"\n");
    takes(b"\"\",\"\"", 1, b"\t\n");
    takes(b"\"\"\"\"", 1, b"\"\n");
    takes(b"\"\"\"\"\"\"", 1, b"\"\"\n");
    takes(b"\"\"\"A\"\"\",\"B\"\"C\"", 1, b"\"A\"\tB\"C\n");
    takes(b"\"A,B\",\",\",\",,\"", 1, b"A,B\t,\t,,\n");
    takes(b"\",\"\",\"", 1, b",\",\n");
    takes(b"\" A \"", 1, b" A \n");
}

#[test]
fn the_last_line_end_is_optional() {
    takes(b"A,B", 1, b"A\tB\n");
    takes(b"A,B\r\n", 1, b"A\tB\n");
    takes(b"A\r\nB", 2, b"A\nB\n");
    takes(b"A\r\n\"B\"", 2, b"A\nB\n");
    takes(b"A,", 1, b"A\t\n");
    takes(b",", 1, b"\t\n");
}

#[test]
fn the_empty_text_and_blank_lines() {
    takes(b"", 0, b"");
    takes(b"\r\n", 1, b"\n");
    takes(b"\r\n\r\n", 2, b"\n\n");
    takes(b"\r\nA", 2, b"\nA\n");
    takes(b"A\r\n\r\n", 2, b"A\n\n");
    takes(b"A\r\n\r\n\"\"", 3, b"A\n\n\n");
}

#[test]
fn what_is_not_such_text_is_refused_at_its_line() {
    refuses(b"\t", 20, 1, 0);
    refuses(b"A\tB\r\n", 20, 1, 0);
    refuses(b"A,\"B\tC\"\r\n", 20, 1, 0);
    refuses(b"A\r\nB,C\r\nD\tE\r\nF\tG", 20, 3, 8);
    refuses(b"A\r\n\r\n\x00", 20, 3, 5);
    refuses(b"A,B\r\nC,\x7f", 20, 2, 5);
    refuses(b"\xef\xbb\xbfA\r\n", 20, 1, 0);
}

#[test]
fn a_lone_cr_or_lf_is_no_line_end() {
    refuses(b"\r", 20, 1, 0);
    refuses(b"\n", 20, 1, 0);
    refuses(b"A\n", 20, 1, 0);
    refuses(b"A\r\nB\nC\r\n", 20, 2, 3);
    refuses(b"A\rB\r\n", 20, 1, 0);
    refuses(b"A\r\nB\r", 20, 2, 3);
    refuses(b"A\r\n\r\r\n", 20, 2, 3);
    refuses(b"A\r\n\n", 20, 2, 3);
    refuses(b"A\n\r\n", 20, 1, 0);
    refuses(b"\"A\rB\"\r\n", 20, 1, 0);
    refuses(b"A\r\n\"\n\"", 20, 2, 3);
    refuses(b"\"A\"\r", 20, 1, 0);
    refuses(b"\"A\"\n", 20, 1, 0);
}

#[test]
fn a_quoted_field_over_a_line_end_is_refused_where_it_opens() {
    refuses(b"\"A\r\nB\"", 20, 1, 0);
    refuses(b"A\r\nB,\"C\r\nD\",E\r\n", 20, 2, 3);
    refuses(b"A\r\n\"\r\n\r\n\r\n\"\r\n", 20, 2, 3);
    refuses(b"\"A\"\"\r\n\"", 20, 1, 0);
    refuses(b"A\r\n\"B\r\nC\tD\"\r\n", 20, 2, 3);
}

#[test]
fn a_quoted_field_that_never_closes() {
    refuses(b"\"", 20, 1, 0);
    refuses(b"\"A", 20, 1, 0);
    refuses(b"\"A\"\"", 20, 1, 0);
    refuses(b"\"\"\"", 20, 1, 0);
    refuses(b"A\r\nB,\"", 20, 2, 3);
    refuses(b"A\r\nB,\"C\r\n", 20, 2, 3);
    refuses(b"A,\"B,C\r\n", 20, 1, 0);
}

#[test]
fn a_mark_in_a_plain_field_and_more_behind_a_quoted_one() {
    refuses(b"A\"", 20, 1, 0);
    refuses(b"A\"B", 20, 1, 0);
    refuses(b"A\"B\"", 20, 1, 0);
    refuses(b"A\"\"B", 20, 1, 0);
    refuses(b"A\r\n \"B\"\r\n", 20, 2, 3);
    refuses(b"\"A\"B", 20, 1, 0);
    refuses(b"\"A\" ,B", 20, 1, 0);
    refuses(b"A\r\n\"\"B\"\"\r\n", 20, 2, 3);
    refuses(b"\"A\"B\"C\"", 20, 1, 0);
}

#[test]
fn each_byte_in_a_plain_and_in_a_quoted_field() {
    for byte in 0..=255 {
        let plain = [b"A\r\nB", &[byte][..], b"C,D"].concat();
        let quoted = [b"A\r\n\"B", &[byte][..], b"C\",D"].concat();
        let sheet = [b"A\nB", &[byte][..], b"C\tD\n"].concat();
        match byte {
            b'|' => [plain, quoted].iter().for_each(|text| refuses(text, 16, 2, 3)),
            b',' => {
                takes(&plain, 2, b"A\nB\tC\tD\n");
                takes(&quoted, 2, b"A\nB,C\tD\n");
            }
            b' '..=b'~' if byte != b'"' => [plain, quoted].iter().for_each(|text| takes(text, 2, &sheet)),
            _ => [plain, quoted].iter().for_each(|text| refuses(text, 20, 2, 3)),
        }
    }
}

#[test]
fn a_bar_is_refused_at_the_first_such_line() {
    refuses(b"|", 16, 1, 0);
    refuses(b"A,B|C\r\n", 16, 1, 0);
    refuses(b"A\r\n\"B\",\"|\"\r\nC|\r\n", 16, 2, 3);
    refuses(b"A\r\n\r\n\"\"\"|\"", 16, 3, 5);
}

#[test]
fn what_is_not_such_text_comes_before_any_bar() {
    refuses(b"|\r\nA\tB", 20, 2, 3);
    refuses(b"A\r\n|\r\n\"", 20, 3, 6);
    refuses(b"A|B\tC", 20, 1, 0);
    refuses(b"A\"\r\n|\r\n", 20, 1, 0);
    refuses(b"\"A|\r\n\"", 20, 1, 0);
}

#[test]
fn a_room_too_short_comes_last() {
    for room in [0, 1, 5] {
        assert_eq!(imported_to(b"A,B\r\nC", room), (Err((17, 0, 0, 0)), vec![HELD; room]));
    }
    takes(b"A,B\r\nC", 2, b"A\tB\nC\n");
    assert_eq!(imported_to(b"\r\n", 0), (Err((17, 0, 0, 0)), vec![]));
    assert_eq!(imported_to(b"", 0), (Ok((0, 0)), vec![]));
}

/// A text of one line with this length, and what it ends with.
fn one_line(length: usize, end: &[u8]) -> Vec<u8> {
    [&vec![b'A'; length - end.len()][..], end].concat()
}

#[test]
fn the_limit_of_a_text() {
    let (answer, room) = imported_to(&one_line(TEXT_LIMIT, b"\r\n"), TEXT_LIMIT);
    assert_eq!((answer, room.ends_with(b"A\n#")), (Ok((1, 1_047_999)), true));
    refuses(&one_line(1_048_001, b"\r\n"), 2, 0, 0);
    refuses(&one_line(1_048_001, b"\"A\""), 2, 0, 0);
    refuses(&one_line(1_048_001, b"|\r\n"), 2, 0, 0);
    assert_eq!(imported_to(&b"\r\n".repeat(524_000), 524_000).0, Ok((524_000, 524_000)));
    refuses(&b"\r\n".repeat(524_001), 2, 0, 0);
}

#[test]
fn the_limit_of_the_sheet() {
    refuses(&one_line(1_048_000, b"A"), 2, 0, 0);
    refuses(&vec![b','; 1_048_000], 2, 0, 0);
    assert_eq!(imported_to(&one_line(1_047_999, b"A"), SHEET_LIMIT).0, Ok((1, 1_048_000)));
    assert_eq!(imported_to(&one_line(1_048_000, b"\r\nA"), SHEET_LIMIT).0, Ok((2, 1_048_000)));
    assert_eq!(imported_to(&one_line(1_048_000, b",\"\""), SHEET_LIMIT).0, Ok((1, 1_047_999)));
    refuses(&one_line(1_048_000, b"\t"), 20, 1, 0);
    refuses(&one_line(1_048_000, b"|"), 2, 0, 0);
    refuses(&one_line(1_047_999, b"|"), 16, 1, 0);
    refuses(&one_line(1_048_000, b"\r\n|"), 16, 2, 1_047_999);
    refuses(&one_line(1_048_000, b"\r\n\""), 20, 2, 1_047_999);
}

#[test]
fn an_accepted_file_whose_export_is_too_long_to_import() {
    let row = "SB2|M|SUPPLIER|20240105|M";
    let file = |count: usize| footed(&[&[lines("P0134001")[0]][..], &vec![row; count]].concat());
    // The header's line takes 43 bytes of the text, each other line 27.
    let (most, over) = (file(38_813), file(38_814));
    let text = made_text(&most);
    assert_eq!(text.len(), 43 + 38_813 * 27);
    takes(&text, 38_814, &made_sheet(&most));
    let (answer, text) = exported("P0134001", &over, 43 + 38_814 * 27);
    assert_eq!(answer, Ok((38_816, 1_048_021)));
    assert!(made_sheet(&over).len() < SHEET_LIMIT);
    refuses(&text, 2, 0, 0);
}

/// Texts of up to this length are spelled out, of these bytes.
const LENGTH: usize = 7;
const BYTES: &[u8] = b"A|,\"\t\r\n";

/// Texts or parts of texts, each with what it makes of a sheet.
type Made = BTreeMap<Vec<u8>, Vec<u8>>;

fn one(text: &[u8], made: &[u8]) -> Made {
    [(text.to_vec(), made.to_vec())].into()
}

/// Each of the first with each of the second behind it.
fn in_turn(first: &Made, second: &Made) -> Made {
    let pair = |one: (&Vec<u8>, &Vec<u8>), other: (&Vec<u8>, &Vec<u8>)| {
        ([&one.0[..], other.0].concat(), [&one.1[..], other.1].concat())
    };
    let pairs = first.iter().flat_map(|one| second.iter().map(move |other| pair(one, other)));
    pairs.filter(|(text, _)| text.len() <= LENGTH).collect()
}

/// Any number of these, none too, up to the length.
fn any_number(parts: &Made) -> Made {
    let mut all = one(b"", b"");
    loop {
        let more: Made = in_turn(&all, parts).into_iter().chain(all.clone()).collect();
        if more.len() == all.len() {
            return all;
        }
        all = more;
    }
}

fn either(sets: &[&Made]) -> Made {
    sets.iter().flat_map(|set| set.iter()).map(|(text, made)| (text.clone(), made.clone())).collect()
}

/// RFC 4180's grammar without line breaks in fields: the lines, any number of ended ones, and the texts.
fn language() -> (Made, Made, Made) {
    let data = either(&[&one(b"A", b"A"), &one(b"|", b"|")]);
    let plain = any_number(&data);
    let inside = any_number(&either(&[&data, &one(b",", b","), &one(b"\"\"", b"\"")]));
    let quoted = in_turn(&in_turn(&one(b"\"", b""), &inside), &one(b"\"", b""));
    let field = either(&[&plain, &quoted]);
    let line = in_turn(&field, &any_number(&in_turn(&one(b",", b"\t"), &field)));
    let ended = any_number(&in_turn(&line, &one(b"\r\n", b"\n")));
    // A blank line is one only by its end.
    let mut unended = in_turn(&line, &one(b"", b"\n"));
    unended.insert(Vec::new(), Vec::new());
    let texts = in_turn(&ended, &unended);
    (line, ended, texts)
}

/// Where the lines of a text start.
fn starts(text: &[u8]) -> Vec<usize> {
    let ends = (0..text.len()).filter(|&place| text[..place].ends_with(b"\r\n"));
    [0].into_iter().chain(ends).collect()
}

/// The line of a text from a place on, without its end.
fn line_at(text: &[u8], place: usize) -> &[u8] {
    let end = text[place..].windows(2).position(|bytes| bytes == b"\r\n");
    &text[place..end.map_or(text.len(), |end| place + end)]
}

#[test]
fn every_short_text_against_the_language() {
    let (line, ended, texts) = language();
    let mut counts = [0; 3];
    let mut text = Vec::new();
    for number in 0.. {
        // The texts by their length, then as numbers of which each byte is a digit.
        let mut rest: usize = number;
        text.clear();
        while rest > 0 {
            text.push(BYTES[(rest - 1) % BYTES.len()]);
            rest = (rest - 1) / BYTES.len();
        }
        if text.len() > LENGTH {
            break;
        }
        let starts = starts(&text);
        match (imported(&text), texts.get(&text)) {
            (Ok(imported), Some(made)) => {
                assert_eq!((imported.lines, &imported.sheet), (records_of(made).len(), made));
                assert!(!made.contains(&b'|'));
                counts[0] += 1;
            }
            (Err(Refusal { number: 16, record, field: 0, place }), Some(made)) => {
                let barred = records_of(made).iter().position(|line| line.contains(&b'|'));
                assert_eq!((barred, starts[record - 1]), (Some(record - 1), place));
                counts[1] += 1;
            }
            (Err(Refusal { number: 20, record, field: 0, place }), None) => {
                let before = ended.get(&text[..place]).map(|made| records_of(made).len());
                assert_eq!((before, starts[record - 1]), (Some(record - 1), place));
                assert!(!line.contains_key(line_at(&text, place)), "{}", text.escape_ascii());
                counts[2] += 1;
            }
            (answer, made) => {
                panic!("{} {:?} {:?}", text.escape_ascii(), answer.map(|imported| imported.sheet), made)
            }
        }
    }
    let all: usize = counts.iter().sum();
    assert_eq!(all, (0..=LENGTH as u32).map(|length| BYTES.len().pow(length)).sum());
    assert_eq!(counts[0] + counts[1], texts.len());
    assert!(counts.iter().all(|&count| count > 500), "{:?}", counts);
}
