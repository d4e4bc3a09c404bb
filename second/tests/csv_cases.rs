//! Comma-separated export and import on seeded cases: there and back, and what the cases reach.

mod common;
use common::FLOWS;
use second::bytes::records_of;
use second::cases::dice::Dice;
use second::cases::files::Given;
use second::cases::texts;
use second::cases::Generator;
use second::csv::{export, import, imported, made_text, Imported, TEXT_LIMIT};
use second::judge::judge;
use second::refusal::Refusal;
use second::sheet::{read, Done, SHEET_LIMIT};
use second::stream::{cases_of, Ask};
use std::collections::{BTreeMap, BTreeSet};

/// The bytes that a part puts out, and the records or lines it counts.
fn put_out(room: usize, part: impl FnOnce(&mut [u8]) -> Result<Done, Refusal>) -> (usize, Vec<u8>) {
    let mut room = vec![0; room];
    let done = part(&mut room).expect("accepted");
    (done.records, room[..done.bytes].to_vec())
}

#[test]
fn exporting_and_importing_again_gives_the_sheet_that_is_read() {
    let (mut all, mut quoted) = (0, 0);
    for turn in 0..800 {
        let Given { flow, bytes: file } = texts::file(&mut Dice::new(15, turn));
        let length = made_text(&file).len();
        if judge(&flow, &file).is_err() || length > TEXT_LIMIT {
            continue;
        }
        let (records, text) = put_out(length, |room| export(&flow, &file, room));
        let (of_read, sheet) = put_out(length, |room| read(&flow, &file, room));
        assert_eq!((records, text.len()), (of_read, length));
        assert_eq!(put_out(sheet.len(), |room| import(&text, room)), (records - 1, sheet));
        all += 1;
        quoted += usize::from(text.contains(&b'"'));
    }
    assert!(all >= 400 && quoted >= 200, "{} {}", all, quoted);
}

type Clause = (bool, &'static str);
type Reached = BTreeMap<String, usize>;

fn note(reached: &mut Reached, clauses: &[Clause]) {
    let held = clauses.iter().filter(|(holds, _)| *holds);
    held.for_each(|(_, clause)| *reached.entry(clause.to_string()).or_default() += 1);
}

/// Each of the clauses must be reached, three times at least.
fn expect(reached: &Reached, clauses: impl IntoIterator<Item = String>) {
    for clause in clauses {
        assert!(reached.get(&clause).map_or(false, |&times| times >= 3), "{}", clause);
    }
}

fn names(clauses: &[Clause]) -> impl Iterator<Item = String> + '_ {
    clauses.iter().map(|(_, name)| name.to_string())
}

/// Whether some bytes stand among others.
fn holds(bytes: &[u8], part: &[u8]) -> bool {
    bytes.windows(part.len()).any(|window| window == part)
}

/// What came of a file to export.
fn of_export(file: &[u8], text: &[u8], room: usize, number: u8) -> Vec<Clause> {
    let taken = number == 0;
    vec![
        (taken && room == text.len(), "exactly enough"),
        (taken && room > text.len(), "more than enough"),
        (number == 17 && room + 1 == text.len(), "one too few"),
        (number == 17 && room == 0, "none there"),
        (taken && !text.contains(&b'"'), "nothing quoted"),
        (taken && holds(text, b",\"\"\"\","), "a mark alone"),
        (taken && holds(text, b",\",\","), "a comma alone"),
        (taken && holds(text, b",\"\"\",\"\r\n"), "a mark and a comma at a line's end"),
        (taken && holds(text, b"\",\""), "two quoted fields side by side"),
        (taken && holds(text, b",,"), "an empty field"),
        (taken && !file.ends_with(b"\n"), "no last line feed"),
        (taken && text.len() > TEXT_LIMIT, "too long to import"),
        (taken && file.len() > SHEET_LIMIT && text.contains(&b'"'), "long, with quoted fields"),
    ]
}

#[test]
fn seeded_files_to_export_reach_everything() {
    let stream = Generator::new(15, "export").expect("this kind of case exists").stream(2000);
    let mut reached = Reached::new();
    for case in cases_of(&stream) {
        let (flow, room, file) = match case.expect("a good header").ask {
            Ask::Export { flow, room, file } => (flow, room, file),
            _ => unreachable!("only exports were asked for"),
        };
        let number = export(flow, file, &mut vec![0; room]).map_or_else(|why| why.number, |_| 0);
        let text = made_text(file);
        note(&mut reached, &of_export(file, &text, room, number));
        *reached.entry(format!("number {}", number)).or_default() += 1;
        if number == 0 && text.contains(&b'"') {
            *reached.entry(format!("{} with quotes", String::from_utf8_lossy(&flow[..8]))).or_default() += 1;
        }
    }
    expect(&reached, names(&of_export(b"", b"", 0, 0)));
    expect(&reached, (0..=15).chain([17, 21]).map(|number| format!("number {}", number)));
    expect(&reached, FLOWS.map(|flow| format!("{} with quotes", flow)));
}

/// What a text that is taken has.
fn of_taken(text: &[u8]) -> Vec<Clause> {
    let lines = records_of(text);
    vec![
        (text.is_empty(), "the empty text"),
        (text == b"\r\n", "CR LF alone"),
        (lines.len() == 1, "one line"),
        (lines.len() > 3, "several lines"),
        (!text.is_empty() && !text.ends_with(b"\r\n"), "no last line end"),
        (text.starts_with(b"\""), "a mark at the start"),
        (text.ends_with(b"\""), "a mark at the end"),
        (lines.contains(&&b"\r"[..]), "a blank line"),
        (lines.len() > 1 && lines.last() == Some(&&b"\r"[..]), "a blank line at the end"),
        (holds(text, b",,"), "an empty plain field"),
        (holds(text, b",\"\","), "an empty quoted field"),
        (holds(text, b",\"\"\r\n"), "an empty quoted field at a line's end"),
        (holds(text, b"\"ZHD\",\"P0"), "quotes that need not be"),
        (holds(text, b"ZHD,\"P0"), "quotes that need not be, beside a plain field"),
        (holds(text, b",\"\"\"\","), "a doubled mark"),
        (holds(text, b",\",\","), "a comma in quotes"),
        (holds(text, b"{") && holds(text, b"~"), "what no flow's text has"),
    ]
}

/// What is wrong with a line that is not such text, and with its end.
fn of_no_text(line: &[u8], behind: &[u8]) -> Vec<Clause> {
    // For each byte whether it stands in quotes; and all bytes that stand without, and within.
    let (mut in_quotes, mut seen, mut is_open) = (Vec::new(), [[false; 256]; 2], false);
    for &byte in line {
        seen[usize::from(is_open)][usize::from(byte)] = true;
        in_quotes.push(is_open);
        is_open ^= byte == b'"';
    }
    let plain = |bytes: &[u8]| bytes.iter().any(|&byte| seen[0][usize::from(byte)]);
    let quoted = |bytes: &[u8]| bytes.iter().any(|&byte| seen[1][usize::from(byte)]);
    let above: Vec<u8> = (0x80..=0xFF).collect();
    let is_printable = line.iter().all(|byte| (b' '..=b'~').contains(byte));
    let is_mark = |place: usize, quoted: bool| line[place] == b'"' && in_quotes[place] == quoted;
    let stands_free = |byte: Option<&u8>| matches!(byte, None | Some(b',' | b'"'));
    let inside = |place| is_mark(place, false) && place > 0 && !stands_free(line.get(place - 1));
    let goes_on = |place| is_mark(place, true) && !stands_free(line.get(place + 1));
    let never_closes = is_printable && is_open;
    vec![
        (plain(b"\t"), "a tab"),
        (quoted(b"\t"), "a tab in quotes"),
        (plain(b"\r"), "a lone CR"),
        (quoted(b"\r"), "a lone CR in quotes"),
        (plain(b"\n"), "a lone LF"),
        (quoted(b"\n"), "a lone LF in quotes"),
        (line.ends_with(b"\r") && behind.is_empty(), "a lone CR at the text's end"),
        (line.ends_with(b"\r") && !behind.is_empty(), "a lone CR before a line end"),
        (line.starts_with(b"\n"), "a lone LF behind a line end"),
        (plain(b"\x00\x1f"), "a control byte"),
        (quoted(b"\x00\x1f"), "a control byte in quotes"),
        (plain(b"\x7f"), "byte 127"),
        (quoted(b"\x7f"), "byte 127 in quotes"),
        (plain(&above), "a byte above"),
        (quoted(&above), "a byte above in quotes"),
        (never_closes && behind.is_empty(), "an open quote at the text's end"),
        (never_closes && behind == b"\r\n", "an open quote at the last line's end"),
        (never_closes && behind.len() > 2, "an open quote over a line end"),
        (is_printable && (0..line.len()).any(inside), "a mark inside a plain field"),
        (is_printable && (0..line.len()).any(goes_on), "more behind a closing mark"),
        (behind.contains(&b'|'), "a bar behind what is no text"),
    ]
}

/// What stands before a line that is refused, and where the bar of a 16 is.
fn of_line(before: &[u8], line: &[u8], number: u8) -> Vec<Clause> {
    let to_bar = line.split(|&byte| byte == b'|').next().unwrap_or(line);
    let is_quoted = to_bar.iter().filter(|&&byte| byte == b'"').count() % 2 == 1;
    let lines = records_of(before).len();
    vec![
        (number == 20 && before.contains(&b'|'), "a bar before what is no text"),
        (number == 20 && lines == 0, "no text in the first line"),
        (number == 20 && lines > 100, "no text in a line far down"),
        (number == 16 && lines == 0, "a bar in the first line"),
        (number == 16 && lines > 1, "a bar in a later line"),
        (number == 16 && is_quoted, "a bar in quotes"),
        (number == 16 && !is_quoted, "a bar in a plain field"),
    ]
}

/// How a case stands to the limits and to its room.
fn of_limits(text: &[u8], sheet: usize, room: usize, number: u8) -> Vec<Clause> {
    let (length, has_bar) = (text.len(), text.contains(&b'|'));
    vec![
        (number == 0 && room == sheet && sheet > 0, "exactly enough"),
        (number == 0 && room > sheet, "more than enough"),
        (number == 17 && room + 1 == sheet, "one too few"),
        (number == 17 && room == 0, "none there"),
        (number == 16 && room == 0, "a bar and no room"),
        (number == 0 && length == TEXT_LIMIT, "a text at its limit"),
        (number == 2 && length == TEXT_LIMIT + 1, "a text just over its limit"),
        (number == 2 && length > TEXT_LIMIT + 1, "a text far over its limit"),
        (number == 0 && sheet == SHEET_LIMIT, "a sheet at its limit"),
        (number == 2 && length == TEXT_LIMIT, "a sheet just over its limit"),
        (number == 2 && length == TEXT_LIMIT && has_bar, "a sheet over its limit, and a bar"),
        (number == 16 && length + 1 >= TEXT_LIMIT, "a bar in a long text"),
        (number == 20 && length + 1 >= TEXT_LIMIT, "no text in a long one"),
    ]
}

#[test]
fn seeded_texts_reach_everything() {
    let stream = Generator::new(15, "import").expect("this kind of case exists").stream(5000);
    let mut reached = Reached::new();
    for case in cases_of(&stream) {
        let (room, text) = match case.expect("a good header").ask {
            Ask::Import { room, text } => (room, text),
            _ => unreachable!("only imports were asked for"),
        };
        let refusal = import(text, &mut vec![0; room]).err();
        let sheet = imported(text).map_or(0, |Imported { sheet, .. }| sheet.len());
        note(&mut reached, &of_limits(text, sheet, room, refusal.map_or(0, |why| why.number)));
        match refusal {
            None => note(&mut reached, &of_taken(text)),
            Some(Refusal { number: number @ (16 | 20), place, .. }) => {
                let (before, from) = text.split_at(place);
                let end = from.windows(2).position(|bytes| bytes == b"\r\n").unwrap_or(from.len());
                let (line, behind) = from.split_at(end);
                note(&mut reached, &of_line(before, line, number));
                if number == 20 {
                    note(&mut reached, &of_no_text(line, behind));
                }
            }
            Some(_) => {}
        }
    }
    expect(&reached, names(&of_taken(b"")));
    expect(&reached, names(&of_no_text(b"", b"")));
    expect(&reached, names(&of_line(b"", b"", 0)));
    expect(&reached, names(&of_limits(b"", 0, 0, 0)));
}

#[test]
fn seeded_texts_go_through_all_bytes() {
    let stream = Generator::new(3, "import").expect("this kind of case exists").stream(7 * 256 * 3 / 2);
    let mut seen = [BTreeSet::new(), BTreeSet::new()];
    for bytes in stream.windows(7).filter(|bytes| bytes[1..3] == *b"AB" && bytes[4..6] == *b"CD") {
        let is_quoted = bytes[0] == b'"' && bytes[6] == b'"';
        seen[usize::from(is_quoted)].insert(bytes[3]);
    }
    assert_eq!(seen.map(|bytes| bytes.len()), [256, 256]);
}
