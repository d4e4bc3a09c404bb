//! Places (document 02's C-12) on seeded cases: each is held by counting the partings before it, and
//! the cases reach every clause.

use second::bytes::{records_of, BAR, LINE_FEED, TAB};
use second::cases::Generator;
use second::csv::{export, import, COMMA};
use second::index::{index, Entry};
use second::judge::{judge, value};
use second::period::has_period;
use second::refusal::Refusal;
use second::sheet::{read, write};
use second::stream::{cases_of, Ask};
use std::collections::BTreeMap;

/// A refused case: the bytes pointed into, what parts their fields, and the refusal.
struct Refused<'a> {
    bytes: &'a [u8],
    parting: u8,
    refusal: Refusal,
}

const BLANK: Entry = Entry { record: 0, place: 0, parent: 0, children: 0 };

/// The refusal of a case with a file, a sheet or a text, if it has one.
fn refused<'a>(ask: &Ask<'a>) -> Option<Refused<'a>> {
    let (bytes, parting, refusal) = match *ask {
        Ask::Judge { flow, file } => (file, BAR, judge(flow, file).err()),
        Ask::Value { flow, record, field, file } => (file, BAR, value(flow, file, record, field).err()),
        Ask::Read { flow, room, file } => (file, BAR, read(flow, file, &mut vec![0; room]).err()),
        Ask::Index { flow, room, file } => (file, BAR, index(flow, file, &mut vec![BLANK; room]).err()),
        Ask::Export { flow, room, file } => (file, BAR, export(flow, file, &mut vec![0; room]).err()),
        Ask::Import { room, text } => (text, COMMA, import(text, &mut vec![0; room]).err()),
        Ask::Write { flow, room, sheet } => (sheet, TAB, write(flow, sheet, &mut vec![0; room]).err()),
        Ask::Period { flow, period, file } => (file, BAR, has_period(flow, file, period).err()),
        _ => return None,
    };
    Some(Refused { bytes, parting, refusal: refusal? })
}

/// The record and field that start at a place, by the partings before it.
fn start_at(bytes: &[u8], parting: u8, place: usize) -> Option<(usize, usize)> {
    let mut lines: Vec<&[u8]> = bytes[..place].split(|&byte| byte == LINE_FEED).collect();
    let record = lines.len();
    let fields: Vec<&[u8]> = lines.pop()?.split(|&byte| byte == parting).collect();
    fields.last()?.is_empty().then_some((record, fields.len()))
}

/// Whether the place is the one that the papers give to these numbers.
fn is_right(case: &Refused) -> bool {
    let Refusal { number, record, field, place } = case.refusal;
    let is_start = |field: usize| start_at(case.bytes, case.parting, place) == Some((record, field));
    match number {
        _ if record == 0 => place == 0,
        14 => place == case.bytes.len(),
        18 if record > records_of(case.bytes).len() => place == case.bytes.len(),
        18 => is_start(1),
        _ => is_start(field.max(1)),
    }
}

/// The clauses that a refusal stands for.
fn clauses(case: &Refused) -> Vec<&'static str> {
    let Refusal { number, record, field, place } = case.refusal;
    let records = records_of(case.bytes).len();
    let is_ended = case.bytes.ends_with(&[LINE_FEED]);
    let is_later = (2..=records).contains(&record);
    let all = [
        (number < 14 && field > 4, "a field deep in its record"),
        (number < 14 && field == 0 && is_later, "a whole record"),
        (number == 7, "a field of no bytes"),
        (number < 14 && record > 100, "a record far down"),
        (number < 14 && place > 65_535, "a place over 65,535"),
        (number < 14 && field > 1 && record == records && !is_ended, "a field of an unended record"),
        (number == 14 && record > 1 && is_ended, "no footer behind a line feed"),
        (number == 14 && record > 1 && !is_ended, "no footer behind an unended record"),
        (number == 15 && is_later, "no last line feed"),
        (number == 16 && is_later, "a bar in a later line"),
        (number == 20 && is_later, "a later line that is not such text"),
        (number == 20 && record > 100, "such a line far down"),
        (number < 14 && record > records, "the made footer"),
        (record == 0 && number == 18, "record 0 asked for"),
        (record == 0 && number != 18, "the whole"),
        (number == 18 && record > records && is_ended, "a record past the end"),
        (number == 18 && record > records && !is_ended, "a record past an unended one"),
        (number == 18 && is_later && field == 0, "field 0 of a record"),
        (number == 18 && is_later && field > 0, "a field past its record's end"),
        (number == 18 && record == records && !is_ended, "a field that an unended record has not"),
    ];
    all.iter().filter(|(holds, _)| *holds).map(|(_, clause)| *clause).collect()
}

/// What every part that is given a file can point at.
const IN_FILES: [&str; 9] = [
    "the whole",
    "a field deep in its record",
    "a field of no bytes",
    "a field of an unended record",
    "a whole record",
    "a record far down",
    "no footer behind a line feed",
    "no footer behind an unended record",
    "no last line feed",
];

/// Goes through cases of one kind: each place must be right, and each clause reached, three times at least.
fn hold(kind: &str, count: u64, wanted: &[&str]) {
    let stream = Generator::new(12, kind).expect("this kind of case exists").stream(count);
    let mut reached: BTreeMap<&str, usize> = BTreeMap::new();
    for case in cases_of(&stream) {
        if let Some(case) = refused(&case.expect("a good header").ask) {
            assert!(is_right(&case), "{} {:?}", kind, case.refusal);
            clauses(&case).into_iter().for_each(|clause| *reached.entry(clause).or_default() += 1);
        }
    }
    for clause in wanted {
        assert!(reached.get(clause).map_or(false, |&times| times >= 3), "{}: {}", kind, clause);
    }
}

#[test]
fn places_in_files_that_are_judged() {
    hold("judge", 4000, &[&IN_FILES[..], &["a place over 65,535"]].concat());
}

#[test]
fn places_in_files_that_are_read() {
    hold("read", 1500, &IN_FILES);
}

#[test]
fn places_in_files_to_index() {
    hold("index", 2200, &IN_FILES);
}

#[test]
fn places_in_files_to_export() {
    hold("export", 1200, &IN_FILES);
}

#[test]
fn places_in_texts() {
    let in_texts =
        ["the whole", "a bar in a later line", "a later line that is not such text", "such a line far down"];
    hold("import", 3000, &in_texts);
}

#[test]
fn places_in_files_asked_for_a_value() {
    let asked = [
        "record 0 asked for",
        "a record past the end",
        "a record past an unended one",
        "field 0 of a record",
        "a field past its record's end",
        "a field that an unended record has not",
    ];
    hold("value", 3000, &[&IN_FILES[..], &asked].concat());
}

#[test]
fn places_in_files_asked_for_a_period() {
    // Such a file has 54 right records at most, so that none far down is refused.
    let near: Vec<&str> = IN_FILES.into_iter().filter(|clause| *clause != "a record far down").collect();
    hold("period", 2500, &near);
}

#[test]
fn places_in_sheets() {
    let in_sheets = [
        "the whole",
        "a field deep in its record",
        "a field of no bytes",
        "a whole record",
        "a record far down",
        "no last line feed",
        "a bar in a later line",
        "the made footer",
    ];
    hold("write", 3000, &in_sheets);
}
