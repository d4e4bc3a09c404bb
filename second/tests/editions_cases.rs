//! Editions (document 02's C-16) on seeded cases: what their words ask for, by a third route; what every
//! part is sent under each edition; and that none accepts a file with a subject under both.

mod common;
use common::FLOWS;
use second::answer::answer;
use second::bytes::{kind_of, records_of, BAR, LINE_FEED, TAB};
use second::cases::dice::Dice;
use second::cases::editions::draft_and_words;
use second::cases::Generator;
use second::judge::{judge, FILE_LIMIT};
use second::sheet::SHEET_LIMIT;
use second::stream::{cases_of, Ask};
use std::collections::BTreeSet;

/// A case that asks for a flow: its words, the bytes it gives, what parts their fields, how long they
/// may be, and the answer.
struct Asked<'a> {
    words: &'a [u8],
    bytes: &'a [u8],
    parting: u8,
    limit: usize,
    answer: Vec<u8>,
}

impl<'a> Asked<'a> {
    fn new(ask: &Ask<'a>) -> Asked<'a> {
        let (words, bytes, parting, limit) = match *ask {
            Ask::Judge { flow, file }
            | Ask::Value { flow, file, .. }
            | Ask::Read { flow, file, .. }
            | Ask::Index { flow, file, .. }
            | Ask::Export { flow, file, .. }
            | Ask::Period { flow, file, .. } => (flow, file, BAR, FILE_LIMIT),
            Ask::Write { flow, sheet, .. } => (flow, sheet, TAB, SHEET_LIMIT),
            Ask::Step { flow, kinds } => (flow, kinds, BAR, usize::MAX),
            _ => unreachable!("this asks for no flow"),
        };
        Asked { words, bytes, parting, limit, answer: answer(ask) }
    }

    /// A word of the answer's line.
    fn word(&self, place: usize) -> &str {
        let line = self.answer.split(|&byte| byte == LINE_FEED).next().unwrap_or(b"");
        let word = line.split(|&byte| byte == TAB).nth(place).unwrap_or(b"");
        std::str::from_utf8(word).unwrap_or("no text")
    }

    /// A number of the answer's line: the second is a refusal's, the third its record, the fourth its field.
    fn number(&self, place: usize) -> usize {
        self.word(place).parse().expect("a number")
    }

    fn is_taken(&self) -> bool {
        self.word(0) == "ok"
    }

    /// The fields of a record, counted from 1; none where it does not exist.
    fn fields(&self, record: usize) -> Vec<&[u8]> {
        let found = records_of(self.bytes).get(record.wrapping_sub(1)).copied();
        found.map_or(Vec::new(), |record| record.split(|&byte| byte == self.parting).collect())
    }
}

/// How words are spelled, and the number that they are refused with, if they are.
fn spelling(words: &[u8]) -> (String, usize) {
    let name = words.get(..8).and_then(|name| FLOWS.into_iter().find(|flow| flow.as_bytes() == name));
    let behind = words.get(8..).unwrap_or(b"");
    let (clause, number) = match (name, behind) {
        (Some(name), b"") => return (name.to_string(), 0),
        (Some(name), b" 533") => return (format!("{} 533", name), 0),
        (Some(name), b" 711") => return (format!("{} 711", name), 0),
        (Some(_), b" ") => ("nothing behind the space", 21),
        (Some(_), b"  533" | b"  711") => ("two spaces", 21),
        (Some(_), b" 0533" | b" 0711") => ("a leading zero", 21),
        (Some(_), b" 533 " | b" 711 ") => ("a space behind the edition", 21),
        (Some(_), b" 533\r" | b" 711\r") => ("a carriage return behind the edition", 21),
        (Some(_), b" 5" | b" 7" | b" 53" | b" 71") => ("an edition cut short", 21),
        (Some(_), b" 5333" | b" 7111") => ("an edition too long", 21),
        (Some(_), b" 533 533" | b" 533 711" | b" 711 533" | b" 711 711") => ("two editions", 21),
        (Some(_), [b' ', b'0'..=b'9', b'0'..=b'9', b'0'..=b'9']) => ("another number", 21),
        (Some(_), [b' ', ..]) => ("something else for an edition", 21),
        (Some(_), b"533" | b"711") => ("no space before the edition", 1),
        (Some(_), _) => ("something else behind the name", 1),
        (None, b" 533" | b" 711") => ("another name, an edition", 1),
        (None, [b' ', ..]) => ("another name, something else for an edition", 1),
        (None, b"") if words.len() == 8 => ("another name", 1),
        (None, b"") => ("fewer characters", 1),
        (None, _) => ("more characters", 1),
    };
    (clause.to_string(), number)
}

/// Every spelling there is to try.
fn all_spellings() -> Vec<String> {
    let odd = [
        "nothing behind the space",
        "two spaces",
        "a leading zero",
        "a space behind the edition",
        "a carriage return behind the edition",
        "an edition cut short",
        "an edition too long",
        "two editions",
        "another number",
        "something else for an edition",
        "no space before the edition",
        "something else behind the name",
        "another name, an edition",
        "another name, something else for an edition",
        "another name",
        "fewer characters",
        "more characters",
    ];
    let right =
        FLOWS.iter().flat_map(|flow| ["", " 533", " 711"].map(|edition| format!("{}{}", flow, edition)));
    right.chain(odd.map(String::from)).collect()
}

/// The words of P0133001: the first two mean the older edition.
const WORDS: [&str; 3] = ["P0133001", "P0133001 533", "P0133001 711"];

/// Which subject headers stand among these records, by their number of fields.
fn subjects(case: &Asked) -> &'static str {
    let records = records_of(case.bytes);
    let fields = |record: &&[u8]| record.split(|&byte| byte == case.parting).count();
    let counts: BTreeSet<usize> =
        records.iter().filter(|record| record.starts_with(b"SB1")).map(fields).collect();
    let is_alone = records.iter().all(|record| record.starts_with(b"ZHD") || record.starts_with(b"ZPT"));
    match counts.into_iter().collect::<Vec<_>>().as_slice() {
        [] if is_alone => "alone",
        [6] => "with older subjects",
        [5] => "with newer subjects",
        [5, 6] => "with both",
        _ => "otherwise",
    }
}

/// What a case comes to, in words.
fn clauses(case: &Asked) -> Vec<String> {
    let (spelled, _) = spelling(case.words);
    let mut clauses = vec![spelled.clone()];
    let refused = if case.is_taken() { 0 } else { case.number(1) };
    if refused == 21 {
        let is_unended = !case.bytes.is_empty() && !case.bytes.ends_with(&[LINE_FEED]);
        let before = [
            (case.bytes.len() > case.limit, "21 over the limit"),
            (case.bytes.contains(&BAR), "21 and a bar"),
            (is_unended, "21 and a last line that is not ended"),
        ];
        clauses.extend(before.iter().filter(|(holds, _)| *holds).map(|(_, clause)| clause.to_string()));
    }
    if WORDS.contains(&spelled.as_str()) {
        clauses.push(format!("{} {}: {}", spelled, subjects(case), refused));
        clauses.push(format!("{} refused with {}", spelled, refused));
    }
    if spelled == WORDS[2]
        && (7..=10).contains(&refused)
        && case.fields(case.number(2)).first() == Some(&&b"SB1"[..])
    {
        clauses.push(format!("a newer subject's field {} refused with {}", case.number(3), refused));
    }
    if spelled == WORDS[2] && case.is_taken() && case.bytes.len() > 1_040_000 {
        clauses.push("a long file of the newer edition".to_string());
    }
    clauses
}

/// What every part that is given a file or a sheet must meet.
fn in_files() -> Vec<String> {
    let mut wanted = all_spellings();
    wanted.push("21 over the limit".to_string());
    for words in WORDS {
        let (own, other) = match words {
            "P0133001 711" => ("newer", "older"),
            _ => ("older", "newer"),
        };
        wanted.push(format!("{} alone: 0", words));
        wanted.push(format!("{} with {} subjects: 0", words, own));
        wanted.push(format!("{} with {} subjects: 6", words, other));
        wanted.push(format!("{} with both: 6", words));
    }
    wanted
}

/// All that is wrong with a file of the newer edition and with the fields of its subject headers: the
/// sweep has it, where it runs long enough.
fn in_newer_files() -> Vec<String> {
    let numbers =
        [3, 4, 5, 6, 7, 8, 9, 10, 12, 13].map(|number| format!("{} refused with {}", WORDS[2], number));
    let of_field = |field, number| format!("a newer subject's field {} refused with {}", field, number);
    let fields = (2..=5).flat_map(|field| [7, 8, 9].map(|number| of_field(field, number)));
    let fixed = [2, 5].map(|field| of_field(field, 10));
    numbers.into_iter().chain(fields).chain(fixed).collect()
}

/// Goes through cases of one kind: words alone must bring 1 and 21, and each of the clauses must be reached.
fn hold(kind: &str, count: u64, wanted: &[String], more: impl Fn(&Ask, &Asked) -> Vec<String>) {
    let stream = Generator::new(16, kind).expect("this kind of case exists").stream(count);
    let mut reached = BTreeSet::new();
    for case in cases_of(&stream) {
        let ask = case.expect("a good header").ask;
        let case = Asked::new(&ask);
        let by_words = if [1, 21].contains(&case.number(1)) { case.number(1) } else { 0 };
        assert_eq!(by_words, spelling(case.words).1, "{} {}", kind, case.words.escape_ascii());
        reached.extend(clauses(&case).into_iter().chain(more(&ask, &case)));
    }
    for clause in wanted {
        assert!(reached.contains(clause), "{}: {}", kind, clause);
    }
}

fn nothing_more(_: &Ask, _: &Asked) -> Vec<String> {
    Vec::new()
}

#[test]
fn editions_of_files_that_are_judged() {
    hold("judge", 4500, &[in_files(), in_newer_files()].concat(), nothing_more);
}

#[test]
fn editions_of_files_asked_for_a_value() {
    let asked_for = |ask: &Ask, case: &Asked| match *ask {
        Ask::Value { record, field, .. } if case.words == b"P0133001 711" => {
            let is_subject = case.fields(record).first() == Some(&&b"SB1"[..]);
            let of_subject = format!("a newer subject's field {} asked for: {}", field, case.word(1));
            is_subject.then_some(of_subject).into_iter().collect()
        }
        _ => Vec::new(),
    };
    let of_field = |(field, number)| format!("a newer subject's field {} asked for: {}", field, number);
    let fields = [(0, 18), (1, 0), (2, 0), (3, 0), (4, 0), (5, 0), (6, 18)];
    let wanted = [in_files(), in_newer_files(), fields.map(of_field).to_vec()].concat();
    hold("value", 4000, &wanted, asked_for);
}

#[test]
fn editions_of_sheets() {
    let before = ["21 and a bar", "21 and a last line that is not ended"].map(String::from);
    hold("write", 4500, &[in_files(), in_newer_files(), before.to_vec()].concat(), nothing_more);
}

#[test]
fn editions_of_files_that_are_read() {
    let long = vec!["a long file of the newer edition".to_string()];
    hold("read", 2000, &[in_files(), long].concat(), nothing_more);
}

#[test]
fn editions_of_files_to_index() {
    let entries = |_: &Ask, case: &Asked| match case.is_taken() && case.words == b"P0133001 711" {
        true => {
            vec![format!("{} entries of the newer edition", ["no", "one", "several"][case.number(3).min(2)])]
        }
        false => Vec::new(),
    };
    let wanted = ["no", "one", "several"].map(|entries| format!("{} entries of the newer edition", entries));
    hold("index", 2500, &[in_files(), wanted.to_vec()].concat(), entries);
}

#[test]
fn editions_of_files_to_export() {
    let quotes = |_: &Ask, case: &Asked| match case.is_taken() && case.words == b"P0133001 711" {
        true if case.answer.contains(&b'"') => vec!["a quoted field of the newer edition".to_string()],
        _ => Vec::new(),
    };
    let quoted = vec!["a quoted field of the newer edition".to_string()];
    hold("export", 2400, &[in_files(), quoted].concat(), quotes);
}

#[test]
fn editions_of_files_asked_for_a_period() {
    let long = vec!["21 over the limit".to_string()];
    hold("period", 4000, &[all_spellings(), long].concat(), nothing_more);
}

#[test]
fn editions_of_steps() {
    let stepped = |_: &Ask, case: &Asked| {
        let last = case.bytes.chunks(3).last().unwrap_or(b"").escape_ascii();
        match case.word(0) {
            "stopped" => vec![format!("{} stopped", case.words.escape_ascii())],
            "ok" => vec![format!("{} {} behind {}", case.words.escape_ascii(), case.word(2), last)],
            _ => Vec::new(),
        }
    };
    let states = [
        "stopped", "open behind ", "open behind ZHD", "open behind SB1", "open behind CM1",
        "complete behind ZPT",
    ];
    let states = states.iter().flat_map(|state| WORDS.map(|words| format!("{} {}", words, state)));
    hold("step", 3000, &all_spellings().into_iter().chain(states).collect::<Vec<_>>(), stepped);
}

#[test]
fn no_seeded_file_with_a_subject_is_accepted_under_both() {
    let mut accepted = [0; 3];
    for turn in 0..6000 {
        let file = draft_and_words(&mut Dice::new(16, turn)).0.file();
        let has_subject = records_of(&file).iter().any(|record| kind_of(record) == b"SB1");
        match [WORDS[1], WORDS[2]].map(|words| judge(words.as_bytes(), &file).is_ok()) {
            [true, true] => {
                assert!(!has_subject, "{}", file.escape_ascii());
                accepted[0] += 1;
            }
            [true, false] => accepted[1] += 1,
            [false, true] => accepted[2] += 1,
            [false, false] => {}
        }
    }
    assert!(accepted.iter().all(|&count| count > 500), "{:?}", accepted);
}
