//! Another program's answers to a stream, compared with this one's.

use crate::answer::{answer, BAD_HEADER};
use crate::stream::{cases_of, Ask};

/// How many differences are shown and kept.
const SHOWN: usize = 5;

/// What a comparison found.
#[derive(Default)]
pub struct Compared {
    pub cases: usize,
    pub differences: usize,
    /// The first differences in words.
    pub report: String,
    /// The cases they stand in, as a stream that can be run again.
    pub kept: Vec<u8>,
}

pub fn compare(stream: &[u8], answers: &[u8]) -> Compared {
    let mut found = Compared::default();
    let mut theirs = answers;
    for case in cases_of(stream) {
        match case {
            Ok(case) => {
                found.cases += 1;
                let other = take_answer(&mut theirs, &case.ask);
                found.note(case.bytes, &answer(&case.ask), other);
            }
            Err(_) => found.note(b"", BAD_HEADER, take_line(&mut theirs)),
        }
    }
    if !theirs.is_empty() {
        found.note(b"", b"", theirs);
    }
    found
}

impl Compared {
    /// Counts a difference, and shows and keeps the first few.
    fn note(&mut self, case: &[u8], ours: &[u8], theirs: &[u8]) {
        if ours == theirs {
            return;
        }
        self.differences += 1;
        if self.differences > SHOWN {
            return;
        }
        let header = take_line(&mut &case[..]);
        self.report += &match case.is_empty() {
            true => format!("behind case {}\n", self.cases),
            false => format!("case {}: {}\n", self.cases, shown(header)),
        };
        self.report += &format!("  second: {}\n  other:  {}\n", shown(ours), shown(theirs));
        if let Some(place) = ours.iter().zip(theirs).position(|(our, their)| our != their) {
            self.report += &format!("  first other byte at {}\n", place);
        }
        self.kept.extend(case);
    }
}

/// One answer: a line, and behind it, if accepted, the stated bytes and a line feed, or behind an
/// index the stated lines.
fn take_answer<'a>(answers: &mut &'a [u8], ask: &Ask) -> &'a [u8] {
    let all = *answers;
    let line = take_line(answers);
    match (ask, stated(line)) {
        (Ask::Write { .. } | Ask::Read { .. } | Ask::Export { .. } | Ask::Import { .. }, Some(bytes)) => {
            *answers = &answers[bytes.saturating_add(1).min(answers.len())..];
        }
        (Ask::Index { .. }, Some(entries)) => {
            // The number is another program's: no more lines are taken than there are.
            for _ in 0..entries.min(answers.len()) {
                take_line(answers);
            }
        }
        _ => {}
    }
    &all[..all.len() - answers.len()]
}

/// How much an accepted line states to come behind it: its fourth word.
fn stated(line: &[u8]) -> Option<usize> {
    let words = line.strip_prefix(b"ok\t")?;
    std::str::from_utf8(words.split(|&byte| byte == b'\t').nth(2)?).ok()?.parse().ok()
}

/// A line with its line feed, or what is left where there is none.
fn take_line<'a>(bytes: &mut &'a [u8]) -> &'a [u8] {
    let end = bytes.iter().position(|&byte| byte == b'\n').map_or(bytes.len(), |end| end + 1);
    let (line, rest) = bytes.split_at(end);
    *bytes = rest;
    line
}

/// The first bytes of an answer or header, safe to print.
fn shown(bytes: &[u8]) -> String {
    let first = &bytes[..bytes.len().min(160)];
    let dots = if first.len() < bytes.len() { " ..." } else { "" };
    let words: String =
        first.iter().flat_map(|&byte| std::ascii::escape_default(byte)).map(char::from).collect();
    format!("`{}`{}", words, dots)
}
