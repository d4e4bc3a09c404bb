//! The stream of cases: a header line of words parted by tabs, then a body.

use crate::bytes::{LINE_FEED, TAB};
use crate::field::{Mark, Type};

/// The greatest LENGTH, FIXED and ROOM, so that files over the limit can be tried.
pub const LENGTH_LIMIT: usize = 1_114_112;
/// The greatest RECORD, FIELD and PERIOD that can be asked.
pub const ASKED_LIMIT: usize = 1_000_000_000;
/// The greatest ROOM of an index, in entries.
pub const ENTRIES_LIMIT: usize = 8192;

/// The kinds of case, by the first word of their header.
pub const CASE_KINDS: [&str; 11] =
    ["judge", "value", "field", "sum", "step", "write", "read", "index", "export", "import", "period"];

/// What a case asks, with its body's bytes. A flow is given by its words, whatever these are.
#[derive(Debug)]
pub enum Ask<'a> {
    Judge { flow: &'a [u8], file: &'a [u8] },
    Value { flow: &'a [u8], record: usize, field: usize, file: &'a [u8] },
    Field { form: Type, mark: Mark, bytes: &'a [u8] },
    Sum { bytes: &'a [u8] },
    Step { flow: &'a [u8], kinds: &'a [u8] },
    Write { flow: &'a [u8], room: usize, sheet: &'a [u8] },
    Read { flow: &'a [u8], room: usize, file: &'a [u8] },
    Index { flow: &'a [u8], room: usize, file: &'a [u8] },
    Export { flow: &'a [u8], room: usize, file: &'a [u8] },
    Import { room: usize, text: &'a [u8] },
    Period { flow: &'a [u8], period: usize, file: &'a [u8] },
}

impl Ask<'_> {
    /// The place of this kind of case in `CASE_KINDS`.
    pub fn kind(&self) -> usize {
        match self {
            Ask::Judge { .. } => 0,
            Ask::Value { .. } => 1,
            Ask::Field { .. } => 2,
            Ask::Sum { .. } => 3,
            Ask::Step { .. } => 4,
            Ask::Write { .. } => 5,
            Ask::Read { .. } => 6,
            Ask::Index { .. } => 7,
            Ask::Export { .. } => 8,
            Ask::Import { .. } => 9,
            Ask::Period { .. } => 10,
        }
    }
}

/// One case: what it asks, and the bytes it stands in, so that it can be run again.
pub struct Case<'a> {
    pub ask: Ask<'a>,
    pub bytes: &'a [u8],
}

/// A header that can't be read, or whose body is not all there. It ends the stream.
#[derive(Debug, PartialEq, Eq)]
pub struct BadHeader;

/// The cases of a stream in turn; nothing comes behind a bad header.
pub struct Cases<'a> {
    rest: &'a [u8],
}

pub fn cases_of(stream: &[u8]) -> Cases<'_> {
    Cases { rest: stream }
}

impl<'a> Iterator for Cases<'a> {
    type Item = Result<Case<'a>, BadHeader>;

    fn next(&mut self) -> Option<Self::Item> {
        if self.rest.is_empty() {
            return None;
        }
        let stream = self.rest;
        self.rest = &[];
        Some(match first_case(stream) {
            Some((ask, length)) => {
                let (bytes, rest) = stream.split_at(length);
                self.rest = rest;
                Ok(Case { ask, bytes })
            }
            None => Err(BadHeader),
        })
    }
}

/// The first case of a stream, and how many bytes it takes.
fn first_case(stream: &[u8]) -> Option<(Ask<'_>, usize)> {
    let end = stream.iter().position(|&byte| byte == LINE_FEED)?;
    let (header, behind) = (&stream[..end], &stream[end + 1..]);
    let words: Vec<&[u8]> = header.split(|&byte| byte == TAB).collect();
    let length = number(words.last()?, LENGTH_LIMIT)?;
    let fixed = match words.as_slice() {
        [b"field", _, _, fixed, _] => number(fixed, LENGTH_LIMIT)?,
        _ => 0,
    };
    let body = behind.get(..fixed + length)?;
    let ask = match words.as_slice() {
        [b"judge", flow, _] => Ask::Judge { flow, file: body },
        [b"value", flow, record, field, _] => Ask::Value {
            flow,
            record: number(record, ASKED_LIMIT)?,
            field: number(field, ASKED_LIMIT)?,
            file: body,
        },
        [b"field", form, mark, _, _] => Ask::Field {
            form: Type::spelled(form)?,
            mark: mark_of(mark, &body[..fixed])?,
            bytes: &body[fixed..],
        },
        [b"sum", _] => Ask::Sum { bytes: body },
        [b"step", flow, _] => Ask::Step { flow, kinds: body },
        [b"write", flow, room, _] => Ask::Write { flow, room: number(room, LENGTH_LIMIT)?, sheet: body },
        [b"read", flow, room, _] => Ask::Read { flow, room: number(room, LENGTH_LIMIT)?, file: body },
        [b"index", flow, room, _] => Ask::Index { flow, room: number(room, ENTRIES_LIMIT)?, file: body },
        [b"export", flow, room, _] => Ask::Export { flow, room: number(room, LENGTH_LIMIT)?, file: body },
        [b"import", room, _] => Ask::Import { room: number(room, LENGTH_LIMIT)?, text: body },
        [b"period", flow, period, _] => {
            Ask::Period { flow, period: number(period, ASKED_LIMIT)?, file: body }
        }
        _ => return None,
    };
    Some((ask, end + 1 + fixed + length))
}

/// A number of one to ten digits, at most the limit.
fn number(word: &[u8], limit: usize) -> Option<usize> {
    if !(1..=10).contains(&word.len()) || !word.iter().all(u8::is_ascii_digit) {
        return None;
    }
    let number: u64 = std::str::from_utf8(word).ok()?.parse().ok()?;
    usize::try_from(number).ok().filter(|&number| number <= limit)
}

/// A mark by its word. Bytes of a fixed value count only with `=`.
fn mark_of(word: &[u8], fixed: &[u8]) -> Option<Mark> {
    match word {
        b"-" => Some(Mark::None),
        b"opt" => Some(Mark::Opt),
        b"=" => Some(Mark::Fixed(fixed.to_vec())),
        _ => None,
    }
}
