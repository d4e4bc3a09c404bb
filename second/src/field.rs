//! One field's bytes against a type and its mark.

use crate::bytes::is_text;
use crate::calendar::is_day;

/// The types of document 01. Widths are as given; `is_held` says which are taken.
#[derive(Clone, Copy, Debug, PartialEq, Eq)]
pub enum Type {
    Text(u32),
    Int(u32),
    Dec(u32, u32),
    Date,
    DateTime,
    Bol,
    Period,
    Null,
}

#[derive(Clone, Debug, PartialEq, Eq)]
pub enum Mark {
    None,
    Opt,
    Fixed(Vec<u8>),
}

#[derive(Clone, Copy, Debug, PartialEq, Eq)]
pub enum Value<'a> {
    Empty,
    Number(i128),
    Truth(bool),
    Text(&'a [u8]),
}

/// The answer for one field: its value, or a refusal's number.
/// A null field is judged by 10 alone, whatever its mark.
pub fn judge_field<'a>(form: Type, mark: &Mark, bytes: &'a [u8]) -> Result<Value<'a>, u8> {
    if !form.is_held() {
        return Err(18);
    }
    match (form, bytes.is_empty()) {
        (Type::Null, true) => return Ok(Value::Empty),
        (Type::Null, false) => return Err(10),
        (_, true) if *mark == Mark::Opt => return Ok(Value::Empty),
        (_, true) => return Err(7),
        (_, false) => {}
    }
    if !form.has_form(bytes) {
        return Err(8);
    }
    if !form.has_range(bytes) {
        return Err(9);
    }
    match mark {
        Mark::Fixed(fixed) if fixed != bytes => Err(10),
        _ => Ok(form.value(bytes)),
    }
}

impl Type {
    /// A type in document 01's spelling, such as `dec(14,4)`; widths of one to nine digits.
    pub fn spelled(words: &[u8]) -> Option<Type> {
        let words = std::str::from_utf8(words).ok()?;
        let plain = [
            ("date", Type::Date),
            ("datetime", Type::DateTime),
            ("bol", Type::Bol),
            ("period", Type::Period),
            ("null", Type::Null),
        ];
        if let Some((_, form)) = plain.iter().find(|(name, _)| *name == words) {
            return Some(*form);
        }
        let (name, widths) = words.strip_suffix(')')?.split_once('(')?;
        let widths: Option<Vec<u32>> = widths.split(',').map(width).collect();
        match (name, widths?.as_slice()) {
            ("text", [n]) => Some(Type::Text(*n)),
            ("int", [n]) => Some(Type::Int(*n)),
            ("dec", [p, q]) => Some(Type::Dec(*p, *q)),
            _ => None,
        }
    }

    /// The type as document 01 spells it.
    pub fn spelling(self) -> String {
        match self {
            Type::Text(n) => format!("text({})", n),
            Type::Int(n) => format!("int({})", n),
            Type::Dec(p, q) => format!("dec({},{})", p, q),
            Type::Date => "date".to_string(),
            Type::DateTime => "datetime".to_string(),
            Type::Bol => "bol".to_string(),
            Type::Period => "period".to_string(),
            Type::Null => "null".to_string(),
        }
    }

    /// Whether the width is one that document 01 takes.
    pub fn is_held(self) -> bool {
        match self {
            Type::Text(n) => (1..=512).contains(&n),
            Type::Int(n) => (1..=18).contains(&n),
            Type::Dec(p, q) => (2..=18).contains(&p) && (1..p).contains(&q),
            _ => true,
        }
    }

    /// The Form column, for bytes that are not empty.
    fn has_form(self, bytes: &[u8]) -> bool {
        match self {
            Type::Text(_) => {
                bytes.iter().all(|&byte| is_text(byte)) && !bytes.starts_with(b" ") && !bytes.ends_with(b" ")
            }
            Type::Int(_) | Type::Period => is_printed_whole(bytes),
            Type::Dec(_, q) => is_printed_dec(bytes, q as usize),
            Type::Date => bytes.len() == 8 && are_digits(bytes),
            Type::DateTime => bytes.len() == 14 && are_digits(bytes),
            Type::Bol => bytes == b"T" || bytes == b"F",
            Type::Null => false,
        }
    }

    /// The Range column, for bytes of right form.
    fn has_range(self, bytes: &[u8]) -> bool {
        match self {
            Type::Text(n) => bytes.len() <= n as usize,
            Type::Int(n) => digits_in(bytes) <= n as usize,
            Type::Dec(p, _) => digits_in(bytes) <= p as usize,
            Type::Date => is_date(number(bytes)),
            Type::DateTime => {
                let moment = number(bytes);
                let (hours, minutes, seconds) = (moment / 10_000 % 100, moment / 100 % 100, moment % 100);
                is_date(moment / 1_000_000) && hours < 24 && minutes < 60 && seconds < 60
            }
            Type::Period => digits_in(bytes) <= 2 && (1..=50).contains(&number(bytes)),
            Type::Bol | Type::Null => true,
        }
    }

    /// The value of bytes of right form and range. A dec counts units of its last place.
    fn value(self, bytes: &[u8]) -> Value<'_> {
        match self {
            Type::Text(_) => Value::Text(bytes),
            Type::Bol => Value::Truth(bytes == b"T"),
            Type::Null => Value::Empty,
            _ => Value::Number(number(bytes)),
        }
    }
}

fn width(digits: &str) -> Option<u32> {
    if are_digits(digits.as_bytes()) && (1..=9).contains(&digits.len()) {
        digits.parse().ok()
    } else {
        None
    }
}

fn are_digits(bytes: &[u8]) -> bool {
    bytes.iter().all(u8::is_ascii_digit)
}

fn digits_in(bytes: &[u8]) -> usize {
    bytes.iter().filter(|byte| byte.is_ascii_digit()).count()
}

/// The number that the digits spell, a point passed over, below 0 after a minus.
fn number(bytes: &[u8]) -> i128 {
    let size = bytes
        .iter()
        .filter(|byte| byte.is_ascii_digit())
        .fold(0, |sum: i128, digit| sum * 10 + i128::from(digit - b'0'));
    if bytes.starts_with(b"-") {
        -size
    } else {
        size
    }
}

/// Whether a whole number stands here as it is printed, so without a leading zero or `-0`.
/// Both show in the first bytes, and 38 of them fit an i128.
fn is_printed_whole(bytes: &[u8]) -> bool {
    let digits = bytes.strip_prefix(b"-").unwrap_or(bytes);
    let first = &bytes[..bytes.len().min(38)];
    !digits.is_empty() && are_digits(digits) && number(first).to_string().as_bytes() == first
}

/// Whether a dec with q later digits stands here: `-0` needs one of them that is not 0.
fn is_printed_dec(bytes: &[u8], q: usize) -> bool {
    let parts: Vec<&[u8]> = bytes.split(|&byte| byte == b'.').collect();
    match parts.as_slice() {
        [whole, later] => {
            let below_zero = *whole == b"-0" && later.iter().any(|&digit| digit != b'0');
            later.len() == q && are_digits(later) && (below_zero || is_printed_whole(whole))
        }
        _ => false,
    }
}

fn is_date(digits: i128) -> bool {
    let date = digits as i64;
    is_day(date / 10_000, date / 100 % 100, date % 100)
}
