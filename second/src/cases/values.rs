//! Bytes of single fields: good ones, ones of bad form, ones out of range.

use super::dice::Dice;
use crate::calendar::{day_number, written_day};
use crate::field::Type;

/// The 83 text characters in their order by byte.
pub const TEXT: &[u8] =
    b" !\"%&'()*+,-./0123456789:;<=>?ABCDEFGHIJKLMNOPQRSTUVWXYZ_abcdefghijklmnopqrstuvwxyz";

/// A good filled field of the type. Widths are within their limits.
pub fn good(form: Type, dice: &mut Dice) -> Vec<u8> {
    match form {
        Type::Text(n) => text(n as usize, dice),
        Type::Int(n) => whole(n as usize, dice),
        Type::Dec(p, q) => dec(p as usize, q as usize, dice),
        Type::Date => date(dice),
        Type::DateTime => {
            let time = match dice.below(4) {
                0 => "235959".to_string(),
                1 => "000000".to_string(),
                _ => format!("{:02}{:02}{:02}", dice.below(24), dice.below(60), dice.below(60)),
            };
            [date(dice), time.into_bytes()].concat()
        }
        Type::Bol => dice.pick(&[b"T", b"F"]).to_vec(),
        Type::Period => {
            let edge = *dice.pick(&[1, 9, 10, 49, 50]);
            let any = dice.between(1, 50);
            dice.pick(&[edge, any]).to_string().into_bytes()
        }
        Type::Null => Vec::new(),
    }
}

/// A good field of all the width that its type has.
pub fn widest(form: Type, dice: &mut Dice) -> Vec<u8> {
    match form {
        Type::Text(n) => letters(n as usize, dice),
        Type::Int(n) => long_whole(n as usize, dice),
        Type::Dec(p, q) => {
            [long_whole((p - q) as usize, dice), b".".to_vec(), digits(q as usize, dice)].concat()
        }
        Type::Period => b"50".to_vec(),
        _ => good(form, dice),
    }
}

/// A field of right form and just one too wide, where the type has a width.
pub fn one_too_wide(form: Type, dice: &mut Dice) -> Vec<u8> {
    match form {
        Type::Text(n) => widest(Type::Text(n + 1), dice),
        Type::Int(n) => widest(Type::Int(n + 1), dice),
        Type::Dec(p, q) => widest(Type::Dec(p + 1, q), dice),
        Type::Period => b"51".to_vec(),
        _ => bad_range(form, dice).unwrap_or_default(),
    }
}

/// A filled field of bad form, of bytes that part neither fields nor records.
pub fn bad_form(form: Type, dice: &mut Dice) -> Vec<u8> {
    let fixed: &[&[u8]] = match form {
        Type::Text(_) => return bad_text(form, dice),
        Type::Int(_) | Type::Period => &[
            b"07",
            b"-0",
            b"00",
            b"+5",
            b" 5",
            b"5 ",
            b"-",
            b"--5",
            b"5-",
            b"1.0",
            b"1e3",
            b"0x1",
            b"-07",
            b"NULL",
            b"1,000",
            b"-00",
            b"\xef\xbc\x95",
            b"0\x00",
            b"12\r",
            b"00000000000000000000",
            b"-0000000000000000000000000000000000000000001",
            b"1234567890123456789012345678901234567890A",
        ],
        Type::Dec(_, q) => return bad_dec(q as usize, dice),
        Type::Date => &[
            b"2024229", b"202402290", b"2024-1-1", b"2024 101", b"-2024010", b"20240105120000", b"2024010A",
            b"05012024 ", b"0", b"NULL", b"2024010\r",
        ],
        Type::DateTime => &[
            b"20240105", b"2024010512000", b"202401051200000", b"20240105T12000", b"20240105 20000",
            b"2024-01-05 12:00", b"-2024010512000", b"0", b"2024010512000\x00",
        ],
        Type::Bol => &[b"t", b"f", b"TRUE", b"Y", b"N", b"0", b"1", b"TT", b"T ", b" F", b"FT", b"T\r"],
        Type::Null => &[b"NULL", b" ", b"0", b"\r", b"\x00", b"\xff"],
    };
    dice.pick(fixed).to_vec()
}

/// A filled field of right form that is out of range, where the type has a range.
pub fn bad_range(form: Type, dice: &mut Dice) -> Option<Vec<u8>> {
    let more = *dice.pick(&[1, 1, 1, 2, 9, 25, 60]);
    match form {
        Type::Text(n) => Some(letters(n as usize + more, dice)),
        Type::Int(n) => Some(long_whole(n as usize + more, dice)),
        Type::Dec(p, q) => {
            let whole = long_whole((p - q) as usize + more, dice);
            Some([whole, b".".to_vec(), digits(q as usize, dice)].concat())
        }
        Type::Date => Some(bad_date(dice)),
        Type::DateTime => {
            let times = ["240000", "006000", "000060", "236000", "235960", "990000", "009900", "000099"];
            let time = dice.pick(&times).as_bytes().to_vec();
            match dice.below(3) {
                0 => Some([bad_date(dice), b"120000".to_vec()].concat()),
                1 => Some([bad_date(dice), time].concat()),
                _ => Some([date(dice), time].concat()),
            }
        }
        Type::Period => {
            let fixed = ["0", "51", "52", "60", "99", "100", "-1", "-5", "-50", "-51", "1000", "4294967297"];
            Some(dice.pick(&fixed).as_bytes().to_vec())
        }
        Type::Bol | Type::Null => None,
    }
}

/// A text of at most n characters. Most are plain, some use all 83.
fn text(n: usize, dice: &mut Dice) -> Vec<u8> {
    let length = match dice.below(4) {
        0 => 1,
        1 => n,
        _ => dice.between(1, n.min(24)),
    };
    let mut bytes = letters(length, dice);
    if dice.one_in(4) {
        bytes.iter_mut().for_each(|byte| *byte = *dice.pick(TEXT));
        for end in [0, length - 1] {
            if bytes[end] == b' ' {
                bytes[end] = b'_';
            }
        }
    }
    bytes
}

/// Letters and digits.
pub fn letters(length: usize, dice: &mut Dice) -> Vec<u8> {
    let pool = b"ABCDEFGHIJKLMNOPQRSTUVWXYZ0123456789abcxyz";
    (0..length).map(|_| *dice.pick(pool)).collect()
}

fn bad_text(form: Type, dice: &mut Dice) -> Vec<u8> {
    let mut bytes = good(form, dice);
    match dice.below(6) {
        0 => bytes.insert(0, b' '),
        1 => bytes.push(b' '),
        2 => bytes = b" ".to_vec(),
        3 => {
            // Too long and ending in a space: form comes before range.
            bytes = bad_range(form, dice).unwrap_or_default();
            bytes.push(b' ');
        }
        _ => {
            let foreign = b"\x00\r\x1b\x7f\x80\xff\xa3{}~@#$[]\\^`";
            let place = dice.below(bytes.len());
            bytes[place] = *dice.pick(foreign);
        }
    }
    bytes
}

fn digits(length: usize, dice: &mut Dice) -> Vec<u8> {
    (0..length).map(|_| b'0' + dice.below(10) as u8).collect()
}

/// A whole number of exactly so many digits, none of them a leading zero.
fn long_whole(length: usize, dice: &mut Dice) -> Vec<u8> {
    let mut bytes = match dice.below(3) {
        0 => vec![b'9'; length],
        1 => [vec![b'1'], vec![b'0'; length - 1]].concat(),
        _ => [vec![b'1' + dice.below(9) as u8], digits(length - 1, dice)].concat(),
    };
    if dice.one_in(3) {
        bytes.insert(0, b'-');
    }
    bytes
}

fn whole(n: usize, dice: &mut Dice) -> Vec<u8> {
    match dice.below(5) {
        0 => b"0".to_vec(),
        1 => long_whole(n, dice),
        _ => {
            let length = dice.between(1, n);
            long_whole(length, dice)
        }
    }
}

fn dec(p: usize, q: usize, dice: &mut Dice) -> Vec<u8> {
    let later = match dice.below(4) {
        0 => vec![b'0'; q],
        1 => [vec![b'0'; q - 1], vec![b'1' + dice.below(9) as u8]].concat(),
        _ => digits(q, dice),
    };
    let below_zero = later.iter().any(|&digit| digit != b'0') && dice.one_in(4);
    let whole = if below_zero { b"-0".to_vec() } else { whole(p - q, dice) };
    [whole, b".".to_vec(), later].concat()
}

fn bad_dec(q: usize, dice: &mut Dice) -> Vec<u8> {
    let whole = whole(1, dice);
    let (later, zeros) = (digits(q, dice), vec![b'0'; q]);
    let parts: [&[&[u8]]; 14] = [
        &[&whole],
        &[&whole, b"."],
        &[&whole, b".", &later, b"0"],
        &[&whole, b".", &later[1..]],
        &[b".", &later],
        &[b"-.", &later],
        &[b"-0.", &zeros],
        &[b"00.", &later],
        &[b"07.", &later],
        &[&whole, b",", &later],
        &[&whole, b".", &later, b".", &later],
        &[b"+", &whole, b".", &later],
        &[&whole, b".-", &later[1..]],
        &[&whole, b".", &later, b" "],
    ];
    dice.pick(&parts).concat()
}

/// The date of a day's number, in digits.
pub fn date_of(number: i64) -> Vec<u8> {
    let (year, month, day) = written_day(number);
    format!("{:04}{:02}{:02}", year, month, day).into_bytes()
}

/// The numbers of the first and the last day that a date can name.
pub fn first_and_last_day() -> (i64, i64) {
    (day_number(1, 1, 1), day_number(9999, 12, 31))
}

/// The number of the last day of any month.
fn month_end(dice: &mut Dice) -> i64 {
    let (year, month) = (dice.between(1, 9999) as i64, dice.between(1, 12) as i64);
    day_number(year, month + 1, 1) - 1
}

fn date(dice: &mut Dice) -> Vec<u8> {
    let (first, last) = first_and_last_day();
    match dice.below(7) {
        0 => {
            let edges = ["00010101", "99991231", "20000229", "20240229", "19001231", "04000229", "20240131"];
            dice.pick(&edges).as_bytes().to_vec()
        }
        1 => date_of(first + dice.below((last - first + 1) as usize) as i64),
        2 => date_of(month_end(dice)),
        _ => date_of(day_number(2020, 1, 1) + dice.below(3000) as i64),
    }
}

/// A date that names no day: mostly the one behind a month's last.
fn bad_date(dice: &mut Dice) -> Vec<u8> {
    let fixed = [
        "19000229", "20230229", "21000229", "00000101", "00000229", "20241301", "20240001", "20240100",
        "20240132", "20240230", "00000000", "99999999", "99990229", "01000229", "00001231",
    ];
    if dice.one_in(2) {
        return dice.pick(&fixed).as_bytes().to_vec();
    }
    let (year, month, day) = written_day(month_end(dice));
    format!("{:04}{:02}{:02}", year, month, day + 1).into_bytes()
}
