//! Keys: values that are in order behind a given one, and values that are not.

use super::dice::Dice;
use super::values::{date_of, first_and_last_day, good, letters, TEXT};
use crate::calendar::day_number;
use crate::field::Type;
use crate::flows::Key;

/// One in so many keys is equal to the one before, where that is allowed.
const EQUAL: usize = 3;

/// A good value in its order behind the one before: above it, or now and then equal to it
/// where that is allowed. None where one above is wanted and there is none.
pub fn key_in_order(form: Type, key: Key, before: Option<&[u8]>, dice: &mut Dice) -> Option<Vec<u8>> {
    match before {
        None => Some(first_key(form, dice)),
        Some(before) if key.equal_allowed && dice.one_in(EQUAL) => Some(before.to_vec()),
        Some(before) => key_above(form, before, dice),
    }
}

/// A good value out of its order behind the one before, if there is any: below it, or equal
/// to it where that is not allowed.
pub fn key_out_of_order(form: Type, key: Key, before: &[u8], dice: &mut Dice) -> Option<Vec<u8>> {
    if key.equal_allowed {
        key_below(form, before, dice)
    } else if dice.one_in(2) {
        Some(before.to_vec())
    } else {
        key_below(form, before, dice).or_else(|| Some(before.to_vec()))
    }
}

/// A good value above the one before, if there is any.
fn key_above(form: Type, before: &[u8], dice: &mut Dice) -> Option<Vec<u8>> {
    match form {
        Type::Period => {
            let next = period(before) + *dice.pick(&[1, 1, 1, 2, 5]);
            if next <= 50 {
                Some(next.to_string().into_bytes())
            } else {
                None
            }
        }
        Type::Date => {
            let next = day(before) + *dice.pick(&[1, 1, 1, 7, 31, 400]);
            if next <= first_and_last_day().1 {
                Some(date_of(next))
            } else {
                None
            }
        }
        Type::Text(n) => text_above(before, n as usize, dice),
        _ => None,
    }
}

/// A good value below the one before, if the dice find one.
fn key_below(form: Type, before: &[u8], dice: &mut Dice) -> Option<Vec<u8>> {
    match form {
        Type::Period => {
            let most = period(before) - 1;
            if most >= 1 {
                Some(dice.between(1, most).to_string().into_bytes())
            } else {
                None
            }
        }
        Type::Date => {
            let first = first_and_last_day().0;
            let back = *dice.pick(&[1, 30, 400, 4000]);
            if day(before) > first {
                Some(date_of((day(before) - back).max(first)))
            } else {
                None
            }
        }
        _ => text_below(before, dice),
    }
}

/// A first key leaves room above it more often than not.
fn first_key(form: Type, dice: &mut Dice) -> Vec<u8> {
    match form {
        Type::Period if dice.one_in(2) => b"1".to_vec(),
        Type::Text(_) if dice.one_in(2) => letters(1, dice),
        _ => good(form, dice),
    }
}

/// The number of a period, or of a date, that is written right.
pub fn period(bytes: &[u8]) -> usize {
    bytes.iter().fold(0, |sum, digit| sum * 10 + usize::from(digit - b'0'))
}

fn day(bytes: &[u8]) -> i64 {
    let date = period(bytes) as i64;
    day_number(date / 10_000, date / 100 % 100, date % 100)
}

/// The characters below and above one, the space left out: it can't stand at a text's end.
fn below_and_above(byte: u8) -> (&'static [u8], &'static [u8]) {
    let others = &TEXT[1..];
    let below = others.iter().filter(|&&other| other < byte).count();
    let above = others.iter().filter(|&&other| other > byte).count();
    (&others[..below], &others[others.len() - above..])
}

/// Continues the text, or raises one of its characters, mostly a late one.
fn text_above(before: &[u8], n: usize, dice: &mut Dice) -> Option<Vec<u8>> {
    let room = n - before.len().min(n);
    if room > 0 && dice.one_in(3) {
        return Some([before, &letters(1, dice)].concat());
    }
    for place in (0..before.len()).rev() {
        let (_, higher) = below_and_above(before[place]);
        if higher.is_empty() || (place > 0 && dice.one_in(8)) {
            continue;
        }
        let near = higher.len().min(6);
        let mut text = [&before[..place], &[*dice.pick(&higher[..near])]].concat();
        let behind = n - text.len();
        if behind > 0 && dice.one_in(3) {
            let more = dice.between(1, behind);
            text.extend(letters(more, dice));
        }
        return Some(text);
    }
    if room > 0 {
        Some([before, &letters(1, dice)].concat())
    } else {
        None
    }
}

/// A part of the text from its start, or the text with one character lowered, if it can be.
fn text_below(before: &[u8], dice: &mut Dice) -> Option<Vec<u8>> {
    let place = dice.below(before.len());
    let (lower, _) = below_and_above(before[place]);
    let start = &before[..place];
    if !start.is_empty() && !start.ends_with(b" ") && dice.one_in(2) {
        Some(start.to_vec())
    } else if lower.is_empty() {
        None
    } else {
        Some([start, &[*dice.pick(lower)], &before[place + 1..]].concat())
    }
}
