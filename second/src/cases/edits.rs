//! Edits of a file's or sheet's bytes, without regard to what they mean.

use super::dice::Dice;
use super::values::letters;

/// Bytes that are worth trying anywhere.
pub const LOUD: &[u8] = b"|\n\r\t\x00\xff \x7f\x800149-+.,\"ATFZz_{";

/// One edit of the bytes, mostly one byte spoiled.
pub fn edit(bytes: &mut Vec<u8>, dice: &mut Dice) {
    if bytes.is_empty() {
        bytes.push(*dice.pick(LOUD));
        return;
    }
    let place = dice.below(bytes.len());
    match dice.below(20) {
        0 => bytes.insert(place, *dice.pick(LOUD)),
        1 => drop(bytes.remove(place)),
        2 => bytes.truncate(place),
        3 => {
            let next = (place + 1) % bytes.len();
            bytes.swap(place, next);
        }
        4 => carriage_returns(bytes, dice),
        5 => behind_the_end(bytes, dice),
        6 => before_the_start(bytes, dice),
        7 => lines(bytes, dice),
        _ => spoil_byte(bytes, dice),
    }
}

/// Replaces exactly one byte by a different one; places near the ends are tried more often.
pub fn spoil_byte(bytes: &mut [u8], dice: &mut Dice) {
    if bytes.is_empty() {
        return;
    }
    let place = match dice.below(6) {
        0 => bytes.len() - 1 - dice.below(bytes.len().min(24)),
        1 => dice.below(bytes.len().min(48)),
        _ => dice.below(bytes.len()),
    };
    let old = bytes[place];
    let new = match dice.below(4) {
        0 => old ^ (1 << dice.below(8)),
        1 => dice.below(256) as u8,
        _ => *dice.pick(LOUD),
    };
    bytes[place] = if new == old { old ^ 1 } else { new };
}

/// A carriage return before each line feed, before one of them, or in the place of one.
fn carriage_returns(bytes: &mut Vec<u8>, dice: &mut Dice) {
    let ends: Vec<usize> = (0..bytes.len()).filter(|&place| bytes[place] == b'\n').collect();
    if ends.is_empty() {
        bytes.push(b'\r');
        return;
    }
    match dice.below(3) {
        0 => ends.iter().rev().for_each(|&end| bytes.insert(end, b'\r')),
        1 => bytes.insert(*dice.pick(&ends), b'\r'),
        _ => bytes[*dice.pick(&ends)] = b'\r',
    }
}

pub fn behind_the_end(bytes: &mut Vec<u8>, dice: &mut Dice) {
    let more: [&[u8]; 10] =
        [b"\n", b"\n\n", b"\x00", b"\x1a", b"ZPT|1|0\n", b"ZHD\n", b"XXX\n", b" ", b"\r\n", b"|\n"];
    bytes.extend(*dice.pick(&more));
    if dice.one_in(6) {
        let length = dice.between(505, 520);
        bytes.extend(letters(length, dice));
    }
}

fn before_the_start(bytes: &mut Vec<u8>, dice: &mut Dice) {
    let more: [&[u8]; 6] = [b"\n", b"\xef\xbb\xbf", b" ", b"|", b"\x00", b"ZHD\n"];
    let start = dice.pick(&more).to_vec();
    bytes.splice(0..0, start);
}

/// Doubles, drops or moves whole lines.
fn lines(bytes: &mut Vec<u8>, dice: &mut Dice) {
    let mut lines: Vec<Vec<u8>> = bytes.split_inclusive(|&byte| byte == b'\n').map(<[u8]>::to_vec).collect();
    let (one, other) = (dice.below(lines.len()), dice.below(lines.len()));
    match dice.below(4) {
        0 => lines.insert(one, lines[one].clone()),
        1 => drop(lines.remove(one)),
        2 => lines.swap(one, other),
        _ => lines.extend(lines.clone()),
    }
    *bytes = lines.concat();
}
