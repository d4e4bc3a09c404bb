//! Cases of the small parts: one field, a checksum, a step.

use super::dice::Dice;
use super::edits::{edit, LOUD};
use super::files::file;
use super::values::{bad_form, bad_range, good};
use super::words;
use crate::field::Type;
use crate::flows::{published, Flow};
use crate::stream::LENGTH_LIMIT;

/// A field's type as it is spelled, its mark, its fixed value and its bytes.
pub struct FieldCase {
    pub form: String,
    pub mark: &'static str,
    pub fixed: Vec<u8>,
    pub bytes: Vec<u8>,
}

pub fn field(dice: &mut Dice) -> FieldCase {
    let form = held_type(dice);
    let bytes = field_bytes(form, dice);
    let mark = *dice.pick(&["-", "-", "opt", "="]);
    let fixed = match (mark, dice.below(4)) {
        ("=", 0) => field_bytes(form, dice),
        ("=", 1) => good(form, dice),
        ("=", _) => bytes.clone(),
        _ => Vec::new(),
    };
    let form = if dice.one_in(8) { wrong_width(dice) } else { form.spelling() };
    FieldCase { form, mark, fixed, bytes }
}

/// A type with a width that is taken, the limits among them.
pub fn held_type(dice: &mut Dice) -> Type {
    match dice.below(12) {
        0 | 1 => {
            let width = dice.between(1, 512) as u32;
            Type::Text(*dice.pick(&[1, 2, 4, 8, 11, 511, 512, width]))
        }
        2..=4 => {
            let width = dice.between(1, 18) as u32;
            Type::Int(*dice.pick(&[1, 2, 17, 18, width, width]))
        }
        5..=7 => {
            let p = *dice.pick(&[2, 3, 4, 5, 14, 17, 18]);
            let q = dice.between(1, p as usize - 1) as u32;
            Type::Dec(p, *dice.pick(&[1, p - 1, q]))
        }
        8 => Type::Date,
        9 => Type::DateTime,
        10 => *dice.pick(&[Type::Bol, Type::Null]),
        _ => Type::Period,
    }
}

/// A type with a width just outside its limits, or far outside.
fn wrong_width(dice: &mut Dice) -> String {
    let fixed = [
        "text(0)", "text(513)", "text(999999999)", "int(0)", "int(19)", "int(20)", "int(256)",
        "int(999999999)", "dec(0,0)", "dec(1,0)", "dec(1,1)", "dec(2,0)", "dec(2,2)", "dec(18,0)",
        "dec(18,18)", "dec(19,1)", "dec(19,18)", "dec(4,5)", "dec(260,4)", "dec(4,257)", "text(1024)",
        "text(65537)", "dec(3,999999999)",
    ];
    dice.pick(&fixed).to_string()
}

fn field_bytes(form: Type, dice: &mut Dice) -> Vec<u8> {
    match dice.below(12) {
        0 => Vec::new(),
        1..=5 => good(form, dice),
        6 | 7 => bad_form(form, dice),
        8 | 9 => bad_range(form, dice).unwrap_or_default(),
        10 => {
            let mut bytes = good(form, dice);
            edit(&mut bytes, dice);
            bytes
        }
        _ => {
            let length = *dice.pick(&[1, 2, 8, 14, 513, 600, 5000]);
            let byte = *dice.pick(LOUD);
            let digit = *dice.pick(b"0123456789AZ ");
            vec![*dice.pick(&[byte, digit]); length]
        }
    }
}

/// Bytes for a checksum: any at all, with records of every length.
pub fn sum_bytes(dice: &mut Dice) -> Vec<u8> {
    match dice.below(8) {
        0 | 1 => file(60, dice).bytes,
        2 => vec![*dice.pick(LOUD); dice.below(40)],
        3 if dice.one_in(30) => {
            let length = *dice.pick(&[1_048_576, 1_048_577, LENGTH_LIMIT]);
            (0..length).map(|_| if dice.one_in(300) { b'\n' } else { dice.below(256) as u8 }).collect()
        }
        _ => {
            let ends = dice.between(2, 40);
            let length = *dice.pick(&[0, 1, 2, 3, 4, 5, 7, 8, 9, 33, 700, 2000]);
            (0..length).map(|_| if dice.one_in(ends) { b'\n' } else { dice.below(256) as u8 }).collect()
        }
    }
}

/// The words of a flow and a list of kinds: a walk of the grammar, then perhaps something wrong.
pub fn step_list(dice: &mut Dice) -> (Vec<u8>, Vec<u8>) {
    let flow = dice.pick(published());
    let length = if dice.one_in(60) { 20_000 } else { *dice.pick(&[0, 1, 2, 3, 4, 5, 8, 12, 30]) };
    let mut kinds = walk(flow, length, dice);
    match dice.below(8) {
        0 => {
            let foreign: [&[u8]; 6] = [b"XXX", b"zhd", b"ZPI", b"\x00\x00\x00", b"SB1", b"GS7"];
            let kind = *dice.pick(&foreign);
            put(&mut kinds, kind, dice);
        }
        1 => put(&mut kinds, &dice.pick(&flow.layouts).kind, dice),
        2 => kinds.truncate(dice.between(0, kinds.len())),
        3 => {
            let start: [&[u8]; 6] = [b"Z", b"ZP", b"B", b"SU", b"\x00", b"\xff\xff"];
            kinds.extend(*dice.pick(&start));
        }
        4 if !kinds.is_empty() => {
            let place = dice.below(kinds.len());
            kinds[place] = *dice.pick(LOUD);
        }
        5 => {
            let list = (0..dice.below(8)).map(|_| dice.pick(&flow.layouts).kind.to_vec());
            kinds = list.collect::<Vec<_>>().concat();
        }
        _ => {}
    }
    let words = if dice.one_in(8) { words::any(dice) } else { words::right(flow, dice) };
    (words, kinds)
}

/// Puts a kind in at some place of the list.
fn put(kinds: &mut Vec<u8>, kind: &[u8], dice: &mut Dice) {
    let place = 3 * dice.between(0, kinds.len() / 3);
    kinds.splice(place..place, kind.iter().copied());
}

/// A walk of at most so many kinds that the grammar goes through.
fn walk(flow: &Flow, length: usize, dice: &mut Dice) -> Vec<u8> {
    let hasty = dice.one_in(4);
    let mut left = flow.grammar.clone();
    let mut kinds = Vec::new();
    for _ in 0..length {
        let all = flow.layouts.iter().map(|layout| layout.kind);
        let open: Vec<_> = all.filter_map(|kind| Some((kind, left.after(&kind)?))).collect();
        if open.is_empty() {
            break;
        }
        let mut next = dice.pick(&open);
        if next.0 == *b"ZPT" && !hasty {
            next = dice.pick(&open);
        }
        kinds.extend(next.0);
        left = next.1.clone();
    }
    kinds
}
