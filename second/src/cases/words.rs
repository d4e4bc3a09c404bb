//! The words that ask for a flow: right ones, and ones that name no flow or no edition.

use super::dice::Dice;
use super::edits::spoil_byte;
use super::values::letters;
use crate::flows::{published, Flow, EDITIONS};

/// Words that ask for this flow.
pub fn right(flow: &Flow, dice: &mut Dice) -> Vec<u8> {
    dice.pick(&flow.words()).clone().into_bytes()
}

/// Words that ask for any flow, or that are wrong.
pub fn any(dice: &mut Dice) -> Vec<u8> {
    match dice.below(3) {
        0 => right(dice.pick(published()), dice),
        1 => no_flow(dice),
        _ => no_edition(dice),
    }
}

/// Words that name no flow, whatever edition they name, if any. The dice may still hit a name.
pub fn no_flow(dice: &mut Dice) -> Vec<u8> {
    let name = odd_name(dice);
    match dice.below(4) {
        0 => [&name, &b" "[..], dice.pick(&EDITIONS).as_bytes()].concat(),
        1 => [&name, &b" "[..], &odd_edition(dice)].concat(),
        _ => name,
    }
}

/// Words that name a flow and no edition of it.
pub fn no_edition(dice: &mut Dice) -> Vec<u8> {
    let name = dice.pick(published()).name.as_bytes();
    [name, b" ", &odd_edition(dice)].concat()
}

/// What is no flow's name, most of it near to one.
fn odd_name(dice: &mut Dice) -> Vec<u8> {
    let own = dice.pick(published()).name.as_bytes();
    let edition = dice.pick(&EDITIONS).as_bytes();
    match dice.below(10) {
        0 => own.to_ascii_lowercase(),
        1 => own[..dice.below(8)].to_vec(),
        2 => [own, &letters(1, dice)].concat(),
        3 => [b" ", &own[..dice.between(7, 8)]].concat(),
        4 => spoiled(own, dice),
        5 => b"P0138002".to_vec(),
        6 => letters(dice.below(40), dice),
        7 => [own, edition].concat(),
        8 => [own, &[*dice.pick(b"\r-_/,\xa0")], edition].concat(),
        _ => edition.to_vec(),
    }
}

/// What is no edition, most of it near to one.
fn odd_edition(dice: &mut Dice) -> Vec<u8> {
    let own = dice.pick(&EDITIONS).as_bytes();
    match dice.below(11) {
        0 => Vec::new(),
        1 => [b" ", own].concat(),
        2 => [b"0", own].concat(),
        3 => [own, b" "].concat(),
        4 => own[..dice.between(1, 2)].to_vec(),
        5 => [own, &own[2..]].concat(),
        6 => [own, b"\r"].concat(),
        7 => spoiled(own, dice),
        8 => [own, b" ", dice.pick(&EDITIONS).as_bytes()].concat(),
        9 => {
            let others = ["532", "534", "710", "712", "500", "000", "335", "117", "+711", "-533", "711.0"];
            dice.pick(&others).as_bytes().to_vec()
        }
        _ => letters(dice.below(30), dice),
    }
}

/// A word with one byte spoiled. A tab or a line feed can't stand in a header's word.
fn spoiled(word: &[u8], dice: &mut Dice) -> Vec<u8> {
    let mut word = word.to_vec();
    spoil_byte(&mut word, dice);
    word.into_iter().map(|byte| if byte == b'\t' || byte == b'\n' { b'\r' } else { byte }).collect()
}
