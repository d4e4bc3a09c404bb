//! Files and sheets with the flow they are given for.

use super::dice::Dice;
use super::draft::{Draft, LONG_FLOWS};
use super::editions;
use super::edits::{edit, spoil_byte, LOUD};
use super::faults::spoil;
use super::footers::{early_footer, no_made_footer};
use super::words;
use crate::flows::{published, Flow};
use crate::judge::FILE_LIMIT;
use crate::sheet::SHEET_LIMIT;
use crate::stream::LENGTH_LIMIT;

/// The words that ask for a flow, and the bytes given for it.
pub struct Given {
    pub flow: Vec<u8>,
    pub bytes: Vec<u8>,
}

/// One in so many files, and one in so many sheets, is near or over its limit.
const BIG_FILE: usize = 300;
const BIG_SHEET: usize = 150;
/// One in so many files and sheets is good, and given with any words; and one in so many is laid out
/// for one edition, and given for that or for the other.
const OTHER_WORDS: usize = 20;
const OTHER_EDITION: usize = 20;
/// One in so many with other words is over its limit, too: wrong words are refused first.
const LONG_WITH_WORDS: usize = 20;

/// The faults that a small file, or its words, can have; a file over its limit is a matter of its own.
pub const FAULTS: [u8; 15] = [1, 21, 3, 4, 5, 6, 7, 8, 9, 10, 11, 12, 13, 14, 15];

/// A file. Of the small ones so many in a hundred are good, and given with their own words.
pub fn file(good: usize, dice: &mut Dice) -> Given {
    if dice.one_in(BIG_FILE) {
        return big_file(dice);
    }
    if dice.one_in(OTHER_WORDS) {
        return Given { flow: words::any(dice), bytes: good_file(dice).bytes };
    }
    if dice.one_in(OTHER_EDITION) {
        let (draft, words) = editions::draft_and_words(dice);
        return Given { flow: words, bytes: draft.file() };
    }
    if dice.below(100) < good {
        return good_file(dice);
    }
    match dice.weighed(&[30, 36, 22, 4, 4]) {
        0 => {
            let fault = *dice.pick(&FAULTS);
            faulty_file(&[fault], dice)
        }
        1 => {
            let pair = [*dice.pick(&FAULTS), *dice.pick(&FAULTS)];
            faulty_file(&pair, dice)
        }
        2 => {
            let mut given = good_file(dice);
            (0..*dice.pick(&[1, 1, 1, 2, 3])).for_each(|_| edit(&mut given.bytes, dice));
            given
        }
        3 => early_file(dice),
        _ => Given { flow: words::right(dice.pick(published()), dice), bytes: odd_bytes(dice) },
    }
}

fn good_file(dice: &mut Dice) -> Given {
    let draft = Draft::good(dice.pick(published()), size(dice), dice);
    given(&draft, draft.file(), dice)
}

/// A sheet. Of the small ones so many in a hundred are good, and given with their own words.
pub fn sheet(good: usize, dice: &mut Dice) -> Given {
    if dice.one_in(BIG_SHEET) {
        return big_sheet(dice);
    }
    if dice.one_in(OTHER_WORDS) {
        return Given { flow: words::any(dice), bytes: right_sheet(dice).bytes };
    }
    if dice.one_in(OTHER_EDITION) {
        let (mut draft, words) = editions::draft_and_words(dice);
        draft.last_line_feed = true;
        return Given { flow: words, bytes: draft.sheet() };
    }
    if dice.below(100) < good {
        return right_sheet(dice);
    }
    let mut given = match dice.weighed(&[6, 2, 1, 1, 1, 2, 3]) {
        0 => {
            let faults = [*dice.pick(&FAULTS), *dice.pick(&FAULTS)];
            let mut draft = good_sheet(&faults, dice);
            spoil(&mut draft, &faults[dice.below(2)..], dice);
            given(&draft, draft.sheet(), dice)
        }
        1 => sheet_with_footer(dice),
        2 => {
            let draft = good_sheet(&[], dice);
            let mut sheet = draft.sheet();
            edit(&mut sheet, dice);
            given(&draft, sheet, dice)
        }
        3 => Given { flow: words::right(dice.pick(published()), dice), bytes: odd_bytes(dice) },
        4 => good_file(dice),
        5 => sheet_without_made_footer(dice),
        _ => right_sheet(dice),
    };
    if dice.one_in(3) {
        put_bars(&mut given.bytes, dice);
    }
    if dice.one_in(5) {
        given.bytes.pop();
    }
    if dice.one_in(10) {
        given.flow = words::any(dice);
        if dice.one_in(LONG_WITH_WORDS) {
            given.bytes.resize(SHEET_LIMIT + 1, *dice.pick(LOUD));
        }
    }
    given
}

/// A draft, good as a sheet, of a flow that can have these faults.
fn good_sheet(faults: &[u8], dice: &mut Dice) -> Draft {
    let mut draft = fitting(faults, dice);
    draft.last_line_feed = true;
    draft
}

fn right_sheet(dice: &mut Dice) -> Given {
    let draft = good_sheet(&[], dice);
    given(&draft, draft.sheet(), dice)
}

/// A sheet with a footer line, at its end or early, right or wrong.
fn sheet_with_footer(dice: &mut Dice) -> Given {
    let mut draft = good_sheet(&[], dice);
    if dice.one_in(3) {
        early_footer(&mut draft, dice);
    } else {
        let footer = draft.records[draft.records.len() - 1].clone();
        draft.records.push(footer);
    }
    let fault = *dice.pick(&FAULTS);
    spoil(&mut draft, &[*dice.pick(&[fault, 12, 13])], dice);
    given(&draft, draft.sheet(), dice)
}

/// A sheet that is right as far as it goes, and that no made footer may follow.
fn sheet_without_made_footer(dice: &mut Dice) -> Given {
    let mut draft = good_sheet(&[], dice);
    no_made_footer(&mut draft, dice);
    given(&draft, draft.sheet(), dice)
}

/// The bytes of a draft, for its own flow.
pub fn given(draft: &Draft, bytes: Vec<u8>, dice: &mut Dice) -> Given {
    Given { flow: words::right(draft.flow, dice), bytes }
}

/// Most files are small, one in some eighty has more than 64 KiB.
pub fn size(dice: &mut Dice) -> usize {
    if dice.one_in(80) {
        return 70_000;
    }
    match dice.below(10) {
        0 | 1 => 0,
        9 => dice.below(4096),
        _ => 1 << dice.between(6, 10),
    }
}

/// A good draft of a flow that can have these faults.
fn fitting(faults: &[u8], dice: &mut Dice) -> Draft {
    let can = |flow: &Flow| {
        (!faults.contains(&15) || flow.needs_last_line_feed)
            && (!faults.contains(&11) || flow.layouts.iter().any(|layout| layout.key.is_some()))
    };
    let flows: Vec<&'static Flow> = published().iter().filter(|flow| can(flow)).collect();
    let least = if faults.contains(&11) { 300 } else { 0 };
    let flow = *dice.pick(&flows);
    Draft::good(flow, size(dice).max(least), dice)
}

fn faulty_file(faults: &[u8], dice: &mut Dice) -> Given {
    let mut draft = fitting(faults, dice);
    spoil(&mut draft, faults, dice);
    let mut given = given(&draft, draft.file(), dice);
    if faults.contains(&1) {
        given.flow = words::no_flow(dice);
    } else if faults.contains(&21) {
        given.flow = words::no_edition(dice);
        if dice.one_in(LONG_WITH_WORDS) {
            given.bytes.resize(FILE_LIMIT + 1, *dice.pick(LOUD));
        }
    }
    given
}

/// A footer that stands early, right or wrong, with more behind it.
fn early_file(dice: &mut Dice) -> Given {
    let mut draft = Draft::good(dice.pick(published()), size(dice), dice);
    early_footer(&mut draft, dice);
    let faults: [&[u8]; 6] = [&[], &[], &[4], &[5], &[12], &[13]];
    let faults = *dice.pick(&faults);
    spoil(&mut draft, faults, dice);
    given(&draft, draft.file(), dice)
}

/// Bytes that are no file of any flow.
fn odd_bytes(dice: &mut Dice) -> Vec<u8> {
    let fixed: [&[u8]; 14] = [
        b"", b"\n", b"\n\n", b"|", b"ZHD", b"ZHD\n", b"ZPT|1|0\n", b"ZPT\t1\t0\n", b"ZPT|1|0", b"\r\n", b"\x00",
        b"ZHD\tP0138001\tG\tSVAA\tZ\tPOOL\t20240105120000\nSUB\tB\t\t\t20231231\tM\nTA2\t1.0250\nZPT\t4\t812996689\n",
        b"ZHD|P0138001|G|SVAA|Z|POOL|20240105120000", b"ZHD|||||||\n",
    ];
    match dice.below(3) {
        0 => {
            let length = dice.below(200);
            (0..length)
                .map(|_| if dice.one_in(2) { *dice.pick(LOUD) } else { dice.below(256) as u8 })
                .collect()
        }
        _ => dice.pick(&fixed).to_vec(),
    }
}

/// Turns some partings to bars, or puts bars among the bytes.
fn put_bars(sheet: &mut Vec<u8>, dice: &mut Dice) {
    for _ in 0..*dice.pick(&[1, 1, 2]) {
        let tabs: Vec<usize> = (0..sheet.len()).filter(|&place| sheet[place] == b'\t').collect();
        if tabs.is_empty() || dice.one_in(2) {
            let place = dice.between(0, sheet.len());
            sheet.insert(place, b'|');
        } else {
            sheet[*dice.pick(&tabs)] = b'|';
        }
    }
}

/// A file at its limit, just over it, or long with a fault.
fn big_file(dice: &mut Dice) -> Given {
    let mut given = match dice.below(4) {
        0 => long_tail(dice),
        turn => {
            let lengths = [FILE_LIMIT, FILE_LIMIT, FILE_LIMIT + 1, FILE_LIMIT + 1, FILE_LIMIT - 4000];
            let mut draft = Draft::of_length(*dice.pick(&lengths), false, dice);
            if turn == 1 {
                let fault = *dice.pick(&FAULTS);
                spoil(&mut draft, &[fault], dice);
            }
            given(&draft, draft.file(), dice)
        }
    };
    match dice.below(6) {
        0 => given.flow = words::any(dice),
        1 => spoil_byte(&mut given.bytes, dice),
        _ => {}
    }
    given
}

/// A good file at its limit, whose sheet is longer than the writer takes; or one byte over it.
pub fn long_file(dice: &mut Dice) -> Given {
    let draft = Draft::of_length(*dice.pick(&[FILE_LIMIT, FILE_LIMIT + 1]), false, dice);
    given(&draft, draft.file(), dice)
}

/// A small file, good or not, with a long tail behind it.
fn long_tail(dice: &mut Dice) -> Given {
    let mut given = file(50, dice);
    let length = dice.between(FILE_LIMIT - 1, FILE_LIMIT + 2).max(given.bytes.len());
    given.bytes.resize(*dice.pick(&[length, length, length, LENGTH_LIMIT]), *dice.pick(LOUD));
    given
}

/// A sheet at its limit, just over it, or long with a fault.
fn big_sheet(dice: &mut Dice) -> Given {
    let over = dice.one_in(2);
    let mut draft = Draft::of_length(SHEET_LIMIT + usize::from(over), true, dice);
    let fault = *dice.pick(&FAULTS);
    if dice.one_in(3) {
        spoil(&mut draft, &[fault], dice);
    }
    let mut given = given(&draft, draft.sheet(), dice);
    match dice.below(8) {
        0 => put_bars(&mut given.bytes, dice),
        1 => drop(given.bytes.pop()),
        2 => given.flow = words::any(dice),
        3 => given.flow = dice.pick(&LONG_FLOWS).0.into(),
        _ => {}
    }
    given
}
