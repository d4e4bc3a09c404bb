//! Files asked for a period (document 02's C-17): good ones, and ones with something wrong before the
//! row where reading stops, in it or behind it.

use super::dice::Dice;
use super::draft::{good_record, Draft, Fields};
use super::edits::{behind_the_end, edit, LOUD};
use super::faults::{spoil, spoil_at, Place};
use super::files::{self, given, Given};
use super::footers::early_footer;
use super::keys;
use super::words;
use crate::bytes::{place_in, records_of};
use crate::flows::{named, Flow};
use crate::grammar::Kind;
use crate::judge::FILE_LIMIT;
use crate::stream::{ASKED_LIMIT, LENGTH_LIMIT};

/// A file and the period that it is asked for.
pub struct Asked {
    pub given: Given,
    pub period: usize,
}

/// The kinds of the rows that have a period.
pub const ROWS: [Kind; 2] = [*b"GSP", *b"GS2"];
/// The records that come before the rows.
const BEFORE_ROWS: usize = 3;

/// How long a good draft grows: without rows, with a few, with all that there can be.
const SIZES: [usize; 6] = [0, 150, 200, 300, 600, 2500];
/// One in so many files is at its limit or over it, and one in so many is of any flow.
const LONG: usize = 60;
const ANY_FLOW: usize = 8;
/// One in so many files is given with any words.
const OTHER_WORDS: usize = 10;

pub fn asked(dice: &mut Dice) -> Asked {
    if dice.one_in(LONG) {
        return long(dice);
    }
    if dice.one_in(ANY_FLOW) {
        let period = if dice.one_in(3) { no_period(dice) } else { dice.between(1, 50) };
        return Asked { given: files::file(50, dice), period };
    }
    short(dice)
}

/// The flow whose files have periods.
pub fn flow() -> &'static Flow {
    named(b"P0012001").expect("the flow is published")
}

/// A row of a kind, its period written so.
pub fn row(kind: &Kind, period: &[u8], dice: &mut Dice) -> Fields {
    let layout = flow().layout(kind).expect("a kind of its flow");
    good_record(layout, Some(period.to_vec()), dice)
}

/// A file of the flow that has periods. Records about the stop may be wrong, and its end and its words.
fn short(dice: &mut Dice) -> Asked {
    let mut draft = Draft::good(flow(), *dice.pick(&SIZES), dice);
    let period = period_to_ask(&draft, dice);
    let stop = stop_in(&draft, period);
    if periods_in(&draft).contains(&period) && dice.one_in(3) {
        // The next row, or the footer, takes its place.
        draft.records.remove(stop);
        draft.refoot();
    }
    spoil_records(&mut draft, stop, period, dice);
    let mut given = given(&draft, draft.file(), dice);
    spoil_end(&mut given.bytes, stop, dice);
    if dice.one_in(OTHER_WORDS) {
        given.flow = words::any(dice);
    }
    Asked { given, period }
}

/// Puts faults in near the stop, a row, or an early footer; or nothing.
fn spoil_records(draft: &mut Draft, stop: usize, period: usize, dice: &mut Dice) {
    match dice.weighed(&[6, 10, 5, 2]) {
        0 => {}
        1 => {
            let near =
                [Place::At(stop - 1), Place::At(stop), Place::At(stop + 1), Place::At(stop + 2), Place::Any];
            let faults = [dice.between(3, 15) as u8, dice.between(3, 15) as u8];
            spoil_at(&near, draft, &faults[dice.below(2)..], dice);
        }
        2 => put_row(draft, stop, period, dice),
        _ => {
            early_footer(draft, dice);
            let faults: [&[u8]; 3] = [&[], &[12], &[13]];
            let faults = *dice.pick(&faults);
            spoil(draft, faults, dice);
        }
    }
}

/// Cuts the file near the stop, puts something else behind the stop, or edits any bytes; or nothing.
fn spoil_end(file: &mut Vec<u8>, stop: usize, dice: &mut Dice) {
    match dice.weighed(&[10, 4, 3, 1]) {
        0 => {}
        1 => cut(file, stop, dice),
        2 => {
            file.truncate(ends_of(file, stop).1 + 1);
            behind_the_end(file, dice);
        }
        _ => edit(file, dice),
    }
}

/// A file with so long an end that it is at its limit or over it.
fn long(dice: &mut Dice) -> Asked {
    let mut asked = short(dice);
    let lengths = [FILE_LIMIT, FILE_LIMIT, FILE_LIMIT + 1, FILE_LIMIT + 1, LENGTH_LIMIT];
    asked.given.bytes.resize(*dice.pick(&lengths), *dice.pick(LOUD));
    match dice.below(5) {
        0 => asked.given.flow = words::any(dice),
        1 => asked.period = no_period(dice),
        _ => {}
    }
    asked
}

/// The periods of a good draft's rows.
fn periods_in(draft: &Draft) -> Vec<usize> {
    let rows = &draft.records[BEFORE_ROWS..draft.records.len() - 1];
    rows.iter().map(|row| keys::period(&row[1])).collect()
}

/// Where in a good draft reading stops: at the first row of the period or above, or at the footer.
fn stop_in(draft: &Draft, period: usize) -> usize {
    BEFORE_ROWS + periods_in(draft).into_iter().take_while(|&own| own < period).count()
}

/// A period to ask a good draft for: one that it has, one beside it, any, or what is none.
fn period_to_ask(draft: &Draft, dice: &mut Dice) -> usize {
    let any = dice.between(1, 50);
    let own = match periods_in(draft) {
        periods if periods.is_empty() => any,
        periods => *dice.pick(&periods),
    };
    match dice.below(12) {
        0 => no_period(dice),
        1..=5 => own,
        6 | 7 => own - 1,
        8 | 9 => own + 1,
        _ => any,
    }
}

/// A number that is no period; the lowest eight or sixteen bits of some make one.
fn no_period(dice: &mut Dice) -> usize {
    let period = dice.between(1, 50);
    *dice.pick(&[0, 0, 51, 51, 52, 99, 100, 255, 256 + period, 65_536 + period, ASKED_LIMIT])
}

/// Puts a row of either kind in before the stop or behind it, or in the place of what stands there.
/// Its period is the asked one or beside it, written right or not.
fn put_row(draft: &mut Draft, stop: usize, period: usize, dice: &mut Dice) {
    let own = match dice.below(2) {
        0 => misspelled(period, dice),
        _ => dice.between(period.saturating_sub(1), period + 1).to_string().into_bytes(),
    };
    let row = row(dice.pick(&ROWS), &own, dice);
    let place = stop + dice.below(2);
    let end = (place + dice.below(2)).min(draft.records.len());
    draft.records.splice(place..end, [row]);
    draft.refoot();
}

/// A number with something before it or behind it that does not belong there.
fn misspelled(number: usize, dice: &mut Dice) -> Vec<u8> {
    let (before, behind) = match dice.below(2) {
        0 => (*dice.pick(&["0", "00", " ", "+", "-", "1"]), ""),
        _ => ("", *dice.pick(&[" ", ".0", "\r", "X", "\0", "0"])),
    };
    format!("{}{}{}", before, number, behind).into_bytes()
}

/// Where a record begins and ends, by its place, counted from 0; past the last the file's end.
fn ends_of(file: &[u8], record: usize) -> (usize, usize) {
    let start = |bytes: &&[u8]| (place_in(file, bytes), place_in(file, bytes) + bytes.len());
    records_of(file).get(record).map_or((file.len(), file.len()), start)
}

/// Cuts a file before a record, in it, or behind it, with the line feed there or without it.
fn cut(file: &mut Vec<u8>, record: usize, dice: &mut Dice) {
    let (start, end) = ends_of(file, record);
    let inside = dice.between(start, end);
    file.truncate(*dice.pick(&[start.saturating_sub(1), start, inside, end, end + 1]));
}
