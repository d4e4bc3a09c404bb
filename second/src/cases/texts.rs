//! Comma-separated texts to import, with any quoting, and files to export, with commas and quotation
//! marks in their fields.

use super::dice::Dice;
use super::draft::{Draft, Fields};
use super::edits::{edit, spoil_byte};
use super::files::{self, given, size, Given};
use super::values::letters;
use crate::bytes::BAR;
use crate::csv::{exported, made_text, quoted, COMMA, LINE_END, TEXT_LIMIT};
use crate::field::{Mark, Type};
use crate::flows::published;
use crate::judge::FILE_LIMIT;
use crate::stream::LENGTH_LIMIT;

/// One in so many files, and one in so many texts, is at its limit or just over it.
const LONG: usize = 40;

/// A file to export.
pub fn file(dice: &mut Dice) -> Given {
    if dice.one_in(LONG) {
        return long_file(dice);
    }
    match dice.below(2) {
        0 => files::file(20, dice),
        _ => {
            let draft = good_draft(dice);
            let mut file = draft.file();
            if dice.one_in(6) {
                edit(&mut file, dice);
            }
            given(&draft, file, dice)
        }
    }
}

/// A good draft of any flow with commas and quotation marks.
fn good_draft(dice: &mut Dice) -> Draft {
    quotable(Draft::good(dice.pick(published()), size(dice), dice), dice)
}

/// A good file whose text is too long to import, or one that is over its own limit.
fn long_file(dice: &mut Dice) -> Given {
    if dice.one_in(2) {
        return files::long_file(dice);
    }
    // A new checksum may be longer than the one before.
    let draft = quotable(Draft::of_length(FILE_LIMIT - 10, false, dice), dice);
    given(&draft, draft.file(), dice)
}

/// A good draft with commas and quotation marks in some of its texts, each as long as before. Keys
/// are left as they are, so that they stay in order.
fn quotable(mut draft: Draft, dice: &mut Dice) -> Draft {
    for record in &mut draft.records {
        let layout = draft.flow.layout(&record[0]).expect("a good draft has kinds of its flow");
        for (field, rule) in (2..).zip(&layout.rules) {
            let is_fixed =
                matches!(rule.mark, Mark::Fixed(_)) || layout.key.map(|key| key.field) == Some(field);
            if matches!(rule.form, Type::Text(_)) && !is_fixed && dice.one_in(2) {
                record[field - 1].iter_mut().for_each(|byte| *byte = *dice.pick(b",,\"\"A"));
            }
        }
    }
    draft.refoot();
    draft
}

/// A text: lines of fields as they are written.
pub struct Text {
    lines: Vec<Fields>,
    is_ended: bool,
}

impl Text {
    /// A good text of the dice's own lines, or of a good file's records, footer in, with any quoting.
    pub fn good(dice: &mut Dice) -> Text {
        let mut lines = if dice.one_in(3) { good_draft(dice).records } else { own_lines(dice) };
        let unneeded = *dice.pick(&[0, 50, 100]);
        lines.iter_mut().flatten().for_each(|field| *field = written(field, unneeded, dice));
        Text { lines, is_ended: !dice.one_in(3) }
    }

    /// Puts a written field in the place of one, or before one.
    pub fn put(&mut self, field: &[u8], dice: &mut Dice) {
        if self.lines.is_empty() {
            self.lines.push(vec![Vec::new()]);
        }
        let place = dice.below(self.lines.len());
        let line = &mut self.lines[place];
        let place = dice.below(line.len());
        let end = place + dice.below(2);
        line.splice(place..end, [field.to_vec()]);
    }

    pub fn bytes(&self) -> Vec<u8> {
        let lines: Vec<Vec<u8>> = self.lines.iter().map(|line| line.join(&COMMA)).collect();
        let mut bytes = lines.join(LINE_END);
        if self.is_ended {
            bytes.extend(LINE_END);
        }
        bytes
    }
}

/// A field as it is written: quoted where it must be, and so often in a hundred where it need not be.
fn written(field: &[u8], unneeded: usize, dice: &mut Dice) -> Vec<u8> {
    match dice.below(100) < unneeded {
        true => quoted(field),
        false => exported(field),
    }
}

/// Lines that need be no records of any flow. A line of one empty field is a blank one.
fn own_lines(dice: &mut Dice) -> Vec<Fields> {
    let count = *dice.pick(&[0, 1, 1, 2, 3, 5, 12]);
    let mut line = || match dice.below(5) {
        0 => vec![Vec::new()],
        _ => (0..dice.between(1, 5)).map(|_| content(dice)).collect(),
    };
    (0..count).map(|_| line()).collect()
}

/// What a field of a sheet can hold: all that can be printed but a bar, and marks and commas often.
fn content(dice: &mut Dice) -> Vec<u8> {
    let length = *dice.pick(&[0, 1, 2, 3, 8, 600]);
    match dice.below(3) {
        0 => (0..length).map(|_| *dice.pick(b",\"A ")).collect(),
        1 => (0..length).map(|_| dice.between(0x20, 0x7E) as u8).filter(|&byte| byte != BAR).collect(),
        _ => letters(length, dice),
    }
}

/// A text to import.
pub fn text(dice: &mut Dice) -> Vec<u8> {
    if dice.one_in(LONG) {
        return long_text(dice);
    }
    match dice.weighed(&[3, 8, 10, 5, 3, 1]) {
        0 => made_text(&good_draft(dice).file()),
        1 => Text::good(dice).bytes(),
        2 => {
            let mut text = Text::good(dice);
            (0..*dice.pick(&[1, 1, 2])).for_each(|_| text.put(&bad_field(dice), dice));
            text.bytes()
        }
        3 => text_with_bars(dice),
        4 => {
            let mut text = Text::good(dice).bytes();
            (0..*dice.pick(&[1, 1, 2])).for_each(|_| edit(&mut text, dice));
            text
        }
        _ => {
            let odd: [&[u8]; 8] =
                [b"", b"\r\n", b"\r\n\r\n", b"\r", b"\n", b"\"", b"\"\"", b"\xef\xbb\xbfA\r\n"];
            dice.pick(&odd).to_vec()
        }
    }
}

/// A field that no text can have.
fn bad_field(dice: &mut Dice) -> Vec<u8> {
    let control = dice.below(0x20) as u8;
    let above = dice.between(0x7F, 0xFF) as u8;
    let foreign = *dice.pick(&[b'\t', b'\r', b'\n', 0x7F, control, above]);
    let (one, other) = (letters(dice.below(4), dice), letters(dice.between(1, 4), dice));
    let parts: [&[&[u8]]; 12] = [
        &[&one, &[foreign], &other],
        &[&other, &[foreign]],
        &[b"\"", &one, &[foreign], &other, b"\""],
        &[b"\"", &one, &[COMMA, foreign], b"\""],
        &[b"\"", &one, LINE_END, &other, b"\""],
        &[b"\"", &one, b"\"\"", LINE_END, b"\""],
        &[&other, b"\"", &one],
        &[&other, b"\"", &one, b"\""],
        &[b" \"", &one, b"\""],
        &[b"\"", &one, b"\"", &other],
        &[b"\"", &one, b"\" "],
        &[b"\"", &one, b"\"\"", &other],
    ];
    dice.pick(&parts).concat()
}

/// A text with bars in one field or two, and at times something worse, before them or behind.
fn text_with_bars(dice: &mut Dice) -> Vec<u8> {
    let mut text = Text::good(dice);
    for _ in 0..*dice.pick(&[1, 1, 2]) {
        let mut field = content(dice);
        let place = dice.between(0, field.len());
        field.insert(place, BAR);
        text.put(&written(&field, 50, dice), dice);
    }
    if dice.one_in(3) {
        text.put(&bad_field(dice), dice);
    }
    text.bytes()
}

/// A text at its limit, just under or over it, or as long as its file's export is.
fn long_text(dice: &mut Dice) -> Vec<u8> {
    if dice.one_in(8) {
        let mut text = made_text(&long_file(dice).bytes);
        text.truncate(LENGTH_LIMIT);
        return text;
    }
    // The limit is a whole number of each of these. Those that end no line make one line of the text,
    // whose sheet is as long as the text and its line feed, or shorter by its marks.
    let plain = [letters(63, dice), vec![COMMA]].concat();
    let units: [&[u8]; 8] =
        [&plain, &plain, b",", b"\"\"\"\",", b"\r\n", b"A,\r\n", b"\"\",\r\n", b"AB,\"C,D\"\r\n"];
    let unit = *dice.pick(&units);
    let mut text = unit.repeat(TEXT_LIMIT / unit.len());
    text.resize(*dice.pick(&[TEXT_LIMIT - 1, TEXT_LIMIT, TEXT_LIMIT, TEXT_LIMIT + 1]), b'A');
    let last = text.len() - LINE_END.len();
    let place = if dice.one_in(2) { last } else { dice.below(last) };
    match dice.below(6) {
        0 => text[place..place + LINE_END.len()].copy_from_slice(LINE_END),
        1 | 2 => text[place] = BAR,
        3 => spoil_byte(&mut text, dice),
        _ => {}
    }
    text
}
