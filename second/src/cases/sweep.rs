//! Sweeps: cases that go through all there is in turn, so that a few thousand of them leave
//! nothing out, whatever the dice say. One sweep is over every field of every flow, two are over
//! every byte in a single field and in a text, and one is over every period.

use super::dice::Dice;
use super::draft::Draft;
use super::files::given;
use super::parts::{held_type, FieldCase};
use super::periods::{self, Asked, ROWS};
use super::texts::Text;
use super::values::{bad_form, bad_range, good, one_too_wide, widest};
use crate::field::{Mark, Type};
use crate::flows::{published, Flow, Layout};

/// A draft that is good but for one field, perhaps, and where that field stands (from 1).
pub struct Swept {
    pub draft: Draft,
    pub record: usize,
    pub field: usize,
}

/// So many kinds of value are put into each field.
const VALUES: usize = 7;

/// The draft of one turn. The turns go through all fields for one value, then for the next.
pub fn swept(turn: usize, dice: &mut Dice) -> Swept {
    let fields: Vec<(&'static Flow, &'static Layout, usize)> = published()
        .iter()
        .flat_map(|flow| flow.layouts.iter().map(move |layout| (flow, layout)))
        .flat_map(|(flow, layout)| (0..layout.rules.len()).map(move |place| (flow, layout, place)))
        .collect();
    let (flow, layout, place) = fields[turn % fields.len()];
    let mut draft = draft_with(flow, layout, dice);
    let own = (0..draft.records.len()).filter(|&record| draft.records[record][0] == layout.kind);
    let record = *dice.pick(&own.collect::<Vec<_>>());
    let rule = &layout.rules[place];
    let value = match turn / fields.len() % VALUES {
        0 => widest(rule.form, dice),
        1 => one_too_wide(rule.form, dice),
        2 => bad_range(rule.form, dice).unwrap_or_default(),
        3 => bad_form(rule.form, dice),
        4 => Vec::new(),
        5 => good(rule.form, dice),
        _ => match &rule.mark {
            Mark::Fixed(fixed) => fixed.to_ascii_lowercase(),
            _ => b"0".to_vec(),
        },
    };
    draft.records[record][place + 1] = value;
    draft.last_line_feed = true;
    if layout.kind != *b"ZPT" {
        draft.refoot();
    }
    Swept { draft, record: record + 1, field: place + 2 }
}

/// A good draft in which a record of the kind stands.
fn draft_with(flow: &'static Flow, layout: &Layout, dice: &mut Dice) -> Draft {
    loop {
        let size = dice.between(0, 500);
        let draft = Draft::good(flow, size, dice);
        if draft.records.iter().any(|record| record[0] == layout.kind) {
            return draft;
        }
    }
}

/// A good field with one byte put in: each of the 256, as the first, the last or one between.
/// Two in three are texts.
pub fn swept_field(turn: usize, dice: &mut Dice) -> FieldCase {
    let other = held_type(dice);
    let form = *dice.pick(&[Type::Text(8), Type::Text(512), other]);
    let mut bytes = good(form, dice);
    let place = match turn / 256 % 3 {
        0 => dice.between(0, bytes.len()),
        1 => 0,
        _ => bytes.len(),
    };
    bytes.insert(place, (turn % 256) as u8);
    FieldCase { form: form.spelling(), mark: "-", fixed: Vec::new(), bytes }
}

/// What stands before and behind the byte that is put into a text.
const AROUND: [(&[u8], &[u8]); 3] = [(b"AB", b"CD"), (b"\"AB", b"CD\""), (b"\"ABCD\"", b"")];

/// A good text with one byte put in: each of the 256, in a plain field, in a quoted one and behind one.
pub fn swept_text(turn: usize, dice: &mut Dice) -> Vec<u8> {
    let (before, behind) = AROUND[turn / 256 % AROUND.len()];
    let mut text = Text::good(dice);
    text.put(&[before, &[(turn % 256) as u8], behind].concat(), dice);
    text.bytes()
}

/// The periods that are asked for in turn: all of them, and the numbers next to them.
const PERIODS: usize = 52;

/// Which periods a file's rows have, by the period asked for.
const HAVE: [fn(usize, usize) -> bool; 6] = [
    |_, _| true,
    |own, asked| own != asked,
    |own, asked| own == asked,
    |own, asked| own < asked,
    |own, asked| own > asked,
    |_, _| false,
];

/// A file asked for each period in turn, which it has or not, with others below it and above it or not;
/// then all of these once more, ending behind their rows.
pub fn swept_period(turn: usize, dice: &mut Dice) -> Asked {
    let (asked, has) = (turn % PERIODS, HAVE[turn / PERIODS % HAVE.len()]);
    let kind = dice.pick(&ROWS);
    let own = (1..=50).filter(|&own| has(own, asked));
    let rows: Vec<_> = own.map(|own| periods::row(kind, own.to_string().as_bytes(), dice)).collect();
    let mut draft = Draft::good(periods::flow(), 0, dice);
    draft.put_last(rows);
    if turn / (PERIODS * HAVE.len()) % 2 == 1 {
        draft.records.pop();
    }
    Asked { given: given(&draft, draft.file(), dice), period: asked }
}
