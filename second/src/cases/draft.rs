//! Drafts: a file as records of fields, grown along the grammar, good to begin with.

use super::dice::Dice;
use super::keys::key_in_order;
use super::values::{good, letters};
use crate::bytes::{checksum, BAR, LINE_FEED, TAB};
use crate::field::{Mark, Type};
use crate::flows::{named, Flow, Layout};
use crate::grammar::{Kind, Set};
use std::collections::BTreeMap;
use std::sync::Arc;

pub type Fields = Vec<Vec<u8>>;

pub struct Draft {
    pub flow: &'static Flow,
    /// The records, the footer in.
    pub records: Vec<Fields>,
    pub last_line_feed: bool,
}

/// The words of the flows whose files can come near the limit, each with a kind that has no key and
/// can stand anywhere before the footer, to fill a file up with.
pub const LONG_FLOWS: [(&str, &[u8; 3]); 5] = [
    ("P0181002", b"GS7"),
    ("P0133001 533", b"SB1"),
    ("P0133001 711", b"SB1"),
    ("P0134001", b"SB2"),
    ("P0164001", b"SUB"),
];

impl Draft {
    /// A good file, grown until it has some `size` bytes or the flow allows no more.
    pub fn good(flow: &'static Flow, size: usize, dice: &mut Dice) -> Draft {
        let mut weights: Vec<usize> = flow.layouts.iter().map(|_| *dice.pick(&[1, 1, 2, 8])).collect();
        // The last layout is the footer's: it is set behind the rest.
        weights.pop();
        let mut draft = Draft { flow, records: Vec::new(), last_line_feed: true };
        let mut keys = BTreeMap::new();
        let mut left = flow.grammar.clone();
        let mut length = 0;
        while length < size || left.after(b"ZPT").is_none() {
            let record = match next_record(flow, &mut left, weights.clone(), &mut keys, dice) {
                Some(record) => record,
                None => break,
            };
            length += record.iter().map(|field| field.len() + 1).sum::<usize>();
            draft.records.push(record);
        }
        let footer = footer(draft.records.len(), sum_of(&draft.records));
        draft.records.push(footer);
        draft.last_line_feed = flow.needs_last_line_feed || !dice.one_in(4);
        draft
    }

    /// A good draft whose file (or whose sheet) has exactly this length.
    pub fn of_length(length: usize, as_sheet: bool, dice: &mut Dice) -> Draft {
        let (words, kind) = *dice.pick(&LONG_FLOWS);
        let flow = named(words.as_bytes()).expect("a long flow is published");
        let layout = flow.layout(kind).expect("and so is its kind");
        let mut draft = Draft::good(flow, length - 450, dice);
        draft.last_line_feed = true;
        draft.records.pop();
        let (grown, sum) = (draft.records.len(), sum_of(&draft.records));
        let start = joined(&draft.records, BAR, true).len();
        // The footer's own length hangs on the checksum: try with the last one until it fits.
        let mut room = if as_sheet { 0 } else { 20 };
        loop {
            draft.records.truncate(grown);
            draft.fill(layout, length - room - start, dice);
            let footer = footer(draft.records.len(), sum ^ sum_of(&draft.records[grown..]));
            let own = joined(std::slice::from_ref(&footer), BAR, true).len();
            draft.records.push(footer);
            if as_sheet || own == room {
                return draft;
            }
            room = own;
        }
    }

    /// Adds records of one kind that have so many bytes together, line feeds in.
    fn fill(&mut self, layout: &Layout, bytes: usize, dice: &mut Dice) {
        let is_free = |form: Type, mark: &Mark| matches!(form, Type::Text(_)) && *mark == Mark::None;
        let place = layout.rules.iter().position(|rule| is_free(rule.form, &rule.mark));
        let place = place.expect("a filling kind has a free text");
        let widest = match layout.rules[place].form {
            Type::Text(n) => n as usize,
            _ => 1,
        };
        let mut record = good_record(layout, None, dice);
        record[place + 1] = b"A".to_vec();
        let least = joined(std::slice::from_ref(&record), BAR, true).len();
        let count = (bytes + least + widest - 2) / (least + widest - 1);
        let spare = bytes - count * least;
        for number in 0..count {
            let more = spare / count + usize::from(number < spare % count);
            record[place + 1] = letters(1 + more, dice);
            self.records.push(record.clone());
        }
    }

    /// Puts records in before the footer, which stands last, and sets it right.
    pub fn put_last(&mut self, records: impl IntoIterator<Item = Fields>) {
        let place = self.records.len() - 1;
        self.records.splice(place..place, records);
        self.refoot();
    }

    /// Sets count and checksum of the first footer right, whatever stands before it.
    pub fn refoot(&mut self) {
        if let Some(place) = self.footer_place() {
            self.records[place] = footer(place, sum_of(&self.records[..place]));
        }
    }

    pub fn footer_place(&self) -> Option<usize> {
        self.records.iter().position(|record| record[0] == b"ZPT")
    }

    pub fn file(&self) -> Vec<u8> {
        joined(&self.records, BAR, self.last_line_feed)
    }

    /// The records as a sheet, without a footer that stands last.
    pub fn sheet(&self) -> Vec<u8> {
        match self.records.split_last() {
            Some((last, before)) if last[0] == b"ZPT" => joined(before, TAB, self.last_line_feed),
            _ => joined(&self.records, TAB, self.last_line_feed),
        }
    }
}

/// The footer behind so many records with this checksum.
fn footer(before: usize, sum: u32) -> Fields {
    vec![b"ZPT".to_vec(), (before + 1).to_string().into_bytes(), sum.to_string().into_bytes()]
}

fn sum_of(records: &[Fields]) -> u32 {
    records.iter().fold(0, |sum, record| sum ^ checksum([record.join(&BAR).as_slice()]))
}

fn joined(records: &[Fields], separator: u8, last_line_feed: bool) -> Vec<u8> {
    let mut bytes = Vec::new();
    for record in records {
        bytes.extend(record.join(&separator));
        bytes.push(LINE_FEED);
    }
    if !last_line_feed {
        bytes.pop();
    }
    bytes
}

/// A record of a kind that the grammar has here, by the kinds' weights, its key in its order.
/// What is left moves on behind it.
fn next_record(
    flow: &Flow,
    left: &mut Arc<Set>,
    mut weights: Vec<usize>,
    keys: &mut BTreeMap<Kind, Vec<u8>>,
    dice: &mut Dice,
) -> Option<Fields> {
    while weights.iter().any(|&weight| weight > 0) {
        let place = dice.weighed(&weights);
        let layout = &flow.layouts[place];
        weights[place] = 0;
        let behind = match left.after(&layout.kind) {
            Some(behind) => behind,
            None => continue,
        };
        let mut key = None;
        if let Some(own) = layout.key {
            let before = keys.get(&layout.kind).map(Vec::as_slice);
            key = key_in_order(layout.rules[own.field - 2].form, own, before, dice);
            if key.is_none() {
                continue;
            }
        }
        let is_headed = |other: &&Layout| other.key.map_or(false, |own| own.head == layout.kind);
        for other in flow.layouts.iter().filter(is_headed) {
            keys.remove(&other.kind);
        }
        if let Some(key) = &key {
            keys.insert(layout.kind, key.clone());
        }
        *left = behind;
        return Some(good_record(layout, key, dice));
    }
    None
}

/// A record with good fields, and this key where one is given.
pub fn good_record(layout: &Layout, key: Option<Vec<u8>>, dice: &mut Dice) -> Fields {
    let mut record = vec![layout.kind.to_vec()];
    for rule in &layout.rules {
        record.push(match &rule.mark {
            Mark::Fixed(fixed) => fixed.clone(),
            Mark::Opt if dice.one_in(3) => Vec::new(),
            _ => good(rule.form, dice),
        });
    }
    if let (Some(own), Some(key)) = (layout.key, key) {
        record[own.field - 1] = key;
    }
    record
}
