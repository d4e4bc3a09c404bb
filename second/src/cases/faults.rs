//! Faults put into a good draft, each by the number of the refusal it should bring.

use super::dice::Dice;
use super::draft::{good_record, Draft};
use super::footers::{wrong_checksum, wrong_count};
use super::keys::key_out_of_order;
use super::values::{bad_form, bad_range, good, letters};
use crate::field::{Mark, Type};
use crate::flows::{Layout, Rule};

/// Where in a file a fault should stand; it takes the nearest record that can have it.
#[derive(Clone, Copy, PartialEq)]
pub enum Place {
    First,
    Middle,
    Last,
    Any,
    /// A record by its place, counted from 0.
    At(usize),
}

pub const PLACES: [Place; 4] = [Place::First, Place::Middle, Place::Last, Place::Any];

/// Puts the faults in, anywhere.
pub fn spoil(draft: &mut Draft, numbers: &[u8], dice: &mut Dice) {
    spoil_at(&PLACES, draft, numbers, dice);
}

/// Puts the faults in at some of the places. Those of fields come first and those of kinds later,
/// so that one does not undo the other; then the footer is mostly set right again, so that only the
/// wanted faults are left; then the faults of the footer and of the end.
pub fn spoil_at(places: &[Place], draft: &mut Draft, numbers: &[u8], dice: &mut Dice) {
    let shared = *dice.pick(places);
    let alone = dice.one_in(2);
    let put = |draft: &mut Draft, order: &[u8], dice: &mut Dice| {
        for &number in order.iter().filter(|number| numbers.contains(number)) {
            let place = if alone { *dice.pick(places) } else { shared };
            put_fault(draft, number, place, dice);
        }
    };
    put(draft, &[11, 10, 9, 8, 7, 6, 5, 4, 3], dice);
    if !dice.one_in(4) {
        draft.refoot();
    }
    put(draft, &[14, 13, 12, 15], dice);
}

/// Puts one fault in, and tells whether the draft could have it.
pub fn put_fault(draft: &mut Draft, number: u8, place: Place, dice: &mut Dice) -> bool {
    match number {
        3 => too_long(draft, place, dice),
        4 => foreign_kind(draft, place, dice),
        5 => kind_out_of_place(draft, place, dice),
        6 => wrong_number_of_fields(draft, place, dice),
        7..=10 => bad_field(draft, number, place, dice),
        11 => bad_key(draft, place, dice),
        12 => wrong_count(draft, dice),
        13 => wrong_checksum(draft, dice),
        14 => cut_short(draft, place, dice),
        15 => {
            draft.last_line_feed = false;
            true
        }
        _ => false,
    }
}

/// The places of all records, beginning with the wanted one.
fn from_place(place: Place, count: usize, dice: &mut Dice) -> Vec<usize> {
    let start = match place {
        Place::First => 0,
        Place::Last => return (0..count).rev().collect(),
        Place::Middle => count / 2,
        Place::Any => dice.below(count.max(1)),
        Place::At(record) => record.min(count),
    };
    (start..count).chain(0..start).collect()
}

/// The first record from the wanted place on that is of a known kind, has all its fields
/// and offers some choices; with one of them.
fn choose(
    draft: &Draft,
    place: Place,
    dice: &mut Dice,
    choices: impl Fn(&Layout) -> Vec<usize>,
) -> Option<(usize, usize)> {
    for record in from_place(place, draft.records.len(), dice) {
        let fields = &draft.records[record];
        if let Some(layout) = draft.flow.layout(&fields[0]) {
            let choices = choices(layout);
            if fields.len() == layout.rules.len() + 1 && !choices.is_empty() {
                return Some((record, *dice.pick(&choices)));
            }
        }
    }
    None
}

/// A record of 513 bytes or more; at times of 512, which is still no refusal 3.
fn too_long(draft: &mut Draft, place: Place, dice: &mut Dice) -> bool {
    let count = draft.records.len();
    let record = match from_place(place, count, dice).first() {
        Some(&record) => &mut draft.records[record],
        None => return false,
    };
    let wanted = *dice.pick(&[512, 513, 513, 513, 514, 600, 1024, 5000]);
    let length = record.join(&b'|').len();
    let more = wanted - length.min(wanted);
    match dice.below(3) {
        0 => record.push(letters(more.saturating_sub(1), dice)),
        1 => record.extend(vec![Vec::new(); more]),
        _ => {
            let field = dice.below(record.len());
            record[field].extend(letters(more, dice));
        }
    }
    true
}

fn foreign_kind(draft: &mut Draft, place: Place, dice: &mut Dice) -> bool {
    let count = draft.records.len();
    let record = match from_place(place, count, dice).first() {
        Some(&record) => record,
        None => return false,
    };
    let own = draft.records[record][0].clone();
    let kind: Vec<u8> = match dice.below(6) {
        0 => own.to_ascii_lowercase(),
        1 => [&own[..], b" "].concat(),
        2 => own[..own.len().min(2)].to_vec(),
        3 => [&own[..], b"X"].concat(),
        4 => Vec::new(),
        _ => {
            let others: [&[u8]; 9] =
                [b"ZPI", b"GS7", b"SB1", b"SB2", b"SUB", b"XXX", b"ZH\x00", b"\xff\xff\xff", b"   "];
            dice.pick(&others).to_vec()
        }
    };
    match dice.below(3) {
        0 => draft.records.insert(record, vec![kind]),
        1 if place == Place::Last => draft.records.push(vec![kind]),
        _ => draft.records[record][0] = kind,
    }
    true
}

/// A good record of one of the flow's kinds where the grammar has no such kind.
fn kind_out_of_place(draft: &mut Draft, place: Place, dice: &mut Dice) -> bool {
    let count = draft.records.len();
    if place == Place::Last && dice.one_in(2) {
        let layout = dice.pick(&draft.flow.layouts);
        draft.records.push(good_record(layout, None, dice));
        return true;
    }
    let record = match from_place(place, count, dice).first() {
        Some(&record) => record,
        None => return false,
    };
    let before = draft.records[..record].iter();
    let start = Some(draft.flow.grammar.clone());
    let left = before.fold(start, |left, fields| left?.after(&fields[0]));
    let is_shut = |layout: &&Layout| left.as_ref().and_then(|left| left.after(&layout.kind)).is_none();
    let shut: Vec<&Layout> = draft.flow.layouts.iter().filter(is_shut).collect();
    match dice.below(5) {
        0 => drop(draft.records.remove(record)),
        1 if record + 1 < count => draft.records.swap(record, record + 1),
        2 if !shut.is_empty() => {
            let layout = *dice.pick(&shut);
            draft.records[record] = good_record(layout, None, dice);
        }
        _ if !shut.is_empty() => {
            let layout = *dice.pick(&shut);
            draft.records.insert(record, good_record(layout, None, dice));
        }
        _ => return false,
    }
    true
}

fn wrong_number_of_fields(draft: &mut Draft, place: Place, dice: &mut Dice) -> bool {
    match choose(draft, place, dice, |layout| (1..=layout.rules.len()).collect()) {
        Some((record, field)) => {
            let fields = &mut draft.records[record];
            match dice.below(4) {
                0 => fields.insert(field, b"X".to_vec()),
                1 => fields.push(Vec::new()),
                2 => fields.truncate(1),
                _ => drop(fields.remove(field)),
            }
            true
        }
        None => false,
    }
}

/// Whether a field with this rule can bring this refusal.
fn can_have(rule: &Rule, number: u8) -> bool {
    match number {
        7 => rule.mark != Mark::Opt && rule.form != Type::Null,
        8 => rule.form != Type::Null,
        9 => !matches!(rule.form, Type::Bol | Type::Null),
        _ => matches!(rule.mark, Mark::Fixed(_)) || rule.form == Type::Null,
    }
}

fn bad_field(draft: &mut Draft, number: u8, place: Place, dice: &mut Dice) -> bool {
    let fields = |layout: &Layout| {
        let all = layout.rules.iter().enumerate();
        all.filter(|(_, rule)| can_have(rule, number)).map(|(field, _)| field).collect()
    };
    let (record, field) = match choose(draft, place, dice, fields) {
        Some(chosen) => chosen,
        None => return false,
    };
    let fields = &mut draft.records[record];
    let rule = &draft.flow.layout(&fields[0]).expect("chosen by its layout").rules[field];
    fields[field + 1] = match number {
        7 => Vec::new(),
        8 => bad_form(rule.form, dice),
        9 => bad_range(rule.form, dice).unwrap_or_default(),
        _ if rule.form == Type::Null => bad_form(rule.form, dice),
        _ => good(rule.form, dice),
    };
    true
}

/// A key out of its order behind the one before it in its set.
fn bad_key(draft: &mut Draft, place: Place, dice: &mut Dice) -> bool {
    for record in from_place(place, draft.records.len(), dice) {
        let fields = &draft.records[record];
        let layout = draft.flow.layout(&fields[0]);
        let (layout, key) = match layout.and_then(|layout| Some((layout, layout.key?))) {
            Some(found) => found,
            None => continue,
        };
        let before = draft.records[..record].iter().rev();
        let nearest = before.clone().find(|other| other[0] == fields[0] || other[0] == key.head);
        let form = layout.rules[key.field - 2].form;
        let value = nearest
            .filter(|nearest| nearest[0] == fields[0])
            .and_then(|nearest| key_out_of_order(form, key, &nearest[key.field - 1], dice));
        if let Some(value) = value {
            draft.records[record][key.field - 1] = value;
            return true;
        }
    }
    false
}

/// The records end before the footer.
fn cut_short(draft: &mut Draft, place: Place, dice: &mut Dice) -> bool {
    let end = draft.footer_place().unwrap_or(draft.records.len());
    let left = match place {
        Place::First => dice.below(2),
        Place::Middle => end / 2,
        Place::Last => end,
        Place::Any => dice.between(0, end),
        Place::At(record) => record,
    };
    draft.records.truncate(left.min(end));
    true
}
