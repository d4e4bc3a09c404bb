//! A file judged for a flow, and the value of one of its fields.

use crate::bytes::{checksum, fields_of, kind_of, place_in, records_of, LINE_FEED};
use crate::field::{judge_field, Type, Value};
use crate::flows::{named, Flow, Key, Layout};
use crate::grammar::Set;
use crate::refusal::Refusal;
use std::cmp::Ordering;
use std::sync::Arc;

pub const FILE_LIMIT: usize = 1_048_576;
pub const RECORD_LIMIT: usize = 512;

/// What is wrong with one record: number and field.
type Fault = (u8, usize);

/// The number of records of an accepted file, or the first refusal in document 01's order. Here and
/// in every other part the flow is given by its words: a name, or a name, a space and an edition.
pub fn judge(flow: &[u8], file: &[u8]) -> Result<usize, Refusal> {
    let flow = named(flow)?;
    if file.len() > FILE_LIMIT {
        return Err(Refusal::whole(2));
    }
    let records = records_of(file);
    let mut left = flow.grammar.clone();
    for count in 1..=records.len() {
        left = judge_record(flow, &left, &records[..count]).map_err(|(number, field)| {
            Refusal::at(number, count, field, place_in(file, part_named(records[count - 1], field)))
        })?;
    }
    if !left.is_complete() {
        return Err(Refusal::at(14, records.len() + 1, 0, file.len()));
    }
    if flow.needs_last_line_feed && file.last() != Some(&LINE_FEED) {
        return Err(Refusal::at(15, records.len(), 0, place_in(file, records[records.len() - 1])));
    }
    Ok(records.len())
}

/// The part of a record that a fault's field names: all of it where that is 0.
fn part_named(record: &[u8], field: usize) -> &[u8] {
    match field {
        0 => record,
        _ => fields_of(record)[field - 1],
    }
}

/// The value of a field: the file's own refusals first, then 18 with the numbers as asked.
pub fn value<'a>(flow: &[u8], file: &'a [u8], record: usize, field: usize) -> Result<Value<'a>, Refusal> {
    judge(flow, file)?;
    let found = find_field(named(flow)?, file, record, field);
    found.ok_or_else(|| Refusal::at(18, record, field, place_of_missing(file, record)))
}

/// Where a missing field is pointed at: its record, or the file's end where that is missing too, or
/// the file's start where record 0 was asked for.
fn place_of_missing(file: &[u8], record: usize) -> usize {
    match record.checked_sub(1) {
        Some(before) => records_of(file).get(before).map_or(file.len(), |record| place_in(file, record)),
        None => 0,
    }
}

/// A field of an accepted file, by record and field; None where there is none.
fn find_field<'a>(flow: &Flow, file: &'a [u8], record: usize, field: usize) -> Option<Value<'a>> {
    let fields = fields_of(records_of(file).get(record.checked_sub(1)?)?);
    let bytes = *fields.get(field.checked_sub(1)?)?;
    if field == 1 {
        return Some(Value::Text(bytes));
    }
    let rule = &flow.layout(fields[0])?.rules[field - 2];
    judge_field(rule.form, &rule.mark, bytes).ok()
}

/// The last of these records against the flow, with what the grammar has left for it.
/// Gives what is left behind it.
fn judge_record(flow: &Flow, left: &Arc<Set>, records: &[&[u8]]) -> Result<Arc<Set>, Fault> {
    let (record, before) = records.split_last().expect("there is a record to judge");
    if record.len() > RECORD_LIMIT {
        return Err((3, 0));
    }
    let layout = flow.layout(kind_of(record)).ok_or((4, 1))?;
    let left = left.after(&layout.kind).ok_or((5, 1))?;
    let fields = fields_of(record);
    if fields.len() != layout.rules.len() + 1 {
        return Err((6, 0));
    }
    for (place, (rule, bytes)) in layout.rules.iter().zip(&fields[1..]).enumerate() {
        judge_field(rule.form, &rule.mark, bytes).map_err(|number| (number, place + 2))?;
    }
    if let Some(key) = layout.key {
        judge_key(layout, key, &fields, before)?;
    }
    if layout.kind == *b"ZPT" {
        judge_footer(&fields, before)?;
    }
    Ok(left)
}

/// A key is out of its order where it is below that of the nearest record of its kind before, or
/// equal to it and that is not allowed, unless a head of its set is nearer. Looking back stops at
/// the first of either.
fn judge_key(layout: &Layout, key: Key, fields: &[&[u8]], before: &[&[u8]]) -> Result<(), Fault> {
    let nearest =
        before.iter().rev().find(|record| kind_of(record) == layout.kind || kind_of(record) == key.head);
    match nearest {
        Some(record) if kind_of(record) == layout.kind => {
            let form = layout.rules[key.field - 2].form;
            match compared(form, fields[key.field - 1], fields_of(record)[key.field - 1]) {
                Ordering::Greater => Ok(()),
                Ordering::Equal if key.equal_allowed => Ok(()),
                Ordering::Equal | Ordering::Less => Err((11, key.field)),
            }
        }
        _ => Ok(()),
    }
}

/// Whether the key is below the one before, equal to it or above it.
/// Texts go by byte, a shorter one before one that continues it; the rest go by value.
fn compared(form: Type, key: &[u8], before: &[u8]) -> Ordering {
    match (whole_number(form, key), whole_number(form, before)) {
        (Some(key), Some(before)) => key.cmp(&before),
        _ => key.cmp(before),
    }
}

/// The number that a filled field of this type stands for; None where it is refused, or no number.
pub fn whole_number(form: Type, bytes: &[u8]) -> Option<i128> {
    match judge_field(form, &crate::field::Mark::None, bytes) {
        Ok(Value::Number(number)) => Some(number),
        _ => None,
    }
}

/// Count and checksum, as numbers: a minus, or a number too great, is a wrong one.
fn judge_footer(fields: &[&[u8]], before: &[&[u8]]) -> Result<(), Fault> {
    let number = |field: usize| whole_number(Type::Int(10), fields[field - 1]);
    if number(2) != Some(before.len() as i128 + 1) {
        return Err((12, 2));
    }
    if number(3) != Some(i128::from(checksum(before.iter().copied()))) {
        return Err((13, 3));
    }
    Ok(())
}
