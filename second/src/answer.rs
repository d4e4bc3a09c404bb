//! The answer to a case, as `nightly` prints it: words parted by tabs, a line a case.
//! A refusal has five words, the place last, and so has judge's `ok`; lines of write, read, index,
//! export and import have a sixth. All other lines have four; a last word of no bytes keeps its tab.

use crate::bytes::{checksum, records_of, LINE_FEED};
use crate::csv::{export, import};
use crate::field::{judge_field, Value};
use crate::index::{index, Entry, Indexed};
use crate::judge::{judge, value};
use crate::period::has_period;
use crate::refusal::Refusal;
use crate::sheet::{read, write, Done};
use crate::step::{step, Step};
use crate::stream::Ask;

/// The line that ends a run at a header it can't read.
pub const BAD_HEADER: &[u8] = b"bad header\n";

/// An answer's line, its line feed in, and behind it the bytes of a file, sheet or text made, or a
/// line for each entry of an index.
pub fn answer(ask: &Ask) -> Vec<u8> {
    match ask {
        Ask::Judge { flow, file } => match judge(flow, file) {
            Ok(records) => line(&format!("ok\t0\t{}\t0\t0", records)),
            Err(refusal) => line(&refused(refusal)),
        },
        Ask::Value { flow, record, field, file } => value_line(value(flow, file, *record, *field)),
        Ask::Field { form, mark, bytes } => {
            value_line(judge_field(*form, mark, bytes).map_err(Refusal::whole))
        }
        Ask::Sum { bytes } => line(&format!("ok\t0\t{}\t0", checksum(records_of(bytes)))),
        Ask::Step { flow, kinds } => step_line(step(flow, kinds)),
        Ask::Write { flow, room, sheet } => in_room(*room, |room| write(flow, sheet, room)),
        Ask::Read { flow, room, file } => in_room(*room, |room| read(flow, file, room)),
        Ask::Index { flow, room, file } => in_list(*room, |list| index(flow, file, list)),
        Ask::Export { flow, room, file } => in_room(*room, |room| export(flow, file, room)),
        Ask::Import { room, text } => in_room(*room, |room| import(text, room)),
        Ask::Period { flow, period, file } => value_line(has_period(flow, file, *period).map(Value::Truth)),
    }
}

fn line(words: &str) -> Vec<u8> {
    format!("{}\n", words).into_bytes()
}

/// The words of a refusal.
fn refused(refusal: Refusal) -> String {
    let Refusal { number, record, field, place } = refusal;
    format!("refused\t{}\t{}\t{}\t{}", number, record, field, place)
}

fn value_line(value: Result<Value, Refusal>) -> Vec<u8> {
    match value {
        Ok(Value::Empty) => line("ok\t0\tempty\t"),
        Ok(Value::Number(number)) => line(&format!("ok\t0\tnumber\t{}", number)),
        Ok(Value::Truth(truth)) => line(if truth { "ok\t0\ttruth\tT" } else { "ok\t0\ttruth\tF" }),
        Ok(Value::Text(text)) => [b"ok\t0\ttext\t", text, b"\n"].concat(),
        Err(refusal) => line(&refused(refusal)),
    }
}

fn step_line(step: Result<Step, Refusal>) -> Vec<u8> {
    match step {
        Ok(Step::Stopped(place)) => line(&format!("stopped\t0\t{}\t0", place)),
        Ok(Step::Through { complete, follow }) => {
            let state: &[u8] = if complete { b"complete" } else { b"open" };
            [b"ok\t0\t", state, b"\t", &follow.concat(), b"\n"].concat()
        }
        Err(refusal) => line(&refused(refusal)),
    }
}

/// Lends a room that holds a pattern, and tells whether every byte that should keep it did.
fn in_room(size: usize, put: impl FnOnce(&mut [u8]) -> Result<Done, Refusal>) -> Vec<u8> {
    let pattern = |place: usize| (place * 167 + 13) as u8;
    let mut room: Vec<u8> = (0..size).map(pattern).collect();
    let done = put(&mut room);
    let written = done.map_or(0, |done| done.bytes);
    let kept = (written..size).all(|place| room[place] == pattern(place));
    let kept = if kept { 1 } else { 0 };
    match done {
        Ok(Done { records, bytes }) => {
            let mut answer = line(&format!("ok\t0\t{}\t{}\t0\t{}", records, bytes, kept));
            answer.extend(&room[..bytes]);
            answer.push(LINE_FEED);
            answer
        }
        Err(refusal) => line(&format!("{}\t{}", refused(refusal), kept)),
    }
}

/// Lends a list whose entries hold a pattern, and tells whether every entry that should keep it did.
/// The pattern's numbers are far above all that an index can hold.
fn in_list(size: usize, fill: impl FnOnce(&mut [Entry]) -> Result<Indexed, Refusal>) -> Vec<u8> {
    let pattern = |place: usize| {
        let number = |of: usize| usize::MAX - 4 * place - of;
        Entry { record: number(0), place: number(1), parent: number(2), children: number(3) }
    };
    let mut list: Vec<Entry> = (0..size).map(pattern).collect();
    let indexed = fill(&mut list);
    let written = indexed.map_or(0, |indexed| indexed.entries);
    let kept = (written..size).all(|place| list[place] == pattern(place));
    let kept = if kept { 1 } else { 0 };
    match indexed {
        Ok(Indexed { records, entries }) => {
            let mut answer = line(&format!("ok\t0\t{}\t{}\t0\t{}", records, entries, kept));
            list[..entries].iter().for_each(|entry| answer.extend(entry_line(entry)));
            answer
        }
        Err(refusal) => line(&format!("{}\t{}", refused(refusal), kept)),
    }
}

fn entry_line(entry: &Entry) -> Vec<u8> {
    let Entry { record, place, parent, children } = entry;
    line(&format!("{}\t{}\t{}\t{}", record, place, parent, children))
}
