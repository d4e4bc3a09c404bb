//! An index beside a file (document 02's C-13), by a stack of open heads.

use crate::bytes::{kind_of, place_in, records_of};
use crate::flows::named;
use crate::grammar::Set;
use crate::judge::judge;
use crate::refusal::Refusal;
use std::sync::Arc;

/// A record that may have children.
#[derive(Clone, Copy, Debug, PartialEq, Eq)]
pub struct Entry {
    /// The record's number, counted from 1.
    pub record: usize,
    /// Its first byte, counted from 0.
    pub place: usize,
    /// The entry of the record it stands right under, counted from 1; its own if there is none.
    pub parent: usize,
    /// How many records stand right under it.
    pub children: usize,
}

/// An acceptance: the records of the file, and the entries put into the list.
#[derive(Clone, Copy, Debug, PartialEq, Eq)]
pub struct Indexed {
    pub records: usize,
    pub entries: usize,
}

/// Fills the list from an accepted file. A refusal leaves the list as it was.
pub fn index(flow: &[u8], file: &[u8], list: &mut [Entry]) -> Result<Indexed, Refusal> {
    let records = judge(flow, file)?;
    let entries = entries_of(&named(flow)?.grammar, file);
    let part = list.get_mut(..entries.len()).ok_or_else(|| Refusal::whole(19))?;
    part.copy_from_slice(&entries);
    Ok(Indexed { records, entries: entries.len() })
}

/// A head whose set may still go on: its entry, counted from 1, and what is left of the set.
struct Open {
    entry: usize,
    left: Arc<Set>,
}

/// The entries of a file that the grammar goes through. When a record has closed what it closes, the
/// last head that is still open is the one it stands right under.
pub fn entries_of(grammar: &Set, file: &[u8]) -> Vec<Entry> {
    let mut entries: Vec<Entry> = Vec::new();
    let mut open: Vec<Open> = Vec::new();
    for (before, record) in records_of(file).into_iter().enumerate() {
        let kind = kind_of(record);
        go_on(&mut open, kind);
        let parent = open.last().map(|head| head.entry);
        if let Some(parent) = parent {
            entries[parent - 1].children += 1;
        }
        if let Some(under) = grammar.under(kind) {
            let entry = entries.len() + 1;
            let place = place_in(file, record);
            entries.push(Entry { record: before + 1, place, parent: parent.unwrap_or(entry), children: 0 });
            open.push(Open { entry, left: under.clone() });
        }
    }
    entries
}

/// Closes the sets that have no such kind left, the innermost first; the others go on behind it.
fn go_on(open: &mut Vec<Open>, kind: &[u8]) {
    while open.last().map_or(false, |head| head.left.after(kind).is_none()) {
        open.pop();
    }
    for head in open {
        head.left = head.left.after(kind).expect("what an inner set has left, the outer has too");
    }
}
