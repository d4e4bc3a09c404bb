//! Files to index: those of every flow, and more of those with sets in sets, with many heads or many
//! children, or long.

use super::dice::Dice;
use super::draft::{good_record, Draft, Fields, LONG_FLOWS};
use super::files::{self, given, size, Given};
use crate::bytes::{kind_of, records_of, BAR};
use crate::flows::{named, Flow, Key};
use crate::judge::FILE_LIMIT;
use crate::stream::ENTRIES_LIMIT;

/// One in so many files has very many heads, or very many children of one head.
const MANY: usize = 40;
/// One in so many files is near its limit, or just over it.
const LONG: usize = 100;

/// Words of flows, each with kinds that go downward, each under the one before; the last can come any number of times.
const DOWNWARD: [(&str, &[&[u8; 3]]); 5] = [
    ("P0181002", &[b"GS7", b"SUP", b"BMU"]),
    ("P0133001 533", &[b"SB1", b"CM1"]),
    ("P0133001 711", &[b"SB1", b"CM1"]),
    ("P0134001", &[b"SB2", b"CM2"]),
    ("P0164001", &[b"SUB", b"SP7"]),
];

pub fn file(dice: &mut Dice) -> Given {
    if dice.one_in(LONG) {
        return if dice.one_in(2) { files::long_file(dice) } else { many_children(FILE_LIMIT, dice) };
    }
    if dice.one_in(MANY) {
        let wanted = *dice.pick(&[255, 256, 257, 3000]);
        return if dice.one_in(2) { many_heads(dice) } else { many_children(wanted, dice) };
    }
    match dice.below(3) {
        0 => sets_in_sets(dice),
        _ => files::file(45, dice),
    }
}

/// How many records of these bytes head a set of the flow, whether they are accepted or not.
pub fn count(words: &[u8], file: &[u8]) -> usize {
    let is_head = |kind: &[u8]| named(words).map_or(false, |flow| flow.grammar.under(kind).is_some());
    records_of(file).into_iter().filter(|record| is_head(kind_of(record))).count()
}

/// A good file of the flow that has heads under heads.
fn sets_in_sets(dice: &mut Dice) -> Given {
    let draft = Draft::good(published("P0181002"), size(dice), dice);
    given(&draft, draft.file(), dice)
}

fn published(words: &str) -> &'static Flow {
    named(words.as_bytes()).expect("the flows named here are published")
}

/// A good file with as many heads as a list can have entries, or one more or less. Most of them
/// have no children; the same few sets stand before these and behind them.
fn many_heads(dice: &mut Dice) -> Given {
    let (words, kind) = *dice.pick(&LONG_FLOWS);
    let mut draft = Draft::good(published(words), 300, dice);
    let sets = draft.records[1..draft.records.len() - 1].to_vec();
    let own = count(words.as_bytes(), &draft.file());
    let wanted = *dice.pick(&[ENTRIES_LIMIT - 1, ENTRIES_LIMIT, ENTRIES_LIMIT + 1]);
    let lone = good_record(draft.flow.layout(kind).expect("a kind of its flow"), None, dice);
    let more = vec![lone; wanted - 2 * own];
    draft.put_last(more.into_iter().chain(sets));
    given(&draft, draft.file(), dice)
}

/// A good file whose last head has so many children, or as many as a file has room for.
fn many_children(wanted: usize, dice: &mut Dice) -> Given {
    let (words, kinds) = *dice.pick(&DOWNWARD);
    let mut draft = Draft::good(published(words), 300, dice);
    let layouts: Vec<_> = kinds.iter().map(|kind| draft.flow.layout(*kind).expect("its kind")).collect();
    let mut set: Vec<Fields> = layouts.iter().map(|layout| good_record(layout, None, dice)).collect();
    let (child, key) = (set.pop().expect("a child"), layouts[layouts.len() - 1].key);
    let numbered = |number: usize| {
        let mut child = child.clone();
        // A strict key must rise; another may stay.
        if let Some(Key { field, equal_allowed: false, .. }) = key {
            child[field - 1] = format!("A{:06}", number).into_bytes();
        }
        child
    };
    // All the rest of the file takes less than 1000 bytes.
    let room = (FILE_LIMIT - 1000) / (numbered(0).join(&BAR).len() + 1);
    set.extend((0..wanted.min(room)).map(numbered));
    draft.put_last(set);
    given(&draft, draft.file(), dice)
}
