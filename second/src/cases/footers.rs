//! Footers that are wrong, as a careless reading would have them, and footers that stand early or twice.

use super::dice::Dice;
use super::draft::Draft;
use crate::bytes::{checksum, BAR, LINE_FEED};

/// A wrong count: one off, the footer or the header left out, a minus, a number too great.
pub fn wrong_count(draft: &mut Draft, dice: &mut Dice) -> bool {
    let place = match draft.footer_place() {
        Some(place) if draft.records[place].len() == 3 => place,
        _ => return false,
    };
    let count = place as i64 + 1;
    let wrong = [count - 1, count + 1, 0, -count, count * 10, 9_999_999_999, count + 4_294_967_296, 1];
    draft.records[place][1] = dice.pick(&wrong).to_string().into_bytes();
    true
}

/// A wrong checksum, most of them as a wrong reading of the rule gives them.
pub fn wrong_checksum(draft: &mut Draft, dice: &mut Dice) -> bool {
    let place = match draft.footer_place() {
        Some(place) if draft.records[place].len() == 3 => place,
        _ => return false,
    };
    let before: Vec<Vec<u8>> = draft.records[..place].iter().map(|record| record.join(&BAR)).collect();
    let footer = draft.records[place].join(&BAR);
    let right = checksum(before.iter().map(Vec::as_slice));
    let run_on = before.concat();
    let with_line_feeds = before.join(&LINE_FEED);
    let filled_before: u32 = before.iter().map(|record| filled_on_the_left(record)).fold(0, |a, b| a ^ b);
    let wrong: [i64; 12] = [
        i64::from(right ^ 1),
        i64::from(right) + 1,
        i64::from(right) - 1,
        i64::from(right ^ 0x8000_0000),
        i64::from(right) + 4_294_967_296,
        -i64::from(right),
        i64::from(right.swap_bytes()),
        0,
        i64::from(checksum([run_on.as_slice()])),
        i64::from(checksum([with_line_feeds.as_slice()])),
        i64::from(filled_before),
        i64::from(right ^ checksum([footer.as_slice()])),
    ];
    draft.records[place][2] = dice.pick(&wrong).to_string().into_bytes();
    true
}

/// The checksum of a record with its last piece filled on the wrong side.
fn filled_on_the_left(record: &[u8]) -> u32 {
    let pieces = record.chunks(4).map(|piece| piece.iter().fold(0, |sum, &byte| sum << 8 | u32::from(byte)));
    pieces.fold(0, |sum, piece: u32| sum ^ piece)
}

/// A footer of its own behind some record, right for its place; the rest comes after it.
pub fn early_footer(draft: &mut Draft, dice: &mut Dice) {
    let place = dice.between(0, draft.records.len().saturating_sub(1));
    draft.records.insert(place, vec![b"ZPT".to_vec(), Vec::new(), Vec::new()]);
    draft.refoot();
}

/// Makes a good draft one whose sheet the writer can add no footer to: it is cut where the grammar
/// has none yet, or it has its own.
pub fn no_made_footer(draft: &mut Draft, dice: &mut Dice) {
    let cuts = unfinished(draft);
    if cuts.is_empty() || dice.one_in(2) {
        draft.records.extend(draft.records.last().cloned());
    } else {
        draft.records.truncate(*dice.pick(&cuts));
    }
}

/// After how many records of a good draft, one at least, the grammar has no footer yet.
fn unfinished(draft: &Draft) -> Vec<usize> {
    let mut left = draft.flow.grammar.clone();
    let mut counts = Vec::new();
    for (before, record) in draft.records.iter().enumerate() {
        left = left.after(&record[0]).expect("the grammar goes through a good draft");
        if record[0] != b"ZPT" && left.after(b"ZPT").is_none() {
            counts.push(before + 1);
        }
    }
    counts
}
