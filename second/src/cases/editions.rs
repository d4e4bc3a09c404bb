//! P0133001 for one edition and for the other (document 02's C-16): right for the edition that is asked
//! for, for the other, for both or for neither.

use super::dice::Dice;
use super::draft::{good_record, Draft};
use super::faults::spoil;
use super::files::{size, FAULTS};
use super::words;
use crate::flows::{published, Flow};

/// A draft laid out for one edition, and words that ask for the other, or at times for the same one.
pub fn draft_and_words(dice: &mut Dice) -> (Draft, Vec<u8>) {
    let mut editions: Vec<&Flow> = published().iter().filter(|flow| flow.name == "P0133001").collect();
    if dice.one_in(2) {
        editions.reverse();
    }
    let mut draft = Draft::good(editions[0], size(dice), dice);
    match dice.below(4) {
        0 => put_subject_of(editions[1], &mut draft, dice),
        1 => {
            let fault = *dice.pick(&FAULTS);
            spoil(&mut draft, &[fault], dice);
        }
        _ => {}
    }
    let asked = if dice.one_in(3) { editions[0] } else { editions[1] };
    (draft, words::right(asked, dice))
}

/// Puts a subject header as this edition has it in, somewhere between the draft's header and its footer.
fn put_subject_of(edition: &Flow, draft: &mut Draft, dice: &mut Dice) {
    let layout = edition.layout(b"SB1").expect("each edition has a subject header");
    let place = dice.between(1, draft.records.len() - 1);
    draft.records.insert(place, good_record(layout, None, dice));
    draft.refoot();
}
