//! Seeded cases: the same seed gives the same stream on every machine.

pub mod dice;
pub mod draft;
pub mod editions;
pub mod edits;
pub mod faults;
pub mod files;
pub mod footers;
pub mod heads;
pub mod keys;
pub mod parts;
pub mod periods;
pub mod sweep;
pub mod texts;
pub mod values;
pub mod words;

use crate::bytes::{fields_of, records_of};
use crate::csv::{imported, made_text};
use crate::sheet::{made_file, made_sheet};
use crate::stream::{ASKED_LIMIT, CASE_KINDS, ENTRIES_LIMIT, LENGTH_LIMIT};
use dice::Dice;
use files::{given, Given};
use periods::Asked;
use sweep::{swept, swept_field, swept_period, swept_text, Swept};

/// What comes in one round: each kind of case, so many by the dice, so many from a sweep.
const ROUND: [(&str, usize, usize); 11] = [
    ("judge", 8, 2),
    ("value", 3, 1),
    ("field", 4, 2),
    ("sum", 1, 0),
    ("step", 3, 0),
    ("write", 4, 1),
    ("read", 3, 1),
    ("index", 4, 1),
    ("export", 3, 1),
    ("import", 5, 2),
    ("period", 6, 2),
];

/// One place in a round.
struct Slot {
    kind: &'static str,
    is_swept: bool,
}

/// The maker of a stream: its case n hangs on the seed, the kinds asked for and n alone.
pub struct Generator {
    seed: u64,
    round: Vec<Slot>,
}

impl Generator {
    /// A generator of these kinds of case, a comma list; none named means all.
    pub fn new(seed: u64, kinds: &str) -> Option<Generator> {
        let names: Vec<&str> =
            if kinds.is_empty() { CASE_KINDS.to_vec() } else { kinds.split(',').collect() };
        let mut round = Vec::new();
        for name in names {
            let &(kind, by_dice, from_sweep) = ROUND.iter().find(|(kind, _, _)| *kind == name)?;
            round.extend((0..by_dice + from_sweep).map(|place| Slot { kind, is_swept: place >= by_dice }));
        }
        Some(Generator { seed, round })
    }

    /// The first `count` cases as one stream.
    pub fn stream(&self, count: u64) -> Vec<u8> {
        (0..count).flat_map(|place| self.case(place)).collect()
    }

    /// One case, header and body.
    pub fn case(&self, place: u64) -> Vec<u8> {
        let dice = &mut Dice::new(self.seed, place);
        let slot = (place % self.round.len() as u64) as usize;
        let turn = self.turn(slot, (place / self.round.len() as u64) as usize);
        match self.round[slot].kind {
            "judge" => {
                let (Given { flow, bytes }, _) = file(turn, 20, dice);
                written(b"judge", &flow, "", &bytes)
            }
            "value" => value_case(turn, dice),
            "field" => field_case(turn, dice),
            "sum" => {
                let bytes = parts::sum_bytes(dice);
                [format!("sum\t{}\n", bytes.len()).as_bytes(), &bytes].concat()
            }
            "step" => {
                let (flow, kinds) = parts::step_list(dice);
                written(b"step", &flow, "", &kinds)
            }
            "write" => {
                let Given { flow, bytes } = sheet(turn, dice);
                let room = room(made_file(&bytes).len(), LENGTH_LIMIT, dice);
                written(b"write", &flow, &format!("\t{}", room), &bytes)
            }
            "read" => read_case(turn, dice),
            "index" => index_case(turn, dice),
            "export" => export_case(turn, dice),
            "import" => import_case(turn, dice),
            _ => period_case(turn, dice),
        }
    }

    /// Which turn of its sweep a slot takes in this round, if it is swept.
    fn turn(&self, slot: usize, round: usize) -> Option<usize> {
        let own = &self.round[slot];
        let shares = |other: &&Slot| other.is_swept && sweep_of(other.kind) == sweep_of(own.kind);
        let before = self.round[..slot].iter().filter(shares).count();
        let all = self.round.iter().filter(shares).count();
        // Short streams of other seeds begin elsewhere.
        let start = Dice::new(self.seed, u64::MAX).below(1000);
        if own.is_swept {
            // The slots change places each round, so that each has every turn of the sweep in time,
            // even where their number divides that of the turns.
            Some(start + round * all + (before + round) % all)
        } else {
            None
        }
    }
}

/// The sweep of a kind of case: files and sheets share one; single fields, texts and files asked for a
/// period have their own.
fn sweep_of(kind: &str) -> &str {
    match kind {
        "field" | "import" | "period" => kind,
        _ => "file",
    }
}

fn value_case(turn: Option<usize>, dice: &mut Dice) -> Vec<u8> {
    let (Given { flow, bytes }, swept) = file(turn, 70, dice);
    let (record, field) = swept.unwrap_or_else(|| asked_field(&bytes, dice));
    written(b"value", &flow, &format!("\t{}\t{}", record, field), &bytes)
}

fn field_case(turn: Option<usize>, dice: &mut Dice) -> Vec<u8> {
    let case = match turn {
        Some(turn) => swept_field(turn, dice),
        None => parts::field(dice),
    };
    let words = format!("\t{}\t{}", case.mark, case.fixed.len());
    with_fixed(written(b"field", case.form.as_bytes(), &words, &case.bytes), &case)
}

/// One in so many of the files that are read is at its limit.
const LONG_READ: usize = 40;

fn read_case(turn: Option<usize>, dice: &mut Dice) -> Vec<u8> {
    let (Given { flow, bytes }, _) = match turn {
        None if dice.one_in(LONG_READ) => (files::long_file(dice), None),
        _ => file(turn, 45, dice),
    };
    let room = room(made_sheet(&bytes).len(), LENGTH_LIMIT, dice);
    written(b"read", &flow, &format!("\t{}", room), &bytes)
}

fn index_case(turn: Option<usize>, dice: &mut Dice) -> Vec<u8> {
    let Given { flow, bytes } = match turn {
        None => heads::file(dice),
        _ => file(turn, 0, dice).0,
    };
    let room = room(heads::count(&flow, &bytes), ENTRIES_LIMIT, dice);
    written(b"index", &flow, &format!("\t{}", room), &bytes)
}

fn export_case(turn: Option<usize>, dice: &mut Dice) -> Vec<u8> {
    let Given { flow, bytes } = match turn {
        None => texts::file(dice),
        _ => file(turn, 0, dice).0,
    };
    let room = room(made_text(&bytes).len(), LENGTH_LIMIT, dice);
    written(b"export", &flow, &format!("\t{}", room), &bytes)
}

fn import_case(turn: Option<usize>, dice: &mut Dice) -> Vec<u8> {
    let text = match turn {
        Some(turn) => swept_text(turn, dice),
        None => texts::text(dice),
    };
    // A text that gives no sheet has room for one of its own length, or too little.
    let length = imported(&text).map_or(text.len(), |imported| imported.sheet.len());
    let room = room(length, LENGTH_LIMIT, dice).to_string();
    written(b"import", room.as_bytes(), "", &text)
}

fn period_case(turn: Option<usize>, dice: &mut Dice) -> Vec<u8> {
    let Asked { given: Given { flow, bytes }, period } = match turn {
        Some(turn) => swept_period(turn, dice),
        None => periods::asked(dice),
    };
    written(b"period", &flow, &format!("\t{}", period), &bytes)
}

/// A file, with the record and field that the sweep changed if it did.
fn file(turn: Option<usize>, good: usize, dice: &mut Dice) -> (Given, Option<(usize, usize)>) {
    match turn {
        Some(turn) => {
            let Swept { draft, record, field } = swept(turn, dice);
            (given(&draft, draft.file(), dice), Some((record, field)))
        }
        None => (files::file(good, dice), None),
    }
}

fn sheet(turn: Option<usize>, dice: &mut Dice) -> Given {
    match turn {
        Some(turn) => {
            let draft = swept(turn, dice).draft;
            given(&draft, draft.sheet(), dice)
        }
        None => files::sheet(45, dice),
    }
}

/// A case: its name, a first word, the other words, the body's length and the body.
fn written(name: &[u8], first: &[u8], words: &str, body: &[u8]) -> Vec<u8> {
    assert!(body.len() <= LENGTH_LIMIT, "a body that no header can state");
    let end = format!("{}\t{}\n", words, body.len());
    [name, b"\t", first, end.as_bytes(), body].concat()
}

/// Puts the fixed value between the header and the field's bytes.
fn with_fixed(mut written: Vec<u8>, case: &parts::FieldCase) -> Vec<u8> {
    let place = written.len() - case.bytes.len();
    written.splice(place..place, case.fixed.iter().copied());
    written
}

/// A field to ask for: mostly one that is there, at times 0, or one past the end.
fn asked_field(file: &[u8], dice: &mut Dice) -> (usize, usize) {
    let records = records_of(file);
    let record = asked(records.len(), dice);
    let fields = records.get(record.wrapping_sub(1)).map_or(7, |record| fields_of(record).len());
    (record, asked(fields, dice))
}

fn asked(count: usize, dice: &mut Dice) -> usize {
    match dice.below(16) {
        0 => 0,
        1 => *dice.pick(&[count + 1, count + 1, count + 2, 255, 65_536, ASKED_LIMIT]),
        2 => count,
        _ => dice.between(1, count.max(1)),
    }
}

/// Room for a result of this length: exact, one short, none, or more than it needs; no more than a
/// header can state.
fn room(length: usize, limit: usize, dice: &mut Dice) -> usize {
    let room = match dice.below(10) {
        0..=2 => length,
        3 => length.saturating_sub(1),
        4 => 0,
        5 => dice.below(length + 1),
        6 if dice.one_in(20) => limit,
        _ => length + dice.between(1, 300),
    };
    room.min(limit)
}
