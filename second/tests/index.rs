//! Indexes (document 02's C-13) on seeded cases, by a third route: a record's parent is looked for
//! backwards, children are counted by their parents, places by the bytes before; and the cases reach
//! all that an index can come to.

mod common;
use common::words_of;
use second::cases::dice::Dice;
use second::cases::draft::Draft;
use second::cases::faults::{put_fault, PLACES};
use second::cases::Generator;
use second::flows::published;
use second::grammar::{any_number, headed, in_turn, one};
use second::index::{entries_of, index, Entry, Indexed};
use second::judge::judge;
use second::refusal::Refusal;
use second::stream::{cases_of, Ask};
use std::collections::BTreeMap;

/// Document 02's list of the records that may have children, each with its flow and, by document 01's
/// sets, the kind of its children.
const MAY_HAVE: [(&str, &str, &str); 5] = [
    ("P0181002", "GS7", "SUP"),
    ("P0181002", "SUP", "BMU"),
    ("P0133001", "SB1", "CM1"),
    ("P0134001", "SB2", "CM2"),
    ("P0164001", "SUB", "SP7"),
];

/// A record of an accepted file: its first byte, its kind, and the record (from 0) that it is a child of.
struct Line<'a> {
    place: usize,
    kind: &'a str,
    parent: Option<usize>,
}

fn lines_of<'a>(flow: &str, file: &'a [u8]) -> Vec<Line<'a>> {
    let mut lines: Vec<Line> = Vec::new();
    let mut place = 0;
    for bytes in file.split_inclusive(|&byte| byte == b'\n') {
        let kind = std::str::from_utf8(&bytes[..3]).expect("a kind of letters and digits");
        let above = MAY_HAVE.iter().find(|(of, _, child)| *of == flow && *child == kind);
        let parent = above.map(|(_, head, _)| parent_of(&lines, kind, head));
        lines.push(Line { place, kind, parent });
        place += bytes.len();
    }
    lines
}

/// The nearest record before of the head's kind. Looking back may stop at one of the own kind: no
/// head stands between the two, so they have one parent.
fn parent_of(before: &[Line], kind: &str, head: &str) -> usize {
    let nearest = before.iter().rposition(|line| line.kind == head || line.kind == kind);
    let nearest = nearest.expect("a child has a head before it");
    match before[nearest].parent {
        Some(parent) if before[nearest].kind == kind => parent,
        _ => nearest,
    }
}

/// The entries of an accepted file, found by reading it.
fn expected(flow: &str, file: &[u8]) -> Vec<Entry> {
    let lines = lines_of(flow, file);
    let mut children: BTreeMap<usize, usize> = BTreeMap::new();
    lines.iter().filter_map(|line| line.parent).for_each(|head| *children.entry(head).or_default() += 1);
    let may_have = |line: &Line| MAY_HAVE.iter().any(|(of, head, _)| *of == flow && *head == line.kind);
    let heads: Vec<usize> = (0..lines.len()).filter(|&at| may_have(&lines[at])).collect();
    let entry_of = |at: usize| heads.binary_search(&at).expect("a head has an entry") + 1;
    let entry = |&at: &usize| Entry {
        record: at + 1,
        place: lines[at].place,
        parent: entry_of(lines[at].parent.unwrap_or(at)),
        children: children.get(&at).map_or(0, |&count| count),
    };
    heads.iter().map(entry).collect()
}

/// What an entry of a lent list holds before: no two hold the same.
fn held(at: usize) -> Entry {
    Entry { record: at + 7_000_000, place: at + 8_000_000, parent: at + 9_000_000, children: at + 6_000_000 }
}

fn text(bytes: &[u8]) -> &str {
    std::str::from_utf8(bytes).unwrap_or("no text")
}

/// The flow's name among its words: an edition changes no grammar, and so no index.
fn name_in(words: &[u8]) -> &str {
    text(words.get(..8).unwrap_or(words))
}

/// Holds an index in a list of this length to the third route: the answer, and the whole list.
fn hold(flow: &[u8], file: &[u8], room: usize) -> Result<Indexed, Refusal> {
    let mut list: Vec<Entry> = (0..room).map(held).collect();
    let answer = index(flow, file, &mut list);
    let (right, entries) = match judge(flow, file) {
        Err(refusal) => (Err(refusal), Vec::new()),
        Ok(records) => match expected(name_in(flow), file) {
            entries if entries.len() > room => (Err(Refusal::whole(19)), Vec::new()),
            entries => (Ok(Indexed { records, entries: entries.len() }), entries),
        },
    };
    assert_eq!(answer, right, "{} in {}", text(flow), room);
    let kept = (entries.len()..room).map(held);
    assert!(list.into_iter().eq(entries.into_iter().chain(kept)), "{} in {}", text(flow), room);
    answer
}

#[test]
fn every_flow_in_every_room() {
    for (place, flow) in published().iter().enumerate() {
        for turn in 0..40 {
            let draft =
                Draft::good(flow, [0, 100, 400][turn as usize % 3], &mut Dice::new(place as u64, turn));
            let (words, file) = (words_of(flow), draft.file());
            let entries = expected(flow.name, &file).len();
            for room in 0..=entries + 2 {
                assert_eq!(hold(&words, &file, room).is_ok(), room >= entries);
            }
        }
    }
}

#[test]
fn a_set_of_several_kinds_in_turn() {
    // In no published flow does a head have children of two kinds.
    let inner = headed(b"CCC", any_number(one(b"DDD")));
    let outer = headed(b"AAA", in_turn([one(b"BBB"), any_number(inner), one(b"EEE")]));
    let grammar = in_turn([one(b"ZHD"), any_number(outer), one(b"ZPT")]);
    let file = b"ZHD\nAAA\nBBB\nCCC\nDDD\nDDD\nCCC\nEEE\nAAA\nBBB\nEEE\nZPT\n";
    let rows = entries_of(&grammar, file).into_iter();
    let rows: Vec<_> = rows.map(|entry| (entry.record, entry.place, entry.parent, entry.children)).collect();
    assert_eq!(rows, [(2, 4, 1, 4), (4, 12, 1, 2), (7, 24, 1, 0), (9, 32, 4, 2)]);
}

#[test]
fn no_fault_of_a_file_gives_way_to_a_short_list() {
    for number in 3..=15 {
        let refused = (0..80).filter(|&turn| {
            let dice = &mut Dice::new(turn, 100 + u64::from(number));
            let mut draft = Draft::good(dice.pick(published()), 500, dice);
            let had_entries = !expected(draft.flow.name, &draft.file()).is_empty();
            put_fault(&mut draft, number, *dice.pick(&PLACES), dice);
            let refusal = hold(&words_of(draft.flow), &draft.file(), 0).err();
            had_entries && refusal.map(|refusal| refusal.number) == Some(number)
        });
        assert!(refused.count() >= 10, "fault {}", number);
    }
}

/// The file of a case, the room it lends and what came of it.
struct Tried<'a> {
    flow: &'a str,
    file: &'a [u8],
    room: usize,
    answer: Result<Indexed, Refusal>,
}

/// What came of the room.
fn of_the_room(case: &Tried) -> Vec<String> {
    let number = case.answer.map_or_else(|refusal| refusal.number, |_| 0);
    let entries = match number {
        0 | 19 => expected(case.flow, case.file).len(),
        _ => 0,
    };
    let all = [
        (number == 0 && entries == case.room && entries > 0, "exactly enough"),
        (number == 0 && entries < case.room && entries > 0, "more than enough"),
        (number == 0 && entries == 0 && case.room == 0, "none needed, none there"),
        (number == 0 && entries == 0 && case.room > 0, "none needed"),
        (number == 19 && entries == case.room + 1, "one too few"),
        (number == 19 && entries > case.room + 1, "far too few"),
        (number == 19 && case.room == 0, "none there"),
        (number == 0 && entries == 8192, "as many as a list can have"),
        (number == 19 && entries == 8193 && case.room == 8192, "one more than a list can have"),
        (number == 0 && entries > 0 && case.file.len() > 1_047_000, "a long file"),
        (number > 0 && number < 19, "the reader's"),
    ];
    let reached = all.iter().filter(|(holds, _)| *holds).map(|(_, clause)| clause.to_string());
    reached.chain((number == 0).then(|| format!("{} taken", case.flow))).collect()
}

/// What stands in the entries: how many children each kind has, and how far the numbers go.
fn of_the_entries(case: &Tried) -> Vec<String> {
    if case.answer.is_err() {
        return Vec::new();
    }
    let entries = expected(case.flow, case.file);
    let ended = if case.file.ends_with(b"\n") { "ended" } else { "not ended" };
    let mut reached = vec![format!("{} {} with entries: {}", case.flow, ended, !entries.is_empty())];
    for (at, entry) in entries.iter().enumerate() {
        let kind = text(&case.file[entry.place..entry.place + 3]);
        let children = ["none", "one", "several"][entry.children.min(2)];
        let last = if at + 1 == entries.len() { ", the last entry" } else { "" };
        reached.push(format!("{} {}, {}{}", case.flow, kind, children, last));
        let far = [
            (entry.children > 256, "more than 256 children"),
            (entry.place > 65_535, "a place over 65,535"),
            (entry.record > 256 && entry.parent > 256 && entry.parent <= at, "a parent over 256"),
        ];
        reached.extend(far.iter().filter(|(holds, _)| *holds).map(|(_, clause)| clause.to_string()));
    }
    reached
}

/// All that the entries should come to. A SUP has a BMU at least.
fn wanted_of_entries() -> Vec<String> {
    let mut wanted: Vec<String> = Vec::new();
    for (flow, head, _) in MAY_HAVE {
        let counts = if head == "SUP" { &["one", "several"][..] } else { &["none", "one", "several"] };
        for count in counts {
            wanted.push(format!("{} {}, {}", flow, head, count));
        }
        wanted.push(format!("{} {}, {}, the last entry", flow, head, counts[0]));
        wanted.push(format!("{} {}, several, the last entry", flow, head));
        wanted.push(format!("{} ended with entries: true", flow));
    }
    // A GS7 with children is never the last entry: a SUP comes behind it.
    wanted.retain(|clause| clause != "P0181002 GS7, several, the last entry");
    wanted.extend(
        ["P0133001", "P0134001", "P0164001"].map(|flow| format!("{} not ended with entries: true", flow)),
    );
    wanted.push("P0138001 not ended with entries: false".to_string());
    wanted.extend(["more than 256 children", "a place over 65,535", "a parent over 256"].map(String::from));
    wanted
}

#[test]
fn seeded_cases_are_right_and_reach_everything() {
    let stream = Generator::new(13, "index").expect("this kind of case exists").stream(2400);
    let mut reached: BTreeMap<String, usize> = BTreeMap::new();
    for case in cases_of(&stream) {
        if let Ask::Index { flow, room, file } = case.expect("a good header").ask {
            let case = Tried { flow: name_in(flow), file, room, answer: hold(flow, file, room) };
            let clauses = [of_the_room(&case), of_the_entries(&case)].concat();
            clauses.into_iter().for_each(|clause| *reached.entry(clause).or_default() += 1);
        }
    }
    let mut wanted: Vec<String> = published().iter().map(|flow| format!("{} taken", flow.name)).collect();
    let rooms = [
        "exactly enough",
        "more than enough",
        "none needed, none there",
        "none needed",
        "one too few",
        "far too few",
        "none there",
        "as many as a list can have",
        "one more than a list can have",
        "a long file",
        "the reader's",
    ];
    wanted.extend(rooms.map(String::from));
    wanted.extend(wanted_of_entries());
    for clause in wanted {
        assert!(reached.get(&clause).map_or(false, |&times| times >= 2), "{}", clause);
    }
}
