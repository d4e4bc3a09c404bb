//! The six flows, in document 01's words: nested sets, field types, keys, last line feed.
//! Which keys may be equal is document 02's C-11, and what an edition changes its C-16.

use crate::field::{Mark, Type};
use crate::grammar::{any_number, either, headed, in_turn, one, one_or_more, Kind, Set};
use crate::refusal::Refusal;
use std::sync::{Arc, Mutex};

/// The editions that can be named, and the one that is meant where none is.
pub const EDITIONS: [&str; 2] = [OLDER, NEWER];
const OLDER: &str = "533";
const NEWER: &str = "711";
const USUAL: &str = OLDER;

/// A flow as it is laid out in some of the editions.
pub struct Flow {
    pub name: &'static str,
    /// The editions in which it is laid out so.
    pub editions: Vec<&'static str>,
    pub grammar: Arc<Set>,
    /// One layout a kind, in the order in which the kinds stand in the grammar.
    pub layouts: Vec<Layout>,
    pub needs_last_line_feed: bool,
}

pub struct Layout {
    pub kind: Kind,
    /// The rules of the fields from field 2 on.
    pub rules: Vec<Rule>,
    pub key: Option<Key>,
}

pub struct Rule {
    pub form: Type,
    pub mark: Mark,
}

/// A key's field, counted with the kind, and the kind that heads the set it is ordered in.
#[derive(Clone, Copy)]
pub struct Key {
    pub field: usize,
    pub head: Kind,
    /// Whether a key may be equal to the one before; it may never be below.
    pub equal_allowed: bool,
}

impl Flow {
    pub fn layout(&self, kind: &[u8]) -> Option<&Layout> {
        self.layouts.iter().find(|layout| layout.kind == kind)
    }

    /// All words that ask for it: its name alone where the usual edition is meant so, then its name
    /// with each of its editions.
    pub fn words(&self) -> Vec<String> {
        let alone = self.editions.contains(&USUAL).then(|| self.name.to_string());
        let with_edition = self.editions.iter().map(|edition| format!("{} {}", self.name, edition));
        alone.into_iter().chain(with_edition).collect()
    }
}

/// The flow that words ask for: a name, or a name, a space and an edition. It is 1 where there is no
/// such name, and only then 21 where what stands behind the space is no edition.
pub fn named(words: &[u8]) -> Result<&'static Flow, Refusal> {
    let mut parts = words.splitn(2, |&byte| byte == b' ');
    let name = parts.next().unwrap_or(words);
    let edition = parts.next().unwrap_or(USUAL.as_bytes());
    let of_name: Vec<&Flow> = published().iter().filter(|flow| flow.name.as_bytes() == name).collect();
    if of_name.is_empty() {
        return Err(Refusal::whole(1));
    }
    let has_edition = |flow: &&Flow| flow.editions.iter().any(|own| own.as_bytes() == edition);
    of_name.into_iter().find(has_edition).ok_or_else(|| Refusal::whole(21))
}

/// The flows as they are laid out, read once from the words below. P0133001 is the one that has
/// another layout in each edition.
pub fn published() -> &'static [Flow] {
    static READ: Mutex<Option<&'static [Flow]>> = Mutex::new(None);
    let mut read = READ.lock().expect("no reader of the flows panics");
    read.get_or_insert_with(|| Box::leak(Box::new(all())))
}

fn all() -> [Flow; 7] {
    [p0012(), p0181(), p0133_older(), p0133_newer(), p0134(), p0138(), p0164()]
}

fn p0012() -> Flow {
    let rows = either(any_number(one(b"GSP")), any_number(one(b"GS2")));
    flow(
        "P0012001",
        ("", ""),
        in_turn([one(b"ZPD"), one(b"HDR"), rows]),
        vec![
            layout(b"ZPD", "date, text(2) opt, text(2) opt, int(7), text(2)"),
            layout(b"HDR", "int(10), text(2), int(13)"),
            layout(b"GSP", "period, int(13), dec(14,4)").strict_key(2, b"HDR"),
            layout(b"GS2", "period, int(1) =0, dec(14,4)").strict_key(2, b"HDR"),
        ],
    )
    .with_last_line_feed()
}

fn p0181() -> Flow {
    let sup_set = headed(b"SUP", one_or_more(one(b"BMU")));
    let gs7_set = headed(b"GS7", any_number(sup_set));
    flow(
        "P0181002",
        ("", ""),
        one_or_more(gs7_set),
        vec![
            layout(b"GS7", "text(2)"),
            layout(b"SUP", "text(4)").strict_key(2, b"GS7"),
            layout(b"BMU", "text(11), date, date opt, bol").strict_key(2, b"SUP"),
        ],
    )
    .with_last_line_feed()
}

fn p0133_older() -> Flow {
    p0133("text(1) =H, text(1) =M, text(8), date, text(1) =M").only_in(OLDER)
}

fn p0133_newer() -> Flow {
    p0133("text(1) =M, text(8), date, text(1) =M").only_in(NEWER)
}

/// P0133001 with these fields of SB1, the only ones that an edition changes.
fn p0133(subject: &str) -> Flow {
    flow(
        "P0133001",
        ("=Z", "=Z"),
        any_number(headed(b"SB1", any_number(one(b"CM1")))),
        vec![layout(b"SB1", subject), layout(b"CM1", "text(2) opt, int(7), dec(4,1), int(7)")],
    )
}

fn p0134() -> Flow {
    flow(
        "P0134001",
        ("=Z", "=Z"),
        any_number(headed(b"SB2", any_number(one(b"CM2")))),
        vec![
            layout(b"SB2", "text(1) =M, text(8), date, text(1) =M"),
            layout(b"CM2", "text(2) opt, int(7), int(7), dec(4,1), dec(4,1)"),
        ],
    )
}

fn p0138() -> Flow {
    flow(
        "P0138001",
        ("=G", "=Z"),
        in_turn([one(b"SUB"), one(b"TA2")]),
        vec![layout(b"SUB", "text(1) =B, null, null, date, text(1) =M"), layout(b"TA2", "dec(5,4)")],
    )
}

fn p0164() -> Flow {
    flow(
        "P0164001",
        ("=G", "=Z"),
        any_number(headed(b"SUB", any_number(one(b"SP7")))),
        vec![
            layout(b"SUB", "text(1) =B, text(1) =X, text(4), date, text(1) =M"),
            layout(b"SP7", "text(2), text(4), text(1), date, text(2), int(10)").repeating_key(5, b"SUB"),
        ],
    )
}

/// A flow from its own part, the same in every edition: every flow has ZHD before it and ZPT behind
/// it. The roles are the marks of from role and to role.
fn flow(name: &'static str, roles: (&str, &str), own: Arc<Set>, kinds: Vec<Layout>) -> Flow {
    let header =
        format!("text(8) ={}, text(1) {}, text(4), text(1) {}, text(4), datetime", name, roles.0, roles.1);
    let mut layouts = vec![layout(b"ZHD", &header)];
    layouts.extend(kinds);
    layouts.push(layout(b"ZPT", "int(10), int(10)"));
    Flow {
        name,
        editions: EDITIONS.to_vec(),
        grammar: in_turn([one(b"ZHD"), own, one(b"ZPT")]),
        layouts,
        needs_last_line_feed: false,
    }
}

impl Flow {
    fn only_in(self, edition: &'static str) -> Flow {
        Flow { editions: vec![edition], ..self }
    }

    fn with_last_line_feed(self) -> Flow {
        Flow { needs_last_line_feed: true, ..self }
    }
}

impl Layout {
    /// Each key must stand above the one before.
    fn strict_key(self, field: usize, head: &[u8; 3]) -> Layout {
        Layout { key: Some(Key { field, head: *head, equal_allowed: false }), ..self }
    }

    /// Each key must stand above the one before, or be equal to it.
    fn repeating_key(self, field: usize, head: &[u8; 3]) -> Layout {
        Layout { key: Some(Key { field, head: *head, equal_allowed: true }), ..self }
    }
}

fn layout(kind: &[u8; 3], fields: &str) -> Layout {
    Layout { kind: *kind, rules: fields.split(", ").map(rule).collect(), key: None }
}

/// A rule in document 01's spelling: a type, then `opt`, `=` and a value, or nothing.
fn rule(words: &str) -> Rule {
    let (form, mark) = words.split_once(' ').unwrap_or((words, ""));
    let mark = match mark.strip_prefix('=') {
        Some(fixed) => Mark::Fixed(fixed.as_bytes().to_vec()),
        None if mark == "opt" => Mark::Opt,
        None => Mark::None,
    };
    let form = Type::spelled(form.as_bytes()).expect("the types above are spelled right");
    Rule { form, mark }
}
