//! The step against the list of each grammar's language, by a third route: the sets are
//! written once more as expressions and spelled out into all their lists of bounded length.

use second::flows::published;
use second::step::{step, Step};
use std::collections::BTreeSet;

type Lists = BTreeSet<Vec<u8>>;

/// Lists of up to so many kinds are tried.
const LENGTH: usize = 7;

/// Any list that can go on can be completed with this many kinds more.
const SPARE: usize = 4;

/// The grammars as document 01 has them, by the words of each flow and edition that is laid out in a
/// way of its own; a small letter stands for a kind. Brackets group, `*` is any number, `+` one or
/// more, `/` either.
const GRAMMARS: [(&str, &str, &[&str]); 7] = [
    ("P0012001", "abc(d*/e*)f", &["ZHD", "ZPD", "HDR", "GSP", "GS2", "ZPT"]),
    ("P0181002", "a(b(cd+)*)+e", &["ZHD", "GS7", "SUP", "BMU", "ZPT"]),
    ("P0133001", "a(bc*)*d", &["ZHD", "SB1", "CM1", "ZPT"]),
    ("P0133001 711", "a(bc*)*d", &["ZHD", "SB1", "CM1", "ZPT"]),
    ("P0134001", "a(bc*)*d", &["ZHD", "SB2", "CM2", "ZPT"]),
    ("P0138001", "abcd", &["ZHD", "SUB", "TA2", "ZPT"]),
    ("P0164001", "a(bc*)*d", &["ZHD", "SUB", "SP7", "ZPT"]),
];

fn joined(first: &Lists, second: &Lists) -> Lists {
    let pairs = first.iter().flat_map(|one| second.iter().map(move |other| [&one[..], other].concat()));
    pairs.filter(|list| list.len() <= LENGTH + 1 + SPARE).collect()
}

/// All lists of one or more of these, up to the length.
fn repeated(lists: &Lists) -> Lists {
    let mut all = lists.clone();
    loop {
        let more: Lists = all.union(&joined(&all, lists)).cloned().collect();
        if more.len() == all.len() {
            return all;
        }
        all = more;
    }
}

/// The lists of an expression up to its end or a closing bracket.
fn spelled_out(rest: &mut &[u8]) -> Lists {
    let none: Lists = [Vec::new()].into();
    let (mut either, mut turn) = (Lists::new(), none.clone());
    while let Some((&sign, behind)) = rest.split_first() {
        *rest = behind;
        match sign {
            b')' => break,
            b'/' => {
                either.extend(std::mem::replace(&mut turn, none.clone()));
                continue;
            }
            _ => {}
        }
        let mut part = if sign == b'(' { spelled_out(rest) } else { [vec![sign]].into() };
        if let Some(mark @ (b'*' | b'+')) = rest.first() {
            part = repeated(&part);
            if *mark == b'*' {
                part.insert(Vec::new());
            }
            *rest = &rest[1..];
        }
        turn = joined(&turn, &part);
    }
    either.extend(turn);
    either
}

/// A flow's language, and every start of one of its lists.
fn language(grammar: &str) -> (Lists, Lists) {
    let lists = spelled_out(&mut grammar.as_bytes());
    let starts =
        lists.iter().flat_map(|list| (0..=list.len()).map(move |end| list[..end].to_vec())).collect();
    (lists, starts)
}

struct Walk<'a> {
    flow: &'a str,
    kinds: &'a [&'a str],
    lists: Lists,
    starts: Lists,
    tried: usize,
}

impl Walk<'_> {
    fn letters(&self) -> Vec<u8> {
        (0..self.kinds.len()).map(|place| b'a' + place as u8).collect()
    }

    fn bytes(&self, list: &[u8]) -> Vec<u8> {
        list.iter().flat_map(|letter| self.kinds[usize::from(letter - b'a')].bytes()).collect()
    }

    /// What the language says of a list.
    fn expected(&self, list: &[u8]) -> Step {
        let is_start = |end: usize| self.starts.contains(&list[..end]);
        if let Some(place) = (1..=list.len()).find(|&end| !is_start(end)) {
            return Step::Stopped(place);
        }
        let may_follow = |letter: &u8| self.starts.contains(&[list, &[*letter]].concat());
        let follow = self.letters().into_iter().filter(may_follow);
        let follow = follow.map(|letter| self.bytes(&[letter]).try_into().expect("three bytes")).collect();
        Step::Through { complete: self.lists.contains(list), follow }
    }

    /// Tries every list that goes on from this one.
    fn try_all(&mut self, list: &mut Vec<u8>) {
        let answer = step(self.flow.as_bytes(), &self.bytes(list)).expect("the flow is published");
        assert_eq!(answer, self.expected(list), "{} {}", self.flow, String::from_utf8_lossy(list));
        self.tried += 1;
        if list.len() < LENGTH {
            for letter in self.letters() {
                list.push(letter);
                self.try_all(list);
                list.pop();
            }
        }
    }
}

#[test]
fn every_list_of_up_to_seven_kinds() {
    for (flow, grammar, kinds) in GRAMMARS {
        let (lists, starts) = language(grammar);
        let mut walk = Walk { flow, kinds, lists, starts, tried: 0 };
        walk.try_all(&mut Vec::new());
        let all = (0..=LENGTH as u32).map(|length| kinds.len().pow(length)).sum::<usize>();
        assert_eq!(walk.tried, all);
    }
}

#[test]
fn the_language_is_what_it_should_be() {
    let count =
        |grammar: &str, length: usize| language(grammar).0.iter().filter(|list| list.len() == length).count();
    assert_eq!((1..=7).map(|length| count("abcd", length)).collect::<Vec<_>>(), [0, 0, 0, 1, 0, 0, 0]);
    assert_eq!((1..=7).map(|length| count("abc(d*/e*)f", length)).collect::<Vec<_>>(), [0, 0, 0, 1, 2, 2, 2]);
    assert_eq!((1..=7).map(|length| count("a(bc*)*d", length)).collect::<Vec<_>>(), [0, 1, 1, 2, 4, 8, 16]);
    assert_eq!(
        (1..=7).map(|length| count("a(b(cd+)*)+e", length)).collect::<Vec<_>>(),
        [0, 0, 1, 1, 2, 4, 8]
    );
}

#[test]
fn the_layouts_name_the_grammars_kinds() {
    assert_eq!(published().len(), GRAMMARS.len());
    for (flow, (words, _, kinds)) in published().iter().zip(GRAMMARS) {
        assert!(flow.words().contains(&words.to_string()), "{}", words);
        let own: Vec<&[u8]> = flow.layouts.iter().map(|layout| &layout.kind[..]).collect();
        assert_eq!(own, kinds.iter().map(|kind| kind.as_bytes()).collect::<Vec<_>>());
    }
}
