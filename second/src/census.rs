//! A census of a stream: how many cases of each kind gave which answer.

use crate::answer::answer;
use crate::stream::{cases_of, BadHeader, CASE_KINDS};

/// The highest number of a refusal; a request that brings a new one raises it.
const REFUSALS: usize = 22;
/// The columns: taken, stopped (step), then the refusals.
const COLUMNS: usize = 2 + REFUSALS;

/// Cases by kind and by answer.
pub struct Census {
    counts: [[usize; COLUMNS]; CASE_KINDS.len()],
}

pub fn census(stream: &[u8]) -> Result<Census, BadHeader> {
    let mut counts = [[0; COLUMNS]; CASE_KINDS.len()];
    for case in cases_of(stream) {
        let ask = case?.ask;
        counts[ask.kind()][column(&answer(&ask))] += 1;
    }
    Ok(Census { counts })
}

/// The column of an answer, by its first two words.
fn column(answer: &[u8]) -> usize {
    let mut words = answer.split(|&byte| byte == b'\t');
    match words.next() {
        Some(b"ok") => 0,
        Some(b"stopped") => 1,
        _ => {
            let number = words.next().and_then(|word| std::str::from_utf8(word).ok());
            1 + number.and_then(|word| word.parse::<usize>().ok()).expect("a refusal has a number")
        }
    }
}

impl Census {
    /// How many cases of a kind gave this refusal.
    pub fn refused(&self, kind: &str, number: usize) -> usize {
        let row = CASE_KINDS.iter().position(|name| *name == kind);
        row.map_or(0, |row| self.counts[row][1 + number])
    }

    /// How many cases of a kind were answered with `ok`.
    pub fn taken(&self, kind: &str) -> usize {
        let row = CASE_KINDS.iter().position(|name| *name == kind);
        row.map_or(0, |row| self.counts[row][0])
    }

    /// The refusal numbers that no case gave.
    pub fn not_reached(&self) -> Vec<usize> {
        let reached = |number: usize| CASE_KINDS.iter().any(|kind| self.refused(kind, number) > 0);
        (1..=REFUSALS).filter(|&number| !reached(number)).collect()
    }

    /// The table, a row a kind of case, and a last line on the numbers reached.
    pub fn table(&self) -> String {
        let mut names = vec!["ok".to_string(), "stopped".to_string()];
        names.extend((1..=REFUSALS).map(|number| number.to_string()));
        let mut table = row("case", names.iter().map(String::as_str), "all");
        let mut sums = [0; COLUMNS];
        for (kind, counts) in CASE_KINDS.iter().zip(&self.counts) {
            table += &row_of(kind, counts);
            sums.iter_mut().zip(counts).for_each(|(sum, count)| *sum += count);
        }
        table += &row_of("all", &sums);
        let missing: Vec<String> = self.not_reached().iter().map(usize::to_string).collect();
        table
            + &match missing.is_empty() {
                true => format!("refusals 1 to {}: each reached\n", REFUSALS),
                false => format!("refusals not reached: {}\n", missing.join(" ")),
            }
    }
}

fn row_of(name: &str, counts: &[usize]) -> String {
    let words: Vec<String> = counts.iter().map(usize::to_string).collect();
    let all: usize = counts.iter().sum();
    row(name, words.iter().map(String::as_str), &all.to_string())
}

fn row<'a>(name: &str, words: impl Iterator<Item = &'a str>, all: &str) -> String {
    let words: String = words.map(|word| format!("{:>8}", word)).collect();
    format!("{:<6}{}{:>9}\n", name, words, all)
}
