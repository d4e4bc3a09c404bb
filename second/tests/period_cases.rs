//! Periods (document 02's C-17) on seeded cases, by a third route: the file is judged anew behind each of
//! its records, until a row stops it; and the cases reach all that can come of it.

mod common;
use common::FLOWS;
use second::cases::Generator;
use second::judge::{judge, FILE_LIMIT};
use second::period::has_period;
use second::refusal::Refusal;
use second::stream::{cases_of, Ask};
use std::collections::{BTreeMap, BTreeSet};

/// The words that ask for the flow that has periods.
const WORDS: [&[u8]; 3] = [b"P0012001", b"P0012001 533", b"P0012001 711"];

/// The number that words alone are refused with, if they are.
fn by_words(words: &[u8]) -> Option<u8> {
    let flow = FLOWS.iter().find(|flow| words.starts_with(flow.as_bytes()));
    match (flow, words.get(8..)) {
        (Some(flow), Some(b"" | b" 533" | b" 711")) => (*flow != "P0012001").then_some(22),
        (Some(_), Some([b' ', ..])) => Some(21),
        _ => Some(1),
    }
}

/// The period of a record that is a row, if it is written right.
fn period_of(record: &[u8]) -> Option<usize> {
    let fields: Vec<&[u8]> = record.split(|&byte| byte == b'|').collect();
    let period: usize = match fields[..] {
        [b"GSP" | b"GS2", period, ..] => std::str::from_utf8(period).ok()?.parse().ok()?,
        _ => return None,
    };
    ((1..=50).contains(&period) && period.to_string().as_bytes() == fields[1]).then_some(period)
}

/// The answer by the records as they come. Behind each of them the file could end: then 14 and 15 are
/// said of that end, and all else of the record.
fn expected(words: &[u8], file: &[u8], period: usize) -> Result<bool, Refusal> {
    if let Some(number) = by_words(words) {
        return Err(Refusal::whole(number));
    }
    if period == 0 || period > 50 {
        return Err(Refusal::whole(18));
    }
    if file.len() > FILE_LIMIT {
        return Err(Refusal::whole(2));
    }
    let mut read = 0;
    for record in file.split_inclusive(|&byte| byte == b'\n') {
        read += record.len();
        match judge(words, &file[..read]) {
            Ok(_) | Err(Refusal { number: 14 | 15, .. }) => {}
            Err(refusal) => return Err(refusal),
        }
        match period_of(record) {
            Some(own) if own >= period => return Ok(own == period),
            _ => {}
        }
    }
    judge(words, file).map(|_| false)
}

/// A case, what comes of it, and what the reader says of the whole file.
struct Tried<'a> {
    words: &'a [u8],
    file: &'a [u8],
    period: usize,
    answer: Result<bool, Refusal>,
    judged: Result<usize, Refusal>,
    records: Vec<&'a [u8]>,
}

impl<'a> Tried<'a> {
    fn new(words: &'a [u8], file: &'a [u8], period: usize) -> Tried<'a> {
        let answer = has_period(words, file, period);
        let records = file.split(|&byte| byte == b'\n').collect();
        Tried { words, file, period, answer, judged: judge(words, file), records }
    }

    fn is_refused(&self, number: u8) -> bool {
        self.answer.map_or_else(|refusal| refusal.number == number, |_| false)
    }

    /// The first record, counted from 1, that stops reading by what its first fields say.
    fn stop(&self) -> Option<usize> {
        let stops = |record: &&[u8]| period_of(record).map_or(false, |own| own >= self.period);
        self.records.iter().position(stops).map(|before| before + 1)
    }

    /// A record, counted from 1; an empty one where there is none.
    fn record(&self, number: usize) -> &[u8] {
        self.records.get(number.wrapping_sub(1)).copied().unwrap_or(b"")
    }

    /// The bytes of a field of a record, both counted from 1.
    fn field(&self, record: usize, field: usize) -> &[u8] {
        self.record(record).split(|&byte| byte == b'|').nth(field - 1).unwrap_or(b"")
    }
}

type Clause = (bool, String);

/// How the refusals that are said of the whole meet.
fn of_the_whole(case: &Tried) -> Vec<Clause> {
    let is_long = case.file.len() > FILE_LIMIT;
    let no_period = !(1..=50).contains(&case.period);
    let mut all = Vec::new();
    for number in [1, 21, 22] {
        all.push((case.is_refused(number) && !is_long && !no_period, format!("{} alone", number)));
        all.push((case.is_refused(number) && is_long, format!("{} over the limit", number)));
        all.push((case.is_refused(number) && no_period, format!("{} and no period", number)));
    }
    let reader = case.judged.map_or_else(|refusal| refusal.number, |_| 0);
    let is_18 = case.is_refused(18);
    let more = [
        (is_18 && reader == 0, "18 of a good file"),
        (is_18 && reader == 2, "18 over the limit"),
        (is_18 && (3..=15).contains(&reader), "18 of a file that is refused too"),
        (is_18 && case.period == 0, "period 0"),
        (is_18 && case.period == 51, "period 51"),
        (is_18 && (1..=50).contains(&(case.period % 256)), "a period in eight bits"),
        (is_18 && (1..=50).contains(&(case.period % 65_536)), "a period in sixteen bits"),
        (case.is_refused(2) && case.stop().is_some(), "2 with a stop"),
        (case.is_refused(2) && case.stop().is_none(), "2 without a stop"),
        (case.file.len() == FILE_LIMIT && case.answer == Ok(true), "T at the limit"),
        (case.file.len() == FILE_LIMIT && case.answer == Ok(false), "F at the limit"),
        (case.file.is_empty() && case.is_refused(14), "an empty file"),
    ];
    all.into_iter().chain(more.map(|(holds, clause)| (holds, clause.to_string()))).collect()
}

/// What an answer is found by.
fn of_the_answer(case: &Tried) -> Vec<Clause> {
    let periods: Vec<usize> = case.records.iter().filter_map(|record| period_of(record)).collect();
    let (first, last) = (periods.first().copied(), periods.last().copied());
    let is_good = case.judged.is_ok();
    let (yes, no) = (case.answer == Ok(true), case.answer == Ok(false));
    let mut all = Vec::new();
    for kind in ["GSP", "GS2"] {
        let is_own = case.record(4).starts_with(kind.as_bytes()) && is_good;
        let period = Some(case.period);
        let own = [
            (yes && first == period && first < last, "the first"),
            (yes && first < period && period < last, "one between"),
            (yes && last == period && first < last, "the last"),
            (yes && first == last, "the only one"),
            (no && period < first, "below all"),
            (no && first < period && period < last, "in a gap"),
            (no && last < period, "above all"),
        ];
        all.extend(own.map(|(holds, clause)| (holds && is_own, format!("{} {}", kind, clause))));
    }
    all.push((no && is_good && periods.is_empty(), "no rows".to_string()));
    // By text 10 stands before 9, and 9 behind 10.
    let text = case.period.to_string();
    let stop = case.stop().map_or(b"".to_vec(), |stop| case.field(stop, 2).to_vec());
    let is_below = !stop.is_empty() && stop[..] < *text.as_bytes();
    all.push((no && !is_good && is_below, "a stop that is below as text".to_string()));
    let is_above = periods.iter().any(|own| *own < case.period && own.to_string() > text);
    all.push((yes && is_above, "a row before the stop that is above as text".to_string()));
    all
}

/// Where a refusal of the reader stands to the stop, and what came of it.
fn of_the_stop(case: &Tried) -> Vec<Clause> {
    let mut all = Vec::new();
    let stop = case.stop().unwrap_or(usize::MAX);
    for number in 3..=15 {
        let is_reader = |at: &Refusal| at.number == number;
        let behind = case.judged.err().filter(is_reader).map_or(false, |at| at.record > stop);
        all.push((behind && case.answer == Ok(true), format!("T, and {} behind it", number)));
        all.push((behind && case.answer == Ok(false), format!("F, and {} behind it", number)));
        let given = case.answer.err().filter(is_reader).map(|at| at.record);
        all.push((given.is_some() && stop == usize::MAX, format!("{} without a stop", number)));
        if number < 14 {
            let is_before = given.map_or(false, |record| record < stop && stop < usize::MAX);
            all.push((is_before, format!("{} before the stop", number)));
        }
        // A foreign kind is no row; no row is a footer; a key below the one before is no stop.
        if ![4, 11, 12, 13, 14, 15].contains(&number) {
            all.push((given == Some(stop), format!("{} at the stop", number)));
        }
    }
    all
}

/// Where a file ends that is not whole.
fn of_the_end(case: &Tried) -> Vec<Clause> {
    let stop = case.stop().unwrap_or(0);
    let lines = case.records.len();
    let ended_behind = stop > 0 && lines == stop + 1 && case.file.ends_with(b"\n");
    let at = case.answer.err().map_or(0, |at| at.record);
    let in_row =
        at == lines && (case.record(at).starts_with(b"GSP|") || case.record(at).starts_with(b"GS2|"));
    let all = [
        (case.answer == Ok(true) && lines == stop, "T, cut behind the stop"),
        (case.answer == Ok(false) && lines == stop, "F, cut behind the stop"),
        (case.answer == Ok(true) && ended_behind, "T, cut behind the stop's line feed"),
        (case.answer == Ok(false) && ended_behind, "F, cut behind the stop's line feed"),
        (case.is_refused(6) && in_row, "6 in a row cut short"),
        (case.is_refused(8) && in_row, "8 in a row cut short"),
        (case.is_refused(14) && lines > 4 && case.file.ends_with(b"\n"), "14 behind rows"),
        (case.is_refused(14) && lines > 4 && !case.file.ends_with(b"\n"), "14 behind an unended row"),
        (case.is_refused(15) && lines > 4, "15 behind rows"),
    ];
    all.map(|(holds, clause)| (holds, clause.to_string())).to_vec()
}

/// What is wrong with a row's period, or with its kind.
fn of_the_rows(case: &Tried) -> Vec<Clause> {
    let (at, field) = case.answer.err().map_or((0, 0), |at| (at.record, at.field));
    let is_row = case.record(at).starts_with(b"GSP|") || case.record(at).starts_with(b"GS2|");
    let of_period = |number: u8| case.is_refused(number) && is_row && field == 2;
    let (own, before) = (case.field(at.max(1), 2), case.field(at.max(2) - 1, 2));
    let digits: Vec<u8> = own.iter().copied().filter(u8::is_ascii_digit).collect();
    let is_asked = String::from_utf8_lossy(&digits).trim_start_matches('0') == case.period.to_string();
    let other = case.is_refused(5) && period_of(case.record(at)) == Some(case.period);
    // What the reader finds right behind the stop.
    let stop = case.stop().unwrap_or(0);
    let next = case.judged.err().filter(|at| case.answer.is_ok() && at.record == stop + 1);
    let is_next = |number: u8| next.map_or(false, |at| at.number == number);
    let (here, behind) = (case.field(stop.max(1), 2), case.field(stop + 1, 2));
    let is_late = period_of(case.record(stop + 1)) == Some(case.period);
    let all = [
        (of_period(7), "no period at all"),
        (of_period(8), "a period of bad form"),
        (of_period(8) && is_asked, "the asked period of bad form"),
        (of_period(9), "a period out of range"),
        (of_period(9) && own.starts_with(b"-") && is_asked, "the asked period below 0"),
        (of_period(11) && own == before, "a repeated period"),
        (of_period(11) && own != before, "a falling period"),
        (other && case.record(at - 1).starts_with(b"GSP"), "GS2 with the asked period behind GSP"),
        (other && case.record(at - 1).starts_with(b"GS2"), "GSP with the asked period behind GS2"),
        (is_next(11) && here == behind, "the stop's period again behind it"),
        (is_next(11) && is_late && case.answer == Ok(false), "the asked period behind the stop"),
        (is_next(5) && period_of(case.record(stop + 1)).is_some(), "a row of the other kind behind the stop"),
    ];
    all.map(|(holds, clause)| (holds, clause.to_string())).to_vec()
}

fn clauses(case: &Tried) -> Vec<Clause> {
    [of_the_whole, of_the_answer, of_the_stop, of_the_end, of_the_rows]
        .iter()
        .flat_map(|of| of(case))
        .collect()
}

/// The file of a case, the words it is given with and the period it is asked for.
fn tried<'a>(ask: &Ask<'a>) -> Tried<'a> {
    match *ask {
        Ask::Period { flow, period, file } => Tried::new(flow, file, period),
        _ => unreachable!("only periods were asked for"),
    }
}

#[test]
fn seeded_cases_are_right_and_reach_everything() {
    let stream = Generator::new(17, "period").expect("this kind of case exists").stream(9000);
    let mut reached: BTreeMap<String, usize> = BTreeMap::new();
    for case in cases_of(&stream) {
        let case = tried(&case.expect("a good header").ask);
        let right = expected(case.words, case.file, case.period);
        assert_eq!(case.answer, right, "{} {}", case.words.escape_ascii(), case.period);
        for (holds, clause) in clauses(&case) {
            *reached.entry(clause).or_default() += usize::from(holds);
        }
    }
    for (clause, times) in reached {
        assert!(times >= 3, "{}: {}", clause, times);
    }
}

#[test]
fn seeded_cases_ask_for_every_period_that_is_there_and_that_is_not() {
    // A sweep goes through 52 numbers in 12 ways, and takes two cases in eight.
    let stream = Generator::new(3, "period").expect("this kind of case exists").stream(4 * 12 * 52);
    let mut answered = BTreeSet::new();
    for case in cases_of(&stream) {
        let case = tried(&case.expect("a good header").ask);
        if let (Ok(answer), true) = (case.answer, WORDS.contains(&case.words)) {
            answered.insert((case.period, answer, case.judged.is_ok()));
        }
    }
    let answers = [(true, true), (true, false), (false, true), (false, false)];
    let all = (1..=50).flat_map(|period| answers.map(|(answer, is_good)| (period, answer, is_good)));
    // No row stands above 50, so that a file without 50 is read to its end.
    let missing: Vec<_> = all.filter(|wanted| !answered.contains(wanted)).collect();
    assert_eq!(missing, [(50, false, false)]);
}
