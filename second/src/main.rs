//! The command line of the second program.

use second::answer::{answer, BAD_HEADER};
use second::cases::Generator;
use second::census::census;
use second::compare::compare;
use second::draw::picture;
use second::refusal::Refusal;
use second::stream::cases_of;
use std::fs;
use std::io::{self, BufWriter, Read, Write};
use std::process::ExitCode;

const USAGE: &str = "usage:
  second answer < STREAM > ANSWERS
  second cases SEED COUNT [KINDS] > STREAM
  second census < STREAM
  second compare STREAM ANSWERS [CASE-FILE]
  second draw FLOW > PICTURE.svg
FLOW is a flow's name, or 'NAME EDITION'.
KINDS is a comma list of judge, value, field, sum, step, write, read, index, export, import,
period.";

/// What a command comes to: all is well, or something was found, or it could not run.
enum End {
    Well,
    Found,
    Wrong(String),
}

fn main() -> ExitCode {
    let words: Vec<String> = std::env::args().skip(1).collect();
    let words: Vec<&str> = words.iter().map(String::as_str).collect();
    let end = match words.as_slice() {
        ["answer"] => answer_stream(),
        ["cases", seed, count] => make_cases(seed, count, ""),
        ["cases", seed, count, kinds] => make_cases(seed, count, kinds),
        ["census"] => count_answers(),
        ["compare", stream, answers] => compare_files(stream, answers, "difference.case"),
        ["compare", stream, answers, kept] => compare_files(stream, answers, kept),
        ["draw", flow] => draw(flow),
        _ => Ok(End::Wrong(USAGE.to_string())),
    };
    match end {
        Ok(End::Well) => ExitCode::SUCCESS,
        Ok(End::Found) => ExitCode::from(1),
        Ok(End::Wrong(why)) => fail(&why),
        Err(error) => fail(&error.to_string()),
    }
}

fn fail(why: &str) -> ExitCode {
    eprintln!("second: {}", why);
    ExitCode::from(2)
}

fn standard_input() -> io::Result<Vec<u8>> {
    let mut bytes = Vec::new();
    io::stdin().lock().read_to_end(&mut bytes)?;
    Ok(bytes)
}

fn answer_stream() -> io::Result<End> {
    let stream = standard_input()?;
    let mut out = BufWriter::new(io::stdout().lock());
    let mut end = End::Well;
    for case in cases_of(&stream) {
        match case {
            Ok(case) => out.write_all(&answer(&case.ask))?,
            Err(_) => {
                out.write_all(BAD_HEADER)?;
                end = End::Found;
            }
        }
    }
    out.flush()?;
    Ok(end)
}

fn make_cases(seed: &str, count: &str, kinds: &str) -> io::Result<End> {
    let (seed, count) = match (seed.parse(), count.parse::<u64>()) {
        (Ok(seed), Ok(count)) => (seed, count),
        _ => return Ok(End::Wrong("SEED and COUNT are whole numbers".to_string())),
    };
    let generator = match Generator::new(seed, kinds) {
        Some(generator) => generator,
        None => return Ok(End::Wrong(format!("no such kinds of case: {}\n{}", kinds, USAGE))),
    };
    let mut out = BufWriter::new(io::stdout().lock());
    for place in 0..count {
        out.write_all(&generator.case(place))?;
    }
    out.flush()?;
    Ok(End::Well)
}

fn count_answers() -> io::Result<End> {
    match census(&standard_input()?) {
        Ok(census) => {
            io::stdout().lock().write_all(census.table().as_bytes())?;
            Ok(End::Well)
        }
        Err(_) => Ok(End::Wrong("the stream has a bad header".to_string())),
    }
}

fn compare_files(stream: &str, answers: &str, kept: &str) -> io::Result<End> {
    let open = |path: &str| {
        fs::read(path).map_err(|error| io::Error::new(error.kind(), format!("{}: {}", path, error)))
    };
    let found = compare(&open(stream)?, &open(answers)?);
    let mut out = io::stdout().lock();
    out.write_all(found.report.as_bytes())?;
    if !found.kept.is_empty() {
        fs::write(kept, &found.kept)?;
        writeln!(out, "the first cases that differ are in {}", kept)?;
    }
    writeln!(out, "{} cases, {} differences", found.cases, found.differences)?;
    Ok(if found.differences == 0 { End::Well } else { End::Found })
}

fn draw(flow: &str) -> io::Result<End> {
    match picture(flow) {
        Ok(picture) => {
            io::stdout().lock().write_all(picture.as_bytes())?;
            Ok(End::Well)
        }
        Err(Refusal { number: 21, .. }) => Ok(End::Wrong(format!("no such edition: {}", flow))),
        Err(_) => Ok(End::Wrong(format!("no such flow: {}", flow))),
    }
}
