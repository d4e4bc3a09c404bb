//! Comma-separated text (document 02's C-15, RFC 4180): a text exported from an accepted file, and a
//! sheet imported from a text.
//!
//! A text is cut at every CR LF first, and each line then gives up its fields from the front. So a
//! quoted field that runs over a line end is one that never closes, in the line where it opens.

use crate::bytes::{fields_of, place_in, records_of, BAR, LINE_FEED, TAB};
use crate::judge::judge;
use crate::refusal::Refusal;
use crate::sheet::{put, Done, SHEET_LIMIT};

/// The longest text that is imported: as long as the longest sheet.
pub const TEXT_LIMIT: usize = SHEET_LIMIT;

pub const LINE_END: &[u8] = b"\r\n";
pub const COMMA: u8 = b',';
const MARK: u8 = b'"';
const MARK_IN_QUOTES: &[u8] = b"\"\"";

/// Writes the text of an accepted file into the room. A refusal leaves the room as it was.
pub fn export(flow: &[u8], file: &[u8], room: &mut [u8]) -> Result<Done, Refusal> {
    let records = judge(flow, file)?;
    put(&made_text(file), records, room)
}

/// All records but the last as lines, a field quoted where it must be.
pub fn made_text(file: &[u8]) -> Vec<u8> {
    let records = records_of(file);
    let before_footer = &records[..records.len().saturating_sub(1)];
    before_footer.iter().flat_map(|record| line_of(record)).collect()
}

/// The line of a record, its end in.
fn line_of(record: &[u8]) -> Vec<u8> {
    let fields: Vec<Vec<u8>> = fields_of(record).into_iter().map(exported).collect();
    [&fields.join(&COMMA)[..], LINE_END].concat()
}

/// A field as it is exported: quoted exactly where it holds a comma or a quotation mark.
pub fn exported(field: &[u8]) -> Vec<u8> {
    match field.contains(&COMMA) || field.contains(&MARK) {
        true => quoted(field),
        false => field.to_vec(),
    }
}

/// A field in quotation marks, its own doubled.
pub fn quoted(field: &[u8]) -> Vec<u8> {
    let between: Vec<&[u8]> = field.split(|&byte| byte == MARK).collect();
    [&[MARK], &between.join(MARK_IN_QUOTES)[..], &[MARK]].concat()
}

/// Writes the sheet of a text into the room. A refusal leaves the room as it was.
/// Of an acceptance the records are the sheet's lines.
pub fn import(text: &[u8], room: &mut [u8]) -> Result<Done, Refusal> {
    let Imported { lines, sheet } = imported(text)?;
    put(&sheet, lines, room)
}

/// The sheet that a text gives, and its lines.
pub struct Imported {
    pub lines: usize,
    pub sheet: Vec<u8>,
}

/// What an import comes to before it is asked for its room.
pub fn imported(text: &[u8]) -> Result<Imported, Refusal> {
    if text.len() > TEXT_LIMIT {
        return Err(Refusal::whole(2));
    }
    let lines = lines_of(text);
    let at_line =
        |number: u8, before: usize| Refusal::at(number, before + 1, 0, place_in(text, lines[before]));
    let row = |(before, line): (usize, &&[u8])| row_of(line).ok_or_else(|| at_line(20, before));
    let rows: Vec<Row> = lines.iter().enumerate().map(row).collect::<Result<_, _>>()?;
    let sheet = sheet_of(&rows);
    if sheet.len() > SHEET_LIMIT {
        return Err(Refusal::whole(2));
    }
    if let Some(before) = rows.iter().position(|row| row.iter().any(|field| field.contains(&BAR))) {
        return Err(at_line(16, before));
    }
    Ok(Imported { lines: rows.len(), sheet })
}

/// The lines of a text, each of them a part of it. What comes behind the last CR LF is a line only
/// where it holds bytes.
fn lines_of(text: &[u8]) -> Vec<&[u8]> {
    let mut lines = Vec::new();
    let mut rest = text;
    while let Some(end) = rest.windows(LINE_END.len()).position(|bytes| bytes == LINE_END) {
        lines.push(&rest[..end]);
        rest = &rest[end + LINE_END.len()..];
    }
    if !rest.is_empty() {
        lines.push(rest);
    }
    lines
}

/// The fields of a line, freed of their quoting.
type Row = Vec<Vec<u8>>;

/// The fields of a line: one at least, and one more behind each comma that no field holds. None
/// where the line is not such text.
fn row_of(line: &[u8]) -> Option<Row> {
    let mut row = Vec::new();
    let mut rest = line;
    loop {
        let (field, behind) = first_field(rest)?;
        row.push(field);
        if behind.is_empty() {
            return Some(row);
        }
        rest = behind.strip_prefix(&[COMMA])?;
    }
}

/// The field that a line begins with, and what comes behind it.
fn first_field(line: &[u8]) -> Option<(Vec<u8>, &[u8])> {
    match line.strip_prefix(&[MARK]) {
        Some(inside) => quoted_field(inside),
        None => plain_field(line),
    }
}

/// A field without quotation marks reaches to the next comma.
fn plain_field(line: &[u8]) -> Option<(Vec<u8>, &[u8])> {
    let end = line.iter().position(|&byte| byte == COMMA).unwrap_or(line.len());
    let (field, behind) = line.split_at(end);
    field.iter().all(is_text_data).then(|| (field.to_vec(), behind))
}

/// A field from behind its opening mark on. Each further mark either has another right behind it, and
/// both together stand for one, or closes the field.
fn quoted_field(inside: &[u8]) -> Option<(Vec<u8>, &[u8])> {
    let mut field = Vec::new();
    let mut rest = inside;
    loop {
        let end = rest.iter().position(|&byte| byte == MARK)?;
        let (piece, from_mark) = rest.split_at(end);
        if !piece.iter().all(|byte| is_text_data(byte) || *byte == COMMA) {
            return None;
        }
        field.extend(piece);
        match from_mark.strip_prefix(MARK_IN_QUOTES) {
            Some(more) => {
                field.push(MARK);
                rest = more;
            }
            None => return Some((field, &from_mark[1..])),
        }
    }
}

/// RFC 4180's TEXTDATA. No tab, CR or LF is among it: a sheet's field can have none.
fn is_text_data(byte: &u8) -> bool {
    matches!(byte, 0x20..=0x21 | 0x23..=0x2B | 0x2D..=0x7E)
}

/// The sheet of rows: fields parted by tabs, each line ended.
fn sheet_of(rows: &[Row]) -> Vec<u8> {
    rows.iter().flat_map(|row| [row.join(&TAB), vec![LINE_FEED]].concat()).collect()
}
