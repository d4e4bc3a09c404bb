//! Sheets: a file made from a sheet, and a sheet read from a file.

use crate::bytes::{checksum, place_in, records_of, BAR, LINE_FEED, TAB};
use crate::flows::named;
use crate::judge::judge;
use crate::refusal::Refusal;

pub const SHEET_LIMIT: usize = 1_048_000;

/// An acceptance: the records of the file judged, footer in, and the bytes put out.
#[derive(Clone, Copy, Debug, PartialEq, Eq)]
pub struct Done {
    pub records: usize,
    pub bytes: usize,
}

/// Writes the file of a sheet into the room. A refusal leaves the room as it was.
pub fn write(flow: &[u8], sheet: &[u8], room: &mut [u8]) -> Result<Done, Refusal> {
    named(flow)?;
    if sheet.len() > SHEET_LIMIT {
        return Err(Refusal::whole(2));
    }
    let lines = records_of(sheet);
    if let Some(before) = lines.iter().position(|line| line.contains(&BAR)) {
        return Err(Refusal::at(16, before + 1, 0, place_in(sheet, lines[before])));
    }
    if !sheet.is_empty() && !sheet.ends_with(&[LINE_FEED]) {
        return Err(Refusal::at(15, lines.len(), 0, place_in(sheet, lines[lines.len() - 1])));
    }
    let file = made_file(sheet);
    let records = judge(flow, &file).map_err(|refusal| in_sheet(refusal, sheet))?;
    put(&file, records, room)
}

/// A refusal of the made file, pointing into the sheet. Byte for byte the file is the sheet, tabs
/// turned to bars; what comes behind is the made footer, which points at the sheet's end.
fn in_sheet(refusal: Refusal, sheet: &[u8]) -> Refusal {
    Refusal { place: refusal.place.min(sheet.len()), ..refusal }
}

/// Reads the sheet of a file into the room. A refusal leaves the room as it was.
pub fn read(flow: &[u8], file: &[u8], room: &mut [u8]) -> Result<Done, Refusal> {
    let records = judge(flow, file)?;
    put(&made_sheet(file), records, room)
}

/// The sheet with tabs turned to bars and a right footer with its line feed.
pub fn made_file(sheet: &[u8]) -> Vec<u8> {
    let mut file = turned(sheet, TAB, BAR);
    let records = records_of(&file);
    let footer = format!("ZPT|{}|{}\n", records.len() + 1, checksum(records));
    file.extend(footer.into_bytes());
    file
}

/// All records but the last, bars turned to tabs, each with its line feed.
pub fn made_sheet(file: &[u8]) -> Vec<u8> {
    let records = records_of(file);
    let mut sheet = Vec::with_capacity(file.len());
    for record in &records[..records.len().saturating_sub(1)] {
        sheet.extend(turned(record, BAR, TAB));
        sheet.push(LINE_FEED);
    }
    sheet
}

fn turned(bytes: &[u8], from: u8, to: u8) -> Vec<u8> {
    bytes.iter().map(|&byte| if byte == from { to } else { byte }).collect()
}

/// Puts a result into the room, which stays as it was where that is too short.
pub fn put(result: &[u8], records: usize, room: &mut [u8]) -> Result<Done, Refusal> {
    let part = room.get_mut(..result.len()).ok_or_else(|| Refusal::whole(17))?;
    part.copy_from_slice(result);
    Ok(Done { records, bytes: result.len() })
}
