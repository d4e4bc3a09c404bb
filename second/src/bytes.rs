//! Bytes, records and fields: how a file is cut, where its parts stand, and the checksum of its records.

pub const LINE_FEED: u8 = b'\n';
pub const BAR: u8 = b'|';
pub const TAB: u8 = b'\t';

/// The text characters that are neither letters nor digits, in document 01's order.
const SIGNS: &[u8] = b" .,-()/'+:=?!\"%&*;<>_";

/// Whether a byte is one of the 83 text characters.
pub fn is_text(byte: u8) -> bool {
    byte.is_ascii_alphanumeric() || SIGNS.contains(&byte)
}

/// The records of a file. Splitting gives one piece more than there are line feeds;
/// the piece behind the last line feed is a record only where it holds bytes.
pub fn records_of(file: &[u8]) -> Vec<&[u8]> {
    let mut pieces: Vec<&[u8]> = file.split(|&byte| byte == LINE_FEED).collect();
    if pieces.last().map_or(false, |last| last.is_empty()) {
        pieces.pop();
    }
    pieces
}

/// The fields of a record: n bars part n + 1 fields. Field 1 is the kind.
pub fn fields_of(record: &[u8]) -> Vec<&[u8]> {
    record.split(|&byte| byte == BAR).collect()
}

/// The kind of a record: the whole of its first field, of whatever length.
pub fn kind_of(record: &[u8]) -> &[u8] {
    record.split(|&byte| byte == BAR).next().unwrap_or(record)
}

/// The place, from 0, where a part of some bytes starts. Records and fields are parts of the file
/// itself and no copies, so their own addresses tell; empty ones have theirs too.
pub fn place_in(whole: &[u8], part: &[u8]) -> usize {
    part.as_ptr() as usize - whole.as_ptr() as usize
}

/// The checksum of records: each cut into pieces of four on its own, so that no piece
/// runs across a record's end and no line feed is counted in.
pub fn checksum<'a>(records: impl IntoIterator<Item = &'a [u8]>) -> u32 {
    records.into_iter().flat_map(|record| record.chunks(4)).map(piece).fold(0, |sum, number| sum ^ number)
}

/// One piece as a number, first byte highest, filled with zero bytes behind.
fn piece(bytes: &[u8]) -> u32 {
    let mut four = [0; 4];
    four[..bytes.len()].copy_from_slice(bytes);
    u32::from_be_bytes(four)
}
