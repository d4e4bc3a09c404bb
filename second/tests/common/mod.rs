//! Small good files of each flow, and ways to spoil them.
#![allow(dead_code)]

use second::bytes::checksum;
use second::field::{judge_field, Mark, Type, Value};
use second::flows::Flow;
use second::judge::judge;

/// Document 01's file of 88 bytes.
pub const EXAMPLE: &[u8] = b"ZHD|P0138001|G|SVAA|Z|POOL|20240105120000
SUB|B|||20231231|M
TA2|1.0250
ZPT|4|812996689
";

/// A small good file of a flow, named by its words, without its footer.
pub fn lines(flow: &str) -> Vec<&'static str> {
    let text = match flow {
        "P0012001" => {
            "ZHD|P0012001|S|SSAA|P|POOL|20240105120000
ZPD|20240105|SF||1|A
HDR|1|AB|-5
GSP|1|100|0.0000
GSP|9|100|-0.0001
GSP|10|100|1.5000"
        }
        "P0181002" => {
            "ZHD|P0181002|S|SSAA|P|POOL|20240105120000
GS7|_A
SUP|AAAA
BMU|2__AAAA001|20240101||T
BMU|2__AAAA002|20240101|20241231|F
SUP|BBBB
BMU|2__AAAA001|20240101||T
GS7|_A
SUP|AAAA
BMU|2__AAAA001|20240101||T"
        }
        "P0133001" => {
            "ZHD|P0133001|Z|SVAA|Z|POOL|20240105120000
SB1|H|M|SUPPLIER|20240105|M
CM1||1|1.0|1
CM1|_A|2|2.0|-2
SB1|H|M|OTHER|20240105|M"
        }
        "P0133001 711" => {
            "ZHD|P0133001|Z|SVAA|Z|POOL|20240105120000
SB1|M|SUPPLIER|20240105|M
CM1||1|1.0|1
CM1|_A|2|2.0|-2
SB1|M|OTHER|20240105|M"
        }
        "P0134001" => {
            "ZHD|P0134001|Z|SVAA|Z|POOL|20240105120000
SB2|M|SUPPLIER|20240105|M
CM2||1|2|1.0|99.9"
        }
        "P0138001" => {
            "ZHD|P0138001|G|SVAA|Z|POOL|20240105120000
SUB|B|||20231231|M
TA2|1.0250"
        }
        "P0164001" => {
            "ZHD|P0164001|G|SVAA|Z|POOL|20240105120000
SUB|B|X|SUPP|20240105|M
SP7|_A|NHHD|A|20240101|SF|12
SP7|_A|NHHD|A|20240102|SF|13
SUB|B|X|SUPP|20240105|M
SP7|_A|NHHD|A|20240101|SF|12"
        }
        _ => unreachable!("no such flow"),
    };
    text.split('\n').collect()
}

pub const FLOWS: [&str; 6] = ["P0012001", "P0181002", "P0133001", "P0134001", "P0138001", "P0164001"];

/// Words that ask for a flow.
pub fn words_of(flow: &Flow) -> Vec<u8> {
    flow.words()[0].clone().into_bytes()
}

/// The lines as a file with a right footer.
pub fn footed<L: AsRef<[u8]>>(lines: &[L]) -> Vec<u8> {
    let mut file: Vec<u8> = lines.iter().flat_map(|line| [line.as_ref(), b"\n"].concat()).collect();
    let sum = checksum(lines.iter().map(|line| line.as_ref()));
    file.extend(format!("ZPT|{}|{}\n", lines.len() + 1, sum).into_bytes());
    file
}

/// The lines as a sheet.
pub fn sheet_of<L: AsRef<[u8]>>(lines: &[L]) -> Vec<u8> {
    let bytes: Vec<u8> = lines.iter().flat_map(|line| [line.as_ref(), b"\n"].concat()).collect();
    bytes.into_iter().map(|byte| if byte == b'|' { b'\t' } else { byte }).collect()
}

/// The small good file of a flow.
pub fn good(flow: &str) -> Vec<u8> {
    footed(&lines(flow))
}

/// The small good file with one field replaced and the footer right again.
pub fn with(flow: &str, record: usize, field: usize, bytes: &[u8]) -> Vec<u8> {
    let mut lines: Vec<Vec<u8>> = lines(flow).iter().map(|line| line.as_bytes().to_vec()).collect();
    let mut fields: Vec<&[u8]> = lines[record - 1].split(|&byte| byte == b'|').collect();
    fields[field - 1] = bytes;
    lines[record - 1] = fields.join(&b'|');
    footed(&lines)
}

/// The answer to a file: its records, or number, record and field.
pub fn judged(flow: &str, file: &[u8]) -> Result<usize, (u8, usize, usize)> {
    judge(flow.as_bytes(), file).map_err(|refusal| (refusal.number, refusal.record, refusal.field))
}

/// The answer to a small good file with one field replaced.
pub fn judged_with(
    flow: &str,
    record: usize,
    field: usize,
    bytes: &[u8],
) -> Result<usize, (u8, usize, usize)> {
    judged(flow, &with(flow, record, field, bytes))
}

/// The answer to a field by the spelling of its type; no mark.
pub fn field<'a>(form: &str, bytes: &'a [u8]) -> Result<Value<'a>, u8> {
    judge_field(spelled(form), &Mark::None, bytes)
}

pub fn spelled(form: &str) -> Type {
    Type::spelled(form.as_bytes()).expect("a type in document 01's spelling")
}

/// The file with one text replaced by another, once.
pub fn replaced(file: &[u8], old: &str, new: &str) -> Vec<u8> {
    let text = String::from_utf8(file.to_vec()).expect("plain text");
    assert!(text.contains(old));
    text.replacen(old, new, 1).into_bytes()
}
