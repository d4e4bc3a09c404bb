//! Document 01's own examples.

mod common;
use common::*;
use second::bytes::{checksum, is_text, records_of};
use second::field::Value::*;
use second::sheet::write;
use second::step::{step, Step};

#[test]
fn the_example_is_accepted() {
    assert_eq!(EXAMPLE.len(), 88);
    assert_eq!(judged("P0138001", EXAMPLE), Ok(4));
    assert_eq!(checksum(records_of(EXAMPLE)[..3].iter().copied()), 812_996_689);
}

#[test]
fn the_example_without_its_last_line_feed() {
    assert_eq!(judged("P0138001", &EXAMPLE[..87]), Ok(4));
}

#[test]
fn the_example_with_another_footer() {
    let other = |old, new| judged("P0138001", &replaced(EXAMPLE, old, new));
    assert_eq!(other("812996689", "812996688"), Err((13, 4, 3)));
    assert_eq!(other("ZPT|4", "ZPT|5"), Err((12, 4, 2)));
}

#[test]
fn the_example_without_ta2() {
    assert_eq!(judged("P0138001", &replaced(EXAMPLE, "TA2|1.0250\n", "")), Err((5, 3, 1)));
}

#[test]
fn the_example_with_null_spelled_out() {
    assert_eq!(judged("P0138001", &replaced(EXAMPLE, "SUB|B|||", "SUB|B|NULL||")), Err((10, 2, 3)));
    assert_eq!(judged_with("P0133001", 3, 2, b"NULL"), Err((9, 3, 2)));
}

#[test]
fn whole_numbers() {
    assert_eq!(field("int(2)", b"99"), Ok(Number(99)));
    assert_eq!(field("int(2)", b"-99"), Ok(Number(-99)));
    assert_eq!(field("int(2)", b"100"), Err(9));
    assert_eq!(field("int(2)", b"07"), Err(8));
    assert_eq!(field("int(2)", b"-0"), Err(8));
    assert_eq!(field("int(18)", b"-999999999999999999"), Ok(Number(-999_999_999_999_999_999)));
}

#[test]
fn decimals() {
    assert_eq!(field("dec(4,1)", b"999.9"), Ok(Number(9999)));
    assert_eq!(field("dec(4,1)", b"1000.0"), Err(9));
    assert_eq!(field("dec(4,1)", b"5"), Err(8));
    assert_eq!(field("dec(4,1)", b"5.00"), Err(8));
    assert_eq!(field("dec(4,2)", b"-12.34"), Ok(Number(-1234)));
    assert_eq!(field("dec(4,2)", b"-0.01"), Ok(Number(-1)));
}

#[test]
fn texts() {
    assert_eq!(field("text(2)", b"A "), Err(8));
    assert_eq!(field("text(2)", b"A"), Ok(Text(b"A")));
    assert_eq!((0..=255).filter(|&byte| is_text(byte)).count(), 83);
}

#[test]
fn dates_and_periods() {
    assert_eq!(field("date", b"20000229"), Ok(Number(20_000_229)));
    assert_eq!(field("date", b"19000229"), Err(9));
    assert_eq!(field("date", b"2024229"), Err(8));
    assert_eq!(field("datetime", b"20240105235959"), Ok(Number(20_240_105_235_959)));
    assert_eq!(field("datetime", b"20240105240000"), Err(9));
    assert_eq!(field("period", b"50"), Ok(Number(50)));
    assert_eq!(field("period", b"51"), Err(9));
    assert_eq!(field("period", b"0"), Err(9));
}

#[test]
fn yes_and_no() {
    assert_eq!(field("bol", b"T"), Ok(Truth(true)));
    assert_eq!(field("bol", b"F"), Ok(Truth(false)));
    assert_eq!(field("bol", b"Y"), Err(8));
    assert_eq!(field("null", b""), Ok(Empty));
    assert_eq!(field("null", b"NULL"), Err(10));
}

#[test]
fn a_header_and_a_footer_alone() {
    let header_and_footer = step(b"P0133001", b"ZHDZPT").unwrap();
    assert_eq!(header_and_footer, Step::Through { complete: true, follow: vec![] });
    assert_eq!(judged("P0133001", &footed(&lines("P0133001")[..1])), Ok(2));
}

#[test]
fn gsp_and_gs2_never_both() {
    assert_eq!(step(b"P0012001", b"ZHDZPDHDRGSPGS2").unwrap(), Step::Stopped(5));
    let mut lines = lines("P0012001");
    lines.push("GS2|11|0|1.0000");
    assert_eq!(judged("P0012001", &footed(&lines)), Err((5, 7, 1)));
    assert_eq!(judged("P0012001", &footed(&[&lines[..3], &lines[6..]].concat())), Ok(5));
}

#[test]
fn the_empty_file_and_the_empty_sheet() {
    for flow in FLOWS {
        assert_eq!(judged(flow, b""), Err((14, 1, 0)));
        let refusal = write(flow.as_bytes(), b"", &mut []).unwrap_err();
        assert_eq!((refusal.number, refusal.record, refusal.field), (5, 1, 1));
    }
}

#[test]
fn braces_allow_none_but_p0181_asks_for_one() {
    assert_eq!(judged("P0181002", &footed(&lines("P0181002")[..1])), Err((5, 2, 1)));
    assert_eq!(judged("P0181002", &footed(&lines("P0181002")[..2])), Ok(3));
    assert_eq!(judged("P0181002", &footed(&lines("P0181002")[..3])), Err((5, 4, 1)));
}

#[test]
fn the_small_files_are_good() {
    for flow in FLOWS {
        assert_eq!(judged(flow, &good(flow)), Ok(lines(flow).len() + 1));
    }
}

#[test]
fn records_of_512_bytes_and_more() {
    let long =
        |length: usize| judged_with("P0133001", 2, 4, &vec![b'A'; length - "SB1|H|M||20240105|M".len()]);
    assert_eq!(long(512), Err((9, 2, 4)));
    assert_eq!(long(513), Err((3, 2, 0)));
}
