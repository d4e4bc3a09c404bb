//! The readings of document 01 that concern value, field, checksum and step, one test an id.

mod common;
use common::*;
use second::bytes::{checksum, records_of};
use second::field::{judge_field, Mark, Value, Value::*};
use second::judge::value;
use second::step::{step, Step};

fn value_of(file: &[u8], record: usize, field: usize) -> Result<Value<'_>, (u8, usize, usize)> {
    value(b"P0138001", file, record, field).map_err(|why| (why.number, why.record, why.field))
}

fn marked<'a>(form: &str, mark: Mark, bytes: &'a [u8]) -> Result<Value<'a>, u8> {
    judge_field(spelled(form), &mark, bytes)
}

fn fixed(bytes: &[u8]) -> Mark {
    Mark::Fixed(bytes.to_vec())
}

fn stepped(flow: &str, kinds: &[u8]) -> Option<Step> {
    step(flow.as_bytes(), kinds).ok()
}

fn open(follow: &[&[u8; 3]]) -> Option<Step> {
    Some(Step::Through { complete: false, follow: follow.iter().map(|kind| **kind).collect() })
}

#[test]
fn v1_record_0_and_field_0_do_not_exist() {
    assert_eq!(value_of(EXAMPLE, 0, 1), Err((18, 0, 1)));
    assert_eq!(value_of(EXAMPLE, 1, 0), Err((18, 1, 0)));
    assert_eq!(value_of(EXAMPLE, 0, 0), Err((18, 0, 0)));
}

#[test]
fn v2_18_carries_both_numbers_as_asked() {
    assert_eq!(value_of(EXAMPLE, 3, 3), Err((18, 3, 3)));
    assert_eq!(value_of(EXAMPLE, 5, 1), Err((18, 5, 1)));
    assert_eq!(value_of(EXAMPLE, 1_000_000_000, 7), Err((18, 1_000_000_000, 7)));
}

#[test]
fn v3_every_field_has_its_value() {
    assert_eq!(value_of(EXAMPLE, 1, 1), Ok(Text(b"ZHD")));
    assert_eq!(value_of(EXAMPLE, 1, 2), Ok(Text(b"P0138001")));
    assert_eq!(value_of(EXAMPLE, 1, 7), Ok(Number(20_240_105_120_000)));
    assert_eq!(value_of(EXAMPLE, 2, 3), Ok(Empty));
    assert_eq!(value_of(EXAMPLE, 3, 2), Ok(Number(10_250)));
    assert_eq!(value_of(EXAMPLE, 4, 2), Ok(Number(4)));
    assert_eq!(value_of(EXAMPLE, 4, 3), Ok(Number(812_996_689)));
    let p0181 = good("P0181002");
    assert_eq!(value(b"P0181002", &p0181, 4, 4).unwrap(), Empty);
    assert_eq!(value(b"P0181002", &p0181, 4, 5).unwrap(), Truth(true));
}

#[test]
fn v4_the_files_own_refusal_comes_first() {
    assert_eq!(value_of(&EXAMPLE[..72], 99, 1), Err((14, 4, 0)));
}

#[test]
fn f1_null_passes_its_mark_over() {
    for mark in [Mark::None, Mark::Opt, fixed(b""), fixed(b"NULL")] {
        assert_eq!(marked("null", mark.clone(), b""), Ok(Empty));
        assert_eq!(marked("null", mark, b"NULL"), Err(10));
    }
}

#[test]
fn f2_a_fixed_value_that_does_not_meet_its_type() {
    assert_eq!(marked("int(2)", fixed(b"07"), b"07"), Err(8));
    assert_eq!(marked("int(2)", fixed(b"100"), b"100"), Err(9));
    assert_eq!(marked("int(2)", fixed(b"100"), b"10"), Err(10));
    assert_eq!(marked("int(2)", fixed(b""), b""), Err(7));
    assert_eq!(marked("int(2)", fixed(b""), b"1"), Err(10));
    assert_eq!(marked("int(2)", fixed(b"10"), b"10"), Ok(Number(10)));
}

#[test]
fn f3_the_width_comes_first() {
    for form in ["text(0)", "text(513)", "int(0)", "int(19)", "dec(1,1)", "dec(19,1)", "dec(4,4)", "dec(4,0)"]
    {
        for mark in [Mark::None, Mark::Opt, fixed(b"1")] {
            assert_eq!(marked(form, mark.clone(), b""), Err(18));
            assert_eq!(marked(form, mark, b"1"), Err(18));
        }
    }
    for form in ["text(1)", "text(512)", "int(1)", "int(18)", "dec(2,1)", "dec(18,1)", "dec(18,17)"] {
        assert_eq!(marked(form, Mark::Opt, b""), Ok(Empty));
        assert_eq!(marked(form, Mark::None, b""), Err(7));
    }
}

#[test]
fn f4_bytes_of_any_length_and_kind() {
    assert_eq!(field("text(512)", &[b'A'; 513]), Err(9));
    assert_eq!(field("text(512)", b"A|B"), Err(8));
    assert_eq!(field("text(512)", b"A\nB"), Err(8));
    assert_eq!(field("int(18)", &[b'1'; 2000]), Err(9));
    assert_eq!(field("int(18)", &[b'0'; 2000]), Err(8));
    assert_eq!(field("dec(18,1)", &[&[b'1'; 2000][..], b".1"].concat()), Err(9));
    assert_eq!(field("null", &[b'|'; 2000]), Err(10));
}

#[test]
fn f5_a_number_has_one_spelling() {
    for other in ["05", "+5", "5.0", " 5", "5 ", "-05"] {
        assert_eq!(marked("int(3)", fixed(b"5"), other.as_bytes()), Err(8));
    }
}

#[test]
fn s1_no_limit() {
    let long = b"ABCD\n".repeat(300_001);
    assert_eq!(checksum(records_of(&long)), 0x4142_4344);
}

#[test]
fn s2_records_of_any_length() {
    assert_eq!(checksum(records_of(&[b'A'; 1004])), 0x4141_4141);
}

#[test]
fn s3_every_record_counts() {
    assert_eq!(checksum(records_of(b"")), 0);
    assert_eq!(checksum(records_of(b"\n\n")), 0);
    assert_eq!(checksum(records_of(b"A")), 0x4100_0000);
    assert_eq!(checksum(records_of(b"ABCDE\n")), 0x4142_4344 ^ 0x4500_0000);
    let with_footer = checksum(records_of(EXAMPLE));
    assert_eq!(with_footer, 812_996_689 ^ checksum(records_of(b"ZPT|4|812996689")));
}

#[test]
fn t1_the_place_counts_kinds() {
    assert_eq!(stepped("P0138001", b"ZHDSUBZPT"), Some(Step::Stopped(3)));
    assert_eq!(stepped("P0138001", b"SUB"), Some(Step::Stopped(1)));
}

#[test]
fn t2_a_kind_cut_short_stops_at_its_own_place() {
    assert_eq!(stepped("P0138001", b"ZHDSU"), Some(Step::Stopped(2)));
    assert_eq!(stepped("P0138001", b"Z"), Some(Step::Stopped(1)));
}

#[test]
fn t3_the_empty_list() {
    for flow in FLOWS {
        assert_eq!(stepped(flow, b""), open(&[b"ZHD"]));
    }
}

#[test]
fn t4_a_complete_list_has_no_followers() {
    let done = Some(Step::Through { complete: true, follow: vec![] });
    assert_eq!(stepped("P0138001", b"ZHDSUBTA2ZPT"), done);
    assert_eq!(stepped("P0138001", b"ZHDSUBTA2ZPTZPT"), Some(Step::Stopped(5)));
}

#[test]
fn t5_no_such_flow() {
    let refusal = step(b"P0138002", b"").unwrap_err();
    assert_eq!((refusal.number, refusal.record, refusal.field), (1, 0, 0));
}

#[test]
fn t6_the_earlier_stop_counts() {
    assert_eq!(stepped("P0138001", b"ZHDXXXSU"), Some(Step::Stopped(2)));
    assert_eq!(stepped("P0138001", b"ZHDTA2SUBZPTXXXZ"), Some(Step::Stopped(2)));
}

#[test]
fn t7_followers_in_the_layouts_order() {
    assert_eq!(stepped("P0012001", b"ZHDZPDHDR"), open(&[b"GSP", b"GS2", b"ZPT"]));
    assert_eq!(stepped("P0012001", b"ZHDZPDHDRGS2"), open(&[b"GS2", b"ZPT"]));
    assert_eq!(stepped("P0181002", b"ZHDGS7SUPBMU"), open(&[b"GS7", b"SUP", b"BMU", b"ZPT"]));
    assert_eq!(stepped("P0181002", b"ZHDGS7SUP"), open(&[b"BMU"]));
}
