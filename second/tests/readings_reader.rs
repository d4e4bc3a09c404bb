//! The readings of document 01 that concern the reader, one test an id.

mod common;
use common::*;
use second::field::Value::*;

#[test]
fn l1_range_before_fixed_value() {
    let rows = [&lines("P0012001")[..3], &["GS2|1|12|1.0000"]].concat();
    assert_eq!(judged("P0012001", &footed(&rows)), Err((9, 4, 3)));
    assert_eq!(judged_with("P0138001", 1, 5, b"ZZ"), Err((9, 1, 5)));
    assert_eq!(judged_with("P0138001", 1, 5, b"Y"), Err((10, 1, 5)));
}

#[test]
fn l2_form_before_range() {
    assert_eq!(field("text(2)", b"ABC "), Err(8));
    assert_eq!(field("text(2)", b"ABC"), Err(9));
}

#[test]
fn l3_periods_out_of_range() {
    for bytes in ["100", "-5", "0", "51"] {
        assert_eq!(field("period", bytes.as_bytes()), Err(9));
    }
}

#[test]
fn l4_periods_of_bad_form() {
    for bytes in ["07", "-0", "00"] {
        assert_eq!(field("period", bytes.as_bytes()), Err(8));
    }
}

#[test]
fn l5_negative_zero() {
    assert_eq!(field("dec(4,1)", b"-0.0"), Err(8));
    assert_eq!(field("dec(4,1)", b"-0.1"), Ok(Number(-1)));
    assert_eq!(field("dec(4,1)", b"0.0"), Ok(Number(0)));
}

#[test]
fn l6_all_digits_count() {
    assert_eq!(field("dec(2,1)", b"0.1"), Ok(Number(1)));
    assert_eq!(field("dec(2,1)", b"10.1"), Err(9));
}

#[test]
fn l7_no_such_day_is_range() {
    for date in ["00000101", "20241301", "20240100", "20240001", "20240230"] {
        assert_eq!(field("date", date.as_bytes()), Err(9));
    }
}

#[test]
fn l8_a_minus_in_the_footer_is_a_wrong_number() {
    let other = |old, new| judged("P0138001", &replaced(EXAMPLE, old, new));
    assert_eq!(other("ZPT|4", "ZPT|-4"), Err((12, 4, 2)));
    assert_eq!(other("812996689", "-1"), Err((13, 4, 3)));
    assert_eq!(other("812996689", "4294967296"), Err((13, 4, 3)));
    assert_eq!(other("812996689", "5107963985"), Err((13, 4, 3)));
    assert_eq!(other("812996689", "10000000000"), Err((9, 4, 3)));
}

#[test]
fn l9_count_before_checksum() {
    assert_eq!(judged("P0138001", &replaced(EXAMPLE, "4|812996689", "5|812996688")), Err((12, 4, 2)));
}

#[test]
fn l10_an_empty_kind_is_none_of_the_flow() {
    for line in ["", "|", "|B|||20231231|M"] {
        let rows = ["ZHD|P0138001|G|SVAA|Z|POOL|20240105120000", line];
        assert_eq!(judged("P0138001", &footed(&rows)), Err((4, 2, 1)));
    }
}

#[test]
fn l11_bytes_behind_a_right_footer() {
    let behind = |more: &[u8]| judged("P0138001", &[EXAMPLE, more].concat());
    assert_eq!(behind(b"\n"), Err((4, 5, 1)));
    assert_eq!(behind(b"\0"), Err((4, 5, 1)));
    assert_eq!(behind(b"TA2|1.0250\n"), Err((5, 5, 1)));
    assert_eq!(behind(b"ZPT|4|812996689\n"), Err((5, 5, 1)));
    assert_eq!(behind(b"XXX\n"), Err((4, 5, 1)));
    assert_eq!(behind(&[b'X'; 513]), Err((3, 5, 0)));
}

#[test]
fn l12_kinds_of_other_length_or_case() {
    for kind in ["ZH", "ZHDX", "zhd", "ZHD ", " ZHD"] {
        assert_eq!(judged_with("P0138001", 1, 1, kind.as_bytes()), Err((4, 1, 1)));
    }
}

#[test]
fn l13_a_carriage_return_is_a_byte_of_its_field() {
    assert_eq!(judged_with("P0138001", 3, 2, b"1.0250\r"), Err((8, 3, 2)));
    assert_eq!(judged_with("P0138001", 2, 4, b"\r"), Err((10, 2, 4)));
    assert_eq!(judged("P0138001", b"ZHD\r\n"), Err((4, 1, 1)));
}

#[test]
fn l14_nul_is_a_byte_like_any_other() {
    assert_eq!(judged_with("P0138001", 1, 4, b"SV\0A"), Err((8, 1, 4)));
    assert_eq!(judged("P0138001", &[EXAMPLE, b"\0\0"].concat()), Err((4, 5, 1)));
}

#[test]
fn l15_a_tab_parts_nothing_in_a_file() {
    let tabs: Vec<u8> = EXAMPLE.iter().map(|&byte| if byte == b'|' { b'\t' } else { byte }).collect();
    assert_eq!(judged("P0138001", &tabs), Err((4, 1, 1)));
    assert_eq!(judged_with("P0138001", 1, 4, b"S\tA"), Err((8, 1, 4)));
}

#[test]
fn l16_field_0_unless_said() {
    assert_eq!(judged("P0138001", &[b'A'; 513]), Err((3, 1, 0)));
    assert_eq!(judged("P0138001", b"ZHD\n"), Err((6, 1, 0)));
    assert_eq!(judged("P0138001", &EXAMPLE[..72]), Err((14, 4, 0)));
    let file = good("P0012001");
    assert_eq!(judged("P0012001", &file[..file.len() - 1]), Err((15, 7, 0)));
}

#[test]
fn l17_a_footer_that_stands_early() {
    for flow in ["P0133001", "P0134001", "P0164001"] {
        let early = footed(&lines(flow)[..1]);
        let rest = lines(flow)[1..].join("\n").into_bytes();
        assert_eq!(judged(flow, &[&early[..], &rest].concat()), Err((5, 3, 1)));
        let wrong = replaced(&early, "ZPT|2|", "ZPT|3|");
        assert_eq!(judged(flow, &[&wrong[..], &rest].concat()), Err((12, 2, 2)));
        let wrong = [&early[..early.len() - 1], b"0\n"].concat();
        assert!(matches!(judged(flow, &[&wrong[..], &rest].concat()), Err((9, 2, 3)) | Err((13, 2, 3))));
    }
}

#[test]
fn l18_an_unended_record_counts() {
    assert_eq!(judged("P0138001", &EXAMPLE[..71]), Err((14, 4, 0)));
    assert_eq!(judged("P0138001", &EXAMPLE[..72]), Err((14, 4, 0)));
}

#[test]
fn l19_no_footer_before_no_line_feed() {
    for flow in ["P0012001", "P0181002"] {
        let unended = lines(flow).join("\n");
        assert_eq!(judged(flow, unended.as_bytes()), Err((14, lines(flow).len() + 1, 0)));
    }
}

#[test]
fn l20_a_wrong_footer_before_no_line_feed() {
    for flow in ["P0012001", "P0181002"] {
        let count = lines(flow).len() + 1;
        let file = good(flow);
        let unended = &file[..file.len() - 1];
        assert_eq!(judged(flow, unended), Err((15, count, 0)));
        let right = format!("ZPT|{}|", count);
        assert_eq!(judged(flow, &replaced(unended, &right, "ZPT|1|")), Err((12, count, 2)));
    }
}

#[test]
fn l21_rows_of_p0012_rise() {
    assert_eq!(judged_with("P0012001", 5, 2, b"1"), Err((11, 5, 2)));
    assert_eq!(judged_with("P0012001", 4, 2, b"8"), Ok(7));
    assert_eq!(judged_with("P0012001", 6, 2, b"9"), Err((11, 6, 2)));
}

#[test]
fn l22_a_key_fails_its_type_first() {
    assert_eq!(judged_with("P0012001", 5, 2, b""), Err((7, 5, 2)));
    assert_eq!(judged_with("P0012001", 5, 2, b"01"), Err((8, 5, 2)));
    assert_eq!(judged_with("P0012001", 5, 2, b"0"), Err((9, 5, 2)));
    let rows = [&lines("P0012001")[..5], &["GSP|9|x|1.0000"]].concat();
    assert_eq!(judged("P0012001", &footed(&rows)), Err((8, 6, 3)));
}

#[test]
fn l23_gs7_has_no_key() {
    assert_eq!(judged_with("P0181002", 8, 2, b"AA"), Ok(11));
    assert_eq!(judged_with("P0181002", 8, 2, b"!"), Ok(11));
}

#[test]
fn l24_the_key_of_sp7_is_its_date() {
    assert_eq!(judged_with("P0164001", 4, 5, b"20240101"), Ok(7));
    assert_eq!(judged_with("P0164001", 4, 5, b"20231231"), Err((11, 4, 5)));
    assert_eq!(judged_with("P0164001", 4, 2, b"ZZ"), Ok(7));
}

#[test]
fn keys_start_anew_at_their_head_and_go_by_byte() {
    // SUP again under the next GS7, BMU again under the next SUP, SP7 again under the next SUB.
    assert_eq!(judged("P0181002", &good("P0181002")), Ok(11));
    assert_eq!(judged_with("P0181002", 6, 2, b"AAAA"), Err((11, 6, 2)));
    assert_eq!(judged_with("P0181002", 6, 2, b"AAA"), Err((11, 6, 2)));
    assert_eq!(judged_with("P0181002", 6, 2, b"AAAa"), Ok(11));
    assert_eq!(judged_with("P0181002", 5, 2, b"2__AAAA0011"), Ok(11));
    assert_eq!(judged_with("P0181002", 5, 2, b"2__AAAA001"), Err((11, 5, 2)));
    assert_eq!(judged_with("P0181002", 5, 2, b"2__AAAA00"), Err((11, 5, 2)));
    assert_eq!(judged("P0164001", &good("P0164001")), Ok(7));
}

#[test]
fn l25_flow_names_of_other_lengths() {
    for flow in ["", "P", "P013800", "P01380011", "p0138001", " P0138001"] {
        assert_eq!(judged(flow, EXAMPLE), Err((1, 0, 0)));
    }
}

#[test]
fn l26_the_flow_before_the_limit() {
    let long = vec![b'\n'; 1_048_577];
    assert_eq!(judged("P0138002", &long), Err((1, 0, 0)));
    assert_eq!(judged("P0138001", &long), Err((2, 0, 0)));
    assert_eq!(judged("P0138001", &long[1..]), Err((4, 1, 1)));
}

#[test]
fn l27_each_record_in_turn() {
    let long = "X".repeat(513);
    let rows = ["ZHD|P0138001|G|SVAA|Z|POOL|20240105120000", "SUB|B|||20231231|X", &long];
    assert_eq!(judged("P0138001", &footed(&rows)), Err((10, 2, 6)));
}

#[test]
fn l28_roles_of_p0012_and_p0181_are_free() {
    for flow in ["P0012001", "P0181002"] {
        assert!(judged_with(flow, 1, 3, b"Q").is_ok());
        assert!(judged_with(flow, 1, 5, b"Q").is_ok());
    }
    for flow in ["P0133001", "P0134001", "P0138001", "P0164001"] {
        assert_eq!(judged_with(flow, 1, 3, b"Q"), Err((10, 1, 3)));
        assert_eq!(judged_with(flow, 1, 5, b"Q"), Err((10, 1, 5)));
    }
}

#[test]
fn l29_a_null_field_is_judged_by_10_alone() {
    for bytes in [&b" "[..], b"\xff", b"\t", b"NULL"] {
        assert_eq!(judged_with("P0138001", 2, 3, bytes), Err((10, 2, 3)));
        assert_eq!(judged_with("P0138001", 2, 4, bytes), Err((10, 2, 4)));
    }
}
