//! The stream's form: headers, answers to the letter, the census and the comparison.

mod common;
use common::*;
use second::answer::answer;
use second::census::census;
use second::compare::compare;
use second::stream::{cases_of, BadHeader};

fn case(header: &str, body: &[u8]) -> Vec<u8> {
    [header.as_bytes(), b"\n", body].concat()
}

/// The answers to a stream without a bad header.
fn answers(stream: &[u8]) -> Vec<u8> {
    cases_of(stream).flat_map(|case| answer(&case.expect("a good header").ask)).collect()
}

fn answered(header: &str, body: &[u8]) -> String {
    String::from_utf8(answers(&case(header, body))).expect("plain text")
}

fn is_bad(stream: &[u8]) -> bool {
    matches!(cases_of(stream).last(), Some(Err(BadHeader)))
}

#[test]
fn answers_to_files() {
    assert_eq!(answered("judge\tP0138001\t88", EXAMPLE), "ok\t0\t4\t0\t0\n");
    assert_eq!(answered("judge\t\t0", b""), "refused\t1\t0\t0\t0\n");
    assert_eq!(answered("judge\tP0138001\t0", b""), "refused\t14\t1\t0\t0\n");
    assert_eq!(answered("judge\tP0138001\t72", &EXAMPLE[..72]), "refused\t14\t4\t0\t72\n");
    assert_eq!(answered("judge\tP0138001 711\t88", EXAMPLE), "ok\t0\t4\t0\t0\n");
    assert_eq!(answered("judge\tP0138001 712\t88", EXAMPLE), "refused\t21\t0\t0\t0\n");
    assert_eq!(answered("judge\tP0138001 \t88", EXAMPLE), "refused\t21\t0\t0\t0\n");
    assert_eq!(answered("value\tP0138001\t1\t1\t88", EXAMPLE), "ok\t0\ttext\tZHD\n");
    assert_eq!(answered("value\tP0138001\t2\t3\t88", EXAMPLE), "ok\t0\tempty\t\n");
    assert_eq!(answered("value\tP0138001\t3\t2\t88", EXAMPLE), "ok\t0\tnumber\t10250\n");
    assert_eq!(answered("value\tP0138001\t9\t2\t88", EXAMPLE), "refused\t18\t9\t2\t88\n");
    assert_eq!(answered("value\tP0138001 533\t3\t2\t88", EXAMPLE), "ok\t0\tnumber\t10250\n");
    assert_eq!(answered("value\tP0138001 532\t9\t2\t88", EXAMPLE), "refused\t21\t0\t0\t0\n");
}

#[test]
fn answers_to_fields() {
    assert_eq!(answered("field\tint(2)\t-\t0\t3", b"-99"), "ok\t0\tnumber\t-99\n");
    assert_eq!(answered("field\tbol\t-\t0\t1", b"F"), "ok\t0\ttruth\tF\n");
    assert_eq!(answered("field\tbol\topt\t0\t0", b""), "ok\t0\tempty\t\n");
    assert_eq!(answered("field\ttext(4)\t=\t2\t2", b"ABAB"), "ok\t0\ttext\tAB\n");
    assert_eq!(answered("field\ttext(4)\t=\t2\t1", b"ABA"), "refused\t10\t0\t0\t0\n");
    assert_eq!(answered("field\tdec(4,4)\t-\t0\t0", b""), "refused\t18\t0\t0\t0\n");
}

#[test]
fn answers_to_sums_and_steps() {
    assert_eq!(answered("sum\t6", b"ABCDE\n"), "ok\t0\t71451460\t0\n");
    assert_eq!(answered("step\tP0138001\t0", b""), "ok\t0\topen\tZHD\n");
    assert_eq!(answered("step\tP0133001\t6", b"ZHDZPT"), "ok\t0\tcomplete\t\n");
    assert_eq!(answered("step\tP0181002\t6", b"ZHDGS7"), "ok\t0\topen\tGS7SUPZPT\n");
    assert_eq!(answered("step\tP0133001\t6", b"ZHDTA2"), "stopped\t0\t2\t0\n");
    assert_eq!(answered("step\tP0133002\t6", b"ZHDTA2"), "refused\t1\t0\t0\t0\n");
    assert_eq!(answered("step\tP0133001 711\t6", b"ZHDSB1"), "ok\t0\topen\tSB1CM1ZPT\n");
    assert_eq!(answered("step\tP0133001 710\t6", b"ZHDTA2"), "refused\t21\t0\t0\t0\n");
}

#[test]
fn answers_to_sheets() {
    let sheet = sheet_of(&lines("P0138001"));
    let file = String::from_utf8(EXAMPLE.to_vec()).unwrap();
    assert_eq!(answered("write\tP0138001\t88\t72", &sheet), format!("ok\t0\t4\t88\t0\t1\n{}\n", file));
    assert_eq!(answered("write\tP0138001\t87\t72", &sheet), "refused\t17\t0\t0\t0\t1\n");
    assert_eq!(answered("write\tP0138001\t88\t61", &sheet[..61]), "refused\t5\t3\t1\t61\t1\n");
    let text = String::from_utf8(sheet).unwrap();
    assert_eq!(answered("read\tP0138001\t100\t88", EXAMPLE), format!("ok\t0\t4\t72\t0\t1\n{}\n", text));
    assert_eq!(answered("read\tP0138001\t0\t0", b""), "refused\t14\t1\t0\t0\t1\n");
    assert_eq!(answered("write\tP0138001  711\t9\t0", b""), "refused\t21\t0\t0\t0\t1\n");
    assert_eq!(answered("read\tP0138001 7\t9\t0", b""), "refused\t21\t0\t0\t0\t1\n");
}

#[test]
fn answers_to_indexes() {
    let file = good("P0133001");
    let of = |room: usize, length: usize| {
        answered(&format!("index\tP0133001\t{}\t{}", room, length), &file[..length])
    };
    assert_eq!(of(2, file.len()), "ok\t0\t6\t2\t0\t1\n2\t42\t1\t2\n5\t99\t2\t0\n");
    assert_eq!(of(8192, file.len()), "ok\t0\t6\t2\t0\t1\n2\t42\t1\t2\n5\t99\t2\t0\n");
    assert_eq!(of(1, file.len()), "refused\t19\t0\t0\t0\t1\n");
    assert_eq!(of(0, file.len()), "refused\t19\t0\t0\t0\t1\n");
    assert_eq!(of(0, 124), "refused\t14\t6\t0\t124\t1\n");
    assert_eq!(answered("index\tP0138001\t0\t88", EXAMPLE), "ok\t0\t4\t0\t0\t1\n");
    assert_eq!(answered("index\tP0138001\t5\t86", &EXAMPLE[..86]), "refused\t13\t4\t3\t78\t1\n");
    assert_eq!(answered("index\t\t0000008192\t0", b""), "refused\t1\t0\t0\t0\t1\n");
    assert_eq!(answered("index\tP0138001 711\t5\t88", EXAMPLE), "ok\t0\t4\t0\t0\t1\n");
    assert_eq!(answered("index\tP0138001 711 \t5\t88", EXAMPLE), "refused\t21\t0\t0\t0\t1\n");
}

#[test]
fn answers_to_exports() {
    let text = "ZHD,P0138001,G,SVAA,Z,POOL,20240105120000\r\nSUB,B,,,20231231,M\r\nTA2,1.0250\r\n";
    let of = |room: usize| answered(&format!("export\tP0138001\t{}\t88", room), EXAMPLE);
    assert_eq!(of(75), format!("ok\t0\t4\t75\t0\t1\n{}\n", text));
    assert_eq!(of(1_114_112), format!("ok\t0\t4\t75\t0\t1\n{}\n", text));
    assert_eq!(of(74), "refused\t17\t0\t0\t0\t1\n");
    assert_eq!(answered("export\tP0138001\t0\t72", &EXAMPLE[..72]), "refused\t14\t4\t0\t72\t1\n");
    assert_eq!(answered("export\tP0138001\t9\t86", &EXAMPLE[..86]), "refused\t13\t4\t3\t78\t1\n");
    assert_eq!(answered("export\t\t0\t0", b""), "refused\t1\t0\t0\t0\t1\n");
    assert_eq!(answered("export\tP0138001 533 711\t9\t88", EXAMPLE), "refused\t21\t0\t0\t0\t1\n");
}

#[test]
fn answers_to_imports() {
    let of = |room: usize, text: &[u8]| answered(&format!("import\t{}\t{}", room, text.len()), text);
    assert_eq!(of(6, b"A,\"B\"\r\nC"), "ok\t0\t2\t6\t0\t1\nA\tB\nC\n\n");
    assert_eq!(of(1_114_112, b"A"), "ok\t0\t1\t2\t0\t1\nA\n\n");
    assert_eq!(of(0, b""), "ok\t0\t0\t0\t0\t1\n\n");
    assert_eq!(of(5, b"A,\"B\"\r\nC"), "refused\t17\t0\t0\t0\t1\n");
    assert_eq!(of(9, b"A\r\nB|"), "refused\t16\t2\t0\t3\t1\n");
    assert_eq!(of(9, b"A\r\n|\r\nB\tC"), "refused\t20\t3\t0\t6\t1\n");
    assert_eq!(of(0, &[b'A'; 1_048_001]), "refused\t2\t0\t0\t0\t1\n");
}

#[test]
fn answers_to_periods() {
    let file = good("P0012001");
    let of =
        |words: &str, length: usize| answered(&format!("period\t{}\t{}", words, length), &file[..length]);
    assert_eq!(of("P0012001\t9", file.len()), "ok\t0\ttruth\tT\n");
    assert_eq!(of("P0012001\t8", file.len()), "ok\t0\ttruth\tF\n");
    assert_eq!(of("P0012001 533\t0000000010", file.len()), "ok\t0\ttruth\tT\n");
    assert_eq!(of("P0012001 711\t50", file.len()), "ok\t0\ttruth\tF\n");
    assert_eq!(of("P0012001\t10", 128), "ok\t0\ttruth\tT\n");
    assert_eq!(of("P0012001\t2", 109), "ok\t0\ttruth\tF\n");
    assert_eq!(of("P0012001\t2", 108), "refused\t8\t5\t4\t102\n");
    assert_eq!(of("P0012001\t11", 128), "refused\t14\t7\t0\t128\n");
    assert_eq!(of("P0012001\t11", file.len() - 1), "refused\t15\t7\t0\t128\n");
    assert_eq!(of("P0012001\t17", 0), "refused\t14\t1\t0\t0\n");
    for period in ["0", "51", "1000000000"] {
        assert_eq!(of(&format!("P0012001\t{}", period), file.len()), "refused\t18\t0\t0\t0\n");
        assert_eq!(of(&format!("P0138001\t{}", period), file.len()), "refused\t22\t0\t0\t0\n");
        assert_eq!(of(&format!("P0138001 5\t{}", period), file.len()), "refused\t21\t0\t0\t0\n");
        assert_eq!(of(&format!("\t{}", period), file.len()), "refused\t1\t0\t0\t0\n");
    }
}

#[test]
fn headers_that_cannot_be_read() {
    let bad = [
        "",
        "judge",
        "judge\tP0138001",
        "judge\tP0138001\t",
        "judge\tP0138001\t-1",
        "judge\tP0138001\t1114113",
        "judge\tP0138001\t0\t0",
        "judge\tP0138001\t0x0",
        "Judge\tP0138001\t0",
        "judge P0138001 0",
        "sum",
        "sum\t\t0",
        "field\ttext\t-\t0\t0",
        "field\ttext()\t-\t0\t0",
        "field\ttext(1234567890)\t-\t0\t0",
        "field\tText(1)\t-\t0\t0",
        "field\tdec(4)\t-\t0\t0",
        "field\tint(1,1)\t-\t0\t0",
        "field\tdate(8)\t-\t0\t0",
        "field\tint(+1)\t-\t0\t0",
        "field\tdate\t\t0\t0",
        "field\tdate\topt\t0",
        "field\tdate\tkey\t0\t0",
        "value\tP0138001\t1000000001\t1\t0",
        "value\tP0138001\t1\t0",
        "write\tP0138001\t0",
        "read\tP0138001\t1114113\t0",
        "step\tP0138001\t0\r",
    ];
    for header in bad {
        assert!(is_bad(&case(header, b"")), "{:?}", header);
    }
    assert!(is_bad(b"sum\t0"), "no line feed");
    assert!(is_bad(b"sum\t3\nab"), "a body cut short");
    assert!(is_bad(b"sum\t3\nabc\n"), "a line feed too many");
    assert!(!is_bad(b"sum\t3\nabc"));
    assert!(cases_of(b"").next().is_none());
}

#[test]
fn headers_of_an_index_that_cannot_be_read() {
    let bad = [
        "index",
        "index\tP0138001\t0",
        "index\tP0138001\t0\t0\t0",
        "index\tP0138001\t\t0",
        "index\tP0138001\t-1\t0",
        "index\tP0138001\t8193\t0",
        "index\tP0138001\t1114112\t0",
        "index\tP0138001\t00000008192\t0",
        "index\tP0138001\t8192\t1114113",
        "Index\tP0138001\t0\t0",
    ];
    for header in bad {
        assert!(is_bad(&case(header, b"")), "{:?}", header);
    }
    assert!(is_bad(b"index\tP0138001\t0\t3\nab"), "a body cut short");
    assert!(!is_bad(b"index\tP0138001\t8192\t3\nabc"));
    assert!(!is_bad(b"index\tP0138001\t0\t0\n"));
}

#[test]
fn headers_of_exports_and_imports_that_cannot_be_read() {
    let bad = [
        "export",
        "export\tP0138001\t0",
        "export\tP0138001\t0\t0\t0",
        "export\tP0138001\t1114113\t0",
        "export\tP0138001\t-1\t0",
        "import",
        "import\t0",
        "import\tP0138001\t0\t0",
        "import\tP0138001\t0",
        "import\t1114113\t0",
        "import\t0\t1114113",
        "import\t\t0",
        "Import\t0\t0",
    ];
    for header in bad {
        assert!(is_bad(&case(header, b"")), "{:?}", header);
    }
    assert!(is_bad(b"import\t0\t3\nab"), "a body cut short");
    assert!(!is_bad(b"import\t1114112\t3\nabc"));
    assert!(!is_bad(b"export\t\t1114112\t0\n"));
}

#[test]
fn headers_of_a_period_that_cannot_be_read() {
    let bad = [
        "period",
        "period\tP0012001\t0",
        "period\t17\t0",
        "period\tP0012001\t17\t0\t0",
        "period\tP0012001\t\t0",
        "period\tP0012001\t-1\t0",
        "period\tP0012001\t+17\t0",
        "period\tP0012001\t17 \t0",
        "period\tP0012001\t1000000001\t0",
        "period\tP0012001\t00000000017\t0",
        "period\tP0012001\t17\t1114113",
        "Period\tP0012001\t17\t0",
    ];
    for header in bad {
        assert!(is_bad(&case(header, b"")), "{:?}", header);
    }
    assert!(is_bad(b"period\tP0012001\t17\t3\nab"), "a body cut short");
    assert!(!is_bad(b"period\tP0012001\t1000000000\t3\nabc"));
    assert!(!is_bad(b"period\t\t0000000000\t0\n"));
}

#[test]
fn nothing_is_answered_behind_a_bad_header() {
    assert_eq!(cases_of(b"sum\t0\nbad\nsum\t0\n").count(), 2);
}

#[test]
fn the_comparison_finds_every_difference() {
    let sheet = sheet_of(&lines("P0138001"));
    let sets = good("P0133001");
    let rows = good("P0012001");
    let stream = [
        case("judge\tP0138001\t88", EXAMPLE),
        case("write\tP0138001\t100\t72", &sheet),
        case(&format!("index\tP0133001\t9\t{}", sets.len()), &sets),
        case("index\tP0138001\t9\t88", EXAMPLE),
        case("export\tP0138001\t100\t88", EXAMPLE),
        case("import\t9\t8", b"A,B\r\n|\r\n"),
        case("import\t9\t6", b"E,F\r\nG"),
        case(&format!("period\tP0012001\t9\t{}", rows.len()), &rows),
        case("sum\t3", b"abc"),
        case("step\tP0133001\t3", b"ZHD"),
        case("value\tP0138001\t9\t2\t88", EXAMPLE),
        case("write\tP0138001\t100\t61", &sheet[..61]),
    ]
    .concat();
    let right = answers(&stream);
    let same = compare(&stream, &right);
    assert_eq!((same.cases, same.differences, same.kept.len()), (12, 0, 0));
    for place in 0..right.len() {
        let mut other = right.clone();
        other[place] ^= 1;
        assert!(compare(&stream, &other).differences > 0, "byte {}", place);
        assert!(compare(&stream, &right[..place]).differences > 0, "cut at {}", place);
    }
    let one = compare(&stream, &replaced(&right, "TA2|1.0250", "TA2|1.0251"));
    assert_eq!(one.differences, 1);
    assert_eq!(one.kept, case("write\tP0138001\t100\t72", &sheet));
    let none_written =
        replaced(&right, &format!("4\t88\t0\t1\n{}", String::from_utf8_lossy(EXAMPLE)), "4\t0\t0\t1\n");
    assert_eq!(compare(&stream, &none_written).differences, 1);
    for entries in ["2\t42\t1\t2\n5\t99\t2\t1\n", "5\t99\t2\t0\n2\t42\t1\t2\n"] {
        let other = replaced(&right, "2\t42\t1\t2\n5\t99\t2\t0\n", entries);
        assert_eq!(compare(&stream, &other).differences, 1);
    }
    let none_entered = replaced(&right, "6\t2\t0\t1\n2\t42\t1\t2\n5\t99\t2\t0\n", "6\t0\t0\t1\n");
    assert_eq!(compare(&stream, &none_entered).differences, 1);
    let one_entered = replaced(&right, "6\t2\t0\t1\n2\t42\t1\t2\n", "6\t1\t0\t1\n");
    assert_eq!(compare(&stream, &one_entered).differences, 1);
    let far_too_many = replaced(&right, "6\t2\t0\t1\n", "6\t18446744073709551615\t0\t1\n");
    assert!(compare(&stream, &far_too_many).differences > 0);
    let none_exported = replaced(
        &right,
        "4\t75\t0\t1\nZHD,P0138001,G,SVAA,Z,POOL,20240105120000\r\nSUB,B,,,20231231,M\r\nTA2,1.0250\r\n",
        "4\t0\t0\t1\n",
    );
    assert_eq!(compare(&stream, &none_exported).differences, 1);
    let other_imported = replaced(&right, "2\t6\t0\t1\nE\tF\nG\n", "3\t4\t0\t1\nE\tF\n");
    assert_eq!(compare(&stream, &other_imported).differences, 1);
    assert_eq!(compare(&stream, &replaced(&right, "truth\tT", "truth\tF")).differences, 1);
    assert_eq!(compare(&stream, &[&right[..], b"more"].concat()).differences, 1);
}

#[test]
fn the_comparison_expects_bad_header_where_it_is_due() {
    let stream = b"sum\t0\nbad\n";
    assert_eq!(compare(stream, b"ok\t0\t0\t0\nbad header\n").differences, 0);
    assert_eq!(compare(stream, b"ok\t0\t0\t0\n").differences, 1);
}

#[test]
fn the_census_counts_by_kind_and_number() {
    let sets = good("P0133001");
    let stream = [
        case("judge\tP0138001\t88", EXAMPLE),
        case("judge\tP0138001\t0", b""),
        case("sum\t0", b""),
        case(&format!("index\tP0133001\t2\t{}", sets.len()), &sets),
        case(&format!("index\tP0133001\t1\t{}", sets.len()), &sets),
        case("export\tP0138001\t75\t88", EXAMPLE),
        case("import\t9\t1", b"\t"),
        case("step\tP0133001 533\t3", b"ZHD"),
        case("step\tP0133001 0711\t3", b"ZHD"),
        case("period\tP0012001\t17\t0", b""),
        case("period\tP0138001\t17\t88", EXAMPLE),
    ];
    let counted = |stream: &[u8]| census(stream).unwrap_or_else(|_| panic!("a good stream"));
    let all = counted(&stream.concat());
    assert_eq!((all.taken("judge"), all.taken("sum"), all.refused("judge", 14)), (1, 1, 1));
    assert_eq!((all.taken("index"), all.refused("index", 19), all.refused("read", 19)), (1, 1, 0));
    assert_eq!((all.taken("export"), all.taken("import"), all.refused("import", 20)), (1, 0, 1));
    assert_eq!((all.taken("step"), all.refused("step", 21), all.refused("judge", 21)), (1, 1, 0));
    assert_eq!((all.taken("period"), all.refused("period", 14), all.refused("period", 22)), (0, 1, 1));
    assert_eq!(all.not_reached().len(), 17);
    assert!(all.table().ends_with("refusals not reached: 1 2 3 4 5 6 7 8 9 10 11 12 13 15 16 17 18\n"));
    assert_eq!(counted(&stream[..9].concat()).not_reached().last(), Some(&22));
    assert_eq!(counted(&stream[9..].concat()).not_reached().last(), Some(&21));
}
