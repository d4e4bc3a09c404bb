//! Whether a file has a period (document 02's C-17): where reading stops, what is refused before that,
//! and the order of the refusals. All files and answers are written out by hand.

mod common;
use common::*;
use second::judge::judge;
use second::period::has_period;
use second::refusal::Refusal;

/// Three rows of each kind, and no rows. Their records start at 0, 42, 63, 75, 92, 111 and 129; at 0, 42,
/// 63, 75, 90, 107 and 123; and at 0, 42, 63 and 75. They end at 145, 139 and 92.
const GSP: &[u8] = b"ZHD|P0012001|S|SSAA|P|POOL|20240105120000
ZPD|20240105|SF||1|A
HDR|1|AB|-5
GSP|5|100|0.0000
GSP|17|100|-0.0001
GSP|20|100|1.5000
ZPT|7|959471407
";
const GS2: &[u8] = b"ZHD|P0012001|S|SSAA|P|POOL|20240105120000
ZPD|20240105|SF||1|A
HDR|1|AB|-5
GS2|5|0|0.0000
GS2|17|0|-0.0001
GS2|20|0|1.5000
ZPT|7|659821179
";
const NO_ROWS: &[u8] = b"ZHD|P0012001|S|SSAA|P|POOL|20240105120000
ZPD|20240105|SF||1|A
HDR|1|AB|-5
ZPT|4|1451114081
";

/// All words that ask for the flow.
const WORDS: [&str; 3] = ["P0012001", "P0012001 533", "P0012001 711"];

/// Numbers that are no period. In eight bits or in sixteen, some would be 17.
const NO_PERIODS: [usize; 10] = [0, 51, 52, 99, 100, 117, 273, 65_553, 1_000_000_000, usize::MAX];

/// A refusal's number, record, field and place.
type Pointed = (u8, usize, usize, usize);

fn pointed(refusal: Refusal) -> Pointed {
    (refusal.number, refusal.record, refusal.field, refusal.place)
}

fn asked_by(words: &str, file: &[u8], period: usize) -> Result<bool, Pointed> {
    has_period(words.as_bytes(), file, period).map_err(pointed)
}

/// The answer, which is the same for all words of the flow.
fn asked(file: &[u8], period: usize) -> Result<bool, Pointed> {
    let [plain, older, newer] = WORDS.map(|words| asked_by(words, file, period));
    assert_eq!((plain, plain), (older, newer));
    plain
}

fn refused(file: &[u8]) -> Pointed {
    pointed(judge(b"P0012001", file).unwrap_err())
}

/// A file with these rows, the first of which starts at 75, and a right footer.
fn with_rows<R: AsRef<str>>(rows: &[R]) -> Vec<u8> {
    let before = ["ZHD|P0012001|S|SSAA|P|POOL|20240105120000", "ZPD|20240105|SF||1|A", "HDR|1|AB|-5"];
    footed(&before.into_iter().chain(rows.iter().map(AsRef::as_ref)).collect::<Vec<_>>())
}

/// Holds that the file has this one of the periods, and none of the others.
fn has_only(file: &[u8], own: usize, periods: impl IntoIterator<Item = usize>) {
    for period in periods {
        assert_eq!(asked(file, period), Ok(period == own), "{} in {}", period, file.escape_ascii());
    }
}

/// Holds that asking for any of the periods is refused so.
fn all_refused(file: &[u8], periods: impl IntoIterator<Item = usize>, refusal: Pointed) {
    for period in periods {
        assert_eq!(asked(file, period), Err(refusal), "{} in {}", period, file.escape_ascii());
    }
}

#[test]
fn c17_periods_that_are_there_and_that_are_not() {
    for file in [GSP, GS2] {
        assert_eq!(judged("P0012001", file), Ok(7));
        let there: Vec<usize> = (1..=50).filter(|&period| asked(file, period) == Ok(true)).collect();
        assert_eq!(there, [5, 17, 20]);
        // Below all, in the gaps, above all.
        for period in (1..=4).chain(6..=16).chain(18..=19).chain(21..=50) {
            assert_eq!(asked(file, period), Ok(false), "{}", period);
        }
    }
}

#[test]
fn c17_no_rows_at_all() {
    assert_eq!(judged("P0012001", NO_ROWS), Ok(4));
    for period in 1..=50 {
        assert_eq!(asked(NO_ROWS, period), Ok(false), "{}", period);
    }
}

#[test]
fn c17_an_accepted_file_is_answered_as_by_its_full_reading() {
    let periods = [1, 2, 9, 10, 11, 49, 50];
    for (kind, third) in [("GSP", 77), ("GS2", 0)] {
        for chosen in 0..1 << periods.len() {
            let own: Vec<usize> = (0..periods.len())
                .filter(|place| chosen >> place & 1 == 1)
                .map(|place| periods[place])
                .collect();
            let rows: Vec<String> =
                own.iter().map(|period| format!("{}|{}|{}|1.0000", kind, period, third)).collect();
            let file = with_rows(&rows);
            assert_eq!(judged("P0012001", &file), Ok(own.len() + 4));
            for period in 1..=50 {
                assert_eq!(asked(&file, period), Ok(own.contains(&period)), "{} in {:?}", period, own);
            }
        }
    }
}

#[test]
fn c17_reading_stops_at_the_asked_period() {
    let file = with_rows(&["GSP|5|1|1.0000", "GSP|17|1|1.0000", "XXX"]);
    has_only(&file, 5, [5]);
    has_only(&file, 17, [17]);
    all_refused(&file, 18..=50, (4, 6, 1, 106));
    let file = with_rows(&["GS2|5|0|1.0000", "GS2|17|0|1.0000", "XXX"]);
    has_only(&file, 17, [17]);
    all_refused(&file, 18..=50, (4, 6, 1, 106));
}

#[test]
fn c17_reading_stops_at_the_first_period_above() {
    for rows in [["GSP|5|1|1.0000", "GSP|17|1|1.0000", "XXX"], ["GS2|5|0|1.0000", "GS2|17|0|1.0000", "XXX"]] {
        let file = with_rows(&rows);
        has_only(&file, 5, 1..=5);
        has_only(&file, 17, 6..=17);
    }
    // The 20 is not read for the 16: the 17 stopped it.
    let file = replaced(GSP, "GSP|20|100|1.5000", "GSP|20|100|1.5");
    has_only(&file, 5, 1..=5);
    has_only(&file, 17, 6..=17);
    all_refused(&file, 18..=50, (8, 6, 4, 122));
}

#[test]
fn c17_periods_go_by_value() {
    // As texts, 10 stands before 9, and 9 behind 10.
    let file = with_rows(&["GSP|9|1|1.0000", "GSP|10|1|1.0000", "XXX"]);
    has_only(&file, 9, 1..=9);
    has_only(&file, 10, [10]);
    all_refused(&file, 11..=50, (4, 6, 1, 106));
    let file = with_rows(&["GSP|10|1|1.0000", "XXX"]);
    has_only(&file, 10, 1..=10);
    let file = with_rows(&["GSP|3|1|1.0000", "GSP|30|1|1.0000", "XXX"]);
    has_only(&file, 30, 4..=30);
    has_only(&file, 3, 1..=3);
}

#[test]
fn c17_a_record_before_the_stop_is_refused() {
    let long = format!("HDR|1|AB|{}", "5".repeat(504));
    let of: [(&[u8], &str, &str, Pointed); 13] = [
        (GSP, "HDR|1|AB|-5", &long, (3, 3, 0, 63)),
        (GSP, "HDR|", "HDX|", (4, 3, 1, 63)),
        (GSP, "ZPD|", "|", (4, 2, 1, 42)),
        (GSP, "HDR|1|AB|-5\n", "", (5, 3, 1, 63)),
        (GSP, "HDR|1|AB|-5", "HDR|1|AB|-5\nHDR|1|AB|-5", (5, 4, 1, 75)),
        (GSP, "GSP|5|100|0.0000", "GSP|5|100", (6, 4, 0, 75)),
        (GSP, "SF||1|A", "SF|||A", (7, 2, 5, 59)),
        (GSP, "GSP|17|100|", "GSP|17|1OO|", (8, 5, 3, 99)),
        (GSP, "GSP|17|100|-0.0001", "GSP|17|100|-0.0001\r", (8, 5, 4, 103)),
        (GSP, "20240105120000", "20240105240000", (9, 1, 7, 27)),
        (GSP, "ZHD|P0012001", "ZHD|P0012002", (10, 1, 2, 4)),
        (GS2, "GS2|5|0|", "GS2|5|1|", (10, 4, 3, 81)),
        (GSP, "GSP|17|100|", "GSP|5|100|", (11, 5, 2, 96)),
    ];
    for (file, old, new, refusal) in of {
        // The stop is the 20, which is right.
        all_refused(&replaced(file, old, new), [18, 19, 20], refusal);
    }
}

#[test]
fn c17_a_footer_before_the_stop_is_judged_where_it_stands() {
    let behind_header = |footer: &str| replaced(GSP, "GSP|5", &format!("{}\nGSP|5", footer));
    all_refused(&behind_header("ZPT|5|1451114081"), [5, 17, 21], (12, 4, 2, 79));
    all_refused(&behind_header("ZPT|4|1451114080"), [5, 17, 21], (13, 4, 3, 81));
    all_refused(&behind_header("ZPT|4|1451114081"), [5, 17, 21], (5, 5, 1, 92));
}

#[test]
fn c17_the_stop_itself_is_refused() {
    let long = format!("GSP|17|{}|-0.0001", "1".repeat(498));
    let of: [(&[u8], &str, &str, Pointed); 9] = [
        (GSP, "GSP|17|100|-0.0001", &long, (3, 5, 0, 92)),
        (GSP, "GSP|17|100|-0.0001", "GS2|17|0|-0.0001", (5, 5, 1, 92)),
        (GS2, "GS2|17|0|-0.0001", "GSP|17|0|-0.0001", (5, 5, 1, 90)),
        (GSP, "GSP|17|100|-0.0001", "GSP|17|100", (6, 5, 0, 92)),
        (GSP, "GSP|17|100|-0.0001", "GSP|17|100|-0.0001|", (6, 5, 0, 92)),
        (GSP, "GSP|17|100|", "GSP|17||", (7, 5, 3, 99)),
        (GSP, "-0.0001", "-0.001", (8, 5, 4, 103)),
        (GSP, "GSP|17|100|", "GSP|17|12345678901234|", (9, 5, 3, 99)),
        (GS2, "GS2|17|0|", "GS2|17|1|", (10, 5, 3, 97)),
    ];
    for (file, old, new, refusal) in of {
        let file = replaced(file, old, new);
        all_refused(&file, 6..=17, refusal);
        has_only(&file, 5, 1..=5);
    }
    assert_eq!(asked(b"GSP|17|100|-0.0001\n", 17), Err((5, 1, 1, 0)));
    assert_eq!(asked(b"GSP|17|100|-0.0001\n", 16), Err((5, 1, 1, 0)));
}

#[test]
fn c17_a_row_of_no_period_is_refused_and_stops_nothing() {
    let odd = [
        ("", 7),
        ("017", 8),
        ("17 ", 8),
        (" 17", 8),
        ("+17", 8),
        ("17.0", 8),
        ("1 7", 8),
        ("17\r", 8),
        ("-0", 8),
        ("00", 8),
        ("NULL", 8),
        ("0", 9),
        ("51", 9),
        ("99", 9),
        ("117", 9),
        ("170", 9),
        ("-17", 9),
        ("273", 9),
    ];
    for (period, number) in odd {
        let file = replaced(GSP, "GSP|17|", &format!("GSP|{}|", period));
        has_only(&file, 5, 1..=5);
        all_refused(&file, 6..=50, (number, 5, 2, 96));
    }
}

#[test]
fn c17_what_stands_behind_the_stop_is_not_looked_at() {
    let long = [b'X'; 513];
    let ends: [&[u8]; 17] = [
        b"", b"\n", b"\0", b"|", b"XXX\n", b"GS2|20|0|1.5000\n", b"GSP|17|100|-0.0001\n",
        b"GSP|16|100|-0.0001\n", b"GSP|6|100|-0.0001\n", b"GSP|51|100|-0.0001\n", b"GSP|20",
        b"HDR|1|AB|-5\n", b"ZPT|6|0\n", b"ZPT|7|959471407\n", b"ZPT|6|1\nZPT|6|1\n", b"ZPT", &long,
    ];
    for end in ends {
        let file = [&GSP[..111], end].concat();
        assert!(judge(b"P0012001", &file).is_err());
        has_only(&file, 5, 1..=5);
        has_only(&file, 17, 6..=17);
    }
}

#[test]
fn c17_the_end_is_judged_only_without_a_stop() {
    let ends: [(Vec<u8>, Pointed); 5] = [
        (replaced(GSP, "ZPT|7", "ZPT|6"), (12, 7, 2, 133)),
        (replaced(GSP, "959471407", "959471406"), (13, 7, 3, 135)),
        (GSP[..129].to_vec(), (14, 7, 0, 129)),
        (GSP[..144].to_vec(), (15, 7, 0, 129)),
        ([GSP, b"\n"].concat(), (4, 8, 1, 145)),
    ];
    for (file, refusal) in ends {
        assert_eq!(refused(&file), refusal);
        has_only(&file, 5, 1..=5);
        has_only(&file, 17, 6..=17);
        has_only(&file, 20, 18..=20);
        all_refused(&file, 21..=50, refusal);
    }
    all_refused(&NO_ROWS[..75], 1..=50, (14, 4, 0, 75));
    all_refused(&NO_ROWS[..91], 1..=50, (15, 4, 0, 75));
    all_refused(&replaced(NO_ROWS, "ZPT|4", "ZPT|3"), 1..=50, (12, 4, 2, 79));
}

#[test]
fn c17_an_empty_file_ends_before_its_footer() {
    all_refused(b"", 1..=50, (14, 1, 0, 0));
}

#[test]
fn c17_a_file_cut_in_the_middle() {
    // Behind the row with its line feed, without it, and one byte before.
    has_only(&GSP[..111], 17, 6..=17);
    has_only(&GSP[..110], 17, 6..=17);
    all_refused(&GSP[..109], 6..=50, (8, 5, 4, 103));
    all_refused(&GSP[..103], 6..=50, (7, 5, 4, 103));
    // `GSP|17` and `GSP|1`.
    all_refused(&GSP[..98], 6..=50, (6, 5, 0, 92));
    all_refused(&GSP[..97], 6..=50, (6, 5, 0, 92));
    all_refused(&GSP[..94], 6..=50, (4, 5, 1, 92));
    all_refused(&GSP[..92], 6..=50, (14, 5, 0, 92));
    all_refused(&GSP[..91], 6..=50, (14, 5, 0, 91));
    has_only(&GSP[..91], 5, 1..=5);
    all_refused(&GSP[..90], 1..=50, (8, 4, 4, 85));
    all_refused(&GSP[..75], 1..=50, (14, 4, 0, 75));
}

#[test]
fn c17_a_file_cut_anywhere() {
    // The rows of 5, 17 and 20 are whole from these lengths on.
    let rows = [(5, 91), (17, 110), (20, 128)];
    for length in 0..=GSP.len() {
        let file = &GSP[..length];
        for period in 1..=50 {
            let stop = rows.iter().find(|(own, whole)| *own >= period && *whole <= length);
            let answer = match stop {
                Some((own, _)) => Ok(*own == period),
                None => judge(b"P0012001", file).map(|_| false).map_err(pointed),
            };
            assert_eq!(asked(file, period), answer, "{} in {}", period, length);
        }
    }
}

#[test]
fn c17_keys_out_of_their_order() {
    let repeated = with_rows(&["GSP|5|1|1.0000", "GSP|5|1|1.0000", "GSP|20|1|1.0000"]);
    has_only(&repeated, 5, 1..=5);
    all_refused(&repeated, 6..=50, (11, 5, 2, 94));
    let falling = with_rows(&["GS2|5|0|1.0000", "GS2|3|0|1.0000", "GS2|17|0|1.0000"]);
    has_only(&falling, 5, 1..=5);
    all_refused(&falling, 6..=50, (11, 5, 2, 94));
    // The 17 stands behind the stop, which says that there is none.
    let too_late = with_rows(&["GSP|20|1|1.0000", "GSP|17|1|1.0000"]);
    has_only(&too_late, 20, 1..=20);
    all_refused(&too_late, 21..=50, (11, 5, 2, 95));
}

#[test]
fn c17_rows_of_both_kinds() {
    let file = with_rows(&["GSP|5|1|1.0000", "GS2|17|0|1.0000", "GSP|20|1|1.0000"]);
    has_only(&file, 5, 1..=5);
    all_refused(&file, 6..=50, (5, 5, 1, 90));
    let file = with_rows(&["GS2|5|0|1.0000", "GSP|17|0|1.0000", "GS2|20|0|1.0000"]);
    has_only(&file, 5, 1..=5);
    all_refused(&file, 6..=50, (5, 5, 1, 90));
}

#[test]
fn c17_only_field_2_of_a_row_is_a_period() {
    let header = ["ZHD|P0012001|S|SSAA|P|POOL|20240105120000", "ZPD|20240105|17|17|17|17", "HDR|17|17|17"];
    let file = footed(&header);
    assert_eq!(judged("P0012001", &file), Ok(4));
    assert!((1..=50).all(|period| asked(&file, period) == Ok(false)));
    all_refused(&[&file[..80], b"XXX\n"].concat(), 1..=50, (4, 4, 1, 80));
    let row = with_rows(&["GSP|5|17|17.0000"]);
    has_only(&row, 5, 1..=50);
    let row = with_rows(&["GSP|5|17|17.0000", "XXX"]);
    all_refused(&row, 6..=50, (4, 5, 1, 92));
    // The footer's count is 17.
    let rows: Vec<String> = (1..=13).map(|period| format!("GSP|{}|1|1.0000", period)).collect();
    let counted = with_rows(&rows);
    assert_eq!(judged("P0012001", &counted), Ok(17));
    assert_eq!(
        (asked(&counted, 13), asked(&counted, 14), asked(&counted, 17)),
        (Ok(true), Ok(false), Ok(false))
    );
    all_refused(&counted[..counted.len() - 1], 14..=50, (15, 17, 0, 274));
}

#[test]
fn c17_22_for_another_flow() {
    for flow in FLOWS.iter().filter(|flow| **flow != "P0012001") {
        for words in ["", " 533", " 711"].map(|edition| format!("{}{}", flow, edition)) {
            for file in [&good(flow)[..], GSP, b"", b"XXX", &vec![b'\n'; 1_048_577]] {
                for period in [1, 17, 50].into_iter().chain(NO_PERIODS) {
                    assert_eq!(asked_by(&words, file, period), Err((22, 0, 0, 0)), "{} {}", words, period);
                }
            }
        }
    }
}

#[test]
fn c17_18_for_a_period_outside_1_to_50() {
    for period in NO_PERIODS {
        for file in [GSP, NO_ROWS, b"", b"XXX", &GSP[..100], &vec![b'\n'; 1_048_577]] {
            assert_eq!(asked(file, period), Err((18, 0, 0, 0)), "{}", period);
        }
    }
    let file = with_rows(&["GSP|1|1|1.0000", "GSP|50|1|1.0000"]);
    assert_eq!((asked(&file, 1), asked(&file, 50)), (Ok(true), Ok(true)));
    assert_eq!((asked(&file, 2), asked(&file, 49)), (Ok(false), Ok(false)));
}

#[test]
fn c17_1_and_21_come_first() {
    let long = vec![b'\n'; 1_048_577];
    for file in [GSP, b"", b"XXX", &long] {
        for period in [17, 0, 51] {
            for words in ["", "P0012", "P0012002", "p0012001", "P0012001x", "P0012002 533", "P0133002 712"] {
                assert_eq!(asked_by(words, file, period), Err((1, 0, 0, 0)), "{}", words);
            }
            for words in ["P0012001 ", "P0012001 712", "P0012001  711", "P0133001 712", "P0138001 0"] {
                assert_eq!(asked_by(words, file, period), Err((21, 0, 0, 0)), "{}", words);
            }
        }
    }
}

#[test]
fn c17_2_comes_behind_22_and_18_and_before_the_records() {
    let of_length = |start: &[u8], length| [start, &vec![b'\n'; length - start.len()]].concat();
    let good = of_length(GSP, 1_048_577);
    assert_eq!(asked_by("P0012002", &good, 51), Err((1, 0, 0, 0)));
    assert_eq!(asked_by("P0138001 712", &good, 51), Err((21, 0, 0, 0)));
    assert_eq!(asked_by("P0138001", &good, 51), Err((22, 0, 0, 0)));
    assert_eq!(asked_by("P0138001", &good, 17), Err((22, 0, 0, 0)));
    assert_eq!(asked(&good, 51), Err((18, 0, 0, 0)));
    all_refused(&good, [1, 5, 17, 50], (2, 0, 0, 0));
    all_refused(&of_length(b"XXX", 1_048_577), [1, 5, 17, 50], (2, 0, 0, 0));
    // A byte less, and the stop is found.
    let held = of_length(GSP, 1_048_576);
    has_only(&held, 5, [1, 5]);
    has_only(&held, 17, [16, 17]);
    has_only(&held, 20, [18, 20]);
    all_refused(&held, [21, 50], (4, 8, 1, 145));
}
