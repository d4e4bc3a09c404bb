//! The generator: good drafts are good, every refusal is reached, the same seed is the same stream.

mod common;
use common::words_of;
use second::bytes::{checksum, fields_of, is_text, kind_of, records_of};
use second::cases::dice::Dice;
use second::cases::draft::Draft;
use second::cases::faults::{put_fault, spoil, Place, PLACES};
use second::cases::footers::no_made_footer;
use second::cases::values::TEXT;
use second::cases::Generator;
use second::census::census;
use second::field::{judge_field, Type};
use second::flows::{named, published};
use second::judge::{judge, FILE_LIMIT};
use second::refusal::Refusal;
use second::sheet::{made_file, made_sheet, read, write, SHEET_LIMIT};
use second::stream::{cases_of, Ask, CASE_KINDS};
use std::collections::BTreeSet;

fn generator(seed: u64, kinds: &str) -> Generator {
    Generator::new(seed, kinds).expect("these kinds of case exist")
}

#[test]
fn the_same_seed_gives_the_same_stream() {
    assert_eq!(generator(7, "").stream(400), generator(7, "").stream(400));
    assert_ne!(generator(7, "").stream(400), generator(8, "").stream(400));
    assert!(Generator::new(1, "judge,reed").is_none());
}

/// A fixed figure, so that another machine is seen to make the same stream.
/// It moves with every change of the generator.
#[test]
fn the_stream_of_seed_1_on_any_machine() {
    let stream = generator(1, "").stream(1000);
    let sum = stream
        .iter()
        .fold(0xcbf2_9ce4_8422_2325_u64, |sum, &byte| (sum ^ u64::from(byte)).wrapping_mul(0x0100_0000_01b3));
    assert_eq!((stream.len(), sum), (13_378_067, 3_912_910_080_213_098_951));
}

#[test]
fn only_the_kinds_asked_for() {
    for (place, kind) in CASE_KINDS.iter().enumerate() {
        let stream = generator(3, kind).stream(60);
        assert!(cases_of(&stream).all(|case| case.expect("a good header").ask.kind() == place));
    }
}

#[test]
fn every_refusal_is_reached() {
    let stream = generator(13, "").stream(11_600);
    let census = census(&stream).unwrap_or_else(|_| panic!("a good stream"));
    let reader = [1, 21, 2, 3, 4, 5, 6, 7, 8, 9, 10, 11, 12, 13, 14, 15];
    let all: [(&str, Vec<usize>); 10] = [
        ("judge", reader.to_vec()),
        ("read", [&reader[..], &[17]].concat()),
        ("index", [&reader[..], &[19]].concat()),
        ("export", [&reader[..], &[17]].concat()),
        ("import", vec![2, 16, 17, 20]),
        ("value", [&reader[..], &[18]].concat()),
        ("write", vec![1, 21, 2, 3, 4, 5, 6, 7, 8, 9, 10, 11, 12, 13, 15, 16, 17]),
        ("field", vec![7, 8, 9, 10, 18]),
        ("step", vec![1, 21]),
        ("period", [&reader[..], &[18, 22]].concat()),
    ];
    for (kind, numbers) in all {
        assert!(census.taken(kind) > 0, "{}", kind);
        for number in numbers {
            assert!(census.refused(kind, number) > 0, "{} {}", kind, number);
        }
    }
    assert_eq!(census.not_reached(), [0; 0]);
    assert!(census.table().ends_with("refusals 1 to 22: each reached\n"));
}

/// The layout, the kind and the field that a case asks the value of, where it names a flow.
fn field_asked(ask: &Ask) -> Option<(Vec<u8>, Vec<u8>, usize)> {
    match *ask {
        Ask::Value { flow, record, field, file } => {
            let kind = kind_of(records_of(file).get(record.checked_sub(1)?)?);
            Some((words_of(named(flow).ok()?), kind.to_vec(), field))
        }
        _ => None,
    }
}

#[test]
fn each_part_has_its_turn_with_every_field_of_the_sweep() {
    let fields = published().iter().flat_map(|flow| flow.layouts.iter().map(move |layout| (flow, layout)));
    let all: BTreeSet<_> = fields
        .flat_map(|(flow, layout)| {
            (2..layout.rules.len() + 2).map(|field| (words_of(flow), layout.kind.to_vec(), field))
        })
        .collect();
    // A round has some sixty cases, and one of them takes a turn of the sweep for value: as many rounds as
    // there are fields do, if its slot does not come back to the same few.
    let stream = generator(9, "").stream(60 * all.len() as u64);
    let asked: BTreeSet<_> =
        cases_of(&stream).filter_map(|case| field_asked(&case.expect("a good header").ask)).collect();
    let missing: Vec<_> = all.difference(&asked).collect();
    assert!(missing.is_empty(), "{:?}", missing);
}

#[test]
fn good_drafts_are_good_there_and_back() {
    for (place, flow) in published().iter().enumerate() {
        for turn in 0..60 {
            let dice = &mut Dice::new(place as u64, turn);
            let draft = Draft::good(flow, [0, 100, 500, 3000][turn as usize % 4], dice);
            let file = draft.file();
            let words = words_of(flow);
            assert_eq!(judge(&words, &file), Ok(draft.records.len()));
            let mut room = vec![0; file.len() + 1];
            let sheet = read(&words, &file, &mut room).unwrap();
            let sheet = room[..sheet.bytes].to_vec();
            let made = write(&words, &sheet, &mut room).unwrap();
            let ended = if draft.last_line_feed { file } else { [&file[..], b"\n"].concat() };
            assert_eq!(&room[..made.bytes], &ended[..]);
            assert_eq!(made_sheet(&made_file(&sheet)), sheet);
            assert_eq!(made.records, draft.records.len());
        }
    }
}

#[test]
fn drafts_of_an_exact_length() {
    for turn in 0..3 {
        let dice = &mut Dice::new(5, turn);
        let draft = Draft::of_length(FILE_LIMIT, false, dice);
        assert_eq!(draft.file().len(), FILE_LIMIT);
        assert_eq!(judge(&words_of(draft.flow), &draft.file()), Ok(draft.records.len()));
        let draft = Draft::of_length(SHEET_LIMIT, true, dice);
        assert_eq!(draft.sheet().len(), SHEET_LIMIT);
        assert!(write(&words_of(draft.flow), &draft.sheet(), &mut vec![0; 1_048_100]).is_ok());
    }
}

/// The number that a draft is refused with.
fn number_of(draft: &Draft) -> u8 {
    judge(&words_of(draft.flow), &draft.file()).map_or_else(|refusal| refusal.number, |_| 0)
}

#[test]
fn each_fault_brings_its_refusal_at_first_middle_and_last_record() {
    for number in 3..=15 {
        for place in [Place::First, Place::Middle, Place::Last] {
            let hits = (0..120).filter(|&turn| {
                let dice = &mut Dice::new(turn, u64::from(number));
                let mut draft = Draft::good(dice.pick(published()), 800, dice);
                draft.last_line_feed = true;
                put_fault(&mut draft, number, place, dice) && number_of(&draft) == number
            });
            assert!(hits.count() >= 20, "fault {}", number);
        }
    }
}

/// Whether two faults can stand in one file: without a footer there is no wrong one.
fn can_meet(one: u8, other: u8) -> bool {
    !(matches!(one, 12 | 13) && other == 14)
}

#[test]
fn each_pair_of_faults_that_can_meet() {
    assert_eq!(PLACES.len(), 4);
    for one in 3..=15 {
        for other in (one + 1..=15).filter(|&other| can_meet(one, other)) {
            let hits = (0..60).filter(|&turn| {
                let dice = &mut Dice::new(turn, u64::from(one) * 100 + u64::from(other));
                let long = &published()[..2];
                let mut draft = Draft::good(dice.pick(long), 800, dice);
                spoil(&mut draft, &[one, other], dice);
                [one, other].contains(&number_of(&draft))
            });
            assert!(hits.count() >= 20, "faults {} and {}", one, other);
        }
    }
}

#[test]
fn each_flow_has_sheets_that_no_footer_may_follow() {
    for flow in published() {
        for turn in 0..20 {
            let dice = &mut Dice::new(9, turn);
            let mut draft = Draft::good(flow, 300, dice);
            draft.last_line_feed = true;
            no_made_footer(&mut draft, dice);
            let sheet = draft.sheet();
            let refused = write(&words_of(flow), &sheet, &mut vec![0; sheet.len() + 50]);
            let made_footer = Refusal::at(5, records_of(&sheet).len() + 1, 1, sheet.len());
            assert!(!sheet.is_empty() && refused == Err(made_footer), "{} {}", flow.name, turn);
        }
    }
}

#[test]
fn streams_hold_long_files_and_stay_small() {
    let stream = generator(2, "judge,write").stream(1500);
    let lengths: Vec<usize> = cases_of(&stream)
        .map(|case| match case.expect("a good header").ask {
            Ask::Judge { file, .. } => file.len(),
            Ask::Write { sheet, .. } => sheet.len(),
            _ => 0,
        })
        .collect();
    assert!(lengths.iter().any(|&length| length > FILE_LIMIT));
    assert!(lengths.iter().any(|&length| (SHEET_LIMIT..=FILE_LIMIT).contains(&length)));
    assert!(lengths.iter().any(|&length| (60_000..80_000).contains(&length)));
    assert!(stream.len() < 15_000_000);
}

#[test]
fn streams_read_sheets_that_are_longer_than_the_writer_takes() {
    let stream = generator(2, "read").stream(3000);
    let long = cases_of(&stream).filter(|case| match case.as_ref().expect("a good header").ask {
        Ask::Read { flow, file, room } => {
            file.len() > SHEET_LIMIT
                && read(flow, file, &mut vec![0; room]).is_ok_and(|done| done.bytes > SHEET_LIMIT)
        }
        _ => false,
    });
    assert!(long.count() > 0);
}

/// The kind of the record that is refused with 11, and whether its key is equal to the one before.
fn refused_key(flow: &[u8], file: &[u8]) -> Option<(String, bool)> {
    let (record, field) = match judge(flow, file) {
        Err(Refusal { number: 11, record, field, .. }) => (record, field),
        _ => return None,
    };
    let records = records_of(file);
    let (refused, before) = records[..record].split_last()?;
    let nearest = before.iter().rev().find(|other| kind_of(other) == kind_of(refused))?;
    let is_equal = fields_of(refused)[field - 1] == fields_of(nearest)[field - 1];
    Some((String::from_utf8_lossy(kind_of(refused)).into_owned(), is_equal))
}

#[test]
fn streams_spoil_each_key_in_each_way_that_is_wrong() {
    let stream = generator(6, "judge").stream(3000);
    let refused: BTreeSet<(String, bool)> = cases_of(&stream)
        .filter_map(|case| match case.expect("a good header").ask {
            Ask::Judge { flow, file } => refused_key(flow, file),
            _ => None,
        })
        .collect();
    let kinds = |equal: bool| -> Vec<&str> {
        refused.iter().filter(|(_, is_equal)| *is_equal == equal).map(|(kind, _)| kind.as_str()).collect()
    };
    assert_eq!(kinds(true), ["BMU", "GS2", "GSP", "SUP"]);
    assert_eq!(kinds(false), ["BMU", "GS2", "GSP", "SP7", "SUP"]);
}

#[test]
fn streams_hold_good_files_with_one_date_in_several_rows() {
    let stream = generator(6, "judge").stream(1000);
    let is_repeated = |pair: &[&[u8]]| {
        pair.iter().all(|record| kind_of(record) == b"SP7") && fields_of(pair[0])[4] == fields_of(pair[1])[4]
    };
    let repeating = cases_of(&stream).filter(|case| match case.as_ref().expect("a good header").ask {
        Ask::Judge { flow, file } => {
            judge(flow, file).is_ok() && records_of(file).windows(2).any(is_repeated)
        }
        _ => false,
    });
    assert!(repeating.count() >= 10);
}

/// Spoils the key in a file with two rows of one date; tells whether it could, and the refusal.
fn spoiled_date(date: &str, place: Place) -> (bool, u8) {
    let row = format!("SP7|_A|NHHD|A|{}|SF|12", date);
    let rows = ["ZHD|P0164001|G|SVAA|Z|POOL|20240105120000", "SUB|B|X|SUPP|20240105|M", &row, &row, "ZPT||"];
    let fields = |row: &&str| row.split('|').map(|field| field.as_bytes().to_vec()).collect();
    let mut draft = Draft {
        flow: named(b"P0164001").expect("a flow"),
        records: rows.iter().map(fields).collect(),
        last_line_feed: true,
    };
    draft.refoot();
    (put_fault(&mut draft, 11, place, &mut Dice::new(1, 1)), number_of(&draft))
}

#[test]
fn no_date_falls_below_the_earliest() {
    for place in PLACES {
        assert_eq!(spoiled_date("00010101", place), (false, 0));
        assert_eq!(spoiled_date("00010102", place), (true, 11));
    }
}

/// The month and the day of a date in a field case, and whether the calendar has it.
fn month_and_day(ask: &Ask) -> Option<(String, bool)> {
    let (mark, bytes) = match ask {
        Ask::Field { form: Type::Date, mark, bytes } if bytes.len() == 8 => (mark, bytes),
        _ => return None,
    };
    let in_calendar = match judge_field(Type::Date, mark, bytes) {
        Ok(_) => true,
        Err(9) => false,
        Err(_) => return None,
    };
    Some((String::from_utf8_lossy(&bytes[4..]).into_owned(), in_calendar))
}

#[test]
fn streams_hold_the_last_day_of_each_month_and_the_day_after_it() {
    let stream = generator(5, "field").stream(20_000);
    let seen: BTreeSet<(String, bool)> =
        cases_of(&stream).filter_map(|case| month_and_day(&case.expect("a good header").ask)).collect();
    let last = ["0131", "0331", "0430", "0531", "0630", "0731", "0831", "0930", "1031", "1130", "1231"];
    let after = ["0132", "0332", "0431", "0532", "0631", "0732", "0832", "0931", "1032", "1131", "1232"];
    for (last, after) in last.iter().zip(after) {
        assert!(seen.contains(&(last.to_string(), true)), "{}", last);
        assert!(seen.contains(&(after.to_string(), false)), "{}", after);
    }
    for (day, good) in [("0228", true), ("0229", true), ("0229", false), ("0230", false)] {
        assert!(seen.contains(&(day.to_string(), good)), "{}", day);
    }
}

#[test]
fn the_text_characters_in_their_order() {
    let all: Vec<u8> = (0..=255).filter(|&byte| is_text(byte)).collect();
    assert_eq!(TEXT, &all[..]);
}

#[test]
fn checksums_by_columns() {
    // By another route: each byte of the sum is the exclusive-or of one column of the pieces.
    let stream = generator(4, "sum").stream(200);
    for case in cases_of(&stream) {
        if let Ask::Sum { bytes } = case.expect("a good header").ask {
            let mut columns = [0; 4];
            for record in records_of(bytes) {
                record.iter().enumerate().for_each(|(place, byte)| columns[place % 4] ^= byte);
            }
            assert_eq!(checksum(records_of(bytes)), u32::from_be_bytes(columns));
        }
    }
}
