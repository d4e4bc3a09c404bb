//! The calendar against a walk through every day, by the rule people know.

use second::calendar::{day_number, is_day, written_day};

/// Each fourth year but each hundredth, and each four hundredth after all.
fn is_leap(year: i64) -> bool {
    year % 4 == 0 && (year % 100 != 0 || year % 400 == 0)
}

/// The day after, by month lengths and leap years.
fn day_after((year, month, day): (i64, i64, i64)) -> (i64, i64, i64) {
    let length = match month {
        2 if is_leap(year) => 29,
        2 => 28,
        4 | 6 | 9 | 11 => 30,
        _ => 31,
    };
    match (month, day) {
        (12, 31) => (year + 1, 1, 1),
        (_, day) if day == length => (year, month + 1, 1),
        _ => (year, month, day + 1),
    }
}

#[test]
fn every_day_from_0001_to_9999() {
    let mut day = (1, 1, 1);
    let mut number = day_number(1, 1, 1);
    let mut count = 0;
    while day.0 <= 9999 {
        assert_eq!(day_number(day.0, day.1, day.2), number);
        assert_eq!(written_day(number), day);
        assert!(is_day(day.0, day.1, day.2));
        (day, number, count) = (day_after(day), number + 1, count + 1);
    }
    assert_eq!(count, 3_652_059);
}

#[test]
fn nothing_else_is_a_day() {
    let mut count = 0;
    for year in 0..=10_000 {
        for month in 0..=14 {
            count += (0..=33).filter(|&day| is_day(year, month, day)).count();
        }
    }
    assert_eq!(count, 3_652_059);
    for two in 13..=99 {
        assert!(!is_day(2024, two, 1));
        assert!(!is_day(2024, 1, two + 19));
    }
}

/// The months' lengths that reviewers were shown, January to December, in a common and in a leap year.
const COMMON: [i64; 12] = [31, 28, 31, 30, 31, 30, 31, 31, 30, 31, 30, 31];
const LEAP: [i64; 12] = [31, 29, 31, 30, 31, 30, 31, 31, 30, 31, 30, 31];

/// The days of each month, counted from its first to the next one's.
fn lengths(year: i64) -> Vec<i64> {
    (1..=12).map(|month| day_number(year, month + 1, 1) - day_number(year, month, 1)).collect()
}

#[test]
fn c14_months_are_as_long_as_the_table_says() {
    for year in 1..=9999 {
        assert_eq!(lengths(year), if is_leap(year) { LEAP } else { COMMON }, "{}", year);
    }
}

#[test]
fn c14_a_year_has_365_days_or_366() {
    for year in 1..=9999 {
        let days: i64 = lengths(year).iter().sum();
        assert_eq!(days, if is_leap(year) { 366 } else { 365 }, "{}", year);
    }
    assert_eq!(day_number(401, 1, 1) - day_number(1, 1, 1), 146_097);
    assert_eq!(day_number(10_000, 1, 1) - day_number(1, 1, 1), 3_652_059);
}

#[test]
fn c14_februaries() {
    for (year, days) in [(1900, 28), (2000, 29), (2023, 28), (2024, 29)] {
        assert_eq!(lengths(year)[1], days, "{}", year);
        assert!(is_day(year, 2, days) && !is_day(year, 2, days + 1), "{}", year);
    }
}
