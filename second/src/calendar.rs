//! The Gregorian calendar by counting days: a date is a day exactly when the day with
//! its number is written the same way again. No table of months, no leap year rule.
//!
//! Days are counted from 1 March of year 0, so that the odd day stands at a year's end.
//! 153 days are five months from March on; 146,097 are 400 years.

/// The number of a day. Months and days out of range give the number of another day.
pub fn day_number(year: i64, month: i64, day: i64) -> i64 {
    let months = year * 12 + month - 3;
    let (year, month) = (months.div_euclid(12), months.rem_euclid(12));
    let (age, year) = (year.div_euclid(400), year.rem_euclid(400));
    age * 146_097 + year * 365 + year / 4 - year / 100 + (153 * month + 2) / 5 + day - 1
}

/// The year, month and day of a day's number.
pub fn written_day(number: i64) -> (i64, i64, i64) {
    let (age, day) = (number.div_euclid(146_097), number.rem_euclid(146_097));
    let year = (day - day / 1_460 + day / 36_524 - day / 146_096) / 365;
    let day = day - (year * 365 + year / 4 - year / 100);
    let month = (5 * day + 2) / 153;
    let day = day - (153 * month + 2) / 5 + 1;
    let months = (age * 400 + year) * 12 + month + 2;
    (months.div_euclid(12), months.rem_euclid(12) + 1, day)
}

/// Whether this is a day of the years 0001 to 9999.
pub fn is_day(year: i64, month: i64, day: i64) -> bool {
    (1..=9999).contains(&year) && written_day(day_number(year, month, day)) == (year, month, day)
}
