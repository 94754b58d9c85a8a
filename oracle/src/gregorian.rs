//! The harness's own calendar, counted from its definition in wide numbers and by nothing of the Rust's: what holds the Rust, and
//! stands in its place where the Rust is excepted.

use crate::calendar::Fields;
use crate::days::Day;

const DAYS_IN_400_YEARS: i64 = 400 * 365 + 97;
const MONTHS: [i64; 12] = [31, 28, 31, 30, 31, 30, 31, 31, 30, 31, 30, 31];
const LAST_YEAR: i32 = 5_879_611;

/// The day of a number, 0 being 1 January of year 1, a Monday.
pub fn day_of(number: i32) -> Day {
    let number = i64::from(number);
    let year = year_of(number);
    let mut left = number - new_year(year);
    let day_of_year = left + 1;
    let mut month = 1;
    while left >= month_length(year, month) {
        left -= month_length(year, month);
        month += 1;
    }
    Day {
        year: written(year),
        month,
        day: left as u32 + 1,
        day_of_year: day_of_year as u32,
        week: week(number),
        weekday: weekday(number),
    }
}

/// The number of a day, which 32 bits need not hold; none where there is no such day.
pub fn number_of(year: i32, month: u32, day: u32) -> Option<i64> {
    if year == 0 || !(-LAST_YEAR..=LAST_YEAR).contains(&year) || !(1..=12).contains(&month) {
        return None;
    }
    let year = counted(year);
    if !(1..=month_length(year, month)).contains(&i64::from(day)) {
        return None;
    }
    let before: i64 = (1..month).map(|month| month_length(year, month)).sum();
    Some(new_year(year) + before + i64::from(day) - 1)
}

/// All days of a year of the field record, those with few digits and with many taking turns.
pub fn days_of_year(year: i32) -> impl Iterator<Item = Day> {
    let first = number_of(year, 1, 1).expect("a year of the field record");
    let last = number_of(year, 12, 31).expect("a year of the field record");
    (0..=last - first).map(move |past| day_of((first + past * 37 % (last - first + 1)) as i32))
}

/// Whether a record's day has a number of 32 bits, with that day's own day of year, week and weekday beside it.
pub fn is_real(fields: &Fields) -> bool {
    let number = number_of(fields.year, fields.month, fields.day);
    let Some(Ok(number)) = number.map(i32::try_from) else {
        return false;
    };
    let day = day_of(number);
    (day.day_of_year, day.week, day.weekday) == (fields.day_of_year, fields.week, fields.weekday)
}

/// 0 to 6 from Sunday.
pub fn weekday(number: i64) -> u32 {
    (number + 1).rem_euclid(7) as u32
}

/// ISO 8601: a week is of the year that its Thursday is in, and the first is the one with the first Thursday.
pub fn week(number: i64) -> u32 {
    let thursday = number - number.rem_euclid(7) + 3;
    let in_year = thursday - new_year(year_of(thursday));
    (in_year / 7 + 1) as u32
}

/// Years are counted with a year 0, which is written -1.
fn written(year: i64) -> i32 {
    let written = if year < 1 { year - 1 } else { year };
    written as i32
}

fn counted(year: i32) -> i64 {
    let year = i64::from(year);
    if year < 0 {
        year + 1
    } else {
        year
    }
}

fn is_leap(year: i64) -> bool {
    match (
        year.rem_euclid(4),
        year.rem_euclid(100),
        year.rem_euclid(400),
    ) {
        (_, _, 0) => true,
        (_, 0, _) => false,
        (rest, _, _) => rest == 0,
    }
}

fn month_length(year: i64, month: u32) -> i64 {
    let longer = month == 2 && is_leap(year);
    MONTHS[month as usize - 1] + i64::from(longer)
}

/// The number of 1 January.
fn new_year(year: i64) -> i64 {
    let before = year - 1;
    365 * before + before.div_euclid(4) - before.div_euclid(100) + before.div_euclid(400)
}

/// From about the right one to the one that has the day.
fn year_of(number: i64) -> i64 {
    let mut year = (400 * number).div_euclid(DAYS_IN_400_YEARS);
    while new_year(year + 1) <= number {
        year += 1;
    }
    while number < new_year(year) {
        year -= 1;
    }
    year
}
