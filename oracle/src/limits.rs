//! The limits that the specification sets and the Rust does not have: refusals 1, 2, 4, 5, 6, 7, 14, 24 and 30,
//! and of 17 the years.

use crate::calendar::Fields;
use crate::choices::Edition;

const LONGEST_PATTERN: usize = 256;
const LONGEST_TEXT: usize = 2048;
const LAST_CURRENT_YEAR: i32 = 9999;
const LAST_YEAR: i64 = 5_879_611;
const LAST_NANOSECOND: i64 = 86_399_999_999_999;
const LAST_OFFSET: i64 = 86_399;

/// A refused answer with its details.
pub fn refused(number: u32, details: &[i64]) -> String {
    let mut line = format!("refused {number}");
    for detail in details {
        line += &format!(" {detail}");
    }
    line
}

pub fn pattern_limit(pattern: &[u8]) -> Option<String> {
    too_long(1, pattern, LONGEST_PATTERN)
        .or_else(|| bad_byte(2, pattern, |byte| byte == 0 || byte > 127))
}

pub fn text_limit(text: &[u8]) -> Option<String> {
    too_long(6, text, LONGEST_TEXT).or_else(|| bad_byte(7, text, |byte| byte > 127))
}

pub fn year_limit(edition: Edition, now: i32) -> Option<String> {
    let years = edition.first_year()..=LAST_CURRENT_YEAR;
    (!years.contains(&now)).then(|| refused(14, &[i64::from(now)]))
}

/// The years of a day that has a number, as of the field record.
pub fn day_limit(year: i32) -> Option<String> {
    let is_there = year != 0 && within(year, -LAST_YEAR, LAST_YEAR);
    (!is_there).then(|| refused(17, &[0]))
}

pub fn room_limit(text: &[u8], room: usize) -> Option<String> {
    (text.len() > room).then(|| refused(5, &[text.len() as i64]))
}

pub fn mended_limit(pattern: &[u8]) -> Option<String> {
    (pattern.len() > LONGEST_PATTERN).then(|| refused(30, &[0]))
}

pub fn rows_limit(lines: usize, rows: usize) -> Option<String> {
    (rows < lines).then(|| refused(24, &[0]))
}

pub fn field_limit(fields: &Fields) -> Option<String> {
    let in_range = [
        fields.year != 0 && within(fields.year, -LAST_YEAR, LAST_YEAR),
        within(fields.month, 1, 12),
        within(fields.day, 1, 31),
        within(fields.day_of_year, 1, 366),
        within(fields.week, 1, 53),
        within(fields.weekday, 0, 6),
        within(fields.nanoseconds, 0, LAST_NANOSECOND),
        within(fields.offset, -LAST_OFFSET, LAST_OFFSET),
    ];
    let first = in_range.iter().position(|good| !good)?;
    Some(refused(4, &[first as i64 + 1]))
}

/// A value that doesn't fit 64 signed bits is beyond every range.
fn within(value: impl TryInto<i64>, least: i64, most: i64) -> bool {
    value
        .try_into()
        .is_ok_and(|value| least <= value && value <= most)
}

fn too_long(number: u32, bytes: &[u8], longest: usize) -> Option<String> {
    (bytes.len() > longest).then(|| refused(number, &[bytes.len() as i64]))
}

fn bad_byte(number: u32, bytes: &[u8], bad: impl Fn(u8) -> bool) -> Option<String> {
    let place = bytes.iter().position(|byte| bad(*byte))?;
    Some(refused(number, &[place as i64]))
}
