//! The functions of prepared patterns as C sees them, and the check word of their row.

// Each test uses some of it.
#![allow(dead_code)]

use sheet::{raw, Columns, Fields};

/// Where in a row the words of the steps start, and how many entries stand from there on.
pub const WORDS: usize = 3;
pub const MOST_WORDS: usize = 256;

/// What the first entry is where no word has steps; the number of those is added to it, or 1,024 and the number of a refusal.
pub const TAG: u64 = u64::from_be_bytes(*b"Sheet\0\0\0");
pub const REFUSED: u64 = TAG + 1024;

pub const R: Fields = Fields {
    year: 2025,
    month: 12,
    day: 3,
    day_of_year: 337,
    week: 49,
    weekday: 3,
    nanoseconds: 25_509_000_120_000,
    offset: 19_800,
};

pub fn prepare(choices: u32, pattern: &[u8], row: &mut [u64], answer: &mut [i64]) -> u32 {
    let (into, entries) = (answer.as_mut_ptr(), answer.len());
    // SAFETY: each pointer goes with the length of the slice that it comes from.
    unsafe {
        raw::sheet_prepare(
            choices,
            pattern.as_ptr(),
            pattern.len(),
            row.as_mut_ptr(),
            row.len(),
            into,
            entries,
        )
    }
}

/// The row of a pattern, for the pair of the choices.
pub fn prepared(choices: u32, pattern: &[u8]) -> [u64; raw::PREPARED_ROW] {
    let mut row = [0; raw::PREPARED_ROW];
    prepare(choices, pattern, &mut row, &mut [0; 2]);
    row
}

pub fn write(book: &[u8], row: &[u64], fields: &Fields, out: &mut [u8], answer: &mut [i64]) -> u32 {
    // SAFETY: each pointer goes with the length of the slice that it comes from.
    unsafe {
        raw::sheet_prepared_write(
            book.as_ptr(),
            book.len(),
            row.as_ptr(),
            row.len(),
            fields.year,
            fields.month,
            fields.day,
            fields.day_of_year,
            fields.week,
            fields.weekday,
            fields.nanoseconds,
            fields.offset,
            out.as_mut_ptr(),
            out.len(),
            answer.as_mut_ptr(),
            answer.len(),
        )
    }
}

pub fn read(choices: u32, book: &[u8], row: &[u64], text: &[u8], year: i32, answer: &mut [i64]) -> u32 {
    // SAFETY: each pointer goes with the length of the slice that it comes from.
    unsafe {
        raw::sheet_prepared_read(
            choices,
            book.as_ptr(),
            book.len(),
            row.as_ptr(),
            row.len(),
            text.as_ptr(),
            text.len(),
            year,
            answer.as_mut_ptr(),
            answer.len(),
        )
    }
}

pub fn check(choices: u32, row: &[u64], year: i32, answer: &mut [i64]) -> u32 {
    let (into, entries) = (answer.as_mut_ptr(), answer.len());
    // SAFETY: each pointer goes with the length of the slice that it comes from.
    unsafe { raw::sheet_prepared_check(choices, row.as_ptr(), row.len(), year, into, entries) }
}

pub fn read_list(
    choices: u32,
    book: &[u8],
    row: &[u64],
    text: &[u8],
    year: i32,
    rows: &mut Columns,
    answer: &mut [i64],
) -> u32 {
    // SAFETY: each pointer goes with the length of the slice that it comes from.
    unsafe {
        raw::sheet_prepared_read_list(
            choices,
            book.as_ptr(),
            book.len(),
            row.as_ptr(),
            row.len(),
            text.as_ptr(),
            text.len(),
            year,
            rows.days.as_mut_ptr(),
            rows.days.len(),
            rows.months.as_mut_ptr(),
            rows.months.len(),
            rows.years.as_mut_ptr(),
            rows.years.len(),
            rows.codes.as_mut_ptr(),
            rows.codes.len(),
            answer.as_mut_ptr(),
            answer.len(),
        )
    }
}

/// Makes the check word of a row right: all by exclusive or of what was found of the pattern, the words that have steps, and those
/// that hold bytes.
pub fn put_right(row: &mut [u64; raw::PREPARED_ROW]) {
    let (steps, held) = (row[0].wrapping_sub(TAG) as usize, (row[2] % 512) as usize);
    let words = &row[WORDS..];
    let all = words.iter().take(steps).chain(words.iter().skip(held));
    row[1] = match steps {
        0..=MOST_WORDS => all.fold(row[2], |word, other| word ^ other),
        _ => row[2],
    };
}
