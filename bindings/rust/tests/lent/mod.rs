//! The functions with a book as C sees them, those of lists among them, those of mending, and what fills what they are lent.

// Each test uses some of it.
#![allow(dead_code)]

use sheet::{raw, Columns};

/// An entry of a row, and a byte of an output, that no call lays there.
pub const MARK: i64 = -77;
pub const BYTE: u8 = 255;

/// The last of the numbers that stand for choices.
pub const ALL_CHOICES: u32 = raw::DATE_PAIR + raw::STRICT + raw::SECOND_EDITION;

pub fn book_read(bytes: &[u8], book: &mut [u8], answer: &mut [i64]) -> u32 {
    let (row, entries) = (answer.as_mut_ptr(), answer.len());
    // SAFETY: each pointer goes with the length of the slice that it comes from.
    unsafe { raw::sheet_book_read(bytes.as_ptr(), bytes.len(), book.as_mut_ptr(), book.len(), row, entries) }
}

pub fn book_write(book: &[u8], out: &mut [u8], answer: &mut [i64]) -> u32 {
    let (row, entries) = (answer.as_mut_ptr(), answer.len());
    // SAFETY: each pointer goes with the length of the slice that it comes from.
    unsafe { raw::sheet_book_write(book.as_ptr(), book.len(), out.as_mut_ptr(), out.len(), row, entries) }
}

/// On the day of a month and a weekday.
pub fn write_by(choices: u32, book: &[u8], pattern: &[u8], day: (u32, u32), out: &mut [u8], answer: &mut [i64]) -> u32 {
    let (month, weekday) = day;
    // SAFETY: each pointer goes with the length of the slice that it comes from.
    unsafe {
        raw::sheet_write_by(
            choices,
            book.as_ptr(),
            book.len(),
            pattern.as_ptr(),
            pattern.len(),
            2025,
            month,
            3,
            337,
            49,
            weekday,
            0,
            0,
            out.as_mut_ptr(),
            out.len(),
            answer.as_mut_ptr(),
            answer.len(),
        )
    }
}

pub fn read_by(choices: u32, book: &[u8], pattern: &[u8], text: &[u8], answer: &mut [i64]) -> u32 {
    // SAFETY: each pointer goes with the length of the slice that it comes from.
    unsafe {
        raw::sheet_read_by(
            choices,
            book.as_ptr(),
            book.len(),
            pattern.as_ptr(),
            pattern.len(),
            text.as_ptr(),
            text.len(),
            2025,
            answer.as_mut_ptr(),
            answer.len(),
        )
    }
}

/// Into the rows of a list.
pub fn read_list(
    choices: u32,
    book: &[u8],
    pattern: &[u8],
    text: &[u8],
    year: i32,
    rows: &mut Columns,
    answer: &mut [i64],
) -> u32 {
    // SAFETY: each pointer goes with the length of the slice that it comes from.
    unsafe {
        raw::sheet_read_list(
            choices,
            book.as_ptr(),
            book.len(),
            pattern.as_ptr(),
            pattern.len(),
            text.as_ptr(),
            text.len(),
            year,
            rows.days.as_mut_ptr(),
            rows.days.len(),
            rows.months.as_mut_ptr(),
            rows.months.len(),
            rows.years.as_mut_ptr(),
            rows.years.len(),
            rows.codes.as_mut_ptr(),
            rows.codes.len(),
            answer.as_mut_ptr(),
            answer.len(),
        )
    }
}

/// The line at a place.
pub fn read_line(choices: u32, book: &[u8], pattern: &[u8], text: &[u8], at: usize, answer: &mut [i64]) -> u32 {
    // SAFETY: each pointer goes with the length of the slice that it comes from.
    unsafe {
        raw::sheet_read_line(
            choices,
            book.as_ptr(),
            book.len(),
            pattern.as_ptr(),
            pattern.len(),
            text.as_ptr(),
            text.len(),
            at,
            2025,
            answer.as_mut_ptr(),
            answer.len(),
        )
    }
}

pub fn mend(choices: u32, pattern: &[u8], year: i32, out: &mut [u8], changes: &mut [i64], answer: &mut [i64]) -> u32 {
    // SAFETY: each pointer goes with the length of the slice that it comes from.
    unsafe {
        raw::sheet_mend(
            choices,
            pattern.as_ptr(),
            pattern.len(),
            year,
            out.as_mut_ptr(),
            out.len(),
            changes.as_mut_ptr(),
            changes.len(),
            answer.as_mut_ptr(),
            answer.len(),
        )
    }
}

pub fn undo(pattern: &[u8], changes: &[i64], out: &mut [u8], answer: &mut [i64]) -> u32 {
    // SAFETY: each pointer goes with the length of the slice that it comes from.
    unsafe {
        raw::sheet_undo(
            pattern.as_ptr(),
            pattern.len(),
            changes.as_ptr(),
            changes.len(),
            out.as_mut_ptr(),
            out.len(),
            answer.as_mut_ptr(),
            answer.len(),
        )
    }
}

/// Calls with an output of so many marks, and answers what is left in it.
pub fn left(room: usize, call: impl FnOnce(&mut [u8]) -> u32) -> (u32, Vec<u8>) {
    let mut out = vec![BYTE; room];
    (call(&mut out), out)
}
