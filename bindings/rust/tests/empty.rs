//! A null pointer with the length 0 is an empty slice, at each place where the functions as C sees them are lent one.

use sheet::raw::{self, Reader, Writer};
use std::ptr::{null, null_mut};

const MARK: i64 = -77;
const YEAR: i32 = 2025;

/// Bytes as they are lent, or none by a null pointer.
fn lent(bytes: &[u8]) -> (*const u8, usize) {
    match bytes {
        [] => (null(), 0),
        _ => (bytes.as_ptr(), bytes.len()),
    }
}

/// A row as it is lent, or none by a null pointer.
fn row(entries: &mut [i64]) -> (*mut i64, usize) {
    match entries {
        [] => (null_mut(), 0),
        _ => (entries.as_mut_ptr(), entries.len()),
    }
}

/// What is returned, and the first two entries of the row, for a row and for none.
#[track_caller]
fn gives(mut call: impl FnMut(&mut [i64]) -> u32, number: u32, first: i64, second: i64) {
    let mut entries = [MARK; raw::READ_ANSWER];
    assert_eq!(call(&mut entries), number);
    assert_eq!(entries[..2], [first, second]);
    assert_eq!(call(&mut []), raw::ROW_TOO_SMALL);
}

/// The same of a reader: nothing was read, or the details are 0, and its whole row is zeros.
#[track_caller]
fn reads_nothing(mut call: impl FnMut(&mut [i64]) -> u32, number: u32) {
    gives(&mut call, number, 0, 0);
    let mut entries = [MARK; raw::READ_ANSWER];
    call(&mut entries);
    assert_eq!(entries, [0; raw::READ_ANSWER]);
}

fn write(writer: Writer, pattern: &[u8], room: usize, answer: &mut [i64]) -> u32 {
    let mut out = [0; 8];
    let to = if room == 0 { null_mut() } else { out.as_mut_ptr() };
    let ((pattern, length), (answer, entries)) = (lent(pattern), row(answer));
    // SAFETY: each pointer goes with the length of what it points to, and is null only with the length 0.
    unsafe {
        writer(
            pattern, length, YEAR, 12, 3, 337, 49, 3, 0, 0, to, room, answer, entries,
        )
    }
}

fn read(reader: Reader, pattern: &[u8], text: &[u8], answer: &mut [i64]) -> u32 {
    let ((pattern, length), (text, text_length), (answer, entries)) = (lent(pattern), lent(text), row(answer));
    // SAFETY: as for a write.
    unsafe { reader(pattern, length, text, text_length, YEAR, answer, entries) }
}

fn read_with(choices: u32, pattern: &[u8], text: &[u8], answer: &mut [i64]) -> u32 {
    let ((pattern, length), (text, text_length), (answer, entries)) = (lent(pattern), lent(text), row(answer));
    // SAFETY: as for a write.
    unsafe { raw::sheet_read_with(choices, pattern, length, text, text_length, YEAR, answer, entries) }
}

fn parse_offset(text: &[u8], answer: &mut [i64]) -> u32 {
    let ((text, length), (answer, entries)) = (lent(text), row(answer));
    // SAFETY: as for a write.
    unsafe { raw::sheet_parse_offset(text, length, answer, entries) }
}

fn split(pattern: &[u8], answer: &mut [i64], parts: &mut [i64]) -> u32 {
    let ((pattern, length), (answer, entries), (parts, room)) = (lent(pattern), row(answer), row(parts));
    // SAFETY: as for a write.
    unsafe { raw::sheet_split(pattern, length, answer, entries, parts, room) }
}

fn units(pattern: &[u8], answer: &mut [i64], units: &mut [i64]) -> u32 {
    let ((pattern, length), (answer, entries), (units, room)) = (lent(pattern), row(answer), row(units));
    // SAFETY: as for a write.
    unsafe { raw::sheet_units(pattern, length, answer, entries, units, room) }
}

fn check(pattern: &[u8], answer: &mut [i64]) -> u32 {
    let ((pattern, length), (answer, entries)) = (lent(pattern), row(answer));
    // SAFETY: as for a write.
    unsafe { raw::sheet_check(pattern, length, YEAR, answer, entries) }
}

fn check_with(choices: u32, pattern: &[u8], answer: &mut [i64]) -> u32 {
    let ((pattern, length), (answer, entries)) = (lent(pattern), row(answer));
    // SAFETY: as for a write.
    unsafe { raw::sheet_check_with(choices, pattern, length, YEAR, answer, entries) }
}

#[test]
fn of_the_writers() {
    for writer in [raw::sheet_write as Writer, raw::sheet_write_date] {
        gives(|row| write(writer, b"", 8, row), raw::ACCEPTED, 0, 0);
        gives(|row| write(writer, b"", 0, row), raw::ACCEPTED, 0, 0);
        gives(|row| write(writer, b"dd", 0, row), raw::NO_ROOM, 2, 0);
    }
}

#[test]
fn of_the_readers() {
    for reader in [raw::sheet_read as Reader, raw::sheet_read_date] {
        reads_nothing(|row| read(reader, b"", b"03", row), raw::ACCEPTED);
        reads_nothing(|row| read(reader, b"", b"", row), raw::ACCEPTED);
        reads_nothing(|row| read(reader, b"dd", b"", row), raw::TOO_FEW);
        reads_nothing(|row| read(reader, b"y", b"", row), raw::NO_NUMBER);
        reads_nothing(|row| read(reader, b"MMM", b"", row), raw::NO_NAME);
    }
}

#[test]
fn of_the_reader_with_choices() {
    for choices in [
        0,
        raw::DATE_PAIR,
        raw::SECOND_EDITION,
        raw::DATE_PAIR + raw::SECOND_EDITION,
    ] {
        let strict = choices + raw::STRICT;
        reads_nothing(|row| read_with(choices, b"", b"03", row), raw::ACCEPTED);
        reads_nothing(|row| read_with(strict, b"", b"03", row), raw::TEXT_LEFT);
        for choices in [choices, strict] {
            reads_nothing(|row| read_with(choices, b"", b"", row), raw::ACCEPTED);
            reads_nothing(|row| read_with(choices, b"/", b"", row), raw::TOO_FEW);
            reads_nothing(|row| read_with(choices, b"y", b"", row), raw::NO_NUMBER);
        }
    }
    assert_eq!(read_with(8, b"", b"", &mut []), raw::NO_SUCH_CHOICE);
}

fn book_read(bytes: &[u8], room: usize, answer: &mut [i64]) -> u32 {
    let mut book = [0; raw::BOOK_ROW];
    let to = if room == 0 { null_mut() } else { book.as_mut_ptr() };
    let ((bytes, length), (answer, entries)) = (lent(bytes), row(answer));
    // SAFETY: as for a write.
    unsafe { raw::sheet_book_read(bytes, length, to, room, answer, entries) }
}

/// Of English, by an empty book.
fn book_write(room: usize, answer: &mut [i64]) -> u32 {
    let mut out = [0; raw::LONGEST_BOOK];
    let to = if room == 0 { null_mut() } else { out.as_mut_ptr() };
    let (answer, entries) = row(answer);
    // SAFETY: as for a write.
    unsafe { raw::sheet_book_write(null(), 0, to, room, answer, entries) }
}

fn write_by(choices: u32, pattern: &[u8], answer: &mut [i64]) -> u32 {
    let ((pattern, length), (answer, entries)) = (lent(pattern), row(answer));
    let (book, out) = (null(), null_mut());
    // SAFETY: as for a write.
    unsafe {
        raw::sheet_write_by(
            choices, book, 0, pattern, length, YEAR, 12, 3, 337, 49, 3, 0, 0, out, 0, answer, entries,
        )
    }
}

fn read_by(choices: u32, pattern: &[u8], text: &[u8], answer: &mut [i64]) -> u32 {
    let ((pattern, length), (text, text_length), (answer, entries)) = (lent(pattern), lent(text), row(answer));
    // SAFETY: as for a write.
    unsafe {
        raw::sheet_read_by(
            choices,
            null(),
            0,
            pattern,
            length,
            text,
            text_length,
            YEAR,
            answer,
            entries,
        )
    }
}

/// No bytes are no book file; as an opened book they stand for English.
#[test]
fn of_books() {
    gives(|row| book_read(b"", 0, row), raw::BOOK_MARK, 0, 0);
    gives(|row| book_read(b"", raw::BOOK_ROW, row), raw::BOOK_MARK, 0, 0);
    let english = sheet::Book::english().write();
    let length = english.len() as i64;
    gives(|row| book_read(&english, 0, row), raw::NO_ROOM, 1344, 0);
    gives(|row| book_read(&english, raw::BOOK_ROW, row), raw::ACCEPTED, 1344, 0);
    gives(|row| book_write(0, row), raw::NO_ROOM, length, 0);
    gives(|row| book_write(raw::LONGEST_BOOK, row), raw::ACCEPTED, length, 0);
    for choices in 0..=raw::DATE_PAIR + raw::STRICT + raw::SECOND_EDITION {
        gives(|row| write_by(choices, b"", row), raw::ACCEPTED, 0, 0);
        gives(|row| write_by(choices, b"MMMM", row), raw::NO_ROOM, 8, 0);
        reads_nothing(|row| read_by(choices, b"", b"", row), raw::ACCEPTED);
        reads_nothing(|row| read_by(choices, b"MMM", b"", row), raw::NO_NAME);
        gives(|row| read_by(choices, b"MMM", b"Dec", row), raw::ACCEPTED, 3, 2);
    }
}

/// Into four rows that are none.
fn read_list(choices: u32, pattern: &[u8], text: &[u8], answer: &mut [i64]) -> u32 {
    let ((p, p_len), (t, t_len), (answer, entries)) = (lent(pattern), lent(text), row(answer));
    let (days, months, years, codes) = (null_mut(), null_mut(), null_mut(), null_mut());
    // SAFETY: as for a write.
    unsafe {
        raw::sheet_read_list(
            choices,
            null(),
            0,
            p,
            p_len,
            t,
            t_len,
            YEAR,
            days,
            0,
            months,
            0,
            years,
            0,
            codes,
            0,
            answer,
            entries,
        )
    }
}

fn read_line(choices: u32, pattern: &[u8], text: &[u8], answer: &mut [i64]) -> u32 {
    let ((p, p_len), (t, t_len), (answer, entries)) = (lent(pattern), lent(text), row(answer));
    // SAFETY: as for a write.
    unsafe { raw::sheet_read_line(choices, null(), 0, p, p_len, t, t_len, 0, YEAR, answer, entries) }
}

/// An empty text has no line, so that rows without a cell are long enough.
#[test]
fn of_lists() {
    for choices in 0..=raw::DATE_PAIR + raw::STRICT + raw::SECOND_EDITION {
        gives(|row| read_list(choices, b"", b"", row), raw::ACCEPTED, 0, 0);
        gives(|row| read_list(choices, b"dd", b"", row), raw::ACCEPTED, 0, 0);
        gives(|row| read_list(choices, b"", b"\n", row), raw::SHORT_ROW, 0, 0);
        gives(|row| read_list(choices, b"'", b"", row), raw::LONE_QUOTE, 0, 0);
        let mut entries = [MARK; raw::LINE_ANSWER];
        assert_eq!(read_line(choices, b"", b"", &mut entries), raw::NO_LINE);
        assert_eq!(entries, [MARK; raw::LINE_ANSWER]);
        assert_eq!(read_line(choices, b"", b"\n", &mut entries), raw::ACCEPTED);
        assert_eq!(entries[..4], [0, 0, 1, 0]);
        assert_eq!(read_line(choices, b"", b"", &mut []), raw::ROW_TOO_SMALL);
    }
}

fn mend(pattern: &[u8], changes: &mut [i64], answer: &mut [i64]) -> u32 {
    let (p, p_len) = lent(pattern);
    let ((changes, entries), (answer, answers)) = (row(changes), row(answer));
    // SAFETY: as for a write.
    unsafe { raw::sheet_mend(0, p, p_len, YEAR, null_mut(), 0, changes, entries, answer, answers) }
}

fn undo(pattern: &[u8], changes: &[i64], answer: &mut [i64]) -> u32 {
    let ((p, p_len), (answer, answers)) = (lent(pattern), row(answer));
    let (c, entries) = match changes {
        [] => (null(), 0),
        _ => (changes.as_ptr(), changes.len()),
    };
    // SAFETY: as for a write.
    unsafe { raw::sheet_undo(p, p_len, c, entries, null_mut(), 0, answer, answers) }
}

/// An empty pattern needs no output, and no changes undo nothing.
#[test]
fn of_mending() {
    let changes = || [MARK; raw::CHANGES_ROW];
    gives(|row| mend(b"", &mut changes(), row), raw::ACCEPTED, 0, 0);
    gives(|row| mend(b"dd", &mut changes(), row), raw::NO_ROOM, 2, 0);
    gives(|row| undo(b"", &[], row), raw::ACCEPTED, 0, 0);
    gives(|row| undo(b"dd", &[], row), raw::NO_ROOM, 2, 0);
    gives(|row| undo(b"dd", &[0, 100, 0, 2], row), raw::ACCEPTED, 0, 0);
    assert_eq!(mend(b"", &mut [], &mut [MARK; 2]), raw::ROW_TOO_SMALL);
    assert_eq!(undo(b"", &[1], &mut [MARK; 2]), raw::MISFIT);
}

fn day(number: i32, answer: &mut [i64]) -> u32 {
    let (answer, entries) = row(answer);
    // SAFETY: as for a write.
    unsafe { raw::sheet_day(number, answer, entries) }
}

fn day_number(year: i32, answer: &mut [i64]) -> u32 {
    let (answer, entries) = row(answer);
    // SAFETY: as for a write.
    unsafe { raw::sheet_day_number(year, 1, 2, answer, entries) }
}

#[test]
fn of_days() {
    gives(|row| day(-1, row), raw::ACCEPTED, -1, 12);
    gives(|row| day_number(1, row), raw::ACCEPTED, 1, 0);
    gives(|row| day_number(0, row), raw::NO_SUCH_DAY, 0, 0);
}

fn rfc_read(text: &[u8], answer: &mut [i64]) -> u32 {
    let ((text, length), (answer, entries)) = (lent(text), row(answer));
    // SAFETY: as for a write.
    unsafe { raw::sheet_rfc_read(text, length, answer, entries) }
}

/// Into an output that is none.
fn rfc_write(offset: i32, answer: &mut [i64]) -> u32 {
    let (answer, entries) = row(answer);
    // SAFETY: as for a write.
    unsafe { raw::sheet_rfc_write(YEAR, 12, 3, 0, offset, 0, null_mut(), 0, answer, entries) }
}

#[test]
fn of_stamps() {
    gives(|row| rfc_read(b"", row), raw::NOT_STAMP, 0, 0);
    gives(|row| rfc_read(b"2025", row), raw::NOT_STAMP, 4, 0);
    gives(|row| rfc_write(0, row), raw::NO_ROOM, 20, 0);
    gives(|row| rfc_write(1, row), raw::STAMP_OFFSET, 0, 0);
}

#[test]
fn of_the_others() {
    gives(|row| parse_offset(b"", row), raw::OFFSET_LENGTH, 0, 0);
    gives(|row| check(b"", row), raw::ACCEPTED, 1, 0);
    gives(|row| check_with(raw::SECOND_EDITION, b"", row), raw::ACCEPTED, 1, 0);
    assert_eq!(check_with(raw::DATE_PAIR, b"", &mut []), raw::NO_SUCH_CHOICE);
    gives(
        |row| split(b"", row, &mut [MARK; raw::SPLIT_PARTS]),
        raw::ACCEPTED,
        0,
        0,
    );
    assert_eq!(split(b"dd", &mut [MARK; 2], &mut []), raw::ROW_TOO_SMALL);
    gives(|row| units(b"", row, &mut [MARK; raw::UNITS_ROW]), raw::ACCEPTED, 0, 0);
    assert_eq!(units(b"dd", &mut [MARK; 2], &mut []), raw::ROW_TOO_SMALL);
}
