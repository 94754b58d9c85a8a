//! The functions of the library as C sees them. `bindings/c/sheet.h` says what each is lent, answers and alters.

mod numbers;

pub use numbers::*;

/// Either writer without a book.
pub type Writer = unsafe extern "C" fn(
    *const u8,
    usize,
    i32,
    u32,
    u32,
    u32,
    u32,
    u32,
    u64,
    i32,
    *mut u8,
    usize,
    *mut i64,
    usize,
) -> u32;

/// Either reader without choices.
pub type Reader = unsafe extern "C" fn(*const u8, usize, *const u8, usize, i32, *mut i64, usize) -> u32;

extern "C" {
    pub fn sheet_write(
        pattern: *const u8,
        pattern_len: usize,
        year: i32,
        month: u32,
        day: u32,
        doy: u32,
        week: u32,
        wday: u32,
        nanos: u64,
        offset: i32,
        out: *mut u8,
        out_len: usize,
        answer: *mut i64,
        answer_len: usize,
    ) -> u32;
    pub fn sheet_write_date(
        pattern: *const u8,
        pattern_len: usize,
        year: i32,
        month: u32,
        day: u32,
        doy: u32,
        week: u32,
        wday: u32,
        nanos: u64,
        offset: i32,
        out: *mut u8,
        out_len: usize,
        answer: *mut i64,
        answer_len: usize,
    ) -> u32;
    pub fn sheet_read(
        pattern: *const u8,
        pattern_len: usize,
        text: *const u8,
        text_len: usize,
        year: i32,
        answer: *mut i64,
        answer_len: usize,
    ) -> u32;
    pub fn sheet_read_date(
        pattern: *const u8,
        pattern_len: usize,
        text: *const u8,
        text_len: usize,
        year: i32,
        answer: *mut i64,
        answer_len: usize,
    ) -> u32;
    pub fn sheet_read_with(
        choices: u32,
        pattern: *const u8,
        pattern_len: usize,
        text: *const u8,
        text_len: usize,
        year: i32,
        answer: *mut i64,
        answer_len: usize,
    ) -> u32;
    pub fn sheet_was_read(mask: i64, unit: u32) -> u32;
    pub fn sheet_parse_offset(text: *const u8, text_len: usize, answer: *mut i64, answer_len: usize) -> u32;
    pub fn sheet_split(
        pattern: *const u8,
        pattern_len: usize,
        answer: *mut i64,
        answer_len: usize,
        parts: *mut i64,
        parts_len: usize,
    ) -> u32;
    pub fn sheet_units(
        pattern: *const u8,
        pattern_len: usize,
        answer: *mut i64,
        answer_len: usize,
        units: *mut i64,
        units_len: usize,
    ) -> u32;
    pub fn sheet_book_read(
        bytes: *const u8,
        bytes_len: usize,
        book: *mut u8,
        book_len: usize,
        answer: *mut i64,
        answer_len: usize,
    ) -> u32;
    pub fn sheet_book_write(
        book: *const u8,
        book_len: usize,
        out: *mut u8,
        out_len: usize,
        answer: *mut i64,
        answer_len: usize,
    ) -> u32;
    pub fn sheet_write_by(
        choices: u32,
        book: *const u8,
        book_len: usize,
        pattern: *const u8,
        pattern_len: usize,
        year: i32,
        month: u32,
        day: u32,
        doy: u32,
        week: u32,
        wday: u32,
        nanos: u64,
        offset: i32,
        out: *mut u8,
        out_len: usize,
        answer: *mut i64,
        answer_len: usize,
    ) -> u32;
    pub fn sheet_read_by(
        choices: u32,
        book: *const u8,
        book_len: usize,
        pattern: *const u8,
        pattern_len: usize,
        text: *const u8,
        text_len: usize,
        year: i32,
        answer: *mut i64,
        answer_len: usize,
    ) -> u32;
    pub fn sheet_read_list(
        choices: u32,
        book: *const u8,
        book_len: usize,
        pattern: *const u8,
        pattern_len: usize,
        text: *const u8,
        text_len: usize,
        year: i32,
        days: *mut i32,
        days_len: usize,
        months: *mut i32,
        months_len: usize,
        years: *mut i32,
        years_len: usize,
        codes: *mut u32,
        codes_len: usize,
        answer: *mut i64,
        answer_len: usize,
    ) -> u32;
    pub fn sheet_read_line(
        choices: u32,
        book: *const u8,
        book_len: usize,
        pattern: *const u8,
        pattern_len: usize,
        text: *const u8,
        text_len: usize,
        at: usize,
        year: i32,
        answer: *mut i64,
        answer_len: usize,
    ) -> u32;
    pub fn sheet_check(pattern: *const u8, pattern_len: usize, year: i32, answer: *mut i64, answer_len: usize) -> u32;
    pub fn sheet_check_with(
        choices: u32,
        pattern: *const u8,
        pattern_len: usize,
        year: i32,
        answer: *mut i64,
        answer_len: usize,
    ) -> u32;
    pub fn sheet_prepare(
        choices: u32,
        pattern: *const u8,
        pattern_len: usize,
        row: *mut u64,
        row_len: usize,
        answer: *mut i64,
        answer_len: usize,
    ) -> u32;
    pub fn sheet_prepared_write(
        book: *const u8,
        book_len: usize,
        row: *const u64,
        row_len: usize,
        year: i32,
        month: u32,
        day: u32,
        doy: u32,
        week: u32,
        wday: u32,
        nanos: u64,
        offset: i32,
        out: *mut u8,
        out_len: usize,
        answer: *mut i64,
        answer_len: usize,
    ) -> u32;
    pub fn sheet_prepared_read(
        choices: u32,
        book: *const u8,
        book_len: usize,
        row: *const u64,
        row_len: usize,
        text: *const u8,
        text_len: usize,
        year: i32,
        answer: *mut i64,
        answer_len: usize,
    ) -> u32;
    pub fn sheet_prepared_check(
        choices: u32,
        row: *const u64,
        row_len: usize,
        year: i32,
        answer: *mut i64,
        answer_len: usize,
    ) -> u32;
    pub fn sheet_prepared_read_list(
        choices: u32,
        book: *const u8,
        book_len: usize,
        row: *const u64,
        row_len: usize,
        text: *const u8,
        text_len: usize,
        year: i32,
        days: *mut i32,
        days_len: usize,
        months: *mut i32,
        months_len: usize,
        years: *mut i32,
        years_len: usize,
        codes: *mut u32,
        codes_len: usize,
        answer: *mut i64,
        answer_len: usize,
    ) -> u32;
    pub fn sheet_mend(
        choices: u32,
        pattern: *const u8,
        pattern_len: usize,
        year: i32,
        out: *mut u8,
        out_len: usize,
        changes: *mut i64,
        changes_len: usize,
        answer: *mut i64,
        answer_len: usize,
    ) -> u32;
    pub fn sheet_undo(
        pattern: *const u8,
        pattern_len: usize,
        changes: *const i64,
        changes_len: usize,
        out: *mut u8,
        out_len: usize,
        answer: *mut i64,
        answer_len: usize,
    ) -> u32;
    pub fn sheet_day(number: i32, answer: *mut i64, answer_len: usize) -> u32;
    pub fn sheet_day_number(year: i32, month: u32, day: u32, answer: *mut i64, answer_len: usize) -> u32;
    pub fn sheet_rfc_read(text: *const u8, text_len: usize, answer: *mut i64, answer_len: usize) -> u32;
    pub fn sheet_rfc_write(
        year: i32,
        month: u32,
        day: u32,
        nanos: u64,
        offset: i32,
        unknown: u32,
        out: *mut u8,
        out_len: usize,
        answer: *mut i64,
        answer_len: usize,
    ) -> u32;
}
