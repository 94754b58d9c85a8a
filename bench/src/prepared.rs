//! Ours by a pattern that is prepared once, through its C interface.

use crate::contender::Contender;
use crate::ours::{accepted, reading_of, Reading, ROOM};
use crate::records::{Record, CURRENT_YEAR, RECORDS};
use harness::Fields;
use sheet::raw::{
    sheet_prepare, sheet_prepared_check, sheet_prepared_read, sheet_prepared_write, CHECK_ANSWER, PREPARED_ROW,
    PREPARE_ANSWER, READ_ANSWER, WRITE_ANSWER,
};
use std::hint::black_box;

/// In the place of an opened book: the English names.
const NO_BOOK: &[u8] = &[];

pub type Row = [u64; PREPARED_ROW];

#[inline(always)]
pub fn prepare_into(pattern: &[u8], row: &mut Row, answer: &mut [i64; PREPARE_ANSWER]) -> u32 {
    // SAFETY: each pointer goes with the length of the slice that it comes from.
    unsafe {
        sheet_prepare(
            0,
            pattern.as_ptr(),
            pattern.len(),
            row.as_mut_ptr(),
            row.len(),
            answer.as_mut_ptr(),
            answer.len(),
        )
    }
}

#[inline(always)]
pub fn write_into(book: &[u8], row: &Row, f: &Fields, out: &mut [u8], answer: &mut [i64; WRITE_ANSWER]) -> u32 {
    // SAFETY: as above.
    unsafe {
        sheet_prepared_write(
            book.as_ptr(),
            book.len(),
            row.as_ptr(),
            row.len(),
            f.year,
            f.month,
            f.day,
            f.day_of_year,
            f.week,
            f.weekday,
            f.nanoseconds,
            f.offset,
            out.as_mut_ptr(),
            out.len(),
            answer.as_mut_ptr(),
            answer.len(),
        )
    }
}

#[inline(always)]
pub fn read_into(book: &[u8], row: &Row, text: &[u8], answer: &mut [i64; READ_ANSWER]) -> u32 {
    // SAFETY: as above.
    unsafe {
        sheet_prepared_read(
            0,
            book.as_ptr(),
            book.len(),
            row.as_ptr(),
            row.len(),
            text.as_ptr(),
            text.len(),
            CURRENT_YEAR,
            answer.as_mut_ptr(),
            answer.len(),
        )
    }
}

#[inline(always)]
pub fn check_into(row: &Row, answer: &mut [i64; CHECK_ANSWER]) -> u32 {
    // SAFETY: as above.
    unsafe {
        sheet_prepared_check(
            0,
            row.as_ptr(),
            row.len(),
            CURRENT_YEAR,
            answer.as_mut_ptr(),
            answer.len(),
        )
    }
}

pub fn row_of(pattern: &str) -> Box<Row> {
    let mut row = Box::new([0; PREPARED_ROW]);
    prepare_into(pattern.as_bytes(), &mut row, &mut [0; PREPARE_ANSWER]);
    row
}

pub fn says_yes(row: &Row) -> bool {
    let mut answer = [0; CHECK_ANSWER];
    check_into(row, &mut answer) == 0 && answer[0] == 1
}

/// So many checks of a prepared pattern.
pub fn check_calls(row: &Row, calls: usize) {
    let mut answer = [0; CHECK_ANSWER];
    for _ in 0..calls {
        black_box(check_into(black_box(row), black_box(&mut answer)));
    }
}

/// So many times the same pattern into the same row.
pub fn prepare_calls(pattern: &str, row: &mut Row, calls: usize) {
    let mut answer = [0; PREPARE_ANSWER];
    for _ in 0..calls {
        black_box(prepare_into(
            black_box(pattern.as_bytes()),
            black_box(row),
            black_box(&mut answer),
        ));
    }
}

pub struct Prepared<'a> {
    pattern: &'a str,
    row: Box<Row>,
    records: &'a [Record],
    texts: Vec<Vec<u8>>,
    out: Box<[u8; ROOM]>,
}

impl<'a> Prepared<'a> {
    pub fn new(pattern: &'a str, records: &'a [Record]) -> Option<Self> {
        let mut this = Prepared {
            pattern,
            row: row_of(pattern),
            records,
            texts: Vec::new(),
            out: Box::new([0; ROOM]),
        };
        this.texts = (0..RECORDS).map(|record| this.text(record)).collect::<Option<_>>()?;
        Some(this)
    }

    /// What it reads of the text of a record.
    pub fn reading(&self, record: usize) -> Result<Reading, u32> {
        let mut answer = [0; READ_ANSWER];
        let number = read_into(NO_BOOK, &self.row, &self.texts[record], &mut answer);
        accepted(number, || reading_of(&answer))
    }

    /// Prepares its pattern again.
    pub fn prepare(&mut self) {
        prepare_calls(self.pattern, &mut self.row, 1);
    }
}

impl Contender for Prepared<'_> {
    fn text(&mut self, record: usize) -> Option<Vec<u8>> {
        let mut answer = [0; WRITE_ANSWER];
        let number = write_into(
            NO_BOOK,
            &self.row,
            &self.records[record].fields,
            &mut *self.out,
            &mut answer,
        );
        accepted(number, || self.out[..answer[0] as usize].to_vec()).ok()
    }

    fn write_calls(&mut self, calls: usize) {
        let mut answer = [0; WRITE_ANSWER];
        for call in 0..calls {
            let fields = &self.records[call % RECORDS].fields;
            black_box(write_into(
                NO_BOOK,
                black_box(&*self.row),
                black_box(fields),
                black_box(&mut *self.out),
                black_box(&mut answer),
            ));
        }
    }

    fn read_calls(&mut self, calls: usize) {
        let mut answer = [0; READ_ANSWER];
        for call in 0..calls {
            let text = &self.texts[call % RECORDS];
            black_box(read_into(
                NO_BOOK,
                black_box(&*self.row),
                black_box(text),
                black_box(&mut answer),
            ));
        }
    }
}
