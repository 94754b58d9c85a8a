//! English by way of a book, beside the names that are built in and beside a row of no bytes, which stands for them.

use crate::contender::Contender;
use crate::ours::{self, accepted, reading_of, Ours, Reading, ROOM};
use crate::records::{Record, CURRENT_YEAR, RECORDS};
use crate::table::{columns, table_row};
use crate::timing::{interleaved, Calls, Timing};
use harness::book::bytes_of;
use harness::names::english;
use harness::Fields;
use sheet::raw::{sheet_book_read, sheet_read_by, sheet_write_by, BOOK_ANSWER, BOOK_ROW, READ_ANSWER, WRITE_ANSWER};
use std::hint::black_box;

/// Each list of names that is written or read by itself, all that a date may have, and a stamp with no name.
pub const PATTERNS: [&str; 6] = ["MMM", "MMMM", "eee", "eeee", "eeee, d MMMM yyyy", "yyyy-MM-dd HH:mm:ss"];

/// By the order of their columns.
const NAMES: [&str; 3] = ["built in", "no bytes", "book"];

/// English, opened.
pub fn opened() -> Box<[u8]> {
    let bytes = bytes_of(1, &english());
    let mut row = vec![0; BOOK_ROW].into_boxed_slice();
    let mut answer = [0; BOOK_ANSWER];
    // SAFETY: each pointer goes with the length of the slice that it comes from.
    let number = unsafe {
        sheet_book_read(
            bytes.as_ptr(),
            bytes.len(),
            row.as_mut_ptr(),
            row.len(),
            answer.as_mut_ptr(),
            answer.len(),
        )
    };
    assert_eq!(number, 0, "English is a book");
    row
}

#[inline(always)]
pub fn write_into(
    book: &[u8],
    pattern: &[u8],
    f: &Fields,
    out: &mut [u8; ROOM],
    answer: &mut [i64; WRITE_ANSWER],
) -> u32 {
    // SAFETY: each pointer goes with the length of the slice that it comes from.
    unsafe {
        sheet_write_by(
            0,
            book.as_ptr(),
            book.len(),
            pattern.as_ptr(),
            pattern.len(),
            f.year,
            f.month,
            f.day,
            f.day_of_year,
            f.week,
            f.weekday,
            f.nanoseconds,
            f.offset,
            out.as_mut_ptr(),
            out.len(),
            answer.as_mut_ptr(),
            answer.len(),
        )
    }
}

#[inline(always)]
pub fn read_into(book: &[u8], pattern: &[u8], text: &[u8], answer: &mut [i64; READ_ANSWER]) -> u32 {
    // SAFETY: each pointer goes with the length of the slice that it comes from.
    unsafe {
        sheet_read_by(
            0,
            book.as_ptr(),
            book.len(),
            pattern.as_ptr(),
            pattern.len(),
            text.as_ptr(),
            text.len(),
            CURRENT_YEAR,
            answer.as_mut_ptr(),
            answer.len(),
        )
    }
}

/// Ours with a book that is opened, or with no bytes for one.
pub struct ByBook<'a> {
    book: &'a [u8],
    pattern: &'a [u8],
    records: &'a [Record],
    texts: Vec<Vec<u8>>,
    out: Box<[u8; ROOM]>,
}

impl<'a> ByBook<'a> {
    pub fn new(book: &'a [u8], pattern: &'a str, records: &'a [Record]) -> Option<Self> {
        let mut this = ByBook {
            book,
            pattern: pattern.as_bytes(),
            records,
            texts: Vec::new(),
            out: Box::new([0; ROOM]),
        };
        this.texts = (0..RECORDS).map(|record| this.text(record)).collect::<Option<_>>()?;
        Some(this)
    }

    fn write(&mut self, record: usize) -> Result<Vec<u8>, u32> {
        let mut answer = [0; WRITE_ANSWER];
        let fields = &self.records[record].fields;
        let number = write_into(self.book, self.pattern, fields, &mut self.out, &mut answer);
        accepted(number, || self.out[..answer[0] as usize].to_vec())
    }

    fn read(&self, text: &[u8]) -> Result<Reading, u32> {
        let mut answer = [0; READ_ANSWER];
        let number = read_into(self.book, self.pattern, text, &mut answer);
        accepted(number, || reading_of(&answer))
    }
}

impl Contender for ByBook<'_> {
    fn text(&mut self, record: usize) -> Option<Vec<u8>> {
        self.write(record).ok()
    }

    fn write_calls(&mut self, calls: usize) {
        let mut answer = [0; WRITE_ANSWER];
        for call in 0..calls {
            let fields = &self.records[call % RECORDS].fields;
            black_box(write_into(
                black_box(self.book),
                black_box(self.pattern),
                black_box(fields),
                black_box(&mut *self.out),
                black_box(&mut answer),
            ));
        }
    }

    fn read_calls(&mut self, calls: usize) {
        let mut answer = [0; READ_ANSWER];
        for call in 0..calls {
            let text = &self.texts[call % RECORDS];
            black_box(read_into(
                black_box(self.book),
                black_box(self.pattern),
                black_box(text),
                black_box(&mut answer),
            ));
        }
    }
}

/// The table, or what does not agree.
pub fn table(records: &[Record]) -> Result<String, String> {
    let book = opened();
    let mut table =
        "Names from the book of English, ns a call, and how many times those that are built in\n".to_string();
    let headings = NAMES
        .iter()
        .enumerate()
        .map(|(number, name)| columns(number, name, ' ', "times"));
    table += &table_row("", headings);
    for pattern in PATTERNS {
        let mut built_in = Ours::new(pattern, records).ok_or_else(|| not_written(pattern))?;
        let rows: [&[u8]; 2] = [&[], &book];
        let [mut no_bytes, mut by_book] = rows.map(|row| ByBook::new(row, pattern, records));
        let (Some(no_bytes), Some(by_book)) = (&mut no_bytes, &mut by_book) else {
            return Err(not_written(pattern));
        };
        for record in 0..RECORDS {
            agree(pattern, &mut built_in, no_bytes, record)?;
            agree(pattern, &mut built_in, by_book, record)?;
        }
        let contenders: &mut [&mut dyn Contender] = &mut [&mut built_in, no_bytes, by_book];
        table += &line(
            "write",
            pattern,
            &timed(contenders, |one, calls| one.write_calls(calls)),
        );
        table += &line("read", pattern, &timed(contenders, |one, calls| one.read_calls(calls)));
    }
    Ok(table)
}

fn not_written(pattern: &str) -> String {
    format!("{pattern:?} is not written with each of the names\nnothing is measured")
}

/// Both give the same text of a record, and the same values of that text.
fn agree(pattern: &str, built_in: &mut Ours, by_book: &mut ByBook, record: usize) -> Result<(), String> {
    let text = built_in.text(record);
    let values = text.as_deref().map(|text| ours::read(pattern.as_bytes(), text));
    let theirs = by_book.text(record);
    if theirs != text || text.as_deref().map(|text| by_book.read(text)) != values {
        return Err(format!(
            "{pattern:?} differs by the book of English\nnothing is measured"
        ));
    }
    Ok(())
}

fn timed(contenders: &mut [&mut dyn Contender], call: fn(&mut dyn Contender, usize)) -> Vec<Timing> {
    let calls = contenders
        .iter_mut()
        .map(|one| Box::new(move |calls| call(*one, calls)) as Calls);
    interleaved(&mut calls.collect::<Vec<_>>())
}

fn line(op: &str, pattern: &str, timings: &[Timing]) -> String {
    let cells = timings.iter().enumerate().map(|(number, timing)| {
        let (nanos, ratio) = (format!("{:.1}", timing.nanos), format!("x{:.2}", timing.ratio));
        columns(number, &nanos, ' ', &ratio)
    });
    table_row(&format!("{op} {pattern}"), cells)
}
