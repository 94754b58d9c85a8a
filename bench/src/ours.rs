//! Ours, through its C interface.

use crate::contender::Contender;
use crate::records::{Record, CURRENT_YEAR, RECORDS};
use harness::Fields;
use sheet::raw::{
    sheet_check, sheet_read, sheet_write, CHECK_ANSWER, READ_ANSWER, READ_STARTS, READ_VALUES, WRITE_ANSWER,
};
use std::hint::black_box;

/// Always enough: 8 bytes for each of the longest pattern.
pub const ROOM: usize = 2048;
const VALUES: usize = 15;

/// What a read gives.
#[derive(Debug, PartialEq, Eq)]
pub struct Reading {
    pub taken: usize,
    pub mask: u16,
    pub values: [i64; VALUES],
}

/// The length of the text, or the number of the refusal.
pub fn write(pattern: &[u8], f: &Fields, out: &mut [u8; ROOM]) -> Result<usize, u32> {
    let mut answer = [0; WRITE_ANSWER];
    let number = write_into(pattern, f, out, &mut answer);
    accepted(number, || answer[0] as usize)
}

/// Rows by one pointer each: of a slice that goes through a black box both halves are stored, and a load of the two together
/// has to wait for them.
#[inline(always)]
fn write_into(pattern: &[u8], f: &Fields, out: &mut [u8; ROOM], answer: &mut [i64; WRITE_ANSWER]) -> u32 {
    // SAFETY: each pointer goes with the length of the slice that it comes from.
    unsafe {
        sheet_write(
            pattern.as_ptr(),
            pattern.len(),
            f.year,
            f.month,
            f.day,
            f.day_of_year,
            f.week,
            f.weekday,
            f.nanoseconds,
            f.offset,
            out.as_mut_ptr(),
            out.len(),
            answer.as_mut_ptr(),
            answer.len(),
        )
    }
}

pub fn read(pattern: &[u8], text: &[u8]) -> Result<Reading, u32> {
    let mut answer = [0; READ_ANSWER];
    let number = read_into(pattern, text, &mut answer);
    accepted(number, || reading_of(&answer))
}

pub fn reading_of(answer: &[i64; READ_ANSWER]) -> Reading {
    Reading {
        taken: answer[0] as usize,
        mask: answer[1] as u16,
        values: answer[READ_VALUES..READ_STARTS]
            .try_into()
            .expect("as many values as units"),
    }
}

#[inline(always)]
fn read_into(pattern: &[u8], text: &[u8], answer: &mut [i64; READ_ANSWER]) -> u32 {
    // SAFETY: each pointer goes with the length of the slice that it comes from.
    unsafe {
        sheet_read(
            pattern.as_ptr(),
            pattern.len(),
            text.as_ptr(),
            text.len(),
            CURRENT_YEAR,
            answer.as_mut_ptr(),
            answer.len(),
        )
    }
}

#[inline(always)]
fn check_into(pattern: &[u8], answer: &mut [i64; CHECK_ANSWER]) -> u32 {
    // SAFETY: each pointer goes with the length of the slice that it comes from.
    unsafe {
        sheet_check(
            pattern.as_ptr(),
            pattern.len(),
            CURRENT_YEAR,
            answer.as_mut_ptr(),
            answer.len(),
        )
    }
}

pub fn says_yes(pattern: &[u8]) -> bool {
    let mut answer = [0; CHECK_ANSWER];
    check_into(pattern, &mut answer) == 0 && answer[0] == 1
}

/// So many checks of a pattern.
pub fn check_calls(pattern: &[u8], calls: usize) {
    let mut answer = [0; CHECK_ANSWER];
    for _ in 0..calls {
        black_box(check_into(black_box(pattern), black_box(&mut answer)));
    }
}

pub struct Ours<'a> {
    pattern: &'a [u8],
    records: &'a [Record],
    texts: Vec<Vec<u8>>,
    out: Box<[u8; ROOM]>,
}

impl<'a> Ours<'a> {
    pub fn new(pattern: &'a str, records: &'a [Record]) -> Option<Self> {
        let mut this = Ours {
            pattern: pattern.as_bytes(),
            records,
            texts: Vec::new(),
            out: Box::new([0; ROOM]),
        };
        this.texts = (0..RECORDS).map(|record| this.text(record)).collect::<Option<_>>()?;
        Some(this)
    }
}

impl Contender for Ours<'_> {
    fn text(&mut self, record: usize) -> Option<Vec<u8>> {
        let length = write(self.pattern, &self.records[record].fields, &mut self.out).ok()?;
        Some(self.out[..length].to_vec())
    }

    fn write_calls(&mut self, calls: usize) {
        let mut answer = [0; WRITE_ANSWER];
        for call in 0..calls {
            let fields = &self.records[call % RECORDS].fields;
            black_box(write_into(
                black_box(self.pattern),
                black_box(fields),
                black_box(&mut *self.out),
                black_box(&mut answer),
            ));
        }
    }

    fn read_calls(&mut self, calls: usize) {
        let mut answer = [0; READ_ANSWER];
        for call in 0..calls {
            let text = &self.texts[call % RECORDS];
            black_box(read_into(
                black_box(self.pattern),
                black_box(text),
                black_box(&mut answer),
            ));
        }
    }
}

pub fn accepted<T>(number: u32, answer: impl FnOnce() -> T) -> Result<T, u32> {
    match number {
        0 => Ok(answer()),
        _ => Err(number),
    }
}
