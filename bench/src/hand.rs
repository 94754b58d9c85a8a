//! Functions in C that are written by hand for one pattern, bare, or with all that ours does besides.

use crate::contender::Contender;
use crate::ours::ROOM;
use crate::records::{Record, CURRENT_YEAR, RECORDS};
use harness::Fields;
use sheet::raw::{READ_ANSWER, WRITE_ANSWER};
use std::hint::black_box;

type FullWriter = unsafe extern "C" fn(i32, u32, u32, u32, u32, u32, u64, i32, *mut u8, usize, *mut i64, usize) -> u32;
type FullReader = unsafe extern "C" fn(*const u8, usize, i32, *mut i64, usize) -> u32;
type BareReader = unsafe extern "C" fn(*const u8, usize, *mut i32) -> u32;

extern "C" {
    fn bare_write_day(year: i32, month: u32, day: u32, out: *mut u8, room: usize) -> usize;
    fn bare_write_stamp(year: i32, month: u32, day: u32, nanos: u64, out: *mut u8, room: usize) -> usize;
    fn bare_read_day(text: *const u8, length: usize, to: *mut i32) -> u32;
    fn bare_read_stamp(text: *const u8, length: usize, to: *mut i32) -> u32;
    fn full_write_day(
        year: i32,
        month: u32,
        day: u32,
        doy: u32,
        week: u32,
        wday: u32,
        nanos: u64,
        offset: i32,
        out: *mut u8,
        room: usize,
        answer: *mut i64,
        entries: usize,
    ) -> u32;
    fn full_write_stamp(
        year: i32,
        month: u32,
        day: u32,
        doy: u32,
        week: u32,
        wday: u32,
        nanos: u64,
        offset: i32,
        out: *mut u8,
        room: usize,
        answer: *mut i64,
        entries: usize,
    ) -> u32;
    fn full_read_day(text: *const u8, length: usize, year: i32, answer: *mut i64, entries: usize) -> u32;
    fn full_read_stamp(text: *const u8, length: usize, year: i32, answer: *mut i64, entries: usize) -> u32;
}

/// The patterns that there are functions for.
#[derive(Clone, Copy)]
enum Pattern {
    Day,
    Stamp,
}

impl Pattern {
    fn of(pattern: &str) -> Option<Pattern> {
        match pattern {
            "yyyy/MM/dd" => Some(Pattern::Day),
            "yyyy-MM-dd HH:mm:ss" => Some(Pattern::Stamp),
            _ => None,
        }
    }
}

/// What a pattern has by hand: how it is written, and what it reads by.
trait Hand {
    fn write(&self, f: &Fields, out: &mut [u8; ROOM]) -> usize;
    fn read(&mut self, text: &[u8]) -> bool;
}

struct Bare(Pattern, [i32; 6]);

impl Hand for Bare {
    #[inline(always)]
    fn write(&self, f: &Fields, out: &mut [u8; ROOM]) -> usize {
        let (bytes, room) = (out.as_mut_ptr(), out.len());
        // SAFETY: the pointer goes with the length of what it comes from, and likewise below.
        unsafe {
            match self.0 {
                Pattern::Day => bare_write_day(f.year, f.month, f.day, bytes, room),
                Pattern::Stamp => bare_write_stamp(f.year, f.month, f.day, f.nanoseconds, bytes, room),
            }
        }
    }

    #[inline(always)]
    fn read(&mut self, text: &[u8]) -> bool {
        let reader: BareReader = match self.0 {
            Pattern::Day => bare_read_day,
            Pattern::Stamp => bare_read_stamp,
        };
        // SAFETY: there is room for six numbers.
        let number = unsafe { reader(text.as_ptr(), text.len(), black_box(&mut self.1).as_mut_ptr()) };
        number == 0
    }
}

struct Full(Pattern, [i64; READ_ANSWER]);

impl Hand for Full {
    #[inline(always)]
    fn write(&self, f: &Fields, out: &mut [u8; ROOM]) -> usize {
        let writer: FullWriter = match self.0 {
            Pattern::Day => full_write_day,
            Pattern::Stamp => full_write_stamp,
        };
        let mut answer = [0; WRITE_ANSWER];
        let lent = black_box(&mut answer);
        // SAFETY: as above.
        let number = unsafe {
            writer(
                f.year,
                f.month,
                f.day,
                f.day_of_year,
                f.week,
                f.weekday,
                f.nanoseconds,
                f.offset,
                out.as_mut_ptr(),
                out.len(),
                lent.as_mut_ptr(),
                lent.len(),
            )
        };
        if number == 0 {
            answer[0] as usize
        } else {
            0
        }
    }

    #[inline(always)]
    fn read(&mut self, text: &[u8]) -> bool {
        let reader: FullReader = match self.0 {
            Pattern::Day => full_read_day,
            Pattern::Stamp => full_read_stamp,
        };
        let lent = black_box(&mut self.1);
        // SAFETY: as above.
        let number = unsafe { reader(text.as_ptr(), text.len(), CURRENT_YEAR, lent.as_mut_ptr(), lent.len()) };
        number == 0
    }
}

struct ByHand<'a, H> {
    hand: H,
    records: &'a [Record],
    texts: Vec<Vec<u8>>,
    out: Box<[u8; ROOM]>,
}

pub fn bare<'a>(pattern: &str, records: &'a [Record]) -> Option<Box<dyn Contender + 'a>> {
    by_hand(Bare(Pattern::of(pattern)?, [0; 6]), records)
}

pub fn full<'a>(pattern: &str, records: &'a [Record]) -> Option<Box<dyn Contender + 'a>> {
    by_hand(Full(Pattern::of(pattern)?, [0; READ_ANSWER]), records)
}

/// None where it does not write all records, or not read what it wrote.
fn by_hand<'a, H: Hand + 'a>(hand: H, records: &'a [Record]) -> Option<Box<dyn Contender + 'a>> {
    let mut this = ByHand {
        hand,
        records,
        texts: Vec::new(),
        out: Box::new([0; ROOM]),
    };
    this.texts = (0..RECORDS).map(|record| this.text(record)).collect::<Option<_>>()?;
    let read = this.texts.iter().all(|text| this.hand.read(text));
    read.then(|| Box::new(this) as Box<dyn Contender>)
}

impl<H: Hand> Contender for ByHand<'_, H> {
    fn text(&mut self, record: usize) -> Option<Vec<u8>> {
        let length = self.hand.write(&self.records[record].fields, &mut self.out);
        (length > 0).then(|| self.out[..length].to_vec())
    }

    fn write_calls(&mut self, calls: usize) {
        for call in 0..calls {
            let fields = black_box(&self.records[call % RECORDS].fields);
            black_box(self.hand.write(fields, black_box(&mut *self.out)));
        }
    }

    fn read_calls(&mut self, calls: usize) {
        for call in 0..calls {
            let text = black_box(&self.texts[call % RECORDS]);
            black_box(self.hand.read(text));
        }
    }
}
