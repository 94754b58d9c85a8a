//! ICU's date format for a pattern, made once. Its texts are UTF-16, and no conversion is counted.

use crate::contender::Contender;
use crate::records::{Record, RECORDS, ZONE};
use crate::rows::Row;
use std::ffi::c_void;
use std::hint::black_box;
use std::ptr::NonNull;

extern "C" {
    fn bench_icu_open(pattern: *const u16, length: i32, zone: *const u16, zone_length: i32) -> *mut c_void;
    fn bench_icu_close(format: *mut c_void);
    fn bench_icu_format(format: *mut c_void, millis: f64, out: *mut u16, room: i32) -> i32;
    fn bench_icu_parse(format: *mut c_void, text: *const u16, length: i32, millis: *mut f64) -> i32;
}

pub struct Icu<'a> {
    format: NonNull<c_void>,
    records: &'a [Record],
    texts: Vec<Vec<u16>>,
    out: Vec<u16>,
}

impl<'a> Icu<'a> {
    pub fn new(row: &Row, records: &'a [Record]) -> Option<Self> {
        let pattern: Vec<u16> = row.icu.encode_utf16().collect();
        let zone: Vec<u16> = ZONE.encode_utf16().collect();
        // SAFETY: each pointer goes with the length of the vector that it comes from.
        let format =
            unsafe { bench_icu_open(pattern.as_ptr(), pattern.len() as i32, zone.as_ptr(), zone.len() as i32) };
        let mut this = Icu {
            format: NonNull::new(format)?,
            records,
            texts: Vec::new(),
            out: vec![0; 2048],
        };
        this.texts = (0..RECORDS)
            .map(|record| Some(String::from_utf8(this.text(record)?).ok()?.encode_utf16().collect()))
            .collect::<Option<_>>()?;
        let read_back = |record: usize| this.read(record) == this.texts[record].len() as i32;
        (0..RECORDS).all(read_back).then_some(this)
    }

    #[inline(always)]
    fn write(&mut self, record: usize) -> i32 {
        let millis = black_box(self.records[record].millis);
        // SAFETY: the format is open, the output has the room that is named.
        unsafe {
            bench_icu_format(
                self.format.as_ptr(),
                millis,
                self.out.as_mut_ptr(),
                self.out.len() as i32,
            )
        }
    }

    /// The place behind what was read.
    #[inline(always)]
    fn read(&self, record: usize) -> i32 {
        let text = black_box(&self.texts[record]);
        let mut millis = 0.0;
        // SAFETY: the format is open, the text goes with its length.
        let place = unsafe { bench_icu_parse(self.format.as_ptr(), text.as_ptr(), text.len() as i32, &mut millis) };
        black_box(millis);
        place
    }
}

impl Contender for Icu<'_> {
    fn text(&mut self, record: usize) -> Option<Vec<u8>> {
        let length = usize::try_from(self.write(record)).ok()?;
        Some(String::from_utf16(&self.out[..length]).ok()?.into_bytes())
    }

    fn write_calls(&mut self, calls: usize) {
        for call in 0..calls {
            black_box(self.write(call % RECORDS));
        }
    }

    fn read_calls(&mut self, calls: usize) {
        for call in 0..calls {
            black_box(self.read(call % RECORDS));
        }
    }
}

impl Drop for Icu<'_> {
    fn drop(&mut self) {
        // SAFETY: opened once, closed once.
        unsafe { bench_icu_close(self.format.as_ptr()) }
    }
}
