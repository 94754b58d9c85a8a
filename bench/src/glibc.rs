//! The C library's strftime and strptime.

use crate::contender::Contender;
use crate::records::{Record, RECORDS};
use crate::rows::Row;
use std::ffi::{c_char, c_int, c_long, CString};
use std::hint::black_box;
use std::mem::zeroed;

/// The C library's struct tm.
#[derive(Clone, Copy)]
#[repr(C)]
pub struct Tm {
    pub sec: c_int,
    pub min: c_int,
    pub hour: c_int,
    pub mday: c_int,
    pub mon: c_int,
    pub year: c_int,
    pub wday: c_int,
    pub yday: c_int,
    pub isdst: c_int,
    pub gmtoff: c_long,
    pub zone: *const c_char,
}

extern "C" {
    fn gmtime_r(seconds: *const i64, tm: *mut Tm) -> *mut Tm;
    fn strftime(out: *mut c_char, room: usize, format: *const c_char, tm: *const Tm) -> usize;
    fn strptime(text: *const c_char, format: *const c_char, tm: *mut Tm) -> *const c_char;
}

/// The fields of an instant, by the calendar of the C library.
pub fn local_fields(seconds: i64) -> Tm {
    let mut tm = no_fields();
    // SAFETY: both pointers are to live values of the types that gmtime_r takes.
    unsafe { gmtime_r(&seconds, &mut tm) };
    tm
}

pub struct Glibc<'a> {
    format: CString,
    records: &'a [Record],
    texts: Vec<CString>,
    out: Vec<u8>,
}

impl<'a> Glibc<'a> {
    pub fn new(row: &Row, records: &'a [Record]) -> Option<Self> {
        let format = CString::new(row.glibc.as_str()).ok()?;
        let mut this = Glibc {
            format,
            records,
            texts: Vec::new(),
            out: vec![0; 2048],
        };
        this.texts = (0..RECORDS)
            .map(|record| CString::new(this.text(record)?).ok())
            .collect::<Option<_>>()?;
        (0..RECORDS).all(|record| this.reads(record)).then_some(this)
    }

    /// Whether strptime takes the whole text.
    fn reads(&self, record: usize) -> bool {
        let text = &self.texts[record];
        let end = self.read(record, &mut no_fields());
        // SAFETY: the end of the text is within its bytes, of which the last is the zero.
        !end.is_null() && end == unsafe { text.as_ptr().add(text.as_bytes().len()) }
    }

    #[inline(always)]
    fn write(&mut self, record: usize) -> usize {
        let out = self.out.as_mut_ptr().cast();
        let tm = &self.records[record].tm;
        // SAFETY: the output has the room that is named, the format ends in a zero.
        unsafe { strftime(black_box(out), self.out.len(), self.format.as_ptr(), black_box(tm)) }
    }

    #[inline(always)]
    fn read(&self, record: usize, tm: &mut Tm) -> *const c_char {
        let text = self.texts[record].as_ptr();
        // SAFETY: text and format end in a zero.
        unsafe { strptime(black_box(text), self.format.as_ptr(), tm) }
    }
}

impl Contender for Glibc<'_> {
    fn text(&mut self, record: usize) -> Option<Vec<u8>> {
        let length = self.write(record);
        (length > 0).then(|| self.out[..length].to_vec())
    }

    fn write_calls(&mut self, calls: usize) {
        for call in 0..calls {
            black_box(self.write(call % RECORDS));
        }
    }

    fn read_calls(&mut self, calls: usize) {
        let mut tm = no_fields();
        for call in 0..calls {
            black_box(self.read(call % RECORDS, black_box(&mut tm)));
        }
    }
}

fn no_fields() -> Tm {
    // SAFETY: numbers, of which zero is one, and a pointer that may be null.
    unsafe { zeroed() }
}
