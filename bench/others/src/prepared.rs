//! Records written and texts read by patterns that are prepared once: chrono's items and time's format descriptions. The loops over
//! records and texts stand here, so that they are compiled together with the crates.

use crate::stamps::{held_by_chrono, held_by_time, Stamp};
use chrono::format::{self, Item, StrftimeItems};
use chrono::{DateTime, FixedOffset};
use std::fmt::Write;
use std::hint::black_box;
use std::{slice, str};
use time::format_description::{self, FormatItem};
use time::OffsetDateTime;

const ROOM: usize = 4096;

/// A pattern as a crate holds it, and records in its own form, in turn.
pub struct Prepared<P, R> {
    pattern: P,
    records: Vec<R>,
    texts: Vec<String>,
}

type OfChrono = Prepared<Vec<Item<'static>>, DateTime<FixedOffset>>;
type OfTime = Prepared<Vec<FormatItem<'static>>, OffsetDateTime>;

impl OfChrono {
    fn of(format: &'static str, stamps: &[Stamp]) -> Option<OfChrono> {
        let mut this: OfChrono = Prepared {
            pattern: StrftimeItems::new(format).collect(),
            records: stamps.iter().map(held_by_chrono).collect::<Option<_>>()?,
            texts: Vec::new(),
        };
        let text = |record: &DateTime<FixedOffset>| record.format_with_items(this.pattern.iter()).to_string();
        this.texts = this.records.iter().map(text).collect();
        (0..this.texts.len()).all(|record| this.reads(record)).then_some(this)
    }

    fn reads(&self, record: usize) -> bool {
        let mut parsed = format::Parsed::new();
        let read = format::parse(&mut parsed, black_box(&self.texts[record]), self.pattern.iter());
        black_box(&parsed);
        read.is_ok()
    }
}

impl OfTime {
    fn of(description: &'static str, stamps: &[Stamp]) -> Option<OfTime> {
        let mut this: OfTime = Prepared {
            pattern: format_description::parse(description).ok()?,
            records: stamps.iter().map(held_by_time).collect::<Option<_>>()?,
            texts: Vec::new(),
        };
        let text = |record: &OffsetDateTime| record.format(&this.pattern).ok();
        this.texts = this.records.iter().map(text).collect::<Option<_>>()?;
        (0..this.texts.len()).all(|record| this.reads(record)).then_some(this)
    }

    fn reads(&self, record: usize) -> bool {
        let mut parsed = time::parsing::Parsed::new();
        let read = parsed.parse_items(black_box(self.texts[record].as_bytes()), &self.pattern);
        black_box(&parsed);
        read.is_ok_and(|rest| rest.is_empty())
    }
}

/// What lives as long as the program, by its bytes; nothing where they are no text.
unsafe fn kept(bytes: *const u8, length: usize) -> Option<&'static str> {
    let text = str::from_utf8(slice::from_raw_parts(bytes, length)).ok()?;
    Some(Box::leak(text.into()))
}

fn held<T>(prepared: Option<T>) -> *mut T {
    prepared.map_or(std::ptr::null_mut(), |prepared| Box::into_raw(Box::new(prepared)))
}

/// The text of a record into lent bytes, and its length.
unsafe fn text<P, R>(prepared: &Prepared<P, R>, record: usize, out: *mut u8, room: usize) -> usize {
    let text = prepared.texts[record].as_bytes();
    let length = text.len().min(room);
    slice::from_raw_parts_mut(out, length).copy_from_slice(&text[..length]);
    length
}

/// Null where the crate does not take the format, or does not read what it wrote.
#[no_mangle]
pub unsafe extern "C" fn chrono_prepare(
    format: *const u8,
    length: usize,
    stamps: *const Stamp,
    count: usize,
) -> *mut OfChrono {
    let stamps = slice::from_raw_parts(stamps, count);
    held(kept(format, length).and_then(|format| OfChrono::of(format, stamps)))
}

#[no_mangle]
pub unsafe extern "C" fn chrono_prepared_text(
    held: *const OfChrono,
    record: usize,
    out: *mut u8,
    room: usize,
) -> usize {
    text(&*held, record, out, room)
}

#[no_mangle]
pub unsafe extern "C" fn chrono_prepared_write(held: *const OfChrono, calls: usize) {
    let prepared = &*held;
    let mut out = String::with_capacity(ROOM);
    for call in 0..calls {
        out.clear();
        let record = black_box(&prepared.records[call % prepared.records.len()]);
        let _ = write!(out, "{}", record.format_with_items(prepared.pattern.iter()));
        black_box(&out);
    }
}

#[no_mangle]
pub unsafe extern "C" fn chrono_prepared_read(held: *const OfChrono, calls: usize) {
    let prepared = &*held;
    for call in 0..calls {
        black_box(prepared.reads(call % prepared.texts.len()));
    }
}

/// Null where the crate does not take the description, or does not read what it wrote.
#[no_mangle]
pub unsafe extern "C" fn time_prepare(
    description: *const u8,
    length: usize,
    stamps: *const Stamp,
    count: usize,
) -> *mut OfTime {
    let stamps = slice::from_raw_parts(stamps, count);
    held(kept(description, length).and_then(|description| OfTime::of(description, stamps)))
}

#[no_mangle]
pub unsafe extern "C" fn time_prepared_text(held: *const OfTime, record: usize, out: *mut u8, room: usize) -> usize {
    text(&*held, record, out, room)
}

#[no_mangle]
pub unsafe extern "C" fn time_prepared_write(held: *const OfTime, calls: usize) {
    let prepared = &*held;
    let mut out: Vec<u8> = Vec::with_capacity(ROOM);
    for call in 0..calls {
        out.clear();
        let record = black_box(&prepared.records[call % prepared.records.len()]);
        let _ = record.format_into(&mut out, &prepared.pattern);
        black_box(&out);
    }
}

#[no_mangle]
pub unsafe extern "C" fn time_prepared_read(held: *const OfTime, calls: usize) {
    let prepared = &*held;
    for call in 0..calls {
        black_box(prepared.reads(call % prepared.texts.len()));
    }
}
