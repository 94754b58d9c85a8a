//! Stamps of RFC 3339 by the crates chrono and time: one by itself, for the comparison of what is one, and many at a call.

use chrono::{DateTime, Datelike, FixedOffset, NaiveDate, SecondsFormat, Timelike};
use std::io::Write;
use std::{slice, str};
use time::format_description::well_known::Rfc3339;
use time::{Date, Month, OffsetDateTime, UtcOffset};

const NANOS_A_SECOND: u64 = 1_000_000_000;

/// What a stamp says.
#[repr(C)]
#[derive(Clone, Copy)]
pub struct Stamp {
    year: i32,
    month: u32,
    day: u32,
    offset: i32,
    nanos: u64,
}

/// Texts of one length, side by side.
#[repr(C)]
#[derive(Clone, Copy)]
pub struct Texts {
    bytes: *const u8,
    length: usize,
    count: usize,
}

/// A stamp in one word.
fn folded(stamp: &Stamp) -> u64 {
    let day = stamp.year as u64 ^ u64::from(stamp.month) << 14 ^ u64::from(stamp.day) << 18;
    day ^ stamp.nanos << 16 ^ (stamp.offset as u64).rotate_left(32)
}

/// chrono counts a leap second as nanoseconds from a thousand million on.
fn chrono_stamp(text: &str) -> Option<Stamp> {
    let read = DateTime::parse_from_rfc3339(text).ok()?;
    Some(Stamp {
        year: read.year(),
        month: read.month(),
        day: read.day(),
        offset: read.offset().local_minus_utc(),
        nanos: u64::from(read.num_seconds_from_midnight()) * NANOS_A_SECOND + u64::from(read.nanosecond()),
    })
}

fn time_stamp(text: &str) -> Option<Stamp> {
    let read = OffsetDateTime::parse(text, &Rfc3339).ok()?;
    let (hour, minute, second, nanos) = read.to_hms_nano();
    let seconds = u64::from(hour) * 3600 + u64::from(minute) * 60 + u64::from(second);
    Some(Stamp {
        year: read.year(),
        month: read.month() as u32,
        day: read.day().into(),
        offset: read.offset().whole_seconds(),
        nanos: seconds * NANOS_A_SECOND + u64::from(nanos),
    })
}

/// What a crate reads of a text, into a lent stamp; 0 where it refuses it.
unsafe fn read_one(read: impl Fn(&str) -> Option<Stamp>, text: *const u8, length: usize, stamp: *mut Stamp) -> u32 {
    let text = str::from_utf8(slice::from_raw_parts(text, length)).ok();
    match text.and_then(read) {
        Some(found) => {
            *stamp = found;
            1
        }
        None => 0,
    }
}

/// The sum over texts, which all are stamps.
unsafe fn read_all(read: impl Fn(&str) -> Option<Stamp>, texts: Texts) -> u64 {
    let bytes = slice::from_raw_parts(texts.bytes, texts.length * texts.count);
    bytes.chunks_exact(texts.length).fold(0, |sum: u64, text| {
        let stamp = str::from_utf8(text).ok().and_then(&read).expect("it is a stamp");
        sum.wrapping_add(folded(&stamp))
    })
}

/// # Safety
///
/// So many bytes stand behind the pointer, and the stamp is one; and likewise below.
#[no_mangle]
pub unsafe extern "C" fn chrono_read_one(text: *const u8, length: usize, stamp: *mut Stamp) -> u32 {
    read_one(chrono_stamp, text, length, stamp)
}

#[no_mangle]
pub unsafe extern "C" fn time_read_one(text: *const u8, length: usize, stamp: *mut Stamp) -> u32 {
    read_one(time_stamp, text, length, stamp)
}

#[no_mangle]
pub unsafe extern "C" fn chrono_read(texts: Texts) -> u64 {
    read_all(chrono_stamp, texts)
}

#[no_mangle]
pub unsafe extern "C" fn time_read(texts: Texts) -> u64 {
    read_all(time_stamp, texts)
}

/// A stamp as chrono holds it.
pub fn held_by_chrono(stamp: &Stamp) -> Option<DateTime<FixedOffset>> {
    let day = NaiveDate::from_ymd_opt(stamp.year, stamp.month, stamp.day)?;
    let (seconds, nanos) = (stamp.nanos / NANOS_A_SECOND, stamp.nanos % NANOS_A_SECOND);
    let local = day.and_hms_nano_opt(0, 0, 0, nanos as u32)? + chrono::Duration::seconds(seconds as i64);
    local.and_local_timezone(FixedOffset::east_opt(stamp.offset)?).single()
}

pub fn held_by_time(stamp: &Stamp) -> Option<OffsetDateTime> {
    let month = Month::try_from(stamp.month as u8).ok()?;
    let day = Date::from_calendar_date(stamp.year, month, stamp.day as u8).ok()?;
    let offset = UtcOffset::from_whole_seconds(stamp.offset).ok()?;
    let since = time::Duration::nanoseconds(stamp.nanos as i64);
    Some((day.midnight() + since).assume_offset(offset))
}

/// Stamps as chrono holds them, which are made once and kept.
#[no_mangle]
pub unsafe extern "C" fn chrono_stamps(stamps: *const Stamp, count: usize) -> *const DateTime<FixedOffset> {
    let all = slice::from_raw_parts(stamps, count).iter();
    kept(all.map(|stamp| held_by_chrono(stamp).expect("it is in chrono's range")))
}

#[no_mangle]
pub unsafe extern "C" fn time_stamps(stamps: *const Stamp, count: usize) -> *const OffsetDateTime {
    let all = slice::from_raw_parts(stamps, count).iter();
    kept(all.map(|stamp| held_by_time(stamp).expect("it is in time's range")))
}

fn kept<T>(all: impl Iterator<Item = T>) -> *const T {
    Box::leak(all.collect::<Vec<T>>().into_boxed_slice()).as_ptr()
}

/// Writes stamps from a place on, of one length, side by side: nine digits or none, and Z. chrono makes a String of each.
#[no_mangle]
pub unsafe extern "C" fn chrono_write(
    stamps: *const DateTime<FixedOffset>,
    from: usize,
    count: usize,
    out: *mut u8,
    length: usize,
) {
    let places = slice::from_raw_parts_mut(out, count * length).chunks_exact_mut(length);
    for (stamp, place) in slice::from_raw_parts(stamps.add(from), count).iter().zip(places) {
        let text = stamp.to_rfc3339_opts(SecondsFormat::AutoSi, true);
        place.copy_from_slice(text.as_bytes());
    }
}

#[no_mangle]
pub unsafe extern "C" fn time_write(
    stamps: *const OffsetDateTime,
    from: usize,
    count: usize,
    out: *mut u8,
    length: usize,
) {
    let places = slice::from_raw_parts_mut(out, count * length).chunks_exact_mut(length);
    for (stamp, mut place) in slice::from_raw_parts(stamps.add(from), count).iter().zip(places) {
        stamp.format_into(&mut place, &Rfc3339).expect("it is written");
        place.flush().expect("a slice can be flushed");
    }
}
