//! The records that are written: eight instants months apart, with their fields from the C library's calendar.

use crate::glibc::{local_fields, Tm};
use harness::Fields;

pub const RECORDS: usize = 8;
pub const CURRENT_YEAR: i32 = 2025;

/// Seconds east of Greenwich, and the same as ICU names it.
pub const OFFSET: i32 = 19_800;
pub const ZONE: &str = "GMT+05:30";

/// One instant as each contender takes it.
#[derive(Clone, Copy)]
pub struct Record {
    pub fields: Fields,
    pub tm: Tm,
    pub millis: f64,
}

/// 3 December 2025 at 07:05:09, and some 48 days on from one to the next.
const FIRST: i64 = 1_764_745_509;
const STEP: i64 = 4_123_457;
const SECONDS_A_DAY: i64 = 86_400;

pub fn records() -> Vec<Record> {
    (0..RECORDS as i64).map(record).collect()
}

fn record(number: i64) -> Record {
    let seconds = FIRST + number * STEP;
    let fraction = 120_000 + number * 111_222_333;
    let mut tm = local_fields(seconds);
    tm.gmtoff = i64::from(OFFSET);
    let fields = Fields {
        year: tm.year + 1900,
        month: tm.mon as u32 + 1,
        day: tm.mday as u32,
        day_of_year: tm.yday as u32 + 1,
        week: tm.yday as u32 / 7 + 1,
        weekday: tm.wday as u32,
        nanoseconds: (seconds % SECONDS_A_DAY * 1_000_000_000 + fraction) as u64,
        offset: OFFSET,
    };
    let millis = ((seconds - i64::from(OFFSET)) * 1000 + fraction / 1_000_000) as f64;
    Record { fields, tm, millis }
}
