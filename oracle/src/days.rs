//! Days and their numbers by the Rust's own calendar, `util/date/convert.rs`.

use crate::calendar::Fields;
use crate::guard::{guarded, Cause};
use crate::util::date_itself::convert;

/// What the calendar says of a day, in the order of the field record.
#[derive(Clone, Copy, Debug, PartialEq, Eq)]
pub struct Day {
    pub year: i32,
    pub month: u32,
    pub day: u32,
    pub day_of_year: u32,
    pub week: u32,
    pub weekday: u32,
}

impl Day {
    /// The record of a time of the day, with an offset.
    pub fn at(self, nanoseconds: u64, offset: i32) -> Fields {
        Fields {
            year: self.year,
            month: self.month,
            day: self.day,
            day_of_year: self.day_of_year,
            week: self.week,
            weekday: self.weekday,
            nanoseconds,
            offset,
        }
    }
}

pub fn day_of(number: i32) -> Result<Day, Cause> {
    guarded(|| Ok(unguarded_day_of(number)))
}

pub fn day_number(year: i32, month: u32, day: u32) -> Result<i32, Cause> {
    guarded(|| convert::date_to_days(year, month, day))
}

/// The same without the guard against panics, which takes time.
pub fn unguarded_day_of(number: i32) -> Day {
    let (year, month, day) = convert::days_to_date(number);
    Day {
        year,
        month,
        day,
        day_of_year: convert::days_to_doy(number),
        week: convert::days_to_wyear(number),
        weekday: convert::days_to_wday(number, false),
    }
}

/// Likewise; none where the Rust errs.
pub fn unguarded_day_number(year: i32, month: u32, day: u32) -> Option<i32> {
    convert::date_to_days(year, month, day).ok()
}
