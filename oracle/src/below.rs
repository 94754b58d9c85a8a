//! Request [2]: below day 0 the Rust's weekday and week are not those of the calendar. Its weekday is that of the same day ahead of
//! 0, its week by a formula whose divisions go towards 0. There both are the harness's own; all else of a day is the Rust's.

use crate::days::Day;
use crate::gregorian;

/// The Rust's day with the calendar's weekday and week.
pub fn corrected(number: i32, day: Day) -> Day {
    if number >= 0 {
        return day;
    }
    Day {
        week: gregorian::week(number.into()),
        weekday: gregorian::weekday(number.into()),
        ..day
    }
}
