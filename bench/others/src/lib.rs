//! Days and their numbers, stamps, and prepared patterns, by the crates chrono and time, many at a call, as a library of its own: it is
//! built only where the sources of the two are there.

mod prepared;
mod stamps;

use chrono::{Datelike, NaiveDate};
use std::slice;
use time::{Date, Month};

/// A day as it is asked for.
#[repr(C)]
pub struct Ymd {
    year: i32,
    month: u32,
    day: u32,
}

/// chrono's number of 1 January of year 1, and time's, which counts from the Julian day.
const CHRONOS_FIRST: i32 = 1;
const TIMES_FIRST: i32 = 1_721_426;

/// The six values of a day in one word.
fn folded([year, month, day, day_of_year, week, weekday]: [u64; 6]) -> u64 {
    year ^ month << 32 ^ day << 36 ^ day_of_year << 41 ^ week << 50 ^ weekday << 56
}

fn sum<T>(all: &[T], word: impl Fn(&T) -> u64) -> u64 {
    all.iter().fold(0, |sum: u64, one| sum.wrapping_add(word(one)))
}

fn chrono_day(number: i32) -> u64 {
    let day = NaiveDate::from_num_days_from_ce_opt(number + CHRONOS_FIRST).expect("it is in chrono's range");
    folded([
        day.year() as u64,
        day.month().into(),
        day.day().into(),
        day.ordinal().into(),
        day.iso_week().week().into(),
        day.weekday().num_days_from_sunday().into(),
    ])
}

fn chrono_number(date: &Ymd) -> u64 {
    let day = NaiveDate::from_ymd_opt(date.year, date.month, date.day).expect("it is in chrono's range");
    (day.num_days_from_ce() - CHRONOS_FIRST) as u64
}

fn time_day(number: i32) -> u64 {
    let date = Date::from_julian_day(number + TIMES_FIRST).expect("it is in time's range");
    let (year, month, day) = date.to_calendar_date();
    folded([
        year as u64,
        month as u64,
        day.into(),
        date.ordinal().into(),
        date.iso_week().into(),
        date.weekday().number_days_from_sunday().into(),
    ])
}

fn time_number(date: &Ymd) -> u64 {
    let month = Month::try_from(date.month as u8).expect("it is a month");
    let day = Date::from_calendar_date(date.year, month, date.day as u8).expect("it is in time's range");
    (day.to_julian_day() - TIMES_FIRST) as u64
}

/// The sum over so many days.
///
/// # Safety
///
/// So many numbers stand behind the pointer; and likewise below.
#[no_mangle]
pub unsafe extern "C" fn chrono_days(numbers: *const i32, count: usize) -> u64 {
    sum(slice::from_raw_parts(numbers, count), |number| chrono_day(*number))
}

#[no_mangle]
pub unsafe extern "C" fn chrono_numbers(dates: *const Ymd, count: usize) -> u64 {
    sum(slice::from_raw_parts(dates, count), chrono_number)
}

#[no_mangle]
pub unsafe extern "C" fn time_days(numbers: *const i32, count: usize) -> u64 {
    sum(slice::from_raw_parts(numbers, count), |number| time_day(*number))
}

#[no_mangle]
pub unsafe extern "C" fn time_numbers(dates: *const Ymd, count: usize) -> u64 {
    sum(slice::from_raw_parts(dates, count), time_number)
}
