//! Families of days and of their numbers.

use super::random::Random;
use crate::gregorian::{day_of, number_of};
use crate::request::Request;

/// Every kind of leap year and its neighbours, of both signs; year -1 is as year 0 would be, and so -5 is leap and -4 is not.
const YEARS: [i32; 82] = [
    1, 2, 3, 4, 5, 8, 9, 99, 100, 101, 104, 199, 200, 201, 300, 399, 400, 401, 404, 800, 1200,
    1582, 1600, 1700, 1900, 1970, 1999, 2000, 2001, 2004, 2019, 2020, 2021, 2024, 2025, 2026, 2100,
    9999, 10_000, 400_000, 1_000_000, 5_879_600, 5_879_608, 5_879_610, 5_879_611, -1, -2, -3, -4,
    -5, -6, -9, -10, -99, -100, -101, -102, -105, -200, -201, -202, -300, -301, -400, -401, -402,
    -405, -801, -1201, -1601, -1901, -2000, -2001, -9999, -10_000, -400_001, -1_000_001,
    -5_879_601, -5_879_605, -5_879_609, -5_879_610, -5_879_611,
];
/// Those at the ends of what has a number, and of what is there at all.
const YEARS_AT_ENDS: [i32; 11] = [
    5_879_611,
    -5_879_611,
    5_879_610,
    -5_879_610,
    5_879_612,
    -5_879_612,
    0,
    1,
    -1,
    i32::MAX,
    i32::MIN,
];
const DAYS: [u32; 7] = [0, 1, 28, 29, 30, 31, 32];
/// With those that are not there on both sides.
const MONTHS: usize = 14;
/// How many days in a row go around the end of a month, and around 0 and from each end of the numbers inwards.
const AROUND: usize = 4;
const IN_A_ROW: usize = 4000;

const FAMILIES: usize = 4;
const LAST_OF_9999: i64 = 3_652_058;

/// The families take turns; those that enumerate come one step further each time.
pub fn number(turn: usize, random: &mut Random) -> i32 {
    let step = turn / FAMILIES;
    match turn % FAMILIES {
        0 => around_the_end_of_a_month(step),
        1 => around_zero_or_at_an_end(step),
        2 => any_number(random),
        _ => ordinary(random),
    }
}

pub fn date(turn: usize, random: &mut Random) -> Request {
    let step = turn / FAMILIES;
    let (year, month, day) = match turn % FAMILIES {
        0 => of_lists(&YEARS, &DAYS, step),
        1 => of_lists(&YEARS_AT_ENDS, &(0..=32).collect::<Vec<_>>(), step),
        2 => {
            let day = day_of(number(random.below(FAMILIES), random));
            (day.year, day.month, day.day)
        }
        _ => any_date(random),
    };
    Request::DayNumber { year, month, day }
}

/// From the last day but one on; what 32 bits can't hold is the nearest that they can.
fn around_the_end_of_a_month(step: usize) -> i32 {
    let (around, step) = (step % AROUND, step / AROUND);
    let (month, step) = (step % 12 + 1, step / 12);
    let year = YEARS[step % YEARS.len()];
    let first = number_of(year, month as u32, 1).expect("the first of a month is there");
    let number = first - 2 + around as i64;
    number.clamp(i32::MIN.into(), i32::MAX.into()) as i32
}

fn around_zero_or_at_an_end(step: usize) -> i32 {
    let (place, row) = ((step / 4 % IN_A_ROW) as i32, step % 4);
    match row {
        0 => place,
        1 => -1 - place,
        2 => i32::MAX - place,
        _ => i32::MIN + place,
    }
}

fn any_number(random: &mut Random) -> i32 {
    random.between(i32::MIN.into(), i32::MAX.into()) as i32
}

/// Some thousand years around 0, or of the years 1 to 9999.
fn ordinary(random: &mut Random) -> i32 {
    let number = match random.one_in(2) {
        true => random.between(-1_000_000, 1_000_000),
        false => random.between(0, LAST_OF_9999),
    };
    number as i32
}

/// Each year with each month, and these with each day.
fn of_lists(years: &[i32], days: &[u32], step: usize) -> (i32, u32, u32) {
    let (day, step) = (step % days.len(), step / days.len());
    let (month, step) = (step % MONTHS, step / MONTHS);
    (years[step % years.len()], month as u32, days[day])
}

/// Mostly there; at times with a month or a day that is not, or a year.
fn any_date(random: &mut Random) -> (i32, u32, u32) {
    let year = match random.below(8) {
        0 => random.pick(&YEARS),
        1 => random.pick(&YEARS_AT_ENDS),
        2..=4 => random.between(-5_879_612, 5_879_612) as i32,
        _ => random.between(-3000, 9999) as i32,
    };
    let month = unsigned(12, random);
    (year, month, unsigned(31, random))
}

/// From 1 to the last, or rarely beyond.
fn unsigned(last: i64, random: &mut Random) -> u32 {
    match random.below(24) {
        0 => random.pick(&[0, last as u32 + 1, 255, 256, 1 << 31, u32::MAX]),
        _ => random.between(1, last) as u32,
    }
}
