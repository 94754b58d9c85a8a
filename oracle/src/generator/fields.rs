//! Families of field records.

use super::random::Random;
use crate::calendar::Fields;

const SECOND: u64 = 1_000_000_000;
const NOON: u64 = 43_200 * SECOND;
const DAY: u64 = 86_400 * SECOND;

const YEARS: [i32; 29] = [
    -5_879_611, -1_000_000, -10_000, -1000, -999, -100, -99, -12, -10, -9, -5, -1, 1, 5, 9, 10, 99,
    100, 999, 1000, 2025, 9999, 10_000, 99_999, 100_000, 999_999, 1_000_000, 2_000_005, 5_879_611,
];
const MONTHS: [u32; 8] = [1, 2, 3, 4, 9, 10, 11, 12];
const DAYS: [u32; 6] = [1, 9, 10, 11, 30, 31];
const DAYS_OF_YEAR: [u32; 9] = [1, 9, 10, 11, 99, 100, 101, 365, 366];
const WEEKS: [u32; 5] = [1, 9, 10, 52, 53];
const WEEKDAYS: [u32; 7] = [0, 1, 2, 3, 4, 5, 6];
const NANOSECONDS: [u64; 17] = [
    0,
    1,
    999_999_999,
    SECOND,
    100_120_003,
    59 * SECOND,
    60 * SECOND,
    3600 * SECOND - 1,
    3600 * SECOND,
    36_000 * SECOND,
    NOON - 1,
    NOON,
    NOON + 1,
    NOON + SECOND,
    46_800 * SECOND,
    82_800 * SECOND,
    DAY - 1,
];
const OFFSETS: [i32; 19] = [
    0, 1, -1, 30, -30, 59, -59, 60, -60, 3599, -3599, 3600, -3600, 19_800, -19_800, 35_999,
    -45_296, 86_399, -86_399,
];

const YEARS_OUT: [i32; 5] = [0, 5_879_612, -5_879_612, i32::MAX, i32::MIN];
const NANOSECONDS_OUT: [u64; 4] = [DAY, DAY + 1, 1 << 63, u64::MAX];
const OFFSETS_OUT: [i32; 4] = [86_400, -86_400, i32::MAX, i32::MIN];

/// How many rounds go through every list.
pub const BOUNDARIES: usize = YEARS.len();

/// All fields at a boundary, each going through its own list.
pub fn at_boundaries(round: usize) -> Fields {
    Fields {
        year: YEARS[round % YEARS.len()],
        month: MONTHS[round % MONTHS.len()],
        day: DAYS[round % DAYS.len()],
        day_of_year: DAYS_OF_YEAR[round % DAYS_OF_YEAR.len()],
        week: WEEKS[round % WEEKS.len()],
        weekday: WEEKDAYS[round % WEEKDAYS.len()],
        nanoseconds: NANOSECONDS[round % NANOSECONDS.len()],
        offset: OFFSETS[round % OFFSETS.len()],
    }
}

/// Each field at a boundary or anywhere in its range.
pub fn in_range(random: &mut Random) -> Fields {
    Fields {
        year: either(random, &YEARS, |random| random.between(1, 9999) as i32),
        month: random.between(1, 12) as u32,
        day: random.between(1, 31) as u32,
        day_of_year: random.between(1, 366) as u32,
        week: random.between(1, 53) as u32,
        weekday: random.between(0, 6) as u32,
        nanoseconds: either(random, &NANOSECONDS, |random| {
            random.between(0, DAY as i64 - 1) as u64
        }),
        offset: either(random, &OFFSETS, whole_or_any_seconds),
    }
}

/// One field or, rarely, each of several out of its range.
pub fn out_of_range(random: &mut Random) -> Fields {
    let mut fields = in_range(random);
    put_one_out(&mut fields, random);
    while random.one_in(4) {
        put_one_out(&mut fields, random);
    }
    fields
}

fn put_one_out(fields: &mut Fields, random: &mut Random) {
    match random.below(8) {
        0 => fields.year = random.pick(&YEARS_OUT),
        1 => fields.month = random.pick(&[0, 13, u32::MAX]),
        2 => fields.day = random.pick(&[0, 32, u32::MAX]),
        3 => fields.day_of_year = random.pick(&[0, 367, u32::MAX]),
        4 => fields.week = random.pick(&[0, 54, u32::MAX]),
        5 => fields.weekday = random.pick(&[7, u32::MAX]),
        6 => fields.nanoseconds = random.pick(&NANOSECONDS_OUT),
        _ => fields.offset = random.pick(&OFFSETS_OUT),
    }
}

fn either<T: Copy>(random: &mut Random, boundaries: &[T], any: impl Fn(&mut Random) -> T) -> T {
    if random.one_in(2) {
        random.pick(boundaries)
    } else {
        any(random)
    }
}

fn whole_or_any_seconds(random: &mut Random) -> i32 {
    match random.below(3) {
        0 => random.between(-23, 23) as i32 * 3600,
        1 => random.between(-1439, 1439) as i32 * 60,
        _ => random.between(-86_399, 86_399) as i32,
    }
}
