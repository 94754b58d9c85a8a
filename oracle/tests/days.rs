//! The Rust's calendar beside the harness's own, which is held to days that are known.

use harness::answer::answer;
use harness::days::{self, Day};
use harness::expected::{expected, Expected};
use harness::gregorian::{self, number_of};
use harness::request::Request;

const DAYS_IN_400_YEARS: i32 = 146_097;

fn day([year, month, day, day_of_year, week, weekday]: [i32; 6]) -> Day {
    let [month, day, day_of_year, week, weekday] =
        [month, day, day_of_year, week, weekday].map(|number| number as u32);
    Day {
        year,
        month,
        day,
        day_of_year,
        week,
        weekday,
    }
}

fn by_the_rust(number: i32) -> Day {
    days::day_of(number).expect("the Rust does not panic")
}

fn of_day(number: i32) -> Expected {
    expected(&Request::DayOf { number })
}

fn of_date(year: i32, month: u32, day: u32) -> Expected {
    expected(&Request::DayNumber { year, month, day })
}

/// A cycle of the calendar on each side of 0, and one inwards from each end of the numbers.
fn some_cycles() -> impl Iterator<Item = i32> {
    let around_zero = -DAYS_IN_400_YEARS..DAYS_IN_400_YEARS;
    let first = i32::MIN..=i32::MIN + DAYS_IN_400_YEARS;
    let last = i32::MAX - DAYS_IN_400_YEARS..=i32::MAX;
    around_zero.chain(first).chain(last)
}

#[test]
fn the_harness_knows_known_days() {
    for (number, fields) in [
        (0, [1, 1, 1, 1, 1, 1]),
        (-1, [-1, 12, 31, 366, 52, 0]),
        (-7, [-1, 12, 25, 360, 52, 1]),
        (-366, [-1, 1, 1, 1, 52, 6]),
        (577_735, [1582, 10, 15, 288, 41, 5]),
        (719_162, [1970, 1, 1, 1, 1, 4]),
        (730_178, [2000, 2, 29, 60, 9, 2]),
        (737_790, [2021, 1, 1, 1, 53, 5]),
        (739_587, [2025, 12, 3, 337, 49, 3]),
        (i32::MAX, [5_879_611, 7, 12, 193, 28, 2]),
        (i32::MIN, [-5_879_611, 6, 23, 174, 25, 6]),
    ] {
        let day = day(fields);
        assert_eq!(gregorian::day_of(number), day);
        assert_eq!(number_of(day.year, day.month, day.day), Some(number.into()));
    }
}

/// From a day to the next, by the rules alone.
#[test]
fn the_harness_counts_on_day_by_day() {
    for first in [i32::MIN, -150_000, i32::MAX - 300_000] {
        for number in first..first + 300_000 {
            let (today, next) = (gregorian::day_of(number), gregorian::day_of(number + 1));
            assert_eq!(next.weekday, (today.weekday + 1) % 7);
            let of_next_year = next.day_of_year == 1;
            let last = (today.month, today.day) == (12, 31);
            assert_eq!(of_next_year, last);
            let year = if of_next_year {
                today.year + 1
            } else {
                today.year
            };
            assert_eq!(next.year, if year == 0 { 1 } else { year });
            if !of_next_year {
                assert_eq!(next.day_of_year, today.day_of_year + 1);
            }
            if next.day != 1 {
                assert_eq!((next.month, next.day), (today.month, today.day + 1));
            }
        }
    }
}

#[test]
fn from_day_0_on_the_rust_is_right_and_decides() {
    for number in some_cycles().filter(|number| *number >= 0) {
        assert_eq!(by_the_rust(number), gregorian::day_of(number));
    }
    assert_eq!(of_day(0), Expected::Accepted("day 1 1 1 1 1 1".to_string()));
}

/// Only its weekday and its week are not the calendar's, and all but these decide.
#[test]
fn below_day_0_the_rust_is_right_but_for_weekdays_and_weeks() {
    let (mut weekdays, mut weeks, mut tried) = (0, 0, 0);
    for number in some_cycles().filter(|number| *number < 0) {
        let (rust, right) = (by_the_rust(number), gregorian::day_of(number));
        let other = Day {
            week: rust.week,
            weekday: rust.weekday,
            ..right
        };
        assert_eq!(rust, other);
        assert_eq!(rust.weekday != right.weekday, number % 7 != 0);
        weekdays += usize::from(rust.weekday != right.weekday);
        weeks += usize::from(rust.week != right.week);
        tried += 1;
    }
    assert_eq!(weekdays, tried / 7 * 6 + tried % 7);
    assert!(tried / 9 < weeks && weeks < tried / 7, "{weeks} of {tried}");
}

/// The nearest day to 0 that has another weekday, and the nearest with another week.
#[test]
fn the_smallest_inputs() {
    let differs = |value: fn(&Day) -> u32| {
        let other =
            move |number: &i32| value(&by_the_rust(*number)) != value(&gregorian::day_of(*number));
        (1..1000).map(|number| -number).find(other)
    };
    assert_eq!(differs(|day| day.weekday), Some(-1));
    assert_eq!(differs(|day| day.week), Some(-7));
    for (number, rust, right) in [
        (-1, "day -1 12 31 366 52 2", "day -1 12 31 366 52 0"),
        (-7, "day -1 12 25 360 51 1", "day -1 12 25 360 52 1"),
    ] {
        assert_eq!(answer(&format!("day_of {number}")), rust);
        assert_eq!(of_day(number), Expected::Excepted(right.to_string()));
    }
}

/// Where both are the calendar's the Rust decides below 0 as well.
#[test]
fn a_day_below_0_is_excepted_only_where_the_rust_differs() {
    assert_eq!(
        of_day(-308),
        Expected::Accepted("day -1 2 28 59 9 1".to_string())
    );
}

#[test]
fn the_rusts_number_is_the_calendars() {
    for number in some_cycles() {
        let day = gregorian::day_of(number);
        let line = format!("number {number}");
        assert_eq!(
            of_date(day.year, day.month, day.day),
            Expected::Accepted(line)
        );
    }
}

/// The Rust errs at each month and day that is not there, and its sum overflows where the number doesn't fit.
#[test]
fn refusals() {
    let refused = |number: u32| format!("refused {number} 0");
    for year in [0, 5_879_612, -5_879_612, i32::MAX, i32::MIN] {
        assert_eq!(of_date(year, 1, 1), Expected::Limit(refused(17)));
    }
    for year in [
        2025, 2024, 1900, 2000, -1, -4, -5, -101, -401, 5_879_611, -5_879_611,
    ] {
        for month in 0..=13 {
            for day in 0..=32 {
                let expected = match number_of(year, month, day) {
                    None => Expected::Refused(refused(17)),
                    Some(number) => match i32::try_from(number) {
                        Ok(number) => Expected::Accepted(format!("number {number}")),
                        Err(_) => Expected::Refused(refused(18)),
                    },
                };
                assert_eq!(of_date(year, month, day), expected, "{year} {month} {day}");
            }
        }
    }
    assert_eq!(of_date(5_879_611, 7, 13), Expected::Refused(refused(18)));
    assert_eq!(of_date(-5_879_611, 6, 22), Expected::Refused(refused(18)));
    assert_eq!(of_date(5_879_611, 9, 31), Expected::Refused(refused(17)));
}
