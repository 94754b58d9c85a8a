//! Days and their numbers: at both limits of 32 bits, around the year that is not there, in every kind of year; and there and back.

use sheet::{day_number, day_of, Day, Fields};

const FIRST_YEAR: i32 = -5_879_611;
const LAST_YEAR: i32 = 5_879_611;

/// A year of each kind: common, leap, a full hundred that is not, a full four hundred that is; of both signs. Year -1 is leap, and
/// from there every fourth before it.
const YEARS: [(i32, bool); 18] = [
    (1, false),
    (4, true),
    (100, false),
    (400, true),
    (1900, false),
    (2000, true),
    (2024, true),
    (2025, false),
    (2100, false),
    (-1, true),
    (-2, false),
    (-4, false),
    (-5, true),
    (-100, false),
    (-101, false),
    (-400, false),
    (-401, true),
    (-2001, true),
];

const MONTHS: [u32; 12] = [31, 28, 31, 30, 31, 30, 31, 31, 30, 31, 30, 31];

fn day([year, month, day, day_of_year, week, weekday]: [i32; 6]) -> Day {
    let [month, day, day_of_year, week, weekday] = [month, day, day_of_year, week, weekday].map(|number| number as u32);
    Day {
        year,
        month,
        day,
        day_of_year,
        week,
        weekday,
    }
}

/// The number of the refusal.
fn refused(year: i32, month: u32, day: u32) -> Option<u32> {
    day_number(year, month, day).err().map(|refusal| refusal.number())
}

fn month_length(leap: bool, month: u32) -> u32 {
    MONTHS[month as usize - 1] + u32::from(leap && month == 2)
}

#[test]
fn days_that_are_known() {
    for (number, fields) in [
        (0, [1, 1, 1, 1, 1, 1]),
        (-1, [-1, 12, 31, 366, 52, 0]),
        (-366, [-1, 1, 1, 1, 52, 6]),
        (-367, [-2, 12, 31, 365, 52, 5]),
        (364, [1, 12, 31, 365, 1, 1]),
        (577_735, [1582, 10, 15, 288, 41, 5]),
        (719_162, [1970, 1, 1, 1, 1, 4]),
        (730_178, [2000, 2, 29, 60, 9, 2]),
        (739_587, [2025, 12, 3, 337, 49, 3]),
        (739_251, [2025, 1, 1, 1, 1, 3]),
        (738_155, [2022, 1, 1, 1, 52, 6]),
        (737_790, [2021, 1, 1, 1, 53, 5]),
        (i32::MAX, [LAST_YEAR, 7, 12, 193, 28, 2]),
        (i32::MIN, [FIRST_YEAR, 6, 23, 174, 25, 6]),
    ] {
        let day = day(fields);
        assert_eq!(day_of(number), day);
        assert_eq!(day_number(day.year, day.month, day.day), Ok(number));
    }
}

#[test]
fn both_limits() {
    assert_eq!(day_number(LAST_YEAR, 7, 12), Ok(i32::MAX));
    assert_eq!(day_number(FIRST_YEAR, 6, 23), Ok(i32::MIN));
    for (month, day) in [(7, 13), (7, 31), (8, 1), (12, 31)] {
        assert_eq!(refused(LAST_YEAR, month, day), Some(18));
    }
    for (month, day) in [(6, 22), (6, 1), (5, 31), (1, 1)] {
        assert_eq!(refused(FIRST_YEAR, month, day), Some(18));
    }
}

/// A day that is not there is refused as such, also where its number would not fit.
#[test]
fn no_such_day_comes_first() {
    for (year, month, day) in [
        (LAST_YEAR, 9, 31),
        (LAST_YEAR, 13, 1),
        (FIRST_YEAR, 2, 29),
        (FIRST_YEAR, 1, 0),
    ] {
        assert_eq!(refused(year, month, day), Some(17));
    }
    for year in [0, LAST_YEAR + 1, FIRST_YEAR - 1, i32::MAX, i32::MIN] {
        for (month, day) in [(1, 1), (7, 12), (12, 31)] {
            assert_eq!(refused(year, month, day), Some(17));
        }
    }
}

/// Every month that is not there, and every day of every month that is not.
#[test]
fn months_and_days_that_are_not_there() {
    for (year, leap) in YEARS {
        for month in [0, 13, 255, 256, 1 << 31, u32::MAX] {
            assert_eq!(refused(year, month, 1), Some(17), "{year} {month}");
        }
        for month in 1..=12 {
            let length = month_length(leap, month);
            for day in [0, length + 1, 32, 255, 256, 1 << 31, u32::MAX] {
                assert_eq!(refused(year, month, day), Some(17), "{year} {month} {day}");
            }
        }
    }
}

/// Through a whole year of each kind day by day, from one 1 January to the next: what is counted is what is answered.
#[test]
fn every_kind_of_year() {
    for (year, leap) in YEARS {
        let new_year = day_number(year, 1, 1).expect("there is such a day");
        let mut counted = 0;
        for month in 1..=12 {
            for day in 1..=month_length(leap, month) {
                let number = new_year + counted;
                assert_eq!(day_number(year, month, day), Ok(number));
                counted += 1;
                let found = day_of(number);
                assert_eq!((found.year, found.month, found.day), (year, month, day));
                assert_eq!(found.day_of_year, counted as u32);
            }
        }
        let next = if year == -1 { 1 } else { year + 1 };
        assert_eq!(day_number(next, 1, 1), Ok(new_year + counted));
        assert_eq!(counted, if leap { 366 } else { 365 });
    }
}

/// Around day 0 and at both ends: a weekday follows the other, a week begins with each Monday, and 1 January is in the week of its
/// own Thursday.
#[test]
fn weeks_and_weekdays() {
    for first in [i32::MIN, -150_000, i32::MAX - 300_001] {
        for number in first..first + 300_000 {
            let (today, tomorrow) = (day_of(number), day_of(number + 1));
            assert_eq!(tomorrow.weekday, (today.weekday + 1) % 7);
            if tomorrow.weekday != 1 {
                assert_eq!(tomorrow.week, today.week);
            } else if tomorrow.week != 1 {
                assert_eq!(tomorrow.week, today.week + 1);
            } else {
                assert!(matches!(today.week, 52 | 53));
            }
            if today.weekday == 4 {
                assert_eq!(today.week, (today.day_of_year - 1) / 7 + 1);
            }
        }
    }
}

#[test]
fn there_and_back() {
    let mut number = i32::MIN;
    let step = 104_729;
    loop {
        let day = day_of(number);
        assert_eq!(day.number(), Ok(number));
        match number.checked_add(step) {
            Some(next) => number = next,
            None => break,
        }
    }
}

#[test]
fn conversions() {
    for number in [i32::MIN, -1, 0, 739_587, i32::MAX] {
        let day = Day::from(number);
        assert_eq!(day, day_of(number));
        assert_eq!(i32::try_from(day), Ok(number));
    }
    let day = day_of(739_587);
    let fields = Fields {
        year: 2025,
        month: 12,
        day: 3,
        day_of_year: 337,
        week: 49,
        weekday: 3,
        nanoseconds: 0,
        offset: 0,
    };
    assert_eq!(Fields::from(day), fields);
}

/// Its number is by year, month and day alone.
#[test]
fn a_day_that_is_made_by_hand() {
    let day = day_of(739_587);
    let number = |day: Day| i32::try_from(day).map_err(|refusal| refusal.number());
    assert_eq!(
        number(Day {
            week: 99,
            weekday: 9,
            ..day
        }),
        Ok(739_587)
    );
    assert_eq!(number(Day { day: 32, ..day }), Err(17));
    assert_eq!(number(Day { year: LAST_YEAR, ..day }), Err(18));
}
