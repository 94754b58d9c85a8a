use crate::{raw, Fields, Refusal};

/// A day of the Gregorian calendar, also of times before it was in use, with what the calendar says of it.
///
/// Its number is an `i32`: 0 is 1 January of year 1, a Monday, and negative numbers are the days before. [`day_of`] and [`From`] give
/// the day of a number, [`Day::number`] and [`TryFrom`] the number of a day. As [`Fields`] it is written by a pattern:
///
/// ```
/// # fn main() -> Result<(), sheet::Refusal> {
/// let day = sheet::day_of(sheet::day_number(2025, 12, 3)? + 30);
/// assert_eq!(sheet::write("eeee, d MMMM yyyy, 'week' w", &day.into())?, "Friday, 2 January 2026, week 1");
/// # Ok(())
/// # }
/// ```
#[derive(Clone, Copy, Debug, PartialEq, Eq, Hash)]
pub struct Day {
    /// -5,879,611 to 5,879,611; there is no year 0, and the year before 1 is -1.
    pub year: i32,
    /// 1 to 12.
    pub month: u32,
    /// 1 to 31.
    pub day: u32,
    /// 1 to 366.
    pub day_of_year: u32,
    /// 1 to 53, by ISO 8601: at the ends of a year it may be a week of the year before or behind it.
    pub week: u32,
    /// 0 to 6, from Sunday.
    pub weekday: u32,
}

impl Day {
    /// The number of the day, by its year, month and day alone. Refuses as [`day_number`] does; a day that [`day_of`] gave has its
    /// number.
    pub fn number(&self) -> Result<i32, Refusal> {
        day_number(self.year, self.month, self.day)
    }

    fn of_row(row: [i64; raw::DAY_ANSWER]) -> Day {
        let [year, month, day, day_of_year, week, weekday] = row;
        Day {
            year: year as i32,
            month: month as u32,
            day: day as u32,
            day_of_year: day_of_year as u32,
            week: week as u32,
            weekday: weekday as u32,
        }
    }
}

/// The day of a number: every number has one.
///
/// ```
/// let day = sheet::day_of(0);
/// assert_eq!((day.year, day.month, day.day, day.weekday), (1, 1, 1, 1));
///
/// let before = sheet::day_of(-1);
/// assert_eq!((before.year, before.month, before.day, before.day_of_year), (-1, 12, 31, 366));
/// ```
pub fn day_of(number: i32) -> Day {
    let mut answer = [0; raw::DAY_ANSWER];
    // SAFETY: the pointer goes with the length of the row that it comes from, which is borrowed alone. The row has as many entries
    // as are asked for, and nothing is refused.
    unsafe { raw::sheet_day(number, answer.as_mut_ptr(), answer.len()) };
    Day::of_row(answer)
}

/// The number of a day. Refuses with 17 where there is no such day, with year 0 and the years outside -5,879,611 to 5,879,611 among
/// them; then with 18 where 32 signed bits can't hold the number, before 23 June of the first year and behind 12 July of the last.
///
/// A bar of a chart, by the first and the last day of a task:
///
/// ```
/// use sheet::{day_number, day_of};
///
/// # fn main() -> Result<(), sheet::Refusal> {
/// let first = day_number(2026, 2, 26)?;
/// let last = day_number(2026, 3, 5)?;
/// let days = last - first + 1;
///
/// // The chart begins with the Monday of the week and is 16 pixels a day.
/// let since_monday = (day_of(first).weekday + 6) % 7;
/// assert_eq!((days, since_monday), (8, 3));
/// assert_eq!((16 * since_monday, 16 * days), (48, 128));
///
/// let refusal = day_number(2026, 2, 29).unwrap_err();
/// assert_eq!((refusal.number(), refusal.to_string().as_str()), (17, "there is no such day"));
/// # Ok(())
/// # }
/// ```
pub fn day_number(year: i32, month: u32, day: u32) -> Result<i32, Refusal> {
    let mut answer = [0; raw::DAY_NUMBER_ANSWER];
    // SAFETY: the pointer goes with the length of the row that it comes from, which is borrowed alone.
    let number = unsafe { raw::sheet_day_number(year, month, day, answer.as_mut_ptr(), answer.len()) };
    Refusal::unless_accepted(number, &answer)?;
    Ok(answer[0] as i32)
}

impl From<i32> for Day {
    fn from(number: i32) -> Day {
        day_of(number)
    }
}

impl TryFrom<Day> for i32 {
    type Error = Refusal;

    fn try_from(day: Day) -> Result<i32, Refusal> {
        day.number()
    }
}

/// At the start of the day, with no offset.
impl From<Day> for Fields {
    fn from(day: Day) -> Fields {
        Fields {
            year: day.year,
            month: day.month,
            day: day.day,
            day_of_year: day.day_of_year,
            week: day.week,
            weekday: day.weekday,
            nanoseconds: 0,
            offset: 0,
        }
    }
}
