/// What is written: a date, a time of day and an offset. The fields need not agree with each other.
#[derive(Clone, Copy, Debug, PartialEq, Eq, Hash)]
pub struct Fields {
    /// -5,879,611 to 5,879,611; there is no year 0.
    pub year: i32,
    /// 1 to 12.
    pub month: u32,
    /// 1 to 31.
    pub day: u32,
    /// 1 to 366.
    pub day_of_year: u32,
    /// 1 to 53.
    pub week: u32,
    /// 0 to 6, from Sunday.
    pub weekday: u32,
    /// Since the start of the day, 0 to 86,399,999,999,999.
    pub nanoseconds: u64,
    /// In seconds east of UTC, -86,399 to 86,399.
    pub offset: i32,
}

impl Fields {
    /// The record that a check shows, from its eight entries.
    pub(crate) fn of_row(row: [i64; 8]) -> Fields {
        let [year, month, day, day_of_year, week, weekday, nanoseconds, offset] = row;
        Fields {
            year: year as i32,
            month: month as u32,
            day: day as u32,
            day_of_year: day_of_year as u32,
            week: week as u32,
            weekday: weekday as u32,
            nanoseconds: nanoseconds as u64,
            offset: offset as i32,
        }
    }
}

#[cfg(test)]
mod tests {
    use super::Fields;

    /// The records that checks show have entries that are equal.
    #[test]
    fn a_row_has_the_fields_in_their_order() {
        let fields = Fields {
            year: -12,
            month: 11,
            day: 3,
            day_of_year: 307,
            week: 45,
            weekday: 2,
            nanoseconds: 86_399_999_999_999,
            offset: -19_800,
        };
        let row = [-12, 11, 3, 307, 45, 2, 86_399_999_999_999, -19_800];
        assert_eq!(Fields::of_row(row), fields);
    }
}
