//! The calendar stand-ins: what the Rust computes from a day number is answered from given fields,
//! and what it asks the clock from a given year.

use std::cell::Cell;

/// The field record of the specification, in its order.
#[derive(Clone, Copy, Debug, Default, PartialEq, Eq)]
pub struct Fields {
    pub year: i32,
    pub month: u32,
    pub day: u32,
    pub day_of_year: u32,
    pub week: u32,
    pub weekday: u32,
    pub nanoseconds: u64,
    pub offset: i32,
}

impl Fields {
    /// A day number of the year's sign, which is all the Rust looks at itself.
    pub(crate) fn days(&self) -> i32 {
        if self.year < 0 {
            -1
        } else {
            0
        }
    }
}

thread_local! {
    static GIVEN_FIELDS: Cell<Fields> = Cell::default();
    static GIVEN_YEAR: Cell<i32> = Cell::default();
}

pub(crate) fn give_fields(fields: Fields) {
    GIVEN_FIELDS.set(fields);
}

pub(crate) fn give_current_year(year: i32) {
    GIVEN_YEAR.set(year);
}

pub(crate) fn days_to_date(_days: i32) -> (i32, u32, u32) {
    let given = GIVEN_FIELDS.get();
    (given.year, given.month, given.day)
}

pub(crate) fn days_to_doy(_days: i32) -> u32 {
    GIVEN_FIELDS.get().day_of_year
}

pub(crate) fn days_to_wday(_days: i32, monday_first: bool) -> u32 {
    let weekday = GIVEN_FIELDS.get().weekday;
    if monday_first {
        (weekday + 6) % 7
    } else {
        weekday
    }
}

pub(crate) fn days_to_wyear(_days: i32) -> u32 {
    GIVEN_FIELDS.get().week
}

pub(crate) struct Date;

impl Date {
    pub(crate) fn now() -> Self {
        Date
    }
}

pub(crate) trait DateUtilities {
    fn year(&self) -> i32;
}

impl DateUtilities for Date {
    fn year(&self) -> i32 {
        GIVEN_YEAR.get()
    }
}
