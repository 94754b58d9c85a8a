//! The Rust's own modules from the source folder, each under its own name. Where a pattern is written the calendar is ours, which
//! answers given fields; the Rust's own stands beside it. Writing and reading stand here a second time, for names of a book.
#![allow(dead_code, clippy::all)]

pub(crate) mod constants {
    include!(concat!(env!("ASTROLABE_SRC"), "/src/util/constants.rs"));
}

pub(crate) mod format {
    include!(concat!(env!("ASTROLABE_SRC"), "/src/util/format.rs"));
}

pub(crate) mod parse {
    include!(concat!(env!("ASTROLABE_SRC"), "/src/util/parse.rs"));
}

/// The same files once more. The constants that they find are the Rust's own, but that the names of months and weekdays are given.
pub(crate) mod by_book {
    pub(crate) use super::{date, time};

    pub(crate) mod constants {
        pub(crate) use crate::names::{
            MONTH_ABBREVIATED, MONTH_NARROW, MONTH_WIDE, WDAY_ABBREVIATED, WDAY_NARROW, WDAY_SHORT,
            WDAY_WIDE,
        };
        pub(crate) use crate::util::constants::*;
    }

    pub(crate) mod format {
        include!(concat!(env!("ASTROLABE_SRC"), "/src/util/format.rs"));
    }

    pub(crate) mod parse {
        include!(concat!(env!("ASTROLABE_SRC"), "/src/util/parse.rs"));
    }
}

pub(crate) mod date {
    pub(crate) mod convert {
        pub(crate) use crate::calendar::{days_to_date, days_to_doy, days_to_wday, days_to_wyear};
    }
}

/// Under another name than its own, which the given fields have.
pub(crate) mod date_itself {
    pub(crate) mod convert {
        include!(concat!(env!("ASTROLABE_SRC"), "/src/util/date/convert.rs"));
    }

    /// Ours, in the place of the Rust's util/date/validate.rs, which is not among its files here. It lets all pass: which years
    /// there are is a limit that is set before (`limits.rs`), months and days the Rust looks at once more behind it, and a number
    /// that doesn't fit shows by an overflow.
    pub(crate) mod validate {
        use crate::errors::AstrolabeError;

        pub(crate) fn validate_date(_: i32, _: u32, _: u32) -> Result<(), AstrolabeError> {
            Ok(())
        }

        pub(crate) fn validate_doy(_: i32, _: u32) -> Result<(), AstrolabeError> {
            unreachable!("no day is asked for by its day of the year")
        }
    }
}

/// Ours, in the place of the Rust's util/leap.rs, which is not among its files here: what its callers need it to answer.
pub(crate) mod leap {
    /// Year -1 is as year 0 would be.
    pub(crate) fn is_leap_year(year: i32) -> bool {
        let year = if year < 0 { year + 1 } else { year };
        year % 4 == 0 && (year % 100 != 0 || year % 400 == 0)
    }

    /// How many leap years lie between a year and the turn from -1 to 1; the year itself is none of them.
    pub(crate) fn leap_years(year: i32) -> u32 {
        let up_to = |year: u32| year / 4 - year / 100 + year / 400;
        match year {
            -1 => 0,
            _ if year < 0 => 1 + up_to(year.unsigned_abs() - 2),
            _ => up_to(year.unsigned_abs() - 1),
        }
    }
}

pub(crate) mod time {
    pub(crate) mod convert {
        include!(concat!(env!("ASTROLABE_SRC"), "/src/util/time/convert.rs"));
    }

    pub(crate) mod validate {
        use crate::errors::AstrolabeError;

        pub(crate) fn validate_time(_: u32, _: u32, _: u32) -> Result<(), AstrolabeError> {
            unreachable!("no part of a pattern validates a time")
        }
    }
}
