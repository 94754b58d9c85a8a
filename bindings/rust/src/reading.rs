use crate::raw::{self, Reader};
use crate::{Book, Choices, Refusal};
use std::array;
use std::ops::Range;

/// What can be read, in the order of the mask's bits and of the values.
#[derive(Clone, Copy, Debug, PartialEq, Eq, Hash)]
pub enum ParseUnit {
    Year,
    Month,
    DayOfMonth,
    DayOfYear,
    Hour,
    /// 0 before noon, 1 from noon on.
    Period,
    PeriodHour,
    Minute,
    Second,
    Decis,
    Centis,
    Millis,
    Micros,
    Nanos,
    /// In seconds east of UTC.
    Offset,
}

impl ParseUnit {
    pub const ALL: [ParseUnit; 15] = [
        ParseUnit::Year,
        ParseUnit::Month,
        ParseUnit::DayOfMonth,
        ParseUnit::DayOfYear,
        ParseUnit::Hour,
        ParseUnit::Period,
        ParseUnit::PeriodHour,
        ParseUnit::Minute,
        ParseUnit::Second,
        ParseUnit::Decis,
        ParseUnit::Centis,
        ParseUnit::Millis,
        ParseUnit::Micros,
        ParseUnit::Nanos,
        ParseUnit::Offset,
    ];
}

/// What a text was read as.
#[derive(Clone, Copy, Debug, PartialEq, Eq, Hash)]
pub struct Reading {
    /// How many bytes were read; the text may have a rest.
    pub taken: usize,
    /// Bit k is set where unit k was read.
    pub mask: u16,
    /// How many units were read.
    pub units: u32,
    /// By unit; 0 where it was not read. Where several parts read the same unit, the last one's value.
    pub values: [i64; ParseUnit::ALL.len()],
    /// By unit, where in the text the part began that gave the value; 0 where it was not read.
    pub starts: [u16; ParseUnit::ALL.len()],
    /// By unit, the place behind the last byte that this part took; 0 where it was not read.
    pub ends: [u16; ParseUnit::ALL.len()],
}

impl Reading {
    /// Whether a unit was read, by the mask.
    pub fn was_read(&self, unit: ParseUnit) -> bool {
        // SAFETY: it takes two numbers, and any will do.
        unsafe { raw::sheet_was_read(i64::from(self.mask), unit as u32) == 1 }
    }

    /// The value of a unit that was read.
    pub fn value(&self, unit: ParseUnit) -> Option<i64> {
        self.was_read(unit).then(|| self.values[unit as usize])
    }

    /// Where in the text the value of a unit that was read stands: all that its part took, a sign included.
    ///
    /// ```
    /// use sheet::ParseUnit;
    ///
    /// # fn main() -> Result<(), sheet::Refusal> {
    /// let text = "3 December -12";
    /// let reading = sheet::read("d MMMM y", text, 2025)?;
    /// let month = reading.span(ParseUnit::Month).expect("it was read");
    /// assert_eq!(&text[month], "December");
    /// assert_eq!(reading.span(ParseUnit::Year), Some(11..14));
    /// assert_eq!(reading.span(ParseUnit::Hour), None);
    /// # Ok(())
    /// # }
    /// ```
    pub fn span(&self, unit: ParseUnit) -> Option<Range<usize>> {
        let place = |places: &[u16]| usize::from(places[unit as usize]);
        self.was_read(unit).then(|| place(&self.starts)..place(&self.ends))
    }

    pub(crate) fn of_row(row: &[i64; raw::READ_ANSWER]) -> Reading {
        let [taken, mask, units, ..] = *row;
        let by_unit = |first: usize| array::from_fn(|unit| row[first + unit]);
        let places = |first: usize| by_unit(first).map(|place: i64| place as u16);
        Reading {
            taken: taken as usize,
            mask: mask as u16,
            units: units as u32,
            values: by_unit(raw::READ_VALUES),
            starts: places(raw::READ_STARTS),
            ends: places(raw::READ_ENDS),
        }
    }
}

/// Reads a text by a pattern. A year of two digits is in the millennium of the current year, which is 1 to 9999. No value is
/// held to a range. Refuses with 1, 2, 3, 14, 6 or 7, the first in this order, then with 8 to 11 or 19 at the first part that
/// can't be read.
///
/// ```
/// use sheet::ParseUnit;
///
/// # fn main() -> Result<(), sheet::Refusal> {
/// let reading = sheet::read("d/MM HH:mm", "3/12 07:05, berth 4", 2025)?;
/// assert_eq!((reading.taken, reading.units), (10, 4));
/// assert_eq!(reading.value(ParseUnit::DayOfMonth), Some(3));
/// assert_eq!(reading.value(ParseUnit::Month), Some(12));
/// assert!(!reading.was_read(ParseUnit::Year));
/// # Ok(())
/// # }
/// ```
pub fn read(pattern: impl AsRef<[u8]>, text: impl AsRef<[u8]>, current_year: i32) -> Result<Reading, Refusal> {
    reading_by(raw::sheet_read, pattern.as_ref(), text.as_ref(), current_year)
}

/// Reads a date by a pattern: as [`read`], but time symbols stand for themselves, and are passed over.
///
/// ```
/// # fn main() -> Result<(), sheet::Refusal> {
/// let reading = sheet::read_date("dd HH", "03 xx", 2025)?;
/// assert!(reading.was_read(sheet::ParseUnit::DayOfMonth));
/// assert!(!reading.was_read(sheet::ParseUnit::Hour));
/// # Ok(())
/// # }
/// ```
pub fn read_date(pattern: impl AsRef<[u8]>, text: impl AsRef<[u8]>, current_year: i32) -> Result<Reading, Refusal> {
    reading_by(raw::sheet_read_date, pattern.as_ref(), text.as_ref(), current_year)
}

/// Reads a text by a pattern, with [choices](Choices). Refuses as [`read`] does; where it is strict also with 15 at a literal that
/// differs, and behind the last part with 16; in the second [edition](crate::Edition) also with 14 for the current years 1 to 80.
///
/// ```
/// use sheet::{read_with, Choices};
///
/// # fn main() -> Result<(), sheet::Refusal> {
/// let strict = Choices::new().strict();
/// assert_eq!(read_with(strict, "d/MM", "3/12", 2025)?.taken, 4);
///
/// let swapped = read_with(strict, "d/MM", "3-12", 2025).unwrap_err();
/// assert_eq!((swapped.number(), swapped.details()), (15, &[1, 1][..]));
///
/// let longer = read_with(strict, "d/MM", "3/12, berth 4", 2025).unwrap_err();
/// assert_eq!((longer.number(), longer.details()), (16, &[4][..]));
/// # Ok(())
/// # }
/// ```
pub fn read_with(
    choices: Choices,
    pattern: impl AsRef<[u8]>,
    text: impl AsRef<[u8]>,
    current_year: i32,
) -> Result<Reading, Refusal> {
    let (pattern, text) = (pattern.as_ref(), text.as_ref());
    let mut answer = [0; raw::READ_ANSWER];
    // SAFETY: each pointer goes with the length of the slice that it comes from, and what is altered is borrowed alone.
    let number = unsafe {
        raw::sheet_read_with(
            choices.number(),
            pattern.as_ptr(),
            pattern.len(),
            text.as_ptr(),
            text.len(),
            current_year,
            answer.as_mut_ptr(),
            answer.len(),
        )
    };
    Refusal::unless_accepted(number, &answer)?;
    Ok(Reading::of_row(&answer))
}

/// Reads a text by a pattern with the names of a [book](Book), and with [choices](Choices). A name is matched byte for byte, case
/// included; eras, quarters and periods are the same with every book. Refuses as [`read_with`] does.
///
/// ```
/// use sheet::{read_by, Book, Choices, ParseUnit};
///
/// # fn main() -> Result<(), sheet::Refusal> {
/// let mut names = Book::english().names();
/// names.short_months = ["jan", "feb", "mrt", "apr", "mei", "jun", "jul", "aug", "sep", "okt", "nov", "dec"];
/// let book = Book::from_names(names)?;
///
/// let strict = Choices::new().strict();
/// let reading = read_by(strict, &book, "d MMM", "3 okt", 2025)?;
/// assert_eq!(reading.value(ParseUnit::Month), Some(10));
///
/// let refusal = read_by(strict, &book, "d MMM", "3 Oct", 2025).unwrap_err();
/// assert_eq!((refusal.number(), refusal.details()), (10, &[2, 2][..]));
/// # Ok(())
/// # }
/// ```
pub fn read_by(
    choices: Choices,
    book: &Book,
    pattern: impl AsRef<[u8]>,
    text: impl AsRef<[u8]>,
    current_year: i32,
) -> Result<Reading, Refusal> {
    let (book, pattern, text) = (book.row(), pattern.as_ref(), text.as_ref());
    let mut answer = [0; raw::READ_ANSWER];
    // SAFETY: each pointer goes with the length of the slice that it comes from, and what is altered is borrowed alone.
    let number = unsafe {
        raw::sheet_read_by(
            choices.number(),
            book.as_ptr(),
            book.len(),
            pattern.as_ptr(),
            pattern.len(),
            text.as_ptr(),
            text.len(),
            current_year,
            answer.as_mut_ptr(),
            answer.len(),
        )
    };
    Refusal::unless_accepted(number, &answer)?;
    Ok(Reading::of_row(&answer))
}

/// Reads an offset by itself, such as `+05:30`, or `Z` with anything behind it, and answers its seconds. Refuses with 6, 7, 12,
/// 9 or 13, the first in this order.
///
/// ```
/// assert_eq!(sheet::parse_offset("+05:30"), Ok(19_800));
/// assert_eq!(sheet::parse_offset("+05:3").unwrap_err().number(), 12);
/// ```
pub fn parse_offset(text: impl AsRef<[u8]>) -> Result<i32, Refusal> {
    let text = text.as_ref();
    let mut answer = [0; raw::OFFSET_ANSWER];
    // SAFETY: each pointer goes with the length of the slice that it comes from, and what is altered is borrowed alone.
    let number = unsafe { raw::sheet_parse_offset(text.as_ptr(), text.len(), answer.as_mut_ptr(), answer.len()) };
    Refusal::unless_accepted(number, &answer)?;
    Ok(answer[0] as i32)
}

fn reading_by(reader: Reader, pattern: &[u8], text: &[u8], current_year: i32) -> Result<Reading, Refusal> {
    let mut answer = [0; raw::READ_ANSWER];
    // SAFETY: each pointer goes with the length of the slice that it comes from, and what is altered is borrowed alone.
    let number = unsafe {
        reader(
            pattern.as_ptr(),
            pattern.len(),
            text.as_ptr(),
            text.len(),
            current_year,
            answer.as_mut_ptr(),
            answer.len(),
        )
    };
    Refusal::unless_accepted(number, &answer)?;
    Ok(Reading::of_row(&answer))
}
