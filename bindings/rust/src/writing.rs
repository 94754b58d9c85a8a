use crate::raw::{self, Writer};
use crate::{Book, Choices, Fields, Refusal};

/// Writes a record by a pattern. Refuses with 1, 2, 3 or 4, the first in this order.
///
/// ```
/// # fn main() -> Result<(), sheet::Refusal> {
/// let fields = sheet::Fields {
///     year: 2025,
///     month: 12,
///     day: 3,
///     day_of_year: 337,
///     week: 49,
///     weekday: 3,
///     nanoseconds: 25_509_000_120_000,
///     offset: 19_800,
/// };
/// assert_eq!(sheet::write("yyyy/MM/dd", &fields)?, "2025/12/03");
/// assert_eq!(sheet::write("eeee, h 'o''clock' XXXXX", &fields)?, "Wednesday, 7 o'clock +05:30");
///
/// let refusal = sheet::write("dd", &sheet::Fields { day: 32, ..fields }).unwrap_err();
/// assert_eq!(refusal.to_string(), "a field is out of its range: the day, which is 1 to 31");
/// # Ok(())
/// # }
/// ```
pub fn write(pattern: impl AsRef<[u8]>, fields: &Fields) -> Result<String, Refusal> {
    text(pattern.as_ref(), |pattern, out| write_into(pattern, fields, out))
}

/// Writes a record by a pattern into lent bytes, and answers how many it wrote; those behind them are not altered. Refuses with
/// 1, 2, 3, 4 or 5, the first in this order; then none is altered.
///
/// ```
/// # fn main() -> Result<(), sheet::Refusal> {
/// # let fields = sheet::Fields {
/// #     year: 2025, month: 12, day: 3, day_of_year: 337, week: 49, weekday: 3, nanoseconds: 0, offset: 0,
/// # };
/// let mut out = *b"............";
/// let length = sheet::write_into("yyyy/MM/dd", &fields, &mut out)?;
/// assert_eq!((length, &out), (10, b"2025/12/03.."));
///
/// let refusal = sheet::write_into("yyyy/MM/dd", &fields, &mut out[..4]).unwrap_err();
/// assert_eq!((refusal.number(), refusal.details()), (5, &[10][..]));
/// # Ok(())
/// # }
/// ```
pub fn write_into(pattern: impl AsRef<[u8]>, fields: &Fields, out: &mut [u8]) -> Result<usize, Refusal> {
    written(raw::sheet_write, pattern.as_ref(), fields, out)
}

/// Writes a date by a pattern: as [`write()`], but time symbols stand for themselves.
///
/// ```
/// # fn main() -> Result<(), sheet::Refusal> {
/// # let fields = sheet::Fields {
/// #     year: 2025, month: 12, day: 3, day_of_year: 337, week: 49, weekday: 3, nanoseconds: 0, offset: 0,
/// # };
/// assert_eq!(sheet::write_date("dd.MM. HH", &fields)?, "03.12. HH");
/// # Ok(())
/// # }
/// ```
pub fn write_date(pattern: impl AsRef<[u8]>, fields: &Fields) -> Result<String, Refusal> {
    text(pattern.as_ref(), |pattern, out| write_date_into(pattern, fields, out))
}

/// Writes a date by a pattern into lent bytes: as [`write_into`], but time symbols stand for themselves.
pub fn write_date_into(pattern: impl AsRef<[u8]>, fields: &Fields, out: &mut [u8]) -> Result<usize, Refusal> {
    written(raw::sheet_write_date, pattern.as_ref(), fields, out)
}

/// Writes a record by a pattern with the names of a [book](Book), and with [choices](Choices): as [`write()`], or for dates as
/// [`write_date`]. The other choices, which are for reading, make no difference, so that the same can be given to both. Refuses as
/// [`write()`] does.
///
/// ```
/// use sheet::{Book, Choices, Fields};
///
/// # fn main() -> Result<(), sheet::Refusal> {
/// let mut names = Book::english().names();
/// names.wide_weekdays = ["zondag", "maandag", "dinsdag", "woensdag", "donderdag", "vrijdag", "zaterdag"];
/// let book = Book::from_names(names)?;
///
/// let day: Fields = sheet::day_of(sheet::day_number(2025, 12, 3)?).into();
/// assert_eq!(sheet::write_by(Choices::new(), &book, "eeee HH:mm", &day)?, "woensdag 00:00");
/// assert_eq!(sheet::write_by(Choices::new().date(), &book, "eeee HH:mm", &day)?, "woensdag HH:mm");
/// assert_eq!(sheet::write_by(Choices::new(), Book::english(), "eeee", &day)?, sheet::write("eeee", &day)?);
/// # Ok(())
/// # }
/// ```
pub fn write_by(choices: Choices, book: &Book, pattern: impl AsRef<[u8]>, fields: &Fields) -> Result<String, Refusal> {
    text(pattern.as_ref(), |pattern, out| {
        write_by_into(choices, book, pattern, fields, out)
    })
}

/// Writes a record by a pattern with the names of a [book](Book) into lent bytes: as [`write_into`], otherwise as [`write_by`].
pub fn write_by_into(
    choices: Choices,
    book: &Book,
    pattern: impl AsRef<[u8]>,
    fields: &Fields,
    out: &mut [u8],
) -> Result<usize, Refusal> {
    let (book, pattern) = (book.row(), pattern.as_ref());
    let mut answer = [0; raw::WRITE_ANSWER];
    // SAFETY: each pointer goes with the length of the slice that it comes from, and what is altered is borrowed alone.
    let number = unsafe {
        raw::sheet_write_by(
            choices.number(),
            book.as_ptr(),
            book.len(),
            pattern.as_ptr(),
            pattern.len(),
            fields.year,
            fields.month,
            fields.day,
            fields.day_of_year,
            fields.week,
            fields.weekday,
            fields.nanoseconds,
            fields.offset,
            out.as_mut_ptr(),
            out.len(),
            answer.as_mut_ptr(),
            answer.len(),
        )
    };
    Refusal::unless_accepted(number, &answer)?;
    Ok(answer[0] as usize)
}

/// What a writer lays into an output that has room for it. A longer pattern than any is refused, so no more room is made for it.
fn text(pattern: &[u8], write: impl FnOnce(&[u8], &mut [u8]) -> Result<usize, Refusal>) -> Result<String, Refusal> {
    let mut out = vec![0; raw::BYTES_A_PATTERN_BYTE * pattern.len().min(raw::LONGEST_PATTERN)];
    let length = write(pattern, &mut out)?;
    out.truncate(length);
    Ok(String::from_utf8(out).expect("a written text is ASCII"))
}

fn written(writer: Writer, pattern: &[u8], fields: &Fields, out: &mut [u8]) -> Result<usize, Refusal> {
    let mut answer = [0; raw::WRITE_ANSWER];
    // SAFETY: each pointer goes with the length of the slice that it comes from, and what is altered is borrowed alone.
    let number = unsafe {
        writer(
            pattern.as_ptr(),
            pattern.len(),
            fields.year,
            fields.month,
            fields.day,
            fields.day_of_year,
            fields.week,
            fields.weekday,
            fields.nanoseconds,
            fields.offset,
            out.as_mut_ptr(),
            out.len(),
            answer.as_mut_ptr(),
            answer.len(),
        )
    };
    Refusal::unless_accepted(number, &answer)?;
    Ok(answer[0] as usize)
}
