use crate::checking::verdict;
use crate::lists::{columns_of, NO_BOOK};
use crate::{raw, Book, Choices, Columns, Edition, Fields, Reading, Refusal, Rows, Verdict};
use std::error::Error;
use std::fmt;

/// Bytes that are enough for what most patterns write.
const USUAL_TEXT: usize = 64;

/// A pattern that is prepared: it is split, and the rule of each of its parts is chosen, once. Then it writes, reads and checks as the
/// functions that take the pattern do, with the same answers, only sooner. It holds 2,072 bytes by value, and no memory besides.
///
/// It is prepared for one pair: with time symbols, or for dates alone. Whether a reading is strict, its edition and its book are
/// chosen at each use.
///
/// ```
/// use sheet::{day_number, day_of, ParseUnit, Prepared};
///
/// # fn main() -> Result<(), sheet::Refusal> {
/// let pattern = Prepared::new("eee dd/MM");
/// let first = day_number(2026, 2, 27)?;
/// let mut texts = Vec::new();
/// for day in first..first + 3 {
///     texts.push(pattern.write(&day_of(day).into())?);
/// }
/// assert_eq!(texts, ["Fri 27/02", "Sat 28/02", "Sun 01/03"]);
/// assert_eq!(pattern.read(&texts[2], 2026)?.value(ParseUnit::Month), Some(3));
/// # Ok(())
/// # }
/// ```
#[derive(Clone, PartialEq, Eq, Hash)]
pub struct Prepared {
    row: [u64; raw::PREPARED_ROW],
}

/// A row that is no prepared pattern: one that was never prepared, or that was damaged.
#[derive(Clone, Copy, Debug, PartialEq, Eq, Hash)]
pub struct NotPrepared;

impl fmt::Display for NotPrepared {
    fn fmt(&self, f: &mut fmt::Formatter<'_>) -> fmt::Result {
        f.write_str(raw::refusal_text(raw::NOT_PREPARED))
    }
}

impl Error for NotPrepared {}

impl Prepared {
    /// Prepares a pattern with time symbols. One that is refused is prepared too: each use of it is refused as the pattern is.
    ///
    /// ```
    /// use sheet::Prepared;
    ///
    /// assert_eq!(Prepared::new("d/MM").refusal(), None);
    ///
    /// let open = Prepared::new("d/MM '");
    /// let refusal = open.refusal().expect("its last quote opens nothing");
    /// assert_eq!((refusal.number(), refusal.details()), (3, &[5][..]));
    /// assert_eq!(open.read("3/12 x", 2025), Err(refusal));
    /// ```
    pub fn new(pattern: impl AsRef<[u8]>) -> Prepared {
        Prepared::with(Choices::new(), pattern)
    }

    /// Prepares a pattern for the pair of the [choices](Choices): where they are for dates, time symbols stand for themselves. The
    /// other choices make no difference here.
    ///
    /// ```
    /// use sheet::{day_of, Choices, Prepared};
    ///
    /// # fn main() -> Result<(), sheet::Refusal> {
    /// let pattern = Prepared::with(Choices::new().date(), "dd.MM. HH");
    /// assert_eq!(pattern.write(&day_of(0).into())?, "01.01. HH");
    /// # Ok(())
    /// # }
    /// ```
    pub fn with(choices: Choices, pattern: impl AsRef<[u8]>) -> Prepared {
        let pattern = pattern.as_ref();
        let (mut row, mut answer) = ([0; raw::PREPARED_ROW], [0; raw::PREPARE_ANSWER]);
        // A refusal is in the row, where each use finds it.
        // SAFETY: each pointer goes with the length of the slice that it comes from, and what is altered is borrowed alone.
        unsafe {
            raw::sheet_prepare(
                choices.number(),
                pattern.as_ptr(),
                pattern.len(),
                row.as_mut_ptr(),
                row.len(),
                answer.as_mut_ptr(),
                answer.len(),
            )
        };
        Prepared { row }
    }

    /// Takes a row that [`Prepared::row`] gave, or C, for the prepared pattern that it is. It is none where it does not begin as one, or
    /// where its check word does not fit its other entries. A row whose check word is right though no one prepared it is answered by
    /// what its entries say, and as safely; of the bytes that it writes those that are no text are replaced in a `String`.
    ///
    /// ```
    /// use sheet::{NotPrepared, Prepared};
    ///
    /// let pattern = Prepared::new("d/MM");
    /// let mut row = *pattern.row();
    /// assert_eq!(Prepared::from_row(row), Ok(pattern));
    /// row[3] ^= 1;
    /// assert_eq!(Prepared::from_row(row), Err(NotPrepared));
    /// assert_eq!(NotPrepared.to_string(), "the row is no prepared pattern");
    /// ```
    pub fn from_row(row: [u64; raw::PREPARED_ROW]) -> Result<Prepared, NotPrepared> {
        let prepared = Prepared { row };
        match prepared.checked(Edition::First, ANY_YEAR) {
            (raw::NOT_PREPARED, _) => Err(NotPrepared),
            _ => Ok(prepared),
        }
    }

    /// The row as the functions of [`raw`] are lent it.
    pub fn row(&self) -> &[u64; raw::PREPARED_ROW] {
        &self.row
    }

    /// The refusal of the pattern, 1, 2 or 3, which each use gives.
    pub fn refusal(&self) -> Option<Refusal> {
        self.check(ANY_YEAR).err()
    }

    /// Writes a record: as [`write()`](crate::write()) by the pattern, or for dates as [`write_date`](crate::write_date).
    pub fn write(&self, fields: &Fields) -> Result<String, Refusal> {
        self.text(|out| self.write_into(fields, out))
    }

    /// Writes a record into lent bytes: as [`write_into`](crate::write_into) by the pattern.
    ///
    /// ```
    /// use sheet::{day_of, Prepared};
    ///
    /// # fn main() -> Result<(), sheet::Refusal> {
    /// let (pattern, day) = (Prepared::new("yyyy/MM/dd"), day_of(739_588).into());
    /// let mut out = *b"............";
    /// assert_eq!((pattern.write_into(&day, &mut out)?, &out), (10, b"2025/12/04.."));
    ///
    /// let refusal = pattern.write_into(&day, &mut out[..4]).unwrap_err();
    /// assert_eq!((refusal.number(), refusal.details()), (5, &[10][..]));
    /// # Ok(())
    /// # }
    /// ```
    pub fn write_into(&self, fields: &Fields, out: &mut [u8]) -> Result<usize, Refusal> {
        self.written(NO_BOOK, fields, out)
    }

    /// Writes a record with the names of a [book](Book): as [`write_by`](crate::write_by()) by the pattern.
    pub fn write_by(&self, book: &Book, fields: &Fields) -> Result<String, Refusal> {
        self.text(|out| self.write_by_into(book, fields, out))
    }

    /// Writes a record with the names of a [book](Book) into lent bytes: as [`write_by_into`](crate::write_by_into) by the pattern.
    pub fn write_by_into(&self, book: &Book, fields: &Fields, out: &mut [u8]) -> Result<usize, Refusal> {
        self.written(book.row(), fields, out)
    }

    /// Reads a text: as [`read`](crate::read()) by the pattern, or for dates as [`read_date`](crate::read_date).
    pub fn read(&self, text: impl AsRef<[u8]>, current_year: i32) -> Result<Reading, Refusal> {
        self.read_with(Choices::new(), text, current_year)
    }

    /// Reads a text with [choices](Choices): as [`read_with`](crate::read_with()) by the pattern. The pair is the one that it was prepared
    /// for, whatever is chosen.
    ///
    /// ```
    /// use sheet::{Choices, Edition, ParseUnit, Prepared};
    ///
    /// # fn main() -> Result<(), sheet::Refusal> {
    /// let pattern = Prepared::new("d/M");
    /// let second = Choices::new().edition(Edition::Second);
    /// assert_eq!(pattern.read("3/12", 2025)?.value(ParseUnit::Month), Some(1));
    /// assert_eq!(pattern.read_with(second, "3/12", 2025)?.value(ParseUnit::Month), Some(12));
    /// assert_eq!(pattern.read_with(second.strict(), "3-12", 2025).unwrap_err().number(), 15);
    /// # Ok(())
    /// # }
    /// ```
    pub fn read_with(&self, choices: Choices, text: impl AsRef<[u8]>, current_year: i32) -> Result<Reading, Refusal> {
        self.reading(choices, NO_BOOK, text.as_ref(), current_year)
    }

    /// Reads a text with the names of a [book](Book), and with [choices](Choices): as [`read_by`](crate::read_by()) by the pattern, but for
    /// the pair, which is the one that it was prepared for.
    pub fn read_by(
        &self,
        choices: Choices,
        book: &Book,
        text: impl AsRef<[u8]>,
        current_year: i32,
    ) -> Result<Reading, Refusal> {
        self.reading(choices, book.row(), text.as_ref(), current_year)
    }

    /// Says whether the pattern can be trusted: as [`check`](crate::check()) of it. The check is of the pair with time symbols, whichever
    /// was prepared.
    ///
    /// ```
    /// use sheet::{check, Prepared, Verdict};
    ///
    /// # fn main() -> Result<(), sheet::Refusal> {
    /// assert_eq!(Prepared::new("d/MM").check(2025)?, Verdict::Yes);
    /// assert_eq!(Prepared::new("d/M").check(2025)?, check("d/M", 2025)?);
    /// # Ok(())
    /// # }
    /// ```
    pub fn check(&self, current_year: i32) -> Result<Verdict, Refusal> {
        self.check_with(Edition::First, current_year)
    }

    /// Says the same where it is read in an [edition](Edition): as [`check_with`](crate::check_with()) of the pattern.
    pub fn check_with(&self, edition: Edition, current_year: i32) -> Result<Verdict, Refusal> {
        let (number, answer) = self.checked(edition, current_year);
        verdict(number, answer)
    }

    /// Reads a list: as [`read_list`](crate::read_list()) by the pattern, but for the pair, which is the one that it was prepared for.
    ///
    /// ```
    /// # fn main() -> Result<(), sheet::Refusal> {
    /// let columns = sheet::Prepared::new("d/MM").read_list("3/12\nsoon\n24/12", 2025)?;
    /// assert_eq!((columns.codes, columns.days), (vec![0, 9, 0], vec![3, 0, 24]));
    /// # Ok(())
    /// # }
    /// ```
    pub fn read_list(&self, text: impl AsRef<[u8]>, current_year: i32) -> Result<Columns, Refusal> {
        let text = text.as_ref();
        columns_of(text, |rows| {
            self.stored(Choices::new(), NO_BOOK, text, current_year, rows)
        })
    }

    /// Reads a list with the names of a [book](Book), and with [choices](Choices): as [`Prepared::read_list`], each line as
    /// [`Prepared::read_by`] reads a text.
    pub fn read_list_by(
        &self,
        choices: Choices,
        book: &Book,
        text: impl AsRef<[u8]>,
        current_year: i32,
    ) -> Result<Columns, Refusal> {
        let text = text.as_ref();
        columns_of(text, |rows| self.stored(choices, book.row(), text, current_year, rows))
    }

    /// Reads a list into lent rows: as [`read_list_by_into`](crate::read_list_by_into) by the pattern, each line as [`Prepared::read_by`]
    /// reads a text.
    pub fn read_list_by_into(
        &self,
        choices: Choices,
        book: &Book,
        text: impl AsRef<[u8]>,
        current_year: i32,
        rows: Rows<'_>,
    ) -> Result<usize, Refusal> {
        self.stored(choices, book.row(), text.as_ref(), current_year, rows)
    }
}

/// What is asked of the row alone is the same in every current year that both editions take.
const ANY_YEAR: i32 = 2025;

impl Prepared {
    /// What a writer lays into an output: a usual one, or where that is too short one that has just the room.
    fn text(&self, write: impl Fn(&mut [u8]) -> Result<usize, Refusal>) -> Result<String, Refusal> {
        let mut out = vec![0; USUAL_TEXT];
        let length = match write(&mut out) {
            Err(refusal) if refusal.number() == raw::NO_ROOM => {
                out.resize(refusal.details()[0] as usize, 0);
                write(&mut out)
            }
            wrote => wrote,
        }?;
        out.truncate(length);
        // A row that no one prepared may write any byte.
        Ok(String::from_utf8(out).unwrap_or_else(|wrong| String::from_utf8_lossy(wrong.as_bytes()).into_owned()))
    }

    fn written(&self, book: &[u8], fields: &Fields, out: &mut [u8]) -> Result<usize, Refusal> {
        let mut answer = [0; raw::WRITE_ANSWER];
        // SAFETY: each pointer goes with the length of the slice that it comes from, and what is altered is borrowed alone.
        let number = unsafe {
            raw::sheet_prepared_write(
                book.as_ptr(),
                book.len(),
                self.row.as_ptr(),
                self.row.len(),
                fields.year,
                fields.month,
                fields.day,
                fields.day_of_year,
                fields.week,
                fields.weekday,
                fields.nanoseconds,
                fields.offset,
                out.as_mut_ptr(),
                out.len(),
                answer.as_mut_ptr(),
                answer.len(),
            )
        };
        Refusal::unless_accepted(number, &answer)?;
        Ok(answer[0] as usize)
    }

    fn reading(&self, choices: Choices, book: &[u8], text: &[u8], current_year: i32) -> Result<Reading, Refusal> {
        let mut answer = [0; raw::READ_ANSWER];
        // SAFETY: each pointer goes with the length of the slice that it comes from, and what is altered is borrowed alone.
        let number = unsafe {
            raw::sheet_prepared_read(
                choices.number(),
                book.as_ptr(),
                book.len(),
                self.row.as_ptr(),
                self.row.len(),
                text.as_ptr(),
                text.len(),
                current_year,
                answer.as_mut_ptr(),
                answer.len(),
            )
        };
        Refusal::unless_accepted(number, &answer)?;
        Ok(Reading::of_row(&answer))
    }

    fn checked(&self, edition: Edition, current_year: i32) -> (u32, [i64; raw::CHECK_ANSWER]) {
        let mut answer = [0; raw::CHECK_ANSWER];
        // SAFETY: each pointer goes with the length of the slice that it comes from, and what is altered is borrowed alone.
        let number = unsafe {
            raw::sheet_prepared_check(
                edition.number(),
                self.row.as_ptr(),
                self.row.len(),
                current_year,
                answer.as_mut_ptr(),
                answer.len(),
            )
        };
        (number, answer)
    }

    fn stored(
        &self,
        choices: Choices,
        book: &[u8],
        text: &[u8],
        current_year: i32,
        rows: Rows<'_>,
    ) -> Result<usize, Refusal> {
        let mut answer = [0; raw::LIST_ANSWER];
        // SAFETY: each pointer goes with the length of the slice that it comes from, and what is altered is borrowed alone.
        let number = unsafe {
            raw::sheet_prepared_read_list(
                choices.number(),
                book.as_ptr(),
                book.len(),
                self.row.as_ptr(),
                self.row.len(),
                text.as_ptr(),
                text.len(),
                current_year,
                rows.days.as_mut_ptr(),
                rows.days.len(),
                rows.months.as_mut_ptr(),
                rows.months.len(),
                rows.years.as_mut_ptr(),
                rows.years.len(),
                rows.codes.as_mut_ptr(),
                rows.codes.len(),
                answer.as_mut_ptr(),
                answer.len(),
            )
        };
        Refusal::unless_accepted(number, &answer)?;
        Ok(answer[0] as usize)
    }
}

impl fmt::Debug for Prepared {
    fn fmt(&self, f: &mut fmt::Formatter<'_>) -> fmt::Result {
        f.debug_struct("Prepared")
            .field("refusal", &self.refusal())
            .finish_non_exhaustive()
    }
}
