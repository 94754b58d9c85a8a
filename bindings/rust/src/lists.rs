use crate::{raw, Book, Choices, Reading, Refusal};
use std::iter::FusedIterator;
use std::ops::Range;

/// In the place of an opened book: the English names.
pub(crate) const NO_BOOK: &[u8] = &[];

/// What a list was read as, a cell for each of its lines. A line that was refused has zeros beside its code.
#[derive(Clone, Debug, Default, PartialEq, Eq, Hash)]
pub struct Columns {
    /// By line, the day that was read; 0 where none was.
    pub days: Vec<i32>,
    /// By line, the month that was read; 0 where none was.
    pub months: Vec<i32>,
    /// By line, the year that was read; 0 where none was.
    pub years: Vec<i32>,
    /// By line, 0 where it was read, else the number of its refusal.
    pub codes: Vec<u32>,
}

impl Columns {
    /// How many lines the list has.
    pub fn len(&self) -> usize {
        self.codes.len()
    }

    /// Whether the list has no line, which an empty text has.
    pub fn is_empty(&self) -> bool {
        self.codes.is_empty()
    }

    fn of_zeros(lines: usize) -> Columns {
        Columns {
            days: vec![0; lines],
            months: vec![0; lines],
            years: vec![0; lines],
            codes: vec![0; lines],
        }
    }

    fn rows(&mut self) -> Rows<'_> {
        Rows {
            days: &mut self.days,
            months: &mut self.months,
            years: &mut self.years,
            codes: &mut self.codes,
        }
    }
}

/// Rows that are lent for the [columns](Columns) of a list. They need not have the same length.
#[derive(Debug)]
pub struct Rows<'a> {
    pub days: &'a mut [i32],
    pub months: &'a mut [i32],
    pub years: &'a mut [i32],
    pub codes: &'a mut [u32],
}

/// Reads a list: each line of a text by one pattern, by itself, as [`read`](crate::read()) reads a text. A newline ends a line, a
/// last line without one counts, and an empty text has no line. A carriage return is a byte of its line like any other, which is
/// left over behind the last part. Each line may have 2,048 bytes; the text may have any number. Refuses with 1, 2, 3 or 14, the
/// first in this order; a line that is refused has its number among the codes, and spoils no other.
///
/// ```
/// # fn main() -> Result<(), sheet::Refusal> {
/// let columns = sheet::read_list("d/MM", "3/12\nsoon\n14/1\n24/12", 2025)?;
/// assert_eq!(columns.codes, [0, 9, 8, 0]);
/// assert_eq!(columns.days, [3, 0, 0, 24]);
/// assert_eq!(columns.months, [12, 0, 0, 12]);
/// assert_eq!(columns.years, [0; 4]);
/// # Ok(())
/// # }
/// ```
pub fn read_list(pattern: impl AsRef<[u8]>, text: impl AsRef<[u8]>, current_year: i32) -> Result<Columns, Refusal> {
    columns(Choices::new(), NO_BOOK, pattern.as_ref(), text.as_ref(), current_year)
}

/// Reads a list with the names of a [book](Book), and with [choices](Choices): as [`read_list`], each line as
/// [`read_by`](crate::read_by()) reads a text.
///
/// ```
/// use sheet::{read_list_by, Book, Choices};
///
/// # fn main() -> Result<(), sheet::Refusal> {
/// // A list with carriage returns: a strict reading takes them where the pattern ends with one.
/// let (text, strict) = ("3 Dec\r\n4 Dec\r\n", Choices::new().strict());
/// assert_eq!(read_list_by(strict, Book::english(), "d MMM", text, 2025)?.codes, [16, 16]);
/// assert_eq!(read_list_by(strict, Book::english(), "d MMM\r", text, 2025)?.days, [3, 4]);
/// # Ok(())
/// # }
/// ```
pub fn read_list_by(
    choices: Choices,
    book: &Book,
    pattern: impl AsRef<[u8]>,
    text: impl AsRef<[u8]>,
    current_year: i32,
) -> Result<Columns, Refusal> {
    columns(choices, book.row(), pattern.as_ref(), text.as_ref(), current_year)
}

/// Reads a list into lent rows, and answers how many lines it has: so many cells of each row are its [columns](Columns), and those
/// behind them are not altered. Otherwise as [`read_list_by`]. Refuses with 1, 2, 3, 14, and with 24 where a row has fewer cells
/// than the list has lines, the first in this order; then no cell is altered.
///
/// ```
/// use sheet::{read_list_by_into, Book, Choices, Rows};
///
/// # fn main() -> Result<(), sheet::Refusal> {
/// let (mut days, mut months, mut years, mut codes) = ([-1; 3], [-1; 3], [-1; 3], [99; 3]);
/// let mut read = |text: &str| {
///     let rows = Rows { days: &mut days, months: &mut months, years: &mut years, codes: &mut codes };
///     read_list_by_into(Choices::new(), Book::english(), "dd", text, 2025, rows)
/// };
/// let refusal = read("1\n2\n3\n4").unwrap_err();
/// assert_eq!((refusal.number(), refusal.to_string().as_str()), (24, "a row is shorter than the lines"));
/// assert_eq!(read("05\nno"), Ok(2));
/// assert_eq!((days, months, codes), ([5, 0, -1], [0, 0, -1], [0, 9, 99]));
/// # Ok(())
/// # }
/// ```
pub fn read_list_by_into(
    choices: Choices,
    book: &Book,
    pattern: impl AsRef<[u8]>,
    text: impl AsRef<[u8]>,
    current_year: i32,
    rows: Rows<'_>,
) -> Result<usize, Refusal> {
    let (pattern, text) = (pattern.as_ref(), text.as_ref());
    stored(choices, book.row(), pattern, text, current_year, rows)
}

fn columns(choices: Choices, book: &[u8], pattern: &[u8], text: &[u8], current_year: i32) -> Result<Columns, Refusal> {
    columns_of(text, |rows| stored(choices, book, pattern, text, current_year, rows))
}

/// What a reader of a text lays into rows that have just as many cells as there are lines.
pub(crate) fn columns_of(
    text: &[u8],
    read: impl FnOnce(Rows<'_>) -> Result<usize, Refusal>,
) -> Result<Columns, Refusal> {
    let mut columns = Columns::of_zeros(count_lines(text));
    read(columns.rows())?;
    Ok(columns)
}

/// A newline ends a line, and a last one without counts.
fn count_lines(text: &[u8]) -> usize {
    text.split_inclusive(|byte| *byte == b'\n').count()
}

fn stored(
    choices: Choices,
    book: &[u8],
    pattern: &[u8],
    text: &[u8],
    current_year: i32,
    rows: Rows<'_>,
) -> Result<usize, Refusal> {
    let mut answer = [0; raw::LIST_ANSWER];
    // SAFETY: each pointer goes with the length of the slice that it comes from, and what is altered is borrowed alone.
    let number = unsafe {
        raw::sheet_read_list(
            choices.number(),
            book.as_ptr(),
            book.len(),
            pattern.as_ptr(),
            pattern.len(),
            text.as_ptr(),
            text.len(),
            current_year,
            rows.days.as_mut_ptr(),
            rows.days.len(),
            rows.months.as_mut_ptr(),
            rows.months.len(),
            rows.years.as_mut_ptr(),
            rows.years.len(),
            rows.codes.as_mut_ptr(),
            rows.codes.len(),
            answer.as_mut_ptr(),
            answer.len(),
        )
    };
    Refusal::unless_accepted(number, &answer)?;
    Ok(answer[0] as usize)
}

/// A line of a list, with its own answer.
#[derive(Clone, Debug, PartialEq, Eq, Hash)]
pub struct Line<'a> {
    /// Which line it is, counted from 0, as its cells in the [columns](Columns) are.
    pub number: usize,
    /// Where in the text it stands, without its newline.
    pub place: Range<usize>,
    /// Its bytes, without its newline.
    pub text: &'a [u8],
    /// As [`read_by`](crate::read_by()) answers the line; places in it are counted from the start of the line.
    pub answer: Result<Reading, Refusal>,
}

/// The lines of a list with their answers, one after the other; [`lines`] and [`lines_by`] give it. A line is read when it is asked
/// for.
#[derive(Clone, Debug)]
pub struct Lines<'a> {
    choices: Choices,
    book: &'a [u8],
    pattern: &'a [u8],
    current_year: i32,
    text: &'a [u8],
    /// Where the next line starts.
    place: usize,
    /// How many lines were read.
    read: usize,
}

/// The lines of a text, each read by one pattern, by itself, as [`read`](crate::read()) reads a text: [`read_list`] line by line,
/// with the whole answer of each, for an editor that shows a line as it comes. A pattern or a current year that is refused is
/// refused for each line.
///
/// ```
/// use sheet::ParseUnit;
///
/// let (pattern, text) = ("d/MM", "3/12\n4-x\n5/12");
/// let mut lines = sheet::lines(pattern, text, 2025);
///
/// let first = lines.next().expect("there are three");
/// let reading = first.answer.expect("it is read");
/// assert_eq!(reading.value(ParseUnit::Month), Some(12));
/// assert_eq!(&first.text[reading.span(ParseUnit::Month).unwrap()], b"12");
///
/// let second = lines.next().expect("there are three");
/// assert_eq!((second.number, &text[second.place]), (1, "4-x"));
/// let refusal = second.answer.unwrap_err();
/// assert_eq!(sheet::explain(pattern, second.text, &refusal), "`MM` needs two digits, found `x`");
///
/// assert!(lines.next().is_some_and(|line| line.answer.is_ok()) && lines.next().is_none());
/// ```
pub fn lines<'a>(
    pattern: &'a (impl AsRef<[u8]> + ?Sized),
    text: &'a (impl AsRef<[u8]> + ?Sized),
    current_year: i32,
) -> Lines<'a> {
    Lines::of(Choices::new(), NO_BOOK, pattern.as_ref(), text.as_ref(), current_year)
}

/// The lines of a text with the names of a [book](Book), and with [choices](Choices): as [`lines`], each line as
/// [`read_by`](crate::read_by()) reads a text.
pub fn lines_by<'a>(
    choices: Choices,
    book: &'a Book,
    pattern: &'a (impl AsRef<[u8]> + ?Sized),
    text: &'a (impl AsRef<[u8]> + ?Sized),
    current_year: i32,
) -> Lines<'a> {
    Lines::of(choices, book.row(), pattern.as_ref(), text.as_ref(), current_year)
}

impl<'a> Lines<'a> {
    fn of(choices: Choices, book: &'a [u8], pattern: &'a [u8], text: &'a [u8], current_year: i32) -> Lines<'a> {
        Lines {
            choices,
            book,
            pattern,
            current_year,
            text,
            place: 0,
            read: 0,
        }
    }

    /// The text that no line was read of yet.
    pub fn rest(&self) -> &'a [u8] {
        &self.text[self.place..]
    }

    /// What the line reader returns, and leaves in a row, at the place of the next line.
    fn read_at_place(&self) -> (u32, [i64; raw::LINE_ANSWER]) {
        let mut answer = [0; raw::LINE_ANSWER];
        // SAFETY: each pointer goes with the length of the slice that it comes from, and what is altered is borrowed alone.
        let number = unsafe {
            raw::sheet_read_line(
                self.choices.number(),
                self.book.as_ptr(),
                self.book.len(),
                self.pattern.as_ptr(),
                self.pattern.len(),
                self.text.as_ptr(),
                self.text.len(),
                self.place,
                self.current_year,
                answer.as_mut_ptr(),
                answer.len(),
            )
        };
        (number, answer)
    }
}

impl<'a> Iterator for Lines<'a> {
    type Item = Line<'a>;

    fn next(&mut self) -> Option<Line<'a>> {
        let (number, answer) = self.read_at_place();
        if number == raw::NO_LINE {
            return None;
        }
        let [start, end, next, ..] = answer.map(|entry| entry as usize);
        let reading = answer.last_chunk().expect("a reading stands last");
        let line = Line {
            number: self.read,
            place: start..end,
            text: &self.text[start..end],
            answer: Refusal::unless_accepted(number, reading).map(|()| Reading::of_row(reading)),
        };
        self.place = next;
        self.read += 1;
        Some(line)
    }
}

impl FusedIterator for Lines<'_> {}

#[cfg(test)]
mod tests {
    use super::count_lines;

    #[test]
    fn a_last_line_without_a_newline_counts() {
        for (text, lines) in [
            ("", 0),
            ("a", 1),
            ("\n", 1),
            ("a\n", 1),
            ("\n\n", 2),
            ("\na", 2),
            ("a\r\nb\r", 2),
        ] {
            assert_eq!(count_lines(text.as_bytes()), lines, "{text:?}");
        }
    }
}
