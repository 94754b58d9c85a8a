//! The functions that read, each as Rust calls it and as C does.

use crate::marks::ENTRY;
use crate::pair::Pair;
use sheet::{raw, Book, Choices, Prepared, Reading, Refusal};

/// All that a reader leaves in the row that it was lent.
pub type Row = [i64; raw::READ_ANSWER];

#[derive(Clone, Copy)]
pub enum Reader<'a> {
    /// The one that a pair has.
    Of(Pair),
    /// The one with choices.
    With(Choices),
    /// The one with choices and a book.
    By(Choices, &'a Book),
    /// The one of a pattern that is prepared first.
    Prepared(Choices, Option<&'a Book>),
}

impl Reader<'_> {
    pub fn read(self, pattern: &[u8], text: &[u8], current_year: i32) -> Result<Reading, Refusal> {
        match self {
            Reader::Of(Pair::Full) => sheet::read(pattern, text, current_year),
            Reader::Of(Pair::Date) => sheet::read_date(pattern, text, current_year),
            Reader::With(choices) => sheet::read_with(choices, pattern, text, current_year),
            Reader::By(choices, book) => sheet::read_by(choices, book, pattern, text, current_year),
            Reader::Prepared(choices, None) => Prepared::with(choices, pattern).read_with(choices, text, current_year),
            Reader::Prepared(choices, Some(book)) => {
                Prepared::with(choices, pattern).read_by(choices, book, text, current_year)
            }
        }
    }

    /// The row of the same read, of which the safe function shows only the details where it is refused.
    pub fn row_left(self, pattern: &[u8], text: &[u8], current_year: i32) -> Row {
        let mut row = [ENTRY; raw::READ_ANSWER];
        let (p, p_len, t, t_len) = (pattern.as_ptr(), pattern.len(), text.as_ptr(), text.len());
        let (r, r_len) = (row.as_mut_ptr(), row.len());
        // SAFETY: each pointer goes with the length of the slice that it comes from, and what is altered is borrowed alone.
        unsafe {
            match self {
                Reader::Of(Pair::Full) => raw::sheet_read(p, p_len, t, t_len, current_year, r, r_len),
                Reader::Of(Pair::Date) => raw::sheet_read_date(p, p_len, t, t_len, current_year, r, r_len),
                Reader::With(choices) => {
                    raw::sheet_read_with(choices.number(), p, p_len, t, t_len, current_year, r, r_len)
                }
                Reader::By(choices, book) => {
                    let (number, book) = (choices.number(), book.row());
                    let (b, b_len) = (book.as_ptr(), book.len());
                    raw::sheet_read_by(number, b, b_len, p, p_len, t, t_len, current_year, r, r_len)
                }
                Reader::Prepared(choices, book) => {
                    let (number, book) = (choices.number(), book.map_or(&[][..], |book| book.row()));
                    let prepared = Prepared::with(choices, pattern);
                    let (b, b_len, p, p_len) = (book.as_ptr(), book.len(), prepared.row().as_ptr(), raw::PREPARED_ROW);
                    raw::sheet_prepared_read(number, b, b_len, p, p_len, t, t_len, current_year, r, r_len)
                }
            }
        };
        row
    }
}
