//! The functions that write, each as Rust calls it.

use crate::pair::Pair;
use sheet::{Book, Fields, Prepared, Refusal};

#[derive(Clone, Copy)]
pub enum Writer<'a> {
    /// Those that a pair has.
    Of(Pair),
    /// Those with a book.
    By(Pair, &'a Book),
    /// Those of a pattern that is prepared first.
    Prepared(Pair, Option<&'a Book>),
}

impl Writer<'_> {
    pub fn write(self, pattern: &[u8], fields: &Fields) -> Result<String, Refusal> {
        match self {
            Writer::Of(Pair::Full) => sheet::write(pattern, fields),
            Writer::Of(Pair::Date) => sheet::write_date(pattern, fields),
            Writer::By(pair, book) => sheet::write_by(pair.choices(), book, pattern, fields),
            Writer::Prepared(pair, None) => Prepared::with(pair.choices(), pattern).write(fields),
            Writer::Prepared(pair, Some(book)) => Prepared::with(pair.choices(), pattern).write_by(book, fields),
        }
    }

    pub fn write_into(self, pattern: &[u8], fields: &Fields, out: &mut [u8]) -> Result<usize, Refusal> {
        match self {
            Writer::Of(Pair::Full) => sheet::write_into(pattern, fields, out),
            Writer::Of(Pair::Date) => sheet::write_date_into(pattern, fields, out),
            Writer::By(pair, book) => sheet::write_by_into(pair.choices(), book, pattern, fields, out),
            Writer::Prepared(pair, None) => Prepared::with(pair.choices(), pattern).write_into(fields, out),
            Writer::Prepared(pair, Some(book)) => {
                Prepared::with(pair.choices(), pattern).write_by_into(book, fields, out)
            }
        }
    }
}
