use crate::{raw, Names, Refusal};
use std::sync::OnceLock;
use std::{array, fmt, str};

/// A name book: the words for months and weekdays that are written and read. It is checked when it is made, and then lent to each
/// [`write_by`](crate::write_by()) and [`read_by`](crate::read_by()).
///
/// ```
/// use sheet::{Book, Choices, Names, ParseUnit};
///
/// # fn main() -> Result<(), sheet::Refusal> {
/// let mut names = Book::english().names();
/// names.short_months = ["jan", "feb", "mrt", "apr", "mei", "jun", "jul", "aug", "sep", "okt", "nov", "dec"];
/// let book = Book::from_names(names)?;
///
/// let day = sheet::day_of(sheet::day_number(2025, 3, 12)?);
/// let text = sheet::write_by(Choices::new(), &book, "d MMM", &day.into())?;
/// assert_eq!(text, "12 mrt");
///
/// let reading = sheet::read_by(Choices::new(), &book, "d MMM", &text, 2025)?;
/// assert_eq!(reading.value(ParseUnit::Month), Some(3));
/// # Ok(())
/// # }
/// ```
#[derive(Clone, PartialEq, Eq, Hash)]
pub struct Book {
    row: [u8; raw::BOOK_ROW],
}

impl Book {
    /// Reads the bytes of a book file, of version 1 or 2. Refuses with 20, 21, 22 or 23; 22 stands before 21 where there is no whole
    /// version.
    ///
    /// ```
    /// use sheet::Book;
    ///
    /// # fn main() -> Result<(), sheet::Refusal> {
    /// let mut bytes = Book::english().write();
    /// assert_eq!(Book::read(&bytes)?, *Book::english());
    ///
    /// let refusal = Book::read(&bytes[..100]).unwrap_err();
    /// assert_eq!((refusal.number(), refusal.details()), (22, &[0][..]));
    ///
    /// // Version 2 may have more behind the names, which is passed over.
    /// bytes[4] = 2;
    /// bytes.extend(b"more");
    /// assert_eq!(Book::read(&bytes)?, *Book::english());
    /// # Ok(())
    /// # }
    /// ```
    pub fn read(bytes: impl AsRef<[u8]>) -> Result<Book, Refusal> {
        let bytes = bytes.as_ref();
        let mut row = [0; raw::BOOK_ROW];
        let mut answer = [0; raw::BOOK_ANSWER];
        // SAFETY: each pointer goes with the length of the slice that it comes from, and what is altered is borrowed alone.
        let number = unsafe {
            raw::sheet_book_read(
                bytes.as_ptr(),
                bytes.len(),
                row.as_mut_ptr(),
                row.len(),
                answer.as_mut_ptr(),
                answer.len(),
            )
        };
        Refusal::unless_accepted(number, &answer)?;
        Ok(Book { row })
    }

    /// Makes a book of names: of [seven lists](Names), or of all 64 in book order. Refuses with 23 at the first, in book order, that
    /// breaks a rule by itself or against an earlier one.
    ///
    /// ```
    /// use sheet::Book;
    ///
    /// # fn main() -> Result<(), sheet::Refusal> {
    /// let mut names: [&str; 64] = Book::english().names().into();
    /// assert_eq!(Book::from_names(names)?, *Book::english());
    ///
    /// names[14] = "M\u{e4}r";
    /// let refusal = Book::from_names(names).unwrap_err();
    /// assert_eq!((refusal.number(), refusal.details()), (23, &[15][..]));
    /// assert_eq!(
    ///     refusal.to_string(),
    ///     "the book has a bad name: name 15, the 3rd short month; short months have 2 to 20 ASCII letters, and none begins another"
    /// );
    /// # Ok(())
    /// # }
    /// ```
    pub fn from_names<T: AsRef<[u8]>>(names: impl Into<Names<T>>) -> Result<Book, Refusal> {
        let names: [T; raw::BOOK_ROOMS] = names.into().into();
        let mut row = [0; raw::BOOK_ROW];
        for (room, name) in row.chunks_mut(raw::NAME_ROOM).zip(&names) {
            lay(room, name.as_ref());
        }
        written(&row)?;
        Ok(Book { row })
    }

    /// The book of the names that are used without one, which is made when it is first asked for.
    pub fn english() -> &'static Book {
        static ENGLISH: OnceLock<Book> = OnceLock::new();
        ENGLISH.get_or_init(|| {
            let (bytes, length) = written(&[]).expect("English is a book");
            Book::read(&bytes[..length]).expect("what is written is a book")
        })
    }

    /// Its names, whatever the version was that it came from.
    pub fn names(&self) -> Names<&str> {
        array::from_fn(|number| {
            let room = &self.row[raw::NAME_ROOM * number..];
            let letters = &room[1..1 + usize::from(room[0])];
            str::from_utf8(letters).expect("a name is ASCII")
        })
        .into()
    }

    /// The bytes of a book file with its names, of version 1.
    pub fn write(&self) -> Vec<u8> {
        let (bytes, length) = written(&self.row).expect("it was checked when it was made");
        bytes[..length].to_vec()
    }

    /// The opened book as the functions of [`raw`] are lent it.
    pub fn row(&self) -> &[u8; raw::BOOK_ROW] {
        &self.row
    }
}

impl fmt::Debug for Book {
    fn fmt(&self, f: &mut fmt::Formatter<'_>) -> fmt::Result {
        f.debug_tuple("Book").field(&self.names()).finish()
    }
}

/// A name with its length in front. One that is too long keeps a length that no name has.
fn lay(room: &mut [u8], name: &[u8]) {
    let held = name.len().min(raw::LONGEST_NAME);
    room[0] = u8::try_from(name.len()).unwrap_or(u8::MAX);
    room[1..=held].copy_from_slice(&name[..held]);
}

/// The bytes of a book, and how many there are of them.
fn written(row: &[u8]) -> Result<([u8; raw::LONGEST_BOOK], usize), Refusal> {
    let mut out = [0; raw::LONGEST_BOOK];
    let mut answer = [0; raw::BOOK_ANSWER];
    // SAFETY: each pointer goes with the length of the slice that it comes from, and what is altered is borrowed alone.
    let number = unsafe {
        raw::sheet_book_write(
            row.as_ptr(),
            row.len(),
            out.as_mut_ptr(),
            out.len(),
            answer.as_mut_ptr(),
            answer.len(),
        )
    };
    Refusal::unless_accepted(number, &answer)?;
    Ok((out, answer[0] as usize))
}
