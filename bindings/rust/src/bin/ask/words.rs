//! The words of a line, separated by one space.

use crate::hex;
use sheet::{Edition, Fields};
use std::str::{self, FromStr};

/// The words that are left. Each is taken as what a request asks for next, and is none where it is something else.
#[derive(Clone, Copy)]
pub struct Words<'a> {
    rest: Option<&'a [u8]>,
}

impl<'a> Words<'a> {
    pub fn of(line: &'a [u8]) -> Words<'a> {
        Words { rest: Some(line) }
    }

    /// The next word, which is empty between two spaces.
    pub fn word(&mut self) -> Option<&'a [u8]> {
        let mut pieces = self.rest?.splitn(2, |byte| *byte == b' ');
        let word = pieces.next()?;
        self.rest = pieces.next();
        Some(word)
    }

    /// Takes the next word where it is this one.
    pub fn takes(&mut self, word: &[u8]) -> bool {
        let mut behind = *self;
        let is_next = behind.word() == Some(word);
        if is_next {
            *self = behind;
        }
        is_next
    }

    /// The second edition where the next word names it.
    pub fn edition(&mut self) -> Edition {
        if self.takes(b"second") {
            Edition::Second
        } else {
            Edition::First
        }
    }

    /// The bytes of a book where the next word is `book:` and a byte string; any other word is left.
    pub fn book(&mut self) -> Option<Vec<u8>> {
        let mut behind = *self;
        let bytes = hex::decoded(behind.word()?.strip_prefix(b"book:")?)?;
        *self = behind;
        Some(bytes)
    }

    /// No word is left.
    pub fn end(&self) -> Option<()> {
        self.rest.is_none().then_some(())
    }

    pub fn bytes(&mut self) -> Option<Vec<u8>> {
        hex::decoded(self.word()?)
    }

    /// A number that its type holds: digits, behind a `-` where the type has signs.
    pub fn number<T: FromStr>(&mut self) -> Option<T> {
        let word = str::from_utf8(self.word()?).ok()?;
        // Rust's own numbers may have a plus.
        if word.starts_with('+') {
            return None;
        }
        word.parse().ok()
    }

    pub fn fields(&mut self) -> Option<Fields> {
        Some(Fields {
            year: self.number()?,
            month: self.number()?,
            day: self.number()?,
            day_of_year: self.number()?,
            week: self.number()?,
            weekday: self.number()?,
            nanoseconds: self.number()?,
            offset: self.number()?,
        })
    }
}

/// The eight numbers of a record, as they are asked for.
pub fn of_fields(fields: &Fields) -> String {
    format!(
        "{} {} {} {} {} {} {} {}",
        fields.year,
        fields.month,
        fields.day,
        fields.day_of_year,
        fields.week,
        fields.weekday,
        fields.nanoseconds,
        fields.offset
    )
}

#[cfg(test)]
mod tests {
    use super::{of_fields, Words};

    fn signed(word: &str) -> Option<i32> {
        Words::of(word.as_bytes()).number()
    }

    fn unsigned(word: &str) -> Option<u32> {
        Words::of(word.as_bytes()).number()
    }

    #[test]
    fn numbers_are_digits_that_their_type_holds() {
        assert_eq!(signed("-2147483648"), Some(i32::MIN));
        assert_eq!(signed("-2147483649"), None);
        assert_eq!(signed("2147483647"), Some(i32::MAX));
        assert_eq!(signed("2147483648"), None);
        assert_eq!(unsigned("4294967295"), Some(u32::MAX));
        assert_eq!(unsigned("4294967296"), None);
        assert_eq!(unsigned("00000000000000000000000000007"), Some(7));
        for word in ["", "-", "+1", "1.", "0x1", "--1", "1-", "\u{661}"] {
            assert_eq!((signed(word), unsigned(word)), (None, None), "{word}");
        }
    }

    #[test]
    fn a_sign_stands_only_where_there_are_signs() {
        assert_eq!((signed("-0"), unsigned("-0")), (Some(0), None));
        assert_eq!((signed("-1"), unsigned("-1")), (Some(-1), None));
    }

    #[test]
    fn words_are_between_single_spaces() {
        let mut words = Words::of(b"a  b ");
        for word in [&b"a"[..], b"", b"b"] {
            assert_eq!((words.end(), words.word()), (None, Some(word)));
        }
        assert_eq!((words.end(), words.word()), (None, Some(&b""[..])));
        assert_eq!((words.end(), words.word()), (Some(()), None));
    }

    #[test]
    fn a_word_is_taken_where_it_is_next() {
        let mut words = Words::of(b"a b");
        assert!(!words.takes(b"b") && words.takes(b"a") && !words.takes(b"a") && words.takes(b"b"));
        assert_eq!(words.end(), Some(()));
        assert!(!words.takes(b"") && Words::of(b"").takes(b""));
    }

    #[test]
    fn a_book_is_taken_where_its_word_is_next() {
        let mut words = Words::of(b"book:4c4e42 book:-");
        assert_eq!((words.book(), words.book()), (Some(b"LNB".to_vec()), Some(Vec::new())));
        assert_eq!((words.end(), words.book()), (Some(()), None));
        for word in [
            "", "book", "book:", "book:4", "book:4C", "Book:-", "strict", "-", "book: -",
        ] {
            let mut words = Words::of(word.as_bytes());
            assert_eq!((words.book(), words.end()), (None, None), "{word}");
        }
    }

    #[test]
    fn fields_are_spelled_as_they_are_asked_for() {
        let line = "-12 11 3 307 45 2 86399999999999 -19800";
        let fields = Words::of(line.as_bytes()).fields().expect("these are fields");
        assert_eq!((fields.year, fields.day_of_year, fields.offset), (-12, 307, -19_800));
        assert_eq!(of_fields(&fields), line);
    }
}
