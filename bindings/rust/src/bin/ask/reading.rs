//! `read P T NOW`, `read_date P T NOW`, both with the words `strict`, `second` and `book:B`, and `parse_offset T`

use crate::answers::{agreed, numbered, refused};
use crate::books::with_book;
use crate::pair::Pair;
use crate::reader::{Reader, Row};
use crate::words::Words;
use sheet::{Book, Choices, Reading, Refusal};

pub fn answer(pair: Pair, words: Words) -> Option<String> {
    answered(pair, words, |choices, book, answer_of| match book {
        Some(book) => answer_of(Reader::By(choices, book)),
        None if choices == pair.choices() => agreed(answer_of(Reader::Of(pair)), answer_of(Reader::With(choices))),
        None => answer_of(Reader::With(choices)),
    })
}

/// By the readers that are chosen for the choices and the book, or for none.
pub fn answered(
    pair: Pair,
    mut words: Words,
    by: impl FnOnce(Choices, Option<&Book>, &dyn Fn(Reader) -> String) -> String,
) -> Option<String> {
    let pattern = words.bytes()?;
    let text = words.bytes()?;
    let current_year = words.number()?;
    let choices = choices(pair, &mut words);
    let book = words.book();
    words.end()?;
    let answer_of = |reader: Reader| answer_by(reader, &pattern, &text, current_year);
    Some(with_book(book, |book| by(choices, book, &answer_of)))
}

/// By the words that may stand behind a read, in this order.
pub fn choices(pair: Pair, words: &mut Words) -> Choices {
    let mut choices = pair.choices();
    if words.takes(b"strict") {
        choices = choices.strict();
    }
    choices.edition(words.edition())
}

pub fn answer_offset(mut words: Words) -> Option<String> {
    let text = words.bytes()?;
    words.end()?;
    Some(match sheet::parse_offset(&text) {
        Ok(seconds) => format!("offset {seconds}"),
        Err(refusal) => refused(&refusal),
    })
}

fn answer_by(reader: Reader, pattern: &[u8], text: &[u8], current_year: i32) -> String {
    match reader.read(pattern, text, current_year) {
        Ok(reading) => read(&reading),
        Err(refusal) => refused_read(&refusal, &reader.row_left(pattern, text, current_year)),
    }
}

fn read(reading: &Reading) -> String {
    let counts = format!("read {} {} {}", reading.taken, reading.mask, reading.units);
    let mut line = numbered(&counts, &reading.values);
    for (start, end) in reading.starts.iter().zip(reading.ends) {
        line += &format!(" {start}:{end}");
    }
    line
}

/// A refused read gives only the refusal: where the record behind the details is not zeros alone, that is the answer.
fn refused_read(refusal: &Refusal, row: &Row) -> String {
    match row.strip_prefix(refusal.details()) {
        Some(rest) if rest.iter().all(|entry| *entry == 0) => refused(refusal),
        _ => numbered("read", row),
    }
}

#[cfg(test)]
mod tests {
    use super::{answer, refused_read};
    use crate::hex;
    use crate::pair::Pair;
    use crate::reader::Reader;
    use crate::words::Words;
    use sheet::Book;

    #[test]
    fn a_refused_read_that_gives_anything_else_is_shown() {
        for pair in [Pair::Full, Pair::Date] {
            let (choices, book) = (pair.choices(), Book::english());
            for reader in [
                Reader::Of(pair),
                Reader::With(choices),
                Reader::With(choices.strict()),
                Reader::By(choices, book),
                Reader::By(choices.strict(), book),
            ] {
                let refusal = reader.read(b"'a'dd", b"a3", 2025).unwrap_err();
                let row = reader.row_left(b"'a'dd", b"a3", 2025);
                assert_eq!(refused_read(&refusal, &row), "refused 8 1 1");
                for place in 0..row.len() {
                    let mut other = row;
                    other[place] = 7;
                    assert!(refused_read(&refusal, &other).starts_with("read "));
                }
            }
        }
    }

    #[test]
    fn behind_one_detail_too() {
        let reader = Reader::Of(Pair::Full);
        let refusal = reader.read(b"d'", b"3", 2025).unwrap_err();
        let mut row = reader.row_left(b"d'", b"3", 2025);
        assert_eq!(refused_read(&refusal, &row), "refused 3 1");
        row[1] = 4;
        let shown = format!("read 1 4{}", " 0".repeat(46));
        assert_eq!(refused_read(&refusal, &row), shown);
    }

    /// `d/` on `3-`, and `d/H` on `3/7`.
    #[test]
    fn by_the_pair_and_the_word_for_a_strict_one() {
        let answer = |pair, words: &str| answer(pair, Words::of(words.as_bytes())).expect("a request");
        for pair in [Pair::Full, Pair::Date] {
            assert!(answer(pair, "642f 332d 2025").starts_with("read 2 4 1 "));
            assert_eq!(answer(pair, "642f 332d 2025 strict"), "refused 15 1 1");
        }
        assert!(answer(Pair::Full, "642f48 332f37 2025 strict").starts_with("read 3 20 2 "));
        assert_eq!(answer(Pair::Date, "642f48 332f37 2025 strict"), "refused 15 2 2");
    }

    /// `M` on `12`, and `yy` on `45`.
    #[test]
    fn by_the_word_for_the_edition() {
        let answer = |pair, words: &str| answer(pair, Words::of(words.as_bytes())).expect("a request");
        for pair in [Pair::Full, Pair::Date] {
            assert!(answer(pair, "4d 3132 2025").starts_with("read 1 2 1 0 1 "));
            assert_eq!(answer(pair, "4d 3132 2025 strict"), "refused 16 1");
            assert!(answer(pair, "7979 3435 2025").starts_with("read 2 1 1 2045 "));
            for word in ["", " strict"] {
                assert!(answer(pair, &format!("4d 3132 2025{word} second")).starts_with("read 2 2 1 0 12 "));
                assert!(answer(pair, &format!("7979 3435 2025{word} second")).starts_with("read 2 1 1 1945 "));
                assert_eq!(answer(pair, &format!("- - 80{word} second")), "refused 14 80");
            }
        }
    }

    /// `MMM` on `May` and on `Mai`, by English and by a book that has the latter.
    #[test]
    fn by_the_word_for_a_book() {
        let answer = |pair, words: &str| answer(pair, Words::of(words.as_bytes())).expect("a request");
        let mut names = Book::english().names();
        names.short_months[4] = "Mai";
        let other = Book::from_names(names).expect("these are names");
        let [english, other] = [Book::english(), &other].map(|book| hex::encoded(&book.write()));
        for pair in [Pair::Full, Pair::Date] {
            for word in ["", " strict", " second", " strict second"] {
                let read = |text: &str, book: &str| answer(pair, &format!("4d4d4d {text} 2025{word} book:{book}"));
                assert!(read("4d6179", &english).starts_with("read 3 2 1 0 5 "));
                assert!(read("4d6169", &other).starts_with("read 3 2 1 0 5 "));
                assert_eq!(read("4d6169", &english), "refused 10 0 0");
                assert_eq!(read("4d6179", &other), "refused 10 0 0");
                assert_eq!(read("4d6179", &other[2..]), "refused 20 0");
                assert_eq!(read("4d6179", "-"), "refused 20 0");
            }
        }
        // The book is looked at first.
        assert_eq!(answer(Pair::Full, "27 33 2025 book:4c4e42"), "refused 22 0");
        assert_eq!(answer(Pair::Full, &format!("27 33 2025 book:{other}")), "refused 3 0");
    }

    /// `d d` on `3 14`, and `y` on `-5`.
    #[test]
    fn spans_stand_behind_the_values() {
        let answer = |pair, words: &str| answer(pair, Words::of(words.as_bytes())).expect("a request");
        let day = format!("read 4 4 1 0 0 14{} 0:0 0:0 2:4{}", " 0".repeat(12), " 0:0".repeat(12));
        let year = format!("read 2 1 1 -5{} 0:2{}", " 0".repeat(14), " 0:0".repeat(14));
        for pair in [Pair::Full, Pair::Date] {
            for word in ["", " strict", " second", " strict second"] {
                assert_eq!(answer(pair, &format!("642064 33203134 2025{word}")), day);
                assert_eq!(answer(pair, &format!("79 2d35 2025{word}")), year);
            }
        }
    }

    #[test]
    fn each_word_stands_once_in_its_order_and_last() {
        for words in [
            "64 33 2025 Strict",
            "64 33 2025 strict strict",
            "64 33 2025 strict ",
            "64 33 2025  strict",
            "64 33 strict 2025",
            "64 33 strict",
            "64 33 2025 stric",
            "64 33 2025 strict2",
            "64 33 2025 Second",
            "64 33 2025 second second",
            "64 33 2025 second strict",
            "64 33 2025 strict  second",
            "64 33 2025 strict second ",
            "64 33 2025 strict second strict",
            "64 33 second",
            "64 33 2025 first",
            "64 33 2025 book",
            "64 33 2025 book:",
            "64 33 2025 book:4",
            "64 33 2025 book:- book:-",
            "64 33 2025 book:- strict",
            "64 33 2025 strict book:- second",
            "64 33 2025 book: -",
            "64 33 2025 book:- ",
            "64 33 book:-",
        ] {
            assert!(answer(Pair::Full, Words::of(words.as_bytes())).is_none(), "{words}");
        }
    }
}
