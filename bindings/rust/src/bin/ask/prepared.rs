//! `prepared` before a write, a read, a check or a list: the same request, by a pattern that is prepared first

use crate::answers::agreed;
use crate::lists::{Lent, List};
use crate::pair::Pair;
use crate::reader::Reader;
use crate::words::Words;
use crate::writer::Writer;
use crate::{checking, lists, reading, writing};
use sheet::{raw, Book, Edition, Prepared};

pub fn answer(mut words: Words) -> Option<String> {
    match words.word()? {
        b"write" => answer_write(Pair::Full, words),
        b"write_date" => answer_write(Pair::Date, words),
        b"read" => answer_read(Pair::Full, words),
        b"read_date" => answer_read(Pair::Date, words),
        b"check" => checking::answered(words, check),
        b"list" => lists::answered(words, read_list),
        _ => None,
    }
}

fn answer_write(pair: Pair, words: Words) -> Option<String> {
    writing::answered(words, |book| Writer::Prepared(pair, book))
}

fn answer_read(pair: Pair, words: Words) -> Option<String> {
    reading::answered(pair, words, |choices, book, answer_of| {
        answer_of(Reader::Prepared(choices, book))
    })
}

/// Whichever pair is prepared, the check is the same.
fn check(edition: Edition, pattern: &[u8], current_year: i32) -> String {
    let [full, date] = [Pair::Full, Pair::Date]
        .map(|pair| checking::checked(Prepared::with(pair.choices(), pattern).check_with(edition, current_year)));
    agreed(full, date)
}

/// What is laid into lent rows; where the function that makes its own gives something else, both answers.
fn read_list(list: &List, book: Option<&Book>) -> String {
    let prepared = Prepared::with(list.choices, &list.pattern);
    let names = book.unwrap_or(Book::english());
    let own = prepared.read_list_by(list.choices, names, &list.text, list.current_year);
    agreed(lent(list, &prepared, book).answer(), list.shown(own))
}

fn lent(list: &List, prepared: &Prepared, book: Option<&Book>) -> Lent {
    let (row, book) = (prepared.row(), book.map_or(&[][..], |book| book.row()));
    let mut lent = Lent::filled(list.rows);
    // SAFETY: each pointer goes with the length of the slice that it comes from, and what is altered is borrowed alone.
    lent.number = unsafe {
        raw::sheet_prepared_read_list(
            list.choices.number(),
            book.as_ptr(),
            book.len(),
            row.as_ptr(),
            row.len(),
            list.text.as_ptr(),
            list.text.len(),
            list.current_year,
            lent.columns.days.as_mut_ptr(),
            lent.columns.days.len(),
            lent.columns.months.as_mut_ptr(),
            lent.columns.months.len(),
            lent.columns.years.as_mut_ptr(),
            lent.columns.years.len(),
            lent.columns.codes.as_mut_ptr(),
            lent.columns.codes.len(),
            lent.answer.as_mut_ptr(),
            lent.answer.len(),
        )
    };
    lent
}

#[cfg(test)]
mod tests {
    use crate::answers::answer;
    use crate::hex;
    use sheet::Book;

    const R: &str = "2025 12 3 337 49 3 25509000120000 19800";

    fn asked(line: &str) -> String {
        answer(line.as_bytes())
    }

    /// `dd HH`, `MMM`, `d/M`, a quote that opens, and their texts.
    #[test]
    fn answers_are_those_without_the_word() {
        let mut names = Book::english().names();
        names.short_months[11] = "Dez";
        let book = hex::encoded(&Book::from_names(names).expect("these are names").write());
        for book in ["".to_string(), " book:-".into(), format!(" book:{book}")] {
            for pattern in ["6464204848", "4d4d4d", "642f4d", "27", "-", "6480"] {
                for pair in ["", "_date"] {
                    for room in [0, 3, 4096] {
                        same(&format!("write{pair} {pattern} {R} {room}{book}"));
                    }
                    for text in ["30332030377878", "446563", "332f3132", "-", "ff"] {
                        for words in ["", " strict", " second", " strict second"] {
                            same(&format!("read{pair} {pattern} {text} 2025{words}{book}"));
                            same(&format!("read{pair} {pattern} {text} 80{words}{book}"));
                        }
                    }
                }
                for words in ["2025", "80", "2025 second", "80 second"] {
                    same(&format!("check {pattern} {words}{book}"));
                }
                for words in ["2", "3", "20000", "3 strict", "3 second", "3 strict second"] {
                    same(&format!("list {pattern} 332f31320a0a4465630a 2025 {words}{book}"));
                }
            }
        }
    }

    #[track_caller]
    fn same(line: &str) {
        let direct = asked(line);
        assert_ne!(direct, "bad request", "{line}");
        assert_eq!(asked(&format!("prepared {line}")), direct, "{line}");
    }

    #[test]
    fn by_the_pair_of_the_request() {
        assert_eq!(asked(&format!("prepared write 6448 {R} 9")), "wrote 2 3337");
        assert_eq!(asked(&format!("prepared write_date 6448 {R} 9")), "wrote 2 3348");
    }

    #[test]
    fn it_stands_before_those_alone_that_have_a_pattern_to_prepare() {
        for line in [
            "prepared",
            "prepared ",
            "prepared  check 64 2025",
            "prepared prepared check 64 2025",
            "Prepared check 64 2025",
            "check prepared 64 2025",
            "check 64 2025 prepared",
            "prepared check 64",
            "prepared check 64 2025 strict",
            "prepared write 64",
            "prepared read 64 33 2025 book:- strict",
            "prepared list 64 33 2025",
            "prepared split 64",
            "prepared parse_offset 5a",
            "prepared mend 64 2025 9",
            "prepared day_of 1",
            "prepared book -",
            "prepared rfc_read 5a",
        ] {
            assert_eq!(asked(line), "bad request", "{line}");
        }
    }
}
