//! From a line to its answer.

use crate::lines::LONGEST;
use crate::pair::Pair;
use crate::words::Words;
use crate::{books, checking, days, lists, mending, prepared, reading, splitting, stamps, writing};
use sheet::Refusal;

const BAD_REQUEST: &str = "bad request";

pub fn answer(line: &[u8]) -> String {
    let request = Some(line).filter(|line| line.len() <= LONGEST);
    request.and_then(answer_to).unwrap_or_else(|| BAD_REQUEST.to_string())
}

/// By the first word; none where the others are not what it asks for.
fn answer_to(line: &[u8]) -> Option<String> {
    let mut words = Words::of(line);
    match words.word()? {
        b"split" => splitting::answer(words),
        b"write" => writing::answer(Pair::Full, words),
        b"write_date" => writing::answer(Pair::Date, words),
        b"read" => reading::answer(Pair::Full, words),
        b"read_date" => reading::answer(Pair::Date, words),
        b"parse_offset" => reading::answer_offset(words),
        b"check" => checking::answer(words),
        b"day_of" => days::answer_day(words),
        b"day_number" => days::answer_number(words),
        b"book" => books::answer(words),
        b"book_write" => books::answer_write(words),
        b"list" => lists::answer(words),
        b"mend" => mending::answer(words),
        b"rfc_read" => stamps::answer_read(words),
        b"rfc_write" => stamps::answer_write(words),
        b"prepared" => prepared::answer(words),
        _ => None,
    }
}

pub fn refused(refusal: &Refusal) -> String {
    numbered(&format!("refused {}", refusal.number()), refusal.details())
}

/// The answer of two functions that do the same; where they do not agree, both answers.
pub fn agreed(one: String, other: String) -> String {
    if one == other {
        one
    } else {
        format!("{one} unlike {other}")
    }
}

/// A line's start, and numbers behind it.
pub fn numbered(start: &str, numbers: &[i64]) -> String {
    let mut line = start.to_string();
    for number in numbers {
        line += &format!(" {number}");
    }
    line
}

#[cfg(test)]
mod tests {
    use super::{agreed, answer, LONGEST};

    #[test]
    fn the_longest_line_is_a_request() {
        let line = |bytes: usize| format!("parse_offset {}", "5a".repeat(bytes));
        let (longest, longer) = (line((LONGEST - 13) / 2), line((LONGEST - 13) / 2 + 1));
        assert!(longest.len() <= LONGEST && LONGEST < longer.len());
        assert!(answer(longest.as_bytes()).starts_with("refused 6 "));
        assert_eq!(answer(longer.as_bytes()), "bad request");
    }

    #[test]
    fn a_line_of_other_words_is_no_request() {
        let lines = [
            "",
            " ",
            "Split 79",
            "split",
            "split 79 79",
            " split 79",
            "split 79 ",
            "read 79 39",
            "check 79",
            "second",
            "split 79 second",
            "parse_offset 5a second",
            "day_of",
            "day_of 1 1",
            "Day_of 1",
            "day_number 1 1",
            "day_number 1 1 1 1",
            "day 1",
            "book",
            "book ",
            "book:-",
            "book - -",
            "Book -",
            "book_write",
            "book_write 0",
            "split 79 book:-",
            "parse_offset 5a book:-",
            "day_of 1 book:-",
            "book - book:-",
            "list",
            "list 64 33 2025",
            "List 64 33 2025 1",
            "list 64 33 2025 1 2",
            "mend",
            "mend 64 2025",
            "Mend 64 2025 9",
            "mend 64 2025 9 9",
            "rfc_read",
            "rfc_read 5a book:-",
            "rfc_write 2025 12 3 0 0 0",
            "rfc_write 2025 12 3 0 0 0 35 strict",
        ];
        for line in lines {
            assert_eq!(answer(line.as_bytes()), "bad request", "{line}");
        }
        assert_eq!(answer(b"split \xff\xff"), "bad request");
        assert_eq!(answer(b"\xffsplit 79"), "bad request");
        assert_eq!(answer(b"split 79\r"), "bad request");
    }

    #[test]
    fn functions_that_do_not_agree_are_shown() {
        let both = |one: &str, other: &str| agreed(one.to_string(), other.to_string());
        assert_eq!(both("refused 8 1 1", "refused 8 1 1"), "refused 8 1 1");
        assert_eq!(
            both("refused 8 1 1", "refused 9 1 1"),
            "refused 8 1 1 unlike refused 9 1 1"
        );
    }
}
