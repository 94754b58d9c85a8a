//! `check P NOW`, also with the words `second` and `book:B`

use crate::answers::{agreed, refused};
use crate::books::with_book;
use crate::words::{of_fields, Words};
use sheet::{Edition, Refusal, Verdict};

pub fn answer(words: Words) -> Option<String> {
    answered(words, |edition, pattern, current_year| {
        let answer = checked(sheet::check_with(edition, pattern, current_year));
        match edition {
            Edition::First => agreed(checked(sheet::check(pattern, current_year)), answer),
            Edition::Second => answer,
        }
    })
}

/// By the check that is given.
pub fn answered(mut words: Words, check: impl FnOnce(Edition, &[u8], i32) -> String) -> Option<String> {
    let pattern = words.bytes()?;
    let current_year = words.number()?;
    let edition = words.edition();
    let book = words.book();
    words.end()?;
    // The answer is the same with every book, so that the check is given none.
    Some(with_book(book, |_| check(edition, &pattern, current_year)))
}

pub fn checked(verdict: Result<Verdict, Refusal>) -> String {
    match verdict {
        Ok(Verdict::Yes) => "yes".to_string(),
        Ok(Verdict::No { part, record }) => format!("no {part} {}", of_fields(&record)),
        Err(refusal) => refused(&refusal),
    }
}

#[cfg(test)]
mod tests {
    use super::answer;
    use crate::hex;
    use crate::words::Words;
    use sheet::Book;

    fn asked(words: &str) -> Option<String> {
        answer(Words::of(words.as_bytes()))
    }

    /// `d/M`, `Md` and `yy`.
    #[test]
    fn by_the_word_for_the_edition() {
        let answer = |words: &str| asked(words).expect("a request");
        assert!(answer("642f4d 2025").starts_with("no 2 2024 11 23 "));
        assert_eq!(answer("642f4d 2025 second"), "yes");
        assert!(answer("4d64 2025").starts_with("no 0 2024 11 23 "));
        assert!(answer("4d64 2025 second").starts_with("no 0 2024 2 5 "));
        for word in ["", " second"] {
            assert!(answer(&format!("7979 2025{word}")).starts_with("no 0 1000001 11 23 "));
        }
        assert_eq!((answer("64 80"), answer("64 81 second")), ("yes".into(), "yes".into()));
        assert_eq!(answer("64 80 second"), "refused 14 80");
    }

    #[test]
    fn by_the_word_for_a_book() {
        let book = hex::encoded(&Book::english().write());
        for words in [
            "642f4d 2025",
            "642f4d 2025 second",
            "4d4d4d 2025",
            "64 80 second",
            "27 2025",
        ] {
            assert_eq!(asked(&format!("{words} book:{book}")), asked(words), "{words}");
            assert_eq!(
                asked(&format!("{words} book:-")).as_deref(),
                Some("refused 20 0"),
                "{words}"
            );
        }
    }

    #[test]
    fn it_takes_no_other_word() {
        for words in [
            "64 2025 strict",
            "64 2025 strict second",
            "64 2025 second strict",
            "64 2025 second second",
            "64 2025 second ",
            "64 2025 Second",
            "64 second",
            "64 second 2025",
            "64 2025 book:- second",
            "64 2025 strict book:-",
            "64 2025 book",
            "64 book:- 2025",
        ] {
            assert_eq!(asked(words), None, "{words}");
        }
    }
}
