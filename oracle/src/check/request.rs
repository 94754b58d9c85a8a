//! The request `check P NOW`, also with the words `second` and `book:B`, and its answers.

use super::{Trial, Verdict};
use crate::calendar::Fields;
use crate::choices::Edition;
use crate::gregorian;
use crate::limits::field_limit;
use crate::names;
use crate::request::{
    book, book_word, bytes, edition, edition_word, field_words, fields, hex, number,
};
use std::fmt;

pub(super) const OTHER_ANSWER: &str = "another answer";

#[derive(Clone, Debug, PartialEq, Eq)]
pub struct CheckRequest {
    pub edition: Edition,
    pub pattern: Vec<u8>,
    pub now: i32,
    pub book: Option<Vec<u8>>,
}

impl CheckRequest {
    /// None where the line is no such request.
    pub fn from_line(line: &str) -> Option<CheckRequest> {
        let mut words = line.strip_prefix("check ")?.split(' ').peekable();
        let request = CheckRequest {
            pattern: bytes(&mut words)?,
            now: number(&mut words)?,
            edition: edition(&mut words),
            book: book(&mut words)?,
        };
        words.next().is_none().then_some(request)
    }

    /// What is wrong with a program's answer, where the verdict is the given one.
    pub fn fault(&self, verdict: &Verdict, answer: &str) -> Option<String> {
        match (verdict, no(answer)) {
            (Verdict::Refused(_), _) | (_, None) => {
                (answer != verdict.to_string()).then(|| OTHER_ANSWER.to_string())
            }
            (_, Some((part, fields))) => self.fault_of_no(verdict, part, &fields),
        }
    }

    /// The record shown must be allowed and of a real day, and the part shown the first that it fails at and the first at all.
    fn fault_of_no(&self, verdict: &Verdict, part: usize, fields: &Fields) -> Option<String> {
        if let Some(limit) = field_limit(fields) {
            return Some(format!("the record is {limit}"));
        }
        if !gregorian::is_real(fields) {
            return Some("the record is of no real day".to_string());
        }
        let failing = || Trial::of(self).first_failing(fields);
        let failing = names::by_book(self.book.as_deref(), failing);
        match (failing.expect("the book is not refused"), verdict) {
            (None, _) => Some("the record comes back".to_string()),
            (Some(at), _) if at != part => Some(format!("the record fails at part {at}")),
            (_, Verdict::No(first, _)) if *first == part => None,
            (_, Verdict::No(first, _)) if *first < part => {
                Some("an earlier part fails".to_string())
            }
            _ => {
                Some("the record does fail there, and the comparer tried none like it".to_string())
            }
        }
    }
}

/// The part and the record of an answer `no PART FIELDS`, if it is spelled as such.
fn no(answer: &str) -> Option<(usize, Fields)> {
    let mut words = answer.strip_prefix("no ")?.split(' ');
    let (part, fields) = (number(&mut words)?, fields(&mut words)?);
    (Verdict::No(part, fields).to_string() == answer).then_some((part, fields))
}

impl fmt::Display for CheckRequest {
    fn fmt(&self, f: &mut fmt::Formatter<'_>) -> fmt::Result {
        let (edition, book) = (edition_word(self.edition), book_word(&self.book));
        write!(
            f,
            "check {} {}{edition}{book}",
            hex(&self.pattern),
            self.now
        )
    }
}

impl fmt::Display for Verdict {
    fn fmt(&self, f: &mut fmt::Formatter<'_>) -> fmt::Result {
        match self {
            Verdict::Refused(line) => f.write_str(line),
            Verdict::Yes => f.write_str("yes"),
            Verdict::No(part, fields) => write!(f, "no {part} {}", field_words(fields)),
        }
    }
}
