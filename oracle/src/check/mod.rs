//! The pattern check, found by trying: records are written with the Rust and read back part by part.

mod carried;
mod records;
mod request;
mod tally;

pub use request::CheckRequest;
pub use tally::CheckTally;

use crate::answer::as_pattern;
use crate::calendar::Fields;
use crate::choices::Edition;
use crate::expected::lone_quote;
use crate::generator::{at_boundaries, in_range, Random, BOUNDARIES};
use crate::gregorian;
use crate::limits::{pattern_limit, year_limit};
use crate::names;
use crate::walk::{Parts, Written};
use std::cell::RefCell;
use std::collections::HashMap;

const RANDOM_RECORDS: usize = 8;

#[derive(Debug, PartialEq, Eq)]
pub enum Verdict {
    Refused(String),
    Yes,
    /// The first part that does not come back for some record, and such a record, of a real day where one was found.
    No(usize, Fields),
}

/// The verdict on a pattern, as far as the records tried can show it, with the names of its book.
pub fn verdict(request: &CheckRequest, random: &mut Random) -> Verdict {
    let book = request.book.as_deref();
    names::by_book(book, || tried(request, random)).unwrap_or_else(Verdict::Refused)
}

fn tried(request: &CheckRequest, random: &mut Random) -> Verdict {
    if let Some(line) = refused(request) {
        return Verdict::Refused(line);
    }
    let trial = Trial::of(request);
    match trial.first_failure(random) {
        Some((part, fields)) => Verdict::No(part, trial.on_a_real_day(part, fields)),
        None => Verdict::Yes,
    }
}

/// Whether the first of these parts does not come back for some record. No year of two digits is among them, so that the current year
/// does not matter; what was found is kept, since most parts come again.
pub fn is_disturbed(edition: Edition, parts: &[u8]) -> bool {
    thread_local! {
        static FOUND: RefCell<HashMap<(bool, Vec<u8>), bool>> = RefCell::default();
    }
    let key = (edition == Edition::Second, parts.to_vec());
    let known = FOUND.with_borrow(|found| found.get(&key).copied());
    known.unwrap_or_else(|| {
        let request = CheckRequest {
            edition,
            pattern: parts.to_vec(),
            now: 2025,
            book: None,
        };
        let disturbed = Trial::of(&request).failing_around(0).is_some();
        FOUND.with_borrow_mut(|found| found.insert(key, disturbed));
        disturbed
    })
}

/// Refusals 1, 2, 3 and 14, in this order.
fn refused(request: &CheckRequest) -> Option<String> {
    pattern_limit(&request.pattern)
        .or_else(|| lone_quote(&request.pattern))
        .or_else(|| year_limit(request.edition, request.now))
}

/// A pattern within the limits, to be tried on records.
struct Trial {
    edition: Edition,
    parts: Parts,
    now: i32,
}

impl Trial {
    fn of(request: &CheckRequest) -> Trial {
        let pattern = as_pattern(&request.pattern).expect("a pattern within the limits is ASCII");
        Trial {
            edition: request.edition,
            parts: Parts::of(pattern),
            now: request.now,
        }
    }

    /// The first part that the record fails at.
    fn first_failing(&self, fields: &Fields) -> Option<usize> {
        self.first_failing_before(self.parts.count(), fields)
    }

    fn first_failing_before(&self, end: usize, fields: &Fields) -> Option<usize> {
        let written = self.written_from(0, fields);
        (0..end).find(|part| {
            let (start, next) = (written.places[*part], written.places[*part + 1]);
            !self.comes_back(*part, &written.text[start..], next - start, fields)
        })
    }

    fn first_failure(&self, random: &mut Random) -> Option<(usize, Fields)> {
        let mut first = None;
        let mut end = self.parts.count();
        for fields in all_at_once(random) {
            if let Some(part) = self.first_failing_before(end, &fields) {
                (first, end) = (Some((part, fields)), part);
            }
        }
        (0..end)
            .find_map(|part| Some((part, self.failing_around(part)?)))
            .or(first)
    }

    fn failing_around(&self, part: usize) -> Option<Fields> {
        records::around(&self.parts, part).find(|fields| {
            let written = self.written_from(part, fields);
            !self.comes_back(part, &written.text, written.places[1], fields)
        })
    }

    /// A record of a real day that fails at the part, for one of any fields that does.
    fn on_a_real_day(&self, part: usize, fields: Fields) -> Fields {
        real_days(&fields)
            .find(|real| self.first_failing(real) == Some(part))
            .unwrap_or(fields)
    }

    fn written_from(&self, part: usize, fields: &Fields) -> Written {
        let written = self.parts.write_from(part, fields);
        written.expect("the Rust writes every allowed record")
    }

    /// Whether the part takes just the bytes that it wrote, and gives what it carries.
    fn comes_back(&self, part: usize, text: &str, length: usize, fields: &Fields) -> bool {
        let carried = self
            .parts
            .run(part)
            .and_then(|(symbol, count)| carried::carried(symbol, count, fields));
        self.parts
            .read_one(self.edition, part, text, self.now)
            .is_ok_and(|read| read.taken == length && read.carried == carried)
    }
}

/// Records in which all fields vary at once: the boundaries, and some at random.
fn all_at_once(random: &mut Random) -> impl Iterator<Item = Fields> + '_ {
    let boundaries = (0..BOUNDARIES).map(at_boundaries);
    boundaries.chain((0..RANDOM_RECORDS).map(|_| in_range(random)))
}

/// The record's time and offset, and some others, on each day of a leap year, of one with seven digits and of one before the first.
fn real_days(fields: &Fields) -> impl Iterator<Item = Fields> {
    const HOUR: u64 = 3_600_000_000_000;
    let clocks = [
        (fields.nanoseconds, fields.offset),
        (3 * HOUR + 247_000_000_000, 8 * 3600),
        (22 * HOUR + 2_339_000_000_000, -9 * 3600),
        (0, 0),
    ];
    [2024, 1_234_567, -12]
        .into_iter()
        .flat_map(gregorian::days_of_year)
        .flat_map(move |day| clocks.map(|(nanoseconds, offset)| day.at(nanoseconds, offset)))
}
