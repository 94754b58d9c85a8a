//! Requests that are asked twice, without the word `prepared` and with it, and the count of those whose answers differ. What is right
//! is the comparison with the Rust's to say.

use crate::answer::BAD_REQUEST;
use crate::check::CheckRequest;
use crate::choices::{Books, Edition};
use crate::differences::Differences;
use crate::generator::{CheckGenerator, Generator};
use crate::request::{Op, Request};
use crate::tally::Hold;
use std::collections::BTreeMap;
use std::fmt;

const WORD: &str = "prepared ";

/// Writes, reads and lists by all choices, most without a book and some with one, and checks in both editions between them.
pub fn requests(seed: u64) -> impl Iterator<Item = String> {
    let ops = || Op::PREPARED.to_vec();
    let checks = |books| CheckGenerator::with(books, seed, Edition::ALL.to_vec());
    let mut without = Generator::new(seed, ops());
    let mut with = Generator::with(Some(Books::Random), seed, ops());
    let mut checks_without = checks(None);
    let mut checks_with = checks(Some(Books::Random));
    (0..16).cycle().map_while(move |turn| match turn {
        0..=9 => without.next().map(|request| request.to_string()),
        10..=13 => with.next().map(|request| request.to_string()),
        14 => checks_without.next().map(|request| request.to_string()),
        _ => checks_with.next().map(|request| request.to_string()),
    })
}

pub fn both_ways(request: String) -> [String; 2] {
    let prepared = format!("{WORD}{request}");
    [request, prepared]
}

/// The count by op.
#[derive(Default)]
pub struct PreparedTally {
    by_op: BTreeMap<String, Row>,
    /// The answer without the word, which the next one is held to.
    direct: String,
    differences: Differences,
}

#[derive(Clone, Copy, Default)]
struct Row {
    requests: usize,
    accepted: usize,
    refused: usize,
    with_book: usize,
    differences: usize,
}

impl Hold for PreparedTally {
    fn hold(&mut self, line: &str, answer: &str) {
        let Some(request) = line.strip_prefix(WORD) else {
            self.direct = answer.to_string();
            return;
        };
        let row = self.by_op.entry(op_of(request)).or_default();
        let differs = answer != self.direct || answer == BAD_REQUEST;
        row.count(request, &self.direct);
        row.differences += usize::from(differs);
        if differs {
            self.differences.note(&[
                ("request", request),
                ("direct", &self.direct),
                ("prepared", answer),
            ]);
        }
    }

    fn differences(&mut self) -> &mut Differences {
        &mut self.differences
    }
}

/// The name of a request's op; a check has none of the others'.
fn op_of(request: &str) -> String {
    let check = CheckRequest::from_line(request).map(|check| match check.edition {
        Edition::First => "check",
        Edition::Second => "check_second",
    });
    let other = || Request::from_line(request).map(|request| request.op().name());
    check.or_else(other).unwrap_or("no request").to_string()
}

impl Row {
    fn count(&mut self, request: &str, direct: &str) {
        self.requests += 1;
        match direct.starts_with("refused ") {
            true => self.refused += 1,
            false => self.accepted += 1,
        }
        self.with_book += usize::from(request.contains(" book:"));
    }

    fn plus(self, other: &Row) -> Row {
        Row {
            requests: self.requests + other.requests,
            accepted: self.accepted + other.accepted,
            refused: self.refused + other.refused,
            with_book: self.with_book + other.with_book,
            differences: self.differences + other.differences,
        }
    }

    fn print(&self, name: &str, f: &mut fmt::Formatter<'_>) -> fmt::Result {
        writeln!(
            f,
            "{name:<24}{:>10}{:>10}{:>10}{:>13}{:>13}",
            self.requests, self.accepted, self.refused, self.with_book, self.differences
        )
    }
}

impl fmt::Display for PreparedTally {
    fn fmt(&self, f: &mut fmt::Formatter<'_>) -> fmt::Result {
        self.differences.print_first(f)?;
        writeln!(
            f,
            "{:<24}{:>10}{:>10}{:>10}{:>13}{:>13}",
            "both ways", "requests", "accepted", "refused", "with a book", "differences"
        )?;
        for (name, row) in &self.by_op {
            row.print(name, f)?;
        }
        let total = self
            .by_op
            .values()
            .fold(Row::default(), |sum, row| sum.plus(row));
        total.print("all", f)?;
        self.differences.print_missing(f)
    }
}
