//! The count of a comparison, with the first differences in full.

use crate::answer::BAD_REQUEST;
use crate::differences::Differences;
use crate::expected::{expected, Expected};
use crate::request::{Op, Request};
use std::fmt;

/// What holds a program's answers, one after the other, and prints how they did.
pub trait Hold: fmt::Display {
    /// Holds the program's answer to a request against the expected one.
    fn hold(&mut self, line: &str, answer: &str);

    fn differences(&mut self) -> &mut Differences;
}

#[derive(Default)]
pub struct Tally {
    by_op: [Row; Op::ALL.len()],
    /// Lines that are no request.
    others: Row,
    differences: Differences,
}

#[derive(Clone, Copy, Default)]
struct Row {
    requests: usize,
    accepted: usize,
    refused: usize,
    limits: usize,
    excepted: usize,
    strict: usize,
    differences: usize,
}

impl Hold for Tally {
    fn hold(&mut self, line: &str, answer: &str) {
        let (row, expected) = match Request::from_line(line) {
            Some(request) => (&mut self.by_op[request.op() as usize], expected(&request)),
            None => (&mut self.others, Expected::Limit(BAD_REQUEST.to_string())),
        };
        row.count(&expected);
        if answer != expected.line() {
            row.differences += 1;
            self.differences.note(&[
                ("request", line),
                ("expected", expected.line()),
                ("answered", answer),
            ]);
        }
    }

    fn differences(&mut self) -> &mut Differences {
        &mut self.differences
    }
}

impl Row {
    fn count(&mut self, expected: &Expected) {
        self.requests += 1;
        match expected {
            Expected::Limit(_) => self.limits += 1,
            Expected::Refused(_) => self.refused += 1,
            Expected::Accepted(_) => self.accepted += 1,
            Expected::Excepted(_) => self.excepted += 1,
            Expected::Strict(_) => self.strict += 1,
        }
    }

    fn plus(self, other: &Row) -> Row {
        Row {
            requests: self.requests + other.requests,
            accepted: self.accepted + other.accepted,
            refused: self.refused + other.refused,
            limits: self.limits + other.limits,
            excepted: self.excepted + other.excepted,
            strict: self.strict + other.strict,
            differences: self.differences + other.differences,
        }
    }

    fn print(&self, name: &str, f: &mut fmt::Formatter<'_>) -> fmt::Result {
        writeln!(
            f,
            "{name:<24}{:>10}{:>10}{:>10}{:>10}{:>10}{:>10}{:>13}",
            self.requests,
            self.accepted,
            self.refused,
            self.limits,
            self.excepted,
            self.strict,
            self.differences
        )
    }
}

impl fmt::Display for Tally {
    fn fmt(&self, f: &mut fmt::Formatter<'_>) -> fmt::Result {
        self.differences.print_first(f)?;
        writeln!(
            f,
            "{:<24}{:>10}{:>10}{:>10}{:>10}{:>10}{:>10}{:>13}",
            "", "requests", "accepted", "refused", "limits", "excepted", "strict", "differences"
        )?;
        for op in Op::ALL {
            self.by_op[op as usize].print(op.name(), f)?;
        }
        self.others.print("no request", f)?;
        let total = self
            .by_op
            .iter()
            .fold(self.others, |sum, row| sum.plus(row));
        total.print("all", f)?;
        self.differences.print_missing(f)
    }
}
