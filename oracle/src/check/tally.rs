//! The count of a comparison of checks, by the expected answer.

use super::request::OTHER_ANSWER;
use super::{verdict, CheckRequest, Verdict};
use crate::answer::BAD_REQUEST;
use crate::choices::Edition;
use crate::differences::Differences;
use crate::generator::Random;
use crate::tally::Hold;
use std::fmt;

const ROWS: [&str; 11] = [
    "yes",
    "no",
    "refused 1",
    "refused 2",
    "refused 3",
    "refused 14",
    "refused 20",
    "refused 21",
    "refused 22",
    "refused 23",
    "no request",
];
const NO_REQUEST: usize = ROWS.len() - 1;

pub struct CheckTally {
    /// Picks the records that are tried beside the listed ones.
    random: Random,
    rows: [Row; ROWS.len()],
    differences: Differences,
}

#[derive(Clone, Copy, Default)]
struct Row {
    requests: usize,
    /// Of them in the second edition.
    second: usize,
    differences: usize,
}

impl CheckTally {
    pub fn new(seed: u64) -> CheckTally {
        CheckTally {
            random: Random::new(seed),
            rows: Default::default(),
            differences: Differences::default(),
        }
    }
}

impl Hold for CheckTally {
    fn hold(&mut self, line: &str, answer: &str) {
        let request = CheckRequest::from_line(line);
        let second = matches!(&request, Some(request) if request.edition == Edition::Second);
        let (row, expected, fault) = match request {
            Some(request) => {
                let verdict = verdict(&request, &mut self.random);
                let fault = request.fault(&verdict, answer);
                (row_of(&verdict), verdict.to_string(), fault)
            }
            None => {
                let fault = (answer != BAD_REQUEST).then(|| OTHER_ANSWER.to_string());
                (NO_REQUEST, BAD_REQUEST.to_string(), fault)
            }
        };
        self.rows[row].requests += 1;
        self.rows[row].second += usize::from(second);
        if let Some(fault) = fault {
            self.rows[row].differences += 1;
            self.differences.note(&[
                ("request", line),
                ("expected", &expected),
                ("answered", answer),
                ("fault", &fault),
            ]);
        }
    }

    fn differences(&mut self) -> &mut Differences {
        &mut self.differences
    }
}

fn row_of(verdict: &Verdict) -> usize {
    let line = verdict.to_string();
    let row = ROWS
        .iter()
        .position(|row| line == *row || line.starts_with(&format!("{row} ")));
    row.expect("each verdict has a row")
}

impl Row {
    fn print(&self, name: &str, f: &mut fmt::Formatter<'_>) -> fmt::Result {
        let Row {
            requests,
            second,
            differences,
        } = self;
        writeln!(f, "{name:<14}{requests:>10}{second:>10}{differences:>13}")
    }
}

impl fmt::Display for CheckTally {
    fn fmt(&self, f: &mut fmt::Formatter<'_>) -> fmt::Result {
        self.differences.print_first(f)?;
        let columns = format!("{:>10}{:>10}{:>13}", "requests", "second", "differences");
        writeln!(f, "{:<14}{columns}", "")?;
        let mut all = Row::default();
        for (name, row) in ROWS.iter().zip(self.rows) {
            row.print(name, f)?;
            all.requests += row.requests;
            all.second += row.second;
            all.differences += row.differences;
        }
        all.print("all", f)?;
        self.differences.print_missing(f)
    }
}
