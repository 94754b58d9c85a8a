//! The differences of a comparison, the first ones in full.

use std::fmt;

const SHOWN: usize = 10;

#[derive(Default)]
pub struct Differences {
    count: usize,
    shown: Vec<String>,
    /// Requests that the program gave no answer to.
    unanswered: usize,
    /// Answers that the program gave to no request.
    unasked: usize,
}

impl Differences {
    /// Notes a difference by its lines, each a word and what it introduces.
    pub fn note(&mut self, lines: &[(&str, &str)]) {
        self.count += 1;
        if self.shown.len() < SHOWN {
            let lines = lines
                .iter()
                .map(|(word, rest)| format!("{word:<9}{rest}\n"));
            self.shown.push(lines.collect());
        }
    }

    pub fn note_unanswered(&mut self) {
        self.unanswered += 1;
    }

    pub fn note_unasked(&mut self, answers: usize) {
        self.unasked += answers;
    }

    pub fn are_none(&self) -> bool {
        self.count + self.unanswered + self.unasked == 0
    }

    pub fn print_first(&self, f: &mut fmt::Formatter<'_>) -> fmt::Result {
        for difference in &self.shown {
            writeln!(f, "{difference}")?;
        }
        Ok(())
    }

    pub fn print_missing(&self, f: &mut fmt::Formatter<'_>) -> fmt::Result {
        if self.unanswered + self.unasked > 0 {
            writeln!(
                f,
                "{} requests had no answer, {} answers no request",
                self.unanswered, self.unasked
            )?;
        }
        Ok(())
    }
}
