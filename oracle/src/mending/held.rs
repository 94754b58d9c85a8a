//! What has to hold of every mended pattern, whatever it is, found by asking a program: it passes its own check; it is undone to
//! what it was; one that passes already has no change; and no change is needless.

use super::Mended;
use crate::check::CheckRequest;
use crate::differences::Differences;
use crate::request::{Request, MOST_ROOM};
use std::fmt;

/// Asks a program, one request a line, for as many answers.
pub trait Ask {
    fn answers(&mut self, requests: Vec<String>) -> std::io::Result<Vec<String>>;
}

#[derive(Default)]
pub struct MendingTally {
    asked: usize,
    mended: usize,
    unchanged: usize,
    refused: usize,
    changes: usize,
    differences: Differences,
    faults: usize,
}

/// How the check says no; any record may follow.
const NO: &str = "no ";

/// A pattern that was mended, with what is asked of it next, and what each answer has to be.
struct Held {
    request: String,
    answer: String,
    asked: Vec<(String, String)>,
}

impl MendingTally {
    /// Mends these patterns, and asks of each mended one what has to hold.
    pub fn hold(&mut self, program: &mut impl Ask, mends: &[Request]) -> std::io::Result<()> {
        self.asked += mends.len();
        let first = mends
            .iter()
            .flat_map(|mend| [with_room(mend).to_string(), check_of(mend)]);
        let answers = program.answers(first.collect())?;
        let both = mends.iter().zip(answers.chunks(2));
        let held: Vec<Held> = both
            .filter_map(|(mend, both)| self.asked_next(mend, &both[0], &both[1]))
            .collect();
        let next = held
            .iter()
            .flat_map(|held| held.asked.iter().map(|(request, _)| request.clone()));
        let mut answers = program.answers(next.collect())?.into_iter();
        for Held {
            request,
            answer,
            asked,
        } in &held
        {
            for (next, expected) in asked {
                let said = answers.next().unwrap_or_default();
                let is_right = said == *expected || expected == NO && said.starts_with(NO);
                if !is_right {
                    self.note(request, answer, &format!("{next} is answered {said}"));
                }
            }
        }
        Ok(())
    }

    /// By the answers to a mending and to the check of the same pattern.
    fn asked_next(&mut self, mend: &Request, answer: &str, verdict: &str) -> Option<Held> {
        let request = with_room(mend).to_string();
        if answer.starts_with("refused ") {
            self.refused += 1;
            // Where the check is refused so is the mending, and else with 30 alone.
            let right = answer == verdict || answer == "refused 30 0" && verdict.starts_with(NO);
            if !right {
                self.note(&request, answer, &format!("the check says {verdict}"));
            }
            return None;
        }
        let Some(mended) = Mended::of_line(answer) else {
            self.note(&request, answer, "it is no mended pattern");
            return None;
        };
        self.count(&mended);
        if mended.undone(&mended.changes).as_deref() != Some(pattern_of(mend)) {
            self.note(
                &request,
                answer,
                "the changes undone do not give the pattern",
            );
        }
        if mended.changes.is_empty() != (verdict == "yes") {
            self.note(&request, answer, &format!("the check says {verdict}"));
        }
        let asked = of_mended(mend, &mended);
        let answer = answer.to_string();
        Some(Held {
            request,
            answer,
            asked,
        })
    }

    fn count(&mut self, mended: &Mended) {
        match mended.changes.len() {
            0 => self.unchanged += 1,
            changes => {
                self.mended += 1;
                self.changes += changes;
            }
        }
    }

    fn note(&mut self, request: &str, answer: &str, fault: &str) {
        self.faults += 1;
        self.differences
            .note(&[("request", request), ("answered", answer), ("fault", fault)]);
    }

    pub fn faults(&self) -> usize {
        self.faults
    }
}

/// The check says yes, mending again alters nothing, and with any one change undone the check says no.
fn of_mended(mend: &Request, mended: &Mended) -> Vec<(String, String)> {
    let with = |pattern: &[u8]| with_pattern(mend, pattern);
    let again = Mended {
        pattern: mended.pattern.clone(),
        changes: Vec::new(),
    };
    let mut asked = vec![
        (check_of(&with(&mended.pattern)), "yes".to_string()),
        (with_room(&with(&mended.pattern)).to_string(), again.line()),
    ];
    for change in &mended.changes {
        if let Some(one_undone) = mended.undone(std::slice::from_ref(change)) {
            asked.push((check_of(&with(&one_undone)), NO.to_string()));
        }
    }
    asked
}

fn pattern_of(mend: &Request) -> &[u8] {
    match mend {
        Request::Mend { pattern, .. } => pattern,
        _ => panic!("{mend} mends nothing"),
    }
}

fn with_pattern(mend: &Request, other: &[u8]) -> Request {
    let mut mend = mend.clone();
    if let Request::Mend { pattern, .. } = &mut mend {
        *pattern = other.to_vec();
    }
    mend
}

/// With room for any pattern.
fn with_room(mend: &Request) -> Request {
    let mut mend = mend.clone();
    if let Request::Mend { room, .. } = &mut mend {
        *room = MOST_ROOM;
    }
    mend
}

fn check_of(mend: &Request) -> String {
    let Request::Mend {
        edition,
        pattern,
        now,
        ..
    } = mend
    else {
        panic!("{mend} mends nothing");
    };
    let check = CheckRequest {
        edition: *edition,
        pattern: pattern.clone(),
        now: *now,
        book: None,
    };
    check.to_string()
}

impl fmt::Display for MendingTally {
    fn fmt(&self, f: &mut fmt::Formatter<'_>) -> fmt::Result {
        let Self {
            asked,
            mended,
            unchanged,
            refused,
            changes,
            faults,
            ..
        } = self;
        self.differences.print_first(f)?;
        writeln!(f, "{asked} patterns: {mended} mended by {changes} changes, {unchanged} not altered, {refused} refused; {faults} faults")
    }
}
