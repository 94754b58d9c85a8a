//! The three measurements: writing and reading by every contender, the check of ours, and growth with the pattern.

use crate::contender::Contender;
use crate::glibc::Glibc;
#[cfg(hand)]
use crate::hand;
#[cfg(icu)]
use crate::icu::Icu;
use crate::ours::{check_calls, Ours};
#[cfg(others)]
use crate::peers;
use crate::prepared::Prepared;
use crate::records::Record;
use crate::rows::{self, Row};
use crate::rust::Rust;
use crate::timing::{interleaved, Calls, Timing};

#[derive(Clone, Copy, PartialEq, Eq)]
pub enum Op {
    Write,
    Read,
}

/// The contenders, the first of which the others are held to.
pub const NAMES: [&str; 4] = ["ours", "Rust", "glibc", "ICU"];

/// A line of a table: a contender that does not take the pattern has no timing.
pub struct Line {
    pub label: String,
    pub timings: Vec<Option<Timing>>,
    /// Whether its text is ours.
    pub same: Vec<bool>,
}

/// What ours costs at patterns of one length.
pub struct Growth {
    pub length: usize,
    pub write: f64,
    pub read: f64,
    pub check: f64,
}

impl Growth {
    /// The length, and what it costs there.
    pub fn costs(&self) -> (usize, Vec<f64>) {
        (self.length, vec![self.write, self.read, self.check])
    }
}

/// A contender at a row, by its name; none where it does not take the pattern or is not there.
pub fn contender<'a>(name: &str, row: &'a Row, records: &'a [Record]) -> Option<Box<dyn Contender + 'a>> {
    Some(match name {
        "ours" | "direct" => Box::new(Ours::new(&row.pattern, records)?),
        "prepared" => Box::new(Prepared::new(&row.pattern, records)?),
        "Rust" => Box::new(Rust::new(&row.pattern, records)?),
        "glibc" => Box::new(Glibc::new(row, records)?),
        #[cfg(icu)]
        "ICU" => Box::new(Icu::new(row, records)?),
        #[cfg(others)]
        "chrono" => Box::new(peers::chrono(&row.chrono, records)?),
        #[cfg(others)]
        "time" => Box::new(peers::time(&row.time, records)?),
        #[cfg(hand)]
        "C, all" => hand::full(&row.pattern, records)?,
        #[cfg(hand)]
        "C, bare" => hand::bare(&row.pattern, records)?,
        _ => return None,
    })
}

/// A row by all contenders that are named, of which the first is always there.
pub fn compared(op: Op, names: &[&str], row: &Row, records: &[Record]) -> Line {
    let mut present: Vec<(usize, Box<dyn Contender>)> = (0..names.len())
        .filter_map(|number| Some((number, contender(names[number], row, records)?)))
        .collect();
    let mut line = Line {
        label: row.label.clone(),
        timings: vec![None; names.len()],
        same: vec![true; names.len()],
    };
    let ours = texts(&mut *present[0].1, records);
    for (number, contender) in &mut present {
        line.same[*number] = texts(&mut **contender, records) == ours;
    }
    let mut calls: Vec<Calls> = present
        .iter_mut()
        .map(|(_, contender)| calls_of(op, &mut **contender))
        .collect();
    let timings = interleaved(&mut calls);
    drop(calls);
    for ((number, _), timing) in present.iter().zip(timings) {
        line.timings[*number] = Some(timing);
    }
    line
}

/// The check of ours at each pattern.
pub fn checked(patterns: &[String]) -> Vec<f64> {
    let calls = patterns
        .iter()
        .map(|pattern| Box::new(|calls| check_calls(pattern.as_bytes(), calls)) as Calls);
    nanos(interleaved(&mut calls.collect::<Vec<_>>()))
}

/// Ours at patterns of every length.
pub fn grown(records: &[Record]) -> Vec<Growth> {
    let patterns = rows::LENGTHS.map(rows::stamps);
    let timed = |op| -> Vec<f64> {
        let ours = |pattern| Ours::new(pattern, records).expect("agreed with the Rust before");
        let mut ours: Vec<Ours> = patterns.iter().map(|pattern| ours(pattern)).collect();
        let mut calls: Vec<Calls> = ours.iter_mut().map(|ours| calls_of(op, ours)).collect();
        nanos(interleaved(&mut calls))
    };
    let (write, read, check) = (timed(Op::Write), timed(Op::Read), checked(&patterns));
    (0..patterns.len())
        .map(|number| Growth {
            length: rows::LENGTHS[number],
            write: write[number],
            read: read[number],
            check: check[number],
        })
        .collect()
}

pub fn nanos(timings: Vec<Timing>) -> Vec<f64> {
    timings.iter().map(|timing| timing.nanos).collect()
}

pub fn calls_of<'a>(op: Op, contender: &'a mut (dyn Contender + 'a)) -> Calls<'a> {
    match op {
        Op::Write => Box::new(|calls| contender.write_calls(calls)),
        Op::Read => Box::new(|calls| contender.read_calls(calls)),
    }
}

fn texts(contender: &mut dyn Contender, records: &[Record]) -> Vec<Option<Vec<u8>>> {
    (0..records.len()).map(|record| contender.text(record)).collect()
}
