//! The walk over a pattern as Date does it, for each of the Rust's pairs of part functions.
//! Patterns hold no zero byte, which is the Rust's mark for an escaped quote; patterns and texts are ASCII.

use crate::calendar::{give_current_year, give_fields, Fields};
use crate::choices::{Choices, Edition};
use crate::errors::AstrolabeError;
use crate::guard::guarded;
pub use crate::guard::Cause;
use crate::part::{self, Carried};
use crate::second;
use crate::util::parse::{self, parse_format_string};
use std::ops::Range;

/// Which of the Rust's pairs of part functions the walk goes through.
#[derive(Clone, Copy, Debug, PartialEq, Eq)]
pub enum Pair {
    Full,
    Date,
}

#[derive(Clone, Copy, Debug, PartialEq, Eq)]
pub enum Kind {
    Run,
    Quotes,
    Quoted,
    Open,
}

/// A part of a pattern, its place and length in pattern bytes.
#[derive(Clone, Copy, Debug, PartialEq, Eq)]
pub struct Part {
    pub kind: Kind,
    pub start: usize,
    pub length: usize,
}

/// What a read gives: the bytes taken, and by unit which values were read and from where in the text.
#[derive(Debug, Default, PartialEq, Eq)]
pub struct Reading {
    pub taken: usize,
    pub mask: u16,
    pub values: [i64; 15],
    pub spans: [Range<usize>; 15],
}

/// Where and why a read came to no answer: the part, the place in the text where that part began,
/// the place that the Rust had reached.
#[derive(Debug, PartialEq, Eq)]
pub struct Stopped {
    pub part: usize,
    pub began: usize,
    pub reached: usize,
    pub cause: Cause,
}

/// A read with the places in the text where the parts that it came to began.
pub struct Walked {
    pub places: Vec<usize>,
    pub outcome: Result<Reading, Stopped>,
}

/// A pattern's parts as the Rust holds them, for the full pair to write and read one by one.
pub struct Parts(Vec<String>);

/// A written text with the places where its parts start, its end included.
pub struct Written {
    pub text: String,
    pub places: Vec<usize>,
}

/// What one part reads: the bytes taken, and the unit and value that it carries.
#[derive(Debug, PartialEq, Eq)]
pub struct PartRead {
    pub taken: usize,
    pub carried: Option<(usize, i64)>,
}

const ESCAPED_QUOTE: char = '\0';
const QUOTE: char = '\'';

pub fn split(pattern: &str) -> Vec<Part> {
    let mut start = 0;
    parse_format_string(pattern)
        .iter()
        .map(|part| {
            let length = part.len() + part.matches(ESCAPED_QUOTE).count();
            let placed = Part {
                kind: kind_of(part),
                start,
                length,
            };
            start += length;
            placed
        })
        .collect()
}

pub fn write(pair: Pair, pattern: &str, fields: &Fields) -> Result<String, Cause> {
    give_fields(*fields);
    guarded(|| {
        let parts = parse_format_string(pattern);
        Ok(parts.iter().map(|p| write_part(pair, p, fields)).collect())
    })
}

/// As the Rust does it.
pub fn read(pair: Pair, pattern: &str, text: &str, now: i32) -> Result<Reading, Stopped> {
    walked(Choices::of(pair), pattern, text, now).outcome
}

/// In the edition that is chosen; literals are passed over, even where it is strict.
pub fn walked(choices: Choices, pattern: &str, text: &str, now: i32) -> Walked {
    let mut places = Vec::new();
    let outcome = read_noting(choices, pattern, text, now, &mut places);
    Walked { places, outcome }
}

fn read_noting(
    choices: Choices,
    pattern: &str,
    text: &str,
    now: i32,
    places: &mut Vec<usize>,
) -> Result<Reading, Stopped> {
    give_current_year(now);
    // What a part takes is removed from the front, so what is left tells the place.
    let place = |rest: &str| text.len() - rest.len();
    let mut rest = text.to_string();
    let mut reading = Reading::default();
    for (number, part) in parse_format_string(pattern).iter().enumerate() {
        let began = place(&rest);
        places.push(began);
        let carried = guarded(|| read_part_in(choices.edition, choices.pair, part, &mut rest, now))
            .map_err(|cause| Stopped {
                part: number,
                began,
                reached: place(&rest),
                cause,
            })?;
        if let Some(carried) = carried {
            reading.keep(carried, began..place(&rest));
        }
    }
    reading.taken = place(&rest);
    Ok(reading)
}

pub fn parse_offset(text: &str) -> Result<i32, Cause> {
    guarded(|| parse::parse_offset(text))
}

impl Parts {
    pub fn of(pattern: &str) -> Parts {
        Parts(parse_format_string(pattern))
    }

    pub fn count(&self) -> usize {
        self.0.len()
    }

    /// The byte and the length of a run.
    pub fn run(&self, part: usize) -> Option<(u8, usize)> {
        let run = Some(&self.0[part]).filter(|part| kind_of(part) == Kind::Run)?;
        Some((run.as_bytes()[0], run.len()))
    }

    /// Writes the parts from the given one on.
    pub fn write_from(&self, first: usize, fields: &Fields) -> Result<Written, Cause> {
        give_fields(*fields);
        guarded(|| {
            let parts = &self.0[first..];
            let mut text = String::with_capacity(8 * parts.len());
            let mut places = Vec::with_capacity(parts.len() + 1);
            for part in parts {
                places.push(text.len());
                text += &write_part(Pair::Full, part, fields);
            }
            places.push(text.len());
            Ok(Written { text, places })
        })
    }

    /// Reads the one part from the start of the text.
    pub fn read_one(
        &self,
        edition: Edition,
        part: usize,
        text: &str,
        now: i32,
    ) -> Result<PartRead, Cause> {
        give_current_year(now);
        let mut rest = text.to_string();
        let part = &self.0[part];
        let carried = guarded(|| read_part_in(edition, Pair::Full, part, &mut rest, now))?;
        Ok(PartRead {
            taken: text.len() - rest.len(),
            carried: carried.map(|carried| (carried.unit, carried.value)),
        })
    }
}

impl Reading {
    fn keep(&mut self, Carried { unit, value }: Carried, span: Range<usize>) {
        self.mask |= 1 << unit;
        self.values[unit] = value;
        self.spans[unit] = span;
    }
}

fn kind_of(part: &str) -> Kind {
    if part.starts_with(ESCAPED_QUOTE) {
        Kind::Quotes
    } else if !part.starts_with(QUOTE) {
        Kind::Run
    } else if part.len() > 1 && part.ends_with(QUOTE) {
        Kind::Quoted
    } else {
        Kind::Open
    }
}

fn write_part(pair: Pair, part: &str, fields: &Fields) -> String {
    match kind_of(part) {
        Kind::Quotes => with_quotes(part),
        Kind::Quoted | Kind::Open => inside(&with_quotes(part)).to_string(),
        Kind::Run => part::write(pair, part, fields),
    }
}

fn with_quotes(part: &str) -> String {
    part.replace(ESCAPED_QUOTE, "'")
}

/// Any quote at the end passes for the closing one, an escaped one too; a lone quote panics.
fn inside(quoted: &str) -> &str {
    let end = quoted.strip_suffix(QUOTE).map_or(quoted.len(), str::len);
    &quoted[1..end]
}

fn read_part_in(
    edition: Edition,
    pair: Pair,
    part: &str,
    rest: &mut String,
    now: i32,
) -> Result<Option<Carried>, AstrolabeError> {
    if edition == Edition::First {
        return read_part(pair, part, rest);
    }
    let text = rest.clone();
    let carried = read_part(pair, second::stand_in(part), rest)?;
    let taken = &text[..text.len() - rest.len()];
    Ok(carried.map(|carried| second::given(part, taken, now, carried)))
}

fn read_part(pair: Pair, part: &str, rest: &mut String) -> Result<Option<Carried>, AstrolabeError> {
    match kind_of(part) {
        Kind::Quotes => skip(part.len(), rest),
        Kind::Quoted | Kind::Open => skip(bytes_inside(part), rest),
        Kind::Run => return part::read(pair, part, rest),
    }
    Ok(None)
}

/// An escaped quote is one byte here; a lone quote panics.
fn bytes_inside(part: &str) -> usize {
    part.len() - 1 - usize::from(part.ends_with(QUOTE))
}

/// Panics where the rest is too short, as Date does.
fn skip(bytes: usize, rest: &mut String) {
    rest.drain(..bytes);
}
