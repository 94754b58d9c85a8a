//! The Rust's functions for one part of a pattern: as they are or, where the names of a book are given, with these.

use crate::calendar::Fields;
use crate::errors::AstrolabeError;
use crate::names;
use crate::util::{by_book, format, parse};
use crate::walk::Pair;

/// A unit, by its place among ParseUnit's, and its value.
#[derive(Debug, PartialEq, Eq)]
pub struct Carried {
    pub unit: usize,
    pub value: i64,
}

pub const MONTH: usize = parse::ParseUnit::Month as usize;

pub fn write(pair: Pair, part: &str, fields: &Fields) -> String {
    let (days, nanoseconds, offset) = (fields.days(), fields.nanoseconds, fields.offset);
    match (pair, names::given()) {
        (Pair::Full, None) => format::format_part(part, days, nanoseconds, offset),
        (Pair::Date, None) => format::format_date_part(part, days),
        (Pair::Full, Some(_)) => by_book::format::format_part(part, days, nanoseconds, offset),
        (Pair::Date, Some(_)) => by_book::format::format_date_part(part, days),
    }
}

pub fn read(pair: Pair, part: &str, rest: &mut String) -> Result<Option<Carried>, AstrolabeError> {
    let as_it_is = |read: parse::ParsedPart| Carried {
        unit: read.unit as usize,
        value: read.value,
    };
    let by_book = |read: by_book::parse::ParsedPart| Carried {
        unit: read.unit as usize,
        value: read.value,
    };
    Ok(match (pair, names::given()) {
        (Pair::Full, None) => parse::parse_part(part, rest)?.map(as_it_is),
        (Pair::Date, None) => parse::parse_date_part(part, rest)?.map(as_it_is),
        (Pair::Full, Some(_)) => by_book::parse::parse_part(part, rest)?.map(by_book),
        (Pair::Date, Some(_)) => by_book::parse::parse_date_part(part, rest)?.map(by_book),
    })
}
