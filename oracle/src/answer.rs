//! The answers of the line protocol, as the Rust gives them.

use crate::book::Opened;
use crate::calendar::Fields;
use crate::days::{self, Day};
use crate::names;
use crate::request::{hex, name_words, Request};
use crate::walk::{self, Kind, Pair, Part, Reading};

pub const BAD_REQUEST: &str = "bad request";

/// The Rust's answer to a line; `refused` where it errs, panics or can't be asked. It knows no strict reading, no second edition, and
/// of a book the names alone.
pub fn answer(line: &str) -> String {
    let Some(request) = Request::from_line(line) else {
        return BAD_REQUEST.to_string();
    };
    let by_book = names::by_book(request.book(), || accepted(&request));
    let accepted = by_book.ok().flatten();
    accepted.unwrap_or_else(|| "refused".to_string())
}

fn accepted(request: &Request) -> Option<String> {
    match request {
        Request::Split { pattern } => Some(parts(&walk::split(as_pattern(pattern)?))),
        Request::Write {
            pair,
            pattern,
            fields,
            room,
            ..
        } => {
            let text = text_of(*pair, pattern, fields)?;
            (text.len() <= *room).then(|| wrote(text.as_bytes()))
        }
        Request::Read {
            choices,
            pattern,
            text,
            now,
            ..
        } => {
            let (pattern, text) = (as_pattern(pattern)?, as_text(text)?);
            Some(read(&walk::read(choices.pair, pattern, text, *now).ok()?))
        }
        Request::ParseOffset { text } => Some(offset(walk::parse_offset(as_text(text)?).ok()?)),
        Request::DayOf { number } => Some(day(&days::day_of(*number).ok()?)),
        Request::DayNumber { year, month, day } => {
            Some(day_number(days::day_number(*year, *month, *day).ok()?))
        }
        Request::Book { .. } | Request::BookWrite { .. } => None,
        Request::List { .. } | Request::Mend { .. } => None,
        Request::RfcRead { .. } | Request::RfcWrite { .. } => None,
    }
}

/// What the Rust writes, if it does.
pub fn text_of(pair: Pair, pattern: &[u8], fields: &Fields) -> Option<String> {
    walk::write(pair, as_pattern(pattern)?, fields).ok()
}

/// The bytes as the Rust can take them for a pattern.
pub fn as_pattern(bytes: &[u8]) -> Option<&str> {
    as_text(bytes).filter(|pattern| !pattern.contains('\0'))
}

/// The bytes as the Rust can take them for a text, all ASCII.
pub fn as_text(bytes: &[u8]) -> Option<&str> {
    std::str::from_utf8(bytes)
        .ok()
        .filter(|text| text.is_ascii())
}

pub fn parts(parts: &[Part]) -> String {
    let mut line = format!("parts {}", parts.len());
    for part in parts {
        line += &format!(" {}:{}:{}", kind(part.kind), part.start, part.length);
    }
    line
}

fn kind(kind: Kind) -> &'static str {
    match kind {
        Kind::Run => "run",
        Kind::Quotes => "quotes",
        Kind::Quoted => "quoted",
        Kind::Open => "open",
    }
}

pub fn wrote(bytes: &[u8]) -> String {
    format!("wrote {} {}", bytes.len(), hex(bytes))
}

pub fn read(reading: &Reading) -> String {
    let count = reading.mask.count_ones();
    let mut line = format!("read {} {} {count}", reading.taken, reading.mask);
    for value in reading.values {
        line += &format!(" {value}");
    }
    for span in &reading.spans {
        line += &format!(" {}:{}", span.start, span.end);
    }
    line
}

pub fn offset(seconds: i32) -> String {
    format!("offset {seconds}")
}

pub fn day(day: &Day) -> String {
    format!(
        "day {} {} {} {} {} {}",
        day.year, day.month, day.day, day.day_of_year, day.week, day.weekday
    )
}

pub fn day_number(number: i32) -> String {
    format!("number {number}")
}

pub fn book(opened: &Opened) -> String {
    format!("book {} {}", opened.version, name_words(&opened.names))
}
