//! The comparison rule: the one line that the specification and the Rust together allow for a request.
//!
//! First come the specification's limits in its order. Then the exceptions: a number that begins with a plus is refused 19,
//! a zone whose digits are all zero is written with a plus, and a day below 0 has the calendar's weekday and week. A strict reading, which the Rust does not have, is refused 15 at
//! a literal that differs, and 16 where text is left over. Beyond these the Rust decides: where it answers, its answer is the
//! line; where it doesn't, the line is the specification's number for the way it stopped, read off its wording, with the part
//! and the place that it had come to. In the second edition, which the Rust does not have either, it decides with other parts in
//! the place of those that are read otherwise. With a book it decides with the book's names for its own; a book that is refused
//! decides before, and the specification decides alone what is read of a book or written as one. The lines of a list are each
//! decided as a read of that line. How a pattern is mended the specification decides, and which parts a digit disturbs what the Rust
//! writes and reads of them. A stamp is told by the specification as well, with days and digits by the Rust.

use crate::answer::{self, as_pattern, as_text};
use crate::below;
use crate::book;
use crate::choices::Choices;
use crate::days;
use crate::limits::{
    day_limit, field_limit, pattern_limit, refused, room_limit, rows_limit, text_limit, year_limit,
};
use crate::lists;
use crate::mending::mended;
use crate::minus::with_plus;
use crate::names;
use crate::pluses::{plus_in, IN_AN_OFFSET};
use crate::request::Request;
use crate::stamps;
use crate::strict;
use crate::walk::{self, Cause, Kind, Reading, Stopped, Walked};

/// The expected line, by who decides it.
#[derive(Debug, PartialEq, Eq)]
pub enum Expected {
    /// The specification alone.
    Limit(String),
    /// The Rust errs or panics.
    Refused(String),
    /// The Rust answers, or a book is good, or a pattern is mended.
    Accepted(String),
    /// The Rust came to a number that begins with a plus, whatever it answered, or it wrote a minus before zeros alone, or its
    /// weekday or week of a day below 0 is another than the calendar's.
    Excepted(String),
    /// The Rust reads on where a strict reading is refused.
    Strict(String),
}

impl Expected {
    pub fn line(&self) -> &str {
        match self {
            Expected::Limit(line)
            | Expected::Refused(line)
            | Expected::Accepted(line)
            | Expected::Excepted(line)
            | Expected::Strict(line) => line,
        }
    }
}

/// No program answers this: the Rust stopped where the specification knows no refusal.
const UNEXPLAINED: &str = "the Rust stops in a way that the specification does not know";

/// A book that is refused decides before all else.
pub fn expected(request: &Request) -> Expected {
    let decide = || first_limit(request).unwrap_or_else(|| from_the_rust(request));
    names::by_book(request.book(), decide).unwrap_or_else(Expected::Limit)
}

/// The checks that stand before any part is written or read, in the specification's order.
fn first_limit(request: &Request) -> Option<Expected> {
    match request {
        Request::Split { pattern } => limit(pattern_limit(pattern)),
        Request::Write {
            pattern, fields, ..
        } => limit(pattern_limit(pattern))
            .or_else(|| lone_quote(pattern).map(Expected::Refused))
            .or_else(|| limit(field_limit(fields))),
        Request::Read {
            choices,
            pattern,
            text,
            now,
            ..
        } => limit(pattern_limit(pattern))
            .or_else(|| lone_quote(pattern).map(Expected::Refused))
            .or_else(|| limit(year_limit(choices.edition, *now)))
            .or_else(|| limit(text_limit(text))),
        Request::ParseOffset { text } => limit(text_limit(text)),
        Request::DayOf { .. } => None,
        Request::DayNumber { year, .. } => limit(day_limit(*year)),
        Request::Book { bytes } => Some(of_a_book(book::open(bytes), answer::book)),
        Request::BookWrite { room, names } => {
            let wrote = |bytes: &Vec<u8>| answer::wrote(bytes);
            Some(of_a_book(book::write(names, *room), wrote))
        }
        Request::List {
            choices,
            pattern,
            text,
            now,
            rows,
            ..
        } => limit(pattern_limit(pattern))
            .or_else(|| lone_quote(pattern).map(Expected::Refused))
            .or_else(|| limit(year_limit(choices.edition, *now)))
            .or_else(|| limit(rows_limit(lists::lines(text).len(), *rows))),
        Request::Mend {
            edition,
            pattern,
            now,
            ..
        } => limit(pattern_limit(pattern))
            .or_else(|| lone_quote(pattern).map(Expected::Refused))
            .or_else(|| limit(year_limit(*edition, *now))),
        Request::RfcRead { text } => Some(stamps::read(text)),
        Request::RfcWrite { stamp, room } => Some(stamps::write(stamp, *room)),
    }
}

/// By the specification alone as well.
fn of_a_book<T>(told: Result<T, String>, line: impl Fn(&T) -> String) -> Expected {
    match told {
        Ok(answer) => Expected::Accepted(line(&answer)),
        Err(refused) => Expected::Limit(refused),
    }
}

fn limit(line: Option<String>) -> Option<Expected> {
    line.map(Expected::Limit)
}

/// Refusal 3, which the Rust shows by a panic once it comes to that part.
pub(crate) fn lone_quote(pattern: &[u8]) -> Option<String> {
    let last = *walk::split(as_pattern(pattern)?).last()?;
    let alone = last.kind == Kind::Open && last.length == 1;
    alone.then(|| refused(3, &[last.start as i64]))
}

/// The limits have been checked, so the Rust can be asked.
fn from_the_rust(request: &Request) -> Expected {
    const ASCII: &str = "a pattern and a text within the limits are ASCII";
    match request {
        Request::Split { pattern } => {
            let pattern = as_pattern(pattern).expect(ASCII);
            Expected::Accepted(answer::parts(&walk::split(pattern)))
        }
        Request::Write {
            pair,
            pattern,
            fields,
            room,
            ..
        } => {
            let pattern = as_pattern(pattern).expect(ASCII);
            let Ok(text) = walk::write(*pair, pattern, fields) else {
                return Expected::Refused(UNEXPLAINED.to_string());
            };
            limit(room_limit(text.as_bytes(), *room)).unwrap_or_else(|| {
                match with_plus(*pair, pattern, fields) {
                    Some(ours) => Expected::Excepted(answer::wrote(ours.as_bytes())),
                    None => Expected::Accepted(answer::wrote(text.as_bytes())),
                }
            })
        }
        Request::Read {
            choices,
            pattern,
            text,
            now,
            ..
        } => {
            let pattern = as_pattern(pattern).expect(ASCII);
            let text = as_text(text).expect(ASCII);
            let walked = walk::walked(*choices, pattern, text, *now);
            not_as_the_rust(*choices, pattern, text, &walked)
                .unwrap_or_else(|| read_as_the_rust(pattern, walked.outcome))
        }
        Request::ParseOffset { text } => {
            let text = as_text(text).expect(ASCII);
            let line = match walk::parse_offset(text) {
                Ok(seconds) => Expected::Accepted(answer::offset(seconds)),
                Err(cause) => Expected::Refused(refused_offset(text, &cause)),
            };
            plus_in_offset(text, line.line()).map_or(line, Expected::Excepted)
        }
        Request::DayOf { number } => day_of(*number),
        Request::DayNumber { year, month, day } => match days::day_number(*year, *month, *day) {
            Ok(number) => Expected::Accepted(answer::day_number(number)),
            Err(cause) => Expected::Refused(refused_day(&cause)),
        },
        Request::Book { .. }
        | Request::BookWrite { .. }
        | Request::RfcRead { .. }
        | Request::RfcWrite { .. } => {
            unreachable!("the specification alone decides")
        }
        Request::List {
            choices,
            pattern,
            text,
            now,
            ..
        } => lists::listed(*choices, pattern, text, *now),
        Request::Mend {
            edition,
            pattern,
            room,
            ..
        } => {
            let mended = mended(*edition, pattern);
            limit(mended.limit(*room)).unwrap_or_else(|| Expected::Accepted(mended.line()))
        }
    }
}

fn day_of(number: i32) -> Expected {
    let Ok(day) = days::day_of(number) else {
        return Expected::Refused(UNEXPLAINED.to_string());
    };
    let right = below::corrected(number, day);
    let line = answer::day(&right);
    if right == day {
        Expected::Accepted(line)
    } else {
        Expected::Excepted(line)
    }
}

/// The Rust errs at a month or a day that is not there, and panics where its sum overflows 32 bits.
fn refused_day(cause: &Cause) -> String {
    match cause {
        Cause::Error(_) => refused(17, &[0]),
        Cause::Panic => refused(18, &[0]),
    }
}

fn read_as_the_rust(pattern: &str, outcome: Result<Reading, Stopped>) -> Expected {
    match outcome {
        Ok(reading) => Expected::Accepted(answer::read(&reading)),
        Err(stopped) => Expected::Refused(refused_read(pattern, &stopped)),
    }
}

/// Refusals 19 and 15 by the order of their parts, then 16.
fn not_as_the_rust(
    choices: Choices,
    pattern: &str,
    text: &str,
    walked: &Walked,
) -> Option<Expected> {
    let Choices { pair, strict, .. } = choices;
    let plus = plus_read(choices, pattern, text, walked);
    let literal = strict.then(|| strict::differing(pair, pattern, text, walked));
    let of_a_part = |number, (part, place)| refused(number, &[part as i64, place as i64]);
    let both = [(plus, 19), (literal.flatten(), 15)];
    let first = both
        .into_iter()
        .filter_map(|(at, number)| Some((at?, number)))
        .min();
    match (first, &walked.outcome) {
        (Some((at, 19)), _) => Some(Expected::Excepted(of_a_part(19, at))),
        (Some((at, number)), _) => Some(Expected::Strict(of_a_part(number, at))),
        (None, Ok(reading)) if strict && reading.taken < text.len() => {
            Some(Expected::Strict(refused(16, &[reading.taken as i64])))
        }
        _ => None,
    }
}

/// The part and the place of refusal 19, where a part that the Rust came to has a number that begins with a plus, and it
/// stopped at no place before.
fn plus_read(
    choices: Choices,
    pattern: &str,
    text: &str,
    walked: &Walked,
) -> Option<(usize, usize)> {
    let parts = walk::split(pattern);
    let (number, place) = walked
        .places
        .iter()
        .enumerate()
        .find_map(|(number, began)| {
            let place = plus_in(choices, pattern, parts[number], &text[*began..])?;
            Some((number, began + place))
        })?;
    match &walked.outcome {
        Err(stopped) if stopped.part == number && stopped.reached < place => None,
        _ => Some((number, place)),
    }
}

/// The same of an offset by itself: each number of two bytes in its turn, after 12 and before the 9 of the same bytes.
fn plus_in_offset(text: &str, line: &str) -> Option<String> {
    if text.starts_with('Z') || text.len() != 6 {
        return None;
    }
    let no_hour = refused(9, &[0, IN_AN_OFFSET[0] as i64]);
    let place = IN_AN_OFFSET
        .into_iter()
        .find(|place| text.as_bytes()[*place] == b'+')?;
    let stopped_before = line == no_hour && place != IN_AN_OFFSET[0];
    (!stopped_before).then(|| refused(19, &[0, place as i64]))
}

fn refused_read(pattern: &str, stopped: &Stopped) -> String {
    let number = match &stopped.cause {
        Cause::Error(wording) => number_of_error(wording),
        Cause::Panic => number_of_panic(pattern, stopped.part),
    };
    let Some(number) = number else {
        return UNEXPLAINED.to_string();
    };
    // The sign of a zone and the letters of a period are taken before they are looked at.
    let place = match number {
        10 | 11 => stopped.began,
        _ => stopped.reached,
    };
    refused(number, &[stopped.part as i64, place as i64])
}

fn number_of_error(wording: &str) -> Option<u32> {
    const WORDINGS: [(&str, u32); 4] = [
        ("String to parse is too short", 8),
        ("Failed parsing", 9),
        ("Could not parse", 10),
        ("Couldn't parse prefix", 11),
    ];
    let (_, number) = WORDINGS
        .into_iter()
        .find(|(start, _)| wording.starts_with(start))?;
    Some(number)
}

/// A literal in quotes that is longer than the text, or a day of the year that is no number.
fn number_of_panic(pattern: &str, part: usize) -> Option<u32> {
    let part = walk::split(pattern)[part];
    match (part.kind, pattern.as_bytes()[part.start]) {
        (Kind::Run, b'D') => Some(9),
        (Kind::Run, _) => None,
        _ => Some(8),
    }
}

fn refused_offset(text: &str, cause: &Cause) -> String {
    let Cause::Error(wording) = cause else {
        return UNEXPLAINED.to_string();
    };
    let too_large = wording.contains("has to be less than");
    if wording.contains("Format should be") {
        refused(12, &[text.len() as i64])
    } else if wording.contains("parsing the hour") {
        hour_or_minute(too_large, 1, 1)
    } else if wording.contains("parsing the minute") {
        hour_or_minute(too_large, 2, 4)
    } else {
        UNEXPLAINED.to_string()
    }
}

fn hour_or_minute(too_large: bool, group: i64, place: i64) -> String {
    if too_large {
        refused(13, &[group])
    } else {
        refused(9, &[0, place])
    }
}
