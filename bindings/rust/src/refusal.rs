use crate::{raw, Edition};
use std::error::Error;
use std::fmt;

/// Why nothing was done: a number and what is returned with it. Printed, it is a sentence.
///
/// | Number | Given when | Details |
/// |---|---|---|
/// | 1 | the pattern has over 256 bytes | the length |
/// | 2 | a pattern byte is 0 or above 127 | place of the first |
/// | 3 | the pattern's last byte is a quote that opens | its place |
/// | 4 | a field is out of its range | the first such field, 1 to 8 |
/// | 5 | the output is shorter than the text | bytes needed |
/// | 6 | the text has over 2,048 bytes | the length |
/// | 7 | a text byte is above 127 | place of the first |
/// | 8 | too few bytes are left in the text | part, place |
/// | 9 | there is no number | part, place |
/// | 10 | no name or period fits | part, place |
/// | 11 | there is no sign of a zone | part, place |
/// | 12 | an offset by itself has not 6 bytes | the length |
/// | 13 | an offset's hour or minute is too large | 1 or 2 |
/// | 14 | the current year is not 1 to 9999, in the second edition 81 to 9999 | that year |
/// | 15 | a literal differs, in a strict read | part, place |
/// | 16 | text is left over, in a strict read | place of its first byte |
/// | 17 | there is no such day | 0 |
/// | 18 | the number of a day doesn't fit 32 signed bits | 0 |
/// | 19 | a number begins with a plus | part, place |
/// | 20 | a book does not begin with the mark LNB | 0 |
/// | 21 | a book is of another version than 1 and 2 | 0 |
/// | 22 | a book is cut short, or one of version 1 goes on behind its names | 0 |
/// | 23 | a name of a book breaks a rule | the number of the first, 1 to 64 |
/// | 24 | a row for a list is shorter than the lines | 0 |
/// | 25 | a text is no stamp of RFC 3339 | place of the first byte that can't go on, or the length |
/// | 26 | a stamp's month, day, hour, minute, second or offset is out of its range | 0 |
/// | 27 | a stamp has the second 60 | 0 |
/// | 28 | a stamp's year is not 1 to 9999 | 0 |
/// | 29 | a stamp's offset is not of whole minutes, or not 0 though it is unknown | 0 |
/// | 30 | the mended pattern has over 256 bytes | 0 |
///
/// ```
/// let refusal = sheet::read("dd/MM", "3/12", 2025).unwrap_err();
/// assert_eq!((refusal.number(), refusal.details()), (9, &[0, 0][..]));
/// assert_eq!(refusal.text(), "the text has no number where one should stand");
/// assert_eq!(
///     refusal.to_string(),
///     "the text has no number where one should stand: at place 0, for part 0, both counted from 0"
/// );
/// ```
#[derive(Clone, Copy, Debug, PartialEq, Eq, Hash)]
pub struct Refusal {
    number: u32,
    details: [i64; 2],
}

/// The fields in the order of their numbers, each with its range.
const FIELDS: [(&str, &str); 8] = [
    ("year", "-5,879,611 to 5,879,611 without 0"),
    ("month", "1 to 12"),
    ("day", "1 to 31"),
    ("day of the year", "1 to 366"),
    ("week", "1 to 53"),
    ("weekday", "0 to 6"),
    ("nanosecond of the day", "0 to 86,399,999,999,999"),
    ("offset", "-86,399 to 86,399 seconds"),
];

/// The lists of a book in its order: how many names each has, what one is called, and the rule for all of them.
const LISTS: [(i64, &str, &str); 7] = [
    (12, "wide month", "2 to 20 ASCII letters, and none begins another"),
    (12, "short month", "2 to 20 ASCII letters, and none begins another"),
    (7, "wide weekday", "2 to 20 ASCII letters, and none begins another"),
    (7, "short weekday", "3 ASCII letters"),
    (7, "two-letter weekday", "2 ASCII letters"),
    (7, "narrow weekday", "1 ASCII letter"),
    (12, "narrow month", "1 ASCII letter"),
];

/// Refusal 14 in words. The years 1 to 80 are refused in the second edition alone, all others that are refused in both.
pub(crate) fn current_years(edition: Edition) -> &'static str {
    match edition {
        Edition::First => "the current year is not from 1 to 9999",
        Edition::Second => "the current year is not from 81 to 9999",
    }
}

impl Refusal {
    /// The number, 1 to 30.
    pub fn number(&self) -> u32 {
        self.number
    }

    /// What the number says, without the details.
    pub fn text(&self) -> &'static str {
        match (self.number, self.details[0]) {
            (raw::CURRENT_YEAR, 1..=80) => current_years(Edition::Second),
            (raw::CURRENT_YEAR, _) => current_years(Edition::First),
            (number, _) => raw::refusal_text(number),
        }
    }

    /// What is returned with the number, one or two details.
    pub fn details(&self) -> &[i64] {
        if self.is_of_a_part() {
            &self.details
        } else {
            &self.details[..1]
        }
    }

    /// Its details are then the part and the place.
    fn is_of_a_part(&self) -> bool {
        matches!(
            self.number,
            raw::TOO_FEW..=raw::NO_SIGN | raw::LITERAL_DIFFERS | raw::PLUS_SIGN
        )
    }

    /// Its detail is then 0, and says no more.
    fn says_all(&self) -> bool {
        matches!(
            self.number,
            raw::NO_SUCH_DAY | raw::NO_DAY_NUMBER | raw::BOOK_MARK
                ..=raw::BOOK_LENGTH | raw::SHORT_ROW | raw::STAMP_RANGE..=raw::STAMP_OFFSET | raw::MENDED_TOO_LONG
        )
    }

    /// A refusal where the number returned is one; its details are the first entries of the row.
    pub(crate) fn unless_accepted(number: u32, answer: &[i64]) -> Result<(), Refusal> {
        match number {
            raw::ACCEPTED => Ok(()),
            _ => Err(Refusal {
                number,
                details: [answer[0], answer[1]],
            }),
        }
    }
}

/// Which name of a book a number from 1 on is, by its list and its place there, and the rule of the list.
fn name_of_a_book(number: i64) -> String {
    let mut place = number;
    for (count, name, rule) in LISTS {
        if place <= count {
            let place = ordinal(place);
            let from = if name.ends_with("weekday") { " from Sunday" } else { "" };
            return format!("name {number}, the {place} {name}{from}; {name}s have {rule}");
        }
        place -= count;
    }
    format!("name {number}")
}

/// Of 1 to 12.
fn ordinal(place: i64) -> String {
    match place {
        1 => "1st".to_string(),
        2 => "2nd".to_string(),
        3 => "3rd".to_string(),
        _ => format!("{place}th"),
    }
}

impl fmt::Display for Refusal {
    fn fmt(&self, f: &mut fmt::Formatter<'_>) -> fmt::Result {
        if self.says_all() {
            return f.write_str(self.text());
        }
        let [detail, place] = self.details;
        let details = match self.number {
            raw::PATTERN_TOO_LONG | raw::TEXT_TOO_LONG | raw::OFFSET_LENGTH => format!("it has {detail} bytes"),
            raw::PATTERN_BYTE | raw::LONE_QUOTE | raw::TEXT_BYTE | raw::TEXT_LEFT | raw::NOT_STAMP => {
                format!("at place {detail}, counted from 0")
            }
            raw::FIELD_RANGE => {
                let (field, range) = FIELDS[(detail - 1) as usize];
                format!("the {field}, which is {range}")
            }
            raw::NO_ROOM => format!("it needs {detail} bytes"),
            _ if self.is_of_a_part() => format!("at place {place}, for part {detail}, both counted from 0"),
            raw::OFFSET_RANGE if detail == 1 => "the hour is over 23".to_string(),
            raw::OFFSET_RANGE => "the minute is over 59".to_string(),
            raw::BOOK_NAME => name_of_a_book(detail),
            _ => format!("it is {detail}"),
        };
        write!(f, "{}: {details}", self.text())
    }
}

impl Error for Refusal {}
