//! Request [10]: stamps of RFC 3339, which the Rust does not have. What is one is read off the RFC: every form that a stamp can have
//! is laid beside the text, and how far the best one fits is how far the text is one. Whether there is such a day, and how the
//! numbers of a stamp are written, the Rust decides.

use crate::answer;
use crate::calendar::Fields;
use crate::days;
use crate::expected::Expected;
use crate::limits::{field_limit, refused, room_limit, text_limit};
use crate::request;
use crate::walk::{self, Pair};

/// What a stamp says, in the order of the line protocol.
#[derive(Clone, Copy, Debug, PartialEq, Eq)]
pub struct Stamp {
    pub year: i32,
    pub month: u32,
    pub day: u32,
    pub nanoseconds: u64,
    pub offset: i32,
    pub unknown: bool,
}

/// How many bytes the date and the time have, and where the digits of a fraction start.
const SECONDS_END: usize = 19;
const FRACTION: usize = SECONDS_END + 1;
const NANOS_A_SECOND: u64 = 1_000_000_000;

impl Stamp {
    /// The record that the Rust can write; what a stamp has not is in range.
    fn fields(&self) -> Fields {
        Fields {
            year: self.year,
            month: self.month,
            day: self.day,
            day_of_year: 1,
            week: 1,
            weekday: 0,
            nanoseconds: self.nanoseconds,
            offset: self.offset,
        }
    }

    /// As they are asked for; the mark is 0 or 1.
    pub(crate) fn from_words<'a>(words: &mut impl Iterator<Item = &'a str>) -> Option<Stamp> {
        Some(Stamp {
            year: request::number(words)?,
            month: request::number(words)?,
            day: request::number(words)?,
            nanoseconds: request::number(words)?,
            offset: request::number(words)?,
            unknown: request::number::<u32>(words).filter(|mark| *mark <= 1)? == 1,
        })
    }

    pub(crate) fn words(&self) -> String {
        let mark = u32::from(self.unknown);
        let day = format!("{} {} {}", self.year, self.month, self.day);
        format!("{day} {} {} {mark}", self.nanoseconds, self.offset)
    }
}

/// The line for a text: 6, 7, 25, 26, 27, 28, 17, the first in this order.
pub fn read(text: &[u8]) -> Expected {
    let limit = text_limit(text).or_else(|| not_of_the_grammar(text));
    if let Some(line) = limit.or_else(|| range_limit(text)) {
        return Expected::Limit(line);
    }
    let stamp = stamp_of(text);
    match days::day_number(stamp.year, stamp.month, stamp.day) {
        Ok(_) => Expected::Accepted(format!("stamp {}", stamp.words())),
        Err(_) => Expected::Refused(refused(17, &[0])),
    }
}

/// The line for a stamp that is written: 4, 28, 17, 29, 5, the first in this order.
pub fn write(stamp: &Stamp, room: usize) -> Expected {
    let year = || (!(1..=9999).contains(&stamp.year)).then(|| refused(28, &[0]));
    if let Some(line) = field_limit(&stamp.fields()).or_else(year) {
        return Expected::Limit(line);
    }
    if days::day_number(stamp.year, stamp.month, stamp.day).is_err() {
        return Expected::Refused(refused(17, &[0]));
    }
    if stamp.offset % 60 != 0 || stamp.unknown && stamp.offset != 0 {
        return Expected::Limit(refused(29, &[0]));
    }
    let text = text(stamp);
    match room_limit(text.as_bytes(), room) {
        Some(line) => Expected::Limit(line),
        None => Expected::Accepted(answer::wrote(text.as_bytes())),
    }
}

/// What a stamp is written as, by the pattern that has its form.
pub fn text(stamp: &Stamp) -> String {
    let fraction = match stamp.nanoseconds % NANOS_A_SECOND {
        0 => "",
        _ => ".nnnnn",
    };
    let offset = if stamp.unknown { "'-00:00'" } else { "XXX" };
    let pattern = format!("yyyy-MM-dd'T'HH:mm:ss{fraction}{offset}");
    walk::write(Pair::Full, &pattern, &stamp.fields()).expect("the Rust writes what is in range")
}

/// A form with so many digits of fraction: `d` is a digit, `s` a sign, `T` and `Z` are letters of either case.
fn form(digits: usize, zulu: bool) -> Vec<u8> {
    let mut form = b"dddd-dd-ddTdd:dd:dd".to_vec();
    if digits > 0 {
        form.push(b'.');
        form.resize(FRACTION + digits, b'd');
    }
    form.extend_from_slice(if zulu { b"Z" } else { b"sdd:dd" });
    form
}

fn fits(class: u8, byte: u8) -> bool {
    match class {
        b'd' => byte.is_ascii_digit(),
        b's' => byte == b'+' || byte == b'-',
        _ => byte == class || matches!(class, b'T' | b'Z') && byte == class.to_ascii_lowercase(),
    }
}

/// How many bytes of a text a form fits.
fn fitting(form: &[u8], text: &[u8]) -> usize {
    let fit = |(class, byte): &(&u8, &u8)| fits(**class, **byte);
    form.iter().zip(text).take_while(fit).count()
}

/// Refusal 25: the place behind the longest beginning that some form has, where none has all of the text.
fn not_of_the_grammar(text: &[u8]) -> Option<String> {
    let mut place = 0;
    for form in forms_beside(text) {
        let fitting = fitting(&form, text);
        if fitting == form.len() && fitting == text.len() {
            return None;
        }
        place = place.max(fitting);
    }
    Some(refused(25, &[place as i64]))
}

/// Those with no fraction, and with up to one digit more than the text has there. With far fewer they fit less, and are left out.
fn forms_beside(text: &[u8]) -> impl Iterator<Item = Vec<u8>> {
    let behind = text.get(FRACTION..).unwrap_or_default();
    let digits = behind.iter().take_while(|byte| byte.is_ascii_digit());
    let digits = digits.count();
    let counts = [0]
        .into_iter()
        .chain(digits.saturating_sub(40)..=digits + 1);
    counts.flat_map(|digits| [form(digits, true), form(digits, false)])
}

/// The number of two digits, or of more, at a place of a text that is of the grammar.
fn number(text: &[u8], place: usize, length: usize) -> u64 {
    let digits = std::str::from_utf8(&text[place..place + length]).expect("digits are ASCII");
    digits.parse().expect("these are digits")
}

/// The hour and the minute of the offset, and whether it is negative; none of `Z`.
fn offset_of(text: &[u8]) -> Option<(u64, u64, bool)> {
    let start = text.len() - "+05:30".len();
    let zulu = text.ends_with(b"Z") || text.ends_with(b"z");
    (!zulu).then(|| {
        let (hour, minute) = (number(text, start + 1, 2), number(text, start + 4, 2));
        (hour, minute, text[start] == b'-')
    })
}

/// Refusals 26, 27 and 28 of a text that is of the grammar.
fn range_limit(text: &[u8]) -> Option<String> {
    let within = |place, first, last| (first..=last).contains(&number(text, place, 2));
    let (hour, minute, _) = offset_of(text).unwrap_or_default();
    let day = within(5, 1, 12) && within(8, 1, 31);
    let time = within(11, 0, 23) && within(14, 0, 59) && within(17, 0, 60);
    if !(day && time && hour <= 23 && minute <= 59) {
        return Some(refused(26, &[0]));
    }
    if number(text, 17, 2) == 60 {
        return Some(refused(27, &[0]));
    }
    (number(text, 0, 4) == 0).then(|| refused(28, &[0]))
}

/// What a text says that is in range.
fn stamp_of(text: &[u8]) -> Stamp {
    let (hour, minute, negative) = offset_of(text).unwrap_or_default();
    let seconds = (hour * 3600 + minute * 60) as i32;
    let [of_day, minutes, past] = [11, 14, 17].map(|place| number(text, place, 2));
    let whole = of_day * 3600 + minutes * 60 + past;
    Stamp {
        year: number(text, 0, 4) as i32,
        month: number(text, 5, 2) as u32,
        day: number(text, 8, 2) as u32,
        nanoseconds: whole * NANOS_A_SECOND + nanoseconds_of(text),
        offset: if negative { -seconds } else { seconds },
        unknown: negative && seconds == 0,
    }
}

/// The first nine digits of the fraction, with zeros where there are fewer.
fn nanoseconds_of(text: &[u8]) -> u64 {
    if text[SECONDS_END] != b'.' {
        return 0;
    }
    let digits = text[FRACTION..]
        .iter()
        .take_while(|byte| byte.is_ascii_digit());
    let nine: Vec<u8> = digits.copied().chain([b'0'; 9]).take(9).collect();
    number(&nine, 0, 9)
}
