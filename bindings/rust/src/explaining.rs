use crate::refusal::current_years;
use crate::{raw, read_by, split, Book, Choices, Edition, Kind, Part, Refusal};

const DATE_SYMBOLS: &[u8] = b"GyqMwdDe";
const SYMBOLS: &[u8] = b"GyqMwdDeabhKHkmsnXx";

/// How far a part reads does not depend on the current year.
const ANY_YEAR: i32 = 2025;

/// Of a pattern or a text no more bytes are shown at once.
pub(crate) const MOST_SHOWN: usize = 24;

/// Says of a text that [`read`](crate::read) refused by a pattern what stood there and what was wanted, in one sentence. A refusal
/// that is not of a part of the pattern, or of another pattern, is said as it prints.
///
/// ```
/// let (pattern, text) = ("dd/MM", "3/12");
/// let refusal = sheet::read(pattern, text, 2025).unwrap_err();
/// assert_eq!(sheet::explain(pattern, text, &refusal), "`dd` needs two digits, found `3/`");
/// ```
pub fn explain(pattern: impl AsRef<[u8]>, text: impl AsRef<[u8]>, refusal: &Refusal) -> String {
    explain_with(Choices::new(), pattern, text, refusal)
}

/// Says the same of a text that [`read_date`](crate::read_date) refused.
///
/// ```
/// let refusal = sheet::read_date("dd HH", "03 ", 2025).unwrap_err();
/// assert_eq!(sheet::explain_date("dd HH", "03 ", &refusal), "`HH` needs two bytes, found the end of the text");
/// ```
pub fn explain_date(pattern: impl AsRef<[u8]>, text: impl AsRef<[u8]>, refusal: &Refusal) -> String {
    explain_with(Choices::new().date(), pattern, text, refusal)
}

/// Says the same of a text that [`read_with`](crate::read_with) refused with the same choices, of what it left over, and of a current year that is
/// not one of the edition.
///
/// ```
/// use sheet::{explain_with, read_with, Choices};
///
/// let strict = Choices::new().strict();
/// let explained = |text: &str| explain_with(strict, "d/MM", text, &read_with(strict, "d/MM", text, 2025).unwrap_err());
/// assert_eq!(explained("3-12"), "`/` needs `/`, found `-`");
/// assert_eq!(explained("3/12, berth 4"), "the text goes on where the pattern ends, with `, berth 4`");
/// ```
pub fn explain_with(choices: Choices, pattern: impl AsRef<[u8]>, text: impl AsRef<[u8]>, refusal: &Refusal) -> String {
    explain_by(choices, Book::english(), pattern, text, refusal)
}

/// Says the same of a text that [`read_by`] refused with the same choices and the same [book](Book).
///
/// ```
/// use sheet::{explain_by, read_by, Book, Choices};
///
/// # fn main() -> Result<(), sheet::Refusal> {
/// let mut names = Book::english().names();
/// names.short_months = ["jan", "feb", "mrt", "apr", "mei", "jun", "jul", "aug", "sep", "okt", "nov", "dec"];
/// let book = Book::from_names(names)?;
///
/// let refusal = read_by(Choices::new(), &book, "d MMM", "3 Oct", 2025).unwrap_err();
/// assert_eq!(
///     explain_by(Choices::new(), &book, "d MMM", "3 Oct", &refusal),
///     "`MMM` needs a month such as `dec`, found `Oct`"
/// );
/// # Ok(())
/// # }
/// ```
pub fn explain_by(
    choices: Choices,
    book: &Book,
    pattern: impl AsRef<[u8]>,
    text: impl AsRef<[u8]>,
    refusal: &Refusal,
) -> String {
    let sentence = match (refusal.number(), refusal.details()) {
        (raw::LITERAL_DIFFERS | raw::TEXT_LEFT, _) if !choices.strict => None,
        (raw::TEXT_LEFT, &[place]) => of_a_rest(text.as_ref(), place as usize),
        (raw::CURRENT_YEAR, &[year]) if choices.edition == Edition::Second => {
            Some(format!("{}: it is {year}", current_years(choices.edition)))
        }
        (_, &[part, place]) => {
            let (pattern, text) = (pattern.as_ref(), text.as_ref());
            of_a_part(choices, book, pattern, text, part as usize, place as usize)
        }
        _ => None,
    };
    sentence.unwrap_or_else(|| refusal.to_string())
}

/// The sentence, where the text has a rest there.
fn of_a_rest(text: &[u8], place: usize) -> Option<String> {
    let rest = text.get(place..).filter(|rest| !rest.is_empty())?;
    Some(format!(
        "{}, with {}",
        raw::refusal_text(raw::TEXT_LEFT),
        shown(rest, 0)
    ))
}

/// The sentence, where the pattern has that part. What is found is shown from where the part begins, which is behind what the
/// parts before it read; of a literal that is too long for that, from where it differs.
fn of_a_part(
    choices: Choices,
    book: &Book,
    pattern: &[u8],
    text: &[u8],
    number: usize,
    place: usize,
) -> Option<String> {
    let part = *split(pattern).ok()?.get(number)?;
    let before = Choices {
        strict: false,
        ..choices
    };
    let start = read_by(before, book, &pattern[..part.start], text, ANY_YEAR).map_or(place, |reading| reading.taken);
    let from = match place.saturating_sub(start) {
        far @ MOST_SHOWN.. => far,
        _ => 0,
    };
    let want = wanted(choices, book, &part, pattern, from);
    let rest = text.get(start..).unwrap_or_default();
    let found = match rest {
        [] => "the end of the text".to_string(),
        _ => shown(&rest[..want.most.min(rest.len())], from),
    };
    Some(format!(
        "{} needs {}, found {found}",
        shown(&pattern[part.range()], 0),
        want.words
    ))
}

/// What a part wants of a text: in words, and the most bytes that it takes of it.
struct Want {
    words: String,
    most: usize,
}

/// A literal wants the bytes that it stands for, of which those from a place on are shown, or as many of any.
fn wanted(choices: Choices, book: &Book, part: &Part, pattern: &[u8], from: usize) -> Want {
    let symbols = if choices.date { DATE_SYMBOLS } else { SYMBOLS };
    match (part.kind, pattern[part.start]) {
        (Kind::Run, symbol) if symbols.contains(&symbol) => wanted_by(choices.edition, book, symbol, part.length),
        _ => {
            let literal = stands_for(part.kind, &pattern[part.range()]);
            if choices.strict {
                words(&shown(&literal, from), literal.len())
            } else {
                bytes(literal.len(), literal.len())
            }
        }
    }
}

/// What each symbol wants at each count, as the specification's table says; in the second edition a single M as much as d.
fn wanted_by(edition: Edition, book: &Book, symbol: u8, count: usize) -> Want {
    match (symbol, count) {
        (b'M', 1) if edition == Edition::Second => digits(1, 2),
        (b'G', 1..=3) => bytes(2, 2),
        (b'G', 5) => bytes(1, 1),
        (b'G', _) => words("`Before Christ` or `Anno Domini`", 13),
        (b'y', 1 | 3 | 4) => words("a year in digits, 2147483647 at most", 11),
        (b'y', _) => year(count),
        (b'q', 2 | 3) => bytes(2, 2),
        (b'q', 4) => words("a quarter such as `4th quarter`", 11),
        (b'q', _) => bytes(1, 1),
        (b'M' | b'n', 1 | 2) => digits(count, count),
        (b'M', 3) => name("month", &book.names().short_months, 11),
        (b'M', 5) => bytes(1, 1),
        (b'M', _) => name("month", &book.names().wide_months, 11),
        (b'w', 1) => bytes(1, 2),
        (b'w', _) => bytes(2, 2),
        (b'D', 2 | 3) => digits(count, 3),
        (b'D', _) => digits(1, 3),
        (b'e', 2 | 6 | 8) => bytes(2, 2),
        (b'e', 3) => bytes(3, 3),
        (b'e', 4) => name("weekday", &book.names().wide_weekdays, 3),
        (b'e', _) => bytes(1, 1),
        (b'a', 4) => words("`a.m.` or `p.m.`", 4),
        (b'a', 5) => words("`a` or `p`", 1),
        (b'a', _) => words("`am`, `AM`, `pm` or `PM`", 2),
        (b'b', 4) => words("`a.m.`, `midnight`, `p.m.` or `noon`", 8),
        (b'b', 5) => words("`a`, `mi`, `p` or `n`", 2),
        (b'b', _) => words("`am`, `AM`, `midnight`, `pm`, `PM` or `noon`", 8),
        (b'n', 4) => digits(6, 6),
        (b'n', 5) => digits(9, 9),
        (b'n', _) => digits(3, 3),
        (b'X' | b'x', 1) => zone(symbol, "`+05` or `+0530`", 5),
        (b'X' | b'x', 2) => zone(symbol, "`+0530`", 5),
        (b'X' | b'x', 4) => zone(symbol, "`+0530` or `+053009`", 7),
        (b'X' | b'x', 5) => zone(symbol, "`+05:30` or `+05:30:09`", 9),
        (b'X' | b'x', _) => zone(symbol, "`+05:30`", 6),
        // d, h, K, H, k, m and s
        (_, 1) => digits(1, 2),
        _ => digits(2, 2),
    }
}

fn words(words: &str, most: usize) -> Want {
    Want {
        words: words.to_string(),
        most,
    }
}

/// A name of a list, of which one is shown.
fn name(what: &str, names: &[&str], shown: usize) -> Want {
    let longest = names.iter().map(|name| name.len()).max().unwrap_or_default();
    words(&format!("a {what} such as `{}`", names[shown]), longest)
}

fn bytes(least: usize, most: usize) -> Want {
    words(&counted(least, most, "byte"), most)
}

fn digits(least: usize, most: usize) -> Want {
    words(&counted(least, most, "digit"), most)
}

/// From ten digits on there are some that make no year.
fn year(count: usize) -> Want {
    let digits = counted(count, count, "digit");
    let limit = if count < 10 { "" } else { ", 2147483647 at most" };
    words(&format!("{digits}, or `-` and {digits}{limit}"), count + 1)
}

fn zone(symbol: u8, forms: &str, most: usize) -> Want {
    let zero = if symbol == b'X' { "`Z` or " } else { "" };
    words(&format!("{zero}an offset such as {forms}"), most)
}

/// The bytes that a literal stands for: an escaped quote is one, and those around a quoted part are none.
fn stands_for(kind: Kind, bytes: &[u8]) -> Vec<u8> {
    let inside = match kind {
        Kind::Run | Kind::Quotes => bytes,
        Kind::Open => &bytes[1..],
        Kind::Quoted => &bytes[1..bytes.len() - 1],
    };
    let mut literal = Vec::new();
    let mut bytes = inside.iter();
    while let Some(byte) = bytes.next() {
        literal.push(*byte);
        if *byte == b'\'' {
            bytes.next();
        }
    }
    literal
}

/// As in `one digit`, `one or two digits`, `one to three digits`.
fn counted(least: usize, most: usize, what: &str) -> String {
    let many = if most == 1 { "" } else { "s" };
    let number = match most - least {
        0 => spelled(most),
        1 => format!("{} or {}", spelled(least), spelled(most)),
        _ => format!("{} to {}", spelled(least), spelled(most)),
    };
    format!("{number} {what}{many}")
}

pub(crate) fn spelled(number: usize) -> String {
    const WORDS: [&str; 10] = [
        "no", "one", "two", "three", "four", "five", "six", "seven", "eight", "nine",
    ];
    WORDS.get(number).map_or(number.to_string(), |word| word.to_string())
}

/// Bytes as they are shown from a place on: what can't be printed is escaped, and what is long is cut.
pub(crate) fn shown(bytes: &[u8], from: usize) -> String {
    let escaped = |byte: &u8| match byte {
        b' '..=b'~' => char::from(*byte).to_string(),
        _ => byte.escape_ascii().to_string(),
    };
    let some: String = bytes.iter().skip(from).take(MOST_SHOWN).map(escaped).collect();
    let dots = |cut: bool| if cut { ".." } else { "" };
    format!("`{}{some}{}`", dots(from > 0), dots(bytes.len() > from + MOST_SHOWN))
}

#[cfg(test)]
mod tests {
    use super::{stands_for, wanted_by, SYMBOLS};
    use crate::{read, read_with, split, write, Book, Choices, Edition, Fields};

    const R: Fields = Fields {
        year: -2025,
        month: 9,
        day: 30,
        day_of_year: 337,
        week: 49,
        weekday: 3,
        nanoseconds: 0,
        offset: 19_809,
    };

    /// Of digits, of a negative number, and of the longest text that is written.
    fn taken_at_most(choices: Choices, pattern: &[u8]) -> usize {
        let texts = [
            "1".repeat(20),
            "-".to_string() + &"0".repeat(300),
            write(pattern, &R).expect("R can be written"),
        ];
        let taken = texts
            .iter()
            .filter_map(|text| read_with(choices, pattern, text, 2025).ok());
        taken.map(|reading| reading.taken).max().expect("one can be read")
    }

    /// A year that takes all digits has no most; of it as much is shown as the longest year has.
    #[test]
    fn as_much_is_shown_as_can_be_taken() {
        for edition in [Edition::First, Edition::Second] {
            for symbol in SYMBOLS {
                for count in (1..=12).chain([20, 255, 256]) {
                    is_shown_as_it_is_taken(edition, *symbol, count);
                }
            }
        }
    }

    #[track_caller]
    fn is_shown_as_it_is_taken(edition: Edition, symbol: u8, count: usize) {
        let most = wanted_by(edition, Book::english(), symbol, count).most;
        let taken = match (symbol, count) {
            (b'y', 1 | 3 | 4) => i32::MIN.to_string().len(),
            _ => taken_at_most(Choices::new().edition(edition), &vec![symbol; count]),
        };
        assert_eq!(taken, most, "{edition:?} {symbol} {count}");
    }

    /// A strict read takes just what all literals stand for, and any read takes as many bytes.
    #[test]
    fn a_literal_stands_for_what_is_taken() {
        let mut patterns = vec![Vec::new()];
        for _ in 0..7 {
            let longer = |pattern: &Vec<u8>| b"'/c".map(|byte| [&pattern[..], &[byte]].concat());
            patterns = patterns.iter().flat_map(longer).collect();
            for pattern in &patterns {
                let Ok(reading) = read(pattern, [b'x'; 7], 2025) else {
                    continue;
                };
                let parts = split(pattern).expect("it was read");
                let literals = parts.iter().map(|part| stands_for(part.kind, &pattern[part.range()]));
                let text = literals.collect::<Vec<_>>().concat();
                assert_eq!(reading.taken, text.len(), "{pattern:?}");
                let strict = read_with(Choices::new().strict(), pattern, &text, 2025);
                assert_eq!(strict, read(pattern, &text, 2025), "{pattern:?}");
            }
        }
    }
}
