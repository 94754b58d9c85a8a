use crate::explaining::{shown, MOST_SHOWN};
use crate::{
    explain_with, raw, read_with, split, units, write, Choices, Edition, Fields, ParseUnit, PartUnit, Refusal,
};
use std::cmp::Ordering;

/// Whether a pattern can be trusted to read back what it wrote.
#[derive(Clone, Copy, Debug, PartialEq, Eq, Hash)]
pub enum Verdict {
    /// On every day, at every time and offset, each part reads just what it wrote.
    Yes,
    /// The first part, from 0, that does not come back for some record of a real day, and such a record.
    No { part: usize, record: Fields },
}

/// Says whether a pattern can be trusted, in the given current year. Refuses with 1, 2, 3 or 14, the first in this order.
///
/// It takes no [book](crate::Book): its answer is proved to be the same with every one, and the record that is shown fails with every
/// one. A name is read back by the list that it was written from, in which none begins another, and no name begins with a digit.
///
/// ```
/// use sheet::Verdict;
///
/// # fn main() -> Result<(), sheet::Refusal> {
/// assert_eq!(sheet::check("d/MM", 2025)?, Verdict::Yes);
///
/// // A single M takes one byte of a month with two digits.
/// let Verdict::No { part, record } = sheet::check("d/M", 2025)? else {
///     panic!("d/M can't be trusted");
/// };
/// assert_eq!(part, 2);
/// assert!(record.month >= 10);
/// # Ok(())
/// # }
/// ```
pub fn check(pattern: impl AsRef<[u8]>, current_year: i32) -> Result<Verdict, Refusal> {
    let pattern = pattern.as_ref();
    let mut answer = [0; raw::CHECK_ANSWER];
    // SAFETY: each pointer goes with the length of the slice that it comes from, and what is altered is borrowed alone.
    let number = unsafe {
        raw::sheet_check(
            pattern.as_ptr(),
            pattern.len(),
            current_year,
            answer.as_mut_ptr(),
            answer.len(),
        )
    };
    verdict(number, answer)
}

/// Says whether a pattern can be trusted where it is read in an [edition](Edition): the first is that of [`check`]. The verdict is
/// on patterns with time symbols; whether they are read strictly makes no difference to it. Refuses as [`check`] does; in the
/// second edition also with 14 for the current years 1 to 80.
///
/// ```
/// use sheet::{check_with, Edition, Verdict};
///
/// # fn main() -> Result<(), sheet::Refusal> {
/// assert_eq!(check_with(Edition::Second, "d/M", 2025)?, Verdict::Yes);
///
/// // A single M takes a digit behind a month that has one.
/// let Verdict::No { part, record } = check_with(Edition::Second, "Mdd", 2025)? else {
///     panic!("Mdd can't be trusted");
/// };
/// assert_eq!(part, 0);
/// assert!(record.month < 10);
/// # Ok(())
/// # }
/// ```
pub fn check_with(edition: Edition, pattern: impl AsRef<[u8]>, current_year: i32) -> Result<Verdict, Refusal> {
    let pattern = pattern.as_ref();
    let mut answer = [0; raw::CHECK_ANSWER];
    // SAFETY: each pointer goes with the length of the slice that it comes from, and what is altered is borrowed alone.
    let number = unsafe {
        raw::sheet_check_with(
            edition.number(),
            pattern.as_ptr(),
            pattern.len(),
            current_year,
            answer.as_mut_ptr(),
            answer.len(),
        )
    };
    verdict(number, answer)
}

/// Says what [`check`] answers in one sentence: of a no the part, the day, what is written on it, and what the part takes of that.
/// The day is a real one, of 2024 wherever its year is not what fails. Refuses as [`check`] does.
///
/// ```
/// # fn main() -> Result<(), sheet::Refusal> {
/// assert_eq!(
///     sheet::explain_check("d/M", 2025)?,
///     "part 2, `M`: on Saturday, 23 November 2024 the text is `23/11`; `M` takes `1` of `11`"
/// );
/// assert_eq!(sheet::explain_check("d/MM", 2025)?, "on every day each part reads just what it wrote");
/// # Ok(())
/// # }
/// ```
pub fn explain_check(pattern: impl AsRef<[u8]>, current_year: i32) -> Result<String, Refusal> {
    explain_check_with(Edition::First, pattern, current_year)
}

/// Says the same of what [`check_with`] answers in an [edition](Edition).
///
/// ```
/// use sheet::{explain_check_with, Edition};
///
/// # fn main() -> Result<(), sheet::Refusal> {
/// assert_eq!(
///     explain_check_with(Edition::Second, "M5", 2025)?,
///     "part 0, `M`: on Monday, 5 February 2024 the text is `25`; `M` takes `25`, of which `2` is its own"
/// );
/// # Ok(())
/// # }
/// ```
pub fn explain_check_with(edition: Edition, pattern: impl AsRef<[u8]>, current_year: i32) -> Result<String, Refusal> {
    let pattern = pattern.as_ref();
    match check_with(edition, pattern, current_year)? {
        Verdict::Yes => Ok("on every day each part reads just what it wrote".to_string()),
        Verdict::No { part, record } => of_a_no(edition, pattern, current_year, part, &record),
    }
}

/// The sentence. The parts before the one that fails come back, so that it is read from where its own text starts.
fn of_a_no(
    edition: Edition,
    pattern: &[u8],
    current_year: i32,
    number: usize,
    record: &Fields,
) -> Result<String, Refusal> {
    let part = split(pattern)?[number];
    let symbol = &pattern[part.range()];
    let text = write(pattern, record)?;
    let start = write(&pattern[..part.start], record)?.len();
    let own = write(symbol, record)?;
    let day = write(day_shown(units(pattern)?[number]), record)?;
    let from = if start < MOST_SHOWN { 0 } else { start };
    Ok(format!(
        "part {number}, {}: on {day} the text is {}; {}",
        shown(symbol, 0),
        shown(text.as_bytes(), from),
        came_back(edition, symbol, &text.as_bytes()[start..], own.as_bytes(), current_year)
    ))
}

/// The pattern for the day, with the time or the offset where a part shows it.
fn day_shown(unit: PartUnit) -> &'static str {
    match unit {
        PartUnit::Carries(ParseUnit::Offset) => "eeee, d MMMM y 'at the offset' xxx",
        PartUnit::Carries(unit) if unit as usize >= ParseUnit::Hour as usize => "eeee, d MMMM y 'at' HH:mm:ss",
        _ => "eeee, d MMMM y",
    }
}

/// What a part takes of a text that starts with its own, or why it can't be read.
fn came_back(edition: Edition, symbol: &[u8], text: &[u8], own: &[u8], current_year: i32) -> String {
    let choices = Choices::new().edition(edition);
    let of_own = format!(", of which {} is its own", shown(own, 0));
    let reading = match read_with(choices, symbol, text, current_year) {
        Ok(reading) => reading,
        Err(refusal) => {
            let sentence = explain_with(choices, symbol, text, &refusal);
            return if own.len() < text.len() {
                sentence + &of_own
            } else {
                sentence
            };
        }
    };
    let takes = format!("{} takes {}", shown(symbol, 0), shown(&text[..reading.taken], 0));
    let value = ParseUnit::ALL.into_iter().find_map(|unit| reading.value(unit));
    match (reading.taken.cmp(&own.len()), value) {
        (Ordering::Less, _) => format!("{takes} of {}", shown(own, 0)),
        (Ordering::Greater, _) => takes + &of_own,
        (Ordering::Equal, Some(value)) => format!("{takes} as {value}"),
        (Ordering::Equal, None) => takes,
    }
}

pub(crate) fn verdict(number: u32, answer: [i64; raw::CHECK_ANSWER]) -> Result<Verdict, Refusal> {
    Refusal::unless_accepted(number, &answer)?;
    Ok(match answer {
        [1, ..] => Verdict::Yes,
        [_, part, record @ ..] => Verdict::No {
            part: part as usize,
            record: Fields::of_row(record),
        },
    })
}
