use crate::explaining::{shown, spelled, MOST_SHOWN};
use crate::{check, raw, split, units, Edition, PartUnit, Refusal, Verdict};
use std::error::Error;
use std::fmt;

/// What was altered at one place of a pattern. Printed, it is a sentence; [`Mending::sentences`] says of spaces also why.
#[derive(Clone, Copy, Debug, PartialEq, Eq, Hash)]
pub struct Change {
    /// Where in the mended pattern it is, from 0.
    pub place: usize,
    /// The byte that was put there.
    pub byte: u8,
    /// How often it stood there before.
    pub before: usize,
    /// How often it stands there now.
    pub after: usize,
}

impl Change {
    fn of_row(row: &[i64]) -> Change {
        Change {
            place: row[0] as usize,
            byte: row[1] as u8,
            before: row[2] as usize,
            after: row[3] as usize,
        }
    }

    /// A number that no row can hold is more than any pattern has, and stays so.
    fn row(&self) -> [i64; raw::CHANGE] {
        let entry = |number: usize| i64::try_from(number).unwrap_or(i64::MAX);
        [
            entry(self.place),
            self.byte.into(),
            entry(self.before),
            entry(self.after),
        ]
    }

    /// Its byte so many times, as far as it is shown.
    fn shown(&self, times: usize) -> String {
        shown(&vec![self.byte; times.min(MOST_SHOWN + 1)], 0)
    }
}

impl fmt::Display for Change {
    fn fmt(&self, f: &mut fmt::Formatter<'_>) -> fmt::Result {
        let now = self.shown(self.after);
        match (self.before, self.byte) {
            (0, b'\'') => f.write_str("the quote at the end was closed"),
            (0, b' ') => write!(f, "{} put in", counted_spaces(self.after)),
            (0, _) => write!(f, "{now} put in"),
            (before, _) => write!(f, "{} became {now}", self.shown(before)),
        }
    }
}

/// As in `a space`, `two spaces`.
fn counted_spaces(count: usize) -> String {
    match count {
        1 => "a space".to_string(),
        _ => format!("{} spaces", spelled(count)),
    }
}

/// A mended pattern, and what was altered of the one that was given. Printed, it is the list of the changes as sentences, a line each.
#[derive(Clone, Debug, PartialEq, Eq, Hash)]
pub struct Mending {
    /// The check says yes to it.
    pub pattern: Vec<u8>,
    /// In the order of their places; none where the check says yes to the pattern that was given.
    pub changes: Vec<Change>,
}

/// Mends a pattern to which [`check()`] says no, so that it says yes, and lists what was altered. A pattern to which it says yes
/// comes back as it is.
///
/// A single `M` becomes `MM`, `yy` becomes `yyyy`, five or six `y` become seven, and a quoted part that nothing closes is closed where
/// it ends with an escaped quote. Behind a part that a digit from the rest of the pattern can still disturb a space is put in, behind
/// five `X` or `x` always two. Nothing else is altered.
///
/// Refuses with 1, 2, 3 or 14, the first in this order, and else with 30 where the mended pattern has over 256 bytes.
///
/// ```
/// # fn main() -> Result<(), sheet::Refusal> {
/// let mending = sheet::mend("d/M/yy", 2025)?;
/// assert_eq!(mending.pattern, b"d/MM/yyyy");
/// assert_eq!(mending.to_string(), "`M` became `MM`\n`yy` became `yyyy`");
/// assert_eq!(sheet::undo(&mending.pattern, &mending.changes).unwrap(), b"d/M/yy");
///
/// let mending = sheet::mend("dH", 2025)?;
/// assert_eq!(mending.pattern, b"d H");
/// assert_eq!(mending.to_string(), "a space after `d`, since `H` can begin with a digit");
///
/// assert_eq!(sheet::mend("d/MM", 2025)?.changes, []);
/// # Ok(())
/// # }
/// ```
pub fn mend(pattern: impl AsRef<[u8]>, current_year: i32) -> Result<Mending, Refusal> {
    mend_with(Edition::First, pattern, current_year)
}

/// Mends a pattern that is read in an [edition](Edition): the first is that of [`mend`]. In the second a single `M` stays, and gets a
/// space where a digit can follow it. Refuses as [`mend`] does; in the second edition also with 14 for the current years 1 to 80.
///
/// ```
/// use sheet::{mend_with, Edition};
///
/// # fn main() -> Result<(), sheet::Refusal> {
/// assert_eq!(mend_with(Edition::First, "M5", 2025)?.pattern, b"MM5");
/// assert_eq!(mend_with(Edition::Second, "M5", 2025)?.pattern, b"M 5");
/// # Ok(())
/// # }
/// ```
pub fn mend_with(edition: Edition, pattern: impl AsRef<[u8]>, current_year: i32) -> Result<Mending, Refusal> {
    let pattern = pattern.as_ref();
    let mut out = vec![0; raw::LONGEST_PATTERN];
    let mut changes = [0; raw::CHANGES_ROW];
    let mut answer = [0; raw::MEND_ANSWER];
    // SAFETY: each pointer goes with the length of the slice that it comes from, and what is altered is borrowed alone.
    let number = unsafe {
        raw::sheet_mend(
            edition.number(),
            pattern.as_ptr(),
            pattern.len(),
            current_year,
            out.as_mut_ptr(),
            out.len(),
            changes.as_mut_ptr(),
            changes.len(),
            answer.as_mut_ptr(),
            answer.len(),
        )
    };
    Refusal::unless_accepted(number, &answer)?;
    let [length, count] = answer.map(|entry| entry as usize);
    out.truncate(length);
    Ok(Mending {
        pattern: out,
        changes: changes.chunks(raw::CHANGE).take(count).map(Change::of_row).collect(),
    })
}

/// Changes that are none of a pattern: more than 128 of them, or one that does not fit it.
#[derive(Clone, Copy, Debug, PartialEq, Eq, Hash)]
pub struct Misfit;

impl fmt::Display for Misfit {
    fn fmt(&self, f: &mut fmt::Formatter<'_>) -> fmt::Result {
        f.write_str(raw::refusal_text(raw::MISFIT))
    }
}

impl Error for Misfit {}

/// Undoes changes: the pattern with what stood at the place of each before. With a mended pattern and all its changes that is the
/// pattern which was mended.
///
/// The changes are in the order of their places. One fits where it stands behind the bytes of the one before it, its byte stands
/// there as often as it says, and stood there no more often.
///
/// ```
/// # fn main() -> Result<(), sheet::Refusal> {
/// let mending = sheet::mend("yyd", 2025)?;
/// assert_eq!(mending.pattern, b"yyyy d");
/// assert_eq!(sheet::undo("yyyy d", &mending.changes).unwrap(), b"yyd");
/// assert_eq!(sheet::undo("yyyy d", &mending.changes[1..]).unwrap(), b"yyyyd");
/// assert!(sheet::undo("yyyy/d", &mending.changes).is_err());
/// # Ok(())
/// # }
/// ```
pub fn undo(pattern: impl AsRef<[u8]>, changes: &[Change]) -> Result<Vec<u8>, Misfit> {
    let pattern = pattern.as_ref();
    let changes: Vec<i64> = changes.iter().flat_map(Change::row).collect();
    let mut answer = [0; raw::UNDO_ANSWER];
    // No change takes a byte for more than stand there, so that the pattern has room for what it was.
    let mut out = vec![0; pattern.len()];
    // SAFETY: each pointer goes with the length of the slice that it comes from, and what is altered is borrowed alone.
    let number = unsafe {
        raw::sheet_undo(
            pattern.as_ptr(),
            pattern.len(),
            changes.as_ptr(),
            changes.len(),
            out.as_mut_ptr(),
            out.len(),
            answer.as_mut_ptr(),
            answer.len(),
        )
    };
    if number != raw::ACCEPTED {
        return Err(Misfit);
    }
    out.truncate(answer[0] as usize);
    Ok(out)
}

impl Mending {
    /// The same with one change undone, counted from 0: the places of those behind it move. Of all others the list stays, so that a
    /// screen can offer each by itself.
    ///
    /// ```
    /// # fn main() -> Result<(), sheet::Refusal> {
    /// let mending = sheet::mend("yyd", 2025)?;
    /// let kept = mending.without(0).unwrap();
    /// assert_eq!(kept.pattern, b"yy d");
    /// assert_eq!(kept.to_string(), "a space after `yy`, since `d` can begin with a digit");
    /// assert_eq!(kept.without(0).unwrap().pattern, b"yyd");
    /// assert!(kept.without(1).is_err());
    /// # Ok(())
    /// # }
    /// ```
    pub fn without(&self, change: usize) -> Result<Mending, Misfit> {
        let undone = *self.changes.get(change).ok_or(Misfit)?;
        let pattern = undo(&self.pattern, &[undone])?;
        let moved = |other: &Change| Change {
            place: other.place.saturating_sub(undone.after - undone.before),
            ..*other
        };
        let (before, behind) = (&self.changes[..change], &self.changes[change + 1..]);
        Ok(Mending {
            pattern,
            changes: before.iter().copied().chain(behind.iter().map(moved)).collect(),
        })
    }

    /// Each change in a sentence: what became of a part, or behind which part spaces were put, and what can follow it.
    ///
    /// ```
    /// # fn main() -> Result<(), sheet::Refusal> {
    /// assert_eq!(
    ///     sheet::mend("yyXXXXX.5 'o''", 2025)?.sentences(),
    ///     [
    ///         "`yy` became `yyyy`",
    ///         "two spaces after `XXXXX`, since `5` behind `.` is a digit",
    ///         "the quote at the end was closed",
    ///     ]
    /// );
    /// # Ok(())
    /// # }
    /// ```
    pub fn sentences(&self) -> Vec<String> {
        self.changes.iter().map(|change| self.sentence(change)).collect()
    }

    fn sentence(&self, change: &Change) -> String {
        let why = match (change.before, change.byte) {
            (0, b' ') => self.why_spaces(change),
            _ => None,
        };
        why.unwrap_or_else(|| change.to_string())
    }

    /// The sentence for spaces that were put behind a part; none where the pattern is another than the changes are of.
    fn why_spaces(&self, change: &Change) -> Option<String> {
        let before = self.pattern.get(..change.place)?;
        let rest = self.pattern.get(change.place.checked_add(change.after)?..)?;
        let disturbed = &before[split(before).ok()?.last()?.range()];
        let why = match change.after {
            1 => first_digit(rest)?,
            _ => second_digit(disturbed, rest)?,
        };
        let spaces = counted_spaces(change.after);
        Some(format!("{spaces} after {}, since {why}", shown(disturbed, 0)))
    }
}

impl fmt::Display for Mending {
    fn fmt(&self, f: &mut fmt::Formatter<'_>) -> fmt::Result {
        f.write_str(&self.sentences().join("\n"))
    }
}

/// A part of the rest of a pattern, by its number there: its bytes, and whether it stands for itself.
fn part(rest: &[u8], number: usize) -> Option<(&[u8], bool)> {
    let part = split(rest).ok()?.get(number)?.range();
    let is_literal = units(rest).ok()?[number] == PartUnit::Literal;
    Some((&rest[part], is_literal))
}

/// Which digit can stand right behind a part that these bytes of the pattern follow.
fn first_digit(rest: &[u8]) -> Option<String> {
    let (next, is_literal) = part(rest, 0)?;
    Some(with_first_digit(next, is_literal, ""))
}

fn with_first_digit(part: &[u8], is_literal: bool, where_it_is: &str) -> String {
    let digit = match (is_literal, part) {
        (true, [_]) => "is a digit",
        (true, _) => "begins with a digit",
        (false, _) => "can begin with a digit",
    };
    format!("{}{where_it_is} {digit}", shown(part, 0))
}

/// Which digit can stand a byte further: the next part's own, or the first of the one behind that where the next can be one byte.
fn second_digit(disturbed: &[u8], rest: &[u8]) -> Option<String> {
    let (next, is_literal) = part(rest, 0)?;
    let next_shown = shown(next, 0);
    if fails_before(disturbed, next) {
        let has = if is_literal { "has" } else { "can have" };
        return Some(format!("{next_shown} {has} a digit as its second byte"));
    }
    let (behind, is_literal) = part(rest, 1)?;
    Some(with_first_digit(behind, is_literal, &format!(" behind {next_shown}")))
}

/// Whether the check says no to a part because of another alone.
fn fails_before(part: &[u8], other: &[u8]) -> bool {
    const ANY_YEAR: i32 = 2025;
    let verdict = check([part, other].concat(), ANY_YEAR);
    matches!(verdict, Ok(Verdict::No { part: 0, .. }))
}
