use crate::{raw, Refusal};
use std::ops::Range;

/// What a part of a pattern is.
#[derive(Clone, Copy, Debug, PartialEq, Eq, Hash)]
pub enum Kind {
    /// Equal bytes side by side: a symbol, or bytes that stand for themselves.
    Run,
    /// Pairs of quotes, each of which stands for one.
    Quotes,
    /// Bytes in quotes.
    Quoted,
    /// Bytes behind a quote that no other closes.
    Open,
}

impl Kind {
    const ALL: [Kind; 4] = [Kind::Run, Kind::Quotes, Kind::Quoted, Kind::Open];
}

/// A part of a pattern.
#[derive(Clone, Copy, Debug, PartialEq, Eq, Hash)]
pub struct Part {
    pub kind: Kind,
    /// Where it starts in the pattern, from 0.
    pub start: usize,
    /// How many bytes of the pattern it has, quotes included.
    pub length: usize,
}

/// The entries of a part in a row: kind, start and length.
const ENTRIES: usize = 3;

impl Part {
    /// Its place in the pattern.
    pub fn range(&self) -> Range<usize> {
        self.start..self.start + self.length
    }

    fn of_row(row: &[i64]) -> Part {
        Part {
            kind: Kind::ALL[row[0] as usize],
            start: row[1] as usize,
            length: row[2] as usize,
        }
    }
}

/// The parts of a pattern, in order. Refuses with 1 or 2.
///
/// ```
/// use sheet::{Kind, Part};
///
/// # fn main() -> Result<(), sheet::Refusal> {
/// let pattern = "h 'o''clock'";
/// let parts = sheet::split(pattern)?;
/// assert_eq!(parts.len(), 3);
/// assert_eq!(parts[2], Part { kind: Kind::Quoted, start: 2, length: 10 });
/// assert_eq!(&pattern[parts[2].range()], "'o''clock'");
/// # Ok(())
/// # }
/// ```
pub fn split(pattern: impl AsRef<[u8]>) -> Result<Vec<Part>, Refusal> {
    let pattern = pattern.as_ref();
    let mut answer = [0; raw::SPLIT_ANSWER];
    let mut parts = [0; raw::SPLIT_PARTS];
    // SAFETY: each pointer goes with the length of the slice that it comes from, and what is altered is borrowed alone.
    let number = unsafe {
        raw::sheet_split(
            pattern.as_ptr(),
            pattern.len(),
            answer.as_mut_ptr(),
            answer.len(),
            parts.as_mut_ptr(),
            parts.len(),
        )
    };
    Refusal::unless_accepted(number, &answer)?;
    let count = answer[0] as usize;
    Ok(parts.chunks(ENTRIES).take(count).map(Part::of_row).collect())
}
