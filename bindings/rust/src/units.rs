use crate::{raw, ParseUnit, Refusal};

/// What a part of a pattern is, as an editor needs it that colours patterns.
#[derive(Clone, Copy, Debug, PartialEq, Eq, Hash)]
pub enum PartUnit {
    /// Bytes that stand for themselves.
    Literal,
    /// A symbol that carries nothing.
    Symbol,
    /// A symbol that carries this unit.
    Carries(ParseUnit),
}

impl PartUnit {
    fn of_entry(entry: &i64) -> PartUnit {
        match *entry {
            raw::LITERAL => PartUnit::Literal,
            raw::CARRIES_NOTHING => PartUnit::Symbol,
            unit => PartUnit::Carries(ParseUnit::ALL[unit as usize]),
        }
    }
}

/// What each part of a pattern is, in the order of [`split`](crate::split). Refuses with 1 or 2.
///
/// ```
/// use sheet::{ParseUnit, PartUnit};
///
/// # fn main() -> Result<(), sheet::Refusal> {
/// let units = sheet::units("w/yyyy")?;
/// assert_eq!(units, [PartUnit::Symbol, PartUnit::Literal, PartUnit::Carries(ParseUnit::Year)]);
/// # Ok(())
/// # }
/// ```
pub fn units(pattern: impl AsRef<[u8]>) -> Result<Vec<PartUnit>, Refusal> {
    let pattern = pattern.as_ref();
    let mut answer = [0; raw::UNITS_ANSWER];
    let mut units = [0; raw::UNITS_ROW];
    // SAFETY: each pointer goes with the length of the slice that it comes from, and what is altered is borrowed alone.
    let number = unsafe {
        raw::sheet_units(
            pattern.as_ptr(),
            pattern.len(),
            answer.as_mut_ptr(),
            answer.len(),
            units.as_mut_ptr(),
            units.len(),
        )
    };
    Refusal::unless_accepted(number, &answer)?;
    let count = answer[0] as usize;
    Ok(units[..count].iter().map(PartUnit::of_entry).collect())
}
