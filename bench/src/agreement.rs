//! Nothing is measured unless ours and the Rust give the same texts and values.

use crate::ours::{self, Reading};
use crate::records::{Record, CURRENT_YEAR};
use harness::walk::{self, Pair};
use harness::Fields;

/// The first difference at a pattern, if there is one.
pub fn difference(pattern: &str, records: &[Record]) -> Option<String> {
    records
        .iter()
        .find_map(|record| agree(pattern, &record.fields).err())
        .map(|what| format!("ours and the Rust differ at {pattern:?}: {what}"))
}

fn agree(pattern: &str, fields: &Fields) -> Result<(), String> {
    let text = walk::write(Pair::Full, pattern, fields).map_err(|_| "the Rust refuses to write")?;
    held(&ours_wrote(pattern, fields), &Ok(text.clone()))?;
    let theirs = walk::read(Pair::Full, pattern, &text, CURRENT_YEAR).map_err(|_| "the Rust refuses to read")?;
    let reading = Reading {
        taken: theirs.taken,
        mask: theirs.mask,
        values: theirs.values,
    };
    held(&ours::read(pattern.as_bytes(), text.as_bytes()), &Ok(reading))
}

fn ours_wrote(pattern: &str, fields: &Fields) -> Result<String, u32> {
    let mut out = [0; ours::ROOM];
    let length = ours::write(pattern.as_bytes(), fields, &mut out)?;
    Ok(String::from_utf8_lossy(&out[..length]).into_owned())
}

fn held<T: PartialEq + std::fmt::Debug>(ours: &T, theirs: &T) -> Result<(), String> {
    if ours == theirs {
        return Ok(());
    }
    Err(format!("{ours:?}, the Rust {theirs:?}"))
}
