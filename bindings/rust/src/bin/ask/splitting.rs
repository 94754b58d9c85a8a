//! `split P`

use crate::answers::refused;
use crate::marks::ENTRY;
use crate::words::Words;
use sheet::{raw, Kind, Part, Refusal};

pub fn answer(mut words: Words) -> Option<String> {
    let pattern = words.bytes()?;
    words.end()?;
    Some(match sheet::split(&pattern) {
        Ok(found) => parts(&found),
        Err(refusal) => refused_split(&refusal, &row_left(&pattern)),
    })
}

fn parts(parts: &[Part]) -> String {
    let mut line = format!("parts {}", parts.len());
    for part in parts {
        line += &format!(" {}:{}:{}", kind(part.kind), part.start, part.length);
    }
    line
}

fn kind(kind: Kind) -> &'static str {
    match kind {
        Kind::Run => "run",
        Kind::Quotes => "quotes",
        Kind::Quoted => "quoted",
        Kind::Open => "open",
    }
}

/// A refused split has no part: where it has, that is the answer.
fn refused_split(refusal: &Refusal, row: &[i64]) -> String {
    match row.iter().position(|entry| *entry != ENTRY) {
        Some(place) => format!("altered {place}"),
        None => refused(refusal),
    }
}

/// What the split leaves in a row that was lent for parts, which the safe function does not show.
fn row_left(pattern: &[u8]) -> [i64; raw::SPLIT_PARTS] {
    let mut answer = [ENTRY; raw::SPLIT_ANSWER];
    let mut parts = [ENTRY; raw::SPLIT_PARTS];
    // SAFETY: each pointer goes with the length of the slice that it comes from, and what is altered is borrowed alone.
    unsafe {
        raw::sheet_split(
            pattern.as_ptr(),
            pattern.len(),
            answer.as_mut_ptr(),
            answer.len(),
            parts.as_mut_ptr(),
            parts.len(),
        );
    }
    parts
}

#[cfg(test)]
mod tests {
    use super::{refused_split, row_left, ENTRY};

    #[test]
    fn a_refused_split_that_has_parts_is_shown() {
        let refusal = sheet::split("d\0").unwrap_err();
        let mut row = row_left(b"d\0");
        assert_eq!(refused_split(&refusal, &row), "refused 2 1");
        row[767] = 0;
        assert_eq!(refused_split(&refusal, &row), "altered 767");
        assert!(row_left(b"d").iter().all(|entry| *entry != ENTRY));
    }
}
