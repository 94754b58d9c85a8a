//! Request [7]: where every digit written for an offset is zero, the sign is a plus; the Rust writes a minus for each offset below
//! zero. Which zones that is of is docs/DIFFERENCES.md's range for each count; the text and its places are the Rust's own.

use crate::calendar::Fields;
use crate::walk::{Pair, Parts};

/// The Rust's text with a plus for each minus of a zone whose digits are all zero, if it has such a zone.
pub fn with_plus(pair: Pair, pattern: &str, fields: &Fields) -> Option<String> {
    if pair == Pair::Date {
        return None;
    }
    let parts = Parts::of(pattern);
    let zones: Vec<usize> = (0..parts.count())
        .filter(|part| {
            parts
                .run(*part)
                .is_some_and(|(symbol, count)| is_nothing(symbol, count, fields.offset))
        })
        .collect();
    if zones.is_empty() {
        return None;
    }
    let mut written = parts.write_from(0, fields).ok()?;
    for zone in zones {
        let sign = written.places[zone];
        written.text.replace_range(sign..=sign, "+");
    }
    Some(written.text)
}

/// The counts 4 and 5 write seconds where they are not zero.
fn is_nothing(symbol: u8, count: usize, offset: i32) -> bool {
    matches!(symbol, b'X' | b'x') && !matches!(count, 4 | 5) && (-59..=-1).contains(&offset)
}
