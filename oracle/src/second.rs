//! Request [6]: the second edition, which the Rust does not have. A single M is read as the Rust reads a single d, and a year of two
//! digits is found by trying the years around the current one; how far a read came, and all else, is the Rust's own.

use crate::part::{Carried, MONTH};

/// The part that the Rust reads in the place of this one.
pub fn stand_in(part: &str) -> &str {
    match part {
        "M" => "d",
        _ => part,
    }
}

/// What a part gives, by the bytes that it took and by what the Rust gave for the one in its place.
pub fn given(part: &str, taken: &str, now: i32, by_the_rust: Carried) -> Carried {
    match part {
        "M" => Carried {
            unit: MONTH,
            ..by_the_rust
        },
        "yy" => Carried {
            value: year_around(now, taken).unwrap_or(by_the_rust.value),
            ..by_the_rust
        },
        _ => by_the_rust,
    }
}

/// "The one year from current year - 80 to current year + 19" that ends with these digits; none ends with a sign and digits.
fn year_around(now: i32, digits: &str) -> Option<i64> {
    (now - 80..=now + 19)
        .find(|year| format!("{year:02}").ends_with(digits))
        .map(i64::from)
}
