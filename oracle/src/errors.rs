//! The Rust's error, with the kinds that formatting, parsing and the calendar give.

pub(crate) mod invalid_format {
    include!(concat!(
        env!("ASTROLABE_SRC"),
        "/src/errors/invalid_format.rs"
    ));
}

/// Ours, in the place of the Rust's errors/out_of_range.rs, which is not among its files here. Its wording is ours as well, and
/// nothing hangs on it.
pub(crate) mod out_of_range {
    use super::AstrolabeError;

    pub(crate) fn create_simple_oor(
        name: &str,
        min: i128,
        max: i128,
        value: i128,
    ) -> AstrolabeError {
        AstrolabeError::OutOfRange(format!("{name} is {value}, and not {min} to {max}"))
    }

    pub(crate) fn create_conditional_oor(
        name: &str,
        min: i128,
        max: i128,
        value: i128,
        condition: String,
    ) -> AstrolabeError {
        let wording = format!("{name} is {value}, and not {min} to {max} {condition}");
        AstrolabeError::OutOfRange(wording)
    }
}

#[derive(Debug)]
pub(crate) enum AstrolabeError {
    InvalidFormat(invalid_format::InvalidFormat),
    OutOfRange(String),
}
