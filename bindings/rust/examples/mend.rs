//! Mends a pattern: mend [second] PATTERN
//!
//! Prints the mended pattern, and a sentence for each change; of a pattern that reads back what it writes just the pattern. The word
//! `second` is for patterns that are read in the second edition.

use sheet::{mend_with, Edition, Refusal};
use std::env;
use std::process::ExitCode;

/// What is mended does not depend on the current year.
const ANY_YEAR: i32 = 2025;

fn main() -> ExitCode {
    let words: Vec<String> = env::args().skip(1).collect();
    let words: Vec<&str> = words.iter().map(String::as_str).collect();
    let (edition, pattern) = match words[..] {
        [pattern] => (Edition::First, pattern),
        ["second", pattern] => (Edition::Second, pattern),
        _ => {
            eprintln!("usage: mend [second] PATTERN");
            return ExitCode::from(2);
        }
    };
    match lines(edition, pattern) {
        Ok(lines) => {
            print!("{lines}");
            ExitCode::SUCCESS
        }
        Err(refusal) => {
            eprintln!("mend: {refusal}");
            ExitCode::FAILURE
        }
    }
}

/// The mended pattern, and below it the changes.
pub fn lines(edition: Edition, pattern: &str) -> Result<String, Refusal> {
    let mending = mend_with(edition, pattern, ANY_YEAR)?;
    let mut lines = format!("{}\n", String::from_utf8_lossy(&mending.pattern));
    for sentence in mending.sentences() {
        lines += &format!("  {sentence}\n");
    }
    Ok(lines)
}
