//! Request [9]: lists, which the Rust does not have. What a line is, and that its row holds it, is read off the specification; each
//! line is read as a text by itself, by the Rust as any other.

use crate::choices::Choices;
use crate::expected::{expected, Expected};
use crate::request::Request;

/// A newline ends a line, a last one without counts, and an empty text has none.
pub fn lines(text: &[u8]) -> Vec<&[u8]> {
    let mut lines: Vec<&[u8]> = text.split(|byte| *byte == b'\n').collect();
    if lines.last().is_some_and(|last| last.is_empty()) {
        lines.pop();
    }
    lines
}

/// The line for a list that is not refused. Where a line of it is not as the Rust reads it, that decides who decides it.
pub fn listed(choices: Choices, pattern: &[u8], text: &[u8], now: i32) -> Expected {
    let read = |line: &[u8]| {
        expected(&Request::Read {
            choices,
            pattern: pattern.to_vec(),
            text: line.to_vec(),
            now,
            book: None,
        })
    };
    let answers: Vec<Expected> = lines(text).into_iter().map(read).collect();
    let mut line = format!("list {}", answers.len());
    for answer in &answers {
        line += &format!(" {}", cells(answer.line()));
    }
    if answers
        .iter()
        .any(|answer| matches!(answer, Expected::Excepted(_)))
    {
        Expected::Excepted(line)
    } else if answers
        .iter()
        .any(|answer| matches!(answer, Expected::Strict(_)))
    {
        Expected::Strict(line)
    } else {
        Expected::Accepted(line)
    }
}

/// The code, the day, the month and the year of a line, by the answer to its text. Of an answer that no program gives it is that.
fn cells(answer: &str) -> String {
    match answer.split(' ').collect::<Vec<_>>()[..] {
        ["read", _, _, _, year, month, day, ..] => format!("0:{day}:{month}:{year}"),
        ["refused", code, ..] => format!("{code}:0:0:0"),
        _ => answer.to_string(),
    }
}

#[cfg(test)]
mod tests {
    use super::lines;

    #[test]
    fn a_newline_ends_a_line_and_the_last_needs_none() {
        let empty: &[u8] = b"";
        assert_eq!(lines(b""), [empty; 0]);
        assert_eq!(lines(b"\n"), [b""]);
        assert_eq!(lines(b"\n\n"), [b"", b""]);
        assert_eq!(lines(b"a"), [b"a"]);
        assert_eq!(lines(b"a\n"), [b"a"]);
        assert_eq!(lines(b"a\r\n\nb"), [&b"a\r"[..], b"", b"b"]);
    }
}
