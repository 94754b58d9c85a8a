//! Families of lists: lines that are good and damaged, with ends of every kind, and rows of all sizes.

use super::random::Random;
use super::{current_year, fields, literals, patterns, texts};
use crate::choices::Choices;
use crate::lists::lines;
use crate::request::{Request, MOST_ROWS};

/// Beside the pattern and a book it keeps a line under the protocol's 20,000 bytes.
const LONGEST: usize = 9000;

/// The longest line, one byte more, and the like.
const AROUND_THE_LIMIT: [usize; 4] = [2047, 2048, 2049, 2050];

pub fn list(choices: Choices, turn: usize, random: &mut Random) -> Request {
    let pattern = match random.one_in(2) {
        true => of_a_date(random),
        false => patterns::pattern_in(choices.edition, turn, random),
    };
    let mut text = text(choices, &pattern, random);
    text.truncate(LONGEST.saturating_sub(pattern.len()));
    Request::List {
        rows: rows(lines(&text).len(), random),
        now: current_year(choices.edition, random),
        choices,
        pattern,
        text,
        book: None,
    }
}

/// Day, month and year at some of their counts, in any order, often with something between.
fn of_a_date(random: &mut Random) -> Vec<u8> {
    let parts: [&[u8]; 12] = [
        b"d", b"dd", b"M", b"MM", b"MMM", b"MMMM", b"yy", b"yyyy", b"y", b"yyyyy", b"D", b"eee",
    ];
    let between: [&[u8]; 6] = [b"/", b"-", b". ", b"", b"' '", b"\r"];
    let mut pattern = Vec::new();
    for _ in 0..random.between(1, 4) {
        pattern.extend(random.pick(&parts));
        pattern.extend(random.pick(&between));
    }
    pattern
}

/// Mostly some lines for the pattern; at times none that ends, newlines alone, or many lines.
fn text(choices: Choices, pattern: &[u8], random: &mut Random) -> Vec<u8> {
    let count = match random.below(16) {
        0 => return line(choices, pattern, random),
        1 => return vec![b'\n'; random.below(40)],
        2 => return around_a_long_one(choices, pattern, random),
        3 => random.between(40, 400),
        _ => random.between(1, 12),
    };
    let mut text = Vec::new();
    for _ in 0..count {
        text.extend(line(choices, pattern, random));
        text.extend(end(random));
    }
    if random.one_in(2) {
        text.pop();
    }
    text
}

fn line(choices: Choices, pattern: &[u8], random: &mut Random) -> Vec<u8> {
    let fields = fields::in_range(random);
    let text = if choices.strict {
        literals::text
    } else {
        texts::text
    };
    text(choices.pair, pattern, &fields, random)
}

/// Good lines on both sides of one whose length is at the limit.
fn around_a_long_one(choices: Choices, pattern: &[u8], random: &mut Random) -> Vec<u8> {
    let mut long = line(choices, pattern, random);
    long.retain(|byte| *byte != b'\n');
    long.resize(random.pick(&AROUND_THE_LIMIT), random.pick(b"0/\r"));
    [
        line(choices, pattern, random),
        long,
        line(choices, pattern, random),
    ]
    .join(&b'\n')
}

/// A newline, at times behind a carriage return or before another; rarely a return alone, which ends no line.
fn end(random: &mut Random) -> &'static [u8] {
    let ends: [&[u8]; 12] = [
        b"\n", b"\n", b"\n", b"\n", b"\n", b"\n", b"\r\n", b"\r\n", b" \n", b"\n\n", b"\r\r\n",
        b"\r",
    ];
    random.pick(&ends)
}

/// Mostly enough, often just enough, at times one too few or none.
fn rows(lines: usize, random: &mut Random) -> usize {
    match random.below(16) {
        0 => 0,
        1 | 2 => lines.saturating_sub(1),
        3 => random.below(lines + 1),
        4..=9 => lines,
        10 => lines + 1,
        11 if random.one_in(16) => MOST_ROWS,
        _ => lines + random.below(40),
    }
}
