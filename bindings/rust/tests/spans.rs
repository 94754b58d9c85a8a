//! Where in the text each unit was read: all that the last part took that gave it, by every reader.

use sheet::ParseUnit::{self, *};
use sheet::{raw, read, read_date, read_with, split, units, Choices, Edition, PartUnit, Reading};
use std::ops::Range;

const RECORDED: &str = include_str!("recorded.txt");

type Spans = [(ParseUnit, Range<usize>)];

/// Texts that a strict read takes as well, with the spans of all units that are read.
const SAMPLES: [(&str, &str, &Spans); 8] = [
    ("y", "-5", &[(Year, 0..2)]),
    ("yyyyy", "-02025", &[(Year, 0..6)]),
    ("X", "Z", &[(Offset, 0..1)]),
    (
        "HH:mmXXX",
        "07:05-05:30",
        &[(Hour, 0..2), (Minute, 3..5), (Offset, 5..11)],
    ),
    ("'of 'MMMM y", "of December 2025", &[(Year, 12..16), (Month, 3..11)]),
    ("eee, d", "Wed, 14", &[(DayOfMonth, 5..7)]),
    ("d d", "3 14", &[(DayOfMonth, 2..4)]),
    ("d d", "31 4", &[(DayOfMonth, 3..4)]),
];

fn spans(reading: &Reading) -> Vec<(ParseUnit, Range<usize>)> {
    let span = |unit| Some((unit, reading.span(unit)?));
    ParseUnit::ALL.into_iter().filter_map(span).collect()
}

#[test]
fn by_each_reader_with_time_symbols() {
    for (pattern, text, expected) in SAMPLES {
        let strict = Choices::new().strict();
        for reading in [
            read(pattern, text, 2025),
            read_with(Choices::new(), pattern, text, 2025),
            read_with(strict, pattern, text, 2025),
            read_with(Choices::new().edition(Edition::Second), pattern, text, 2025),
            read_with(strict.edition(Edition::Second), pattern, text, 2025),
        ] {
            assert_eq!(spans(&reading.expect(pattern)), expected, "{pattern} on {text}");
        }
    }
}

/// A single M takes one byte in the first edition, and as many digits as d does in the second.
#[test]
fn of_a_single_month() {
    let second = Choices::new().edition(Edition::Second);
    for (text, first, in_second) in [("12/7", 0..1, 0..2), ("7/12", 0..1, 0..1), ("07", 0..1, 0..2)] {
        for choices in [second, second.date()] {
            let reading = read_with(choices, "M", text, 2025).expect("it is read");
            assert_eq!(spans(&reading), [(Month, in_second.clone())], "{text}");
        }
        let reading = read("M", text, 2025).expect("it is read");
        assert_eq!(spans(&reading), [(Month, first)], "{text}");
    }
}

#[test]
fn by_each_reader_of_dates() {
    let (pattern, text) = ("HH d/MM", "HH 3/12");
    let date = Choices::new().date();
    for reading in [
        read_date(pattern, text, 2025),
        read_with(date, pattern, text, 2025),
        read_with(date.strict(), pattern, text, 2025),
        read_with(date.edition(Edition::Second), pattern, text, 2025),
    ] {
        assert_eq!(spans(&reading.expect(pattern)), [(Month, 5..7), (DayOfMonth, 3..4)]);
    }
}

/// Up to the last byte that a text may have.
#[test]
fn in_the_longest_text() {
    let year = "0".repeat(raw::LONGEST_TEXT - 2);
    let reading = read("y/d", year.clone() + "/5", 2025).expect("it is not too long");
    assert_eq!(spans(&reading), [(Year, 0..year.len()), (DayOfMonth, 2047..2048)]);
}

struct Read {
    choices: Choices,
    pattern: Vec<u8>,
    text: Vec<u8>,
    year: i32,
    reading: Reading,
}

/// Two digits a byte; a lone `-` is none.
fn bytes(word: &str) -> Vec<u8> {
    let byte = |place| u8::from_str_radix(&word[place..place + 2], 16).expect("two digits");
    (0..word.len() / 2).map(|pair| byte(2 * pair)).collect()
}

/// What a recorded line reads, where it asks for a read that is accepted.
fn read_by(line: &str) -> Option<Read> {
    let (line, edition) = match line.strip_suffix(" second") {
        Some(line) => (line, Edition::Second),
        None => (line, Edition::First),
    };
    let choices = Choices::new().edition(edition);
    let (line, choices) = match line.strip_suffix(" strict") {
        Some(line) => (line, choices.strict()),
        None => (line, choices),
    };
    let (choices, pattern, text, year) = match line.split(' ').collect::<Vec<_>>()[..] {
        ["read", pattern, text, year] => (choices, pattern, text, year),
        ["read_date", pattern, text, year] => (choices.date(), pattern, text, year),
        _ => return None,
    };
    let (pattern, text, year) = (bytes(pattern), bytes(text), year.parse().expect("a year"));
    let reading = read_with(choices, &pattern, &text, year).ok()?;
    Some(Read {
        choices,
        pattern,
        text,
        year,
        reading,
    })
}

#[test]
fn each_is_read_again_by_its_own_part() {
    let mut tried = 0;
    for read in RECORDED.lines().filter_map(read_by) {
        let parts = split(&read.pattern).expect("it was read");
        let carried = units(&read.pattern).expect("it was read");
        for (unit, span) in spans(&read.reading) {
            let last = carried.iter().rposition(|part| *part == PartUnit::Carries(unit));
            let own = &read.pattern[parts[last.expect("a part gave it")].range()];
            let again = read_with(read.choices, own, &read.text[span.clone()], read.year).expect("it was read");
            assert_eq!(again.taken, span.len(), "{unit:?} by {own:?}");
            assert_eq!(again.value(unit), read.reading.value(unit), "{unit:?} by {own:?}");
            tried += 1;
        }
    }
    assert!(tried > 1000, "only {tried} were tried");
}

#[test]
fn they_lie_apart_in_the_bytes_read() {
    let mut several = 0;
    for read in RECORDED.lines().filter_map(read_by) {
        let mut spans: Vec<Range<usize>> = spans(&read.reading).into_iter().map(|(_, span)| span).collect();
        spans.sort_by_key(|span| span.start);
        assert!(spans
            .iter()
            .all(|span| span.start < span.end && span.end <= read.reading.taken));
        assert!(spans.windows(2).all(|pair| pair[0].end <= pair[1].start), "{spans:?}");
        several += usize::from(spans.len() > 1);
    }
    assert!(several > 200, "only {several} have several");
}
