//! The specification's sheet samples and the examples of its section on splitting: what the oracle answers,
//! and which line the comparer asks of a program.

use harness::answer::answer;
use harness::choices::Choices;
use harness::expected::{expected, Expected};
use harness::request::{hex, Request};
use harness::walk::Pair;
use harness::Fields;
use std::ops::Range;

const R: Fields = Fields {
    year: 2025,
    month: 12,
    day: 3,
    day_of_year: 337,
    week: 49,
    weekday: 3,
    nanoseconds: 25_509_000_120_000,
    offset: 19_800,
};

const YEAR: usize = 0;
const MONTH: usize = 1;
const DAY: usize = 2;
const HOUR: usize = 4;
const OFFSET: usize = 14;

fn split(pattern: &str) -> Request {
    Request::Split {
        pattern: pattern.into(),
    }
}

fn write(pattern: &str, fields: Fields) -> Request {
    Request::Write {
        pair: Pair::Full,
        pattern: pattern.into(),
        fields,
        room: 4096,
        book: None,
    }
}

fn read(pattern: &str, text: &str, now: i32) -> Request {
    Request::Read {
        choices: Choices::of(Pair::Full),
        pattern: pattern.into(),
        text: text.into(),
        now,
        book: None,
    }
}

fn read_strictly(pair: Pair, pattern: &str, text: &str) -> Request {
    Request::Read {
        choices: Choices::of(pair).strict(),
        pattern: pattern.into(),
        text: text.into(),
        now: 2025,
        book: None,
    }
}

fn read_in_the_second(pair: Pair, pattern: &str, text: &str, now: i32) -> Request {
    Request::Read {
        choices: Choices::of(pair).second(),
        pattern: pattern.into(),
        text: text.into(),
        now,
        book: None,
    }
}

fn parse_offset(text: &str) -> Request {
    Request::ParseOffset { text: text.into() }
}

fn with_year(year: i32) -> Fields {
    Fields { year, ..R }
}

fn with_offset(offset: i32) -> Fields {
    Fields { offset, ..R }
}

#[track_caller]
fn accepted(request: &Request, line: &str) {
    assert_eq!(answer(&request.to_string()), line);
    assert_eq!(expected(request).line(), line);
}

#[track_caller]
fn writes(pattern: &str, fields: Fields, text: &str) {
    let line = format!("wrote {} {}", text.len(), hex(text.as_bytes()));
    accepted(&write(pattern, fields), &line);
}

type Units = [(usize, i64, Range<usize>)];

#[track_caller]
fn reads(request: &Request, taken_mask_count: &str, units: &Units) {
    accepted(request, &read_line(taken_mask_count, units));
}

/// The Rust has another edition, so only the expected line is looked at.
#[track_caller]
fn reads_in_the_second(
    (pattern, text): (&str, &str),
    now: i32,
    taken_mask_count: &str,
    units: &Units,
) {
    for pair in [Pair::Full, Pair::Date] {
        assert_eq!(
            expected(&read_in_the_second(pair, pattern, text, now)),
            Expected::Accepted(read_line(taken_mask_count, units))
        );
    }
}

/// The units that are read, each with its value and its span; all others are unread.
fn read_line(taken_mask_count: &str, units: &Units) -> String {
    let mut values = vec!["0".to_string(); 15];
    let mut spans = vec!["0:0".to_string(); 15];
    for (unit, value, span) in units {
        values[*unit] = value.to_string();
        spans[*unit] = format!("{}:{}", span.start, span.end);
    }
    let words = [values, spans].concat().join(" ");
    format!("read {taken_mask_count} {words}")
}

#[track_caller]
fn refused(request: &Request, line: &str) {
    assert_eq!(answer(&request.to_string()), "refused");
    assert_eq!(expected(request).line(), line);
}

/// Refused by the specification alone; the Rust has no such limit.
#[track_caller]
fn limited(request: &Request, line: &str) {
    assert_ne!(answer(&request.to_string()), "refused");
    assert_eq!(expected(request).line(), line);
}

#[test]
fn record_r_is_written() {
    writes("yyyy/MM/dd", R, "2025/12/03");
    writes("h 'o''clock'", R, "7 o'clock");
    writes("nnnn", R, "000120");
    writes("XXXXX", R, "+05:30");
}

#[test]
fn years_before_christ_are_written() {
    writes("yyyy", with_year(-12), "-0012");
    writes("yy", with_year(-12), "12");
    writes("yy", with_year(-5), "-05");
}

#[test]
fn quotes_are_written() {
    writes("'abc''", R, "abc");
    refused(&write("'", R), "refused 3 0");
    refused(&write("'''", R), "refused 3 2");
    writes("''", R, "'");
}

#[test]
fn quotes_are_split() {
    accepted(&split("'''a'"), "parts 2 quotes:0:2 quoted:2:3");
    accepted(&split("'abc''"), "parts 1 open:0:6");
    accepted(&split("'"), "parts 1 open:0:1");
    accepted(&split("yy''''y"), "parts 3 run:0:2 quotes:2:4 run:6:1");
    accepted(&split(""), "parts 0");
}

#[test]
fn quotes_are_read() {
    reads(&read("'abc''", "12345", 2025), "4 0 0", &[]);
    refused(&read("'abc''", "123", 2025), "refused 8 0 0");
    refused(&read("'", "1", 2025), "refused 3 0");
}

#[test]
fn numbers_are_read() {
    reads(&read("M", "12", 2025), "1 2 1", &[(MONTH, 1, 0..1)]);
    let both = [(DAY, 3, 0..1), (MONTH, 1, 2..3)];
    reads(&read("d/M", "3/12", 2025), "3 6 2", &both);
    reads(&read("HH", "99", 2025), "2 16 1", &[(HOUR, 99, 0..2)]);
}

/// Signs and names are of the span, literals and symbols that carry nothing are not; a time symbol is none to the Date pair.
#[test]
fn a_span_is_all_that_the_part_took() {
    reads(&read("y", "-5", 2025), "2 1 1", &[(YEAR, -5, 0..2)]);
    reads(&read("X", "Z", 2025), "1 16384 1", &[(OFFSET, 0, 0..1)]);
    let december = [(MONTH, 12, 3..11)];
    reads(&read("'of 'MMMM", "of December", 2025), "11 2 1", &december);
    reads(&read("eee d", "Wed 3", 2025), "5 4 1", &[(DAY, 3, 4..5)]);
    let by_date = Request::Read {
        choices: Choices::of(Pair::Date),
        pattern: "HH d".into(),
        text: "07 3".into(),
        now: 2025,
        book: None,
    };
    reads(&by_date, "4 4 1", &[(DAY, 3, 3..4)]);
}

#[test]
fn of_a_unit_read_twice_the_last_span_stands() {
    reads(&read("d d", "3 14", 2025), "4 4 1", &[(DAY, 14, 2..4)]);
    reads(&read("d d", "31 4", 2025), "4 4 1", &[(DAY, 4, 3..4)]);
    let strict = read_strictly(Pair::Full, "d d", "3 14");
    reads(&strict, "4 4 1", &[(DAY, 14, 2..4)]);
}

/// The Rust takes a plus in front of a number; ours refuses it, behind 8 and before 9, at the first of a reading.
#[test]
fn no_number_takes_a_plus() {
    let excepted = |pattern: &str, text: &str, line: &str| {
        assert_eq!(
            expected(&read(pattern, text, 2025)),
            Expected::Excepted(line.to_string())
        );
    };
    excepted("dd", "+5", "refused 19 0 0");
    excepted("dd", "+a", "refused 19 0 0");
    excepted("yyyyy", "+2025", "refused 19 0 0");
    excepted("d/d", "3/+5", "refused 19 2 2");
    excepted("d/dM", "+5/xx", "refused 19 0 0");
    excepted("X", "++5", "refused 19 0 1");
    excepted("XXX", "+05:+3", "refused 19 0 4");
    refused(&read("dd", "+", 2025), "refused 8 0 0");
    refused(&read("y", "+5", 2025), "refused 9 0 0");
    refused(&read("XXX", "+a5:+3", 2025), "refused 9 0 1");
    reads(&read("w", "+5", 2025), "2 0 0", &[]);
    let offset = |text: &str| expected(&Request::ParseOffset { text: text.into() });
    assert_eq!(
        offset("++5:30"),
        Expected::Excepted("refused 19 0 1".to_string())
    );
    assert_eq!(
        offset("+05:+3"),
        Expected::Excepted("refused 19 0 4".to_string())
    );
    assert_eq!(
        offset("+a5:+3"),
        Expected::Refused("refused 9 0 1".to_string())
    );
    assert_eq!(
        offset("+24:+3"),
        Expected::Excepted("refused 19 0 4".to_string())
    );
}

#[test]
fn a_strict_read_compares_literals() {
    for pair in [Pair::Full, Pair::Date] {
        let strict = |pattern: &str, text: &str| read_strictly(pair, pattern, text);
        let both = [(DAY, 3, 0..1), (MONTH, 12, 2..4)];
        reads(&strict("d/MM", "3/12"), "4 6 2", &both);
        limited(&strict("d/MM", "3-12"), "refused 15 1 1");
        limited(&strict("''", "x"), "refused 15 0 0");
        reads(&strict("'a''b'", "a'b"), "3 0 0", &[]);
        limited(&strict("'a''b'", "a''b"), "refused 15 0 2");
        reads(&strict("'abc''", "abc'"), "4 0 0", &[]);
        limited(&strict("'abc''", "abcd"), "refused 15 0 3");
        // The whole literal has to be there first, and symbols are no literals.
        refused(&strict("'ab'd", "x"), "refused 8 0 0");
        reads(&strict("qw", "/-"), "2 0 0", &[]);
    }
    limited(&read_strictly(Pair::Date, "d/H", "3/7"), "refused 15 2 2");
    reads(
        &read_strictly(Pair::Date, "d/H", "3/H"),
        "3 4 1",
        &[(DAY, 3, 0..1)],
    );
}

#[test]
fn a_strict_read_leaves_no_text() {
    for pair in [Pair::Full, Pair::Date] {
        let strict = |pattern: &str, text: &str| read_strictly(pair, pattern, text);
        reads(&strict("", ""), "0 0 0", &[]);
        limited(&strict("", "x"), "refused 16 0");
        limited(&strict("d", "3/"), "refused 16 1");
        limited(&strict("M", "12"), "refused 16 1");
    }
}

/// By the order of the parts, whatever the Rust stops at.
#[test]
fn the_first_part_of_a_strict_read_that_is_refused_decides() {
    let strict = |pattern: &str, text: &str| expected(&read_strictly(Pair::Full, pattern, text));
    let line = |number: &str| format!("refused {number}");
    assert_eq!(strict("/dd", "-+5"), Expected::Strict(line("15 0 0")));
    assert_eq!(strict("dd/", "+5-"), Expected::Excepted(line("19 0 0")));
    assert_eq!(strict("dd/dd/", "03-+5-"), Expected::Strict(line("15 1 2")));
    assert_eq!(
        strict("dd/dd/", "03/+5-"),
        Expected::Excepted(line("19 2 3"))
    );
    assert_eq!(strict("/dd", "-x5"), Expected::Strict(line("15 0 0")));
    assert_eq!(strict("dd/", "x5-"), Expected::Refused(line("9 0 0")));
    assert_eq!(strict("d/'ab'", "3-a"), Expected::Strict(line("15 1 1")));
    assert_eq!(strict("d/'ab'", "3/x"), Expected::Refused(line("8 2 2")));
    assert_eq!(strict("d/", "3-x"), Expected::Strict(line("15 1 1")));
    assert_eq!(strict("dd", "+5x"), Expected::Excepted(line("19 0 0")));
}

#[test]
fn zones_are_read_and_written() {
    refused(&read("x", "Z", 2025), "refused 11 0 0");
    let offset = [(OFFSET, 19_800, 0..5)];
    reads(&read("X", "+0530", 2025), "5 16384 1", &offset);
}

/// The Rust writes a minus for any offset below zero; ours a plus where every digit written is zero.
#[test]
fn minus_nothing_is_written_with_a_plus() {
    let excepted = |pattern: &str, offset: i32, text: &str| {
        assert_eq!(
            expected(&write(pattern, with_offset(offset))),
            Expected::Excepted(format!("wrote {} {}", text.len(), hex(text.as_bytes())))
        );
    };
    excepted("X", -30, "+00");
    excepted("XX", -1, "+0000");
    excepted("xxx", -59, "+00:00");
    excepted("XXXXXX", -59, "+00:00");
    excepted("X'-'x", -30, "+00-+00");
    writes("XXXX", with_offset(-30), "-000030");
    writes("xxxxx", with_offset(-59), "-00:00:59");
    writes("X", with_offset(-60), "-0001");
    writes("XX", with_offset(-3600), "-0100");
    writes("X", with_offset(0), "Z");
    writes("x", with_offset(0), "+00");
    writes("XXX", with_offset(30), "+00:00");
    let by_date = Request::Write {
        pair: Pair::Date,
        pattern: "X".into(),
        fields: with_offset(-30),
        room: 4096,
        book: None,
    };
    accepted(&by_date, "wrote 1 58");
}

#[test]
fn what_is_no_number_is_refused() {
    refused(&read("yyyy", "", 2025), "refused 9 0 0");
    refused(&read("dd", "", 2025), "refused 8 0 0");
    refused(&read("D", "a1", 2025), "refused 9 0 0");
}

#[test]
fn two_digit_years_are_read() {
    reads(&read("yy", "25", 2025), "2 1 1", &[(YEAR, 2025, 0..2)]);
    reads(&read("yy", "25", 1999), "2 1 1", &[(YEAR, 1025, 0..2)]);
}

#[test]
fn a_single_month_is_read_as_a_day_in_the_second_edition() {
    let month = |value, span| [(MONTH, value, span)];
    reads_in_the_second(("M", "12"), 2025, "2 2 1", &month(12, 0..2));
    reads_in_the_second(("M", "1/2"), 2025, "1 2 1", &month(1, 0..1));
    reads_in_the_second(("MM", "123"), 2025, "2 2 1", &month(12, 0..2));
    let both = [(DAY, 3, 0..1), (MONTH, 12, 2..4)];
    reads_in_the_second(("d/M", "3/12"), 2025, "4 6 2", &both);
    // Side by side they are still a month and a day.
    let both = [(MONTH, 12, 0..2), (DAY, 3, 2..3)];
    reads_in_the_second(("Md", "123"), 2025, "3 6 2", &both);
    let both = [(DAY, 12, 0..2), (MONTH, 3, 2..3)];
    reads_in_the_second(("dM", "123"), 2025, "3 6 2", &both);
    reads_in_the_second(("'M'd", "x5"), 2025, "2 4 1", &[(DAY, 5, 1..2)]);
}

#[test]
fn a_month_is_refused_as_a_day_in_the_second_edition() {
    for text in ["", "x", "x5", "+", "+5", "-5"] {
        for pair in [Pair::Full, Pair::Date] {
            let month = expected(&read_in_the_second(pair, "M", text, 2025));
            assert_eq!(month, expected(&read("d", text, 2025)), "{text}");
            assert!(month.line().starts_with("refused "), "{text}");
        }
    }
    let strict = |pattern: &str, text: &str| {
        expected(&Request::Read {
            choices: Choices::of(Pair::Full).strict().second(),
            pattern: pattern.into(),
            text: text.into(),
            now: 2025,
            book: None,
        })
    };
    let line = |number: &str| format!("refused {number}");
    assert_eq!(strict("M", "123"), Expected::Strict(line("16 2")));
    assert_eq!(strict("M/", "12-"), Expected::Strict(line("15 1 2")));
    assert_eq!(strict("M/M", "12/+5"), Expected::Excepted(line("19 2 3")));
}

#[test]
fn two_digits_are_the_year_around_the_current_one_in_the_second_edition() {
    for (text, now, year) in [
        ("44", 2025, 2044),
        ("45", 2025, 1945),
        ("00", 81, 100),
        ("01", 81, 1),
        ("18", 9999, 10_018),
        ("19", 9999, 9919),
        ("25", 1999, 1925),
    ] {
        reads_in_the_second(("yy", text), now, "2 1 1", &[(YEAR, year, 0..2)]);
    }
    reads_in_the_second(("yy", "-05"), 2025, "3 1 1", &[(YEAR, -5, 0..3)]);
    reads_in_the_second(("yyyy", "45"), 2025, "2 1 1", &[(YEAR, 45, 0..2)]);
    let plus = expected(&read_in_the_second(Pair::Full, "yy", "+5", 2025));
    assert_eq!(plus, Expected::Excepted("refused 19 0 0".to_string()));
}

#[test]
fn the_second_edition_refuses_more_current_years() {
    let line = |pattern: &str, text: &str, now| {
        let request = read_in_the_second(Pair::Full, pattern, text, now);
        expected(&request).line().to_string()
    };
    for pattern in ["", "d", "yy"] {
        for now in [0, 1, 80, 10_000] {
            assert_eq!(line(pattern, "25", now), format!("refused 14 {now}"));
        }
        assert!(line(pattern, "25", 81).starts_with("read "));
    }
    assert_eq!(line("d'", "25", 80), "refused 3 1");
    assert_eq!(line("d", &"2".repeat(2049), 80), "refused 14 80");
}

#[test]
fn limits_are_kept() {
    let longest = "/".repeat(256);
    writes(&longest, R, &longest);
    limited(&write(&"/".repeat(257), R), "refused 1 257");
    writes("xxxx", with_offset(86_399), "+235959");
    limited(&write("xxxx", with_offset(86_400)), "refused 4 8");
}

#[test]
fn offsets_are_parsed() {
    accepted(&parse_offset("Z12"), "offset 0");
    accepted(&parse_offset("+05.30"), "offset 19800");
    accepted(&parse_offset("905:30"), "offset -19800");
    refused(&parse_offset("+05:3"), "refused 12 5");
    refused(&parse_offset("+0x:30"), "refused 9 0 1");
    refused(&parse_offset("+05:-3"), "refused 9 0 4");
    refused(&parse_offset("+24:60"), "refused 13 1");
    refused(&parse_offset("+23:60"), "refused 13 2");
}
