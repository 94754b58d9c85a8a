//! What the second edition reads and checks otherwise than the first: a single M, a year of two digits, and nothing else.

use sheet::{check, check_with, read, read_with, split, Choices, Edition, ParseUnit, Part, Verdict};

const SECOND: Choices = Choices::new().edition(Edition::Second);
const RECORDED: &str = include_str!("recorded.txt");

fn year_of(choices: Choices, text: &str, current_year: i32) -> Option<i64> {
    let reading = read_with(choices, "yy", text, current_year).expect("it is read");
    assert_eq!(reading.taken, text.len());
    reading.value(ParseUnit::Year)
}

#[test]
fn a_year_of_two_digits_at_the_ends() {
    for (text, current_year, first, second) in [
        ("44", 2025, 2044, 2044),
        ("45", 2025, 2045, 1945),
        ("25", 1999, 1025, 1925),
        ("00", 81, 0, 100),
        ("01", 81, 1, 1),
        ("80", 81, 80, 80),
        ("18", 9999, 9018, 10_018),
        ("19", 9999, 9019, 9919),
    ] {
        assert_eq!(year_of(Choices::new(), text, current_year), Some(first));
        for choices in [SECOND, SECOND.date(), SECOND.strict(), SECOND.date().strict()] {
            assert_eq!(year_of(choices, text, current_year), Some(second));
        }
    }
}

/// From 80 years before to 19 years behind each current year there is one year with each two digits at its end.
#[test]
fn each_year_of_two_digits() {
    for current_year in 81..=9999 {
        for year in current_year - 80..=current_year + 19 {
            let digits = format!("{:02}", year % 100);
            assert_eq!(year_of(SECOND, &digits, current_year), Some(i64::from(year)));
        }
    }
}

#[test]
fn a_year_behind_a_minus_is_the_same() {
    for text in ["-05", "-99", "-00", "-5", "-x5", "--5", "-+5"] {
        for current_year in [81, 2025, 9999] {
            assert_eq!(
                read_with(SECOND, "yy", text, current_year),
                read("yy", text, current_year)
            );
        }
    }
}

/// Just what a single d reads, in the unit of the month.
#[test]
fn a_single_month() {
    let values = [
        ("12", 12),
        ("1", 1),
        ("1/", 1),
        ("07", 7),
        ("99", 99),
        ("123", 12),
        ("0", 0),
    ];
    for (text, month) in values {
        let reading = read_with(SECOND, "M", text, 2025).expect("it is read");
        let by_day = read("d", text, 2025).expect("it is read");
        assert_eq!((reading.value(ParseUnit::Month), reading.units), (Some(month), 1));
        assert_eq!(by_day.value(ParseUnit::DayOfMonth), Some(month));
        assert_eq!(reading.span(ParseUnit::Month), by_day.span(ParseUnit::DayOfMonth));
    }
    for text in ["", "x", "x5", "+", "+5", "-5", "/12"] {
        assert_eq!(read_with(SECOND, "M", text, 2025), read("d", text, 2025), "{text}");
    }
}

#[test]
fn a_single_month_beside_others() {
    let read_as = |choices, pattern: &str, text: &str| {
        let reading = read_with(choices, pattern, text, 2025).expect("it is read");
        (reading.value(ParseUnit::Month), reading.value(ParseUnit::DayOfMonth))
    };
    assert_eq!(read_as(Choices::new(), "d/M", "3/12"), (Some(1), Some(3)));
    assert_eq!(read_as(SECOND, "d/M", "3/12"), (Some(12), Some(3)));
    assert_eq!(read_as(Choices::new(), "Md", "123"), (Some(1), Some(23)));
    assert_eq!(read_as(SECOND, "Md", "123"), (Some(12), Some(3)));
    assert_eq!(read_as(SECOND, "dM", "1203"), (Some(3), Some(12)));
    assert_eq!(read_as(SECOND, "MM M", "11 12"), (Some(12), None));
    assert_eq!(read_as(SECOND, "M MM", "11 12"), (Some(12), None));
}

/// A part that the second edition reads otherwise.
fn differs(pattern: &[u8], part: &Part) -> bool {
    matches!(&pattern[part.range()], b"M" | b"yy")
}

/// Two digits a byte; a lone `-` is none.
fn bytes(word: &str) -> Vec<u8> {
    let byte = |place| u8::from_str_radix(&word[place..place + 2], 16).expect("two digits");
    (0..word.len() / 2).map(|pair| byte(2 * pair)).collect()
}

#[test]
fn all_else_is_the_same() {
    let mut tried = 0;
    for line in RECORDED.lines() {
        let ["read" | "read_date", pattern, text, ..] = line.split(' ').collect::<Vec<_>>()[..] else {
            continue;
        };
        let (pattern, text) = (bytes(pattern), bytes(text));
        let parts = split(&pattern).unwrap_or_default();
        if parts.iter().any(|part| differs(&pattern, part)) {
            continue;
        }
        for choices in [Choices::new(), Choices::new().date(), Choices::new().strict()] {
            let second = read_with(choices.edition(Edition::Second), &pattern, &text, 2025);
            assert_eq!(second, read_with(choices, &pattern, &text, 2025), "{line}");
        }
        assert_eq!(check_with(Edition::Second, &pattern, 2025), check(&pattern, 2025));
        tried += 1;
    }
    assert!(tried > 1000, "only {tried} were tried");
}

#[test]
fn the_first_edition_checks_as_without_choices() {
    for pattern in ["", "d/MM", "d/M", "M", "yy", "d5", "XXXXX.5", "'a''", "'", "\0"] {
        for year in [0, 1, 80, 2025, 9999, 10_000] {
            assert_eq!(check_with(Edition::First, pattern, year), check(pattern, year));
        }
    }
}

/// A single M fails just where a digit can stand behind a month that has one.
#[test]
fn checks_of_a_single_month() {
    for pattern in ["M", "d/M", "M/d", "M'a'd", "MMMM M", "M MMM", "dd.M.yyyy", "MX", "MGGG"] {
        assert_eq!(
            check_with(Edition::Second, pattern, 2025),
            Ok(Verdict::Yes),
            "{pattern}"
        );
    }
    for (pattern, failing) in [("Md", 0), ("M5", 0), ("d/M'5'", 2), ("/Myyyy", 1), ("Mqq", 0)] {
        let Ok(Verdict::No { part, record }) = check_with(Edition::Second, pattern, 2025) else {
            panic!("{pattern} can't be trusted");
        };
        assert_eq!(part, failing, "{pattern}");
        assert_eq!((record.year, record.month, record.day), (2024, 2, 5), "{pattern}");
    }
}

#[test]
fn checks_of_a_year_of_two_digits() {
    for current_year in [81, 999, 2025, 9999] {
        for pattern in ["yy", "yy/MM", "d.M.yy"] {
            let last = split(pattern).expect("it is allowed").len() - 1;
            let failing = if pattern.starts_with('y') { 0 } else { last };
            let verdict = check_with(Edition::Second, pattern, current_year);
            let fails = matches!(verdict, Ok(Verdict::No { part, .. }) if part == failing);
            assert!(fails, "{pattern} in {current_year}: {verdict:?}");
        }
    }
}
