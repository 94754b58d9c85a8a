//! The constants of the header for C are those of this crate, and no others, and it has the same words for a refusal.

use sheet::{raw, Kind, ParseUnit};
use std::collections::BTreeMap;
use std::fmt::Debug;

const HEADER: &str = include_str!("../../c/sheet.h");

macro_rules! of_raw {
    ($($name:ident)*) => {
        [$((stringify!($name).to_string(), raw::$name as i64)),*]
    };
}

/// The constants by their names, the prefix left out.
fn defined() -> BTreeMap<String, i64> {
    let definition = |line: &str| {
        let mut words = line.strip_prefix("#define SHEET_")?.split_whitespace();
        Some((
            words.next()?.to_string(),
            words.next()?.trim_matches(['(', ')']).parse().ok()?,
        ))
    };
    HEADER.lines().filter_map(definition).collect()
}

fn number(text: &str) -> i64 {
    text.parse().expect("a number")
}

/// A variant's name as C spells it.
fn in_capitals(variant: impl Debug) -> String {
    let mut name = String::new();
    for letter in format!("{variant:?}").chars() {
        if letter.is_uppercase() && !name.is_empty() {
            name.push('_');
        }
        name.push(letter.to_ascii_uppercase());
    }
    name
}

/// What the header says of each number that it has words for, and of all others.
fn texts() -> (BTreeMap<u32, &'static str>, &'static str) {
    let mut by_number = BTreeMap::new();
    let mut of_others = "";
    for (case, text) in HEADER.lines().filter_map(|line| line.split_once(": return \"")) {
        let text = text.strip_suffix("\";").expect("a text ends its line");
        match case.trim().strip_prefix("case SHEET_") {
            Some(name) => assert_eq!(by_number.insert(defined()[name] as u32, text), None),
            None => of_others = text,
        }
    }
    (by_number, of_others)
}

#[test]
fn version() {
    let line = format!("#define SHEET_VERSION \"{}\"", env!("CARGO_PKG_VERSION"));
    assert!(HEADER.lines().any(|defined| defined == line));
}

#[test]
fn texts_of_refusals() {
    let (by_number, of_others) = texts();
    let numbers: Vec<u32> = by_number.keys().copied().collect();
    assert_eq!(numbers, (0..=30).chain(100..=105).collect::<Vec<_>>());
    for number in (0..=1000).chain([u32::MAX]) {
        assert_eq!(
            raw::refusal_text(number),
            *by_number.get(&number).unwrap_or(&of_others),
            "{number}"
        );
    }
}

#[test]
fn constants() {
    let mut ours = BTreeMap::new();
    ours.extend([
        ("VERSION_MAJOR".to_string(), number(env!("CARGO_PKG_VERSION_MAJOR"))),
        ("VERSION_MINOR".to_string(), number(env!("CARGO_PKG_VERSION_MINOR"))),
        ("VERSION_PATCH".to_string(), number(env!("CARGO_PKG_VERSION_PATCH"))),
    ]);
    ours.extend(of_raw!(LONGEST_PATTERN LONGEST_TEXT BYTES_A_PATTERN_BYTE MOST_STACK));
    ours.extend(of_raw!(WRITE_ANSWER READ_ANSWER READ_VALUES READ_STARTS READ_ENDS OFFSET_ANSWER CHECK_ANSWER));
    ours.extend(of_raw!(SPLIT_ANSWER SPLIT_PARTS UNITS_ANSWER UNITS_ROW LITERAL CARRIES_NOTHING));
    ours.extend(of_raw!(DAY_ANSWER DAY_NUMBER_ANSWER NO_SUCH_DAY NO_DAY_NUMBER));
    ours.extend(of_raw!(ACCEPTED PATTERN_TOO_LONG PATTERN_BYTE LONE_QUOTE FIELD_RANGE NO_ROOM TEXT_TOO_LONG TEXT_BYTE));
    ours.extend(of_raw!(TOO_FEW NO_NUMBER NO_NAME NO_SIGN OFFSET_LENGTH OFFSET_RANGE CURRENT_YEAR PLUS_SIGN));
    ours.extend(of_raw!(LITERAL_DIFFERS TEXT_LEFT ROW_TOO_SMALL NO_SUCH_CHOICE DATE_PAIR STRICT SECOND_EDITION));
    ours.extend(of_raw!(BOOK_ROW BOOK_ROOMS NAME_ROOM LONGEST_NAME LONGEST_BOOK BOOK_ANSWER NO_BOOK));
    ours.extend(of_raw!(BOOK_MARK BOOK_VERSION BOOK_LENGTH BOOK_NAME));
    ours.extend(of_raw!(LIST_ANSWER LINE_ANSWER LINE_READING SHORT_ROW NO_LINE));
    ours.extend(of_raw!(MEND_ANSWER CHANGES_ROW UNDO_ANSWER MOST_CHANGES CHANGE MEND_STACK MENDED_TOO_LONG MISFIT));
    ours.extend(of_raw!(PREPARED_ROW PREPARE_ANSWER NOT_PREPARED));
    ours.extend(of_raw!(LONGEST_STAMP RFC_READ_ANSWER RFC_WRITE_ANSWER));
    ours.extend(of_raw!(NOT_STAMP STAMP_RANGE LEAP_SECOND STAMP_YEAR STAMP_OFFSET));
    ours.extend(of_raw!(WIDE_MONTHS SHORT_MONTHS WIDE_WEEKDAYS SHORT_WEEKDAYS TWO_LETTER_WEEKDAYS NARROW_WEEKDAYS));
    ours.extend(of_raw!(NARROW_MONTHS));
    ours.extend(ParseUnit::ALL.map(|unit| (in_capitals(unit), unit as i64)));
    ours.extend([Kind::Run, Kind::Quotes, Kind::Quoted, Kind::Open].map(|kind| (in_capitals(kind), kind as i64)));
    assert_eq!(defined(), ours);
}
