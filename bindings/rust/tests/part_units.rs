//! What each part of a pattern is: the unit of each symbol, by the table of the specification, and where a part is a literal.

use sheet::ParseUnit::*;
use sheet::PartUnit::{self, Carries, Literal, Symbol};
use sheet::{raw, Refusal};

const MONTH: PartUnit = Carries(Month);

/// Each symbol, by its count: the last stands for all larger counts.
const SYMBOLS: [(&str, &[PartUnit]); 19] = [
    ("G", &[Symbol]),
    ("y", &[Carries(Year)]),
    ("q", &[Symbol]),
    ("M", &[MONTH, MONTH, MONTH, MONTH, Symbol, MONTH]),
    ("w", &[Symbol]),
    ("d", &[Carries(DayOfMonth)]),
    ("D", &[Carries(DayOfYear)]),
    ("e", &[Symbol]),
    ("a", &[Carries(Period)]),
    ("b", &[Carries(Period)]),
    ("h", &[Carries(PeriodHour)]),
    ("K", &[Carries(PeriodHour)]),
    ("H", &[Carries(Hour)]),
    ("k", &[Carries(Hour)]),
    ("m", &[Carries(Minute)]),
    ("s", &[Carries(Second)]),
    (
        "n",
        &[
            Carries(Decis),
            Carries(Centis),
            Carries(Millis),
            Carries(Micros),
            Carries(Nanos),
            Carries(Millis),
        ],
    ),
    ("X", &[Carries(Offset)]),
    ("x", &[Carries(Offset)]),
];

#[test]
fn of_each_symbol() {
    for (symbol, by_count) in SYMBOLS {
        for count in (1..=12).chain([256]) {
            let expected = by_count[count.min(by_count.len()) - 1];
            let units = sheet::units(symbol.repeat(count));
            assert_eq!(units, Ok(vec![expected]), "{symbol} at {count}");
        }
    }
}

/// A part gives the unit that it carries when it is read, and none where it carries nothing.
#[test]
fn as_a_reading_gives_it() {
    let texts = [
        "Wednesday",
        "December",
        "4th quarter",
        "AM",
        "noon",
        "+05:30:00",
        "AD",
        "123456789012",
    ];
    let mut read = 0;
    for (symbol, _) in SYMBOLS {
        for count in 1..=12 {
            let pattern = symbol.repeat(count);
            let mask = match sheet::units(&pattern).expect("it is allowed")[0] {
                Carries(unit) => 1 << unit as u16,
                Symbol | Literal => 0,
            };
            for reading in texts.iter().flat_map(|text| sheet::read(&pattern, text, 2025)) {
                assert_eq!(reading.mask, mask, "{pattern}");
                read += 1;
            }
        }
    }
    assert!(read >= 19 * 12, "only {read} were read");
}

#[test]
fn of_every_other_byte() {
    let symbols: String = SYMBOLS.map(|(symbol, _)| symbol).concat();
    for byte in (1..=127).filter(|byte| !symbols.as_bytes().contains(byte)) {
        assert_eq!(sheet::units([byte; 3]).expect("it is allowed")[0], Literal, "{byte}");
    }
}

#[test]
fn of_literals() {
    assert_eq!(sheet::units(""), Ok(vec![]));
    assert_eq!(sheet::units("'"), Ok(vec![Literal]));
    assert_eq!(sheet::units("''''"), Ok(vec![Literal]));
    assert_eq!(sheet::units("'dd'"), Ok(vec![Literal]));
    assert_eq!(
        sheet::units("h 'o''clock' 'd"),
        Ok(vec![Carries(PeriodHour), Literal, Literal, Literal, Literal])
    );
}

#[test]
fn as_many_as_parts() {
    for pattern in ["yyyy/MM/dd", "d'T'H", &"dM".repeat(128)] {
        let parts = sheet::split(pattern).expect("it is allowed").len();
        assert_eq!(sheet::units(pattern).map(|units| units.len()), Ok(parts), "{pattern}");
    }
}

#[test]
fn refused() {
    let number = |pattern: &[u8]| sheet::units(pattern).map_err(|refusal: Refusal| refusal.number());
    assert_eq!(number(&[b'd'; 257]), Err(raw::PATTERN_TOO_LONG));
    assert_eq!(number(b"d\0"), Err(raw::PATTERN_BYTE));
}

/// Behind the last part the row says that there is no symbol.
#[test]
fn behind_the_last_part() {
    let (pattern, mut answer, mut units) = (b"w/d", [0; raw::UNITS_ANSWER], [0; raw::UNITS_ROW]);
    let (row, entries) = (answer.as_mut_ptr(), units.as_mut_ptr());
    // SAFETY: each pointer goes with the length of the slice that it comes from.
    let number = unsafe { raw::sheet_units(pattern.as_ptr(), 3, row, answer.len(), entries, units.len()) };
    assert_eq!((number, answer), (raw::ACCEPTED, [3, 0]));
    assert_eq!(units[..3], [raw::CARRIES_NOTHING, raw::LITERAL, DayOfMonth as i64]);
    assert!(units[3..].iter().all(|entry| *entry == raw::LITERAL));
}
