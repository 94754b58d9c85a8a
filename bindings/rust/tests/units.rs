//! Each unit by a pattern that reads it alone: the mask, the count, the value and the span say that one and no other.

use sheet::ParseUnit;

const READ: [(&str, &str, ParseUnit, i64); 15] = [
    ("y", "2025", ParseUnit::Year, 2025),
    ("MM", "12", ParseUnit::Month, 12),
    ("dd", "03", ParseUnit::DayOfMonth, 3),
    ("DDD", "337", ParseUnit::DayOfYear, 337),
    ("HH", "23", ParseUnit::Hour, 23),
    ("a", "PM", ParseUnit::Period, 1),
    ("hh", "11", ParseUnit::PeriodHour, 11),
    ("mm", "05", ParseUnit::Minute, 5),
    ("ss", "09", ParseUnit::Second, 9),
    ("n", "7", ParseUnit::Decis, 7),
    ("nn", "71", ParseUnit::Centis, 71),
    ("nnn", "712", ParseUnit::Millis, 712),
    ("nnnn", "712003", ParseUnit::Micros, 712_003),
    ("nnnnn", "712003004", ParseUnit::Nanos, 712_003_004),
    ("X", "-0530", ParseUnit::Offset, -19_800),
];

#[test]
fn alone() {
    for (pattern, text, unit, value) in READ {
        let reading = sheet::read(pattern, text, 2025).expect(pattern);
        assert_eq!((reading.taken, reading.units), (text.len(), 1), "{pattern}");
        assert_eq!(reading.mask, 1 << unit as u16, "{pattern}");
        for other in ParseUnit::ALL {
            let expected = (other == unit).then_some(value);
            assert_eq!(reading.was_read(other), expected.is_some(), "{pattern}, {other:?}");
            assert_eq!(reading.value(other), expected, "{pattern}, {other:?}");
            assert_eq!(
                reading.values[other as usize],
                expected.unwrap_or(0),
                "{pattern}, {other:?}"
            );
            let span = expected.map(|_| 0..text.len());
            assert_eq!(reading.span(other), span, "{pattern}, {other:?}");
            let places = [reading.starts, reading.ends].map(|places| usize::from(places[other as usize]));
            assert_eq!(places, [0, span.map_or(0, |span| span.end)], "{pattern}, {other:?}");
        }
    }
}

#[test]
fn all_at_once() {
    let pattern = READ.map(|(pattern, ..)| pattern).join("|");
    let text = READ.map(|(_, text, ..)| text).join("|");
    let reading = sheet::read(&pattern, &text, 2025).expect("each can be read");
    assert_eq!((reading.taken, reading.units, reading.mask), (text.len(), 15, 0x7fff));
    assert_eq!(reading.values, READ.map(|(.., value)| value));
    assert_eq!(READ.map(|(.., unit, _)| unit), ParseUnit::ALL);
    let mut start = 0;
    for (pattern, text, unit, _) in READ {
        assert_eq!(reading.span(unit), Some(start..start + text.len()), "{pattern}");
        start += text.len() + 1;
    }
}

/// A number above the units, and one below 0 as a mask, are answered too.
#[test]
fn by_any_mask_and_number() {
    // SAFETY: it takes two numbers, and any will do.
    let was_read = |mask, unit| unsafe { sheet::raw::sheet_was_read(mask, unit) };
    for unit in 0..15 {
        assert_eq!(
            [0, 1 << unit, 0x7fff ^ 1 << unit, i64::MAX, -1].map(|mask| was_read(mask, unit)),
            [0, 1, 0, 1, 0]
        );
    }
    for none in [15, 16, 31, 32, 63, 64, u32::MAX] {
        assert_eq!(
            [0, 0x7fff, i64::MAX, i64::MIN, -1].map(|mask| was_read(mask, none)),
            [0; 5]
        );
    }
}
