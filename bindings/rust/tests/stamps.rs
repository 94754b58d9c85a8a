//! Stamps of RFC 3339 that are read: its own samples, each refusal in its order and with its place, every prefix and every byte of a
//! stamp changed, and the limits.

use sheet::{read_stamp, write_stamp, Stamp};

const SECOND: u64 = 1_000_000_000;

fn stamp(day: (i32, u32, u32), nanoseconds: u64, offset: i32) -> Stamp {
    let (year, month, day) = day;
    Stamp {
        year,
        month,
        day,
        nanoseconds,
        offset,
        unknown: false,
    }
}

/// At five and nine past seven, in UTC.
const SOME: Stamp = Stamp {
    year: 2025,
    month: 12,
    day: 3,
    nanoseconds: 25_509 * SECOND,
    offset: 0,
    unknown: false,
};

/// The number of the refusal and its one detail.
fn refused(text: impl AsRef<[u8]>) -> Option<(u32, i64)> {
    let refusal = read_stamp(text).err()?;
    assert_eq!(refusal.details().len(), 1);
    Some((refusal.number(), refusal.details()[0]))
}

#[test]
fn samples_of_the_rfc() {
    for (text, expected) in [
        ("1985-04-12T23:20:50.52Z", stamp((1985, 4, 12), 84_050_520_000_000, 0)),
        (
            "1996-12-19T16:39:57-08:00",
            stamp((1996, 12, 19), 59_997 * SECOND, -28_800),
        ),
        (
            "1937-01-01T12:00:27.87+00:20",
            stamp((1937, 1, 1), 43_227_870_000_000, 1200),
        ),
    ] {
        assert_eq!(read_stamp(text), Ok(expected));
        assert_eq!(text.parse(), Ok(expected));
    }
    assert_eq!(refused("1990-12-31T23:59:60Z"), Some((27, 0)));
    assert_eq!(refused("1990-12-31T15:59:60-08:00"), Some((27, 0)));
}

#[test]
fn small_letters_are_taken_and_capitals_written() {
    for text in [
        "2025-12-03T07:05:09Z",
        "2025-12-03t07:05:09Z",
        "2025-12-03T07:05:09z",
        "2025-12-03t07:05:09z",
    ] {
        assert_eq!(read_stamp(text), Ok(SOME));
    }
    assert_eq!(write_stamp(&SOME).as_deref(), Ok("2025-12-03T07:05:09Z"));
}

/// Whole grammar, then all ranges, then second 60, year 0 and the day.
#[test]
fn in_the_order_of_the_refusals() {
    for (text, number) in [
        ("0000-13-30T24:00:60Z ", (25, 20)),
        ("2025-13-03", (25, 10)),
        ("0000-13-30T00:00:60Z", (26, 0)),
        ("0000-02-30T00:00:60Z", (27, 0)),
        ("0000-02-30T00:00:00Z", (28, 0)),
        ("0000-01-01T00:00:00Z", (28, 0)),
        ("2025-02-30T00:00:00Z", (17, 0)),
        ("2025-02-29T00:00:00Z", (17, 0)),
        ("1900-02-29T00:00:00Z", (17, 0)),
        ("2025-04-31T00:00:00Z", (17, 0)),
    ] {
        assert_eq!(refused(text), Some(number), "{text}");
    }
    let mut text = vec![b'0'; 2048];
    assert_eq!(refused(&text), Some((25, 4)));
    text[2047] = 128;
    assert_eq!(refused(&text), Some((7, 2047)));
    text.push(0);
    assert_eq!(refused(&text), Some((6, 2049)));
}

#[test]
fn not_of_the_grammar() {
    for (text, place) in [
        ("", 0),
        ("+025-12-03T07:05:09Z", 0),
        ("-2025-12-03T07:05:09Z", 0),
        (" 2025-12-03T07:05:09Z", 0),
        ("20251203T070509Z", 4),
        ("12025-12-03T07:05:09Z", 4),
        ("2025-12-3T07:05:09Z", 9),
        ("2025-12-03 07:05:09Z", 10),
        ("2025-12-03T7:05:09Z", 12),
        ("2025-12-03T07:05Z", 16),
        ("2025-12-03T07:05:09,5Z", 19),
        ("2025-12-03T07:05:09 Z", 19),
        ("2025-12-03T07:05:09", 19),
        ("2025-12-03T07:05:09.Z", 20),
        ("2025-12-03T07:05:09.5", 21),
        ("2025-12-03T07:05:09.5.5Z", 21),
        ("2025-12-03T07:05:09.5,5Z", 21),
        ("2025-12-03T07:05:09+05", 22),
        ("2025-12-03T07:05:09+0530", 22),
        ("2025-12-03T07:05:09+05:3", 24),
        ("2025-12-03T07:05:09+05:30:00", 25),
        ("2025-12-03T07:05:09Z ", 20),
        ("2025-12-03T07:05:09Z+00:00", 20),
        ("2025-12-03T07:05:09Z\n", 20),
    ] {
        assert_eq!(refused(text), Some((25, place)), "{text}");
    }
}

/// One of each form.
const FORMS: [&str; 4] = [
    "2025-12-03T07:05:09Z",
    "2025-12-03T07:05:09.123456789Z",
    "2025-12-03T07:05:00-08:00",
    "2024-02-29T23:59:59.9999999999999+23:59",
];

#[test]
fn every_prefix_ends_too_soon() {
    for text in FORMS {
        assert!(read_stamp(text).is_ok());
        for length in 0..text.len() {
            assert_eq!(refused(&text[..length]), Some((25, length as i64)), "{text}");
        }
    }
}

/// What may stand at a place of the date and the time.
fn may_stand(place: usize, byte: u8) -> bool {
    match b"0000-00-00T00:00:00"[place] {
        b'0' => byte.is_ascii_digit(),
        sign => byte.to_ascii_uppercase() == sign,
    }
}

/// Every single byte changed to every other: above 127 it is 7 at its place; where it can't stand there, 25 there.
#[test]
fn every_byte_changed_to_every_other() {
    let mut counts = [0; 30];
    for text in FORMS {
        for place in 0..text.len() {
            for byte in 0..=255 {
                let mut changed = text.as_bytes().to_vec();
                changed[place] = byte;
                let found = refused(&changed);
                counts[found.map_or(0, |(number, _)| number) as usize] += 1;
                let (number, at) = found.unwrap_or_default();
                match byte {
                    128.. => assert_eq!((number, at), (7, place as i64)),
                    _ if place >= 19 => assert!(number != 25 || at >= place as i64),
                    _ if may_stand(place, byte) => assert!(matches!(number, 0 | 17 | 26..=28)),
                    _ => assert_eq!((number, at), (25, place as i64)),
                }
            }
        }
    }
    assert!([0, 7, 17, 25, 26, 27].iter().all(|number| counts[*number] > 0));
}

/// Behind the seconds, behind a point, behind a digit, and behind the end.
#[test]
fn every_byte_behind_the_seconds() {
    for byte in 0..=127 {
        let at = |start: &str| refused([start.as_bytes(), &[byte]].concat()).map_or(0, |(_, place)| place);
        let place = match byte {
            b'Z' | b'z' => [0, 20, 0],
            b'+' | b'-' => [20, 20, 22],
            b'.' => [20, 20, 21],
            b'0'..=b'9' => [19, 21, 22],
            _ => [19, 20, 21],
        };
        assert_eq!(
            ["", ".", ".1"].map(|start| at(&format!("2025-12-03T07:05:09{start}"))),
            place
        );
        assert_eq!(at("2025-12-03T07:05:09Z"), 20);
        assert_eq!(at("2025-12-03T07:05:09+05:30"), 25);
    }
}

/// Those past nine are dropped, and never rounded; a stamp may be as long as a text.
#[test]
fn fractions() {
    for (digits, nanoseconds) in [
        ("0", 0),
        ("5", 500_000_000),
        ("05", 50_000_000),
        ("000000001", 1),
        ("0000000009", 0),
        ("123456789", 123_456_789),
        ("1234567899", 123_456_789),
        ("9999999999", 999_999_999),
    ] {
        let text = format!("2025-12-03T07:05:09.{digits}Z");
        assert_eq!(
            read_stamp(text).map(|stamp| stamp.nanoseconds % SECOND),
            Ok(nanoseconds)
        );
    }
    for count in [10, 1000, 2027] {
        let text = format!("2025-12-03T23:59:59.{}Z", "9".repeat(count));
        assert_eq!(read_stamp(&text).map(|stamp| stamp.nanoseconds), Ok(86_399_999_999_999));
        assert_eq!(refused(text.replace('Z', "")), Some((25, 20 + count as i64)));
    }
    assert_eq!(
        refused(format!("2025-12-03T23:59:59.{}Z", "9".repeat(2028))),
        Some((6, 2049))
    );
    assert_eq!(
        refused(format!("2025-12-03T23:59:59.{}Z", "9".repeat(5000))),
        Some((6, 5021))
    );
}

/// Every two digits at the place of each number.
#[test]
fn ranges() {
    for number in 0..100 {
        let read = |text: String| refused(text).map(|(number, _)| number);
        let within = |first: u32, last: u32| {
            if (first..=last).contains(&number) {
                None
            } else {
                Some(26)
            }
        };
        assert_eq!(read(format!("2025-{number:02}-03T07:05:09Z")), within(1, 12));
        assert_eq!(read(format!("2025-12-{number:02}T07:05:09Z")), within(1, 31));
        assert_eq!(read(format!("2025-12-03T{number:02}:05:09Z")), within(0, 23));
        assert_eq!(read(format!("2025-12-03T07:{number:02}:09Z")), within(0, 59));
        let second = if number == 60 { Some(27) } else { within(0, 59) };
        assert_eq!(read(format!("2025-12-03T07:05:{number:02}Z")), second);
        for sign in ["+", "-"] {
            assert_eq!(read(format!("2025-12-03T07:05:09{sign}{number:02}:30")), within(0, 23));
            assert_eq!(read(format!("2025-12-03T07:05:09{sign}05:{number:02}")), within(0, 59));
        }
    }
}

/// Every offset there is.
#[test]
fn offsets() {
    for minutes in -1439..=1439_i32 {
        let size = minutes.abs();
        let sign = if minutes < 0 { '-' } else { '+' };
        let text = format!("2025-12-03T07:05:09{sign}{:02}:{:02}", size / 60, size % 60);
        let expected = Stamp {
            offset: minutes * 60,
            ..SOME
        };
        assert_eq!(read_stamp(&text), Ok(expected));
        if minutes != 0 {
            assert_eq!(write_stamp(&expected), Ok(text));
        }
    }
    let unknown = Stamp { unknown: true, ..SOME };
    assert_eq!(read_stamp("2025-12-03T07:05:09-00:00"), Ok(unknown));
    assert_eq!(read_stamp("2025-12-03T07:05:09+00:00"), Ok(SOME));
    assert_eq!(write_stamp(&unknown).as_deref(), Ok("2025-12-03T07:05:09-00:00"));
}
