//! The rows that are lent to the functions of stamps as C sees them: what they alter of them, and in which order they are refused.

use sheet::raw;

const MARK: i64 = -77;
const BYTE: u8 = 255;
const TEXT: &[u8] = b"2025-12-03T07:05:09-00:00";
/// A year out of its range, one that is not written, and a good one.
const YEARS: [(i32, u32, [i64; 2]); 3] = [
    (0, raw::FIELD_RANGE, [1, 0]),
    (-1, raw::STAMP_YEAR, [0, 0]),
    (2025, raw::ACCEPTED, [25, 0]),
];

fn read(text: &[u8], answer: &mut [i64]) -> u32 {
    // SAFETY: each pointer goes with the length of the slice that it comes from.
    unsafe { raw::sheet_rfc_read(text.as_ptr(), text.len(), answer.as_mut_ptr(), answer.len()) }
}

/// On the day and at the time of the text.
fn write(year: i32, unknown: u32, out: &mut [u8], answer: &mut [i64]) -> u32 {
    let (text, room) = (out.as_mut_ptr(), out.len());
    let (row, entries) = (answer.as_mut_ptr(), answer.len());
    // SAFETY: each pointer goes with the length of the slice that it comes from.
    unsafe { raw::sheet_rfc_write(year, 12, 3, 25_509_000_000_000, 0, unknown, text, room, row, entries) }
}

#[test]
fn what_a_reading_alters() {
    for (text, number, first) in [
        (TEXT, raw::ACCEPTED, [2025, 12, 3, 25_509_000_000_000, 0, 1]),
        (&TEXT[..20], raw::NOT_STAMP, [20, 0, 0, 0, 0, 0]),
        (b"2025-12-03T24:05:09Z", raw::STAMP_RANGE, [0; 6]),
        (b"2025-12-03T07:05:60Z", raw::LEAP_SECOND, [0; 6]),
        (b"0000-12-03T07:05:09Z", raw::STAMP_YEAR, [0; 6]),
        (b"2025-11-31T07:05:09Z", raw::NO_SUCH_DAY, [0; 6]),
        (b"2025-\xff", raw::TEXT_BYTE, [5, 0, 0, 0, 0, 0]),
        (&[b'0'; 2049], raw::TEXT_TOO_LONG, [2049, 0, 0, 0, 0, 0]),
    ] {
        for entries in 0..raw::RFC_READ_ANSWER {
            let mut row = vec![MARK; entries];
            assert_eq!((read(text, &mut row), row), (raw::ROW_TOO_SMALL, vec![MARK; entries]));
        }
        let mut row = [MARK; raw::RFC_READ_ANSWER + 2];
        assert_eq!(read(text, &mut row), number);
        assert_eq!((&row[..6], &row[6..]), (&first[..], &[MARK; 2][..]));
    }
}

#[test]
fn what_a_write_alters() {
    for (year, number, first) in YEARS {
        let (mut out, mut row) = ([BYTE; 40], [MARK; 4]);
        assert_eq!(write(year, 1, &mut out, &mut row), number);
        assert_eq!((&row[..2], &row[2..]), (&first[..], &[MARK; 2][..]));
        let length = if number == raw::ACCEPTED { TEXT.len() } else { 0 };
        assert_eq!(out[..length], TEXT[..length]);
        assert!(out[length..].iter().all(|byte| *byte == BYTE));
    }
}

/// A mark that is none, then a row that is too small, both before what is refused by its number.
#[test]
fn the_order_of_a_write() {
    for (year, ..) in YEARS {
        for entries in 0..4 {
            let (mut out, mut row) = ([BYTE; 40], vec![MARK; entries]);
            for unknown in [2, 3, 255, 256, 1 << 31, u32::MAX] {
                assert_eq!(write(year, unknown, &mut out, &mut row), raw::NO_SUCH_CHOICE);
            }
            if entries < raw::RFC_WRITE_ANSWER {
                for unknown in [0, 1] {
                    assert_eq!(write(year, unknown, &mut out, &mut row), raw::ROW_TOO_SMALL);
                }
            }
            assert_eq!((out, row), ([BYTE; 40], vec![MARK; entries]));
        }
    }
}
