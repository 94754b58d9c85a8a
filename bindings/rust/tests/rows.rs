//! The rows that are lent to the functions as C sees them: where one is too small nothing is altered, of a larger one only the
//! start is; and what stands where in a reader's.

use sheet::raw::{self, Reader, Writer};
use sheet::{Fields, ParseUnit};

const MARK: i64 = -77;
const BYTE: u8 = 255;
const REST: usize = 3;

/// The last of the numbers that stand for choices.
const ALL_CHOICES: u32 = raw::DATE_PAIR + raw::STRICT + raw::SECOND_EDITION;

/// The function asks for so many entries: it refuses fewer, and alters all of these and none behind them.
#[track_caller]
fn asks_for(entries: usize, number: u32, mut call: impl FnMut(&mut [i64]) -> u32) {
    for fewer in 0..entries {
        let mut row = vec![MARK; fewer];
        assert_eq!(call(&mut row), raw::ROW_TOO_SMALL);
        assert!(row.iter().all(|entry| *entry == MARK));
    }
    let mut row = vec![MARK; entries + REST];
    assert_eq!(call(&mut row[..entries]), number);
    assert_eq!(call(&mut row), number);
    assert!(row[..entries].iter().all(|entry| *entry != MARK));
    assert_eq!(row[entries..], [MARK; REST]);
}

fn write(writer: Writer, day: u32, out: &mut [u8], answer: &mut [i64]) -> u32 {
    let (pattern, out_len, answer_len) = (b"dd", out.len(), answer.len());
    let (out, answer) = (out.as_mut_ptr(), answer.as_mut_ptr());
    // SAFETY: each pointer goes with the length of the slice that it comes from.
    unsafe {
        writer(
            pattern.as_ptr(),
            pattern.len(),
            2025,
            12,
            day,
            337,
            49,
            3,
            0,
            0,
            out,
            out_len,
            answer,
            answer_len,
        )
    }
}

fn read(reader: Reader, text: &[u8], answer: &mut [i64]) -> u32 {
    let (pattern, answer_len) = (b"dd", answer.len());
    // SAFETY: each pointer goes with the length of the slice that it comes from.
    unsafe {
        reader(
            pattern.as_ptr(),
            pattern.len(),
            text.as_ptr(),
            text.len(),
            2025,
            answer.as_mut_ptr(),
            answer_len,
        )
    }
}

fn parse_offset(text: &[u8], answer: &mut [i64]) -> u32 {
    // SAFETY: each pointer goes with the length of the slice that it comes from.
    unsafe { raw::sheet_parse_offset(text.as_ptr(), text.len(), answer.as_mut_ptr(), answer.len()) }
}

fn split(pattern: &[u8], answer: &mut [i64], parts: &mut [i64]) -> u32 {
    let (row, places) = (answer.as_mut_ptr(), parts.as_mut_ptr());
    // SAFETY: each pointer goes with the length of the slice that it comes from.
    unsafe { raw::sheet_split(pattern.as_ptr(), pattern.len(), row, answer.len(), places, parts.len()) }
}

fn units(pattern: &[u8], answer: &mut [i64], units: &mut [i64]) -> u32 {
    let (row, entries) = (answer.as_mut_ptr(), units.as_mut_ptr());
    // SAFETY: each pointer goes with the length of the slice that it comes from.
    unsafe { raw::sheet_units(pattern.as_ptr(), pattern.len(), row, answer.len(), entries, units.len()) }
}

fn check(pattern: &[u8], year: i32, answer: &mut [i64]) -> u32 {
    // SAFETY: each pointer goes with the length of the slice that it comes from.
    unsafe { raw::sheet_check(pattern.as_ptr(), pattern.len(), year, answer.as_mut_ptr(), answer.len()) }
}

fn check_with(choices: u32, pattern: &[u8], year: i32, answer: &mut [i64]) -> u32 {
    let (row, entries) = (answer.as_mut_ptr(), answer.len());
    // SAFETY: each pointer goes with the length of the slice that it comes from.
    unsafe { raw::sheet_check_with(choices, pattern.as_ptr(), pattern.len(), year, row, entries) }
}

#[test]
fn of_the_writers() {
    for writer in [raw::sheet_write as Writer, raw::sheet_write_date] {
        asks_for(raw::WRITE_ANSWER, raw::ACCEPTED, |row| {
            write(writer, 3, &mut [0; 2], row)
        });
        asks_for(raw::WRITE_ANSWER, 4, |row| write(writer, 32, &mut [0; 2], row));
        asks_for(raw::WRITE_ANSWER, 5, |row| write(writer, 3, &mut [0; 1], row));

        let mut out = [BYTE; 4];
        assert_eq!(write(writer, 3, &mut out, &mut [0; 1]), raw::ROW_TOO_SMALL);
        assert_eq!(write(writer, 32, &mut out, &mut [0; 2]), 4);
        assert_eq!(write(writer, 3, &mut out[..1], &mut [0; 2]), 5);
        assert_eq!(out, [BYTE; 4]);
        assert_eq!(write(writer, 3, &mut out, &mut [0; 2]), raw::ACCEPTED);
        assert_eq!(out, [b'0', b'3', BYTE, BYTE]);
    }
}

#[test]
fn of_the_readers() {
    for reader in [raw::sheet_read as Reader, raw::sheet_read_date] {
        asks_for(raw::READ_ANSWER, raw::ACCEPTED, |row| read(reader, b"03", row));
        asks_for(raw::READ_ANSWER, 8, |row| read(reader, b"3", row));
    }
}

fn read_with(choices: u32, pattern: &[u8], text: &[u8], year: i32, answer: &mut [i64]) -> u32 {
    let answer_len = answer.len();
    // SAFETY: each pointer goes with the length of the slice that it comes from.
    unsafe {
        raw::sheet_read_with(
            choices,
            pattern.as_ptr(),
            pattern.len(),
            text.as_ptr(),
            text.len(),
            year,
            answer.as_mut_ptr(),
            answer_len,
        )
    }
}

#[test]
fn of_the_reader_with_choices() {
    for choices in 0..=ALL_CHOICES {
        asks_for(raw::READ_ANSWER, raw::ACCEPTED, |row| {
            read_with(choices, b"dd", b"03", 2025, row)
        });
        asks_for(raw::READ_ANSWER, 8, |row| read_with(choices, b"dd", b"3", 2025, row));
        asks_for(raw::READ_ANSWER, 14, |row| read_with(choices, b"dd", b"03", 0, row));
        let of_a_rest = if choices & raw::STRICT == 0 { raw::ACCEPTED } else { 16 };
        asks_for(raw::READ_ANSWER, of_a_rest, |row| {
            read_with(choices, b"dd", b"03/", 2025, row)
        });
        let of_an_early_year = if choices & raw::SECOND_EDITION == 0 {
            raw::ACCEPTED
        } else {
            14
        };
        asks_for(raw::READ_ANSWER, of_an_early_year, |row| {
            read_with(choices, b"dd", b"03", 80, row)
        });
    }
}

/// What is returned, and a row that was full of marks.
fn row_left(choices: u32, pattern: &str, text: &str) -> (u32, [i64; raw::READ_ANSWER]) {
    let mut row = [MARK; raw::READ_ANSWER];
    let number = read_with(choices, pattern.as_bytes(), text.as_bytes(), 2025, &mut row);
    (number, row)
}

#[test]
fn what_a_reading_has_where() {
    let day = ParseUnit::DayOfMonth as usize;
    let mut row = [0; raw::READ_ANSWER];
    row[..raw::READ_VALUES].copy_from_slice(&[4, 1 << day, 1]);
    row[raw::READ_VALUES + day] = 14;
    row[raw::READ_STARTS + day] = 2;
    row[raw::READ_ENDS + day] = 4;
    for choices in 0..=ALL_CHOICES {
        assert_eq!(row_left(choices, "d d", "3 14"), (raw::ACCEPTED, row));
    }
}

/// What `yy.M` reads of `45.12`: by the edition one byte of the month or two, and another year.
#[test]
fn what_a_reading_has_in_each_edition() {
    let of_both = |taken: usize, year: i64, month: i64| {
        let mut row = [0; raw::READ_ANSWER];
        row[..raw::READ_VALUES].copy_from_slice(&[taken as i64, 3, 2]);
        row[raw::READ_VALUES..][..2].copy_from_slice(&[year, month]);
        row[raw::READ_STARTS..][..2].copy_from_slice(&[0, 3]);
        row[raw::READ_ENDS..][..2].copy_from_slice(&[2, taken as i64]);
        (raw::ACCEPTED, row)
    };
    for pair in [0, raw::DATE_PAIR] {
        assert_eq!(row_left(pair, "yy.M", "45.12"), of_both(4, 2045, 1));
        for choices in [pair, pair + raw::STRICT] {
            let second = choices + raw::SECOND_EDITION;
            assert_eq!(row_left(second, "yy.M", "45.12"), of_both(5, 1945, 12));
        }
    }
}

/// Zeros alone behind the details, whatever was read before.
#[test]
fn what_a_refused_read_has_where() {
    let refused = |number: u32, details: &[i64]| {
        let mut row = [0; raw::READ_ANSWER];
        row[..details.len()].copy_from_slice(details);
        (number, row)
    };
    for plain in [
        0,
        raw::DATE_PAIR,
        raw::SECOND_EDITION,
        raw::DATE_PAIR + raw::SECOND_EDITION,
    ] {
        for choices in [plain, plain + raw::STRICT] {
            assert_eq!(row_left(choices, "d/MM", "3/x"), refused(raw::TOO_FEW, &[2, 2]));
            assert_eq!(row_left(choices, "d/MM", "3/xy"), refused(raw::NO_NUMBER, &[2, 2]));
            assert_eq!(row_left(choices, "d/MM", "3/+5"), refused(raw::PLUS_SIGN, &[2, 2]));
        }
        let strict = plain + raw::STRICT;
        assert_eq!(row_left(strict, "dd-", "03/"), refused(raw::LITERAL_DIFFERS, &[1, 2]));
        assert_eq!(row_left(strict, "dd", "03/"), refused(raw::TEXT_LEFT, &[2]));
    }
}

/// A number that stands for no choices is refused whatever the row's size is, and alters none of it.
#[test]
fn of_no_such_choice() {
    for choices in [8, 9, 12, 15, 16, 1 << 16, u32::MAX] {
        for entries in [0, 1, raw::READ_ANSWER - 1, raw::READ_ANSWER, raw::READ_ANSWER + REST] {
            let mut row = vec![MARK; entries];
            for year in [0, 2025] {
                let number = read_with(choices, b"dd", b"03", year, &mut row);
                assert_eq!(number, raw::NO_SUCH_CHOICE);
            }
            assert_eq!(row, vec![MARK; entries]);
        }
    }
}

/// As of a reader, and of each number with the Date pair.
#[test]
fn of_no_such_choice_of_a_check() {
    for choices in [1, 3, 5, 7, 8, 9, 10, 12, 14, 1 << 16, u32::MAX - 1, u32::MAX] {
        for entries in [0, 1, raw::CHECK_ANSWER - 1, raw::CHECK_ANSWER, raw::CHECK_ANSWER + REST] {
            let mut row = vec![MARK; entries];
            for (pattern, year) in [(b"dd", 2025), (b"d'", 2025), (b"dd", 0)] {
                let number = check_with(choices, pattern, year, &mut row);
                assert_eq!(number, raw::NO_SUCH_CHOICE);
            }
            assert_eq!(row, vec![MARK; entries]);
        }
    }
}

#[test]
fn of_parse_offset() {
    asks_for(raw::OFFSET_ANSWER, raw::ACCEPTED, |row| parse_offset(b"Z", row));
    asks_for(raw::OFFSET_ANSWER, 12, |row| parse_offset(b"+05", row));
}

#[test]
fn of_the_check() {
    asks_for(raw::CHECK_ANSWER, raw::ACCEPTED, |row| check(b"dd", 2025, row));
    asks_for(raw::CHECK_ANSWER, raw::ACCEPTED, |row| check(b"M", 2025, row));
    asks_for(raw::CHECK_ANSWER, 3, |row| check(b"'", 2025, row));
}

#[test]
fn of_the_check_with_choices() {
    for choices in [0, raw::STRICT, raw::SECOND_EDITION, raw::STRICT + raw::SECOND_EDITION] {
        for (pattern, year, number) in [
            ("dd", 2025, raw::ACCEPTED),
            ("yy", 2025, raw::ACCEPTED),
            ("'", 2025, 3),
            ("", 0, 14),
        ] {
            asks_for(raw::CHECK_ANSWER, number, |row| {
                check_with(choices, pattern.as_bytes(), year, row)
            });
        }
    }
}

/// What is returned, and a row that was full of marks.
fn row_of_check(call: impl Fn(&mut [i64]) -> u32) -> (u32, [i64; raw::CHECK_ANSWER]) {
    let mut row = [MARK; raw::CHECK_ANSWER];
    (call(&mut row), row)
}

/// With no choice the check is the one without choices, and a strict reading makes no difference to it.
#[test]
fn checks_that_do_the_same() {
    for pattern in ["", "d/MM", "d/M", "Md", "M5", "yy", "d5", "XXXXX.5", "'a''", "'", "\0"] {
        let pattern = pattern.as_bytes();
        for year in [-1, 0, 1, 80, 81, 2025, 9999, 10_000] {
            let with = |choices: u32| row_of_check(|row| check_with(choices, pattern, year, row));
            assert_eq!(with(0), row_of_check(|row| check(pattern, year, row)));
            assert_eq!(with(raw::STRICT), with(0));
            assert_eq!(with(raw::SECOND_EDITION + raw::STRICT), with(raw::SECOND_EDITION));
        }
    }
}

/// Two patterns whose verdict hangs on the edition, with the record that is shown.
#[test]
fn what_a_check_has_in_each_edition() {
    let yes = (raw::ACCEPTED, [1, 0, 0, 0, 0, 0, 0, 0, 0, 0]);
    let with = |choices: u32, pattern: &[u8]| row_of_check(|row| check_with(choices, pattern, 2025, row));
    let (number, first) = with(0, b"d/M");
    assert_eq!((number, &first[..5]), (raw::ACCEPTED, &[0, 2, 2024, 11, 23][..]));
    assert_eq!(with(raw::SECOND_EDITION, b"d/M"), yes);
    let (number, second) = with(raw::SECOND_EDITION, b"Mdd");
    assert_eq!((number, &second[..5]), (raw::ACCEPTED, &[0, 0, 2024, 2, 5][..]));
}

fn day(number: i32, answer: &mut [i64]) -> u32 {
    // SAFETY: the pointer goes with the length of the slice that it comes from.
    unsafe { raw::sheet_day(number, answer.as_mut_ptr(), answer.len()) }
}

fn day_number(year: i32, month: u32, day: u32, answer: &mut [i64]) -> u32 {
    // SAFETY: the pointer goes with the length of the slice that it comes from.
    unsafe { raw::sheet_day_number(year, month, day, answer.as_mut_ptr(), answer.len()) }
}

#[test]
fn of_the_day() {
    for number in [i32::MIN, -1, 0, 739_587, i32::MAX] {
        asks_for(raw::DAY_ANSWER, raw::ACCEPTED, |row| day(number, row));
    }
    let mut row = [MARK; raw::DAY_ANSWER + REST];
    assert_eq!(day(739_587, &mut row), raw::ACCEPTED);
    assert_eq!(row, [2025, 12, 3, 337, 49, 3, MARK, MARK, MARK]);
}

/// Refused, both entries are 0; where the row is too small that is told first.
#[test]
fn of_the_number_of_a_day() {
    for (date, number, first) in [
        ((2025, 12, 3), raw::ACCEPTED, 739_587),
        ((-1, 12, 31), raw::ACCEPTED, -1),
        ((2025, 2, 29), raw::NO_SUCH_DAY, 0),
        ((5_879_611, 7, 13), raw::NO_DAY_NUMBER, 0),
    ] {
        let (year, month, day) = date;
        asks_for(raw::DAY_NUMBER_ANSWER, number, |row| day_number(year, month, day, row));
        let mut row = [MARK; raw::DAY_NUMBER_ANSWER + 1];
        assert_eq!(day_number(year, month, day, &mut row), number);
        assert_eq!(row, [first, 0, MARK]);
    }
}

/// The function has two rows, of 2 and of so many entries: where one is too small, the other keeps its entries.
#[track_caller]
fn asks_for_two(entries: usize, call: fn(&[u8], &mut [i64], &mut [i64]) -> u32) {
    asks_for(entries, raw::ACCEPTED, |row| call(b"d'", &mut [0; 2], row));
    asks_for(2, raw::ACCEPTED, |row| call(b"d'", row, &mut vec![0; entries]));
    asks_for(2, 2, |row| call(b"\0", row, &mut vec![0; entries]));

    let (mut answer, mut more) = ([MARK; 2], vec![MARK; entries]);
    assert_eq!(call(b"d'", &mut [0; 1], &mut more), raw::ROW_TOO_SMALL);
    assert_eq!(call(b"d'", &mut answer, &mut more[1..]), raw::ROW_TOO_SMALL);
    assert_eq!(answer, [MARK; 2]);
    assert_eq!(call(b"\0", &mut answer, &mut more), 2);
    assert_eq!(more, vec![MARK; entries]);
}

#[test]
fn of_the_split() {
    asks_for_two(raw::SPLIT_PARTS, split);
}

#[test]
fn of_the_units() {
    asks_for_two(raw::UNITS_ROW, units);
}

#[test]
fn a_writer_needs_eight_bytes_a_pattern_byte_at_most() {
    let longest = Fields {
        year: -5_879_611,
        month: 9,
        day: 31,
        day_of_year: 366,
        week: 53,
        weekday: 3,
        nanoseconds: 43_199_999_999_999,
        offset: -86_399,
    };
    for symbol in b"GyqMwdDeabhHKkmsnXx" {
        for count in 1..=256 {
            let pattern = vec![*symbol; count];
            let text = sheet::write(&pattern, &longest).expect("there is room");
            assert!(text.len() <= 8 * count);
        }
    }
}
