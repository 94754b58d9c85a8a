//! The rows that are lent to the functions of lists as C sees them: what they alter of them, in which order they are refused, and what
//! stands where in the row of a line, at every place of a text.

mod lent;

use lent::{read_by, read_line, read_list, ALL_CHOICES, MARK};
use sheet::{raw, Book, Columns};

const TEXT: &[u8] = b"03/12\n\nx5/11\r\n\x80\n04/10";
const LINES: i64 = 5;

/// Rows of marks that no list lays.
fn marked(cells: usize) -> Columns {
    Columns {
        days: vec![-77; cells],
        months: vec![-78; cells],
        years: vec![-79; cells],
        codes: vec![80; cells],
    }
}

fn books() -> [&'static [u8]; 2] {
    [&[], Book::english().row()]
}

/// The list is refused with any row for the answer, and leaves it and all other rows as they were.
#[track_caller]
fn alters_nothing(number: u32, entries: usize, choices: u32, book: &[u8], pattern: &[u8]) {
    let (mut rows, mut answer) = (marked(9), vec![MARK; entries]);
    assert_eq!(
        read_list(choices, book, pattern, TEXT, 2025, &mut rows, &mut answer),
        number
    );
    assert_eq!((rows, answer), (marked(9), vec![MARK; entries]));
}

#[test]
fn what_a_list_alters() {
    for book in books() {
        for choices in 0..=ALL_CHOICES {
            for cells in [5, 6, 9, 100] {
                let (mut rows, mut answer) = (marked(cells), [MARK; 4]);
                let number = read_list(choices, book, b"dd/MM", TEXT, 2025, &mut rows, &mut answer);
                assert_eq!((number, answer), (raw::ACCEPTED, [LINES, 0, MARK, MARK]));
                let Columns {
                    days,
                    months,
                    years,
                    codes,
                } = &rows;
                assert_eq!(
                    (&days[..5], &days[5..]),
                    (&[3, 0, 0, 0, 4][..], &marked(cells).days[5..])
                );
                assert_eq!(
                    (&months[..5], &months[5..]),
                    (&[12, 0, 0, 0, 10][..], &marked(cells).months[5..])
                );
                assert_eq!((&years[..5], &years[5..]), (&[0; 5][..], &marked(cells).years[5..]));
                assert_eq!(
                    (&codes[..5], &codes[5..]),
                    (&[0, 8, 9, 7, 0][..], &marked(cells).codes[5..])
                );
            }
        }
    }
}

/// The details, then 0, and no cell.
#[test]
fn what_a_refused_list_alters() {
    let long = [b'd'; 257];
    let refused = |pattern: &[u8], year: i32, cells: usize| {
        let (mut rows, mut answer) = (marked(cells), [MARK; 4]);
        let number = read_list(0, &[], pattern, TEXT, year, &mut rows, &mut answer);
        assert_eq!((rows, &answer[2..]), (marked(cells), &[MARK, MARK][..]));
        (number, answer[0], answer[1])
    };
    for cells in [0, 4, 9] {
        assert_eq!(refused(&long, 0, cells), (raw::PATTERN_TOO_LONG, 257, 0));
        assert_eq!(refused(b"d\0'", 0, cells), (raw::PATTERN_BYTE, 1, 0));
        assert_eq!(refused(b"d'", 0, cells), (raw::LONE_QUOTE, 1, 0));
        assert_eq!(refused(b"d", -5, cells), (raw::CURRENT_YEAR, -5, 0));
    }
    for cells in 0..5 {
        assert_eq!(refused(b"d", 2025, cells), (raw::SHORT_ROW, 0, 0));
    }
}

/// Of each row by itself one cell too few.
#[test]
fn one_row_that_is_too_short() {
    for short in 0..4 {
        let shorter = || {
            let mut rows = marked(5);
            match short {
                0 => rows.days.truncate(4),
                1 => rows.months.truncate(4),
                2 => rows.years.truncate(4),
                _ => rows.codes.truncate(4),
            }
            rows
        };
        let (mut rows, mut answer) = (shorter(), [MARK; 2]);
        let number = read_list(0, &[], b"dd/MM", TEXT, 2025, &mut rows, &mut answer);
        assert_eq!((number, answer, rows), (raw::SHORT_ROW, [0, 0], shorter()));
        let without_last = &TEXT[..TEXT.len() - 5];
        let mut rows = shorter();
        assert_eq!(
            read_list(0, &[], b"dd/MM", without_last, 2025, &mut rows, &mut answer),
            raw::ACCEPTED
        );
        assert_eq!(answer, [4, 0]);
    }
}

/// No choices, then no book, then a row for the answer that is too small, all before what is refused by its number.
#[test]
fn the_order_of_a_list() {
    for pattern in [&b"dd"[..], b"'"] {
        for entries in [0, 1, 2, 9] {
            for choices in [8, 9, 1 << 16, u32::MAX] {
                alters_nothing(raw::NO_SUCH_CHOICE, entries, choices, &[], pattern);
                alters_nothing(raw::NO_SUCH_CHOICE, entries, choices, &[0; 7], pattern);
            }
            for choices in 0..=ALL_CHOICES {
                for size in [1, 1343, 1345] {
                    alters_nothing(raw::NO_BOOK, entries, choices, &vec![1; size], pattern);
                }
            }
        }
        for entries in [0, 1] {
            for book in books() {
                alters_nothing(raw::ROW_TOO_SMALL, entries, 0, book, pattern);
            }
        }
    }
}

/// What the row of a line has to be at a place: the line from there to the newline, as a text by itself.
fn line_at(choices: u32, book: &[u8], pattern: &[u8], at: usize) -> (u32, [i64; raw::LINE_ANSWER]) {
    let rest = &TEXT[at..];
    let length = rest.iter().position(|byte| *byte == b'\n').unwrap_or(rest.len());
    let mut row = [0; raw::LINE_ANSWER];
    let (places, reading) = row.split_at_mut(raw::LINE_READING);
    let number = read_by(choices, book, pattern, &rest[..length], reading);
    let next = (at + length + 1).min(TEXT.len());
    places.copy_from_slice(&[at as i64, (at + length) as i64, next as i64]);
    (number, row)
}

#[test]
fn what_a_line_answers_at_every_place() {
    for book in books() {
        for choices in 0..=ALL_CHOICES {
            for pattern in [&b"dd/MM"[..], b"d", b"", b"'", &[b'd'; 257]] {
                for at in 0..TEXT.len() {
                    let mut row = [MARK; raw::LINE_ANSWER + 2];
                    let number = read_line(choices, book, pattern, TEXT, at, &mut row);
                    let (expected, entries) = line_at(choices, book, pattern, at);
                    assert_eq!((number, &row[..raw::LINE_ANSWER]), (expected, &entries[..]));
                    assert_eq!(row[raw::LINE_ANSWER..], [MARK; 2]);
                }
            }
        }
    }
}

/// From 0 on they are the lines of the list.
#[test]
fn one_line_after_the_other() {
    let (mut rows, mut answer) = (marked(5), [MARK; 2]);
    read_list(0, &[], b"dd/MM", TEXT, 2025, &mut rows, &mut answer);
    let mut row = [MARK; raw::LINE_ANSWER];
    let (mut at, mut codes, mut days) = (0, Vec::new(), Vec::new());
    loop {
        let number = read_line(0, &[], b"dd/MM", TEXT, at, &mut row);
        if number == raw::NO_LINE {
            break;
        }
        let accepted = number == raw::ACCEPTED;
        codes.push(number);
        days.push(if accepted {
            row[raw::LINE_READING + raw::READ_VALUES + 2] as i32
        } else {
            0
        });
        at = row[2] as usize;
    }
    assert_eq!((codes, days), (rows.codes, rows.days));
    assert_eq!(at, TEXT.len());
}

#[test]
fn no_line_is_left() {
    for (text, places) in [
        (TEXT, vec![TEXT.len(), TEXT.len() + 1, usize::MAX]),
        (b"", vec![0, 1, 1 << 40]),
    ] {
        for at in places {
            for pattern in [&b"dd"[..], b"'", &[b'd'; 257]] {
                let mut row = [MARK; raw::LINE_ANSWER];
                assert_eq!(read_line(0, &[], pattern, text, at, &mut row), raw::NO_LINE);
                assert_eq!(row, [MARK; raw::LINE_ANSWER]);
            }
        }
    }
}

/// No choices, no book, a row that is too small, then no line.
#[test]
fn the_order_of_a_line() {
    for at in [0, 6, TEXT.len(), usize::MAX] {
        for entries in [0, 1, 48, 50, 51, 60] {
            let mut row = vec![MARK; entries];
            let mut returned = |choices, book: &[u8]| read_line(choices, book, b"dd", TEXT, at, &mut row);
            for choices in [8, u32::MAX] {
                assert_eq!(returned(choices, &[]), raw::NO_SUCH_CHOICE);
                assert_eq!(returned(choices, &[0; 7]), raw::NO_SUCH_CHOICE);
            }
            for size in [1, 1343, 1345] {
                assert_eq!(returned(ALL_CHOICES, &vec![1; size]), raw::NO_BOOK);
            }
            if entries < raw::LINE_ANSWER {
                assert_eq!(returned(0, &[]), raw::ROW_TOO_SMALL);
            }
            assert_eq!(row, vec![MARK; entries]);
        }
    }
}
