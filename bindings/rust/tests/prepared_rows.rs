//! The rows that are lent to the functions of prepared patterns as C sees them: what they alter of them, and in which order they are
//! refused.

mod laid;
mod lent;

use laid::{check, prepare, prepared, read, read_list, write, R};
use lent::{left, ALL_CHOICES, BYTE, MARK};
use sheet::{raw, Book, Columns, Fields};

const SIZE: usize = raw::PREPARED_ROW;

/// An entry of a row that is lent to be prepared.
const ENTRY: u64 = u64::MAX - 76;

/// Rows of marks that no list lays.
fn marked() -> Columns {
    Columns {
        days: vec![-77; 3],
        months: vec![-78; 3],
        years: vec![-79; 3],
        codes: vec![80; 3],
    }
}

#[test]
fn what_preparing_alters() {
    let long = [b'd'; 257];
    for choices in 0..=ALL_CHOICES {
        for (pattern, number, first) in [
            (&b""[..], raw::ACCEPTED, 0),
            (b"dd", raw::ACCEPTED, 1),
            (&long, raw::PATTERN_TOO_LONG, 257),
            (b"d\0'", raw::PATTERN_BYTE, 1),
            (b"d'", raw::LONE_QUOTE, 1),
        ] {
            let (mut row, mut answer) = ([ENTRY; SIZE + 2], [MARK; 4]);
            assert_eq!(prepare(choices, pattern, &mut row, &mut answer), number);
            assert_eq!((answer, &row[SIZE..]), ([first, 0, MARK, MARK], &[ENTRY; 2][..]));
        }
    }
}

/// No choices, then a row that is too small.
#[test]
fn the_order_of_preparing() {
    for pattern in [&b"dd"[..], b"'"] {
        for (size, entries) in [(SIZE - 1, 2), (0, 2), (SIZE, 1), (SIZE, 0)] {
            for choices in 0..=ALL_CHOICES + 1 {
                let (mut row, mut answer) = (vec![ENTRY; size], vec![MARK; entries]);
                let number = match choices {
                    0..=ALL_CHOICES => raw::ROW_TOO_SMALL,
                    _ => raw::NO_SUCH_CHOICE,
                };
                assert_eq!(prepare(choices, pattern, &mut row, &mut answer), number);
                assert_eq!((row, answer), (vec![ENTRY; size], vec![MARK; entries]));
            }
        }
        for choices in [ALL_CHOICES + 1, 16, u32::MAX] {
            let mut row = [ENTRY; SIZE];
            assert_eq!(prepare(choices, pattern, &mut row, &mut [MARK; 2]), raw::NO_SUCH_CHOICE);
            assert_eq!(row, [ENTRY; SIZE]);
        }
    }
}

#[test]
fn what_a_write_alters() {
    let row = prepared(0, b"yyyy/MM/dd");
    for room in [10, 11, 15, 100] {
        let mut answer = [MARK; 4];
        let (number, out) = left(room, |out| write(&[], &row, &R, out, &mut answer));
        assert_eq!((number, answer), (raw::ACCEPTED, [10, 0, MARK, MARK]));
        assert_eq!(
            (&out[..10], &out[10..]),
            (&b"2025/12/03"[..], &vec![BYTE; room - 10][..])
        );
    }
    for room in 0..10 {
        let mut answer = [MARK; 4];
        let (number, out) = left(room, |out| write(&[], &row, &R, out, &mut answer));
        assert_eq!(
            (number, answer, out),
            (raw::NO_ROOM, [10, 0, MARK, MARK], vec![BYTE; room])
        );
    }
    let mut answer = [MARK; 4];
    let bad = Fields { day: 32, ..R };
    let (number, out) = left(3, |out| write(&[], &row, &bad, out, &mut answer));
    assert_eq!(
        (number, answer, out),
        (raw::FIELD_RANGE, [3, 0, MARK, MARK], vec![BYTE; 3])
    );
}

#[test]
fn what_a_read_and_a_check_alter() {
    let row = prepared(0, b"d/M");
    let mut answer = [MARK; 50];
    assert_eq!(read(0, &[], &row, b"3/12", 2025, &mut answer), raw::ACCEPTED);
    assert_eq!((answer[0], &answer[48..]), (3, &[MARK; 2][..]));
    let mut answer = [MARK; 50];
    assert_eq!(read(0, &[], &row, b"3/x", 2025, &mut answer), raw::NO_NUMBER);
    assert_eq!(
        (answer[..2].to_vec(), &answer[2..48], &answer[48..]),
        (vec![2, 2], &[0; 46][..], &[MARK; 2][..])
    );
    let mut answer = [MARK; 12];
    assert_eq!(check(0, &row, 2025, &mut answer), raw::ACCEPTED);
    assert_eq!((answer[0], answer[1], &answer[10..]), (0, 2, &[MARK; 2][..]));
    let mut answer = [MARK; 12];
    assert_eq!(check(raw::SECOND_EDITION, &row, 80, &mut answer), raw::CURRENT_YEAR);
    assert_eq!(
        (answer[0], &answer[1..10], &answer[10..]),
        (80, &[0; 9][..], &[MARK; 2][..])
    );
}

/// Of each function what it returns where it is lent this, and that nothing was altered.
#[track_caller]
fn all_return(number: u32, choices: u32, book: &[u8], row: &[u64], short: bool) {
    let entries = |asked: usize| vec![MARK; if short { asked - 1 } else { asked }];
    let mut answer = entries(raw::READ_ANSWER);
    assert_eq!(read(choices, book, row, b"\xff", 0, &mut answer), number);
    assert_eq!(answer, entries(raw::READ_ANSWER));
    let (mut answer, mut rows) = (entries(raw::LIST_ANSWER), marked());
    assert_eq!(
        read_list(choices, book, row, b"\n\n\n\n", 0, &mut rows, &mut answer),
        number
    );
    assert_eq!((answer, rows), (entries(raw::LIST_ANSWER), marked()));
    if number == raw::NO_SUCH_CHOICE {
        return;
    }
    let (mut answer, none) = (entries(raw::WRITE_ANSWER), Fields { month: 0, ..R });
    let (returned, out) = left(9, |out| write(book, row, &none, out, &mut answer));
    assert_eq!(
        (returned, answer, out),
        (number, entries(raw::WRITE_ANSWER), vec![BYTE; 9])
    );
}

/// No choices, no book, a row for the answer that is too small, no prepared pattern, and then what is refused by its number.
#[test]
fn the_order_of_the_uses() {
    let (english, fine) = (&Book::english().row()[..], prepared(0, b"dd"));
    for row in [&[][..], &fine[..SIZE - 1], &fine, &prepared(0, b"'"), &[0; SIZE]] {
        for short in [false, true] {
            for choices in [ALL_CHOICES + 1, u32::MAX] {
                all_return(raw::NO_SUCH_CHOICE, choices, &[1], row, short);
            }
            for size in [1, raw::BOOK_ROW - 1, raw::BOOK_ROW + 1] {
                all_return(raw::NO_BOOK, ALL_CHOICES, &vec![1; size], row, short);
            }
        }
        for book in [&[][..], english] {
            for choices in 0..=ALL_CHOICES {
                all_return(raw::ROW_TOO_SMALL, choices, book, row, true);
            }
        }
    }
    for row in [&[][..], &fine[..SIZE - 1], &[0; SIZE], &[u64::MAX; SIZE]] {
        for choices in 0..=ALL_CHOICES {
            all_return(raw::NOT_PREPARED, choices, english, row, false);
        }
    }
}

#[test]
fn the_order_of_a_check() {
    let fine = prepared(0, b"dd");
    for row in [&[][..], &fine[..SIZE - 1], &fine, &[0; SIZE]] {
        for choices in [1, 3, 5, 7, 8, 9, u32::MAX] {
            assert_eq!(check(choices, row, 0, &mut []), raw::NO_SUCH_CHOICE);
        }
        for choices in [0, 2, 4, 6] {
            let mut answer = [MARK; 9];
            assert_eq!(
                (check(choices, row, 0, &mut answer), answer),
                (raw::ROW_TOO_SMALL, [MARK; 9])
            );
        }
    }
    for row in [&[][..], &fine[..SIZE - 1], &[0; SIZE]] {
        for choices in [0, 2, 4, 6] {
            let mut answer = [MARK; 10];
            assert_eq!(
                (check(choices, row, 0, &mut answer), answer),
                (raw::NOT_PREPARED, [MARK; 10])
            );
        }
    }
}

/// What is behind a prepared pattern makes no difference.
#[test]
fn a_longer_row_will_do() {
    let mut row = prepared(0, b"dd").to_vec();
    row.extend([ENTRY; 9]);
    let mut answer = [MARK; 2];
    assert_eq!(write(&[], &row, &R, &mut [0; 2], &mut answer), raw::ACCEPTED);
    assert_eq!(answer, [2, 0]);
}
