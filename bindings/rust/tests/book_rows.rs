//! The rows that are lent to the functions with a book as C sees them: what they alter of them, and bytes that are no opened book.

mod lent;
mod shelves;

use lent::{book_read, book_write, left, read_by, write_by, ALL_CHOICES, BYTE, MARK};
use sheet::{raw, Book};
use shelves::{book_with, some_books, DUTCH, ENGLISH, NAMES};

/// Sizes that no opened book has.
const OTHER_SIZES: [usize; 10] = [1, 2, 20, 21, 64, 743, 1323, 1343, 1345, 2688];

/// The row is answered from its start, and keeps what is behind; one that is too small keeps all, as does the output.
#[track_caller]
fn gives(entries: usize, number: u32, first: &[i64], mut call: impl FnMut(&mut [i64]) -> u32) {
    for fewer in 0..entries {
        let mut row = vec![MARK; fewer];
        assert_eq!(call(&mut row), raw::ROW_TOO_SMALL);
        assert!(row.iter().all(|entry| *entry == MARK));
    }
    let mut row = vec![MARK; entries + 3];
    assert_eq!(call(&mut row[..entries]), number);
    assert_eq!(call(&mut row), number);
    assert_eq!(row[..first.len()], *first);
    assert!(row[first.len()..entries].iter().all(|entry| *entry == 0));
    assert!(row[entries..].iter().all(|entry| *entry == MARK));
}

#[test]
fn of_opening() {
    for (bytes, number, first) in [
        (DUTCH, raw::ACCEPTED, 1344),
        (&DUTCH[1..], raw::BOOK_MARK, 0),
        (b"LNB\0\x03", raw::BOOK_VERSION, 0),
        (&DUTCH[..100], raw::BOOK_LENGTH, 0),
    ] {
        gives(2, number, &[first, 0], |row| {
            book_read(bytes, &mut [0; raw::BOOK_ROW], row)
        });
    }
    let mut bad = DUTCH.to_vec();
    bad[6] = b'1';
    gives(2, raw::BOOK_NAME, &[1, 0], |row| {
        book_read(&bad, &mut [0; raw::BOOK_ROW], row)
    });
    for room in [0, 1, 1343] {
        gives(2, raw::NO_ROOM, &[1344, 0], |row| {
            book_read(DUTCH, &mut vec![0; room], row)
        });
        gives(2, raw::BOOK_NAME, &[1, 0], |row| {
            book_read(&bad, &mut vec![0; room], row)
        });
    }
}

#[test]
fn what_opening_alters() {
    for (bytes, room) in [(DUTCH, 1343), (&DUTCH[..286], 2000), (b"LNB", 1344), (b"", 0)] {
        let (number, book) = left(room, |book| book_read(bytes, book, &mut [0; 2]));
        assert!(number != raw::ACCEPTED && book == vec![BYTE; room]);
    }
    for entries in [0, 1] {
        let (number, book) = left(2000, |book| book_read(DUTCH, book, &mut vec![0; entries]));
        assert!(number == raw::ROW_TOO_SMALL && book == vec![BYTE; 2000]);
    }
    let dutch = Book::read(DUTCH).expect("it is a book");
    for room in [1344, 1345, 5000] {
        let (number, book) = left(room, |book| book_read(DUTCH, book, &mut [0; 2]));
        assert_eq!((number, &book[..1344]), (raw::ACCEPTED, &dutch.row()[..]));
        assert_eq!(book[1344..], vec![BYTE; room - 1344]);
    }
}

/// A length, the letters, and zeros.
#[test]
fn what_stands_in_the_rooms() {
    for book in some_books() {
        let names: [&str; NAMES] = book.names().into();
        for (room, name) in book.row().chunks(raw::NAME_ROOM).zip(names) {
            let mut expected = vec![name.len() as u8];
            expected.extend(name.as_bytes());
            expected.resize(raw::NAME_ROOM, 0);
            assert_eq!(room, expected);
        }
    }
}

#[test]
fn of_writing_a_book() {
    for book in some_books() {
        let bytes = book.write();
        let length = bytes.len() as i64;
        gives(2, raw::ACCEPTED, &[length, 0], |row| {
            book_write(book.row(), &mut [0; 743], row)
        });
        for room in [0, bytes.len() - 1] {
            gives(2, raw::NO_ROOM, &[length, 0], |row| {
                book_write(book.row(), &mut vec![0; room], row)
            });
            let (_, out) = left(room, |out| book_write(book.row(), out, &mut [0; 2]));
            assert_eq!(out, vec![BYTE; room]);
        }
        for room in [bytes.len(), bytes.len() + 1, 4096] {
            let (number, out) = left(room, |out| book_write(book.row(), out, &mut [0; 2]));
            assert_eq!((number, &out[..bytes.len()]), (raw::ACCEPTED, &bytes[..]));
            assert_eq!(out[bytes.len()..], vec![BYTE; room - bytes.len()]);
        }
    }
    gives(2, raw::ACCEPTED, &[283, 0], |row| book_write(&[], &mut [0; 743], row));
    gives(2, raw::NO_ROOM, &[283, 0], |row| book_write(&[], &mut [0; 282], row));
    let (_, out) = left(283, |out| book_write(&[], out, &mut [0; 2]));
    assert_eq!(out, ENGLISH);
}

/// A bad name before too little room; a length that is more than a room holds makes one, and nothing is altered.
#[test]
fn of_writing_a_book_with_a_bad_name() {
    let book = book_with(|list| list.most);
    for place in 0..NAMES {
        for length in [0, 21, 22, 255] {
            let mut row = *book.row();
            row[raw::NAME_ROOM * place] = length;
            for room in [0, 743, 4096] {
                let first = [place as i64 + 1, 0];
                gives(2, raw::BOOK_NAME, &first, |answer| {
                    book_write(&row, &mut vec![0; room], answer)
                });
                let (_, out) = left(room, |out| book_write(&row, out, &mut [0; 2]));
                assert_eq!(out, vec![BYTE; room]);
            }
        }
    }
}

/// Of a room only the length and so many bytes count.
#[test]
fn what_is_behind_a_name_does_not_count() {
    for book in some_books() {
        let mut row = *book.row();
        for room in row.chunks_mut(raw::NAME_ROOM) {
            let length = usize::from(room[0]);
            room[1 + length..].fill(BYTE);
        }
        let (_, out) = left(book.write().len(), |out| book_write(&row, out, &mut [0; 2]));
        assert_eq!(out, book.write());
        for pattern in [&b"MMMM"[..], b"MMM", b"MMMMM", b"eeee", b"eee", b"eeeeee", b"eeeee"] {
            let by = |book: &[u8]| left(40, |out| write_by(0, book, pattern, (12, 6), out, &mut [0; 2]));
            assert_eq!(by(&row), by(book.row()));
        }
    }
}

/// Any other size than 0 and 1,344, whatever the other rows are; behind a number that stands for no choices.
#[test]
fn of_no_book() {
    for size in OTHER_SIZES {
        let book: Vec<u8> = Book::english().row().iter().copied().cycle().take(size).collect();
        for entries in [0, 1, 2, 47, 48, 50] {
            let mut row = vec![MARK; entries];
            for choices in 0..=ALL_CHOICES {
                for pattern in [&b"dd"[..], b"", b"'"] {
                    let wrote = left(8, |out| write_by(choices, &book, pattern, (12, 3), out, &mut row));
                    assert_eq!(wrote, (raw::NO_BOOK, vec![BYTE; 8]));
                    assert_eq!(read_by(choices, &book, pattern, b"03", &mut row), raw::NO_BOOK);
                }
            }
            for choices in [8, 9, 1 << 16, u32::MAX] {
                let wrote = left(8, |out| write_by(choices, &book, b"dd", (12, 3), out, &mut row));
                assert_eq!(wrote, (raw::NO_SUCH_CHOICE, vec![BYTE; 8]));
                assert_eq!(read_by(choices, &book, b"dd", b"03", &mut row), raw::NO_SUCH_CHOICE);
            }
            let wrote = left(743, |out| book_write(&book, out, &mut row));
            assert_eq!(wrote, (raw::NO_BOOK, vec![BYTE; 743]));
            assert_eq!(row, vec![MARK; entries]);
        }
    }
}

#[test]
fn of_no_such_choice() {
    for choices in [8, 9, 12, 15, 16, 1 << 16, u32::MAX] {
        for book in [&Book::english().row()[..], &[]] {
            for entries in [0, 1, 2, 47, 48, 50] {
                let mut row = vec![MARK; entries];
                let wrote = left(8, |out| write_by(choices, book, b"dd", (12, 3), out, &mut row));
                assert_eq!(wrote, (raw::NO_SUCH_CHOICE, vec![BYTE; 8]));
                assert_eq!(read_by(choices, book, b"dd", b"03", &mut row), raw::NO_SUCH_CHOICE);
                assert_eq!(row, vec![MARK; entries]);
            }
        }
    }
}

#[test]
fn of_writing_and_reading() {
    for book in [&Book::english().row()[..], &[]] {
        for choices in 0..=ALL_CHOICES {
            let mut out = [BYTE; 8];
            let month = (12, 3);
            gives(2, raw::ACCEPTED, &[5, 0], |row| {
                write_by(choices, book, b"MMMdd", month, &mut out, row)
            });
            assert_eq!(out, *b"Dec03\xff\xff\xff");
            out = [BYTE; 8];
            gives(2, raw::NO_ROOM, &[5, 0], |row| {
                write_by(choices, book, b"MMMdd", month, &mut out[..4], row)
            });
            gives(2, raw::FIELD_RANGE, &[2, 0], |row| {
                write_by(choices, book, b"M", (13, 3), &mut out, row)
            });
            gives(2, raw::LONE_QUOTE, &[1, 0], |row| {
                write_by(choices, book, b"M'", month, &mut out, row)
            });
            assert_eq!(out, [BYTE; 8]);
            let mut reading = [0; 48];
            reading[..5].copy_from_slice(&[3, 2, 1, 0, 12]);
            reading[raw::READ_ENDS + 1] = 3;
            gives(48, raw::ACCEPTED, &reading, |row| {
                read_by(choices, book, b"MMM", b"Dec", row)
            });
            gives(48, raw::NO_NAME, &[1, 1], |row| {
                read_by(choices, book, b"dMMM", b"3Dez", row)
            });
            let of_a_rest = match choices & raw::STRICT {
                0 => (raw::ACCEPTED, [3, 2]),
                _ => (raw::TEXT_LEFT, [3, 0]),
            };
            let mut row = [MARK; 48];
            let number = read_by(choices, book, b"MMM", b"December", &mut row);
            assert_eq!((number, &row[..2]), (of_a_rest.0, &of_a_rest.1[..]));
        }
    }
}
