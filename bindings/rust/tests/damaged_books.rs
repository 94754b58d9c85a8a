//! Opened books that are damaged: any 1,344 bytes are written and read with, by the names that they hold, none of which is longer than
//! its list lets it be.

mod lent;
mod shelves;

use lent::{left, read_by, write_by, ALL_CHOICES, BYTE, MARK};
use sheet::{raw, Book};
use shelves::{List, Random, LISTS};

/// The list that a symbol is written from.
fn list_of(pattern: &[u8]) -> Option<&'static List> {
    match (pattern[0], pattern.len()) {
        (b'M', 3) => Some(&LISTS[1]),
        (b'M', 5) => Some(&LISTS[6]),
        (b'M', 4..) => Some(&LISTS[0]),
        (b'e', 4) => Some(&LISTS[2]),
        (b'e', 3) => Some(&LISTS[3]),
        (b'e', 6) => Some(&LISTS[4]),
        (b'e', 5) => Some(&LISTS[5]),
        _ => None,
    }
}

/// The bytes that a row has for a name: no more than its list lets it have.
fn held<'a>(row: &'a [u8], list: &List, place: usize) -> &'a [u8] {
    let room = &row[raw::NAME_ROOM * (list.first + place)..];
    let length = usize::from(room[0]).min(list.most);
    &room[1..=length]
}

/// Rows of any bytes, and opened books of which some are altered.
fn damaged_rows() -> Vec<[u8; raw::BOOK_ROW]> {
    let mut random = Random::new();
    let mut rows = vec![
        [0; raw::BOOK_ROW],
        [BYTE; raw::BOOK_ROW],
        [b'a'; raw::BOOK_ROW],
        [20; raw::BOOK_ROW],
    ];
    for _ in 0..20 {
        rows.push(std::array::from_fn(|_| random.byte()));
        rows.push(std::array::from_fn(|_| b'a' + random.below(2) as u8));
        let mut row = *Book::english().row();
        for _ in 0..40 {
            row[random.below(raw::BOOK_ROW)] = random.byte();
        }
        rows.push(row);
        let mut row = *Book::english().row();
        row.chunks_mut(raw::NAME_ROOM).for_each(|room| room[0] = random.byte());
        rows.push(row);
    }
    rows
}

/// Every symbol at every count on every month and weekday, into an output that has eight bytes for each of the pattern.
#[test]
fn a_damaged_book_needs_eight_bytes_a_pattern_byte_at_most() {
    for row in damaged_rows() {
        for symbol in *b"Me" {
            for count in (1..=12).chain([256]) {
                let pattern = vec![symbol; count];
                for (month, weekday) in (1..=12).zip((0..7).cycle()) {
                    let mut answer = [MARK; 2];
                    let room = raw::BYTES_A_PATTERN_BYTE * count;
                    let (number, out) = left(room, |out| {
                        write_by(0, &row, &pattern, (month, weekday), out, &mut answer)
                    });
                    assert_eq!((number, answer[1]), (raw::ACCEPTED, 0));
                    assert!(answer[0] as usize <= room);
                    if let Some(list) = list_of(&pattern) {
                        let place = if symbol == b'M' { month - 1 } else { weekday };
                        assert_eq!(out[..answer[0] as usize], *held(&row, list, place as usize));
                    }
                }
            }
        }
    }
}

/// The longest pattern of names, side by side with others.
#[test]
fn a_damaged_book_in_long_patterns() {
    for row in damaged_rows() {
        for piece in ["MMM/", "MMMM", "MMMMeeee", "eeeeMMM", "MMMeeeMMMMeeeeeMMMMMeeeeee"] {
            let pattern: Vec<u8> = piece.bytes().cycle().take(raw::LONGEST_PATTERN).collect();
            for choices in 0..=ALL_CHOICES {
                let mut answer = [MARK; 2];
                let (number, _) = left(raw::LONGEST_TEXT, |out| {
                    write_by(choices, &row, &pattern, (9, 3), out, &mut answer)
                });
                assert_eq!(number, raw::ACCEPTED);
                assert!(answer[0] as usize <= raw::LONGEST_TEXT);
            }
        }
    }
}

/// The first name of the list, as it is held, that begins the text.
#[test]
fn a_damaged_book_is_read_by() {
    let texts: Vec<Vec<u8>> = [
        &b""[..],
        b"a",
        b"ab",
        b"December",
        b"Sunday",
        b"Maya",
        b"aaaaaaaaaaaaaaaaaaaaaaaa",
    ]
    .map(<[u8]>::to_vec)
    .into();
    for row in damaged_rows() {
        for pattern in [&b"MMM"[..], b"MMMM", b"MMMMMM", b"eeee"] {
            let list = list_of(pattern).expect("it has names");
            let names: Vec<&[u8]> = (0..list.count).map(|place| held(&row, list, place)).collect();
            let ascii = names.iter().filter(|name| name.is_ascii()).map(|name| name.to_vec());
            for text in texts.iter().cloned().chain(ascii) {
                let mut answer = [MARK; 48];
                let number = read_by(0, &row, pattern, &text, &mut answer);
                let Some(place) = names.iter().position(|name| text.starts_with(name)) else {
                    assert_eq!((number, answer), (raw::NO_NAME, [0; 48]));
                    continue;
                };
                assert_eq!((number, answer[0]), (raw::ACCEPTED, names[place].len() as i64));
                let month = if pattern[0] == b'M' { place as i64 + 1 } else { 0 };
                assert_eq!(answer[raw::READ_VALUES + 1], month);
            }
        }
    }
}
