//! Each way in which bytes are no book, and names make none: the numbers, in their order, and which name it is.

mod shelves;

use sheet::{Book, Refusal};
use shelves::{bad_name, book_of, in_order, names_in, some_books, List, Random, DUTCH, LISTS, NAMES};

fn told(refusal: Refusal) -> (u32, i64) {
    let [detail] = refusal.details() else {
        panic!("{refusal:?} has one detail")
    };
    (refusal.number(), *detail)
}

fn number(bytes: &[u8]) -> Result<Book, (u32, i64)> {
    Book::read(bytes).map_err(told)
}

/// As the rules say it: which names, or which refusal.
#[track_caller]
fn is_as_ruled(bytes: &[u8]) {
    let expected = names_in(bytes).map(|names| names.iter().map(|name| name.to_vec()).collect());
    let found = number(bytes).map(|book| in_order(&book).map(|name| name.as_bytes().to_vec()).to_vec());
    assert_eq!(found, expected, "{bytes:?}");
}

/// By both ways to make a book.
#[track_caller]
fn names_are_as_ruled(names: &[Vec<u8>; NAMES]) {
    is_as_ruled(&book_of(1, names));
    let expected = bad_name(names).map(|place| (23, place as i64));
    assert_eq!(Book::from_names(names.clone()).map_err(told).err(), expected);
}

fn names(book: &Book) -> [Vec<u8>; NAMES] {
    in_order(book).map(|name| name.as_bytes().to_vec())
}

#[test]
fn cut_at_every_byte() {
    for book in some_books() {
        for version in [1, 2] {
            let bytes = book_of(version, &in_order(&book));
            for length in 0..bytes.len() {
                let expected = if length < 3 { 20 } else { 22 };
                assert_eq!(number(&bytes[..length]), Err((expected, 0)), "{length}");
                is_as_ruled(&bytes[..length]);
            }
            assert_eq!(number(&bytes).as_ref(), Ok(&book));
        }
    }
}

#[test]
fn bytes_left() {
    for book in some_books() {
        for behind in [&[0][..], &[1, b'a'], b"LNB", &[255; 300]] {
            let bytes = |version: u16| [&book_of(version, &in_order(&book))[..], behind].concat();
            assert_eq!(number(&bytes(1)), Err((22, 0)));
            assert_eq!(number(&bytes(2)).as_ref(), Ok(&book));
        }
    }
}

#[test]
fn every_byte_of_the_mark() {
    for place in 0..3 {
        for byte in 0..=255 {
            let mut bytes = DUTCH.to_vec();
            bytes[place] = byte;
            assert_eq!(number(&bytes).is_ok(), byte == DUTCH[place]);
            assert!(byte == DUTCH[place] || number(&bytes) == Err((20, 0)));
            is_as_ruled(&bytes);
        }
    }
    for bytes in [&b""[..], b"L", b"LN", b"lnb", b"BNL\0\x01", b" LNB\0\x01"] {
        assert_eq!(number(bytes), Err((20, 0)));
    }
}

/// All but 1 and 2, whatever is behind them: 256 and 512 are these with their bytes swapped.
#[test]
fn every_version() {
    let behind = &DUTCH[5..];
    for version in 0..=u16::MAX {
        let bytes = [b"LNB", &version.to_be_bytes()[..], behind].concat();
        let expected = if version == 1 || version == 2 {
            Ok(())
        } else {
            Err((21, 0))
        };
        assert_eq!(number(&bytes).map(|_| ()), expected, "{version}");
    }
    for version in [0, 3, 256, 257, 512, u16::MAX] {
        let bytes = [b"LNB", &version.to_be_bytes()[..]].concat();
        assert_eq!(number(&bytes), Err((21, 0)), "{version}");
        assert_eq!(number(&[&bytes[..], b"\xff"].concat()), Err((21, 0)), "{version}");
        assert_eq!(number(&bytes[..4]), Err((22, 0)), "{version}");
    }
}

#[test]
fn every_length_damaged() {
    for book in some_books() {
        for version in [1, 2] {
            let bytes = book_of(version, &in_order(&book));
            let mut place = 5;
            for name in in_order(&book) {
                for length in 0..=255 {
                    let mut damaged = bytes.clone();
                    damaged[place] = length;
                    is_as_ruled(&damaged);
                }
                place += 1 + name.len();
            }
            assert_eq!(place, bytes.len());
        }
    }
}

/// At every name, the first and the last of each list among them.
#[test]
fn a_name_of_another_length() {
    for book in some_books() {
        for place in 0..NAMES {
            let list = List::of(place);
            for length in [0, 1, 2, 3, 4, 19, 20, 21, 22, 254, 255] {
                let mut names = names(&book);
                names[place] = vec![b'x'; length];
                names_are_as_ruled(&names);
                let fits = (list.least..=list.most).contains(&length);
                assert_eq!(bad_name(&names), (!fits).then_some(place + 1));
            }
        }
    }
}

/// More than a byte can count, which only the names themselves can have.
#[test]
fn a_name_that_is_longer_than_any() {
    for length in [256, 257, 258, 259, 276, 512, 514, 70_000] {
        for place in [0, 11, 12, 30, 31, 37, 51, 63] {
            let mut names = names(Book::english());
            names[place] = vec![b'x'; length];
            let refusal = Book::from_names(names).map_err(told).err();
            assert_eq!(refusal, Some((23, place as i64 + 1)), "{length}");
        }
    }
}

/// The neighbours of letters, digits, spaces, and what is no ASCII, as the first and as the last byte of every name.
#[test]
fn a_name_with_another_byte() {
    for book in some_books() {
        for place in 0..NAMES {
            for byte in *b"@[`{09 .-'\0\x7f\x80\xc3\xff" {
                let mut names = names(&book);
                names[place][0] = byte;
                names_are_as_ruled(&names);
                assert_eq!(bad_name(&names), Some(place + 1));
                names = self::names(&book);
                *names[place].last_mut().expect("a name has letters") = byte;
                names_are_as_ruled(&names);
                assert_eq!(bad_name(&names), Some(place + 1));
            }
        }
    }
}

/// Every byte in the narrow names, which are one: letters alone will do.
#[test]
fn every_letter() {
    for byte in 0..=255 {
        for place in [45, 51, 52, 63] {
            let mut names = names(Book::english());
            names[place] = vec![byte];
            names_are_as_ruled(&names);
            assert_eq!(bad_name(&names).is_none(), byte.is_ascii_alphabetic());
        }
    }
}

/// Any two of a list, of which one is the other, begins it, or is begun by it: the later one is bad where none may begin another.
#[test]
fn a_name_that_begins_another() {
    for list in &LISTS {
        for later in list.first..list.first + list.count {
            for earlier in list.first..later {
                for (one, other) in [
                    ("Xyz", "Xyz"),
                    ("Xyz", "Xyzw"),
                    ("Xyzw", "Xyz"),
                    ("Xy", "Xyzwvutsrqponmlkjihg"),
                ] {
                    let mut names = names(Book::english());
                    let cut = |name: &str| name.as_bytes()[..name.len().min(list.most)].to_vec();
                    (names[earlier], names[later]) = (cut(one), cut(other));
                    names_are_as_ruled(&names);
                    if list.apart {
                        assert_eq!(bad_name(&names), Some(later + 1));
                    }
                }
            }
        }
    }
}

/// Names that differ in case, in the last letter, or in another list.
#[test]
fn names_that_are_apart() {
    let mut names = names(Book::english());
    names[..3].clone_from_slice(&[b"Xy".to_vec(), b"xy".to_vec(), b"Xz".to_vec()]);
    for place in [12, 24] {
        names[place] = b"Xy".to_vec();
    }
    names_are_as_ruled(&names);
    assert_eq!(bad_name(&names), None);
    for list in [3, 4, 5, 6].map(|list: usize| &LISTS[list]) {
        names[list.first..][..list.count].fill(vec![b'x'; list.most]);
    }
    names_are_as_ruled(&names);
    assert_eq!(bad_name(&names), None);
}

/// The first in book order, whichever rule it breaks.
#[test]
fn of_two_bad_names_the_first() {
    let mut random = Random::new();
    for _ in 0..5000 {
        let mut names = names(Book::english());
        for _ in 0..2 {
            let place = random.below(NAMES);
            names[place] = match random.below(4) {
                0 => Vec::new(),
                1 => names[random.below(NAMES)].clone(),
                2 => vec![b'x'; random.below(23)],
                _ => b"M\xe4r".to_vec(),
            };
        }
        names_are_as_ruled(&names);
    }
}

/// Each number before those behind it: a book in which all is wrong is told the first.
#[test]
fn in_their_order() {
    let mut names = names(Book::english());
    names[0].clear();
    let bad = book_of(1, &names);
    assert_eq!(number(&bad), Err((23, 1)));
    assert_eq!(number(&[&bad[..], b"more"].concat()), Err((22, 0)));
    assert_eq!(number(&bad[..bad.len() - 1]), Err((22, 0)));
    assert_eq!(number(&book_of(2, &names)), Err((23, 1)));
    assert_eq!(number(&[&book_of(2, &names)[..], b"more"].concat()), Err((23, 1)));
    assert_eq!(number(&book_of(3, &names)), Err((21, 0)));
    assert_eq!(number(&book_of(3, &names)[..9]), Err((21, 0)));
    let other_mark = [b"LNC", &book_of(3, &names)[3..9]].concat();
    assert_eq!(number(&other_mark), Err((20, 0)));
}

#[test]
fn any_bytes() {
    let mut random = Random::new();
    for _ in 0..20_000 {
        let length = random.below(1000);
        let mut bytes = random.bytes(length);
        is_as_ruled(&bytes);
        let start = [&b"L"[..], b"LNB", b"LNB\0\x01", b"LNB\0\x02"][random.below(4)];
        let length = start.len().min(bytes.len());
        bytes[..length].copy_from_slice(&start[..length]);
        is_as_ruled(&bytes);
        // With lengths as a book has, so that all 64 names are there.
        let small: Vec<u8> = bytes.iter().skip(5).map(|byte| byte % 4).collect();
        is_as_ruled(&[b"LNB\0\x02", &small[..]].concat());
    }
}

/// A byte of a book altered, left out or put in, once or a few times.
#[test]
fn damaged_books() {
    let mut random = Random::new();
    let books = some_books();
    for _ in 0..20_000 {
        let version = *random.pick(&[1, 2]);
        let mut bytes = book_of(version, &in_order(random.pick(&books)));
        for _ in 0..=random.below(3) {
            let place = random.below(bytes.len());
            match random.below(4) {
                0 => bytes[place] = random.byte(),
                1 => bytes[place] = b'a' + random.below(26) as u8,
                2 => drop(bytes.remove(place)),
                _ => bytes.insert(place, random.byte()),
            }
        }
        is_as_ruled(&bytes);
    }
}
