//! `book B`, `book_write ROOM NAME1 .. NAME64`, and the book of the word `book:B` behind other requests

use crate::answers::{agreed, numbered, refused};
use crate::hex;
use crate::marks::{filled, first_altered, ENTRY};
use crate::words::Words;
use crate::writing::{text_of, wrote_text, MOST_ROOM};
use sheet::{raw, Book};

/// A name may be longer than any that a book has, so that refusal 23 can be asked for; a byte has to hold its length.
const MOST_NAME: usize = 255;

/// Bytes behind an opened book, which show where one alters too many.
const BEHIND: usize = 64;

/// The answer with the book that is named, or with none; where it is refused, its refusal.
pub fn with_book(named: Option<Vec<u8>>, answer: impl FnOnce(Option<&Book>) -> String) -> String {
    match named.map(Book::read).transpose() {
        Ok(book) => answer(book.as_ref()),
        Err(refusal) => refused(&refusal),
    }
}

pub fn answer(mut words: Words) -> Option<String> {
    let bytes = words.bytes()?;
    words.end()?;
    let own = match Book::read(&bytes) {
        Ok(book) => shown(&bytes, &<[&str; raw::BOOK_ROOMS]>::from(book.names())),
        Err(refusal) => refused(&refusal),
    };
    Some(agreed(Lent::read(&bytes).opened(&bytes), own))
}

pub fn answer_write(mut words: Words) -> Option<String> {
    let room = words.number().filter(|room| *room <= MOST_ROOM)?;
    let mut name = |_| words.bytes().filter(|name| name.len() <= MOST_NAME);
    let names: Option<Vec<_>> = (0..raw::BOOK_ROOMS).map(&mut name).collect();
    let names: [Vec<u8>; raw::BOOK_ROOMS] = names?.try_into().ok()?;
    words.end()?;
    let lent = Lent::write(&names, room).written();
    let own = match Book::from_names(names).map(|book| book.write()) {
        Ok(bytes) if bytes.len() <= room => wrote_text(bytes.len(), &bytes),
        Ok(bytes) => format!("refused {} {}", raw::NO_ROOM, bytes.len()),
        Err(refusal) => refused(&refusal),
    };
    Some(agreed(lent, own))
}

/// A book by its version, which stands in its bytes, and its names.
fn shown<T: AsRef<[u8]>>(bytes: &[u8], names: &[T]) -> String {
    let mut line = format!("book {}", u16::from_be_bytes([bytes[3], bytes[4]]));
    for name in names {
        line += &format!(" {}", hex::encoded(name.as_ref()));
    }
    line
}

/// What a function returned, and left in the rows that it was lent.
struct Lent {
    number: u32,
    answer: [i64; raw::BOOK_ANSWER],
    out: Vec<u8>,
}

impl Lent {
    fn read(bytes: &[u8]) -> Lent {
        let (mut answer, mut out) = ([ENTRY; raw::BOOK_ANSWER], filled(raw::BOOK_ROW + BEHIND));
        let (row, entries) = (answer.as_mut_ptr(), answer.len());
        // SAFETY: each pointer goes with the length of the slice that it comes from, and what is altered is borrowed alone.
        let number =
            unsafe { raw::sheet_book_read(bytes.as_ptr(), bytes.len(), out.as_mut_ptr(), out.len(), row, entries) };
        Lent { number, answer, out }
    }

    fn write(names: &[Vec<u8>], room: usize) -> Lent {
        let (mut answer, mut out) = ([ENTRY; raw::BOOK_ANSWER], filled(room));
        let book: Vec<u8> = names.iter().flat_map(|name| in_room(name)).collect();
        let (row, entries) = (answer.as_mut_ptr(), answer.len());
        // SAFETY: as for a read.
        let number =
            unsafe { raw::sheet_book_write(book.as_ptr(), book.len(), out.as_mut_ptr(), out.len(), row, entries) };
        Lent { number, answer, out }
    }

    /// What is altered behind the bytes that are answered for, or what is answered in another form than it should be.
    fn fault(&self) -> Option<String> {
        let [length, second] = self.answer;
        let altered = match self.number {
            raw::ACCEPTED => length as usize,
            _ => 0,
        };
        match first_altered(&self.out, altered) {
            Some(place) => Some(format!("altered {place}")),
            None => (second != 0).then(|| numbered("answer", &self.answer)),
        }
    }

    /// The line of an opened book.
    fn opened(&self, bytes: &[u8]) -> String {
        self.fault().unwrap_or_else(|| match (self.number, self.answer[0]) {
            (raw::ACCEPTED, length) if length == raw::BOOK_ROW as i64 => {
                let rooms = self.out.chunks(raw::NAME_ROOM).take(raw::BOOK_ROOMS);
                shown(bytes, &rooms.map(name_in).collect::<Vec<_>>())
            }
            (raw::ACCEPTED, _) => numbered("answer", &self.answer),
            (number, detail) => format!("refused {number} {detail}"),
        })
    }

    /// The line of a book that was written.
    fn written(&self) -> String {
        self.fault().unwrap_or_else(|| match (self.number, self.answer[0]) {
            (raw::ACCEPTED, length) => wrote_text(length as usize, text_of(&self.out, length as usize)),
            (number, detail) => format!("refused {number} {detail}"),
        })
    }
}

/// A name's room in an opened book, with the length as it is and so many of its bytes as there is room for.
fn in_room(name: &[u8]) -> [u8; raw::NAME_ROOM] {
    let mut room = [0; raw::NAME_ROOM];
    let held = name.len().min(raw::LONGEST_NAME);
    room[0] = name.len() as u8;
    room[1..=held].copy_from_slice(&name[..held]);
    room
}

/// The name in its room, of no more bytes than this has.
fn name_in(room: &[u8]) -> &[u8] {
    let length = usize::from(room[0]).min(raw::LONGEST_NAME);
    &room[1..=length]
}

#[cfg(test)]
mod tests {
    use super::{answer, answer_write, in_room, name_in, with_book, Lent};
    use crate::hex;
    use crate::words::Words;
    use sheet::{raw, Book};

    fn asked(words: &str) -> Option<String> {
        answer(Words::of(words.as_bytes()))
    }

    fn asked_to_write(words: &str) -> Option<String> {
        answer_write(Words::of(words.as_bytes()))
    }

    fn english() -> Vec<u8> {
        Book::english().write()
    }

    /// The names of English, as words.
    fn names() -> [String; raw::BOOK_ROOMS] {
        let names: [&str; raw::BOOK_ROOMS] = Book::english().names().into();
        names.map(|name| hex::encoded(name.as_bytes()))
    }

    #[test]
    fn a_book_is_shown_by_its_version_and_its_names() {
        let mut bytes = english();
        let shown = |version: u32| format!("book {version} {}", names().join(" "));
        assert_eq!(asked(&hex::encoded(&bytes)), Some(shown(1)));
        bytes[4] = 2;
        assert_eq!(asked(&hex::encoded(&bytes)), Some(shown(2)));
        bytes.push(0);
        assert_eq!(asked(&hex::encoded(&bytes)), Some(shown(2)));
        bytes[4] = 1;
        assert_eq!(asked(&hex::encoded(&bytes)).as_deref(), Some("refused 22 0"));
        bytes[4] = 3;
        assert_eq!(asked(&hex::encoded(&bytes)).as_deref(), Some("refused 21 0"));
        assert_eq!(asked("-").as_deref(), Some("refused 20 0"));
    }

    #[test]
    fn a_book_is_written_where_there_is_room() {
        let (bytes, names) = (english(), names().join(" "));
        let wrote = format!("wrote {} {}", bytes.len(), hex::encoded(&bytes));
        for room in [bytes.len(), bytes.len() + 1, 4096] {
            assert_eq!(asked_to_write(&format!("{room} {names}")), Some(wrote.clone()));
        }
        let refused = format!("refused 5 {}", bytes.len());
        for room in [0, bytes.len() - 1] {
            assert_eq!(asked_to_write(&format!("{room} {names}")), Some(refused.clone()));
        }
    }

    /// Of any bytes, and of more than a room holds.
    #[test]
    fn names_are_up_to_255_bytes() {
        for name in ["-".to_string(), "ff".into(), "41".repeat(21), "41".repeat(255)] {
            for place in [0, 30, 63] {
                let mut names = names();
                names[place] = name.clone();
                let answer = asked_to_write(&format!("0 {}", names.join(" ")));
                assert_eq!(answer, Some(format!("refused 23 {}", place + 1)), "{name}");
                names[place] = "41".repeat(256);
                assert_eq!(asked_to_write(&format!("0 {}", names.join(" "))), None);
            }
        }
    }

    #[test]
    fn other_words_are_no_request() {
        let names = names().join(" ");
        let fewer = names.rsplit_once(' ').expect("there are many").0;
        for words in [
            names.clone(),
            format!("0 {fewer}"),
            format!("0 {names} 41"),
            format!("0 {names} "),
            format!("0  {names}"),
            format!("4097 {names}"),
            format!("-0 {names}"),
        ] {
            assert_eq!(asked_to_write(&words), None, "{words}");
        }
        for words in ["", "4c4e42 ", "4c4e42 strict", "4C4E42", "4c4e4"] {
            assert_eq!(asked(words), None, "{words}");
        }
    }

    #[test]
    fn with_a_book_that_is_named() {
        let names_one =
            |book: Option<&Book>| book.map_or("none".to_string(), |book| book.names().wide_months[4].into());
        assert_eq!(with_book(None, names_one), "none");
        assert_eq!(with_book(Some(english()), names_one), "May");
        assert_eq!(with_book(Some(Vec::new()), names_one), "refused 20 0");
    }

    #[test]
    fn a_name_stands_in_its_room() {
        assert_eq!(in_room(b"May")[..5], *b"\x03May\0");
        for length in [0, 1, 19, 20] {
            let name = vec![b'a'; length];
            assert_eq!(name_in(&in_room(&name)), name);
        }
        for length in [21, 255] {
            let room = in_room(&vec![b'a'; length]);
            assert_eq!((usize::from(room[0]), name_in(&room)), (length, &[b'a'; 20][..]));
        }
    }

    #[test]
    fn what_is_altered_besides_is_shown() {
        let bytes = english();
        let mut read = Lent::read(&bytes);
        assert!(read.opened(&bytes).starts_with("book 1 4a616e75617279 "));
        read.answer[1] = 7;
        assert_eq!(read.opened(&bytes), "answer 1344 7");
        read.answer = [1343, 0];
        assert_eq!(read.opened(&bytes), "altered 1343");
        read.answer = [1344, 0];
        read.out[1344] = 0;
        assert_eq!(read.opened(&bytes), "altered 1344");

        let mut refused = Lent::read(&bytes[..9]);
        assert_eq!(refused.opened(&bytes), "refused 22 0");
        refused.out[3] = 0;
        assert_eq!(refused.opened(&bytes), "altered 3");

        let names = names().map(|word| hex::decoded(word.as_bytes()).expect("a byte string"));
        let mut written = Lent::write(&names, 4096);
        assert!(written.written().starts_with("wrote "));
        written.out[4095] = 0;
        assert_eq!(written.written(), "altered 4095");
    }
}
