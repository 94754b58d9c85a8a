//! The requests of the line protocol: one a line, words separated by one space.

use crate::book::{LONGEST_NAME, NAMES};
use crate::calendar::Fields;
use crate::choices::{Choices, Edition};
pub use crate::op::Op;
use crate::stamps::Stamp;
use crate::walk::Pair;
use std::fmt;
use std::iter::Peekable;
use std::str::FromStr;

pub const MOST_ROOM: usize = 4096;
pub const MOST_ROWS: usize = 20_000;

const BOOK: &str = "book:";

#[derive(Clone, Debug, PartialEq, Eq)]
pub enum Request {
    Split {
        pattern: Vec<u8>,
    },
    Write {
        pair: Pair,
        pattern: Vec<u8>,
        fields: Fields,
        room: usize,
        book: Option<Vec<u8>>,
    },
    Read {
        choices: Choices,
        pattern: Vec<u8>,
        text: Vec<u8>,
        now: i32,
        book: Option<Vec<u8>>,
    },
    ParseOffset {
        text: Vec<u8>,
    },
    DayOf {
        number: i32,
    },
    DayNumber {
        year: i32,
        month: u32,
        day: u32,
    },
    Book {
        bytes: Vec<u8>,
    },
    BookWrite {
        room: usize,
        names: Vec<Vec<u8>>,
    },
    /// Of the full pair alone.
    List {
        choices: Choices,
        pattern: Vec<u8>,
        text: Vec<u8>,
        now: i32,
        rows: usize,
        book: Option<Vec<u8>>,
    },
    Mend {
        edition: Edition,
        pattern: Vec<u8>,
        now: i32,
        room: usize,
    },
    RfcRead {
        text: Vec<u8>,
    },
    RfcWrite {
        stamp: Stamp,
        room: usize,
    },
}

impl Request {
    /// None where the line is no request.
    pub fn from_line(line: &str) -> Option<Request> {
        let mut words = line.split(' ').peekable();
        let word = words.next()?;
        let request = match Op::ALL.into_iter().find(|op| op.word() == word)? {
            Op::Split => Request::Split {
                pattern: bytes(&mut words)?,
            },
            Op::Write => write_request(Pair::Full, &mut words)?,
            Op::WriteDate => write_request(Pair::Date, &mut words)?,
            Op::ParseOffset => Request::ParseOffset {
                text: bytes(&mut words)?,
            },
            Op::DayOf => Request::DayOf {
                number: number(&mut words)?,
            },
            Op::DayNumber => Request::DayNumber {
                year: number(&mut words)?,
                month: number(&mut words)?,
                day: number(&mut words)?,
            },
            Op::Book => Request::Book {
                bytes: bytes(&mut words)?,
            },
            Op::BookWrite => Request::BookWrite {
                room: room(&mut words)?,
                names: names(&mut words)?,
            },
            Op::List => list_request(&mut words)?,
            Op::Mend => Request::Mend {
                pattern: bytes(&mut words)?,
                now: number(&mut words)?,
                room: room(&mut words)?,
                edition: edition(&mut words),
            },
            Op::RfcRead => Request::RfcRead {
                text: bytes(&mut words)?,
            },
            Op::RfcWrite => Request::RfcWrite {
                stamp: Stamp::from_words(&mut words)?,
                room: room(&mut words)?,
            },
            read => read_request(read.choices()?.pair, &mut words)?,
        };
        words.next().is_none().then_some(request)
    }

    pub fn op(&self) -> Op {
        match self {
            Request::Split { .. } => Op::Split,
            Request::Write { pair, .. } => match pair {
                Pair::Full => Op::Write,
                Pair::Date => Op::WriteDate,
            },
            Request::Read { choices, .. } => Op::of_read(*choices),
            Request::ParseOffset { .. } => Op::ParseOffset,
            Request::DayOf { .. } => Op::DayOf,
            Request::DayNumber { .. } => Op::DayNumber,
            Request::Book { .. } => Op::Book,
            Request::BookWrite { .. } => Op::BookWrite,
            Request::List { choices, .. } => Op::of_list(*choices),
            Request::Mend { edition, .. } => Op::of_mend(*edition),
            Request::RfcRead { .. } => Op::RfcRead,
            Request::RfcWrite { .. } => Op::RfcWrite,
        }
    }

    /// The book that it comes with.
    pub fn book(&self) -> Option<&[u8]> {
        match self {
            Request::Write { book, .. }
            | Request::Read { book, .. }
            | Request::List { book, .. } => book.as_deref(),
            _ => None,
        }
    }

    /// The same with another book or with none, where it takes one.
    pub fn with_book(mut self, other: Option<Vec<u8>>) -> Request {
        if let Request::Write { book, .. }
        | Request::Read { book, .. }
        | Request::List { book, .. } = &mut self
        {
            *book = other;
        }
        self
    }
}

impl fmt::Display for Request {
    fn fmt(&self, f: &mut fmt::Formatter<'_>) -> fmt::Result {
        write!(f, "{} ", self.op().word())?;
        match self {
            Request::Split { pattern } => f.write_str(&hex(pattern)),
            Request::Write {
                pattern,
                fields,
                room,
                book,
                ..
            } => {
                let book = book_word(book);
                write!(f, "{} {} {room}{book}", hex(pattern), field_words(fields))
            }
            Request::Read {
                choices,
                pattern,
                text,
                now,
                book,
            } => {
                let (pattern, text) = (hex(pattern), hex(text));
                let words = choice_words(*choices, book);
                write!(f, "{pattern} {text} {now}{words}")
            }
            Request::ParseOffset { text } => f.write_str(&hex(text)),
            Request::DayOf { number } => write!(f, "{number}"),
            Request::DayNumber { year, month, day } => write!(f, "{year} {month} {day}"),
            Request::Book { bytes } => f.write_str(&hex(bytes)),
            Request::BookWrite { room, names } => write!(f, "{room} {}", name_words(names)),
            Request::List {
                choices,
                pattern,
                text,
                now,
                rows,
                book,
            } => {
                let (pattern, text) = (hex(pattern), hex(text));
                let words = choice_words(*choices, book);
                write!(f, "{pattern} {text} {now} {rows}{words}")
            }
            Request::Mend {
                edition,
                pattern,
                now,
                room,
            } => {
                let (pattern, edition) = (hex(pattern), edition_word(*edition));
                write!(f, "{pattern} {now} {room}{edition}")
            }
            Request::RfcRead { text } => f.write_str(&hex(text)),
            Request::RfcWrite { stamp, room } => write!(f, "{} {room}", stamp.words()),
        }
    }
}

/// Two lowercase digits a byte, `-` for no bytes.
pub fn hex(bytes: &[u8]) -> String {
    const DIGITS: &[u8; 16] = b"0123456789abcdef";
    if bytes.is_empty() {
        return "-".to_string();
    }
    let mut digits = String::with_capacity(2 * bytes.len());
    for byte in bytes {
        digits.push(char::from(DIGITS[usize::from(byte / 16)]));
        digits.push(char::from(DIGITS[usize::from(byte % 16)]));
    }
    digits
}

/// With the word that may stand behind it; what stands behind that is left.
fn write_request<'a>(
    pair: Pair,
    words: &mut Peekable<impl Iterator<Item = &'a str>>,
) -> Option<Request> {
    Some(Request::Write {
        pair,
        pattern: bytes(words)?,
        fields: fields(words)?,
        room: room(words)?,
        book: book(words)?,
    })
}

/// Likewise, with words in this order.
fn read_request<'a>(
    pair: Pair,
    words: &mut Peekable<impl Iterator<Item = &'a str>>,
) -> Option<Request> {
    Some(Request::Read {
        pattern: bytes(words)?,
        text: bytes(words)?,
        now: number(words)?,
        choices: Choices {
            pair,
            strict: words.next_if_eq(&"strict").is_some(),
            edition: edition(words),
        },
        book: book(words)?,
    })
}

/// Likewise, with how many cells each row has before those words.
fn list_request<'a>(words: &mut Peekable<impl Iterator<Item = &'a str>>) -> Option<Request> {
    Some(Request::List {
        pattern: bytes(words)?,
        text: bytes(words)?,
        now: number(words)?,
        rows: number(words).filter(|rows| *rows <= MOST_ROWS)?,
        choices: Choices {
            pair: Pair::Full,
            strict: words.next_if_eq(&"strict").is_some(),
            edition: edition(words),
        },
        book: book(words)?,
    })
}

/// The words behind a read or a list, each with the space before it.
fn choice_words(choices: Choices, book: &Option<Vec<u8>>) -> String {
    let strict = if choices.strict { " strict" } else { "" };
    let (edition, book) = (edition_word(choices.edition), book_word(book));
    format!("{strict}{edition}{book}")
}

/// The second edition where the next word names it.
pub(crate) fn edition<'a>(words: &mut Peekable<impl Iterator<Item = &'a str>>) -> Edition {
    match words.next_if_eq(&Edition::Second.name()) {
        Some(_) => Edition::Second,
        None => Edition::First,
    }
}

/// The word for an edition behind a request, with the space before it.
pub(crate) fn edition_word(edition: Edition) -> &'static str {
    match edition {
        Edition::First => "",
        Edition::Second => " second",
    }
}

/// The book where the next word is for one, if any; the line is no request where that word has no byte string.
pub(crate) fn book<'a>(
    words: &mut Peekable<impl Iterator<Item = &'a str>>,
) -> Option<Option<Vec<u8>>> {
    match words.next_if(|word| word.starts_with(BOOK)) {
        Some(word) => Some(Some(bytes(&mut [&word[BOOK.len()..]].into_iter())?)),
        None => Some(None),
    }
}

/// The word for a book behind a request, with the space before it.
pub(crate) fn book_word(book: &Option<Vec<u8>>) -> String {
    match book {
        Some(bytes) => format!(" {BOOK}{}", hex(bytes)),
        None => String::new(),
    }
}

/// As many as a book has, none longer than a length byte can tell.
fn names<'a>(words: &mut impl Iterator<Item = &'a str>) -> Option<Vec<Vec<u8>>> {
    let name = |_| bytes(words).filter(|name| name.len() <= LONGEST_NAME);
    (0..NAMES).map(name).collect()
}

pub fn name_words(names: &[Vec<u8>]) -> String {
    let words: Vec<String> = names.iter().map(|name| hex(name)).collect();
    words.join(" ")
}

fn room<'a>(words: &mut impl Iterator<Item = &'a str>) -> Option<usize> {
    number(words).filter(|room| *room <= MOST_ROOM)
}

pub(crate) fn fields<'a>(words: &mut impl Iterator<Item = &'a str>) -> Option<Fields> {
    Some(Fields {
        year: number(words)?,
        month: number(words)?,
        day: number(words)?,
        day_of_year: number(words)?,
        week: number(words)?,
        weekday: number(words)?,
        nanoseconds: number(words)?,
        offset: number(words)?,
    })
}

pub fn field_words(fields: &Fields) -> String {
    format!(
        "{} {} {} {} {} {} {} {}",
        fields.year,
        fields.month,
        fields.day,
        fields.day_of_year,
        fields.week,
        fields.weekday,
        fields.nanoseconds,
        fields.offset
    )
}

pub(crate) fn number<'a, T: FromStr>(words: &mut impl Iterator<Item = &'a str>) -> Option<T> {
    let word = words.next()?;
    if word.starts_with('+') {
        return None;
    }
    word.parse().ok()
}

pub(crate) fn bytes<'a>(words: &mut impl Iterator<Item = &'a str>) -> Option<Vec<u8>> {
    let word = words.next()?;
    if word == "-" {
        return Some(Vec::new());
    }
    if word.is_empty() || word.len() % 2 != 0 {
        return None;
    }
    word.as_bytes()
        .chunks(2)
        .map(|pair| Some(16 * hex_digit(pair[0])? + hex_digit(pair[1])?))
        .collect()
}

fn hex_digit(byte: u8) -> Option<u8> {
    match byte {
        b'0'..=b'9' => Some(byte - b'0'),
        b'a'..=b'f' => Some(byte - b'a' + 10),
        _ => None,
    }
}
