//! What the tests of books share: the lists of a book, what its bytes are by the rules in books/README.md, and books with short and long names.

// Each test uses some of it.
#![allow(dead_code)]

use sheet::Book;

pub const DUTCH: &[u8] = include_bytes!("../../../../books/dutch.lnb");
pub const ENGLISH: &[u8] = include_bytes!("../../../../books/english.lnb");
pub const SPANISH: &[u8] = include_bytes!("../../../../books/spanish.lnb");

pub const NAMES: usize = 64;

/// A list of a book: its first name from 0, how many there are, how many letters each may have, and whether none may begin another.
pub struct List {
    pub first: usize,
    pub count: usize,
    pub least: usize,
    pub most: usize,
    pub apart: bool,
}

const fn list(first: usize, count: usize, least: usize, most: usize, apart: bool) -> List {
    List {
        first,
        count,
        least,
        most,
        apart,
    }
}

pub const LISTS: [List; 7] = [
    list(0, 12, 2, 20, true),
    list(12, 12, 2, 20, true),
    list(24, 7, 2, 20, true),
    list(31, 7, 3, 3, false),
    list(38, 7, 2, 2, false),
    list(45, 7, 1, 1, false),
    list(52, 12, 1, 1, false),
];

impl List {
    /// The list of a name.
    pub fn of(name: usize) -> &'static List {
        LISTS
            .iter()
            .find(|list| name < list.first + list.count)
            .expect("there are 64 names")
    }
}

/// The bytes of a book with any names.
pub fn book_of<T: AsRef<[u8]>>(version: u16, names: &[T]) -> Vec<u8> {
    let mut bytes = b"LNB".to_vec();
    bytes.extend(version.to_be_bytes());
    for name in names.iter().map(T::as_ref) {
        bytes.push(name.len() as u8);
        bytes.extend(name);
    }
    bytes
}

/// The first name that breaks a rule, from 1.
pub fn bad_name<T: AsRef<[u8]>>(names: &[T]) -> Option<usize> {
    let is_bad = |place: usize| {
        let (list, name) = (List::of(place), names[place].as_ref());
        let mut earlier = names[list.first..place].iter().map(T::as_ref);
        !(list.least..=list.most).contains(&name.len())
            || !name.iter().all(u8::is_ascii_alphabetic)
            || list.apart && earlier.any(|other| other.starts_with(name) || name.starts_with(other))
    };
    (0..names.len()).find(|place| is_bad(*place)).map(|place| place + 1)
}

/// The names of bytes that are a book, or the refusal's number and detail.
pub fn names_in(bytes: &[u8]) -> Result<Vec<&[u8]>, (u32, i64)> {
    let behind_mark = bytes.strip_prefix(b"LNB").ok_or((20, 0))?;
    let (version, mut rest) = behind_mark.split_first_chunk::<2>().ok_or((22, 0))?;
    let version = u16::from_be_bytes(*version);
    if version != 1 && version != 2 {
        return Err((21, 0));
    }
    let mut names = Vec::new();
    for _ in 0..NAMES {
        let (length, behind) = rest.split_first().ok_or((22, 0))?;
        let (name, behind) = behind.split_at_checked(usize::from(*length)).ok_or((22, 0))?;
        names.push(name);
        rest = behind;
    }
    match bad_name(&names) {
        _ if version == 1 && !rest.is_empty() => Err((22, 0)),
        Some(place) => Err((23, place as i64)),
        None => Ok(names),
    }
}

/// The names of a book, in book order.
pub fn in_order(book: &Book) -> [&str; NAMES] {
    book.names().into()
}

/// A book whose names have as many letters as they may, or as few, and differ in the last alone.
pub fn book_with(length: impl Fn(&List) -> usize) -> Book {
    let name = |place: usize| {
        let list = List::of(place);
        let last = b'a' + (place - list.first) as u8;
        let mut name = vec![b'Q'; length(list) - 1];
        name.push(last);
        name
    };
    Book::from_names(std::array::from_fn::<_, NAMES, _>(name)).expect("these are names")
}

/// Some books: those of the files, and those with the longest and the shortest names.
pub fn some_books() -> Vec<Book> {
    let mut books: Vec<Book> = [DUTCH, ENGLISH, SPANISH]
        .iter()
        .map(|bytes| Book::read(bytes).expect("it is a book"))
        .collect();
    books.push(book_with(|list| list.most));
    books.push(book_with(|list| list.least));
    books
}

/// Numbers that look random, the same in every run.
pub struct Random(u64);

impl Random {
    pub fn new() -> Random {
        Random(0x9e37_79b9_7f4a_7c15)
    }

    pub fn next(&mut self) -> u64 {
        self.0 ^= self.0 << 13;
        self.0 ^= self.0 >> 7;
        self.0 ^= self.0 << 17;
        self.0
    }

    /// From 0 up to one less.
    pub fn below(&mut self, limit: usize) -> usize {
        (self.next() >> 11) as usize % limit
    }

    pub fn pick<'a, T>(&mut self, some: &'a [T]) -> &'a T {
        &some[self.below(some.len())]
    }

    pub fn byte(&mut self) -> u8 {
        self.below(256) as u8
    }

    pub fn bytes(&mut self, length: usize) -> Vec<u8> {
        (0..length).map(|_| self.byte()).collect()
    }

    /// A book with any names, which mostly begin with the same letters.
    pub fn book(&mut self) -> Book {
        loop {
            let names: [Vec<u8>; NAMES] = std::array::from_fn(|place| self.name(List::of(place)));
            if let Ok(book) = Book::from_names(names) {
                return book;
            }
        }
    }

    fn name(&mut self, list: &List) -> Vec<u8> {
        let length = list.least + self.below(list.most - list.least + 1);
        let letters = b"abYZ";
        let mut name: Vec<u8> = (0..length).map(|_| *self.pick(letters)).collect();
        // So that most are apart.
        if list.apart {
            let any = b"ABCDEFGHIJKLMNOPQRSTUVWXYZabcdefghijklmnopqrstuvwxyz";
            name[0] = *self.pick(any);
            name[1] = *self.pick(any);
        }
        name
    }
}
