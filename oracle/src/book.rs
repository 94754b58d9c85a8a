//! Request [8]: name books, which the Rust does not have. They are read and written here by the specification alone.

use crate::limits::refused;
use std::ops::Range;

pub const MARK: &[u8] = b"LNB";

/// How many names a book has.
pub const NAMES: usize = 64;

/// The longest name that a length byte can tell of.
pub const LONGEST_NAME: usize = 255;

/// The names in book order, good or bad.
pub type Names = Vec<Vec<u8>>;

/// A list of a book: which of its names, from 0, how many letters each has, and whether none may begin another.
pub struct List {
    pub names: Range<usize>,
    pub least: usize,
    pub most: usize,
    pub apart: bool,
}

pub const WIDE_MONTHS: List = list(0, 12, 2, 20, true);
pub const SHORT_MONTHS: List = list(12, 24, 2, 20, true);
pub const WIDE_WEEKDAYS: List = list(24, 31, 2, 20, true);
pub const SHORT_WEEKDAYS: List = list(31, 38, 3, 3, false);
pub const TWO_LETTER_WEEKDAYS: List = list(38, 45, 2, 2, false);
pub const NARROW_WEEKDAYS: List = list(45, 52, 1, 1, false);
pub const NARROW_MONTHS: List = list(52, 64, 1, 1, false);

/// In book order.
pub const LISTS: [List; 7] = [
    WIDE_MONTHS,
    SHORT_MONTHS,
    WIDE_WEEKDAYS,
    SHORT_WEEKDAYS,
    TWO_LETTER_WEEKDAYS,
    NARROW_WEEKDAYS,
    NARROW_MONTHS,
];

const fn list(first: usize, end: usize, least: usize, most: usize, apart: bool) -> List {
    List {
        names: first..end,
        least,
        most,
        apart,
    }
}

/// The list that a name is in.
pub fn list_of(name: usize) -> &'static List {
    let list = LISTS.iter().find(|list| list.names.contains(&name));
    list.expect("a book has no such name")
}

/// A book that was read.
#[derive(Debug, PartialEq, Eq)]
pub struct Opened {
    pub version: u16,
    pub names: Names,
}

/// Reads a book, or gives the line that refuses it.
pub fn open(bytes: &[u8]) -> Result<Opened, String> {
    let Some(behind_mark) = bytes.strip_prefix(MARK) else {
        return Err(refused(20, &[0]));
    };
    let cut_short = || refused(22, &[0]);
    let [high, low, behind_version @ ..] = behind_mark else {
        return Err(cut_short());
    };
    let version = u16::from_be_bytes([*high, *low]);
    if !matches!(version, 1 | 2) {
        return Err(refused(21, &[0]));
    }
    let (names, rest) = names_and_rest(behind_version).ok_or_else(cut_short)?;
    if version == 1 && !rest.is_empty() {
        return Err(cut_short());
    }
    match refused_names(&names) {
        Some(line) => Err(line),
        None => Ok(Opened { version, names }),
    }
}

/// None where the bytes end before the names do.
fn names_and_rest(mut bytes: &[u8]) -> Option<(Names, &[u8])> {
    let mut names = Names::new();
    while names.len() < NAMES {
        let (length, behind) = bytes.split_first()?;
        let (name, rest) = behind.split_at_checked(usize::from(*length))?;
        names.push(name.to_vec());
        bytes = rest;
    }
    Some((names, bytes))
}

/// Writes a book of version 1 to so much room, or gives the line that refuses it.
pub fn write(names: &[Vec<u8>], room: usize) -> Result<Vec<u8>, String> {
    if let Some(line) = refused_names(names) {
        return Err(line);
    }
    let bytes = bytes_of(1, names);
    if bytes.len() > room {
        return Err(refused(5, &[bytes.len() as i64]));
    }
    Ok(bytes)
}

/// The bytes of a book, whose names may be bad.
pub fn bytes_of(version: u16, names: &[Vec<u8>]) -> Vec<u8> {
    let mut bytes = [MARK, &version.to_be_bytes()].concat();
    for name in names {
        bytes.push(u8::try_from(name.len()).expect("a name has at most 255 bytes"));
        bytes.extend(name);
    }
    bytes
}

/// The line for the first name that is bad, numbered from 1.
fn refused_names(names: &[Vec<u8>]) -> Option<String> {
    let bad = (0..NAMES).find(|name| !is_good(*name, names))?;
    Some(refused(23, &[bad as i64 + 1]))
}

/// By itself and against the earlier ones of its list.
fn is_good(number: usize, names: &[Vec<u8>]) -> bool {
    let list = list_of(number);
    let name = &names[number];
    let mut earlier = names[list.names.start..number].iter();
    (list.least..=list.most).contains(&name.len())
        && name.iter().all(u8::is_ascii_alphabetic)
        && (!list.apart || earlier.all(|other| are_apart(name, other)))
}

/// Neither begins the other.
pub fn are_apart(one: &[u8], other: &[u8]) -> bool {
    !one.starts_with(other) && !other.starts_with(one)
}
