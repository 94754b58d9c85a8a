//! The names of months and weekdays that the Rust is asked with: its own, or those of a book. For a book its modules are built a
//! second time from the same files, and find these lists where they look for their constants (`util.rs`).

use crate::book::{self, List, Names, NAMES};
use crate::util::constants;
use std::cell::{Cell, RefCell};
use std::collections::HashMap;
use std::iter::Copied;
use std::slice::Iter;

/// The Rust's lists hold their names for good.
type Kept = [&'static str; NAMES];

thread_local! {
    /// None where the Rust is asked as it is.
    static GIVEN: Cell<Option<&'static Kept>> = const { Cell::new(None) };
    /// Those that were given once.
    static KEPT: RefCell<HashMap<Names, Option<&'static Kept>>> = RefCell::default();
}

/// The Rust's own names, in book order.
pub fn english() -> Names {
    let lists: [&[&str]; book::LISTS.len()] = [
        &constants::MONTH_WIDE,
        &constants::MONTH_ABBREVIATED,
        &constants::WDAY_WIDE,
        &constants::WDAY_ABBREVIATED,
        &constants::WDAY_SHORT,
        &constants::WDAY_NARROW,
        &constants::MONTH_NARROW,
    ];
    let names = lists.into_iter().flatten();
    names.map(|name| name.as_bytes().to_vec()).collect()
}

/// Asks with these names, which are good; where they are its own, the Rust as it is.
pub fn with<T>(names: &Names, ask: impl FnOnce() -> T) -> T {
    let before = GIVEN.replace(kept(names));
    let answer = ask();
    GIVEN.set(before);
    answer
}

/// Asks with the names of a book, or as it is where there is none; gives the line that refuses the book.
pub fn by_book<T>(book: Option<&[u8]>, ask: impl FnOnce() -> T) -> Result<T, String> {
    match book {
        None => Ok(ask()),
        Some(bytes) => Ok(with(&book::open(bytes)?.names, ask)),
    }
}

pub(crate) fn given() -> Option<&'static [&'static str]> {
    GIVEN.get().map(|names| names.as_slice())
}

fn kept(names: &Names) -> Option<&'static Kept> {
    KEPT.with_borrow_mut(|kept| {
        if let Some(known) = kept.get(names) {
            return *known;
        }
        let new = (*names != english()).then(|| keep(names));
        kept.insert(names.clone(), new);
        new
    })
}

fn keep(names: &Names) -> &'static Kept {
    let name = |number: usize| -> &'static str {
        let name = String::from_utf8(names[number].clone());
        name.expect("a good name is of letters").leak()
    };
    Box::leak(Box::new(std::array::from_fn(name)))
}

/// A list of the names that are given, to be gone through as the Rust goes through its arrays.
#[derive(Clone, Copy)]
pub(crate) struct Given {
    first: usize,
    end: usize,
}

pub(crate) const MONTH_WIDE: Given = Given::of(book::WIDE_MONTHS);
pub(crate) const MONTH_ABBREVIATED: Given = Given::of(book::SHORT_MONTHS);
pub(crate) const MONTH_NARROW: Given = Given::of(book::NARROW_MONTHS);
pub(crate) const WDAY_WIDE: Given = Given::of(book::WIDE_WEEKDAYS);
pub(crate) const WDAY_ABBREVIATED: Given = Given::of(book::SHORT_WEEKDAYS);
pub(crate) const WDAY_SHORT: Given = Given::of(book::TWO_LETTER_WEEKDAYS);
pub(crate) const WDAY_NARROW: Given = Given::of(book::NARROW_WEEKDAYS);

impl Given {
    const fn of(list: List) -> Given {
        Given {
            first: list.names.start,
            end: list.names.end,
        }
    }

    pub(crate) fn iter(self) -> Copied<Iter<'static, &'static str>> {
        let names = given().expect("the names of a book are given");
        names[self.first..self.end].iter().copied()
    }
}

impl IntoIterator for Given {
    type Item = &'static str;
    type IntoIter = Copied<Iter<'static, &'static str>>;

    fn into_iter(self) -> Self::IntoIter {
        self.iter()
    }
}
