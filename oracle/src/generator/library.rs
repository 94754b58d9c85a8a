//! The books that requests with a pattern come with.

use super::books::{damaged, good_names, of_names};
use super::random::Random;
use crate::book::{bytes_of, Names};
use crate::choices::Books;
use crate::names::{self, english};

/// How many books a run has at random. Each that is asked with is kept, so that it has no more.
const BOOKS: usize = 2000;

pub enum Library {
    Closed,
    /// The book of English alone.
    English(Vec<u8>),
    /// English among others.
    Shelf(Vec<Names>),
}

impl Library {
    pub fn of(books: Option<Books>, random: &mut Random) -> Library {
        match books {
            None => Library::Closed,
            Some(Books::English) => Library::English(bytes_of(1, &english())),
            Some(Books::Random) => {
                let others = (0..BOOKS).map(|_| good_names(random));
                Library::Shelf([english()].into_iter().chain(others).collect())
            }
        }
    }

    /// What is made with the names of a book, and the book, which may be damaged.
    pub fn lend<T>(
        &self,
        random: &mut Random,
        make: impl FnOnce(&mut Random) -> T,
    ) -> (T, Option<Vec<u8>>) {
        let shelf = match self {
            Library::Closed => return (make(random), None),
            Library::English(book) => return (make(random), Some(book.clone())),
            Library::Shelf(shelf) => shelf,
        };
        let place = match random.one_in(16) {
            true => 0,
            false => random.below(shelf.len()),
        };
        let names = &shelf[place];
        let book = match random.one_in(12) {
            true => damaged(names, random),
            false => of_names(names, random),
        };
        (names::with(names, || make(random)), Some(book))
    }
}
