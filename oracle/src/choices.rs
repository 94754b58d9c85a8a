//! What a reading is asked for, beside its pattern and its text, and with which books.

use crate::walk::Pair;

#[derive(Clone, Copy, Debug, PartialEq, Eq)]
pub struct Choices {
    pub pair: Pair,
    pub strict: bool,
    pub edition: Edition,
}

impl Choices {
    /// As the Rust reads.
    pub const fn of(pair: Pair) -> Choices {
        Choices {
            pair,
            strict: false,
            edition: Edition::First,
        }
    }

    pub const fn strict(self) -> Choices {
        Choices {
            strict: true,
            ..self
        }
    }

    pub const fn second(self) -> Choices {
        Choices {
            edition: Edition::Second,
            ..self
        }
    }
}

/// The Rust has the first alone.
#[derive(Clone, Copy, Debug, PartialEq, Eq)]
pub enum Edition {
    First,
    Second,
}

impl Edition {
    pub const ALL: [Edition; 2] = [Edition::First, Edition::Second];

    pub fn name(self) -> &'static str {
        match self {
            Edition::First => "first",
            Edition::Second => "second",
        }
    }

    pub fn named(name: &str) -> Option<Edition> {
        Edition::ALL
            .into_iter()
            .find(|edition| edition.name() == name)
    }

    /// The first of the current years that it takes; the last is 9999 in both.
    pub fn first_year(self) -> i32 {
        match self {
            Edition::First => 1,
            Edition::Second => 81,
        }
    }
}

/// Which books the requests with a pattern come with.
#[derive(Clone, Copy, Debug, PartialEq, Eq)]
pub enum Books {
    /// That of the names that the Rust has.
    English,
    Random,
}

impl Books {
    pub fn named(name: &str) -> Option<Books> {
        match name {
            "english" => Some(Books::English),
            "random" => Some(Books::Random),
            _ => None,
        }
    }
}
