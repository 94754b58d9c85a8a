//! The ops of the line protocol, each with its choices.

use crate::choices::{Books, Choices, Edition};
use crate::walk::Pair;

#[derive(Clone, Copy, Debug, PartialEq, Eq)]
pub enum Op {
    Split,
    Write,
    WriteDate,
    Read,
    ReadDate,
    ReadStrict,
    ReadDateStrict,
    ReadSecond,
    ReadDateSecond,
    ReadStrictSecond,
    ReadDateStrictSecond,
    ParseOffset,
    DayOf,
    DayNumber,
    Book,
    BookWrite,
    List,
    ListStrict,
    ListSecond,
    ListStrictSecond,
    Mend,
    MendSecond,
    RfcRead,
    RfcWrite,
}

impl Op {
    pub const ALL: [Op; 24] = [
        Op::Split,
        Op::Write,
        Op::WriteDate,
        Op::Read,
        Op::ReadDate,
        Op::ReadStrict,
        Op::ReadDateStrict,
        Op::ReadSecond,
        Op::ReadDateSecond,
        Op::ReadStrictSecond,
        Op::ReadDateStrictSecond,
        Op::ParseOffset,
        Op::DayOf,
        Op::DayNumber,
        Op::Book,
        Op::BookWrite,
        Op::List,
        Op::ListStrict,
        Op::ListSecond,
        Op::ListStrictSecond,
        Op::Mend,
        Op::MendSecond,
        Op::RfcRead,
        Op::RfcWrite,
    ];

    /// Those of lists, which have the full pair alone.
    pub const LISTS: [Op; 4] = [
        Op::List,
        Op::ListStrict,
        Op::ListSecond,
        Op::ListStrictSecond,
    ];

    /// Those that may be asked for by a prepared pattern, beside a check.
    pub const PREPARED: [Op; 14] = [
        Op::Write,
        Op::WriteDate,
        Op::Read,
        Op::ReadDate,
        Op::ReadStrict,
        Op::ReadDateStrict,
        Op::ReadSecond,
        Op::ReadDateSecond,
        Op::ReadStrictSecond,
        Op::ReadDateStrictSecond,
        Op::List,
        Op::ListStrict,
        Op::ListSecond,
        Op::ListStrictSecond,
    ];

    /// Those of mending, one for each edition.
    pub const MENDS: [Op; 2] = [Op::Mend, Op::MendSecond];

    /// Those of stamps.
    pub const STAMPS: [Op; 2] = [Op::RfcRead, Op::RfcWrite];

    pub fn name(self) -> &'static str {
        match self {
            Op::Split => "split",
            Op::Write => "write",
            Op::WriteDate => "write_date",
            Op::Read => "read",
            Op::ReadDate => "read_date",
            Op::ReadStrict => "read_strict",
            Op::ReadDateStrict => "read_date_strict",
            Op::ReadSecond => "read_second",
            Op::ReadDateSecond => "read_date_second",
            Op::ReadStrictSecond => "read_strict_second",
            Op::ReadDateStrictSecond => "read_date_strict_second",
            Op::ParseOffset => "parse_offset",
            Op::DayOf => "day_of",
            Op::DayNumber => "day_number",
            Op::Book => "book",
            Op::BookWrite => "book_write",
            Op::List => "list",
            Op::ListStrict => "list_strict",
            Op::ListSecond => "list_second",
            Op::ListStrictSecond => "list_strict_second",
            Op::Mend => "mend",
            Op::MendSecond => "mend_second",
            Op::RfcRead => "rfc_read",
            Op::RfcWrite => "rfc_write",
        }
    }

    /// What a read is asked for; none where it is no read.
    pub fn choices(self) -> Option<Choices> {
        let (full, date) = (Choices::of(Pair::Full), Choices::of(Pair::Date));
        Some(match self {
            Op::Read => full,
            Op::ReadDate => date,
            Op::ReadStrict => full.strict(),
            Op::ReadDateStrict => date.strict(),
            Op::ReadSecond => full.second(),
            Op::ReadDateSecond => date.second(),
            Op::ReadStrictSecond => full.strict().second(),
            Op::ReadDateStrictSecond => date.strict().second(),
            Op::Split | Op::Write | Op::WriteDate => return None,
            Op::ParseOffset | Op::DayOf | Op::DayNumber => return None,
            Op::Book | Op::BookWrite => return None,
            Op::List | Op::ListStrict | Op::ListSecond | Op::ListStrictSecond => return None,
            Op::Mend | Op::MendSecond => return None,
            Op::RfcRead | Op::RfcWrite => return None,
        })
    }

    /// What the lines of a list are read by; none where it is no list.
    pub fn list_choices(self) -> Option<Choices> {
        let full = Choices::of(Pair::Full);
        match self {
            Op::List => Some(full),
            Op::ListStrict => Some(full.strict()),
            Op::ListSecond => Some(full.second()),
            Op::ListStrictSecond => Some(full.strict().second()),
            _ => None,
        }
    }

    pub(crate) fn of_list(choices: Choices) -> Op {
        let of_these = |op: &Op| op.list_choices() == Some(choices);
        let op = Op::LISTS.into_iter().find(of_these);
        op.expect("each choice of a list has its op")
    }

    /// In which edition a pattern is mended; none where none is.
    pub fn mend_edition(self) -> Option<Edition> {
        match self {
            Op::Mend => Some(Edition::First),
            Op::MendSecond => Some(Edition::Second),
            _ => None,
        }
    }

    pub(crate) fn of_mend(edition: Edition) -> Op {
        match edition {
            Edition::First => Op::Mend,
            Edition::Second => Op::MendSecond,
        }
    }

    pub(crate) fn of_read(choices: Choices) -> Op {
        let of_these = |op: &Op| op.choices() == Some(choices);
        let op = Op::ALL.into_iter().find(of_these);
        op.expect("each choice of a read has its op")
    }

    /// The first word of its requests.
    pub(crate) fn word(self) -> &'static str {
        match self.choices().map(|choices| choices.pair) {
            Some(Pair::Full) => Op::Read.name(),
            Some(Pair::Date) => Op::ReadDate.name(),
            None if self.list_choices().is_some() => Op::List.name(),
            None if self.mend_edition().is_some() => Op::Mend.name(),
            None => self.name(),
        }
    }

    pub fn named(name: &str) -> Option<Op> {
        Op::ALL.into_iter().find(|op| op.name() == name)
    }

    /// Those that are asked where none is named: without a book all but those of books, with English those that take one; those of
    /// lists, of mending and of stamps are always named.
    pub fn usual(books: Option<Books>) -> Vec<Op> {
        let is_usual = |op: &Op| match books {
            None => !op.is_of_a_book() && !op.is_named_alone(),
            Some(Books::English) => op.takes_a_book(),
            Some(Books::Random) => op.takes_a_book() || op.is_of_a_book(),
        };
        Op::ALL.into_iter().filter(is_usual).collect()
    }

    fn takes_a_book(self) -> bool {
        matches!(self, Op::Write | Op::WriteDate) || self.choices().is_some()
    }

    fn is_named_alone(self) -> bool {
        self.list_choices().is_some() || self.mend_edition().is_some() || Op::STAMPS.contains(&self)
    }

    fn is_of_a_book(self) -> bool {
        matches!(self, Op::Book | Op::BookWrite)
    }
}
