//! Requests without end, the same for the same seed, ops and books.

mod books;
mod checks;
mod days;
mod fields;
mod library;
mod lists;
mod literals;
mod mends;
mod offsets;
mod patterns;
mod random;
mod stamps;
mod texts;

use crate::answer::text_of;
use crate::book::bytes_of;
use crate::calendar::Fields;
use crate::choices::{Books, Choices, Edition};
use crate::request::{Op, Request, MOST_ROOM};
use crate::walk::Pair;
pub use checks::CheckGenerator;
pub(crate) use fields::{at_boundaries, in_range, BOUNDARIES};
use library::Library;
pub use random::Random;

pub struct Generator {
    random: Random,
    ops: Vec<Op>,
    library: Library,
    made: usize,
}

impl Generator {
    /// Of requests without a book.
    pub fn new(seed: u64, ops: Vec<Op>) -> Generator {
        Generator::with(None, seed, ops)
    }

    pub fn with(books: Option<Books>, seed: u64, ops: Vec<Op>) -> Generator {
        let mut random = Random::new(seed);
        Generator {
            library: Library::of(books, &mut random),
            random,
            ops,
            made: 0,
        }
    }
}

impl Iterator for Generator {
    type Item = Request;

    /// The ops take turns, and each goes through the families of patterns.
    fn next(&mut self) -> Option<Request> {
        let op = self.ops[self.made % self.ops.len()];
        let turn = self.made / self.ops.len();
        self.made += 1;
        let make = |random: &mut Random| request(op, turn, random);
        let (request, book) = self.library.lend(&mut self.random, make);
        Some(request.with_book(book))
    }
}

fn request(op: Op, turn: usize, random: &mut Random) -> Request {
    match op {
        Op::Split => Request::Split {
            pattern: patterns::pattern(turn, random),
        },
        Op::Write => write_request(Pair::Full, turn, random),
        Op::WriteDate => write_request(Pair::Date, turn, random),
        Op::ParseOffset => Request::ParseOffset {
            text: offsets::offset_text(random),
        },
        Op::DayOf => Request::DayOf {
            number: days::number(turn, random),
        },
        Op::DayNumber => days::date(turn, random),
        Op::Book => Request::Book {
            bytes: books::bytes(turn, random),
        },
        Op::BookWrite => book_write_request(turn, random),
        Op::RfcRead => Request::RfcRead {
            text: stamps::text_to_read(turn, random),
        },
        Op::RfcWrite => stamps::record_to_write(turn, random),
        other => match (other.list_choices(), other.mend_edition()) {
            (Some(choices), _) => lists::list(choices, turn, random),
            (_, Some(edition)) => mends::mend(edition, turn, random),
            (None, None) => {
                let choices = other.choices().expect("all others are reads");
                read_request(choices, turn, random)
            }
        },
    }
}

fn book_write_request(turn: usize, random: &mut Random) -> Request {
    let names = books::names(turn, random);
    let needed = bytes_of(1, &names).len();
    let room = room(needed, random).min(MOST_ROOM);
    Request::BookWrite { room, names }
}

/// A run of one symbol is always written: each of the boundaries meets each run.
fn write_request(pair: Pair, turn: usize, random: &mut Random) -> Request {
    let pattern = patterns::pattern(turn, random);
    let always = patterns::round_of_runs(turn).is_some();
    let fields = if !always && random.one_in(11) {
        fields::out_of_range(random)
    } else {
        good_fields(turn, random)
    };
    let needed = text_of(pair, &pattern, &fields).map_or(0, |text| text.len());
    let room = if always { needed } else { room(needed, random) };
    Request::Write {
        pair,
        pattern,
        fields,
        room: room.min(MOST_ROOM),
        book: None,
    }
}

fn read_request(choices: Choices, turn: usize, random: &mut Random) -> Request {
    let pattern = patterns::pattern_in(choices.edition, turn, random);
    let fields = good_fields(turn, random);
    let text = if choices.strict {
        literals::text
    } else {
        texts::text
    };
    Request::Read {
        choices,
        text: text(choices.pair, &pattern, &fields, random),
        pattern,
        now: current_year(choices.edition, random),
        book: None,
    }
}

fn good_fields(turn: usize, random: &mut Random) -> Fields {
    match patterns::round_of_runs(turn) {
        Some(round) => fields::at_boundaries(round),
        None => fields::in_range(random),
    }
}

/// Mostly enough, often just enough, at times one byte short or nothing.
fn room(needed: usize, random: &mut Random) -> usize {
    match random.below(12) {
        0 => 0,
        1 => needed.saturating_sub(1),
        2..=5 => needed,
        6 => needed + 1,
        _ => random.pick(&[2048, MOST_ROOM]),
    }
}

/// The second edition has others at the ends of its years, and some that the first alone takes.
fn current_year(edition: Edition, random: &mut Random) -> i32 {
    match (random.below(24), edition) {
        (0, _) => random.pick(&[0, 10_000, -1, -2025, i32::MAX, i32::MIN]),
        (1..=8, Edition::First) => random.pick(&[1, 999, 1000, 1999, 2025, 9999]),
        (1, Edition::Second) => random.pick(&[1, 2, 19, 50, 79, 80]),
        (2..=8, Edition::Second) => {
            random.pick(&[81, 82, 99, 100, 180, 999, 1999, 2025, 9980, 9999])
        }
        _ => random.between(i64::from(edition.first_year()), 9999) as i32,
    }
}
