//! Patterns for the check: those that are listed, each once, and random ones between them.

use super::current_year;
use super::library::Library;
use super::patterns::{self, COUNTS, SYMBOLS};
use super::random::Random;
use crate::check::CheckRequest;
use crate::choices::{Books, Edition};

/// Each pattern of this step is a random one.
const EVERY: usize = 4;

/// Prime and larger than the list, so that any number of steps spreads over it and all steps go through it.
const STRIDE: usize = 1_000_003;

/// Beside the first that an edition takes.
const YEARS: [i32; 5] = [999, 1000, 1999, 2025, 9999];

const LITERALS: [&[u8]; 27] = [
    b"5", b"0", b"55", b"/", b"//", b"-", b"+", b":", b".", b" ", b"T", b"Z", b"A", b"'5'", b"'a'",
    b"'5a'", b"'a5'", b"'-5'", b"' '", b"''", b"''''", b"'''5'", b"'5", b"'a", b"'5''", b"'a''",
    b"\x7f",
];

/// Parts that can write a single byte.
const NARROW: [&[u8]; 31] = [
    b"GGGGG", b"y", b"q", b"qqqqq", b"M", b"MMMMM", b"w", b"d", b"D", b"DDDD", b"e", b"eeeee",
    b"eeeeeee", b"aaaaa", b"bbbbb", b"h", b"H", b"K", b"k", b"m", b"s", b"n", b"X", b"XXXXX", b"5",
    b"/", b"-", b"''", b"'5'", b"'a'", b"Z",
];

const BEHIND: [&[u8]; 12] = [
    b"5", b"/", b"'5'", b"''", b"d", b"dd", b"y", b"MMM", b"qqq", b"n", b"X", b"xx",
];

/// Of each symbol the counts up to the second of those that all do the same.
const KINDS: [(u8, usize); 19] = [
    (b'G', 7),
    (b'y', 8),
    (b'q', 6),
    (b'M', 7),
    (b'w', 3),
    (b'd', 3),
    (b'D', 5),
    (b'e', 10),
    (b'a', 7),
    (b'b', 7),
    (b'h', 3),
    (b'H', 3),
    (b'K', 3),
    (b'k', 3),
    (b'm', 3),
    (b's', 3),
    (b'n', 7),
    (b'X', 7),
    (b'x', 7),
];

type Slot = Vec<Vec<u8>>;

/// All the patterns that are one choice from each slot, in order.
type Family = Vec<Slot>;

fn families() -> Vec<Family> {
    let kinds = KINDS.into_iter();
    let kinds = slot(kinds.flat_map(|(symbol, most)| runs(symbol, 1..=most)));
    let followers = [runs_of_all(1..=12), slot(LITERALS)].concat();
    let any_kind = [kinds.clone(), slot(LITERALS)].concat();
    let mut families = vec![
        vec![runs_of_all(COUNTS)],
        vec![runs_of_all((1..=12).chain([20])), followers],
        vec![slot([b"XXXXX", b"xxxxx"]), any_kind.clone(), any_kind],
        vec![kinds, slot(NARROW), slot(BEHIND)],
        strings(b"yMdDeXn'5/", 4),
    ];
    families.extend((0..=3).map(|length| strings(b"GyqMwdDeabhHKkmsnXx'5/", length)));
    families.extend((4..=8).map(|length| strings(b"'d5", length)));
    families
}

fn strings(alphabet: &[u8], length: usize) -> Family {
    vec![alphabet.iter().map(|byte| vec![*byte]).collect(); length]
}

fn runs_of_all(counts: impl IntoIterator<Item = usize> + Clone) -> Slot {
    let all = SYMBOLS.iter();
    all.flat_map(|symbol| runs(*symbol, counts.clone()))
        .collect()
}

fn runs(symbol: u8, counts: impl IntoIterator<Item = usize>) -> Slot {
    let counts = counts.into_iter();
    counts.map(|count| vec![symbol; count]).collect()
}

fn slot<T: AsRef<[u8]>>(elements: impl IntoIterator<Item = T>) -> Slot {
    let elements = elements.into_iter();
    elements.map(|element| element.as_ref().to_vec()).collect()
}

fn size(family: &Family) -> usize {
    family.iter().map(Vec::len).product()
}

fn pattern_at(mut place: usize, family: &Family) -> Vec<u8> {
    let mut pattern = Vec::new();
    for slot in family {
        pattern.extend(&slot[place % slot.len()]);
        place /= slot.len();
    }
    pattern
}

fn length(families: &[Family]) -> usize {
    families.iter().map(size).sum()
}

/// Requests without end, the same for the same seed, editions and books: each pattern in each of the editions.
pub struct CheckGenerator {
    random: Random,
    editions: Vec<Edition>,
    library: Library,
    families: Vec<Family>,
    /// How long the list is.
    length: usize,
    /// Where in the list the seed begins.
    start: usize,
    made: usize,
    /// The pattern of the last request.
    pattern: Vec<u8>,
}

impl CheckGenerator {
    /// Of requests without a book.
    pub fn new(seed: u64, editions: Vec<Edition>) -> CheckGenerator {
        CheckGenerator::with(None, seed, editions)
    }

    pub fn with(books: Option<Books>, seed: u64, editions: Vec<Edition>) -> CheckGenerator {
        let mut random = Random::new(seed);
        let families = families();
        let length = length(&families);
        CheckGenerator {
            start: random.below(length),
            library: Library::of(books, &mut random),
            random,
            editions,
            families,
            length,
            made: 0,
            pattern: Vec::new(),
        }
    }

    /// How many patterns go through the list once.
    pub fn whole_list() -> usize {
        length(&families()).div_ceil(EVERY - 1) * EVERY
    }

    fn listed(&self, step: usize) -> Vec<u8> {
        let mut place = (self.start + step * STRIDE) % self.length;
        for family in &self.families {
            if place < size(family) {
                return pattern_at(place, family);
            }
            place -= size(family);
        }
        unreachable!("the place is within the list")
    }
}

impl Iterator for CheckGenerator {
    type Item = CheckRequest;

    fn next(&mut self) -> Option<CheckRequest> {
        let (number, place) = (
            self.made / self.editions.len(),
            self.made % self.editions.len(),
        );
        self.made += 1;
        let edition = self.editions[place];
        let (round, turn) = (number / EVERY, number % EVERY);
        let listed = (turn < EVERY - 1).then_some(round * (EVERY - 1) + turn);
        if place == 0 {
            self.pattern = match listed {
                Some(step) => self.listed(step),
                None => random_pattern(round, &mut self.random),
            };
        }
        let year = |random: &mut Random| match listed {
            Some(step) => listed_year(edition, step),
            None => current_year(edition, random),
        };
        let (now, book) = self.library.lend(&mut self.random, year);
        Some(CheckRequest {
            edition,
            pattern: self.pattern.clone(),
            now,
            book,
        })
    }
}

fn listed_year(edition: Edition, step: usize) -> i32 {
    match step % (1 + YEARS.len()) {
        0 => edition.first_year(),
        place => YEARS[place - 1],
    }
}

/// One of the other requests' random families, one with what the second edition reads otherwise, or parts kept apart.
fn random_pattern(round: usize, random: &mut Random) -> Vec<u8> {
    match round % 4 {
        0 => patterns::at_random(random),
        1 => kept_apart(Edition::First, random),
        2 => patterns::with_what_differs(random),
        _ => kept_apart(Edition::Second, random),
    }
}

/// Seldom with a part that fails in the edition, so that it comes late.
fn kept_apart(edition: Edition, random: &mut Random) -> Vec<u8> {
    const BETWEEN: [&[u8]; 8] = [b"-", b" ", b"/", b"T", b", ", b"' of '", b"''", b": "];
    let most = random.pick(&[3, 6, 12, 60]);
    let mut pattern = Vec::new();
    for _ in 0..random.between(1, most) {
        let (symbol, most) = random.pick(&KINDS);
        let count = random.between(1, most as i64) as usize;
        let broken = match (symbol, count) {
            (b'M', 1) => edition == Edition::First,
            (b'y', 2 | 5 | 6) => true,
            _ => false,
        };
        if !broken || random.one_in(40) {
            pattern.extend(vec![symbol; count]);
        }
        if !random.one_in(40) {
            pattern.extend(random.pick(&BETWEEN));
        }
    }
    pattern
}
