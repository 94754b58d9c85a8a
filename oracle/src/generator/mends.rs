//! Families of patterns to mend: with parts that have a change of their own, parts that a digit disturbs, and mended lengths around the
//! limit.

use super::random::Random;
use super::{current_year, patterns, room};
use crate::choices::Edition;
use crate::expected::lone_quote;
use crate::limits::pattern_limit;
use crate::mending::mended;
use crate::request::{Request, MOST_ROOM};

/// The longest pattern and the lengths around it, of the mended one.
const AROUND_THE_LIMIT: [usize; 5] = [254, 255, 256, 257, 258];

pub fn mend(edition: Edition, turn: usize, random: &mut Random) -> Request {
    let pattern = match random.below(8) {
        0..=2 => patterns::pattern_in(edition, turn, random),
        3 => around_the_limit(edition, random),
        _ => of_pieces(random),
    };
    Request::Mend {
        edition,
        now: current_year(edition, random),
        room: room(length_mended(edition, &pattern), random).min(MOST_ROOM),
        pattern,
    }
}

/// 0 where the pattern is refused.
fn length_mended(edition: Edition, pattern: &[u8]) -> usize {
    match pattern_limit(pattern).or_else(|| lone_quote(pattern)) {
        None => mended(edition, pattern).pattern.len(),
        Some(_) => 0,
    }
}

/// At times with quotes at the end that nothing closes.
fn of_pieces(random: &mut Random) -> Vec<u8> {
    let count = random.between(1, 8);
    let mut pattern: Vec<u8> = (0..count).flat_map(|_| piece(random)).collect();
    if random.one_in(6) {
        let endings: [&[u8]; 6] = [b"'a''", b"'5''", b"'a''''", b"'''b''", b"'", b"'a"];
        pattern.extend(random.pick(&endings));
    }
    pattern
}

/// What changes by itself, what a digit disturbs, what disturbs it, and what is between.
fn piece(random: &mut Random) -> Vec<u8> {
    let pieces: [&[u8]; 40] = [
        b"M", b"M", b"yy", b"yyyyy", b"yyyyyy", b"XXXXX", b"XXXXX", b"xxxxx", b"X", b"x", b"XXXX",
        b"xxxx", b"d", b"d", b"D", b"DD", b"w", b"H", b"h", b"m", b"s", b"y", b"yyyy", b"yyyyyyy",
        b"MM", b"MMM", b"MMMMM", b"q", b"qqq", b"qqqq", b"e", b"n", b"bbbbb", b" ", b"  ", b"5",
        b".", b"'5'", b"'-5'", b"''",
    ];
    random.pick(&pieces).to_vec()
}

/// Filled up with dashes where it starts, so that the mended one has such a length.
fn around_the_limit(edition: Edition, random: &mut Random) -> Vec<u8> {
    let mut pattern = of_pieces(random);
    let pieces = random.pick(&[1, 10, 60]);
    while pattern.len() < pieces {
        pattern = [of_pieces(random), pattern].concat();
    }
    let length = length_mended(edition, &pattern);
    let filling = random.pick(&AROUND_THE_LIMIT).saturating_sub(length);
    [vec![b'-'; filling], pattern].concat()
}
