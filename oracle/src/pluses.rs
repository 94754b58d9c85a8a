//! Request [3]: no number takes a plus, where the Rust's parser of numbers takes one. Which bytes are a number is read off the
//! specification's table; how far a read came is the Rust's own.

use crate::choices::{Choices, Edition};
use crate::walk::{Kind, Pair, Part};

/// A number's place behind the start of its part, and its length.
type Taken = (usize, usize);

/// The place of the first number of a part that is there and begins with a plus, in the text that the part is read from.
pub fn plus_in(choices: Choices, pattern: &str, part: Part, text: &str) -> Option<usize> {
    if part.kind != Kind::Run {
        return None;
    }
    let symbol = pattern.as_bytes()[part.start];
    let text = text.as_bytes();
    numbers(choices, symbol, part.length, text)
        .into_iter()
        .find(|(place, length)| *length > 0 && place + length <= text.len() && text[*place] == b'+')
        .map(|(place, _)| place)
}

/// The places of the numbers of an offset by itself, of which both have two bytes.
pub const IN_AN_OFFSET: [usize; 2] = [1, 4];

/// "What each symbol does", column Reads: the numbers that are taken, in order.
fn numbers(choices: Choices, symbol: u8, count: usize, text: &[u8]) -> Vec<Taken> {
    let first = |length| vec![(0, length)];
    match (symbol, count) {
        (b'M', 1) if choices.edition == Edition::Second => first(one_or_two(count, text)),
        (b'y', 1 | 3 | 4) => vec![],
        (b'y', _) => first(count + usize::from(text.first() == Some(&b'-'))),
        (b'M', 1 | 2) => first(count),
        (b'd', _) => first(one_or_two(count, text)),
        (b'D', _) => first(day_of_year(count, text)),
        _ if choices.pair == Pair::Date => vec![],
        (b'h' | b'K' | b'H' | b'k' | b'm' | b's', _) => first(one_or_two(count, text)),
        (b'n', _) => first(match count {
            1 | 2 => count,
            4 => 6,
            5 => 9,
            _ => 3,
        }),
        (b'X' | b'x', _) => zone(symbol, count, text),
        _ => vec![],
    }
}

fn is_digit(text: &[u8], place: usize) -> bool {
    text.get(place).is_some_and(u8::is_ascii_digit)
}

/// "greedy", at a count of one.
fn one_or_two(count: usize, text: &[u8]) -> usize {
    if count == 1 && !is_digit(text, 1) {
        1
    } else {
        2
    }
}

fn day_of_year(count: usize, text: &[u8]) -> usize {
    match count {
        3 => 3,
        2 if is_digit(text, 2) => 3,
        2 => 2,
        _ if !is_digit(text, 1) => 1,
        _ if !is_digit(text, 2) => 2,
        _ => 3,
    }
}

/// Behind a sign the hour, and the minutes unless they may be missing: a group that may is there only where it begins with a digit.
fn zone(symbol: u8, count: usize, text: &[u8]) -> Vec<Taken> {
    match (text.first(), symbol) {
        (Some(b'Z'), b'X') => vec![],
        (Some(b'+' | b'-'), _) => match count {
            1 => vec![(1, 2)],
            2 | 4 => vec![(1, 2), (3, 2)],
            _ => vec![(1, 2), (4, 2)],
        },
        _ => vec![],
    }
}
