//! Request [1]: a strict reading, which the Rust does not have. What a literal stands for is read off the specification's section
//! on splitting; how far a read came is the Rust's own.

use crate::walk::{self, Kind, Pair, Part, Walked};

/// The part and the place of the first byte that is not the literal's, among the parts that the Rust read past.
pub fn differing(pair: Pair, pattern: &str, text: &str, walked: &Walked) -> Option<(usize, usize)> {
    let past = match &walked.outcome {
        Ok(_) => walked.places.len(),
        Err(stopped) => stopped.part,
    };
    let parts = walk::split(pattern);
    (0..past).find_map(|number| {
        let literal = literal(pair, pattern, parts[number])?;
        let began = walked.places[number];
        let place = first_differing(literal.as_bytes(), &text.as_bytes()[began..])?;
        Some((number, began + place))
    })
}

fn first_differing(literal: &[u8], text: &[u8]) -> Option<usize> {
    literal
        .iter()
        .zip(text)
        .position(|(one, other)| one != other)
}

/// The bytes that a part stands for, where it is a literal.
pub fn literal(pair: Pair, pattern: &str, part: Part) -> Option<String> {
    let bytes = &pattern[part.start..part.start + part.length];
    let inside = match part.kind {
        Kind::Run if is_symbol(pair, bytes.as_bytes()[0]) => return None,
        Kind::Run | Kind::Quotes => bytes,
        Kind::Quoted => &bytes[1..bytes.len() - 1],
        Kind::Open => &bytes[1..],
    };
    Some(inside.replace("''", "'"))
}

fn is_symbol(pair: Pair, byte: u8) -> bool {
    b"GyqMwdDe".contains(&byte) || pair == Pair::Full && b"abhKHkmsnXx".contains(&byte)
}
