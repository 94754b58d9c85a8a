//! Families of texts for a strict reading: the literals of the pattern as they should stand there, or almost.

use super::random::Random;
use super::texts;
use crate::answer::{as_pattern, text_of};
use crate::calendar::Fields;
use crate::strict::literal;
use crate::walk::{self, Pair};

/// A text for a strict read of the pattern.
pub fn text(pair: Pair, pattern: &[u8], fields: &Fields, random: &mut Random) -> Vec<u8> {
    let Some(splittable) = as_pattern(pattern) else {
        return texts::noise(random);
    };
    let fitting = Fitting::to(pair, splittable, fields);
    let mut text = match random.below(20) {
        0..=4 => fitting.text,
        5..=7 => fitting.with_another_byte(random).text,
        8 | 9 => fitting.with_two_exchanged(random).text,
        10 | 11 => fitting.with_slashes_for_dashes().text,
        12 | 13 => texts::extended(fitting.text, random),
        14 => texts::extended(fitting.with_another_byte(random).text, random),
        15 => texts::with_a_plus(fitting.with_another_byte(random).text, random),
        16 => texts::cut(fitting.with_another_byte(random).text, random),
        _ => texts::text(pair, pattern, fields, random),
    };
    text.truncate(texts::LONGEST);
    text
}

/// A text, with the places where it has the bytes of literals.
struct Fitting {
    text: Vec<u8>,
    places: Vec<usize>,
}

impl Fitting {
    /// As the record is written, but for a last escaped quote that no quote closes: that is there too.
    fn to(pair: Pair, pattern: &str, fields: &Fields) -> Fitting {
        let (mut text, mut places) = (Vec::new(), Vec::new());
        for part in walk::split(pattern) {
            if let Some(literal) = literal(pair, pattern, part) {
                places.extend(text.len()..text.len() + literal.len());
                text.extend(literal.bytes());
            } else {
                let run = &pattern.as_bytes()[part.start..part.start + part.length];
                text.extend(text_of(pair, run, fields).unwrap_or_default().bytes());
            }
        }
        Fitting { text, places }
    }

    /// Often a separator or a byte that differs in one bit, which may be that of small letters.
    fn with_another_byte(mut self, random: &mut Random) -> Fitting {
        if !self.places.is_empty() {
            let place = random.pick(&self.places);
            self.text[place] = match random.below(4) {
                0 => self.text[place] ^ random.pick(&[1, 32]),
                1 => texts::any_byte(random),
                _ => random.pick(b"/-:., T'"),
            };
        }
        self
    }

    fn with_two_exchanged(mut self, random: &mut Random) -> Fitting {
        if !self.places.is_empty() {
            let (one, other) = (random.pick(&self.places), random.pick(&self.places));
            self.text.swap(one, other);
        }
        self
    }

    /// And dashes for slashes.
    fn with_slashes_for_dashes(mut self) -> Fitting {
        for place in &self.places {
            self.text[*place] = match self.text[*place] {
                b'/' => b'-',
                b'-' => b'/',
                byte => byte,
            };
        }
        self
    }
}
