//! Families of texts for a pattern.

use super::fields;
use super::patterns;
use super::random::Random;
use crate::answer::{as_pattern, text_of};
use crate::calendar::Fields;
use crate::names;
use crate::walk::{self, Kind, Pair};

/// Beside the longest pattern it keeps a line under the protocol's 20,000 bytes.
pub const LONGEST: usize = 4096;

const TELLING: &[u8] = b"0123456789+-:.Z'/ aApPmMnJSB";

/// A text for a read of the pattern, mostly near what the record is written as.
pub fn text(pair: Pair, pattern: &[u8], fields: &Fields, random: &mut Random) -> Vec<u8> {
    let mut text = match random.below(20) {
        0..=4 => written(pair, pattern, fields, random),
        5..=7 => extended(written(pair, pattern, fields, random), random),
        8..=13 => part_by_part(pair, pattern, random),
        14 => damaged(written(pair, pattern, fields, random), random),
        15 => with_a_plus(written(pair, pattern, fields, random), random),
        16 => cut(written(pair, pattern, fields, random), random),
        17 => written(pair, &patterns::ordinary(random), fields, random),
        18 => around_the_limits(written(pair, pattern, fields, random), random),
        _ => noise(random),
    };
    text.truncate(LONGEST);
    text
}

/// What the Rust writes, or anything where it writes nothing.
fn written(pair: Pair, pattern: &[u8], fields: &Fields, random: &mut Random) -> Vec<u8> {
    text_of(pair, pattern, fields).map_or_else(|| noise(random), String::into_bytes)
}

pub fn extended(mut text: Vec<u8>, random: &mut Random) -> Vec<u8> {
    let length = random.between(1, 4) as usize;
    let kind = random.pick(&[b"0123456789".as_slice(), b"abMZ", TELLING]);
    text.extend(random.bytes(length, kind));
    text
}

/// Some edits, rarely with a byte that no text may have.
pub fn damaged(mut text: Vec<u8>, random: &mut Random) -> Vec<u8> {
    for _ in 0..random.between(1, 2) {
        let place = random.below(text.len() + 1);
        let byte = any_byte(random);
        match random.below(3) {
            0 => text.insert(place, byte),
            1 if place < text.len() => text[place] = byte,
            _ if place < text.len() => drop(text.remove(place)),
            _ => text.push(byte),
        }
    }
    text
}

/// A plus in the place of a digit, at the start of a number as often as inside.
pub fn with_a_plus(mut text: Vec<u8>, random: &mut Random) -> Vec<u8> {
    let starts = random.one_in(2);
    let digits: Vec<usize> = (0..text.len())
        .filter(|place| text[*place].is_ascii_digit())
        .filter(|place| !starts || *place == 0 || !text[place - 1].is_ascii_digit())
        .collect();
    if !digits.is_empty() {
        text[random.pick(&digits)] = b'+';
    }
    text
}

pub fn any_byte(random: &mut Random) -> u8 {
    match random.below(30) {
        0 => random.between(128, 255) as u8,
        1..=4 => random.between(0, 127) as u8,
        _ => random.pick(TELLING),
    }
}

pub fn cut(mut text: Vec<u8>, random: &mut Random) -> Vec<u8> {
    text.truncate(random.below(text.len() + 1));
    text
}

pub fn noise(random: &mut Random) -> Vec<u8> {
    let length = random.below(14);
    (0..length).map(|_| any_byte(random)).collect()
}

pub fn around_the_limits(mut text: Vec<u8>, random: &mut Random) -> Vec<u8> {
    let length = match random.below(4) {
        0 => random.pick(&[2049, 2050]),
        1 => random.pick(&[0, 1]),
        _ => random.pick(&[2047, 2048]),
    };
    let filler = random.pick(b"0/");
    text.resize(length, filler);
    text
}

/// Each part from a record of its own, or as a text that only a reader would take.
fn part_by_part(pair: Pair, pattern: &[u8], random: &mut Random) -> Vec<u8> {
    let Some(splittable) = as_pattern(pattern) else {
        return noise(random);
    };
    let mut text = Vec::new();
    for part in walk::split(splittable) {
        let bytes = &pattern[part.start..part.start + part.length];
        if part.kind == Kind::Run && random.one_in(3) {
            text.extend(readable(bytes, random));
        } else {
            let fields = fields::in_range(random);
            text.extend(written(pair, bytes, &fields, random));
        }
    }
    text
}

/// A text that a run may read and need not have written.
fn readable(run: &[u8], random: &mut Random) -> Vec<u8> {
    if let (b"MMM" | b"eee", Some(names)) = (&run[..run.len().min(3)], names::given()) {
        return near_a_name(names, random);
    }
    match run[0] {
        b'G' => name(
            &["AD", "BC", "B", "Before Christ", "Anno Domini", "xx"],
            random,
        ),
        b'y' => year(run.len(), random),
        b'q' => name(
            &["5", "1st quarter", "4th quarter", "1th quarter", "q9"],
            random,
        ),
        b'M' => month(run.len(), random),
        b'e' => name(&["Sun", "Wednesday", "Fr", "9", "00", "Sonntag"], random),
        b'a' | b'b' => period(random),
        b'X' | b'x' => zone(random),
        b'n' => number(random.pick(&[1, 2, 3, 6, 9]), random),
        _ => number(random.pick(&[1, 2, 2, 3]), random),
    }
}

fn name(choices: &[&str], random: &mut Random) -> Vec<u8> {
    random.pick(choices).as_bytes().to_vec()
}

/// One of any list of the book, often a letter longer or shorter, or with one that is small for capital or the other way.
fn near_a_name(names: &[&str], random: &mut Random) -> Vec<u8> {
    let mut near = name(names, random);
    let place = random.below(near.len());
    match random.below(8) {
        0 => near.truncate(near.len() - 1),
        1 => near.push(random.pick(b"abAB0 ")),
        2 => near[place] ^= 32,
        3 => near.extend(name(names, random)),
        _ => (),
    }
    near
}

fn month(count: usize, random: &mut Random) -> Vec<u8> {
    match count {
        1 => number(random.pick(&[1, 2]), random),
        2 => number(2, random),
        _ => name(&["May", "March", "Mar", "December", "june", "Mai"], random),
    }
}

fn period(random: &mut Random) -> Vec<u8> {
    let periods = [
        "AM", "PM", "am", "pm", "Am", "a.m.", "p.m.", "a", "p", "n", "mi", "m", "noon", "midnight",
    ];
    name(&periods, random)
}

/// Digits, now and then a bound of some unit, or with a sign or something else in front.
fn number(length: usize, random: &mut Random) -> Vec<u8> {
    let mut digits = random.bytes(length, b"0123456789");
    match random.below(8) {
        0 => digits[0] = random.pick(b"++- a"),
        1 if length == 2 => digits = name(&["00", "12", "24", "31", "60"], random),
        _ => (),
    }
    digits
}

fn year(count: usize, random: &mut Random) -> Vec<u8> {
    const EDGES: [&str; 8] = [
        "2147483647",
        "2147483648",
        "-2147483648",
        "-2147483649",
        "+",
        "-",
        "-0",
        "+2147483647",
    ];
    match random.below(4) {
        0 => name(&EDGES, random),
        1 => [b"-", number(count, random).as_slice()].concat(),
        2 => number(random.pick(&[1, 4, 5, 10, 11]), random),
        _ => zeros_before(random.pick(&EDGES), count),
    }
}

/// The number with as many zeros as make it as long as the count asks for.
fn zeros_before(number: &str, count: usize) -> Vec<u8> {
    let size = number.trim_start_matches(['+', '-']);
    let sign = &number[..number.len() - size.len()];
    format!("{sign}{size:0>count$}").into_bytes()
}

fn zone(random: &mut Random) -> Vec<u8> {
    let mut text = vec![random.pick(b"+-+-Zz")];
    text.extend(number(2, random));
    for _ in 0..random.below(3) {
        if random.one_in(2) {
            text.push(random.pick(b"::.5"));
        }
        text.extend(number(2, random));
    }
    text
}
