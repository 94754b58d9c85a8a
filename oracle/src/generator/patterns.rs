//! Families of patterns.

use super::random::Random;
use crate::choices::Edition;
use crate::names;

pub const SYMBOLS: &[u8; 19] = b"GyqMwdDeabhHKkmsnXx";
pub const COUNTS: [usize; 16] = [1, 2, 3, 4, 5, 6, 7, 8, 9, 10, 11, 12, 20, 100, 255, 256];
/// How many different runs of one symbol there are.
const RUNS: usize = SYMBOLS.len() * COUNTS.len();

const FAMILIES: usize = 12;
const RUN_FAMILY: usize = 0;
const FIRST_RANDOM: usize = 3;

/// The families take turns; those that enumerate come one step further each time. With a book
/// two thirds of the rest have names.
pub fn pattern(turn: usize, random: &mut Random) -> Vec<u8> {
    let step = turn / FAMILIES;
    if names::given().is_some() && !is_enumerated(turn) && !random.one_in(3) {
        return with_names(random);
    }
    match turn % FAMILIES {
        RUN_FAMILY => symbol_run(step),
        1 => short(step),
        2 => short_with_quotes(step),
        family => of_random_family(family, random),
    }
}

/// The same for a read in an edition: the second has each other pattern that is not enumerated with what it reads otherwise.
pub fn pattern_in(edition: Edition, turn: usize, random: &mut Random) -> Vec<u8> {
    if edition == Edition::Second && !is_enumerated(turn) && random.one_in(2) {
        with_what_differs(random)
    } else {
        pattern(turn, random)
    }
}

fn is_enumerated(turn: usize) -> bool {
    turn % FAMILIES < FIRST_RANDOM
}

/// Of a family that enumerates nothing, picked as often as it has a turn.
pub fn at_random(random: &mut Random) -> Vec<u8> {
    let family = random.between(FIRST_RANDOM as i64, FAMILIES as i64 - 1);
    of_random_family(family as usize, random)
}

fn of_random_family(family: usize, random: &mut Random) -> Vec<u8> {
    match family {
        FIRST_RANDOM => around_the_limits(random),
        4 => noise(random),
        5 => disturbed(random),
        _ => ordinary(random),
    }
}

/// For a run of one symbol, how many times all the runs have been gone through before.
pub fn round_of_runs(turn: usize) -> Option<usize> {
    (turn % FAMILIES == RUN_FAMILY).then_some(turn / FAMILIES / RUNS)
}

fn symbol_run(step: usize) -> Vec<u8> {
    let symbol = SYMBOLS[step % SYMBOLS.len()];
    vec![symbol; COUNTS[step / SYMBOLS.len() % COUNTS.len()]]
}

fn short(step: usize) -> Vec<u8> {
    enumerated(b"GyqMwdDeabhHKkmsnXx'5/", step)
}

fn short_with_quotes(step: usize) -> Vec<u8> {
    enumerated(b"'d-", step)
}

/// The strings over an alphabet in order, shorter ones first.
fn enumerated(alphabet: &[u8], mut step: usize) -> Vec<u8> {
    let mut bytes = Vec::new();
    while step > 0 {
        step -= 1;
        bytes.push(alphabet[step % alphabet.len()]);
        step /= alphabet.len();
    }
    bytes
}

fn around_the_limits(random: &mut Random) -> Vec<u8> {
    let length = match random.below(20) {
        0 => random.between(259, 5000) as usize,
        1 => random.pick(&[257, 258]),
        _ => random.pick(&[0, 1, 2, 128, 254, 255, 256]),
    };
    let mut pattern = Vec::new();
    while pattern.len() < length {
        pattern.extend(piece(random));
    }
    pattern.truncate(length);
    pattern
}

/// Any bytes, with many quotes.
fn noise(random: &mut Random) -> Vec<u8> {
    let length = random.below(12);
    (0..length)
        .map(|_| match random.below(4) {
            0 => b'\'',
            1 => random.between(1, 127) as u8,
            _ => random.pick(SYMBOLS),
        })
        .collect()
}

/// With a byte that no pattern may have, or quotes at the end that open, close or pair.
fn disturbed(random: &mut Random) -> Vec<u8> {
    let mut pattern = ordinary(random);
    if random.one_in(4) {
        let place = random.below(pattern.len());
        pattern[place] = random.pick(&[0, 128, 195, 255]);
    } else {
        let endings: [&[u8]; 7] = [b"'", b"'''", b"'x", b"'x'", b"'a''", b"'''''", b"'a'''"];
        pattern.extend(random.pick(&endings));
    }
    pattern
}

pub fn ordinary(random: &mut Random) -> Vec<u8> {
    let pieces = random.between(1, 7);
    (0..pieces).flat_map(|_| piece(random)).collect()
}

/// With single months and years of two digits among the other pieces.
pub fn with_what_differs(random: &mut Random) -> Vec<u8> {
    let pieces = random.between(1, 6);
    let some = |random: &mut Random| match random.below(5) {
        0 => b"M".to_vec(),
        1 => b"yy".to_vec(),
        2 => vec![random.pick(b"d/-. '")],
        _ => piece(random),
    };
    (0..pieces).flat_map(|_| some(random)).collect()
}

/// With names of months and weekdays among the other pieces.
fn with_names(random: &mut Random) -> Vec<u8> {
    let pieces = random.between(1, 6);
    let some = |random: &mut Random| match random.below(5) {
        0 | 1 => vec![b'M'; random.pick(&[3, 3, 4, 4, 5, 6, 9])],
        2 => vec![b'e'; random.pick(&[3, 4, 4, 5, 6])],
        3 => vec![random.pick(b"/-. 'Z")],
        _ => piece(random),
    };
    (0..pieces).flat_map(|_| some(random)).collect()
}

fn piece(random: &mut Random) -> Vec<u8> {
    match random.below(12) {
        0..=6 => vec![random.pick(SYMBOLS); usual_count(random)],
        7 | 8 => vec![random.pick(b"/-:., T")],
        9 => vec![random.pick(b"0159"); random.between(1, 3) as usize],
        10 => b"''".repeat(random.between(1, 2) as usize),
        _ => quoted(random),
    }
}

fn usual_count(random: &mut Random) -> usize {
    match random.below(10) {
        0 => random.between(6, 12) as usize,
        _ => random.between(1, 5) as usize,
    }
}

fn quoted(random: &mut Random) -> Vec<u8> {
    let insides: [&[u8]; 5] = [b"at", b"o''clock", b"y''", b"5", b" of "];
    let inside = random.pick(&insides);
    [b"'", inside, b"'"].concat()
}
