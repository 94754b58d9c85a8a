//! Families of name books: good ones, and damaged.

use super::patterns::SYMBOLS;
use super::random::Random;
use crate::book::{self, are_apart, bytes_of, list_of, List, Names, LONGEST_NAME, NAMES};
use crate::names::english;

const LETTERS: &[u8; 52] = b"ABCDEFGHIJKLMNOPQRSTUVWXYZabcdefghijklmnopqrstuvwxyz";

/// Those beside the letters, others that are far from them, and the ends of all.
const NO_LETTERS: [u8; 14] = [
    b'@', b'[', b'`', b'{', b'0', b'9', b' ', b'-', b'\'', 0, 127, 128, 195, 255,
];

/// Zero, the first that are not known, and 1 and 2 in the wrong byte or in both.
const NO_VERSIONS: [u16; 9] = [0, 3, 4, 0x00ff, 0x0100, 0x0101, 0x0102, 0x0200, 0xffff];

const FAMILIES: usize = 6;
const WAYS_TO_BREAK: usize = 7;
const LONGEST_REST: i64 = 40;

/// A book to be read. The families take turns; those that enumerate come one step further each time.
pub fn bytes(turn: usize, random: &mut Random) -> Vec<u8> {
    let step = turn / FAMILIES;
    match turn % FAMILIES {
        0 => cut_short(step),
        1 => of_names(&broken_in_turn(step, random), random),
        2 => of_names(&good_names(random), random),
        3 => going_on(step, random),
        _ => damaged(&good_names(random), random),
    }
}

/// The names of a book to be written.
pub fn names(turn: usize, random: &mut Random) -> Names {
    match turn % FAMILIES {
        0 => english(),
        1 | 2 => broken_in_turn(turn / FAMILIES, random),
        3 => broken_at_random(good_names(random), random),
        _ => good_names(random),
    }
}

/// English in both versions, up to each of its bytes.
fn cut_short(step: usize) -> Vec<u8> {
    let mut bytes = bytes_of(1, &english());
    let (length, step) = (step % (bytes.len() + 1), step / (bytes.len() + 1));
    bytes[4] = 1 + step as u8 % 2;
    bytes.truncate(length);
    bytes
}

/// In each version with none to three bytes behind the names.
fn going_on(step: usize, random: &mut Random) -> Vec<u8> {
    let version = 1 + step as u16 % 2;
    let rest = random.bytes(step / 2 % 4, LETTERS);
    [bytes_of(version, &good_names(random)), rest].concat()
}

/// A book of these names, with what may stand behind them in version 2.
pub fn of_names(names: &Names, random: &mut Random) -> Vec<u8> {
    if !random.one_in(3) {
        return bytes_of(1, names);
    }
    let rest = random.between(0, LONGEST_REST);
    let rest = (0..rest).map(|_| random.between(0, 255) as u8);
    bytes_of(2, names).into_iter().chain(rest).collect()
}

// Good names.

/// How the names of a list are made.
struct Style {
    letters: &'static [u8],
    least: i64,
    most: i64,
    /// What they begin with, as far as they are longer.
    stem: Vec<u8>,
}

impl Style {
    fn ordinary() -> Style {
        Style {
            letters: LETTERS,
            least: 2,
            most: 20,
            stem: Vec::new(),
        }
    }

    fn any(random: &mut Random) -> Style {
        let letters = random.pick(&[LETTERS.as_slice(), LETTERS, b"ab", b"aA", SYMBOLS]);
        let (least, most) = random.pick(&[(2, 20), (2, 20), (2, 2), (20, 20), (2, 4)]);
        let stem = match random.one_in(3) {
            true => random.between(1, 18) as usize,
            false => 0,
        };
        Style {
            letters,
            least,
            most,
            stem: random.bytes(stem, letters),
        }
    }

    fn name(&self, random: &mut Random) -> Vec<u8> {
        let length = random.between(self.least, self.most) as usize;
        let of_stem = self.stem.len().min(length - 1);
        let own = random.bytes(length - of_stem, self.letters);
        [&self.stem[..of_stem], &own].concat()
    }
}

pub fn good_names(random: &mut Random) -> Names {
    let months = apart(book::WIDE_MONTHS, random);
    let short_months = match random.below(4) {
        0 => months.clone(),
        1 => beginnings(&months, random),
        _ => apart(book::SHORT_MONTHS, random),
    };
    let weekdays = match random.below(6) {
        0 => months[..7].to_vec(),
        1 => short_months[..7].to_vec(),
        _ => apart(book::WIDE_WEEKDAYS, random),
    };
    let others = [
        of_one_length(book::SHORT_WEEKDAYS, &weekdays, random),
        of_one_length(book::TWO_LETTER_WEEKDAYS, &weekdays, random),
        of_one_length(book::NARROW_WEEKDAYS, &weekdays, random),
        of_one_length(book::NARROW_MONTHS, &months, random),
    ];
    [months, short_months, weekdays, others.concat()].concat()
}

/// A list in which no name begins another. Where a style has too few names, there are others among them.
fn apart(list: List, random: &mut Random) -> Names {
    const TRIES: usize = 12;
    let style = Style::any(random);
    let mut names = Names::new();
    for _ in list.names {
        let (mut name, mut tries) = (style.name(random), 0);
        while !names.iter().all(|other| are_apart(other, &name)) {
            tries += 1;
            name = match tries < TRIES {
                true => style.name(random),
                false => Style::ordinary().name(random),
            };
        }
        names.push(name);
    }
    names
}

/// Of each name some letters, or the whole where these begin another.
fn beginnings(names: &Names, random: &mut Random) -> Names {
    let mut shorter = names.clone();
    for place in 0..names.len() {
        let length = random.between(2, names[place].len() as i64) as usize;
        let others = (0..names.len()).filter(|other| *other != place);
        let beginning = &names[place][..length];
        if others
            .into_iter()
            .all(|other| are_apart(&shorter[other], beginning))
        {
            shorter[place] = beginning.to_vec();
        }
    }
    shorter
}

/// All alike, the first letters of wide names, or any.
fn of_one_length(list: List, wide: &Names, random: &mut Random) -> Names {
    let way = random.below(4);
    let one = random.bytes(list.most, LETTERS);
    let of_wide = |name: &Vec<u8>| name.get(..list.most).map(<[u8]>::to_vec);
    let names = wide.iter().map(|name| match way {
        0 => one.clone(),
        1 => of_wide(name).unwrap_or(one.clone()),
        _ => random.bytes(list.most, LETTERS),
    });
    names.collect()
}

// Bad names and damaged bytes.

/// Each name in each way, of English or of any.
fn broken_in_turn(step: usize, random: &mut Random) -> Names {
    let (number, step) = (step % NAMES, step / NAMES);
    let (way, round) = (step % WAYS_TO_BREAK, step / WAYS_TO_BREAK);
    let mut names = match round % 2 {
        0 => english(),
        _ => good_names(random),
    };
    names[number] = broken(&names, number, way, random);
    names
}

/// One name or two.
fn broken_at_random(mut names: Names, random: &mut Random) -> Names {
    for _ in 0..random.between(1, 2) {
        let (number, way) = (random.below(NAMES), random.below(WAYS_TO_BREAK));
        names[number] = broken(&names, number, way, random);
    }
    names
}

/// The name broken by itself, or set against another of its list, where that may have no rule.
fn broken(names: &Names, number: usize, way: usize, random: &mut Random) -> Vec<u8> {
    let list = list_of(number);
    let other = &names[random.pick(&list.names.clone().collect::<Vec<_>>())];
    match way {
        0 => random.bytes(list.least - 1, LETTERS),
        1 => random.bytes(list.most + 1, LETTERS),
        2 => {
            let length = random.pick(&[0, 1, 2, 3, 4, 19, 20, 21, 22, 128, LONGEST_NAME]);
            random.bytes(length, LETTERS)
        }
        3 => with_no_letter(names[number].clone(), random),
        4 => other.clone(),
        5 => other[..random.below(other.len().max(1))].to_vec(),
        _ => {
            let more = random.between(1, 3) as usize;
            let longer = [other.clone(), random.bytes(more, LETTERS)].concat();
            longer[..longer.len().min(LONGEST_NAME)].to_vec()
        }
    }
}

fn with_no_letter(mut name: Vec<u8>, random: &mut Random) -> Vec<u8> {
    if !name.is_empty() {
        let place = random.below(name.len());
        name[place] = random.pick(&NO_LETTERS);
    }
    name
}

/// A book whose names or bytes are damaged, or both.
pub fn damaged(names: &Names, random: &mut Random) -> Vec<u8> {
    let way = random.below(4);
    let names = match way {
        0 | 1 => broken_at_random(names.clone(), random),
        _ => names.clone(),
    };
    let mut bytes = of_names(&names, random);
    for _ in 0..way.min(2) {
        damage(&mut bytes, random);
    }
    bytes
}

fn damage(bytes: &mut Vec<u8>, random: &mut Random) {
    let place = random.below(bytes.len() + 1);
    let byte = random.between(0, 255) as u8;
    match random.below(10) {
        0 => bytes.truncate(place),
        1 => bytes.truncate(random.below(8)),
        2 => bytes.extend(random.bytes(place.min(3) + 1, LETTERS)),
        3 => replace(bytes, random.below(book::MARK.len()), |old| old ^ 32),
        4 => version(bytes, random.pick(&NO_VERSIONS)),
        5 | 6 => length(bytes, random),
        7 => bytes.insert(place, byte),
        8 => drop((place < bytes.len()).then(|| bytes.remove(place))),
        _ => replace(bytes, place, |_| byte),
    }
}

fn replace(bytes: &mut [u8], place: usize, by: impl Fn(u8) -> u8) {
    if let Some(byte) = bytes.get_mut(place) {
        *byte = by(*byte);
    }
}

fn version(bytes: &mut [u8], version: u16) {
    if let Some(place) = bytes.get_mut(3..5) {
        place.copy_from_slice(&version.to_be_bytes());
    }
}

/// Another length for one of the names that are there.
fn length(bytes: &mut [u8], random: &mut Random) {
    let mut places = Vec::new();
    let mut place = 5;
    while place < bytes.len() {
        places.push(place);
        place += 1 + usize::from(bytes[place]);
    }
    if places.is_empty() {
        return;
    }
    let place = random.pick(&places);
    bytes[place] = match random.below(4) {
        0 => bytes[place].wrapping_add(1),
        1 => bytes[place].wrapping_sub(1),
        _ => random.pick(&[0, 1, 2, 3, 4, 19, 20, 21, 127, 128, 255]),
    };
}
