//! Families of stamps: good ones of every form, every prefix and every byte of some changed, numbers at the ends of their ranges,
//! damaged ones, long fractions; and records to write.

use super::random::Random;
use super::room;
use crate::expected::Expected;
use crate::gregorian::day_of;
use crate::request::{Request, MOST_ROOM};
use crate::stamps::{text, write, Stamp};

const SECOND: u64 = 1_000_000_000;
const LAST_OF_9999: i64 = 3_652_058;
const FAMILIES: usize = 6;
/// The longest text, in bytes.
const LONGEST: i64 = 2048;

/// One of each form, whose prefixes and bytes are enumerated.
const FORMS: [&[u8]; 6] = [
    b"2025-12-03T07:05:09Z",
    b"1990-12-31T23:59:50.5z",
    b"2024-02-29t00:00:00-00:00",
    b"0001-01-01T00:00:00.123456789+23:59",
    b"9999-12-31T23:59:59.9999999999-23:59",
    b"2000-01-10T20:10:10+00:00",
];
/// Numbers of two digits on both sides of every range.
const LIMITS: [u64; 15] = [0, 1, 2, 11, 12, 13, 23, 24, 28, 29, 30, 31, 32, 59, 60];
const YEARS: [u64; 12] = [0, 1, 4, 99, 100, 400, 1900, 2000, 2024, 2025, 2100, 9999];

/// The families take turns; those that enumerate come one step further each time.
pub fn text_to_read(turn: usize, random: &mut Random) -> Vec<u8> {
    let step = turn / FAMILIES;
    match turn % FAMILIES {
        0 => good(random),
        1 => prefix(step),
        2 => changed(step),
        3 => at_limits(random),
        4 => damaged(random),
        _ => any(random),
    }
}

pub fn record_to_write(turn: usize, random: &mut Random) -> Request {
    let mut stamp = record(random);
    match turn % 4 {
        0 => (),
        1 => put_at_limits(&mut stamp, random),
        2 => stamp.offset = random.between(-86_400, 86_400) as i32,
        _ => stamp.unknown = !stamp.unknown,
    }
    let needed = match write(&stamp, MOST_ROOM) {
        Expected::Accepted(_) => text(&stamp).len(),
        _ => FORMS[0].len(),
    };
    let room = room(needed, random).min(MOST_ROOM);
    Request::RfcWrite { stamp, room }
}

/// A record that is written.
fn record(random: &mut Random) -> Stamp {
    let day = day_of(random.between(0, LAST_OF_9999) as i32);
    let fraction = match random.below(4) {
        0 => 0,
        1 => random.pick(&[1, 9, 120_000, 500_000_000, 999_999_999]),
        _ => random.below(SECOND as usize) as u64,
    };
    let second = match random.below(8) {
        0 => random.pick(&[0, 59, 60, 3599, 3600, 43_200, 86_399]),
        _ => random.below(86_400) as u64,
    };
    let offset = match random.below(4) {
        0 => 0,
        1 => random.pick(&[-86_340, -60, 60, 3600, 19_800, 86_340]),
        _ => 60 * random.between(-1439, 1439) as i32,
    };
    Stamp {
        year: day.year,
        month: day.month,
        day: day.day,
        nanoseconds: second * SECOND + fraction,
        offset,
        unknown: offset == 0 && random.one_in(2),
    }
}

/// One field or several at an end of its range or beyond it, or a day that is not there.
fn put_at_limits(stamp: &mut Stamp, random: &mut Random) {
    match random.below(6) {
        0 => {
            stamp.year = random.pick(&[
                0,
                1,
                -1,
                9999,
                10_000,
                5_879_611,
                5_879_612,
                -5_879_612,
                i32::MAX,
                i32::MIN,
            ])
        }
        1 => stamp.month = random.pick(&[0, 1, 2, 4, 12, 13, u32::MAX]),
        2 => stamp.day = random.pick(&[0, 1, 28, 29, 30, 31, 32, u32::MAX]),
        3 => {
            stamp.nanoseconds =
                random.pick(&[0, 86_400 * SECOND - 1, 86_400 * SECOND, 1 << 63, u64::MAX])
        }
        4 => {
            stamp.offset = random.pick(&[
                0,
                1,
                -1,
                30,
                59,
                61,
                86_340,
                86_341,
                86_399,
                86_400,
                -86_340,
                -86_399,
                -86_400,
                i32::MAX,
                i32::MIN,
            ])
        }
        _ => (stamp.month, stamp.day) = (2, random.pick(&[28, 29, 30])),
    }
    if random.one_in(3) {
        put_at_limits(stamp, random);
    }
}

/// With any number of digits, letters of either case, and either offset of zero.
fn good(random: &mut Random) -> Vec<u8> {
    let mut text = text(&record(random)).into_bytes();
    if text[19] == b'.' {
        let end = match random.below(12) {
            0 => 20 + random.below(2000),
            1 | 2 => 30 + random.below(40),
            _ => 21 + random.below(9),
        };
        let digits = random.bytes(end.saturating_sub(29), b"0123456789");
        text.splice(end.clamp(21, 29)..29, digits);
    }
    if text.ends_with(b"Z") && random.one_in(3) {
        text.truncate(text.len() - 1);
        text.extend(random.pick(&[b"+00:00", b"-00:00"]));
    }
    for byte in &mut text {
        if random.one_in(3) {
            byte.make_ascii_lowercase();
        }
    }
    text
}

/// Of each form each beginning.
fn prefix(step: usize) -> Vec<u8> {
    let all: usize = FORMS.iter().map(|form| form.len()).sum();
    let (form, place) = place_in_forms(step % all);
    form[..place].to_vec()
}

/// Of each form each byte changed to each other, which come all after some turns.
fn changed(step: usize) -> Vec<u8> {
    let all: usize = FORMS.iter().map(|form| form.len()).sum();
    let (form, place) = place_in_forms(step % all);
    let mut text = form.to_vec();
    text[place] = (step / all) as u8;
    text
}

fn place_in_forms(mut place: usize) -> (&'static [u8], usize) {
    for form in FORMS {
        if place < form.len() {
            return (form, place);
        }
        place -= form.len();
    }
    unreachable!("the place is one of all")
}

/// Numbers at the ends of their ranges, some out of them, with any day of any month.
fn at_limits(random: &mut Random) -> Vec<u8> {
    let year = random.pick(&YEARS);
    let month = number(random, 1, 12);
    let day = match random.below(3) {
        0 => random.pick(&[28, 29, 30, 31]),
        _ => number(random, 1, 31),
    };
    let (hour, minute, second) = (
        number(random, 0, 23),
        number(random, 0, 59),
        number(random, 0, 60),
    );
    let fraction = random.pick(&["", ".0", ".000000000", ".9999999999", ".5"]);
    let offset = match random.below(3) {
        0 => "Z".to_string(),
        _ => {
            let sign = random.pick(&['+', '-']);
            format!(
                "{sign}{:02}:{:02}",
                number(random, 0, 23),
                number(random, 0, 59)
            )
        }
    };
    format!("{year:04}-{month:02}-{day:02}T{hour:02}:{minute:02}:{second:02}{fraction}{offset}")
        .into_bytes()
}

/// Mostly in its range, at times at a limit or any.
fn number(random: &mut Random, first: u64, last: u64) -> u64 {
    match random.below(16) {
        0 => random.pick(&LIMITS),
        1 => random.below(100) as u64,
        2..=4 => random.pick(&[first, last]),
        _ => random.between(first as i64, last as i64) as u64,
    }
}

/// One change to a stamp, or more.
fn damaged(random: &mut Random) -> Vec<u8> {
    let mut text = if random.one_in(2) {
        good(random)
    } else {
        at_limits(random)
    };
    damage(&mut text, random);
    while random.one_in(3) {
        damage(&mut text, random);
    }
    text
}

fn damage(text: &mut Vec<u8>, random: &mut Random) {
    const BYTES: &[u8] = b"0123456789-+:.,TtZz /\0\x7f\x80\xff";
    let place = random.below(text.len() + 1);
    let byte = random.pick(BYTES);
    match random.below(7) {
        0 => text.truncate(place),
        1 => text.insert(place, byte),
        2 if place < text.len() => _ = text.remove(place),
        3 if place < text.len() => text[place] = byte,
        4 if place + 1 < text.len() => text.swap(place, place + 1),
        5 => text.extend(random.pick(&[b"Z     ", b"+00:00", b" 07:05", b"[UTC]]"])),
        _ if text.len() > FORMS[0].len() => {
            (text[10], text[19]) = random.pick(&[(b' ', b'.'), (b'T', b','), (b'_', b'.')]);
        }
        _ => (),
    }
}

/// Any bytes, digits alone, and fractions around the longest text.
fn any(random: &mut Random) -> Vec<u8> {
    match random.below(8) {
        0 => {
            let length = random.below(40);
            random.bytes(length, &(0..=255).collect::<Vec<u8>>())
        }
        1 => {
            let length = random.below(40);
            random.bytes(length, b"0123456789-:TZ.+")
        }
        2 | 3 => {
            let digits = random.between(LONGEST - 40, LONGEST + 8) as usize;
            let digits = random.bytes(digits, b"0123456789");
            let end: &[u8] = random.pick(&[b"Z", b"+05:30", b"", b"-00:00"]);
            [b"2025-12-03T07:05:09.", &digits[..], end].concat()
        }
        _ => damaged(random),
    }
}
