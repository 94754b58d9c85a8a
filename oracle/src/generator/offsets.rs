//! Families of texts for parse_offset.

use super::random::Random;
use super::texts::{around_the_limits, damaged, noise};

pub fn offset_text(random: &mut Random) -> Vec<u8> {
    match random.below(20) {
        0..=6 => valid(random),
        7..=9 => around_the_bounds(random),
        10..=13 => damaged(valid(random), random),
        14 => [b"Z".as_slice(), &noise(random)].concat(),
        15 | 16 => of_length(random.below(9), random),
        17 | 18 => of_length(6, random),
        _ => around_the_limits(b"Z".to_vec(), random),
    }
}

fn valid(random: &mut Random) -> Vec<u8> {
    let (hour, minute) = (random.between(0, 23), random.between(0, 59));
    let sign = random.pick(&['+', '-']);
    format!("{sign}{hour:02}:{minute:02}").into_bytes()
}

fn around_the_bounds(random: &mut Random) -> Vec<u8> {
    let hour = random.pick(&["00", "+0", "+9", "23", "24", "99", "-1", "1 "]);
    let minute = random.pick(&["00", "+0", "59", "60", "99", "-0", "0x"]);
    let sign = random.pick(&["+", "-", " ", "z", "5"]);
    let colon = random.pick(&[":", ":", ".", "0", "\0"]);
    [sign, hour, colon, minute].concat().into_bytes()
}

fn of_length(length: usize, random: &mut Random) -> Vec<u8> {
    random.bytes(length, b"0123456789++--::Z")
}
