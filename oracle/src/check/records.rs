//! The records that a pattern is tried on.
//!
//! What a part reads hangs on what it and the parts behind it have written. So each part is tried with its own field
//! going through all its listed values, while the fields of the next two parts go through a few that differ in kind;
//! then with the next part's field going through all of its own, then with that of the part after.

use crate::calendar::Fields;
use crate::walk::Parts;

/// What varies by itself: the fields, with the nanoseconds of the day as four.
#[derive(Clone, Copy)]
enum Dial {
    Year,
    Month,
    Day,
    DayOfYear,
    Week,
    Weekday,
    Hour,
    Minute,
    Second,
    Fraction,
    Offset,
}

const DIALS: usize = 11;

/// How many parts are varied together: one and those behind it.
const WINDOW: usize = 3;

type Values = &'static [i64];

/// By dial: all the values, and a few of each kind. The first of the few stands where nothing varies.
const VALUES: [(Values, Values); DIALS] = [
    (
        &[
            -5_879_611, -1_000_000, -999_999, -100_000, -99_999, -10_000, -9999, -1000, -999, -100,
            -99, -12, -10, -9, -5, -1, 1, 5, 9, 10, 12, 99, 100, 999, 1000, 2025, 9999, 10_000,
            99_999, 100_000, 999_999, 1_000_000, 5_879_611,
        ],
        &[2025, 7, -7, 1_234_567],
    ),
    (&[1, 2, 3, 4, 5, 6, 7, 8, 9, 10, 11, 12], &[12, 5, 1]),
    (&[1, 2, 9, 10, 11, 12, 20, 29, 30, 31], &[31, 3]),
    (
        &[1, 5, 9, 10, 11, 45, 99, 100, 101, 345, 365, 366],
        &[345, 45, 5],
    ),
    (&[1, 2, 9, 10, 11, 52, 53], &[52, 2]),
    (&[0, 1, 2, 3, 4, 5, 6], &[3, 0]),
    (
        &[0, 1, 5, 9, 10, 11, 12, 13, 19, 20, 21, 22, 23],
        &[22, 9, 12, 0],
    ),
    (&[0, 1, 5, 9, 10, 11, 30, 59], &[45, 5, 0]),
    (&[0, 1, 7, 9, 10, 11, 30, 59], &[38, 7, 0]),
    (
        &[
            0,
            1,
            120_003,
            90_000_000,
            100_000_000,
            123_456_789,
            999_999_999,
        ],
        &[987_654_321, 0],
    ),
    (
        &[
            0, 1, -1, 30, -30, 59, -59, 60, -60, 3599, -3599, 3600, -3600, 3605, -3605, 19_800,
            -19_800, 36_000, 35_999, -45_296, 86_340, 86_399, -86_399,
        ],
        &[3723, 3600, -19_800, -45, 0],
    ),
];

/// The records that vary the part and those behind it.
pub fn around(parts: &Parts, part: usize) -> impl Iterator<Item = Fields> {
    let end = parts.count().min(part + WINDOW);
    let dials: Vec<&'static [Dial]> = (part..end).map(|part| dials_of(parts.run(part))).collect();
    (0..dials.len()).flat_map(move |whole| combinations(choices(&dials, whole)))
}

/// A few values for every dial of these parts, all for the one part's own.
fn choices(dials: &[&'static [Dial]], whole: usize) -> [Values; DIALS] {
    let mut choices = VALUES.map(|(_, few)| &few[..1]);
    for dial in dials.iter().flat_map(|dials| dials.iter()) {
        choices[*dial as usize] = VALUES[*dial as usize].1;
    }
    if let Some(dial) = dials[whole].first() {
        choices[*dial as usize] = VALUES[*dial as usize].0;
    }
    choices
}

fn combinations(choices: [Values; DIALS]) -> impl Iterator<Item = Fields> {
    let count: usize = choices.iter().map(|values| values.len()).product();
    (0..count).map(move |mut number| {
        let settings = choices.map(|values| {
            let value = values[number % values.len()];
            number /= values.len();
            value
        });
        fields(&settings)
    })
}

fn fields(settings: &[i64; DIALS]) -> Fields {
    let at = |dial: Dial| settings[dial as usize];
    let second = at(Dial::Hour) * 3600 + at(Dial::Minute) * 60 + at(Dial::Second);
    Fields {
        year: at(Dial::Year) as i32,
        month: at(Dial::Month) as u32,
        day: at(Dial::Day) as u32,
        day_of_year: at(Dial::DayOfYear) as u32,
        week: at(Dial::Week) as u32,
        weekday: at(Dial::Weekday) as u32,
        nanoseconds: (second * 1_000_000_000 + at(Dial::Fraction)) as u64,
        offset: at(Dial::Offset) as i32,
    }
}

/// What a run writes of, the dial that it goes through first.
fn dials_of(run: Option<(u8, usize)>) -> &'static [Dial] {
    match run.map_or(0, |(byte, _)| byte) {
        b'G' | b'y' => &[Dial::Year],
        b'q' | b'M' => &[Dial::Month],
        b'w' => &[Dial::Week],
        b'd' => &[Dial::Day],
        b'D' => &[Dial::DayOfYear],
        b'e' => &[Dial::Weekday],
        b'a' | b'h' | b'H' | b'K' | b'k' => &[Dial::Hour],
        b'b' => &[Dial::Hour, Dial::Minute, Dial::Second],
        b'm' => &[Dial::Minute],
        b's' => &[Dial::Second],
        b'n' => &[Dial::Fraction],
        b'X' | b'x' => &[Dial::Offset],
        _ => &[],
    }
}
