//! Holds the Rust's calendar to the harness's own on every number of 32 bits, and prints for each value how many days the Rust has
//! another for, below 0 and from 0 on, with the one that is nearest to 0.

use harness::days::{self, Day};
use harness::gregorian;

const VALUES: [&str; 7] = [
    "year",
    "month",
    "day",
    "day of year",
    "week",
    "weekday",
    "number",
];

/// Of one value on one side of 0.
#[derive(Clone, Copy, Default)]
struct Differing {
    days: u64,
    nearest: Option<i32>,
}

impl Differing {
    fn note(&mut self, number: i32) {
        self.days += 1;
        let is_nearer = |nearest: i32| number.unsigned_abs() < nearest.unsigned_abs();
        if self.nearest.is_none_or(is_nearer) {
            self.nearest = Some(number);
        }
    }
}

/// In the order of `VALUES`; the last is 0 where the day has its number again, and no day has it where the Rust gives none.
fn values(day: &Day, back: i64) -> [i64; VALUES.len()] {
    let [month, of_month, of_year, week, weekday] =
        [day.month, day.day, day.day_of_year, day.week, day.weekday].map(i64::from);
    [
        day.year.into(),
        month,
        of_month,
        of_year,
        week,
        weekday,
        back,
    ]
}

fn by_the_rust(number: i32) -> [i64; VALUES.len()] {
    let day = days::day_of(number).expect("the Rust does not panic");
    let right = gregorian::day_of(number);
    let back = days::day_number(right.year, right.month, right.day);
    values(
        &day,
        back.map_or(i64::MAX, |back| i64::from(back) - i64::from(number)),
    )
}

fn main() {
    let mut differing = [[Differing::default(); 2]; VALUES.len()];
    for number in i32::MIN..=i32::MAX {
        let right = values(&gregorian::day_of(number), 0);
        let rust = by_the_rust(number);
        if rust == right {
            continue;
        }
        let side = usize::from(number >= 0);
        for (value, row) in differing.iter_mut().enumerate() {
            if rust[value] != right[value] {
                row[side].note(number);
            }
        }
    }
    for (value, row) in VALUES.iter().zip(differing) {
        for (side, found) in ["below 0", "from 0 on"].iter().zip(row) {
            let nearest = found
                .nearest
                .map_or(String::new(), |number| format!(", nearest {number}"));
            println!("{value:<12} {side:<10} {:>10} days{nearest}", found.days);
        }
    }
}
