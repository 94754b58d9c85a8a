//! Days and their numbers: ours beside the Rust, chrono, time and java.time, on the same random days of the years 1 to 9999.

use crate::java;
#[cfg(others)]
use crate::others;
use crate::table::{columns, table_row};
use crate::timing::{interleaved, Calls, Timing};
use harness::days as rust;
use harness::generator::Random;
use sheet::raw;
use std::hint::black_box;

/// More days than a processor learns the branches of.
pub const COUNT: usize = 1 << 16;
pub const SEED: u64 = 1;
const LAST_OF_9999: i64 = 3_652_058;

/// A day as it is asked for.
#[repr(C)]
#[derive(Clone, Copy)]
pub struct Ymd {
    pub year: i32,
    pub month: u32,
    pub day: u32,
}

/// The sum over days, of all that is answered of each; and who gives it.
type Sum<T> = fn(&[T]) -> u64;
type By<T> = (&'static str, Sum<T>);

struct Contender {
    name: &'static str,
    days: Sum<i32>,
    numbers: Sum<Ymd>,
}

/// A line of the table: by contender, ours first.
struct Line {
    op: &'static str,
    cells: Vec<(String, Timing)>,
}

/// The six values of a day in one word.
fn folded([year, month, day, day_of_year, week, weekday]: [u64; 6]) -> u64 {
    year ^ month << 32 ^ day << 36 ^ day_of_year << 41 ^ week << 50 ^ weekday << 56
}

fn sum<T>(all: &[T], mut word: impl FnMut(&T) -> u64) -> u64 {
    all.iter().fold(0, |sum: u64, one| sum.wrapping_add(word(one)))
}

/// Through the functions for C, into one lent row.
fn our_days(numbers: &[i32]) -> u64 {
    let mut row = [0; raw::DAY_ANSWER];
    sum(numbers, |number| {
        // SAFETY: the pointer goes with the length of the row that it comes from.
        unsafe { raw::sheet_day(*number, row.as_mut_ptr(), row.len()) };
        folded(row.map(|entry| entry as u64))
    })
}

fn our_numbers(dates: &[Ymd]) -> u64 {
    let mut row = [0; raw::DAY_NUMBER_ANSWER];
    sum(dates, |date| {
        // SAFETY: the pointer goes with the length of the row that it comes from.
        unsafe { raw::sheet_day_number(date.year, date.month, date.day, row.as_mut_ptr(), row.len()) };
        row[0] as u64
    })
}

fn rust_days(numbers: &[i32]) -> u64 {
    sum(numbers, |number| {
        let day = rust::unguarded_day_of(*number);
        let [month, of_month, of_year, week, weekday] =
            [day.month, day.day, day.day_of_year, day.week, day.weekday].map(u64::from);
        folded([day.year as u64, month, of_month, of_year, week, weekday])
    })
}

fn rust_numbers(dates: &[Ymd]) -> u64 {
    sum(dates, |date| {
        let number = rust::unguarded_day_number(date.year, date.month, date.day);
        number.expect("there is such a day") as u64
    })
}

fn contenders() -> Vec<Contender> {
    let of = |name, days, numbers| Contender { name, days, numbers };
    let both = [of("ours", our_days, our_numbers), of("Rust", rust_days, rust_numbers)];
    #[cfg(others)]
    let more = [
        of("chrono", others::chrono_by_slices, others::chrono_of_slices),
        of("time", others::time_by_slices, others::time_of_slices),
    ];
    #[cfg(not(others))]
    let more = [];
    both.into_iter().chain(more).collect()
}

fn days() -> Vec<i32> {
    let mut random = Random::new(SEED);
    (0..COUNT).map(|_| random.between(0, LAST_OF_9999) as i32).collect()
}

fn dates(days: &[i32]) -> Vec<Ymd> {
    let date = |number: &i32| {
        let day = rust::unguarded_day_of(*number);
        Ymd {
            year: day.year,
            month: day.month,
            day: day.day,
        }
    };
    days.iter().map(date).collect()
}

/// So many calls at a time, around the table and around again.
fn around<'a, T>(table: &'a [T], sum_of: Sum<T>) -> Calls<'a> {
    let mut place = 0;
    Box::new(move |calls| {
        let mut left = calls;
        while left > 0 {
            let now = left.min(table.len() - place);
            black_box(sum_of(black_box(&table[place..place + now])));
            place = (place + now) % table.len();
            left -= now;
        }
    })
}

/// All of one op in turn, after each has given the sum of the first.
fn compared<T>(op: &'static str, table: &[T], by: &[By<T>], java: &[java::Told]) -> Result<Line, String> {
    let right = by[0].1(table);
    let told = java.iter().find(|told| told.op == op);
    let sums = by.iter().map(|(name, sum_of)| (*name, sum_of(table)));
    let sums = sums.chain(told.map(|told| (java::NAME, told.sum)));
    if let Some((name, sum)) = sums.into_iter().find(|(_, sum)| *sum != right) {
        return Err(format!(
            "{op}: the sum of {name} is {sum}, that of ours {right}\nnothing is measured"
        ));
    }
    let mut calls: Vec<Calls> = by.iter().map(|(_, sum_of)| around(table, *sum_of)).collect();
    let timings = interleaved(&mut calls);
    let ours = timings[0].nanos;
    let names = by.iter().map(|(name, _)| name.to_string());
    let of_java = told.map(|told| {
        let (nanos, ratio) = (told.nanos, told.nanos / ours);
        (java::NAME.to_string(), Timing { nanos, ratio })
    });
    let cells = names.zip(timings).chain(of_java).collect();
    Ok(Line { op, cells })
}

/// The table, or what does not agree.
pub fn table() -> Result<String, String> {
    let days = days();
    let dates = dates(&days);
    let java = java::told("Days", SEED, COUNT);
    let by = contenders();
    let of_days: Vec<By<i32>> = by.iter().map(|one| (one.name, one.days)).collect();
    let of_numbers: Vec<By<Ymd>> = by.iter().map(|one| (one.name, one.numbers)).collect();
    let lines = [
        compared("day_of", &days, &of_days, &java)?,
        compared("day_number", &dates, &of_numbers, &java)?,
    ];
    Ok(printed(&lines))
}

fn printed(lines: &[Line]) -> String {
    let mut table = "Days and their numbers, ns a call, and how many times ours\n".to_string();
    let names = lines[0].cells.iter().map(|(name, _)| name);
    let headings = names
        .enumerate()
        .map(|(number, name)| columns(number, name, ' ', "x ours"));
    table += &table_row("", headings);
    for line in lines {
        let cells = line.cells.iter().enumerate().map(|(number, (_, timing))| {
            let (nanos, ratio) = (format!("{:.2}", timing.nanos), format!("x{:.2}", timing.ratio));
            columns(number, &nanos, ' ', &ratio)
        });
        table += &table_row(line.op, cells);
    }
    table + &left_out()
}

/// Who is there, by version, and who is not.
fn left_out() -> String {
    match option_env!("OTHERS_VERSIONS") {
        Some(versions) if cfg!(others) => format!("{versions}\n"),
        _ => "chrono and time are left out: their sources are not there\n".to_string(),
    }
}
