//! The benchmark: ours beside the Rust, glibc, ICU and, for days and stamps, chrono, time and java.time, in one run on the machine that it was built on;
//! ours with a name book beside ours without; whole lists beside loops; and prepared patterns beside direct ones and those of others.
#![cfg_attr(not(icu), allow(dead_code))]

mod agreement;
mod books;
mod contender;
mod days;
mod glibc;
#[cfg(hand)]
mod hand;
#[cfg(icu)]
mod icu;
mod java;
mod lists;
mod machine;
mod measure;
#[cfg(others)]
mod others;
mod ours;
#[cfg(others)]
mod peers;
mod plot;
mod prepared;
mod prepared_stack;
mod preparing;
mod records;
mod rows;
mod rust;
mod stack;
mod stamps;
mod table;
mod timing;

use books::ByBook;
use contender::Contender;
use measure::{Line, Op, NAMES};
use ours::Ours;
use plot::Panel;
use prepared::Prepared;
use records::{records, Record};
use rows::Row;
use std::env::args;
use std::fs;
use std::process::ExitCode;

const USAGE: &str =
    "usage: bench PICTURE.svg\n       bench calls CONTENDER write|read|check|prepare ROW CALLS\n       bench days\n       bench books\n       bench lists\n       bench stamps\n       bench prepared PICTURE.svg\n       bench stack";

fn main() -> ExitCode {
    let words: Vec<String> = args().skip(1).collect();
    let words: Vec<&str> = words.iter().map(String::as_str).collect();
    let outcome = match words[..] {
        ["stack"] => {
            print!("{}", stack::table(&rows::rows(), &records()));
            Ok(())
        }
        ["days"] => days::table().map(|table| print!("{table}")),
        ["books"] => books::table(&records()).map(|table| print!("{table}")),
        ["lists"] => lists::table().map(|table| print!("{table}")),
        ["stamps"] => stamps::table().map(|table| print!("{table}")),
        ["prepared", picture] => preparing::run(picture),
        [picture] => run(picture),
        ["calls", contender, op, row, calls] => only_calls(contender, op, row, calls),
        _ => Err(USAGE.to_string()),
    };
    match outcome {
        Ok(()) => ExitCode::SUCCESS,
        Err(why) => {
            eprintln!("bench: {why}");
            ExitCode::FAILURE
        }
    }
}

/// Everything: agreement first, then the tables and the picture.
fn run(picture: &str) -> Result<(), String> {
    let (rows, records) = (rows::rows(), records());
    agreed(&rows, &records)?;
    let machine_and_day = machine::machine_and_day();
    println!("{machine_and_day}\n");
    if cfg!(not(icu)) {
        println!("ICU is left out: pkg-config finds no icu-i18n\n");
    }
    let lines = |op| -> Vec<Line> {
        rows.iter()
            .map(|row| measure::compared(op, &NAMES, row, &records))
            .collect()
    };
    let (written, read) = (lines(Op::Write), lines(Op::Read));
    println!("{}", table::comparison("Writing", &NAMES, &written));
    println!("{}", table::comparison("Reading", &NAMES, &read));
    println!("{}", table::notes(&rows));
    print!("{}", table::standing(&NAMES, "Rust", 10.0, "Writing", &written));
    print!("{}", table::standing(&NAMES, "Rust", 7.0, "Reading", &read));
    print!("{}", table::standing(&NAMES, "glibc", 1.0, "Writing", &written));
    println!("{}", table::standing(&NAMES, "glibc", 1.0, "Reading", &read));
    let patterns = rows::checked();
    println!("{}", table::checks(&patterns, &measure::checked(&patterns)));
    let growths = measure::grown(&records);
    println!("{}", table::growths(&growths));
    println!("{}", books::table(&records)?);
    println!("{}", lists::table()?);
    println!("{}", days::table()?);
    println!("{}", stamps::table()?);
    let grown: Vec<(usize, Vec<f64>)> = growths.iter().map(measure::Growth::costs).collect();
    let panels = [
        Panel::Bars {
            title: "Writing",
            names: &NAMES,
            lines: &written,
        },
        Panel::Bars {
            title: "Reading",
            names: &NAMES,
            lines: &read,
        },
        Panel::Curves {
            title: "Growth of ours with the pattern",
            names: &["write", "read", "check"],
            along: "bytes of the pattern",
            by_tens: false,
            costs: &grown,
        },
    ];
    draw(picture, &plot::picture(&machine_and_day, &panels))
}

pub fn draw(picture: &str, svg: &str) -> Result<(), String> {
    fs::write(picture, svg).map_err(|why| format!("{picture}: {why}"))?;
    println!("picture: {picture}");
    Ok(())
}

pub fn agreed(rows: &[Row], records: &[Record]) -> Result<(), String> {
    let patterns = rows.iter().map(|row| row.pattern.clone());
    let grown = rows::LENGTHS.iter().map(|length| rows::stamps(*length));
    match patterns
        .chain(grown)
        .find_map(|pattern| agreement::difference(&pattern, records))
    {
        Some(difference) => Err(format!("{difference}\nnothing is measured")),
        None => match rows::checked()
            .iter()
            .find(|pattern| !ours::says_yes(pattern.as_bytes()))
        {
            Some(pattern) => Err(format!("the check of ours does not say yes to {pattern:?}")),
            None => Ok(()),
        },
    }
}

/// Nothing but calls of one contender at one row, for a profiler to count.
fn only_calls(contender: &str, op: &str, row: &str, calls: &str) -> Result<(), String> {
    let (rows, records) = (rows::rows(), records());
    let row: usize = row.parse().map_err(|_| USAGE)?;
    let calls = calls.parse().map_err(|_| USAGE)?;
    if op == "check" {
        let pattern = rows::checked().into_iter().nth(row).ok_or(USAGE)?;
        match contender {
            "prepared" => prepared::check_calls(&prepared::row_of(&pattern), calls),
            _ => ours::check_calls(pattern.as_bytes(), calls),
        }
        return Ok(());
    }
    if op == "prepare" {
        let pattern = &rows.get(row).ok_or(USAGE)?.pattern;
        prepared::prepare_calls(pattern, &mut prepared::row_of(pattern), calls);
        return Ok(());
    }
    let book = books::opened();
    let mut contender = contender_at(contender, row, &rows, &book, &records).ok_or(USAGE)?;
    match op {
        "write" => contender.write_calls(calls),
        "read" => contender.read_calls(calls),
        _ => return Err(USAGE.to_string()),
    }
    Ok(())
}

/// By its name: at a row of the tables or, behind those, at a pattern with names, where it is ours without a book or with one.
fn contender_at<'a>(
    name: &str,
    row: usize,
    rows: &'a [Row],
    book: &'a [u8],
    records: &'a [Record],
) -> Option<Box<dyn Contender + 'a>> {
    let pattern = match rows.get(row) {
        Some(row) => row.pattern.as_str(),
        None => books::PATTERNS.get(row - rows.len())?,
    };
    match name {
        "book" => Some(Box::new(ByBook::new(book, pattern, records)?)),
        "ours" => Some(Box::new(Ours::new(pattern, records)?)),
        "prepared" => Some(Box::new(Prepared::new(pattern, records)?)),
        _ => measure::contender(name, rows.get(row)?, records),
    }
}
