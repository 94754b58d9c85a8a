//! Prepared patterns: beside ours that splits its pattern at each call, the Rust, glibc, and the prepared patterns of others; what
//! preparing costs and when it pays; the growth with the pattern and with the records.

use crate::contender::Contender;
use crate::measure::{self, calls_of, nanos, Line, Op};
use crate::ours::{self, Ours};
use crate::plot::{self, Panel};
use crate::prepared::{self, Prepared};
use crate::records::{records, Record};
use crate::rows::{self, Row};
use crate::table;
use crate::timing::{interleaved, Calls};
use crate::{agreed, draw, machine};
use std::mem::size_of;

/// By the order of their columns.
const NAMES: [&str; 9] = [
    "prepared", "direct", "Rust", "glibc", "ICU", "chrono", "time", "C, all", "C, bare",
];

/// What each is wanted to take of the time of prepared ones, at least.
const WANTED: [(&str, f64); 6] = [
    ("direct", 2.0),
    ("glibc", 1.0),
    ("ICU", 1.0),
    ("chrono", 1.0),
    ("time", 1.0),
    ("C, all", 0.33),
];

/// So many records are written or read by one pattern, which is prepared for them.
const COUNTS: [usize; 5] = [1, 3, 10, 100, 1000];

/// Every table and the picture.
pub fn run(picture: &str) -> Result<(), String> {
    let (rows, records) = (rows::rows(), records());
    agreed(&rows, &records)?;
    same_as_direct(&rows, &records)?;
    let machine_and_day = machine::machine_and_day();
    println!("{machine_and_day}\n");
    let written = compared("Writing", Op::Write, &rows, &records);
    let read = compared("Reading", Op::Read, &rows, &records);
    println!("{}", table::notes(&rows));
    println!("{}", checks());
    println!("{}", preparing(&rows, &written, &read));
    let grown = grown(&records);
    println!("{}", growth_table(&grown));
    let by_count = by_count(&rows[2], &records);
    println!("{}", count_table(&rows[2], &by_count));
    let panels = [
        Panel::Bars {
            title: "Writing",
            names: &NAMES,
            lines: &written,
        },
        Panel::Bars {
            title: "Reading",
            names: &NAMES,
            lines: &read,
        },
        Panel::Curves {
            title: "Growth with the pattern",
            names: &GROWTHS,
            along: "bytes of the pattern",
            by_tens: false,
            costs: &grown,
        },
        Panel::Curves {
            title: "A record, preparing included",
            names: &WAYS,
            along: "records by one pattern",
            by_tens: true,
            costs: &by_count,
        },
    ];
    draw(picture, &plot::picture(&machine_and_day, &panels))
}

/// Nothing is measured unless a prepared pattern gives the texts, the readings and the verdict of the direct one.
fn same_as_direct(rows: &[Row], records: &[Record]) -> Result<(), String> {
    let grown = rows::LENGTHS.map(rows::stamps);
    for pattern in rows.iter().map(|row| &row.pattern).chain(&grown) {
        let differs = || format!("prepared and direct differ at {pattern:?}\nnothing is measured");
        let mut ours = Ours::new(pattern, records).ok_or_else(differs)?;
        let mut prepared = Prepared::new(pattern, records).ok_or_else(differs)?;
        for record in 0..records.len() {
            let text = ours.text(record).ok_or_else(differs)?;
            let same_reading = prepared.reading(record) == ours::read(pattern.as_bytes(), &text);
            if prepared.text(record) != Some(text) || !same_reading {
                return Err(differs());
            }
        }
    }
    match rows::checked()
        .iter()
        .find(|pattern| !prepared::says_yes(&prepared::row_of(pattern)))
    {
        Some(pattern) => Err(format!(
            "the check of a prepared pattern does not say yes to {pattern:?}"
        )),
        None => Ok(()),
    }
}

/// A table, and how the others stand in it.
fn compared(title: &str, op: Op, rows: &[Row], records: &[Record]) -> Vec<Line> {
    let lines: Vec<Line> = rows
        .iter()
        .map(|row| measure::compared(op, &NAMES, row, records))
        .collect();
    println!("{}", table::comparison(title, &NAMES, &lines));
    for (name, wanted) in WANTED {
        print!("{}", table::standing(&NAMES, name, wanted, title, &lines));
    }
    println!();
    lines
}

/// The check by the pattern, and by the prepared one.
fn checks() -> String {
    let mut table = "The check, ns: bytes, direct, prepared\n".to_string();
    for pattern in rows::checked() {
        let row = prepared::row_of(&pattern);
        let mut calls: [Calls; 2] = [
            Box::new(|calls| ours::check_calls(pattern.as_bytes(), calls)),
            Box::new(|calls| prepared::check_calls(&row, calls)),
        ];
        let [direct, prepared] = nanos(interleaved(&mut calls))[..] else {
            continue;
        };
        table += &format!("{:5}{direct:11.1}{prepared:10.1}\n", pattern.len());
    }
    table
}

/// What preparing costs, and with which call it pays.
fn preparing(rows: &[Row], written: &[Line], read: &[Line]) -> String {
    let mut held: Vec<Box<prepared::Row>> = rows.iter().map(|row| prepared::row_of(&row.pattern)).collect();
    let mut calls: Vec<Calls> = rows
        .iter()
        .zip(&mut held)
        .map(|(row, held)| Box::new(|calls| prepared::prepare_calls(&row.pattern, held, calls)) as Calls)
        .collect();
    let costs = nanos(interleaved(&mut calls));
    let mut table = format!(
        "Preparing, ns, and with which write and which read it has paid; a prepared pattern has {} bytes\n",
        size_of::<prepared::Row>()
    );
    for (number, cost) in costs.iter().enumerate() {
        let label = &rows[number].label;
        let [write, read] = [written, read].map(|lines| paid(*cost, &lines[number]));
        table += &format!("{label:35}{cost:9.1}{write:>8}{read:>8}\n");
    }
    table
}

/// The first call with which the time of preparing and of the prepared calls is no more than that of the direct ones.
fn paid(cost: f64, line: &Line) -> String {
    let timing = |name: &str| {
        let number = NAMES.iter().position(|known| *known == name)?;
        line.timings[number].map(|timing| timing.nanos)
    };
    match timing("direct").zip(timing("prepared")) {
        Some((direct, prepared)) if prepared < direct => format!("{:.0}.", (cost / (direct - prepared)).ceil()),
        _ => "never".to_string(),
    }
}

/// Prepared writing, reading and checking, and preparing itself.
const GROWTHS: [&str; 4] = ["write", "read", "check", "prepare"];

/// At patterns of every length.
fn grown(records: &[Record]) -> Vec<(usize, Vec<f64>)> {
    let patterns = rows::LENGTHS.map(rows::stamps);
    let timed = |op| -> Vec<f64> {
        let prepared = |pattern| Prepared::new(pattern, records).expect("agreed with the direct ones before");
        let mut prepared: Vec<Prepared> = patterns.iter().map(|pattern| prepared(pattern)).collect();
        let mut calls: Vec<Calls> = prepared.iter_mut().map(|prepared| calls_of(op, prepared)).collect();
        nanos(interleaved(&mut calls))
    };
    let of_rows = |calls: fn(&str, &mut prepared::Row, usize)| -> Vec<f64> {
        let mut rows: Vec<Box<prepared::Row>> = patterns.iter().map(|pattern| prepared::row_of(pattern)).collect();
        let each = patterns.iter().zip(&mut rows);
        let mut all: Vec<Calls> = each
            .map(|(pattern, row)| Box::new(move |count| calls(pattern, row, count)) as Calls)
            .collect();
        nanos(interleaved(&mut all))
    };
    let (write, read) = (timed(Op::Write), timed(Op::Read));
    let check = of_rows(|_, row, calls| prepared::check_calls(row, calls));
    let prepare = of_rows(prepared::prepare_calls);
    (0..patterns.len())
        .map(|number| {
            let costs = vec![write[number], read[number], check[number], prepare[number]];
            (rows::LENGTHS[number], costs)
        })
        .collect()
}

fn growth_table(grown: &[(usize, Vec<f64>)]) -> String {
    let mut table =
        "Growth of prepared patterns, ns a call\nbytes      write      read     check   prepare\n".to_string();
    for (length, costs) in grown {
        let costs: String = costs.iter().map(|cost| format!("{cost:10.1}")).collect();
        table += &format!("{length:5} {costs}\n");
    }
    table
}

/// Preparing and then so many writes, and reads, and the same without preparing.
const WAYS: [&str; 4] = ["write", "read", "direct write", "direct read"];

/// At each number of records, ns a record.
fn by_count(row: &Row, records: &[Record]) -> Vec<(usize, Vec<f64>)> {
    let ours = || Ours::new(&row.pattern, records).expect("agreed with the Rust before");
    let prepared = || Prepared::new(&row.pattern, records).expect("agreed with the direct ones before");
    let (mut to_write, mut to_read, mut direct) = (prepared(), prepared(), [ours(), ours()]);
    COUNTS
        .map(|count| {
            let [writer, reader] = &mut direct;
            let mut calls: [Calls; 4] = [
                Box::new(|calls| each_prepared(&mut to_write, calls, |one| one.write_calls(count))),
                Box::new(|calls| each_prepared(&mut to_read, calls, |one| one.read_calls(count))),
                Box::new(|calls| (0..calls).for_each(|_| writer.write_calls(count))),
                Box::new(|calls| (0..calls).for_each(|_| reader.read_calls(count))),
            ];
            let costs = nanos(interleaved(&mut calls));
            (count, costs.iter().map(|cost| cost / count as f64).collect())
        })
        .to_vec()
}

fn each_prepared(prepared: &mut Prepared, calls: usize, uses: impl Fn(&mut Prepared)) {
    for _ in 0..calls {
        prepared.prepare();
        uses(prepared);
    }
}

fn count_table(row: &Row, by_count: &[(usize, Vec<f64>)]) -> String {
    let mut table = format!(
        "Records by one pattern, {}, ns a record, preparing included\nrecords     write      read  direct write  direct read\n",
        row.label
    );
    for (count, costs) in by_count {
        table += &format!(
            "{count:7}{:10.1}{:10.1}{:14.1}{:13.1}\n",
            costs[0], costs[1], costs[2], costs[3]
        );
    }
    table
}
