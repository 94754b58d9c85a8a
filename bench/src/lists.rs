//! A whole list at once, beside the same by a prepared pattern, its lines one by one, a loop over ours and a loop over the Rust, at lists
//! of several lengths.

use crate::books;
use crate::prepared;
use crate::records::CURRENT_YEAR;
use crate::table::{columns, table_row};
use crate::timing::{interleaved, Calls, Timing};
use harness::days::unguarded_day_of;
use harness::generator::Random;
use harness::walk::{self, Pair};
use harness::Fields;
use sheet::raw::{
    self, sheet_prepared_read_list, sheet_read_line, sheet_read_list, LINE_ANSWER, LINE_READING, LIST_ANSWER,
    READ_ANSWER, READ_VALUES,
};
use std::hint::black_box;

const PATTERNS: [&str; 3] = ["yyyy/MM/dd", "d MMM yyyy", "yyyy-MM-dd HH:mm:ss"];

/// Lists of these many lines show that a line costs the same in each.
const LENGTHS: [usize; 3] = [1000, 5000, 20_000];

/// By the order of their columns.
const NAMES: [&str; 5] = ["list", "prepared", "lines", "loop", "Rust"];

const SEED: u64 = 1;
const LAST_OF_9999: i64 = 3_652_058;

/// A list, and the rows that it is read into.
#[derive(Clone)]
struct List {
    pattern: &'static str,
    prepared: Box<prepared::Row>,
    text: String,
    rows: Rows,
}

#[derive(Clone, Debug, PartialEq, Eq)]
struct Rows {
    days: Vec<i32>,
    months: Vec<i32>,
    years: Vec<i32>,
    codes: Vec<u32>,
}

impl Rows {
    /// What a line was read as, by the first three values.
    fn store(&mut self, line: usize, code: u32, values: &[i64]) {
        self.codes[line] = code;
        self.years[line] = values[0] as i32;
        self.months[line] = values[1] as i32;
        self.days[line] = values[2] as i32;
    }
}

impl List {
    /// Random days of the years 1 to 9999, as the Rust writes them, each line with its newline.
    fn of(pattern: &'static str, lines: usize) -> List {
        let mut random = Random::new(SEED);
        let mut text = String::new();
        for _ in 0..lines {
            let fields = fields_of(random.between(0, LAST_OF_9999) as i32);
            text += &walk::write(Pair::Full, pattern, &fields).expect("the Rust writes a day");
            text.push('\n');
        }
        let row = || vec![-1; lines];
        let rows = Rows {
            days: row(),
            months: row(),
            years: row(),
            codes: vec![u32::MAX; lines],
        };
        let prepared = prepared::row_of(pattern);
        List {
            pattern,
            prepared,
            text,
            rows,
        }
    }

    fn at_once(&mut self) {
        let (pattern, text, rows) = (self.pattern.as_bytes(), self.text.as_bytes(), &mut self.rows);
        let mut answer = [0; LIST_ANSWER];
        // SAFETY: each pointer goes with the length of the slice that it comes from, and a book of no bytes may be null.
        unsafe {
            sheet_read_list(
                0,
                std::ptr::null(),
                0,
                pattern.as_ptr(),
                pattern.len(),
                text.as_ptr(),
                text.len(),
                CURRENT_YEAR,
                rows.days.as_mut_ptr(),
                rows.days.len(),
                rows.months.as_mut_ptr(),
                rows.months.len(),
                rows.years.as_mut_ptr(),
                rows.years.len(),
                rows.codes.as_mut_ptr(),
                rows.codes.len(),
                answer.as_mut_ptr(),
                answer.len(),
            )
        };
        black_box(answer);
    }

    fn by_prepared(&mut self) {
        let (prepared, text, rows) = (&self.prepared[..], self.text.as_bytes(), &mut self.rows);
        let mut answer = [0; LIST_ANSWER];
        // SAFETY: as above.
        unsafe {
            sheet_prepared_read_list(
                0,
                std::ptr::null(),
                0,
                prepared.as_ptr(),
                prepared.len(),
                text.as_ptr(),
                text.len(),
                CURRENT_YEAR,
                rows.days.as_mut_ptr(),
                rows.days.len(),
                rows.months.as_mut_ptr(),
                rows.months.len(),
                rows.years.as_mut_ptr(),
                rows.years.len(),
                rows.codes.as_mut_ptr(),
                rows.codes.len(),
                answer.as_mut_ptr(),
                answer.len(),
            )
        };
        black_box(answer);
    }

    fn line_by_line(&mut self) {
        let (pattern, text) = (self.pattern.as_bytes(), self.text.as_bytes());
        let (mut at, mut line) = (0, 0);
        let mut answer = [0; LINE_ANSWER];
        loop {
            // SAFETY: as above.
            let number = unsafe {
                sheet_read_line(
                    0,
                    std::ptr::null(),
                    0,
                    pattern.as_ptr(),
                    pattern.len(),
                    text.as_ptr(),
                    text.len(),
                    at,
                    CURRENT_YEAR,
                    answer.as_mut_ptr(),
                    answer.len(),
                )
            };
            if number == raw::NO_LINE {
                return;
            }
            self.rows.store(line, number, &answer[LINE_READING + READ_VALUES..]);
            (at, line) = (answer[2] as usize, line + 1);
        }
    }

    /// As a caller does it who has the reader of one text alone.
    fn by_reads(&mut self) {
        let mut answer = [0; READ_ANSWER];
        for (line, text) in self.text.lines().enumerate() {
            let number = books::read_into(&[], self.pattern.as_bytes(), text.as_bytes(), &mut answer);
            self.rows.store(line, number, &answer[READ_VALUES..]);
        }
    }

    fn by_the_rust(&mut self) {
        for (line, text) in self.text.lines().enumerate() {
            match walk::read(Pair::Full, self.pattern, text, CURRENT_YEAR) {
                Ok(reading) => self.rows.store(line, 0, &reading.values),
                Err(_) => self.rows.store(line, 1, &[0; 3]),
            }
        }
    }
}

fn fields_of(number: i32) -> Fields {
    let day = unguarded_day_of(number);
    Fields {
        year: day.year,
        month: day.month,
        day: day.day,
        day_of_year: day.day_of_year,
        week: day.week,
        weekday: day.weekday,
        nanoseconds: 0,
        offset: 0,
    }
}

const READERS: [fn(&mut List); 5] = [
    List::at_once,
    List::by_prepared,
    List::line_by_line,
    List::by_reads,
    List::by_the_rust,
];

/// The table, or what does not agree.
pub fn table() -> Result<String, String> {
    let mut table = "Lists, ns a line, and how many times the list at once\n".to_string();
    let headings = NAMES
        .iter()
        .enumerate()
        .map(|(number, name)| columns(number, name, ' ', "times"));
    table += &table_row("", headings);
    for pattern in PATTERNS {
        for lines in LENGTHS {
            table += &row(pattern, lines, &timed(&List::of(pattern, lines))?);
        }
    }
    Ok(table)
}

/// Every reader in turn, after each has left the same rows, with every line read.
fn timed(list: &List) -> Result<Vec<Timing>, String> {
    let mut lists = READERS.map(|_| list.clone());
    for (list, read) in lists.iter_mut().zip(READERS) {
        read(list);
    }
    let all_read = lists[0].rows.codes.iter().all(|code| *code == 0);
    if !all_read || lists.iter().any(|other| other.rows != lists[0].rows) {
        return Err(format!("lists of {:?} differ\nnothing is measured", list.pattern));
    }
    let in_turn = lists.iter_mut().zip(READERS);
    let calls = in_turn.map(|(list, read)| Box::new(move |calls: usize| again(list, read, calls)) as Calls);
    let timings = interleaved(&mut calls.collect::<Vec<_>>());
    Ok(timings)
}

fn again(list: &mut List, read: fn(&mut List), calls: usize) {
    for _ in 0..calls {
        read(black_box(list));
    }
}

fn row(pattern: &str, lines: usize, timings: &[Timing]) -> String {
    let cells = timings.iter().enumerate().map(|(number, timing)| {
        let (nanos, ratio) = (
            format!("{:.1}", timing.nanos / lines as f64),
            format!("x{:.2}", timing.ratio),
        );
        columns(number, &nanos, ' ', &ratio)
    });
    table_row(&format!("{lines:6} of {pattern}"), cells)
}
