//! Imports a list of dates, one a line: import_list PATTERN LIST.txt
//!
//! Prints a table with a row for each line of the file, as `arrivals.txt` beside this is one for the pattern `d MMM yyyy`; the
//! pattern has a day, a month and a year. Literals are compared. A line that is refused is marked, with the reason in a sentence,
//! and spoils no other; so is a day that is not there.

use sheet::{Book, Choices, Columns, Line, Refusal};
use std::process::ExitCode;
use std::time::{SystemTime, UNIX_EPOCH};
use std::{env, fs};

const STRICT: Choices = Choices::new().strict();
const DAY: u64 = 86_400;

fn main() -> ExitCode {
    let words: Vec<String> = env::args().skip(1).collect();
    let [pattern, file] = &words[..] else {
        eprintln!("usage: import_list PATTERN LIST.txt");
        return ExitCode::from(2);
    };
    let list = fs::read(file).map_err(|error| format!("{file}: {error}"));
    match list.and_then(|list| table(pattern, &list, current_year()).map_err(|refusal| refusal.to_string())) {
        Ok(table) => {
            print!("{table}");
            ExitCode::SUCCESS
        }
        Err(sentence) => {
            eprintln!("import_list: {sentence}");
            ExitCode::FAILURE
        }
    }
}

/// By the clock.
fn current_year() -> i32 {
    let first = sheet::day_number(1970, 1, 1).expect("there is such a day");
    let since = SystemTime::now().duration_since(UNIX_EPOCH).unwrap_or_default();
    sheet::day_of(first + (since.as_secs() / DAY) as i32).year
}

/// The table of a list; refused where the pattern is.
pub fn table(pattern: &str, list: &[u8], current_year: i32) -> Result<String, Refusal> {
    let list = without_carriage_returns(list);
    let columns = sheet::read_list_by(STRICT, Book::english(), pattern, &list, current_year)?;
    let mut table = "line   year  month  day\n".to_string();
    let mut marked = 0;
    for line in sheet::lines_by(STRICT, Book::english(), pattern, &list, current_year) {
        let reason = reason(pattern, &line, &columns);
        marked += usize::from(reason.is_some());
        let cells = reason.map_or_else(|| cells(&columns, line.number), |reason| format!("! {reason}"));
        table += &format!("{:4} {cells}\n", line.number + 1);
    }
    table += &format!("{} lines, {marked} without a date\n", columns.len());
    Ok(table)
}

/// A carriage return belongs to its line, and a strict reading would find it left over.
fn without_carriage_returns(list: &[u8]) -> Vec<u8> {
    let lines = list.split(|byte| *byte == b'\n');
    let lines: Vec<&[u8]> = lines.map(|line| line.strip_suffix(b"\r").unwrap_or(line)).collect();
    lines.join(&b'\n')
}

/// Why a line has no date.
fn reason(pattern: &str, line: &Line, columns: &Columns) -> Option<String> {
    let place = line.number;
    match &line.answer {
        Err(refusal) => Some(sheet::explain_by(STRICT, Book::english(), pattern, line.text, refusal)),
        Ok(_) => {
            let day = (
                columns.years[place],
                columns.months[place] as u32,
                columns.days[place] as u32,
            );
            sheet::day_number(day.0, day.1, day.2)
                .err()
                .map(|refusal| refusal.to_string())
        }
    }
}

fn cells(columns: &Columns, place: usize) -> String {
    format!(
        "{:6} {:6} {:4}",
        columns.years[place], columns.months[place], columns.days[place]
    )
}
