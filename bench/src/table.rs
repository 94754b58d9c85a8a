//! The tables, as lines of text.

use crate::measure::{Growth, Line};
use crate::rows::Row;

/// The first contender, then for each other one the nanoseconds and how many times the first one's that is.
pub fn comparison(title: &str, names: &[&str], lines: &[Line]) -> String {
    let headings = (0..names.len()).map(|number| columns(number, names[number], ' ', "times"));
    let mut table = format!("{title}, ns a call, and how many times {}\n", names[0]);
    table += &table_row("pattern", headings);
    for line in lines {
        table += &table_row(&line.label, (0..names.len()).map(|number| cell(line, number)));
    }
    table
}

pub fn table_row(label: &str, cells: impl Iterator<Item = String>) -> String {
    let row = format!("{label:35}") + &cells.collect::<String>();
    row.trim_end().to_string() + "\n"
}

fn cell(line: &Line, number: usize) -> String {
    match line.timings[number] {
        None => columns(number, "-", ' ', ""),
        Some(timing) => {
            let mark = if line.same[number] { ' ' } else { '*' };
            let (nanos, ratio) = (format!("{:.1}", timing.nanos), format!("x{:.2}", timing.ratio));
            columns(number, &nanos, mark, &ratio)
        }
    }
}

/// The columns of a contender: nanoseconds with a mark behind them and, but for ours, the ratio.
pub fn columns(number: usize, nanos: &str, mark: char, ratio: &str) -> String {
    match number {
        0 => format!("{nanos:>9}{mark}"),
        _ => format!("{nanos:>10}{mark}{ratio:>7}"),
    }
}

/// What the marked texts differ in, and what stands between the contenders otherwise.
pub fn notes(rows: &[Row]) -> String {
    let mut notes = String::new();
    for row in rows.iter().filter(|row| !row.note.is_empty()) {
        notes += &format!("note on {}: {}\n", row.pattern, row.note);
    }
    notes
}

/// How a contender stands against ours, the first, over all rows: the row at which it is nearest.
pub fn standing(names: &[&str], name: &str, wanted: f64, what: &str, lines: &[Line]) -> String {
    let number = names
        .iter()
        .position(|known| *known == name)
        .expect("a contender's name");
    let ratio = |line: &&Line| line.timings[number].map_or(f64::INFINITY, |timing| timing.ratio);
    let there: Vec<&Line> = lines.iter().filter(|line| line.timings[number].is_some()).collect();
    let held = there.iter().filter(|line| wanted <= ratio(line)).count();
    let Some(nearest) = there.iter().min_by(|a, b| ratio(a).total_cmp(&ratio(b))) else {
        return String::new();
    };
    format!(
        "{what}: {name} takes at least {wanted} times {} on {held} of {} patterns; least x{:.2}, {}\n",
        names[0],
        there.len(),
        ratio(nearest),
        nearest.label
    )
}

pub fn checks(patterns: &[String], nanos: &[f64]) -> String {
    let cells = patterns
        .iter()
        .zip(nanos)
        .map(|(pattern, nanos)| format!("{} bytes {nanos:.1} ns", pattern.len()));
    format!("The check of ours: {}\n", cells.collect::<Vec<_>>().join(", "))
}

pub fn growths(growths: &[Growth]) -> String {
    let mut table = "Growth of ours with the pattern, ns a call\nbytes      write      read     check\n".to_string();
    for growth in growths {
        table += &format!(
            "{:5}{:11.1}{:10.1}{:10.1}\n",
            growth.length, growth.write, growth.read, growth.check
        );
    }
    table
}
