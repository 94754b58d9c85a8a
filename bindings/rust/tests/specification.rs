//! The samples in the tables of docs/SPECIFICATION.md, each put to the library.

use sheet::{Book, Choices, Columns, Day, Edition, Fields, ParseUnit, Reading, Refusal, Stamp, Verdict};

const SPECIFICATION: &str = include_str!("../../../docs/SPECIFICATION.md");

/// The specification's R.
const R: Fields = Fields {
    year: 2025,
    month: 12,
    day: 3,
    day_of_year: 337,
    week: 49,
    weekday: 3,
    nanoseconds: 25_509_000_120_000,
    offset: 19_800,
};

/// In words, in the order of the units.
const UNITS: [&str; ParseUnit::ALL.len()] = [
    "year",
    "month",
    "day",
    "day of year",
    "hour",
    "period",
    "hour of the period",
    "minute",
    "second",
    "decis",
    "centis",
    "millis",
    "micros",
    "nanos",
    "offset",
];

/// A table: the heading that it stands under, the names of its columns, its rows.
struct Table<'a> {
    heading: &'a str,
    columns: Vec<&'a str>,
    rows: Vec<Vec<&'a str>>,
}

fn cells(line: &str) -> Vec<&str> {
    line.trim_matches('|').split('|').map(str::trim).collect()
}

fn tables(document: &str) -> Vec<Table<'_>> {
    let (mut found, mut heading, mut before): (Vec<Table>, _, _) = (Vec::new(), "", "");
    for line in document.lines() {
        if line.starts_with("|---") {
            let (columns, rows) = (cells(before), Vec::new());
            found.push(Table { heading, columns, rows });
        } else if line.starts_with('|') && before.starts_with('|') {
            found
                .last_mut()
                .expect("a row stands behind its columns")
                .rows
                .push(cells(line));
        } else if line.starts_with('#') {
            heading = line.trim_start_matches('#');
        }
        before = line;
    }
    found
}

/// What stands between the first two backticks, so many times as is said; nothing where that is said.
fn quoted(cell: &str) -> String {
    let text = cell.split('`').nth(1).unwrap_or_else(|| {
        assert_eq!(cell, "(empty)");
        ""
    });
    let times = cell.split(" times ").next().and_then(|times| times.parse().ok());
    text.repeat(times.unwrap_or(1))
}

fn number(cell: &str) -> i32 {
    cell.replace(',', "").parse().expect("a number")
}

/// Of `1, 2, 3` these counts; of `6 up` some from 6 on.
fn counts(cell: &str) -> Vec<usize> {
    let count = |word: &str| word.parse().expect("a count");
    cell.split(", ")
        .flat_map(|word| match word.strip_suffix(" up") {
            Some(first) => vec![count(first), count(first) + 1, 31],
            None => vec![count(word)],
        })
        .collect()
}

/// The symbols that a heading names: its words of one letter.
fn symbols(heading: &str) -> Vec<&str> {
    let words = heading.split(|letter: char| !letter.is_alphabetic());
    words.filter(|word| word.len() == 1).collect()
}

/// The counts that a sample is for, and the sample without their mention.
fn at_count<'a>(cell: &'a str, row: &str) -> (Vec<usize>, &'a str) {
    match cell.strip_prefix("at ").and_then(|rest| rest.split_once(' ')) {
        Some((count, sample)) => (counts(count), sample),
        None => (counts(row), cell),
    }
}

fn refused(refusal: Refusal) -> String {
    let details = refusal.details().iter().map(|detail| format!(" {detail}"));
    format!("refused {}{}", refusal.number(), details.collect::<String>())
}

fn written(pattern: &str, fields: &Fields) -> String {
    sheet::write(pattern, fields).map_or_else(refused, |text| match pattern.len() {
        256 => format!("256 times `{}`", &text[..1]),
        _ => format!("`{text}`"),
    })
}

fn left(text: &str, reading: &Reading) -> String {
    match &text[reading.taken..] {
        "" => String::new(),
        rest => format!(", `{rest}` is left"),
    }
}

/// The values that were read, in the order of the units.
fn values(reading: &Reading) -> impl Iterator<Item = (&'static str, i64)> + '_ {
    let named = UNITS.iter().zip(ParseUnit::ALL);
    named.filter_map(|(name, unit)| Some((*name, reading.value(unit)?)))
}

/// The value alone.
fn value_read(pattern: &str, text: &str, year: i32) -> String {
    sheet::read(pattern, text, year).map_or_else(refused, |reading| {
        let value = values(&reading)
            .next()
            .map_or("nothing".to_string(), |(_, value)| value.to_string());
        format!("{value}{}", left(text, &reading))
    })
}

/// The value with its unit.
fn unit_read(pattern: &str, text: &str) -> String {
    sheet::read(pattern, text, 2025).map_or_else(refused, |reading| {
        let value: Vec<_> = values(&reading)
            .map(|(name, value)| format!("{name} {value}"))
            .collect();
        format!("{}{}", value.join(", "), left(text, &reading))
    })
}

/// The bytes read, the mask, the number of units; and the values in the order of the sample's.
fn all_read(choices: Choices, pattern: &str, text: &str, year: i32, sample: &str) -> String {
    let counted = |number: usize, word: &str| format!("{number} {word}{}", if number == 1 { "" } else { "s" });
    sheet::read_with(choices, pattern, text, year).map_or_else(refused, |reading| {
        let mut read: Vec<_> = values(&reading)
            .map(|(name, value)| format!("{name} {value}"))
            .collect();
        read.sort_by_key(|value| sample.split([':', ',']).position(|word| word.trim() == value));
        format!(
            "{}, mask {}, {}{}{}",
            counted(reading.taken, "byte"),
            reading.mask,
            counted(reading.units as usize, "unit"),
            if read.is_empty() { "" } else { ": " },
            read.join(", ")
        )
    })
}

/// Where the part of a unit began and ended.
fn span_read(choices: Choices, pattern: &str, text: &str, unit: &str) -> String {
    let place = UNITS.iter().position(|name| *name == unit).expect("the name of a unit");
    sheet::read_with(choices, pattern, text, 2025).map_or_else(refused, |reading| {
        format!("{} to {}", reading.starts[place], reading.ends[place])
    })
}

fn checked(pattern: &str) -> String {
    checked_with(Edition::First, pattern, 2025)
}

fn checked_with(edition: Edition, pattern: &str, year: i32) -> String {
    match sheet::check_with(edition, pattern, year) {
        Ok(Verdict::Yes) => "yes".to_string(),
        Ok(Verdict::No { part, .. }) => format!("no {part}"),
        Err(refusal) => format!("refused {}", refusal.number()),
    }
}

fn split(pattern: &str) -> String {
    let parts = sheet::split(pattern).expect("it is allowed");
    let shown = parts
        .iter()
        .map(|part| format!("{:?}:{}:{}", part.kind, part.start, part.length).to_lowercase());
    shown.collect::<Vec<_>>().join(" ")
}

/// A sample and what the library answers in its place.
type Sample = (String, String);

/// A symbol's counts: what R is written as, and a read.
fn of_counts(table: &Table, row: &[&str]) -> Vec<Sample> {
    let [.., count, _, _, _, on_r, a_read] = row else {
        panic!("{row:?}")
    };
    let symbols = if row.len() == 7 {
        vec![row[0]]
    } else {
        symbols(table.heading)
    };
    let (writes_at, writes) = at_count(on_r, count);
    let (reads_at, reads) = at_count(a_read, count);
    let text = quoted(reads);
    symbols
        .iter()
        .flat_map(|symbol| {
            let of_writing = writes_at
                .iter()
                .map(|count| (writes.to_string(), written(&symbol.repeat(*count), &R)));
            let of_reading = reads_at.iter().map(|count| {
                let value = value_read(&symbol.repeat(*count), &text, 2025);
                (reads.to_string(), format!("`{text}`: {value}"))
            });
            of_writing.chain(of_reading).collect::<Vec<_>>()
        })
        .collect()
}

/// Offsets by count: each column is an offset, by one of the symbols or by both.
fn of_offsets(table: &Table, row: &[&str]) -> Vec<Sample> {
    let columns = table.columns.iter().zip(row).skip(1);
    columns
        .flat_map(|(column, sample)| {
            let (offset, by) = column.split_once(" by ").unwrap_or((column, "X x"));
            let fields = Fields {
                offset: number(offset),
                ..R
            };
            let patterns = by
                .split(' ')
                .flat_map(|symbol| counts(row[0]).into_iter().map(|count| symbol.repeat(count)));
            patterns
                .map(|pattern| (sample.to_string(), written(&pattern, &fields)))
                .collect::<Vec<_>>()
        })
        .collect()
}

/// `yy` by columns: a year that is written, or a text that is read, in the current year of the row above.
fn of_two_digits(table: &Table, row: &[&str]) -> Vec<Sample> {
    let answer = |i: usize| match row[0] {
        "`yy` writes" => Some(written(
            "yy",
            &Fields {
                year: number(table.columns[i]),
                ..R
            },
        )),
        "`yy` reads" => Some(value_read("yy", &quoted(table.columns[i]), number(table.rows[0][i]))),
        _ => None,
    };
    (1..row.len())
        .filter_map(|i| Some((row[i].to_string(), answer(i)?)))
        .collect()
}

/// One of "Sheet samples", by what is asked and what is given.
fn of_sheet(row: &[&str]) -> Sample {
    let [_, what, pattern, given, answer] = row else {
        panic!("{row:?}")
    };
    let pattern = quoted(pattern);
    let got = match (*what, given.rsplit_once(' ')) {
        ("check", _) => checked(&pattern),
        ("read", Some((text, year))) => all_read(Choices::new(), &pattern, &quoted(text), number(year), answer),
        ("read", None) => all_read(Choices::new(), &pattern, &quoted(given), 2025, answer),
        (_, Some(("year", year))) => written(
            &pattern,
            &Fields {
                year: number(year),
                ..R
            },
        ),
        (_, Some((_, offset))) => written(
            &pattern,
            &Fields {
                offset: number(offset),
                ..R
            },
        ),
        (_, None) => written(&pattern, &R),
    };
    (answer.to_string(), got)
}

/// One text in a current year, by each edition.
fn of_editions(row: &[&str]) -> Vec<Sample> {
    let [pattern, text, year, first, second] = row else {
        panic!("{row:?}")
    };
    let (pattern, text, year) = (quoted(pattern), quoted(text), number(year));
    [(first, Edition::First), (second, Edition::Second)]
        .map(|(sample, edition)| {
            let choices = Choices::new().edition(edition);
            (sample.to_string(), all_read(choices, &pattern, &text, year, sample))
        })
        .to_vec()
}

/// A pattern's check in a current year, by each edition.
fn checked_in_editions(row: &[&str]) -> Vec<Sample> {
    let [pattern, year, first, second] = row else {
        panic!("{row:?}")
    };
    let (pattern, year) = (quoted(pattern), number(year));
    [(first, Edition::First), (second, Edition::Second)]
        .map(|(sample, edition)| (sample.to_string(), checked_with(edition, &pattern, year)))
        .to_vec()
}

/// A date as `2025-12-03`, with a minus before a year before 1.
fn date(day: &Day) -> String {
    let sign = if day.year < 0 { "-" } else { "" };
    format!("{sign}{:04}-{:02}-{:02}", day.year.unsigned_abs(), day.month, day.day)
}

/// A day's number, and what the calendar says of the day.
fn of_day(row: &[&str]) -> Vec<Sample> {
    let day = sheet::day_of(number(row[0]));
    let answers = [
        date(&day),
        day.day_of_year.to_string(),
        day.week.to_string(),
        day.weekday.to_string(),
    ];
    row[1..].iter().map(|sample| sample.to_string()).zip(answers).collect()
}

/// Year, month and day, also of a date that is not there.
fn date_in(cell: &str) -> (i32, u32, u32) {
    let words: Vec<&str> = cell.rsplitn(3, '-').collect();
    let [day, month, year] = words[..] else {
        panic!("{cell}")
    };
    let unsigned = |word: &str| word.parse().expect("a number without a sign");
    (number(year), unsigned(month), unsigned(day))
}

/// A date and its number.
fn of_day_number(row: &[&str]) -> Sample {
    let (year, month, day) = date_in(row[0]);
    let answer = match sheet::day_number(year, month, day) {
        Ok(number) => number.to_string(),
        Err(refusal) => format!("refused {}", refusal.number()),
    };
    (row[1].replace(',', ""), answer)
}

/// What stands between the first two backticks, with newlines and carriage returns for what stands for them.
fn escaped(cell: &str) -> String {
    quoted(cell).replace("\\n", "\n").replace("\\r", "\r")
}

/// The lines of a list, each as code:day:month:year.
fn listed(choices: Choices, pattern: &str, text: &str) -> String {
    sheet::read_list_by(choices, Book::english(), pattern, text, 2025).map_or_else(refused, |columns| {
        let Columns {
            days,
            months,
            years,
            codes,
        } = &columns;
        let line = |line: usize| format!("{}:{}:{}:{}", codes[line], days[line], months[line], years[line]);
        (0..columns.len()).map(line).collect::<Vec<_>>().join(" ")
    })
}

/// A pattern as it is shown: `128 times` a piece where it is long.
fn pattern_shown(pattern: &[u8]) -> String {
    match String::from_utf8_lossy(pattern) {
        empty if empty.is_empty() => "(empty)".to_string(),
        long if long.len() == 256 => format!("128 times `{}`", &long[..2]),
        other => format!("`{other}`"),
    }
}

/// A pattern mended in an edition, or in both alike, with the sentences of its changes.
fn of_mending(row: &[&str]) -> Vec<Sample> {
    let editions: &[Edition] = match row[1] {
        "first" => &[Edition::First],
        "second" => &[Edition::Second],
        _ => &[Edition::First, Edition::Second],
    };
    let sample = |column: usize, answer: String| (row[column].to_string(), answer);
    let of_edition = |edition: &Edition| match sheet::mend_with(*edition, quoted(row[0]), 2025) {
        Ok(mending) if mending.changes.is_empty() => [
            sample(2, pattern_shown(&mending.pattern)),
            sample(3, "none".to_string()),
        ],
        Ok(mending) => [
            sample(2, pattern_shown(&mending.pattern)),
            sample(3, mending.sentences().join("; ")),
        ],
        Err(refusal) => [sample(2, refused(refusal)), sample(3, String::new())],
    };
    editions.iter().flat_map(of_edition).collect()
}

/// What a stamp reads as: its day, its nanoseconds and its offset.
fn stamp_read(text: &str) -> String {
    sheet::read_stamp(text).map_or_else(refused, |stamp| {
        let day = format!("{:04}-{:02}-{:02}", stamp.year, stamp.month, stamp.day);
        let unknown = if stamp.unknown { ", unknown" } else { "" };
        format!("{day}, {}, {}{unknown}", stamp.nanoseconds, stamp.offset)
    })
}

/// What is written of such numbers.
fn stamp_written(row: &[&str]) -> String {
    let (year, month, day) = date_in(row[0]);
    let offset = row[2].trim_end_matches(", unknown");
    let stamp = Stamp {
        year,
        month,
        day,
        nanoseconds: row[1].parse().expect("a number without a sign"),
        offset: number(offset),
        unknown: offset != row[2],
    };
    sheet::write_stamp(&stamp).map_or_else(refused, |text| format!("`{text}`"))
}

/// Under its own heading a sample is of a strict reading.
fn choices(heading: &str) -> Choices {
    match heading {
        " Strict reading" => Choices::new().strict(),
        _ => Choices::new(),
    }
}

/// The samples of a row, by the columns of its table: none where the table has no samples.
fn samples(table: &Table, row: &[&str]) -> Vec<Sample> {
    let sample = |i: usize, answer: String| (row[i].to_string(), answer);
    match (&table.columns[..], table.heading) {
        ([.., "On R", "A read"], _) => of_counts(table, row),
        (["Symbol", "What", "Pair", ..], _) => (1..=5)
            .map(|count| sample(2 + count, written(&row[0].repeat(count), &R)))
            .collect(),
        (["Count", "0 by X", ..], _) => of_offsets(table, row),
        (["Pattern", "Parts, as kind:start:length", _], _) => {
            let pattern = quoted(row[0]);
            vec![sample(1, split(&pattern)), sample(2, written(&pattern, &R))]
        }
        (["Pattern", "Text", "Answer"], " Zones") => vec![sample(2, unit_read(&quoted(row[0]), &quoted(row[1])))],
        (["Pattern", "Text", "Answer"], heading) => {
            let answer = all_read(choices(heading), &quoted(row[0]), &quoted(row[1]), 2025, row[2]);
            vec![sample(2, answer)]
        }
        (["Pattern", "Text", "Current year", "First edition", "Second edition"], _) => of_editions(row),
        (["Pattern", "Current year", "First edition", "Second edition"], _) => checked_in_editions(row),
        (["Pattern", "Text", "Unit", "Span"], heading) => {
            let answer = span_read(choices(heading), &quoted(row[0]), &quoted(row[1]), row[2]);
            vec![sample(3, answer)]
        }
        (["Text", "Answer"], _) => {
            let answer = sheet::parse_offset(quoted(row[0])).map_or_else(refused, |offset| offset.to_string());
            vec![sample(1, answer)]
        }
        (["Pattern", "Answer", "Why"], _) => vec![sample(1, checked(&quoted(row[0])))],
        (["Pattern", "Check", "Writes", _], _) => {
            let pattern = quoted(row[0]);
            vec![sample(1, checked(&pattern)), sample(2, written(&pattern, &R))]
        }
        (["P", "What", ..], _) => vec![of_sheet(row)],
        (["Year" | "Text", ..], " y, year") => of_two_digits(table, row),
        (["Number", "Day", "Day of year", "Week", "Weekday"], _) => of_day(row),
        (["Year, month, day", "Answer"], _) => vec![of_day_number(row)],
        (["Pattern", "List", "Plain", "Strict"], _) => {
            let (pattern, text) = (escaped(row[0]), escaped(row[1]));
            let answers = [Choices::new(), Choices::new().strict()].map(|choices| listed(choices, &pattern, &text));
            let [plain, strict] = answers;
            vec![sample(2, plain), sample(3, strict)]
        }
        (["Pattern", "Edition", "Mended", "Changes"], _) => of_mending(row),
        (["Stamp", "Reads as"], _) => vec![sample(1, stamp_read(&quoted(row[0])))],
        (["Day", "Nanoseconds", "Offset", "Stamp written"], _) => vec![sample(3, stamp_written(row))],
        _ => vec![],
    }
}

/// How many samples a document has, and those that the library answers otherwise.
fn held(document: &str) -> (usize, Vec<Sample>) {
    let tables = tables(document);
    let rows = tables
        .iter()
        .flat_map(|table| table.rows.iter().map(move |row| (table, row)));
    let all: Vec<_> = rows.flat_map(|(table, row)| samples(table, row)).collect();
    (
        all.len(),
        all.into_iter().filter(|(sample, answer)| sample != answer).collect(),
    )
}

#[test]
fn its_samples_hold() {
    let (tried, differing) = held(SPECIFICATION);
    assert_eq!(differing, []);
    assert!(tried > 500, "only {tried} were tried");
}

/// Under that heading a sample is of a strict reading, and under another it is not.
#[test]
fn a_strict_reading_has_its_own_samples() {
    let document = |heading: &str, answer: &str| {
        format!("## {heading}\n\n| Pattern | Text | Answer |\n|---|---|---|\n| `d/` | `3-` | {answer} |\n")
    };
    let (strict, plain) = ("refused 15 1 1", "2 bytes, mask 4, 1 unit: day 3");
    for (heading, right, wrong) in [("Strict reading", strict, plain), ("Zones and others", plain, strict)] {
        assert_eq!(held(&document(heading, right)), (1, vec![]));
        let (_, differing) = held(&document(heading, wrong));
        assert_eq!(differing, [(wrong.to_string(), right.to_string())]);
    }
}

/// A document of one row, its samples right and each of its two made wrong.
#[track_caller]
fn each_edition_is_held(columns: &str, given: &str, [first, second]: [&str; 2]) {
    let document = |first: &str, second: &str| {
        let line = "---|".repeat(columns.split('|').count() + 2);
        let head = format!("| {columns} | First edition | Second edition |\n|{line}");
        format!("## The second edition\n\n{head}\n| {given} | {first} | {second} |\n")
    };
    assert_eq!(held(&document(first, second)), (2, vec![]));
    let wrong = "refused 9 0 0";
    for (document, right) in [(document(wrong, second), first), (document(first, wrong), second)] {
        assert_eq!(held(&document), (2, vec![(wrong.to_string(), right.to_string())]));
    }
}

#[test]
fn editions_have_their_own_samples() {
    let in_text = |given: &str, samples| each_edition_is_held("Pattern | Text | Current year", given, samples);
    in_text(
        "`d/M` | `3/12` | 2025",
        [
            "3 bytes, mask 6, 2 units: month 1, day 3",
            "4 bytes, mask 6, 2 units: month 12, day 3",
        ],
    );
    in_text(
        "`yy` | `18` | 9,999",
        [
            "2 bytes, mask 1, 1 unit: year 9018",
            "2 bytes, mask 1, 1 unit: year 10018",
        ],
    );
    in_text("(empty) | (empty) | 80", ["0 bytes, mask 0, 0 units", "refused 14 80"]);
    let in_pattern = |given: &str, samples| each_edition_is_held("Pattern | Current year", given, samples);
    in_pattern("`d/M` | 2025", ["no 2", "yes"]);
    in_pattern("`d` | 80", ["yes", "refused 14"]);
}

/// A list by a plain and by a strict reading.
#[test]
fn lists_have_their_own_samples() {
    let document = |plain: &str, strict: &str| {
        let row = format!("| `dd` | `03\\r\\n\\n` | {plain} | {strict} |");
        format!("## Lists\n\n| Pattern | List | Plain | Strict |\n|---|---|---|---|\n{row}\n")
    };
    let (plain, strict) = ("0:3:0:0 8:0:0:0", "16:0:0:0 8:0:0:0");
    assert_eq!(held(&document(plain, strict)), (2, vec![]));
    let (_, differing) = held(&document(strict, plain));
    let wrong = [(strict, plain), (plain, strict)].map(|(sample, right)| (sample.to_string(), right.to_string()));
    assert_eq!(differing, wrong);
}

#[test]
fn mending_has_its_own_samples() {
    let document =
        |row: &str| format!("## Mending\n\n| Pattern | Edition | Mended | Changes |\n|---|---|---|---|\n{row}\n");
    assert_eq!(held(&document("| `M` | first | `MM` | `M` became `MM` |")), (2, vec![]));
    assert_eq!(held(&document("| `M` | second | `M` | none |")), (2, vec![]));
    assert_eq!(held(&document("| `d'` | both | refused 3 1 | |")), (4, vec![]));
    let (tried, differing) = held(&document("| `M` | both | `MM` | `M` became `MM` |"));
    let [mended, changes] = [("`MM`", "`M`"), ("`M` became `MM`", "none")];
    let wrong = [mended, changes].map(|(sample, right)| (sample.to_string(), right.to_string()));
    assert_eq!((tried, differing), (4, wrong.to_vec()));
}

/// Stamps that are read, and numbers that are written as one.
#[test]
fn stamps_have_their_own_samples() {
    let document = |read: &str, written: &str| {
        let reads = format!("| Stamp | Reads as |\n|---|---|\n| `0001-01-01T00:00:00-00:00` | {read} |\n");
        let writes = format!("| Day | Nanoseconds | Offset | Stamp written |\n|---|---|---|---|\n| 0001-01-01 | 0 | 0, unknown | {written} |\n");
        format!("## Stamps\n\n{reads}\n{writes}")
    };
    let (read, written) = ("0001-01-01, 0, 0, unknown", "`0001-01-01T00:00:00-00:00`");
    assert_eq!(held(&document(read, written)), (2, vec![]));
    let (_, differing) = held(&document("0001-01-01, 0, 0", "`0001-01-01T00:00:00Z`"));
    let wrong = [("0001-01-01, 0, 0", read), ("`0001-01-01T00:00:00Z`", written)];
    assert_eq!(
        differing,
        wrong.map(|(sample, right)| (sample.to_string(), right.to_string()))
    );
}

/// Of a unit that was not read both places are 0.
#[test]
fn spans_have_their_own_samples() {
    let document = |heading: &str, given: &str, span: &str| {
        format!("## {heading}\n\n| Pattern | Text | Unit | Span |\n|---|---|---|---|\n| {given} | {span} |\n")
    };
    for (heading, given, right, wrong) in [
        ("Spans", "`y` | `-5` | year", "0 to 2", "1 to 2"),
        ("Spans", "`d d` | `3 14` | day", "2 to 4", "0 to 1"),
        ("Spans", "`d/` | `3-` | hour", "0 to 0", "0 to 1"),
        ("Spans", "`d/` | `3-` | day", "0 to 1", "refused 15 1 1"),
        ("Strict reading", "`d/` | `3-` | day", "refused 15 1 1", "0 to 1"),
    ] {
        assert_eq!(held(&document(heading, given, right)), (1, vec![]));
        let (_, differing) = held(&document(heading, given, wrong));
        assert_eq!(differing, [(wrong.to_string(), right.to_string())]);
    }
}

/// A document of one row under its columns.
fn one_row(columns: &str, row: &str) -> String {
    let line = "---|".repeat(columns.matches('|').count() - 1);
    format!("## Day numbers\n\n{columns}\n|{line}\n{row}\n")
}

#[test]
fn days_have_their_own_samples() {
    let columns = "| Number | Day | Day of year | Week | Weekday |";
    for row in [
        "| 0 | 0001-01-01 | 1 | 1 | 1 |",
        "| -1 | -0001-12-31 | 366 | 52 | 0 |",
        "| 2,147,483,647 | 5879611-07-12 | 193 | 28 | 2 |",
        "| -2147483648 | -5879611-06-23 | 174 | 25 | 6 |",
    ] {
        assert_eq!(held(&one_row(columns, row)), (4, vec![]));
        for wrong in 2..=5 {
            let mut cells: Vec<&str> = row.split('|').collect();
            cells[wrong] = " 9 ";
            let (tried, differing) = held(&one_row(columns, &cells.join("|")));
            assert_eq!((tried, differing.len(), differing[0].0.as_str()), (4, 1, "9"));
        }
    }
}

#[test]
fn numbers_of_days_have_their_own_samples() {
    let columns = "| Year, month, day | Answer |";
    for (date, right) in [
        ("2025-12-03", "739587"),
        ("2025-12-03", "739,587"),
        ("-0001-12-31", "-1"),
        ("2025-02-29", "refused 17"),
        ("0000-01-01", "refused 17"),
        ("5879611-07-12", "2147483647"),
        ("-5879611-06-22", "refused 18"),
    ] {
        assert_eq!(held(&one_row(columns, &format!("| {date} | {right} |"))), (1, vec![]));
        let (_, differing) = held(&one_row(columns, &format!("| {date} | 0 |")));
        assert_eq!(differing, [("0".to_string(), right.replace(',', ""))]);
    }
}

/// Each kind of sample, made wrong, is reported.
#[test]
fn a_wrong_sample_is_reported() {
    for (right, wrong) in [
        ("| `3/12`: 3, `/12` is left |", "| `3/12`: 3 |"),
        ("| at 5 `02025` |", "| at 5 `2025` |"),
        ("| `00` | `-05` |", "| `100` | `-05` |"),
        ("| 2099 | refused 19 0 0 |", "| 1999 | refused 19 0 0 |"),
        ("| K | hour 0 to 11 | full | `7` |", "| K | hour 0 to 11 | full | `8` |"),
        ("| `-000030` | `-0530` |", "| `+000030` | `-0530` |"),
        ("run:0:1 open:1:1", "run:0:1 open:1:2"),
        ("| `X` | `+053` | refused 8 0 3 |", "| `X` | `+053` | refused 8 0 1 |"),
        ("5 bytes, mask 4, 1 unit: day 4", "5 bytes, mask 4, 1 unit: day 3"),
        ("| `+24:60` | refused 13 1 |", "| `+24:60` | refused 13 2 |"),
        ("| `dX` | yes |", "| `dX` | no 0 |"),
        ("| yes | `EEE 3 Dec` |", "| yes | `EEE 3 dec` |"),
        (
            "| `xxxx` | offset 86400 | refused 4 8 |",
            "| `xxxx` | offset 86400 | refused 4 7 |",
        ),
    ] {
        assert_eq!(SPECIFICATION.matches(right).count(), 1, "{right}");
        let (_, differing) = held(&SPECIFICATION.replace(right, wrong));
        assert!(!differing.is_empty(), "{wrong}");
    }
}
