//! What is measured: a row for each pattern, in the words of each contender.

/// A pattern and its nearest equivalents.
pub struct Row {
    pub label: String,
    pub pattern: String,
    pub glibc: String,
    pub icu: String,
    pub chrono: String,
    pub time: String,
    /// What an equivalent does not do.
    pub note: &'static str,
}

const STAMP: &str = "yyyy-MM-dd HH:mm:ss ";
const GLIBC_STAMP: &str = "%Y-%m-%d %H:%M:%S ";
const TIME_STAMP: &str = "[year]-[month]-[day] [hour]:[minute]:[second] ";
const LONGEST: usize = 256;

/// The row with a fraction and a zone, for which each has words of its own.
const ZONED: usize = 3;

/// Patterns of these lengths show how the cost grows.
pub const LENGTHS: [usize; 5] = [16, 32, 64, 128, LONGEST];

/// The check says yes to these, so it walks them to their end.
pub fn checked() -> Vec<String> {
    vec![
        "H:m".to_string(),
        "yyyy/MM/dd HH:mm:ss.nnnn XXXXX".to_string(),
        stamps(LONGEST),
    ]
}

pub fn rows() -> Vec<Row> {
    let mut rows = vec![
        row("yyyy/MM/dd", "%Y/%m/%d", "[year]/[month]/[day]", ""),
        row(
            "d/M",
            "%-d/%-m",
            "[day padding:none]/[month padding:none]",
            "a single M of ours and of the Rust reads one byte, glibc and ICU read both digits of 12",
        ),
        row("yyyy-MM-dd HH:mm:ss", GLIBC_STAMP.trim_end(), TIME_STAMP.trim_end(), ""),
        row(
            "yyyy/MM/dd HH:mm:ss.nnn XXXXX",
            "%Y/%m/%d %H:%M:%S.000 %z",
            "[year]/[month]/[day] [hour]:[minute]:[second].[subsecond digits:3] [offset_hour sign:mandatory]:[offset_minute]",
            "glibc has no fraction of a second and no colon in a zone: it writes and reads .000 and +0530",
        ),
        row(
            "eeee, d MMMM yyyy",
            "%A, %-d %B %Y",
            "[weekday], [day padding:none] [month repr:long] [year]",
            "",
        ),
    ];
    rows[ZONED].icu = "yyyy/MM/dd HH:mm:ss.SSS XXXXX".to_string();
    rows[ZONED].chrono = "%Y/%m/%d %H:%M:%S%.3f %:z".to_string();
    // 12 whole stamps are 240 bytes; behind them stand the other 16.
    let whole = LONGEST / STAMP.len();
    rows.push(Row {
        label: format!("{LONGEST} bytes of {}..", STAMP.trim_end()),
        ..row(
            &stamps(LONGEST),
            &(GLIBC_STAMP.repeat(whole) + "%Y-%m-%d %H:%M"),
            &(TIME_STAMP.repeat(whole) + "[year]-[month]-[day] [hour]:[minute]"),
            "",
        )
    });
    rows
}

/// So many bytes of one stamp after the other.
pub fn stamps(length: usize) -> String {
    STAMP.chars().cycle().take(length).collect()
}

/// Where ICU has the words of ours, and chrono those of glibc.
fn row(pattern: &str, glibc: &str, time: &str, note: &'static str) -> Row {
    Row {
        label: pattern.to_string(),
        pattern: pattern.to_string(),
        glibc: glibc.to_string(),
        icu: pattern.to_string(),
        chrono: glibc.to_string(),
        time: time.to_string(),
        note,
    }
}
