//! `day_of N` and `day_number YEAR MONTH DAY`

use crate::answers::{numbered, refused};
use crate::marks::ENTRY;
use crate::words::Words;
use sheet::{raw, Day, Refusal};

/// All that `day_number` leaves in the row that it was lent.
type Row = [i64; raw::DAY_NUMBER_ANSWER];

pub fn answer_day(mut words: Words) -> Option<String> {
    let number = words.number()?;
    words.end()?;
    Some(day(&sheet::day_of(number)))
}

pub fn answer_number(mut words: Words) -> Option<String> {
    let (year, month, day) = (words.number()?, words.number()?, words.number()?);
    words.end()?;
    Some(answer_of_both(
        &sheet::day_number(year, month, day),
        &row_left(year, month, day),
    ))
}

fn day(day: &Day) -> String {
    let Day {
        year,
        month,
        day,
        day_of_year,
        week,
        weekday,
    } = day;
    format!("day {year} {month} {day} {day_of_year} {week} {weekday}")
}

/// The row has the number or the refusal's detail, and behind it 0: where it has not, that is the answer.
fn answer_of_both(numbered_day: &Result<i32, Refusal>, row: &Row) -> String {
    let (line, first) = match numbered_day {
        Ok(number) => (format!("number {number}"), i64::from(*number)),
        Err(refusal) => (refused(refusal), refusal.details()[0]),
    };
    match row {
        [entry, 0] if *entry == first => line,
        _ => numbered("number", row),
    }
}

/// The row of the same call, of which the safe function shows only the first entry.
fn row_left(year: i32, month: u32, day: u32) -> Row {
    let mut row = [ENTRY; raw::DAY_NUMBER_ANSWER];
    // SAFETY: the pointer goes with the length of the row that it comes from, which is borrowed alone.
    unsafe { raw::sheet_day_number(year, month, day, row.as_mut_ptr(), row.len()) };
    row
}

#[cfg(test)]
mod tests {
    use super::{answer_day, answer_number, answer_of_both, row_left};
    use crate::words::Words;

    fn day(words: &str) -> Option<String> {
        answer_day(Words::of(words.as_bytes()))
    }

    fn number(words: &str) -> Option<String> {
        answer_number(Words::of(words.as_bytes()))
    }

    #[test]
    fn a_day_and_its_number() {
        assert_eq!(day("739587").as_deref(), Some("day 2025 12 3 337 49 3"));
        assert_eq!(number("2025 12 3").as_deref(), Some("number 739587"));
        assert_eq!(day("-1").as_deref(), Some("day -1 12 31 366 52 0"));
        assert_eq!(number("-1 12 31").as_deref(), Some("number -1"));
        assert_eq!(number("2025 2 29").as_deref(), Some("refused 17 0"));
        assert_eq!(number("5879611 7 13").as_deref(), Some("refused 18 0"));
    }

    #[test]
    fn numbers_are_those_that_their_types_hold() {
        for words in ["2147483647", "-2147483648", "-0", "007"] {
            assert!(day(words).is_some(), "{words}");
        }
        for words in ["2147483648", "-2147483649", "", "+1", "1 ", "1 2"] {
            assert_eq!(day(words), None, "{words}");
        }
        for words in ["-2147483648 0 0", "2147483647 4294967295 4294967295"] {
            assert_eq!(number(words).as_deref(), Some("refused 17 0"), "{words}");
        }
        for words in [
            "2147483648 1 1",
            "1 -1 1",
            "1 1 -0",
            "1 4294967296 1",
            "1 1 4294967296",
            "1 1",
            "1 1 1 ",
            "1 1 1 1",
        ] {
            assert_eq!(number(words), None, "{words}");
        }
    }

    #[test]
    fn a_row_that_has_anything_else_is_shown() {
        for (year, month, day, line) in [(1, 1, 2, "number 1"), (0, 1, 1, "refused 17 0")] {
            let answer = sheet::day_number(year, month, day);
            let row = row_left(year, month, day);
            assert_eq!(answer_of_both(&answer, &row), line);
            let [first, _] = row;
            assert_eq!(answer_of_both(&answer, &[first, 7]), format!("number {first} 7"));
            assert_eq!(answer_of_both(&answer, &[7, 0]), "number 7 0");
        }
    }
}
