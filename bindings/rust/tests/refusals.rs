//! Each refusal, by a call that gives it: its number, its details and its sentence.

use sheet::{
    check, check_with, day_number, mend, mend_with, parse_offset, read, read_stamp, read_with, split, write,
    write_into, write_stamp, Book, Choices, Edition, Fields, Refusal,
};
use std::error::Error;
use std::fmt::Debug;

const R: Fields = Fields {
    year: 2025,
    month: 12,
    day: 3,
    day_of_year: 337,
    week: 49,
    weekday: 3,
    nanoseconds: 25_509_000_120_000,
    offset: 19_800,
};

#[track_caller]
fn refused<T: Debug>(answer: Result<T, Refusal>, number: u32, details: &[i64], sentence: &str) {
    let refusal = answer.expect_err("this is refused");
    assert_eq!((refusal.number(), refusal.details()), (number, details));
    assert_eq!(refusal.to_string(), sentence);
    assert!(sentence.starts_with(refusal.text()), "{sentence}");
}

#[test]
fn of_a_pattern() {
    refused(
        split("d".repeat(257)),
        1,
        &[257],
        "the pattern has over 256 bytes: it has 257 bytes",
    );
    refused(
        split("dé"),
        2,
        &[1],
        "the pattern has a byte that is zero or not plain ASCII: at place 1, counted from 0",
    );
    refused(
        split("dd\0"),
        2,
        &[2],
        "the pattern has a byte that is zero or not plain ASCII: at place 2, counted from 0",
    );
    refused(
        write("d '", &R),
        3,
        &[2],
        "the pattern ends with a quote that opens nothing: at place 2, counted from 0",
    );
}

#[test]
fn of_fields() {
    let wrong = [
        (
            Fields { year: 0, ..R },
            "year, which is -5,879,611 to 5,879,611 without 0",
        ),
        (Fields { month: 13, ..R }, "month, which is 1 to 12"),
        (Fields { day: 0, ..R }, "day, which is 1 to 31"),
        (Fields { day_of_year: 367, ..R }, "day of the year, which is 1 to 366"),
        (Fields { week: 54, ..R }, "week, which is 1 to 53"),
        (Fields { weekday: 7, ..R }, "weekday, which is 0 to 6"),
        (
            Fields {
                nanoseconds: u64::MAX,
                ..R
            },
            "nanosecond of the day, which is 0 to 86,399,999,999,999",
        ),
        (
            Fields { offset: 86_400, ..R },
            "offset, which is -86,399 to 86,399 seconds",
        ),
    ];
    for (number, (fields, sentence)) in (1..).zip(wrong) {
        let sentence = format!("a field is out of its range: the {sentence}");
        refused(write("d", &fields), 4, &[number], &sentence);
    }
}

#[test]
fn of_an_output() {
    refused(
        write_into("yyyy/MM/dd", &R, &mut [0; 9]),
        5,
        &[10],
        "the output is too short for the text: it needs 10 bytes",
    );
}

#[test]
fn of_a_text() {
    refused(
        read("d", "3".repeat(2049), 2025),
        6,
        &[2049],
        "the text has over 2,048 bytes: it has 2049 bytes",
    );
    refused(
        read("d", "3é", 2025),
        7,
        &[1],
        "the text has a byte that is not plain ASCII: at place 1, counted from 0",
    );
}

#[test]
fn of_a_part() {
    refused(
        read("dd/MM", "03/1", 2025),
        8,
        &[2, 3],
        "the text has too few bytes left: at place 3, for part 2, both counted from 0",
    );
    refused(
        read("dd/MM", "03/Dec", 2025),
        9,
        &[2, 3],
        "the text has no number where one should stand: at place 3, for part 2, both counted from 0",
    );
    refused(
        read("dd MMM", "03 Dez", 2025),
        10,
        &[2, 3],
        "the text has no name or period that fits where one should stand: at place 3, for part 2, both counted from 0",
    );
    refused(
        read("HH x", "07 Z", 2025),
        11,
        &[2, 3],
        "the text has no sign of a zone where one should stand: at place 3, for part 2, both counted from 0",
    );
}

#[test]
fn of_a_plus() {
    refused(
        read("dd/MM", "03/+5", 2025),
        19,
        &[2, 3],
        "the text has a plus in front of a number: at place 3, for part 2, both counted from 0",
    );
    refused(
        parse_offset("+05:+3"),
        19,
        &[0, 4],
        "the text has a plus in front of a number: at place 4, for part 0, both counted from 0",
    );
}

#[test]
fn of_a_strict_read() {
    for strict in [Choices::new().strict(), Choices::new().strict().date()] {
        refused(
            read_with(strict, "dd/MM", "03-12", 2025),
            15,
            &[1, 2],
            "the text differs from the literal that should stand there: at place 2, for part 1, both counted from 0",
        );
        refused(
            read_with(strict, "dd/MM", "03/12 ", 2025),
            16,
            &[5],
            "the text goes on where the pattern ends: at place 5, counted from 0",
        );
    }
}

#[test]
fn of_an_offset() {
    refused(
        parse_offset("+0530"),
        12,
        &[5],
        "the offset has another length than +05:30, and does not begin with Z: it has 5 bytes",
    );
    refused(
        parse_offset("+24:00"),
        13,
        &[1],
        "the hour or the minute of the offset is too large: the hour is over 23",
    );
    refused(
        parse_offset("+23:60"),
        13,
        &[2],
        "the hour or the minute of the offset is too large: the minute is over 59",
    );
}

#[test]
fn of_a_current_year() {
    refused(
        check("d", -1),
        14,
        &[-1],
        "the current year is not from 1 to 9999: it is -1",
    );
}

/// The years 1 to 80, which the first edition takes, whatever the pattern has.
#[test]
fn of_a_current_year_in_the_second_edition() {
    let second = Choices::new().edition(Edition::Second);
    for (year, first) in [(-1, 1), (0, 1), (1, 81), (80, 81), (10_000, 1)] {
        let sentence = format!("the current year is not from {first} to 9999: it is {year}");
        for pattern in ["", "d", "yy", "M"] {
            let details = [i64::from(year)];
            refused(check_with(Edition::Second, pattern, year), 14, &details, &sentence);
            for choices in [second, second.date(), second.strict(), second.date().strict()] {
                refused(read_with(choices, pattern, "25", year), 14, &details, &sentence);
            }
        }
    }
    for year in [1, 80] {
        assert!(check("d", year).is_ok() && check_with(Edition::First, "d", year).is_ok());
        assert!(read("yy", "25", year).is_ok() && read_with(Choices::new(), "yy", "25", year).is_ok());
    }
    for year in [81, 9999] {
        assert!(check_with(Edition::Second, "yy", year).is_ok());
        assert!(read_with(second, "yy", "25", year).is_ok());
    }
}

/// Behind 1, 2 and 3, and before 6 and 7.
#[test]
fn of_a_current_year_among_others() {
    let second = Choices::new().edition(Edition::Second);
    let number = |pattern: &str, text: &str| read_with(second, pattern, text, 80).map_err(|refusal| refusal.number());
    let checked = |pattern: &str| check_with(Edition::Second, pattern, 80).map_err(|refusal| refusal.number());
    for (pattern, earlier) in [("d".repeat(257), 1), ("\0'".to_string(), 2), ("d'".to_string(), 3)] {
        assert_eq!(number(&pattern, ""), Err(earlier));
        assert_eq!(checked(&pattern), Err(earlier));
    }
    for text in ["3".repeat(2049), "\u{e9}".to_string(), String::new()] {
        assert_eq!(number("d", &text), Err(14));
    }
}

/// The detail is 0, and the sentence has none.
#[test]
fn of_a_day() {
    refused(day_number(2025, 2, 29), 17, &[0], "there is no such day");
    refused(
        day_number(5_879_611, 7, 13),
        18,
        &[0],
        "the day's number doesn't fit 32 signed bits",
    );
}

/// The detail is 0, and the sentence has none; behind it comes that of an output.
#[test]
fn of_a_mended_pattern() {
    let sentence = "the mended pattern has over 256 bytes";
    refused(mend("dH".repeat(128), 2025), 30, &[0], sentence);
    refused(mend_with(Edition::Second, "dH".repeat(128), 2025), 30, &[0], sentence);
    refused(
        mend_with(Edition::Second, "dH", 80),
        14,
        &[80],
        "the current year is not from 81 to 9999: it is 80",
    );
}

/// The details of all but 25 are 0, and the sentences have none.
#[test]
fn of_a_stamp() {
    refused(
        read_stamp("2025-12-03 07:05:09Z"),
        25,
        &[10],
        "the text is not a stamp of RFC 3339: at place 10, counted from 0",
    );
    refused(
        read_stamp("2025-12-03T24:05:09Z"),
        26,
        &[0],
        "a number of the stamp is out of its range",
    );
    refused(
        read_stamp("2025-12-03T07:05:60Z"),
        27,
        &[0],
        "the stamp has the second 60",
    );
    let year = "the year of the stamp is not from 1 to 9999";
    refused(read_stamp("0000-12-03T07:05:09Z"), 28, &[0], year);
    refused(write_stamp(&Fields { year: -1, ..R }.into()), 28, &[0], year);
    refused(
        write_stamp(&Fields { offset: 30, ..R }.into()),
        29,
        &[0],
        "the offset of the stamp is not of whole minutes, or not 0 though it is unknown",
    );
}

/// The details of the first three are 0, and the sentences have none.
#[test]
fn of_a_book() {
    refused(Book::read("LNC"), 20, &[0], "the book does not begin with the mark LNB");
    refused(
        Book::read("LNB\0\x03"),
        21,
        &[0],
        "the book is of another version than 1 and 2",
    );
    refused(
        Book::read("LNB"),
        22,
        &[0],
        "the book is cut short, or goes on behind its names",
    );
}

/// The list and the place of each name, and the rule that it breaks.
#[test]
fn of_a_name_of_a_book() {
    let apart = "2 to 20 ASCII letters, and none begins another";
    let lists = [
        (12, "wide month", "", apart),
        (12, "short month", "", apart),
        (7, "wide weekday", " from Sunday", apart),
        (7, "short weekday", " from Sunday", "3 ASCII letters"),
        (7, "two-letter weekday", " from Sunday", "2 ASCII letters"),
        (7, "narrow weekday", " from Sunday", "1 ASCII letter"),
        (12, "narrow month", "", "1 ASCII letter"),
    ];
    let ordinals = [
        "1st", "2nd", "3rd", "4th", "5th", "6th", "7th", "8th", "9th", "10th", "11th", "12th",
    ];
    let places = lists
        .iter()
        .flat_map(|list| ordinals[..list.0].iter().map(move |place| (list, place)));
    let mut tried = 0;
    for (number, ((_, name, from, rule), place)) in (1..).zip(places) {
        let mut names: [&str; 64] = Book::english().names().into();
        names[number - 1] = "";
        let sentence = format!("the book has a bad name: name {number}, the {place} {name}{from}; {name}s have {rule}");
        refused(Book::from_names(names), 23, &[number as i64], &sentence);
        tried += 1;
    }
    assert_eq!(tried, 64);
}

#[test]
fn a_refusal_is_an_error() {
    let passed_on = || -> Result<i32, Box<dyn Error>> { Ok(parse_offset("+24:00")?) };
    let sentence = passed_on().unwrap_err().to_string();
    assert!(sentence.ends_with(": the hour is over 23"), "{sentence}");
}
