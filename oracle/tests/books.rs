//! Name books: what is read of them, written as them, and answered with their names.

use harness::answer::answer;
use harness::book::{bytes_of, open, write, Names, LISTS, NAMES};
use harness::choices::{Books, Choices};
use harness::expected::{expected, Expected};
use harness::generator::Generator;
use harness::names::english;
use harness::request::{hex, name_words, Op, Request};
use harness::walk::Pair;
use harness::Fields;
use std::collections::{HashMap, HashSet};

const DAY: Fields = Fields {
    year: 2025,
    month: 3,
    day: 4,
    day_of_year: 63,
    week: 10,
    weekday: 2,
    nanoseconds: 0,
    offset: 0,
};

fn names(words: &str) -> Names {
    words.split_whitespace().map(|word| word.into()).collect()
}

/// Of a port whose short and wide months are alike in part.
fn german() -> Names {
    names(
        "Januar Februar Maerz April Mai Juni Juli August September Oktober November Dezember \
         Jan Feb Maerz Apr Mai Juni Juli Aug Sep Okt Nov Dez \
         Sonntag Montag Dienstag Mittwoch Donnerstag Freitag Samstag \
         Son Mon Die Mit Don Fre Sam So Mo Di Mi Do Fr Sa S M D M D F S J F M A M J J A S O N D",
    )
}

/// The names with one other, numbered from 1.
fn with(number: usize, name: &str) -> Names {
    let mut names = german();
    names[number - 1] = name.into();
    names
}

#[track_caller]
fn refused(bytes: &[u8], line: &str) {
    assert_eq!(open(bytes), Err(line.to_string()));
    let request = Request::Book {
        bytes: bytes.to_vec(),
    };
    assert_eq!(expected(&request), Expected::Limit(line.to_string()));
    let with_pattern = read(b"'", b"").with_book(Some(bytes.to_vec()));
    assert_eq!(expected(&with_pattern), Expected::Limit(line.to_string()));
    assert_eq!(answer(&with_pattern.to_string()), "refused");
}

/// Refused when it is read and when it is written.
#[track_caller]
fn bad_name(number: usize, names: &Names) {
    let line = format!("refused 23 {number}");
    refused(&bytes_of(1, names), &line);
    refused(&bytes_of(2, names), &line);
    assert_eq!(write(names, 0), Err(line));
}

#[track_caller]
fn good(names: &Names) {
    let bytes = bytes_of(1, names);
    assert_eq!(open(&bytes).expect("it is good").names, *names);
    assert_eq!(write(names, bytes.len()), Ok(bytes));
}

fn write_by(pair: Pair, pattern: &str, names: &Names) -> Request {
    Request::Write {
        pair,
        pattern: pattern.into(),
        fields: DAY,
        room: 4096,
        book: Some(bytes_of(1, names)),
    }
}

fn read(pattern: &[u8], text: &[u8]) -> Request {
    Request::Read {
        choices: Choices::of(Pair::Full),
        pattern: pattern.into(),
        text: text.into(),
        now: 2025,
        book: None,
    }
}

fn read_by(pattern: &str, text: &str, names: &Names) -> Request {
    let read = read(pattern.as_bytes(), text.as_bytes());
    read.with_book(Some(bytes_of(1, names)))
}

#[test]
fn a_book_is_read() {
    let bytes = bytes_of(1, &english());
    assert_eq!(bytes[..13], *b"LNB\x00\x01\x07January");
    assert_eq!(bytes.len(), 5 + 64 + 214);
    let line = format!("book 1 {}", name_words(&english()));
    assert_eq!(expected(&Request::Book { bytes }).line(), line);
    good(&german());
}

#[test]
fn version_2_may_go_on() {
    let mut bytes = bytes_of(2, &german());
    for _ in 0..3 {
        let opened = open(&bytes).expect("it is good");
        assert_eq!((opened.version, opened.names), (2, german()));
        bytes.push(0);
    }
    bytes[4] = 1;
    refused(&bytes, "refused 22 0");
}

#[test]
fn the_first_refusal_decides() {
    let bytes = bytes_of(1, &with(1, "J"));
    let changed = |place: usize, byte| {
        let mut bytes = bytes.clone();
        bytes[place] = byte;
        bytes
    };
    refused(b"", "refused 20 0");
    refused(b"LN", "refused 20 0");
    refused(b"LNb\x00\x09", "refused 20 0");
    refused(&changed(0, b'M'), "refused 20 0");
    refused(b"LNB", "refused 22 0");
    refused(b"LNB\x09", "refused 22 0");
    refused(b"LNB\x00\x09", "refused 21 0");
    refused(&changed(4, 0), "refused 21 0");
    refused(&changed(4, 3), "refused 21 0");
    refused(&changed(3, 1), "refused 21 0");
    refused(&bytes[..bytes.len() - 1], "refused 22 0");
    refused(&[bytes.as_slice(), b"A"].concat(), "refused 22 0");
    refused(&bytes, "refused 23 1");
}

#[test]
fn a_book_that_is_cut_short_is_refused() {
    let bytes = bytes_of(2, &german());
    for length in 0..bytes.len() {
        let line = if length < 3 { 20 } else { 22 };
        refused(&bytes[..length], &format!("refused {line} 0"));
    }
}

#[test]
fn a_name_that_is_bad_by_itself_is_refused() {
    let mut number = 1;
    for list in LISTS {
        for _ in list.names {
            bad_name(number, &with(number, &"x".repeat(list.least - 1)));
            bad_name(number, &with(number, &"x".repeat(list.most + 1)));
            for byte in *b"@[`{0 \x00\x7f" {
                let name = "x".repeat(list.most - 1) + &char::from(byte).to_string();
                bad_name(number, &with(number, &name));
            }
            good(&with(number, &"X".repeat(list.most)));
            good(&with(number, &"z".repeat(list.least)));
            number += 1;
        }
    }
    assert_eq!(number, NAMES + 1);
    bad_name(7, &with(7, &"x".repeat(255)));
}

#[test]
fn in_the_lists_of_two_to_twenty_letters_no_name_begins_another() {
    for (number, name) in [
        (12, "Januar"),
        (12, "Janu"),
        (12, "Januaren"),
        (2, "Januar"),
        (24, "Jan"),
        (24, "Ja"),
        (24, "Janu"),
        (31, "Sonntag"),
        (31, "Mo"),
        (31, "Montags"),
    ] {
        bad_name(number, &with(number, name));
    }
    good(&with(12, "janu"));
    good(&with(12, "Januer"));
    good(&with(13, "Januar"));
    good(&with(31, "Januar"));
    for (number, name) in [(38, "Son"), (45, "So"), (52, "S"), (64, "J")] {
        good(&with(number, name));
    }
}

#[test]
fn the_first_bad_name_is_told() {
    let mut names = with(12, "Januar");
    bad_name(12, &names);
    names[30] = b"Sa".to_vec();
    names[23] = b"Jan".to_vec();
    bad_name(12, &names);
    names[11] = b"Dezember".to_vec();
    bad_name(24, &names);
    names[63] = b"".to_vec();
    names[23] = b"Dez".to_vec();
    names[30] = b"Sonntags".to_vec();
    bad_name(31, &names);
}

#[test]
fn a_book_is_written_where_there_is_room() {
    let bytes = bytes_of(1, &german());
    let request = |room| Request::BookWrite {
        room,
        names: german(),
    };
    let line = format!("wrote {} {}", bytes.len(), hex(&bytes));
    assert_eq!(expected(&request(bytes.len())).line(), line);
    let short = format!("refused 5 {}", bytes.len());
    for room in [0, bytes.len() - 1] {
        assert_eq!(expected(&request(room)), Expected::Limit(short.clone()));
    }
}

#[test]
fn names_are_written_from_the_book() {
    for pair in [Pair::Full, Pair::Date] {
        for (pattern, text) in [
            ("MMM", "Maerz"),
            ("MMMM", "Maerz"),
            ("MMMMM", "M"),
            ("MMMMMM", "Maerz"),
            ("eee eeee eeeee eeeeee", "Die Dienstag D Di"),
            ("d/MM G q qqqq", "4/03 AD 1 1st quarter"),
        ] {
            let request = write_by(pair, pattern, &german());
            let line = format!("wrote {} {}", text.len(), hex(text.as_bytes()));
            assert_eq!(expected(&request), Expected::Accepted(line.clone()));
            assert_eq!(answer(&request.to_string()), line);
        }
    }
}

#[test]
fn names_are_read_from_the_book() {
    let month = |pattern, text| {
        let request = read_by(pattern, text, &german());
        let line = expected(&request).line().to_string();
        let words: Vec<&str> = line.split(' ').collect();
        match words[..] {
            ["read", taken, "2", "1", "0", month, ..] => Ok(format!("{month} by {taken}")),
            _ => Err(line),
        }
    };
    assert_eq!(month("MMMM", "Maerz"), Ok("3 by 5".to_string()));
    assert_eq!(month("MMM", "Januar"), Ok("1 by 3".to_string()));
    assert_eq!(month("MMMM", "March"), Err("refused 10 0 0".to_string()));
    assert_eq!(month("MMM", "Oct"), Err("refused 10 0 0".to_string()));
    assert_eq!(month("eeee MMM", "Samstag Okt"), Ok("10 by 11".to_string()));
    assert_eq!(month("eeee", "Saturday"), Err("refused 10 0 0".to_string()));
}

/// The Rust that is built for books is the other but for the names: without a narrow month the answers are the same.
#[test]
fn a_book_of_almost_english_answers_as_english() {
    let mut almost = english();
    almost[NAMES - 1] = b"Q".to_vec();
    let book = bytes_of(1, &almost);
    let has_narrow_months = |request: &Request| match request {
        Request::Write { pattern, .. } => pattern.windows(5).any(|run| run == b"MMMMM"),
        _ => false,
    };
    let ops = Op::usual(Some(Books::English));
    for request in Generator::new(1, ops).take(20_000) {
        if !has_narrow_months(&request) {
            let by_book = request.clone().with_book(Some(book.clone()));
            assert_eq!(expected(&by_book), expected(&request), "{request}");
            assert_eq!(
                answer(&by_book.to_string()),
                answer(&request.to_string()),
                "{request}"
            );
        }
    }
}

fn generated(books: Books, count: usize) -> impl Iterator<Item = Request> {
    Generator::with(Some(books), 1, Op::usual(Some(books))).take(count)
}

#[test]
fn english_is_asked_as_without_a_book() {
    let ops = Op::usual(Some(Books::English));
    let without = Generator::new(1, ops).take(1000);
    let english = bytes_of(1, &english());
    for (request, plain) in generated(Books::English, 1000).zip(without) {
        assert_eq!(request.book(), Some(english.as_slice()));
        assert_eq!(request.with_book(None), plain);
    }
}

#[test]
fn a_sixth_of_the_accepted_answers_are_others_than_without_the_book() {
    for op in Op::usual(Some(Books::English)) {
        let accepted = Generator::with(Some(Books::Random), 1, vec![op])
            .take(3000)
            .filter(|request| matches!(expected(request), Expected::Accepted(_)));
        let (mut count, mut others) = (0, 0);
        for request in accepted {
            count += 1;
            let without = request.clone().with_book(None);
            others += usize::from(expected(&request) != expected(&without));
        }
        assert!(count > 900, "{op:?}: {count} of 3000");
        assert!(6 * others > count, "{op:?}: {others} of {count}");
    }
}

/// Books that are refused come with all numbers, and a bad name at each place.
#[test]
fn books_are_refused_in_each_way() {
    for op in [Op::Book, Op::BookWrite] {
        let mut counts = HashMap::new();
        for request in Generator::new(1, vec![op]).take(10_000) {
            let line = expected(&request).line().to_string();
            let words: Vec<&str> = line.split(' ').collect();
            let key = match words[..] {
                ["refused", "5", _] => "refused 5".to_string(),
                ["refused", ..] => line,
                _ => words[0].to_string(),
            };
            *counts.entry(key).or_insert(0) += 1;
        }
        let often: &[&str] = match op {
            Op::Book => &["book", "refused 20 0", "refused 21 0", "refused 22 0"],
            _ => &["wrote", "refused 5"],
        };
        for key in often {
            assert!(counts[*key] > 300, "{op:?}: {counts:?}");
        }
        for number in 1..=NAMES {
            assert!(counts[&format!("refused 23 {number}")] > 5, "{counts:?}");
        }
    }
}

/// What the rules leave free comes among the good books, and the ends of what they leave.
#[test]
fn good_books_are_of_many_kinds() {
    let names: Vec<Names> = Generator::new(1, vec![Op::Book])
        .take(20_000)
        .filter_map(|request| match request {
            Request::Book { bytes } => Some(open(&bytes).ok()?.names),
            _ => None,
        })
        .collect();
    let count = |kind: &dyn Fn(&Names) -> bool| names.iter().filter(|names| kind(names)).count();
    let all = |names: &Names, length| names[..12].iter().all(|name| name.len() == length);
    assert!(names.len() > 5000);
    assert!(count(&|names| all(names, 2)) > 100);
    assert!(count(&|names| all(names, 20)) > 100);
    assert!(count(&|names| names[..12] == names[12..24]) > 100);
    assert!(count(&|names| names[24..31] == names[..7]) > 100);
    assert!(count(&|names| names[0].starts_with(&names[12]) && names[0] != names[12]) > 100);
    assert!(count(&|names| names[52..].iter().collect::<HashSet<_>>().len() == 1) > 100);
    assert!(count(&|names| names[0][0] == names[1][0] && names[0][..2] == names[1][..2]) > 100);
}
