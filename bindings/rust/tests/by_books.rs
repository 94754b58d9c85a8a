//! Writing and reading with the names of a book: with English as without a book, with others by their names alone, and there and
//! back.

mod shelves;

use sheet::{
    check_with, explain_by, raw, read_by, read_with, split, write, write_by, write_by_into, write_date, Book, Choices,
    Edition, Fields, ParseUnit, Verdict,
};
use shelves::{some_books, Random, DUTCH, SPANISH};

const R: Fields = Fields {
    year: 2025,
    month: 12,
    day: 3,
    day_of_year: 337,
    week: 49,
    weekday: 3,
    nanoseconds: 25_509_000_120_000,
    offset: 19_800,
};

fn all_choices() -> [Choices; 8] {
    let plain = Choices::new();
    let first = [plain, plain.date(), plain.strict(), plain.date().strict()];
    let second = first.map(|choices| choices.edition(Edition::Second));
    std::array::from_fn(|place| if place < 4 { first[place] } else { second[place - 4] })
}

/// Any record of a real day.
fn some_day(random: &mut Random) -> Fields {
    let day = sheet::day_of(random.below(3_652_000) as i32);
    Fields {
        nanoseconds: random.next() % 86_400_000_000_000,
        offset: random.below(172_799) as i32 - 86_399,
        ..day.into()
    }
}

/// Names more often than not, with other symbols and literals between.
fn some_pattern(random: &mut Random) -> Vec<u8> {
    let mut pattern = Vec::new();
    for _ in 0..=random.below(5) {
        let symbol = *random.pick(b"MMMMeeeedyDHmsGqwahnXx/ .:'");
        let count = 1 + random.below(7);
        pattern.extend(vec![symbol; count]);
    }
    pattern
}

/// A text that was written, mostly, of which some bytes may be altered.
fn some_text(random: &mut Random, book: &Book, pattern: &[u8]) -> Vec<u8> {
    let written = write_by(Choices::new(), book, pattern, &some_day(random));
    let mut text = written.map_or_else(|_| b"December 3".to_vec(), String::into_bytes);
    for _ in 0..random.below(3) {
        let place = random.below(text.len() + 1);
        match random.below(3) {
            0 => text.truncate(place),
            1 => text.insert(place, *random.pick(b"0 Ma-+\xff")),
            _ if place < text.len() => text[place] = *random.pick(b"05/aMD"),
            _ => text.push(b'x'),
        }
    }
    text
}

/// By the function as C sees it, with no bytes for a book: what it returns and leaves.
fn read_by_none(choices: Choices, pattern: &[u8], text: &[u8]) -> (u32, [i64; raw::READ_ANSWER]) {
    let mut row = [0; raw::READ_ANSWER];
    let (answer, entries) = (row.as_mut_ptr(), row.len());
    let (book, year) = (std::ptr::null(), 2025);
    let (p, p_len, t, t_len) = (pattern.as_ptr(), pattern.len(), text.as_ptr(), text.len());
    // SAFETY: each pointer goes with the length of what it points to, and is null only with the length 0.
    let number = unsafe { raw::sheet_read_by(choices.number(), book, 0, p, p_len, t, t_len, year, answer, entries) };
    (number, row)
}

fn read_without(choices: Choices, pattern: &[u8], text: &[u8]) -> (u32, [i64; raw::READ_ANSWER]) {
    let mut row = [0; raw::READ_ANSWER];
    let (answer, entries) = (row.as_mut_ptr(), row.len());
    let (p, p_len, t, t_len) = (pattern.as_ptr(), pattern.len(), text.as_ptr(), text.len());
    // SAFETY: each pointer goes with the length of the slice that it comes from.
    let number = unsafe { raw::sheet_read_with(choices.number(), p, p_len, t, t_len, 2025, answer, entries) };
    (number, row)
}

#[test]
fn english_reads_as_without_a_book() {
    let mut random = Random::new();
    let mut accepted = 0;
    for _ in 0..5000 {
        let pattern = some_pattern(&mut random);
        let text = some_text(&mut random, Book::english(), &pattern);
        for choices in all_choices() {
            let without = read_with(choices, &pattern, &text, 2025);
            assert_eq!(read_by(choices, Book::english(), &pattern, &text, 2025), without);
            assert_eq!(
                read_by_none(choices, &pattern, &text),
                read_without(choices, &pattern, &text)
            );
            accepted += usize::from(without.is_ok());
        }
    }
    assert!(accepted > 10_000, "only {accepted} were accepted");
}

#[test]
fn english_writes_as_without_a_book() {
    let mut random = Random::new();
    for _ in 0..5000 {
        let pattern = some_pattern(&mut random);
        let mut fields = some_day(&mut random);
        if random.below(10) == 0 {
            fields.weekday = 7;
        }
        for choices in all_choices() {
            let without = match choices.number() & raw::DATE_PAIR {
                0 => write(&pattern, &fields),
                _ => write_date(&pattern, &fields),
            };
            assert_eq!(write_by(choices, Book::english(), &pattern, &fields), without);
        }
    }
}

/// In lent bytes those behind the text are not altered, and refused none.
#[test]
fn into_lent_bytes() {
    for book in some_books() {
        let text = write_by(Choices::new(), &book, "eeee, d MMMM", &R).expect("there is room");
        let mut out = vec![255; text.len() + 3];
        let short = &mut out[..text.len() - 1];
        let refusal = write_by_into(Choices::new(), &book, "eeee, d MMMM", &R, short).expect_err("it is too short");
        assert_eq!((refusal.number(), refusal.details()), (5, &[text.len() as i64][..]));
        assert_eq!(out, vec![255; text.len() + 3]);
        let length = write_by_into(Choices::new(), &book, "eeee, d MMMM", &R, &mut out);
        assert_eq!(length, Ok(text.len()));
        assert_eq!(out, [text.as_bytes(), &[255; 3]].concat());
    }
}

#[test]
fn in_dutch_and_in_spanish() {
    let [dutch, spanish] = [DUTCH, SPANISH].map(|bytes| Book::read(bytes).expect("it is a book"));
    let written = |book: &Book, pattern: &str| write_by(Choices::new(), book, pattern, &R).expect("there is room");
    assert_eq!(written(&dutch, "eeee d MMMM yyyy"), "woensdag 3 december 2025");
    assert_eq!(
        written(&dutch, "eee d MMM, eeeeee, eeeee, MMMMM"),
        "woe 3 dec, wo, W, D"
    );
    assert_eq!(written(&spanish, "eeee, d 'de' MMMM"), "miercoles, 3 de diciembre");
    assert_eq!(
        written(&spanish, "eee d MMM, eeeeee, eeeee, MMMMM"),
        "mie 3 dic, mi, X, D"
    );

    let read = |book: &Book, pattern: &str, text: &str| {
        read_by(Choices::new().strict(), book, pattern, text, 2025).map(|reading| reading.value(ParseUnit::Month))
    };
    assert_eq!(read(&dutch, "eeee d MMMM", "zaterdag 1 maart"), Ok(Some(3)));
    assert_eq!(read(&spanish, "d 'de' MMMM", "3 de septiembre"), Ok(Some(9)));
    assert_eq!(read(&spanish, "MMM", "ago"), Ok(Some(8)));
    let number = |book: &Book, pattern: &str, text: &str| read(book, pattern, text).map_err(|refusal| refusal.number());
    assert_eq!(number(&dutch, "MMMM", "March"), Err(10));
    assert_eq!(number(&dutch, "MMMM", "Maart"), Err(10));
    assert_eq!(number(&dutch, "eeee", "Saturday"), Err(10));
}

/// Eras, quarters, periods, numbers and zones are the same with every book.
#[test]
fn all_other_symbols_are_the_same() {
    for book in some_books() {
        for symbol in *b"GyqwdDabhKHkmsnXx/" {
            for count in 1..=12 {
                let pattern = vec![symbol; count];
                let text = write(&pattern, &R).expect("there is room");
                assert_eq!(write_by(Choices::new(), &book, &pattern, &R).as_ref(), Ok(&text));
                for choices in all_choices() {
                    let without = read_with(choices, &pattern, &text, 2025);
                    assert_eq!(read_by(choices, &book, &pattern, &text, 2025), without);
                }
            }
        }
        for pattern in ["M", "MM", "e", "ee", "eeeeeee", "eeeeeeee"] {
            let text = write(pattern, &R).expect("there is room");
            assert_eq!(write_by(Choices::new(), &book, pattern, &R), Ok(text));
        }
    }
}

/// Every month and every weekday, by each symbol that has names.
#[test]
fn every_name_is_written_and_read() {
    let mut books = some_books();
    let mut random = Random::new();
    books.extend((0..50).map(|_| random.book()));
    for book in &books {
        let names = book.names();
        for (pattern, list) in [
            ("MMMM", names.wide_months),
            ("MMM", names.short_months),
            ("MMMMMMM", names.wide_months),
        ] {
            for (month, name) in (1..).zip(list) {
                let fields = Fields { month, ..R };
                assert_eq!(write_by(Choices::new(), book, pattern, &fields).as_deref(), Ok(name));
                let reading = read_by(Choices::new().strict(), book, pattern, name, 2025).expect("it is a name");
                assert_eq!(reading.value(ParseUnit::Month), Some(i64::from(month)));
                assert_eq!(reading.span(ParseUnit::Month), Some(0..name.len()));
            }
        }
        for (pattern, list) in [
            ("eeee", names.wide_weekdays),
            ("eee", names.short_weekdays),
            ("eeeeee", names.two_letter_weekdays),
            ("eeeee", names.narrow_weekdays),
        ] {
            for (weekday, name) in (0..).zip(list) {
                let fields = Fields { weekday, ..R };
                assert_eq!(write_by(Choices::new(), book, pattern, &fields).as_deref(), Ok(name));
                let reading = read_by(Choices::new().strict(), book, pattern, name, 2025).expect("it is a name");
                assert_eq!((reading.taken, reading.mask), (name.len(), 0));
            }
        }
        for (month, name) in (1..).zip(names.narrow_months) {
            let fields = Fields { month, ..R };
            assert_eq!(write_by(Choices::new(), book, "MMMMM", &fields).as_deref(), Ok(name));
        }
    }
}

/// A pattern that can be trusted carries the same with every book; of one that can't the part that is named takes the same of the
/// record that is shown.
#[test]
fn the_check_says_the_same_of_every_book() {
    let mut random = Random::new();
    let books = some_books();
    let (mut yes, mut no) = (0, 0);
    for _ in 0..4000 {
        let pattern = some_pattern(&mut random);
        for edition in [Edition::First, Edition::Second] {
            let choices = Choices::new().strict().edition(edition);
            match check_with(edition, &pattern, 2025) {
                Ok(Verdict::Yes) => {
                    let fields = some_day(&mut random);
                    books
                        .iter()
                        .for_each(|book| carries_the_same(choices, book, &pattern, &fields));
                    yes += 1;
                }
                Ok(Verdict::No { part, record }) => {
                    books
                        .iter()
                        .for_each(|book| fails_the_same(edition, book, &pattern, part, &record));
                    no += 1;
                }
                Err(_) => {}
            }
        }
    }
    assert!(yes > 500 && no > 500, "{yes} yes and {no} no");
}

#[track_caller]
fn carries_the_same(choices: Choices, book: &Book, pattern: &[u8], fields: &Fields) {
    let text = write(pattern, fields).expect("there is room");
    let english = read_with(choices, pattern, &text, 2025).expect("it comes back");
    let text = write_by(choices, book, pattern, fields).expect("there is room");
    let other = read_by(choices, book, pattern, &text, 2025).expect("it comes back");
    assert_eq!(other.taken, text.len());
    assert_eq!((other.mask, other.values), (english.mask, english.values));
}

#[track_caller]
fn fails_the_same(edition: Edition, book: &Book, pattern: &[u8], part: usize, record: &Fields) {
    let choices = Choices::new().edition(edition);
    let part = split(pattern).expect("it is allowed")[part];
    let taken = |book: &Book| {
        let written = |pattern: &[u8]| write_by(choices, book, pattern, record).expect("there is room");
        let start = written(&pattern[..part.start]).len();
        let text = written(pattern);
        let reading = read_by(choices, book, &pattern[part.range()], &text[start..], 2025);
        (written(&pattern[part.range()]), reading)
    };
    let (own, reading) = taken(book);
    assert_eq!((own.clone(), reading), taken(Book::english()));
    // Of a part that takes its own text it is the year that is another one.
    let comes_back = |year: i64| year == i64::from(record.year);
    assert!(!reading
        .is_ok_and(|reading| { reading.taken == own.len() && reading.value(ParseUnit::Year).is_none_or(comes_back) }));
}

#[test]
fn explained_by_its_names() {
    let [dutch, spanish] = [DUTCH, SPANISH].map(|bytes| Book::read(bytes).expect("it is a book"));
    let explained = |book: &Book, pattern: &str, text: &str| {
        let choices = Choices::new();
        let refusal = read_by(choices, book, pattern, text, 2025).expect_err("this is refused");
        explain_by(choices, book, pattern, text, &refusal)
    };
    assert_eq!(
        explained(&dutch, "d MMMM", "3 March 2025"),
        "`MMMM` needs a month such as `december`, found `March 202`"
    );
    assert_eq!(
        explained(&spanish, "eeee d", "Miercoles 3"),
        "`eeee` needs a weekday such as `miercoles`, found `Miercoles`"
    );
    // Found behind the name, which has another length than the English one.
    assert_eq!(
        explained(&dutch, "MMMM dd", "maart 3"),
        "`dd` needs two digits, found `3`"
    );
}
