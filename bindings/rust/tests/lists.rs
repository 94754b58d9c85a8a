//! Lists: each line's answer is that of the line by itself, by every choice and with every book; what a line is; lent rows.

mod shelves;

use sheet::{
    explain_by, lines, lines_by, read_by, read_list, read_list_by, read_list_by_into, Book, Choices, Columns, Edition,
    Line, ParseUnit, Reading, Refusal, Rows,
};
use shelves::{some_books, Random};

const YEAR: i32 = 2025;

fn all_choices() -> Vec<Choices> {
    let none = Choices::new();
    let first = [none, none.date(), none.strict(), none.date().strict()];
    let second = first.map(|choices| choices.edition(Edition::Second));
    [first, second].concat()
}

/// Its lines by another way than the library's: what stands between newlines, without the last where it is empty.
fn lines_of(text: &[u8]) -> Vec<&[u8]> {
    let mut lines: Vec<&[u8]> = text.split(|byte| *byte == b'\n').collect();
    if lines.last().is_some_and(|line| line.is_empty()) {
        lines.pop();
    }
    lines
}

/// What the columns have to be by the lines' own answers.
fn columns_of(answers: &[Result<Reading, Refusal>]) -> Columns {
    let values = |unit| {
        let value = |reading: &Reading| reading.value(unit).unwrap_or_default() as i32;
        let answers = answers.iter();
        answers.map(move |answer| answer.as_ref().map_or(0, value)).collect()
    };
    Columns {
        days: values(ParseUnit::DayOfMonth),
        months: values(ParseUnit::Month),
        years: values(ParseUnit::Year),
        codes: answers
            .iter()
            .map(|answer| answer.as_ref().err().map_or(0, Refusal::number))
            .collect(),
    }
}

/// The columns, and each line with its place, are those of the lines by themselves.
#[track_caller]
fn is_read_line_by_line(choices: Choices, book: &Book, pattern: &[u8], text: &[u8]) -> Columns {
    let expected = lines_of(text);
    let answers: Vec<_> = expected
        .iter()
        .map(|line| read_by(choices, book, pattern, line, YEAR))
        .collect();
    let columns = read_list_by(choices, book, pattern, text, YEAR).expect("the pattern is read with");
    assert_eq!(columns, columns_of(&answers));
    let found: Vec<Line> = lines_by(choices, book, pattern, text, YEAR).collect();
    assert_eq!(found.len(), expected.len());
    let mut start = 0;
    for (number, (line, answer)) in found.into_iter().zip(answers).enumerate() {
        let end = start + expected[number].len();
        assert_eq!(
            (line.number, line.place, line.text),
            (number, start..end, &text[start..end])
        );
        assert_eq!(line.answer, answer);
        start = end + 1;
    }
    columns
}

/// The same by every choice; the answer is that of no choice.
#[track_caller]
fn by_all_choices(pattern: &str, text: &[u8]) -> Columns {
    for choices in all_choices() {
        is_read_line_by_line(choices, Book::english(), pattern.as_bytes(), text);
    }
    let columns = read_list(pattern, text, YEAR).expect("the pattern is read with");
    assert_eq!(
        Ok(&columns),
        read_list_by(Choices::new(), Book::english(), pattern, text, YEAR).as_ref()
    );
    assert!(lines(pattern, text, YEAR).eq(lines_by(Choices::new(), Book::english(), pattern, text, YEAR)));
    columns
}

#[test]
fn an_empty_text_has_no_line() {
    let columns = by_all_choices("dd", b"");
    assert!(columns.is_empty() && columns == Columns::default());
    assert_eq!(lines("dd", "", YEAR).next(), None);
}

#[test]
fn no_newline_at_all() {
    let columns = by_all_choices("d/MM", b"3/12");
    assert_eq!(
        (columns.len(), columns.days[0], columns.months[0], columns.codes[0]),
        (1, 3, 12, 0)
    );
    assert_eq!(by_all_choices("d/MM", &[b'3'; 100_000]).codes, [6]);
}

#[test]
fn only_newlines() {
    for count in [1, 2, 7, 2048, 2049, 5000] {
        let text = vec![b'\n'; count];
        assert_eq!(by_all_choices("dd", &text).codes, vec![8; count]);
        assert_eq!(by_all_choices("", &text).codes, vec![0; count]);
    }
}

#[test]
fn a_last_line_counts_with_a_newline_and_without() {
    for text in ["03\n04", "03\n04\n"] {
        assert_eq!(by_all_choices("dd", text.as_bytes()).days, [3, 4]);
    }
    assert_eq!(by_all_choices("dd", b"03\n04\n\n").codes, [0, 0, 8]);
    assert_eq!(by_all_choices("dd", b"\n03\n04").codes, [8, 0, 0]);
}

/// The limit is for each line, and a line over it spoils no other.
#[test]
fn a_line_of_2049_bytes_between_good_ones() {
    for (length, code) in [(2047, 0), (2048, 0), (2049, 6), (100_000, 6)] {
        let text = [b"03\n".to_vec(), vec![b'4'; length], b"\n05\n".to_vec()].concat();
        let columns = by_all_choices("dd", &text);
        assert_eq!(columns.codes, [0, code, 0]);
        assert_eq!(columns.days, [3, if code == 0 { 44 } else { 0 }, 5]);
    }
}

#[test]
fn a_text_has_no_limit() {
    let columns = read_list("dd/MM", "03/12\n".repeat(100_000), YEAR).expect("the pattern is read with");
    assert_eq!((columns.days, columns.codes), (vec![3; 100_000], vec![0; 100_000]));
}

#[test]
fn bytes_above_127_and_others() {
    for byte in (0..=255).filter(|byte| *byte != b'\n') {
        let text = [b"03 ", &[byte][..], b"\n04\n", &[byte][..], b"\n\0\n05"].concat();
        let columns = by_all_choices("dd", &text);
        let rest = if byte > 127 { 7 } else { 0 };
        let alone = if byte > 127 { 7 } else { 8 };
        assert_eq!(columns.codes, [rest, 0, alone, 8, 0], "{byte}");
        assert_eq!((columns.days[1], columns.days[4]), (4, 5));
    }
}

/// A plain reading leaves it unread, a strict one finds it left over, and a part that takes a byte takes it.
#[test]
fn a_carriage_return_belongs_to_its_line() {
    let text = b"03\r\n04\r\n\r\n05\r";
    let strict = |pattern: &str| {
        let columns = read_list_by(Choices::new().strict(), Book::english(), pattern, text, YEAR);
        columns.expect("the pattern is read with").codes
    };
    let columns = by_all_choices("dd", text);
    assert_eq!((columns.codes, columns.days), (vec![0, 0, 8, 0], vec![3, 4, 0, 5]));
    assert_eq!(strict("dd"), [16, 16, 8, 16]);
    assert_eq!(strict("dd\r"), [0, 0, 8, 0]);
    assert_eq!(by_all_choices("ddd", b"1\r\n").codes, [9]);
    assert_eq!(by_all_choices("d", b"1\r\n2\r3\n").days, [1, 2]);
    let first = lines("dd", text, YEAR).next().expect("there are four");
    assert_eq!((first.text, first.place), (&b"03\r"[..], 0..3));
}

/// Every edition, pair and strictness shows in the columns.
#[test]
fn every_choice() {
    let text = "3/12/71 7\n4-1-05 8\n5/1/1x 9";
    let codes_and_months = |choices| {
        let columns = is_read_line_by_line(choices, Book::english(), b"d/M/yy H", text.as_bytes());
        (columns.codes, columns.months)
    };
    let plain = Choices::new();
    let second = plain.edition(Edition::Second);
    assert_eq!(codes_and_months(plain), (vec![9, 0, 9], vec![0, 1, 0]));
    assert_eq!(codes_and_months(second), (vec![0, 0, 9], vec![12, 1, 0]));
    assert_eq!(codes_and_months(second.strict()), (vec![0, 15, 9], vec![12, 0, 0]));
    assert_eq!(
        codes_and_months(second.strict().date()),
        (vec![15, 15, 9], vec![0, 0, 0])
    );
    assert_eq!(codes_and_months(second.date()), (vec![0, 0, 9], vec![12, 1, 0]));
}

/// The largest values that a year, a month and a day have.
#[test]
fn values_at_their_ends() {
    let columns = by_all_choices("y", b"-2147483648\n2147483647\n2147483648");
    assert_eq!(
        (columns.years, columns.codes),
        (vec![i32::MIN, i32::MAX, 0], vec![0, 0, 9])
    );
    assert_eq!(by_all_choices("d/MM", b"99/99\n00/00").days, [99, 0]);
    assert_eq!(by_all_choices("MM", b"99\n00").months, [99, 0]);
}

/// Lines that are good, damaged, empty or any bytes, by patterns of every kind and with every book.
#[test]
fn any_list_is_read_line_by_line() {
    let mut random = Random::new();
    let patterns = [
        "d/MM/yyyy",
        "yyyy-MM-dd",
        "d MMM yy",
        "eeee, d MMMM",
        "D yyyy",
        "HH:mm d.M.",
        "'x'dd",
        "",
    ];
    let mut codes = [0; 25];
    for turn in 0..2000 {
        let books = some_books();
        let (book, pattern) = (&books[turn % books.len()], *random.pick(&patterns));
        let mut text = Vec::new();
        for _ in 0..random.below(12) {
            text.extend(some_line(&mut random, book, pattern));
            text.extend(*random.pick(&[&b"\n"[..], b"\n", b"\r\n", b"\n\n"]));
        }
        text.truncate(text.len() - random.below(2).min(text.len()));
        let choices = *random.pick(&all_choices());
        let columns = is_read_line_by_line(choices, book, pattern.as_bytes(), &text);
        columns.codes.iter().for_each(|code| codes[*code as usize] += 1);
    }
    assert!(
        [0, 7, 8, 9, 10, 15, 16, 19].iter().all(|code| codes[*code] > 20),
        "{codes:?}"
    );
}

fn some_line(random: &mut Random, book: &Book, pattern: &str) -> Vec<u8> {
    let day = sheet::day_of(random.below(3_000_000) as i32);
    let mut line = sheet::write_by(Choices::new(), book, pattern, &day.into())
        .expect("it is written")
        .into_bytes();
    let place = random.below(line.len() + 1);
    match random.below(6) {
        0 => line.truncate(place),
        1 => line.insert(place, *random.pick(b"+-/x0")),
        2 => line.insert(place, random.byte()),
        3 => line.extend(b" late"),
        _ => (),
    }
    line
}

/// Where one of its bytes changes, the cells of the other lines stay.
#[test]
fn a_bad_line_spoils_no_other() {
    let good: Vec<String> = (1..=20).map(|day| format!("{day:02}/12")).collect();
    for bad in ["", "x", "5/1", "\u{e9}", &"3".repeat(3000)] {
        for place in 0..good.len() {
            let mut list = good.clone();
            list[place] = bad.to_string();
            let columns = by_all_choices("dd/MM", list.join("\n").as_bytes());
            for (line, code) in columns.codes.iter().enumerate() {
                let day = if line == place { 0 } else { line as i32 + 1 };
                assert_eq!((*code == 0, columns.days[line]), (line != place, day));
            }
        }
    }
}

/// The pattern and the current year, whatever the text; for each line by itself.
#[test]
fn refused_for_all_lines() {
    for (pattern, year, number) in [
        ("d".repeat(257), 0, 1),
        ("\0'".into(), 0, 2),
        ("d'".into(), 0, 3),
        ("d".into(), 0, 14),
        ("d".into(), 10_000, 14),
    ] {
        for text in ["", "3", "3\n\u{e9}\n"] {
            let refusal = read_list(&pattern, text, year).expect_err("it is refused");
            assert_eq!(refusal.number(), number);
            assert!(lines(&pattern, text, year).all(|line| line.answer == Err(refusal)));
        }
    }
    let second = Choices::new().edition(Edition::Second);
    let refusal = read_list_by(second, Book::english(), "d", "3", 80).expect_err("it is refused");
    assert_eq!((refusal.number(), refusal.details()), (14, &[80][..]));
}

/// What is left of the text after each line, and that there is an end.
#[test]
fn lines_come_one_after_the_other() {
    let mut lines = lines("dd", "03\n\n04", YEAR);
    for rest in ["03\n\n04", "\n04", "04", ""] {
        assert_eq!(lines.rest(), rest.as_bytes());
        assert_eq!(lines.clone().count(), lines_of(rest.as_bytes()).len());
        lines.next();
    }
    assert!(lines.next().is_none() && lines.next().is_none() && lines.rest().is_empty());
}

/// Rows of different lengths; cells behind the last line stay, and none is altered where one row is too short.
#[test]
fn into_lent_rows() {
    let text = "03/12\nx\n05/11";
    for cells in 0..4_usize.pow(4) {
        let lengths = [cells % 4, cells / 4 % 4, cells / 16 % 4, cells / 64].map(|length| length + 1);
        let [mut days, mut months, mut years] = [0, 1, 2].map(|row| vec![-7; lengths[row]]);
        let mut codes = vec![77; lengths[3]];
        let rows = Rows {
            days: &mut days,
            months: &mut months,
            years: &mut years,
            codes: &mut codes,
        };
        let answer = read_list_by_into(Choices::new(), Book::english(), "dd/MM", text, YEAR, rows);
        let short = lengths.iter().any(|length| *length < 3);
        assert_eq!(
            answer.map_err(|refusal| refusal.number()),
            if short { Err(24) } else { Ok(3) }
        );
        let after = |laid: [i32; 3], mark: i32, length: usize| -> Vec<i32> {
            let laid = laid.into_iter().take(if short { 0 } else { 3 });
            laid.chain(std::iter::repeat(mark)).take(length).collect()
        };
        assert_eq!(days, after([3, 0, 5], -7, lengths[0]));
        assert_eq!(months, after([12, 0, 11], -7, lengths[1]));
        assert_eq!(years, after([0, 0, 0], -7, lengths[2]));
        let codes: Vec<i32> = codes.iter().map(|code| *code as i32).collect();
        assert_eq!(codes, after([0, 8, 0], 77, lengths[3]));
    }
}

/// Behind 1, 2, 3 and 14, and with a sentence that has no details.
#[test]
fn rows_that_are_too_short() {
    let into_none = |pattern: &str, text: &str, year| {
        let rows = Rows {
            days: &mut [],
            months: &mut [],
            years: &mut [],
            codes: &mut [],
        };
        read_list_by_into(Choices::new(), Book::english(), pattern, text, year, rows)
    };
    let number = |pattern: &str, text: &str, year| into_none(pattern, text, year).map_err(|refusal| refusal.number());
    assert_eq!(number(&"d".repeat(257), "3", 0), Err(1));
    assert_eq!(number("\0'", "3", 0), Err(2));
    assert_eq!(number("'", "3", 0), Err(3));
    assert_eq!(number("d", "3", 0), Err(14));
    assert_eq!(number("d", "\u{e9}", YEAR), Err(24));
    assert_eq!(into_none("d", "", YEAR), Ok(0));
    let refusal = into_none("d", "\n", YEAR).expect_err("a row is too short");
    assert_eq!(refusal.details(), [0]);
    assert_eq!(refusal.to_string(), "a row is shorter than the lines");
    assert_eq!(
        explain_by(Choices::new(), Book::english(), "d", "\n", &refusal),
        refusal.text()
    );
}
