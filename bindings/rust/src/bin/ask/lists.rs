//! `list P T NOW ROWS`, with the words `strict`, `second` and `book:B`

use crate::answers::{agreed, numbered, refused};
use crate::books::with_book;
use crate::marks::ENTRY;
use crate::pair::Pair;
use crate::reading::choices;
use crate::words::Words;
use sheet::{raw, Book, Choices, Columns, Line, ParseUnit, Refusal};

/// No line of the protocol has a text with more lines.
const MOST_ROWS: usize = 20_000;

/// What is asked: a list, and how many cells each of the lent rows has.
pub struct List {
    pub choices: Choices,
    pub pattern: Vec<u8>,
    pub text: Vec<u8>,
    pub current_year: i32,
    pub rows: usize,
}

pub fn answer(words: Words) -> Option<String> {
    answered(words, List::answer)
}

/// By the reader of lists that is given.
pub fn answered(mut words: Words, read: impl FnOnce(&List, Option<&Book>) -> String) -> Option<String> {
    let (pattern, text, current_year) = (words.bytes()?, words.bytes()?, words.number()?);
    let list = List {
        pattern,
        text,
        current_year,
        rows: words.number().filter(|rows| *rows <= MOST_ROWS)?,
        choices: choices(Pair::Full, &mut words),
    };
    let book = words.book();
    words.end()?;
    Some(with_book(book, |book| read(&list, book)))
}

impl List {
    /// What is laid into lent rows; where the function that makes its own, or the lines one by one, give something else, all
    /// answers.
    fn answer(&self, book: Option<&Book>) -> String {
        let lent = agreed(self.lent(book).answer(), self.own(book));
        match self.by_lines(book.unwrap_or(Book::english())) {
            Some(lines) => agreed(lent, lines),
            None => lent,
        }
    }

    fn lent(&self, book: Option<&Book>) -> Lent {
        let book = book.map_or(&[][..], |book| book.row());
        let mut lent = Lent::filled(self.rows);
        // SAFETY: each pointer goes with the length of the slice that it comes from, and what is altered is borrowed alone.
        lent.number = unsafe {
            raw::sheet_read_list(
                self.choices.number(),
                book.as_ptr(),
                book.len(),
                self.pattern.as_ptr(),
                self.pattern.len(),
                self.text.as_ptr(),
                self.text.len(),
                self.current_year,
                lent.columns.days.as_mut_ptr(),
                lent.columns.days.len(),
                lent.columns.months.as_mut_ptr(),
                lent.columns.months.len(),
                lent.columns.years.as_mut_ptr(),
                lent.columns.years.len(),
                lent.columns.codes.as_mut_ptr(),
                lent.columns.codes.len(),
                lent.answer.as_mut_ptr(),
                lent.answer.len(),
            )
        };
        lent
    }

    /// By the function that makes its rows.
    fn own(&self, book: Option<&Book>) -> String {
        let Self { pattern, text, .. } = self;
        let columns = match book {
            None if self.choices == Choices::new() => sheet::read_list(pattern, text, self.current_year),
            book => {
                let book = book.unwrap_or(Book::english());
                sheet::read_list_by(self.choices, book, pattern, text, self.current_year)
            }
        };
        self.shown(columns)
    }

    /// What a function answers that makes its rows.
    pub fn shown(&self, columns: Result<Columns, Refusal>) -> String {
        match columns {
            Ok(columns) => self.listed_or_short(&columns),
            Err(refusal) => refused(&refusal),
        }
    }

    /// By the line reader, line by line. A pattern or a year that is refused is refused for each line, of which there may be none.
    fn by_lines(&self, book: &Book) -> Option<String> {
        let lines = sheet::lines_by(self.choices, book, &self.pattern, &self.text, self.current_year);
        let mut columns = Columns::default();
        let mut of_all = None;
        for line in lines {
            push(&mut columns, &line);
            of_all = line.answer.err().filter(is_of_all_lines).or(of_all);
        }
        match of_all {
            Some(refusal) => Some(refused(&refusal)),
            None if columns.is_empty() => None,
            None => Some(self.listed_or_short(&columns)),
        }
    }

    /// All columns, or the refusal where the rows that are lent have fewer cells.
    fn listed_or_short(&self, columns: &Columns) -> String {
        if columns.len() <= self.rows {
            listed(columns, columns.len())
        } else {
            format!("refused {} 0", raw::SHORT_ROW)
        }
    }
}

/// As a list stores a line.
fn push(columns: &mut Columns, line: &Line) {
    let value = |unit| {
        let value = line.answer.as_ref().ok().and_then(|reading| reading.value(unit));
        value.unwrap_or_default() as i32
    };
    columns.days.push(value(ParseUnit::DayOfMonth));
    columns.months.push(value(ParseUnit::Month));
    columns.years.push(value(ParseUnit::Year));
    columns
        .codes
        .push(line.answer.as_ref().err().map_or(0, Refusal::number));
}

/// Of the pattern or of the current year, and not of a line's own bytes.
fn is_of_all_lines(refusal: &Refusal) -> bool {
    matches!(
        refusal.number(),
        raw::PATTERN_TOO_LONG..=raw::LONE_QUOTE | raw::CURRENT_YEAR
    )
}

/// The first lines of columns, as many as are there.
fn listed(columns: &Columns, lines: usize) -> String {
    let mut line = format!("list {lines}");
    let Columns {
        days,
        months,
        years,
        codes,
    } = columns;
    for (((code, day), month), year) in codes.iter().zip(days).zip(months).zip(years).take(lines) {
        line += &format!(" {code}:{day}:{month}:{year}");
    }
    line
}

/// What a list returned, and left in the rows that it was lent.
pub struct Lent {
    pub number: u32,
    pub answer: [i64; raw::LIST_ANSWER],
    pub columns: Columns,
}

/// A cell that no list lays at this place, and another one than its neighbours'.
fn mark(place: usize) -> i32 {
    -1_000_000_000 - place as i32
}

impl Lent {
    pub fn filled(rows: usize) -> Lent {
        let marks: Vec<i32> = (0..rows).map(mark).collect();
        Lent {
            number: raw::ACCEPTED,
            answer: [ENTRY; raw::LIST_ANSWER],
            columns: Columns {
                codes: marks.iter().map(|mark| *mark as u32).collect(),
                days: marks.clone(),
                months: marks.clone(),
                years: marks,
            },
        }
    }

    /// The first place from the given one on at which a row has not the mark that filled it.
    fn first_altered(&self, from: usize) -> Option<usize> {
        let Columns {
            days,
            months,
            years,
            codes,
        } = &self.columns;
        (from..codes.len()).find(|place| {
            let cells = [days[*place], months[*place], years[*place], codes[*place] as i32];
            cells != [mark(*place); 4]
        })
    }

    /// Of an accepted list its columns; what is altered behind them, or by a refused one anywhere, is the answer in their place.
    pub fn answer(&self) -> String {
        let [first, second] = self.answer;
        let lines = match self.number {
            raw::ACCEPTED => first as usize,
            _ => 0,
        };
        if let Some(place) = self.first_altered(lines) {
            return format!("altered {place}");
        }
        match (self.number, second) {
            (raw::ACCEPTED, 0) => listed(&self.columns, lines),
            (raw::ACCEPTED, _) => numbered("answer", &self.answer),
            (number, 0) => format!("refused {number} {first}"),
            _ => numbered("answer", &self.answer),
        }
    }
}

#[cfg(test)]
mod tests {
    use super::{answer, Lent, List};
    use crate::hex;
    use crate::words::Words;
    use sheet::{Book, Choices};

    fn asked(words: &str) -> Option<String> {
        answer(Words::of(words.as_bytes()))
    }

    /// Of a pattern, a text and what stands behind them.
    fn listed(pattern: &str, text: &str, rest: &str) -> String {
        let [pattern, text] = [pattern, text].map(|word| hex::encoded(word.as_bytes()));
        asked(&format!("{pattern} {text} {rest}")).expect("a request")
    }

    #[test]
    fn lines_with_their_codes_and_values() {
        let text = "3/1\nx\n14/12/25";
        assert_eq!(listed("d/M", text, "2025 3"), "list 3 0:3:1:0 9:0:0:0 0:14:1:0");
        assert_eq!(listed("d/M", text, "2025 3 second"), "list 3 0:3:1:0 9:0:0:0 0:14:12:0");
        assert_eq!(listed("d/M", text, "2025 3 strict"), "list 3 0:3:1:0 9:0:0:0 16:0:0:0");
        assert_eq!(listed("d/M/yy", text, "2025 9"), "list 3 8:0:0:0 9:0:0:0 9:0:0:0");
        assert_eq!(
            listed("d/M/yy", text, "2025 9 strict second"),
            "list 3 8:0:0:0 9:0:0:0 0:14:12:2025"
        );
        assert_eq!(listed("d", "", "2025 0"), "list 0");
        assert_eq!(listed("", "\n\n", "2025 2"), "list 2 0:0:0:0 0:0:0:0");
        assert_eq!(listed("y", "-2147483648", "2025 1"), "list 1 0:0:0:-2147483648");
    }

    #[test]
    fn carriage_returns_are_of_their_lines() {
        assert_eq!(listed("dd", "03\r\n\r\n", "2025 2"), "list 2 0:3:0:0 8:0:0:0");
        assert_eq!(listed("dd", "03\r\n04", "2025 2 strict"), "list 2 16:0:0:0 0:4:0:0");
        assert_eq!(listed("dd\r", "03\r\n04", "2025 2 strict"), "list 2 0:3:0:0 8:0:0:0");
    }

    #[test]
    fn refused_in_the_order_of_their_numbers() {
        let long = "d".repeat(257);
        assert_eq!(listed(&long, "3\n4", "0 0"), "refused 1 257");
        assert_eq!(listed("\0'", "3\n4", "0 0"), "refused 2 0");
        assert_eq!(listed("'", "3\n4", "0 0"), "refused 3 0");
        assert_eq!(listed("d", "3\n4", "0 0"), "refused 14 0");
        assert_eq!(listed("d", "3\n4", "80 0 second"), "refused 14 80");
        for rows in [0, 1] {
            assert_eq!(listed("d", "3\n4", &format!("2025 {rows}")), "refused 24 0");
        }
        // Also where there is no line.
        assert_eq!(listed("'", "", "2025 0"), "refused 3 0");
        assert_eq!(listed("d", "", "-1 20000"), "refused 14 -1");
    }

    #[test]
    fn by_the_word_for_a_book() {
        let mut names = Book::english().names();
        names.short_months[4] = "Mai";
        let book = hex::encoded(&Book::from_names(names).expect("these are names").write());
        let text = "3 May\n3 Mai";
        assert_eq!(listed("d MMM", text, "2025 2"), "list 2 0:3:5:0 10:0:0:0");
        for word in ["", " strict", " second", " strict second"] {
            let rest = format!("2025 2{word} book:{book}");
            assert_eq!(listed("d MMM", text, &rest), "list 2 10:0:0:0 0:3:5:0");
            assert_eq!(listed("'", text, &format!("2025 0{word} book:-")), "refused 20 0");
        }
    }

    #[test]
    fn rows_are_up_to_20000_and_words_in_their_order() {
        assert_eq!(asked("64 33 2025 20000").as_deref(), Some("list 1 0:3:0:0"));
        for words in [
            "64 33 2025 20001",
            "64 33 2025 -1",
            "64 33 2025 -0",
            "64 33 2025",
            "64 33 2025 strict",
            "64 33 2025 1 ",
            "64 33 2025 1 second strict",
            "64 33 2025 1 strict strict",
            "64 33 2025 1 book:- second",
            "64 33 2025 1 book:",
            "64 33 2025 1 1",
            "64 33 1 2147483648",
        ] {
            assert_eq!(asked(words), None, "{words}");
        }
    }

    fn list(rows: usize) -> List {
        List {
            choices: Choices::new(),
            pattern: b"d".to_vec(),
            text: b"3\nx".to_vec(),
            current_year: 2025,
            rows,
        }
    }

    /// In each of the four rows, behind the last line of a list and anywhere after a refused one.
    #[test]
    fn a_cell_that_is_altered_besides_is_shown() {
        for (rows, first, line) in [(5, 2, "list 2 0:3:0:0 9:0:0:0"), (1, 0, "refused 24 0")] {
            assert_eq!(list(rows).lent(None).answer(), line);
            for place in first..rows {
                for row in 0..4 {
                    let mut lent = list(rows).lent(None);
                    match row {
                        0 => lent.columns.codes[place] = 0,
                        1 => lent.columns.days[place] = 0,
                        2 => lent.columns.months[place] += 1,
                        _ => lent.columns.years[place] = 0,
                    }
                    assert_eq!(lent.answer(), format!("altered {place}"));
                }
            }
        }
        let mut lent: Lent = list(2).lent(None);
        lent.answer[1] = 7;
        assert_eq!(lent.answer(), "answer 2 7");
    }

    #[test]
    fn lines_one_by_one_give_the_same() {
        let book = Book::english();
        assert_eq!(list(2).by_lines(book).as_deref(), Some("list 2 0:3:0:0 9:0:0:0"));
        assert_eq!(list(1).by_lines(book).as_deref(), Some("refused 24 0"));
        let other = |text: &[u8], pattern: &[u8]| List {
            text: text.to_vec(),
            pattern: pattern.to_vec(),
            ..list(0)
        };
        assert_eq!(other(b"", b"d").by_lines(book), None);
        assert_eq!(other(b"", b"'").by_lines(book), None);
        assert_eq!(other(b"\n", b"'").by_lines(book).as_deref(), Some("refused 3 0"));
    }
}
