//! Lists: what is expected of them, and what the generated ones are like.

use harness::choices::{Books, Choices, Edition};
use harness::expected::{expected, Expected};
use harness::generator::Generator;
use harness::lists::lines;
use harness::options::Options;
use harness::request::{hex, Op, Request};

/// The line that is expected, by a pattern and a text, and what stands behind them.
fn listed(pattern: &str, text: &str, rest: &str) -> String {
    let (pattern, text) = (hex(pattern.as_bytes()), hex(text.as_bytes()));
    let line = format!("list {pattern} {text} {rest}");
    let request = Request::from_line(&line).expect("it is a request");
    assert_eq!(request.to_string(), line);
    expected(&request).line().to_string()
}

#[test]
fn each_line_is_read_by_itself() {
    let text = "3/1\nx\n\n+5/1\n14/12";
    let plain = "list 5 0:3:1:0 9:0:0:0 8:0:0:0 19:0:0:0 0:14:1:0";
    assert_eq!(listed("d/M", text, "2025 5"), plain);
    assert_eq!(listed("d/M", text, "2025 99"), plain);
    let strict = "list 5 0:3:1:0 9:0:0:0 8:0:0:0 19:0:0:0 16:0:0:0";
    assert_eq!(listed("d/M", text, "2025 5 strict"), strict);
    let second = "list 5 0:3:1:0 9:0:0:0 8:0:0:0 19:0:0:0 0:14:12:0";
    for words in ["second", "strict second"] {
        assert_eq!(listed("d/M", text, &format!("2025 5 {words}")), second);
    }
}

#[test]
fn what_a_line_is() {
    assert_eq!(listed("dd", "", "2025 0"), "list 0");
    assert_eq!(listed("dd", "03", "2025 1"), "list 1 0:3:0:0");
    assert_eq!(listed("dd", "03\n", "2025 1"), "list 1 0:3:0:0");
    assert_eq!(
        listed("", "\n\n\n", "2025 3"),
        "list 3 0:0:0:0 0:0:0:0 0:0:0:0"
    );
    assert_eq!(listed("dd", "03\r\n", "2025 1"), "list 1 0:3:0:0");
    assert_eq!(
        listed("dd", "03\r\n04", "2025 2 strict"),
        "list 2 16:0:0:0 0:4:0:0"
    );
    assert_eq!(listed("dd", "03\r04\n", "2025 1"), "list 1 0:3:0:0");
}

/// The limits of a text are for each line.
#[test]
fn a_long_line_between_good_ones() {
    for (length, cells) in [(2048, "0:33:0:0"), (2049, "6:0:0:0")] {
        let text = format!("03\n{}\n04", "3".repeat(length));
        let expected = format!("list 3 0:3:0:0 {cells} 0:4:0:0");
        assert_eq!(listed("dd", &text, "2025 3"), expected);
    }
    assert_eq!(
        listed("dd", "03\n\u{e9}\n04", "2025 3"),
        "list 3 0:3:0:0 7:0:0:0 0:4:0:0"
    );
}

#[test]
fn refused_in_the_order_of_the_specification() {
    assert_eq!(listed(&"d".repeat(257), "3\n4", "0 0"), "refused 1 257");
    assert_eq!(listed("d\0'", "3\n4", "0 0"), "refused 2 1");
    assert_eq!(listed("d'", "3\n4", "0 0"), "refused 3 1");
    assert_eq!(listed("d", "3\n4", "0 0"), "refused 14 0");
    assert_eq!(listed("d", "3\n4", "80 0 second"), "refused 14 80");
    assert_eq!(listed("d", "3\n4", "2025 1"), "refused 24 0");
    assert_eq!(listed("d", "3\n4", "2025 2 book:-"), "refused 20 0");
}

fn generated(books: Option<Books>, count: usize) -> Vec<Request> {
    Generator::with(books, 1, Op::LISTS.to_vec())
        .take(count)
        .collect()
}

/// Each code that a line can have, in lists of each choice, and each refusal of a list.
#[test]
fn every_code_and_every_refusal_is_there() {
    for op in Op::LISTS {
        let choices = op.list_choices().expect("it is a list");
        let requests = Generator::new(1, vec![op]).take(4000);
        let answers: Vec<String> = requests
            .map(|list| expected(&list).line().to_string())
            .collect();
        for code in codes_of(choices) {
            let cells = format!(" {code}:");
            assert!(
                answers
                    .iter()
                    .any(|line| line.starts_with("list ") && line.contains(&cells)),
                "{op:?} {code}"
            );
        }
        for number in [1, 2, 3, 14, 24] {
            let refused = format!("refused {number} ");
            assert!(
                answers.iter().any(|line| line.starts_with(&refused)),
                "{op:?} {number}"
            );
        }
    }
}

fn codes_of(choices: Choices) -> Vec<u32> {
    let plain = [0, 6, 7, 8, 9, 10, 11, 19];
    let strict: &[u32] = if choices.strict { &[15, 16] } else { &[] };
    [&plain, strict].concat()
}

/// Good lines beside refused ones, in the same list.
#[test]
fn a_quarter_of_the_lists_have_lines_of_both_kinds() {
    let mixed = generated(None, 4000).into_iter().filter(|list| {
        let line = expected(list).line().to_string();
        let words: Vec<&str> = line.split(' ').skip(2).collect();
        let taken = words.iter().filter(|word| word.starts_with("0:")).count();
        line.starts_with("list ") && 0 < taken && taken < words.len()
    });
    let count = mixed.count();
    assert!(count > 1000, "{count} of 4000");
}

/// Rows that are just long enough, too short by one, and longer; texts that end with a newline and without; long and short ones.
#[test]
fn rows_and_texts_of_all_sizes() {
    let lists = generated(None, 4000);
    let count = |is: &dyn Fn(&[u8], usize, usize) -> bool| {
        let holds = |list: &&Request| match list {
            Request::List { text, rows, .. } => is(text, lines(text).len(), *rows),
            _ => panic!("{list} is no list"),
        };
        lists.iter().filter(holds).count()
    };
    assert!(count(&|_, lines, rows| rows == lines) > 1000);
    assert!(count(&|_, lines, rows| rows + 1 == lines) > 300);
    assert!(count(&|_, lines, rows| rows > lines) > 1000);
    assert!(count(&|text, _, _| text.ends_with(b"\n")) > 1000);
    assert!(count(&|text, lines, _| lines > 0 && !text.ends_with(b"\n")) > 1000);
    assert!(count(&|text, _, _| text.contains(&b'\r')) > 1000);
    assert!(count(&|text, _, _| text.iter().any(|byte| *byte > 127)) > 200);
    assert!(count(&|_, lines, _| lines == 0) > 10);
    assert!(count(&|_, lines, _| lines > 100) > 50);
    assert!(count(&|text, _, _| !text.is_empty() && text.iter().all(|byte| *byte == b'\n')) > 100);
}

#[test]
fn lists_come_with_books() {
    let accepted = |list: &Request| matches!(expected(list), Expected::Accepted(_));
    for books in [Books::English, Books::Random] {
        let lists = generated(Some(books), 2000);
        assert!(lists.iter().all(|list| list.book().is_some()));
        let differ = lists.iter().filter(|list| {
            accepted(list) && expected(list) != expected(&(*list).clone().with_book(None))
        });
        let count = differ.count();
        assert_eq!(count > 50, books == Books::Random, "{count} of 2000");
    }
}

#[test]
fn they_are_asked_for_by_an_option_of_their_own() {
    let options = |words: &[&str]| Options::of_requests(words.iter().map(|word| word.to_string()));
    let lists = options(&["--lists", "--count", "8"]).expect("these are options");
    let ops: Vec<Op> = lists.generated().map(|list| list.op()).collect();
    assert_eq!(ops, [Op::LISTS, Op::LISTS].concat());
    assert!(options(&["--lists", "--ops", "list"]).is_err());
    let check = ["--lists".to_string()];
    assert!(Options::of_checks(check.into_iter()).is_err());
    let named =
        options(&["--ops", "list_strict_second", "--count", "1"]).expect("these are options");
    let choices = named
        .generated()
        .next()
        .and_then(|list| list.op().list_choices());
    assert!(choices.is_some_and(|choices| choices.strict && choices.edition == Edition::Second));
    for books in [None, Some(Books::English), Some(Books::Random)] {
        assert!(Op::usual(books)
            .iter()
            .all(|op| op.list_choices().is_none()));
    }
}
