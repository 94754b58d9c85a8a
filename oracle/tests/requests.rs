//! Which lines are requests, and what the generated ones are like.

use harness::answer::answer;
use harness::choices::{Books, Choices, Edition};
use harness::expected::{expected, Expected};
use harness::generator::Generator;
use harness::gregorian::number_of;
use harness::options::Options;
use harness::request::{Op, Request};
use std::collections::HashSet;

const FIELDS: &str = "2025 12 3 337 49 3 0 19800";

#[test]
fn other_lines_are_bad_requests() {
    let lines = [
        "".to_string(),
        "split".to_string(),
        "split ".to_string(),
        "split 7".to_string(),
        "split 7A".to_string(),
        "split  79".to_string(),
        "split 79 79".to_string(),
        "Split 79".to_string(),
        format!("write 79 {FIELDS}"),
        format!("write 79 {FIELDS} 4097"),
        format!("write 79 {FIELDS} -1"),
        "write 79 2147483648 12 3 337 49 3 0 19800 9".to_string(),
        "write 79 2025 -1 3 337 49 3 0 19800 9".to_string(),
        "write 79 2025 12 3 337 49 3 18446744073709551616 19800 9".to_string(),
        "read 79 39 +2025".to_string(),
        "read 79 39 2025 Strict".to_string(),
        "read 79 39 2025 strict strict".to_string(),
        "read 79 39 2025 strict ".to_string(),
        "read 79 39 strict".to_string(),
        "read_strict 79 39 2025".to_string(),
        "read_date_strict 79 39 2025".to_string(),
        "split 79 strict".to_string(),
        format!("write 79 {FIELDS} 9 strict"),
        "parse_offset 5a strict".to_string(),
        "read 79 39 2025 Second".to_string(),
        "read 79 39 2025 first".to_string(),
        "read 79 39 2025 second strict".to_string(),
        "read 79 39 2025 second second".to_string(),
        "read 79 39 2025 strict second ".to_string(),
        "read_second 79 39 2025".to_string(),
        "split 79 second".to_string(),
        format!("write 79 {FIELDS} 9 second"),
        "parse_offset 5a second".to_string(),
        "check 79 2025".to_string(),
        "day_of".to_string(),
        "day_of 2147483648".to_string(),
        "day_of +1".to_string(),
        "day_of 1 1".to_string(),
        "day_number 2025 12".to_string(),
        "day_number 2025 12 3 3".to_string(),
        "day_number 2025 -1 3".to_string(),
        "day_number 2025 12 4294967296".to_string(),
        "read 79 39 2025 book:".to_string(),
        "read 79 39 2025 book:4".to_string(),
        "read 79 39 2025 book".to_string(),
        "read 79 39 2025 book: 4c".to_string(),
        "read 79 39 2025 book:4c book:4c".to_string(),
        "read 79 39 2025 book:4c second".to_string(),
        "read 79 39 2025 second book:4c strict".to_string(),
        format!("write 79 {FIELDS} book:4c 9"),
        format!("write 79 {FIELDS} 9 second book:4c"),
        "split 79 book:4c".to_string(),
        "parse_offset 5a book:4c".to_string(),
        "book".to_string(),
        "book 4c 4e".to_string(),
        "book_write 9".to_string(),
        format!("book_write 9{}", " 4142".repeat(63)),
        format!("book_write 9{}", " 4142".repeat(65)),
        format!("book_write 4097{}", " 4142".repeat(64)),
        format!("book_write 9{} {}", " 4142".repeat(63), "41".repeat(256)),
        "list 79 39 2025".to_string(),
        "list 79 39 2025 strict".to_string(),
        "list 79 39 2025 20001".to_string(),
        "list 79 39 2025 -1".to_string(),
        "list 79 39 2025 1 second strict".to_string(),
        "list 79 39 2025 1 book:4c second".to_string(),
        "list_strict 79 39 2025 1".to_string(),
        "list_date 79 39 2025 1".to_string(),
        "mend 79 2025".to_string(),
        "mend 79 2025 4097".to_string(),
        "mend 79 2025 second".to_string(),
        "mend 79 2025 9 strict".to_string(),
        "mend 79 2025 9 second book:4c".to_string(),
        "mend_second 79 2025 9".to_string(),
        "rfc_read".to_string(),
        "rfc_read 5a 5a".to_string(),
        "rfc_read 5a strict".to_string(),
        "rfc_write 2025 12 3 0 0 0".to_string(),
        "rfc_write 2025 12 3 0 0 2 35".to_string(),
        "rfc_write 2025 12 3 0 0 0 4097".to_string(),
        "rfc_write 2025 12 3 18446744073709551616 0 0 35".to_string(),
        "rfc_write 2025 12 3 0 0 0 35 book:-".to_string(),
    ];
    for line in lines {
        assert_eq!(answer(&line), "bad request", "{line}");
    }
}

#[test]
fn generated_requests_read_back_from_their_lines() {
    for request in Generator::new(1, Op::ALL.to_vec()).take(10_000) {
        assert_eq!(Request::from_line(&request.to_string()), Some(request));
    }
}

#[test]
fn requests_with_books_read_back_from_their_lines() {
    for books in [Books::English, Books::Random] {
        for ops in [Op::usual(Some(books)), Op::LISTS.to_vec()] {
            for request in Generator::with(Some(books), 1, ops).take(10_000) {
                assert_eq!(Request::from_line(&request.to_string()), Some(request));
            }
        }
    }
}

/// A line of `ask` may have no more.
#[test]
fn no_line_has_more_than_20000_bytes() {
    for ops in [Op::usual(Some(Books::Random)), Op::LISTS.to_vec()] {
        let requests = Generator::with(Some(Books::Random), 1, ops);
        for request in requests.take(20_000) {
            assert!(request.to_string().len() <= 20_000);
        }
    }
    for request in Generator::new(1, Op::MENDS.to_vec()).take(20_000) {
        assert!(request.to_string().len() <= 20_000);
    }
}

#[test]
fn the_same_seed_gives_the_same_requests() {
    let run = |seed| Generator::new(seed, Op::ALL.to_vec()).take(1000);
    assert!(run(1).eq(run(1)));
    assert!(run(1).ne(run(2)));
}

fn reads(chosen: impl Fn(Choices) -> bool) -> impl Iterator<Item = Op> {
    let is_chosen = move |op: &Op| op.choices().is_some_and(&chosen);
    Op::ALL.into_iter().filter(is_chosen)
}

#[test]
fn over_a_third_of_the_reads_are_accepted() {
    for op in reads(|_| true) {
        let accepted = Generator::new(1, vec![op])
            .take(10_000)
            .filter(|request| matches!(expected(request), Expected::Accepted(_)))
            .count();
        assert!(accepted > 3334, "{op:?}: {accepted} of 10000");
    }
}

#[test]
fn a_tenth_of_the_strict_reads_differ_in_a_literal_and_a_twentieth_leaves_text() {
    for op in reads(|choices| choices.strict) {
        let answers: Vec<Expected> = Generator::new(1, vec![op])
            .take(10_000)
            .map(|request| expected(&request))
            .collect();
        let refused = |number: &str| {
            let strict = |answer: &&Expected| matches!(answer, Expected::Strict(line) if line.starts_with(number));
            answers.iter().filter(strict).count()
        };
        assert!(refused("refused 15 ") > 1000, "{op:?}");
        assert!(refused("refused 16 ") > 500, "{op:?}");
    }
}

/// The same request in the first edition.
fn in_the_first(request: &Request) -> Request {
    let mut first = request.clone();
    if let Request::Read { choices, .. } = &mut first {
        choices.edition = Edition::First;
    }
    first
}

#[test]
fn a_twentieth_of_the_reads_in_the_second_edition_differ_from_the_first() {
    for op in reads(|choices| choices.edition == Edition::Second) {
        let requests = Generator::new(1, vec![op]).take(10_000);
        let accepted = |answer: &Expected| matches!(answer, Expected::Accepted(_));
        let differ = requests.filter(|request| {
            let (second, first) = (expected(request), expected(&in_the_first(request)));
            accepted(&second) && second != first
        });
        let count = differ.count();
        assert!(count > 500, "{op:?}: {count} of 10000");
    }
}

#[test]
fn a_spread_out_sample_has_every_symbol_at_every_usual_count() {
    let sample = spread_out_sample();
    for symbol in *b"GyqMwdDeabhHKkmsnXx" {
        for count in 1..=12 {
            let run = vec![symbol; count];
            let is_in = sample.iter().any(|request| pattern(request) == Some(&run));
            assert!(is_in, "{count} times {symbol}");
        }
    }
}

/// Each as often as the others, of the ops with definitions and of all.
#[test]
fn a_spread_out_sample_has_every_op() {
    let all = Op::usual(None);
    let of_all = each_fifth(8400, &all);
    for (sample, ops) in [(spread_out_sample(), with_definitions()), (of_all, all)] {
        for op in &ops {
            let count = sample.iter().filter(|request| request.op() == *op).count();
            assert_eq!(count, sample.len() / ops.len(), "{op:?}");
        }
    }
}

/// Each boundary of a month, and each day around 0 and at both ends of the numbers.
#[test]
fn a_default_run_goes_through_all_that_is_enumerated_of_days() {
    let a_default_run = 2_100_000 / Op::usual(None).len();
    let numbers: HashSet<i32> = Generator::new(1, vec![Op::DayOf])
        .take(a_default_run)
        .map(|request| match request {
            Request::DayOf { number } => number,
            _ => panic!("{request} is no day"),
        })
        .collect();
    for place in 0..4000 {
        for number in [place, -1 - place, i32::MAX - place, i32::MIN + place] {
            assert!(numbers.contains(&number), "{number}");
        }
    }
    for (year, month) in [
        (2000, 3),
        (1900, 3),
        (-1, 3),
        (-5, 3),
        (-401, 3),
        (-101, 3),
        (1, 1),
        (-1, 1),
    ] {
        let first = number_of(year, month, 1).expect("it is there") as i32;
        for number in first - 2..first + 2 {
            assert!(numbers.contains(&number), "{number}");
        }
    }
}

#[test]
fn numbers_of_days_are_accepted_and_refused_with_both() {
    let requests = Generator::new(1, vec![Op::DayNumber]).take(10_000);
    let answers: Vec<Expected> = requests.map(|request| expected(&request)).collect();
    let count =
        |wanted: &dyn Fn(&Expected) -> bool| answers.iter().filter(|answer| wanted(answer)).count();
    assert!(count(&|answer| matches!(answer, Expected::Accepted(_))) > 5000);
    assert!(count(&|answer| *answer == Expected::Limit("refused 17 0".to_string())) > 500);
    assert!(count(&|answer| *answer == Expected::Refused("refused 17 0".to_string())) > 500);
    assert!(count(&|answer| *answer == Expected::Refused("refused 18 0".to_string())) > 100);
}

#[test]
fn an_option_of_another_program_is_refused() {
    let words = |words: &[&str]| {
        words
            .iter()
            .map(|word| word.to_string())
            .collect::<Vec<_>>()
    };
    let edition = words(&["--edition", "second"]);
    assert!(Options::of_requests(edition.clone().into_iter()).is_err());
    assert!(Options::of_checks(edition.into_iter()).is_ok());
    let ops = words(&["--ops", "read_second"]);
    assert!(Options::of_checks(ops.clone().into_iter()).is_err());
    assert!(Options::of_requests(ops.into_iter()).is_ok());
    assert!(Options::of_checks(words(&["--edition", "third"]).into_iter()).is_err());
}

#[test]
fn a_spread_out_sample_has_every_refusal() {
    let answers: Vec<Expected> = spread_out_sample().iter().map(expected).collect();
    for number in (1..=16).chain([19]) {
        let start = format!("refused {number} ");
        let is_in = answers
            .iter()
            .any(|answer| answer.line().starts_with(&start));
        assert!(is_in, "refusal {number}");
    }
}

/// The sample that hold-definitions takes.
fn spread_out_sample() -> Vec<Request> {
    each_fifth(9216, &with_definitions())
}

/// All but those of days and of books.
fn with_definitions() -> Vec<Op> {
    let of_days = [Op::DayOf, Op::DayNumber];
    let usual = Op::usual(None).into_iter();
    let others = usual.filter(|op| !of_days.contains(op));
    others.collect()
}

fn each_fifth(count: usize, ops: &[Op]) -> Vec<Request> {
    let names: Vec<&str> = ops.iter().map(|op| op.name()).collect();
    let (count, names) = (count.to_string(), names.join(","));
    let words = ["--count", &count, "--every", "5", "--ops", &names].map(String::from);
    let options = Options::of_requests(words.into_iter()).expect("these are options");
    options.generated().collect()
}

fn pattern(request: &Request) -> Option<&Vec<u8>> {
    match request {
        Request::Split { pattern }
        | Request::Write { pattern, .. }
        | Request::Read { pattern, .. } => Some(pattern),
        _ => None,
    }
}
