//! A comparer on programs that answer, and how it finds out those that answer otherwise.

// Each test uses some of it.
#![allow(dead_code)]

use harness::check::{verdict, CheckRequest};
use harness::choices::{Books, Edition};
use harness::expected::expected;
use harness::generator::{CheckGenerator, Generator, Random};
use harness::request::{Op, Request};
use std::fs;
use std::path::Path;
use std::process::Command;

/// How many requests a comparer has unless there is another count.
pub const COUNT: usize = 300;

/// A comparer, and so many requests of its seed 1, with these books, with their right answers.
pub struct Comparer {
    path: &'static str,
    books: Option<Books>,
    /// The option that names its ops, where they are not the usual ones.
    ops: Option<&'static str>,
    pub requests: Vec<String>,
    pub answers: Vec<String>,
}

pub struct Outcome {
    pub status: Option<i32>,
    pub printed: String,
}

pub fn compare_with(books: Option<Books>, count: usize) -> Comparer {
    compare_on(books, None, requests(books, count))
}

/// Of lists alone.
pub fn compare_lists(books: Option<Books>, count: usize) -> Comparer {
    compare_on(books, Some("--lists"), lists(books, count))
}

/// Of patterns to mend alone.
pub fn compare_mends(count: usize) -> Comparer {
    compare_on(None, Some("--mends"), mends(count))
}

/// Of stamps alone.
pub fn compare_stamps(count: usize) -> Comparer {
    compare_on(None, Some("--stamps"), stamps(count))
}

fn compare_on(
    books: Option<Books>,
    ops: Option<&'static str>,
    requests: impl Iterator<Item = Request>,
) -> Comparer {
    let of_both = requests.map(|request| (request.to_string(), right(&request)));
    let (requests, answers) = of_both.unzip();
    Comparer {
        path: env!("CARGO_BIN_EXE_compare"),
        books,
        ops,
        requests,
        answers,
    }
}

pub fn requests(books: Option<Books>, count: usize) -> impl Iterator<Item = Request> {
    Generator::with(books, 1, Op::usual(books)).take(count)
}

pub fn lists(books: Option<Books>, count: usize) -> impl Iterator<Item = Request> {
    Generator::with(books, 1, Op::LISTS.to_vec()).take(count)
}

pub fn mends(count: usize) -> impl Iterator<Item = Request> {
    Generator::new(1, Op::MENDS.to_vec()).take(count)
}

pub fn stamps(count: usize) -> impl Iterator<Item = Request> {
    Generator::new(1, Op::STAMPS.to_vec()).take(count)
}

pub fn right(request: &Request) -> String {
    expected(request).line().to_string()
}

pub fn compare_check_with(books: Option<Books>) -> Comparer {
    Comparer {
        path: env!("CARGO_BIN_EXE_compare_check"),
        books,
        ops: None,
        requests: checks(books).map(|request| request.to_string()).collect(),
        answers: verdicts(checks(books)),
    }
}

pub fn checks(books: Option<Books>) -> impl Iterator<Item = CheckRequest> {
    CheckGenerator::with(books, 1, Edition::ALL.to_vec()).take(COUNT)
}

/// With the random records of the comparer's own, so that a no shows the same record.
pub fn verdicts(requests: impl Iterator<Item = CheckRequest>) -> Vec<String> {
    let mut random = Random::new(1);
    requests
        .map(|request| verdict(&request, &mut random).to_string())
        .collect()
}

impl Comparer {
    /// How the comparison with a shell's script ends.
    pub fn with(&self, words: &[&str]) -> Outcome {
        let books: &[&str] = match self.books {
            None => &[],
            Some(Books::English) => &["--books", "english"],
            Some(Books::Random) => &["--books", "random"],
        };
        let run = Command::new(self.path)
            .args(["--seed", "1", "--count", &self.requests.len().to_string()])
            .args(books)
            .args(self.ops)
            .args(["--", "sh", "-c"])
            .args(words)
            .output()
            .expect("the comparer runs");
        Outcome {
            status: run.status.code(),
            printed: String::from_utf8(run.stdout).expect("it prints text"),
        }
    }

    /// With a program that gives these answers, whatever is asked.
    pub fn with_answers(&self, name: &str, answers: &[String], last: &str) -> Outcome {
        let comparer = Path::new(self.path)
            .file_name()
            .expect("a program has a name");
        let file = Path::new(env!("CARGO_TARGET_TMPDIR")).join(format!(
            "{}-{name}-{:?}{}",
            comparer.to_string_lossy(),
            self.books,
            self.ops.unwrap_or_default()
        ));
        let lines: String = answers.iter().map(|answer| format!("{answer}\n")).collect();
        fs::write(&file, lines).expect("the file can be written");
        let script = format!("cat >/dev/null; cat \"$0\"; {last}");
        self.with(&[&script, &file.to_string_lossy()])
    }
}

impl Outcome {
    /// The last number of the table's last row.
    pub fn differences(&self) -> usize {
        let all = self.printed.lines().find(|line| line.starts_with("all "));
        let last = all.and_then(|line| line.split_whitespace().last());
        last.and_then(|word| word.parse().ok())
            .expect("the table has a last row")
    }

    #[track_caller]
    pub fn is_a_failure(&self, differences: usize) {
        assert_eq!(self.status, Some(1), "{}", self.printed);
        assert_eq!(self.differences(), differences, "{}", self.printed);
    }
}

#[track_caller]
pub fn right_answers_pass(comparer: &Comparer) {
    let outcome = comparer.with_answers("right", &comparer.answers, "");
    assert_eq!(outcome.status, Some(0), "{}", outcome.printed);
    assert_eq!(outcome.differences(), 0);
}

#[track_caller]
pub fn one_wrong_answer_is_found(comparer: &Comparer, place: usize, wrong: &str) {
    let mut answers = comparer.answers.clone();
    answers[place] = wrong.to_string();
    let outcome = comparer.with_answers("one_wrong", &answers, "");
    outcome.is_a_failure(1);
    let (request, right) = (&comparer.requests[place], &comparer.answers[place]);
    let shown = format!("request  {request}\nexpected {right}\nanswered {wrong}\n");
    assert!(outcome.printed.starts_with(&shown), "{}", outcome.printed);
}

/// A program that answers so is found out at each request where that is wrong, of which there are some.
#[track_caller]
pub fn is_found_out_with(
    books: Option<Books>,
    count: usize,
    name: &str,
    answer: impl Fn(&Request) -> String,
) {
    let answers = requests(books, count).map(|request| answer(&request));
    is_found_out_by(&compare_with(books, count), name, answers.collect());
}

/// The same of these answers.
#[track_caller]
pub fn is_found_out_by(comparer: &Comparer, name: &str, answers: Vec<String>) {
    let both = answers.iter().zip(&comparer.answers);
    let wrong = both.filter(|(answer, right)| answer != right).count();
    assert!(wrong > 0, "it is always right");
    comparer
        .with_answers(name, &answers, "")
        .is_a_failure(wrong);
}
