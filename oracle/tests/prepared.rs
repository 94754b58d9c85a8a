//! The comparer on programs that are asked both ways, with the word `prepared` and without it: the same answers pass, and others are
//! found out.

mod comparing;

use comparing::Outcome;
use harness::check::CheckRequest;
use harness::prepared::{both_ways, requests};
use harness::request::{Op, Request};
use std::process::Command;

const COUNT: usize = 320;

/// How the comparison with a shell's script ends, which here answers each request with itself, or not.
fn with(options: &[&str], script: &str) -> Outcome {
    let run = Command::new(env!("CARGO_BIN_EXE_compare"))
        .args(["--prepared", "--seed", "1", "--count", &COUNT.to_string()])
        .args(options)
        .args(["--", "sh", "-c", script])
        .output()
        .expect("the comparer runs");
    Outcome {
        status: run.status.code(),
        printed: String::from_utf8(run.stdout).expect("it prints text"),
    }
}

#[test]
fn every_op_and_choice_is_asked_for_with_a_book_and_without() {
    let lines: Vec<String> = requests(1).take(COUNT).collect();
    let has_book = |line: &&String| line.contains(" book:");
    for op in Op::PREPARED {
        let of_op = lines
            .iter()
            .filter(|line| Request::from_line(line).is_some_and(|request| request.op() == op));
        let (all, with_book) = (of_op.clone().count(), of_op.filter(has_book).count());
        assert!(0 < with_book && with_book < all, "{}", op.name());
    }
    let checks = lines
        .iter()
        .filter(|line| CheckRequest::from_line(line).is_some());
    assert_eq!(checks.count(), COUNT / 8);
}

#[test]
fn each_request_is_asked_twice() {
    assert_eq!(
        both_ways("check 64 2025".to_string()),
        ["check 64 2025", "prepared check 64 2025"]
    );
}

#[test]
fn the_same_answers_pass() {
    let outcome = with(&[], "sed 's/^prepared //'");
    assert_eq!(outcome.status, Some(0), "{}", outcome.printed);
    assert_eq!(outcome.differences(), 0);
}

#[test]
fn other_answers_are_found_out() {
    with(&[], "cat").is_a_failure(COUNT);
    // Of checks alone, in which the first word is the one that differs.
    with(&[], "sed 's/^prepared check/no/; s/^prepared //'").is_a_failure(COUNT / 8);
}

#[test]
fn one_other_answer_is_found_and_shown() {
    for place in [1, 2, 17, COUNT] {
        let outcome = with(
            &[],
            &format!("sed 's/^prepared //; {}s/.*/other/'", 2 * place),
        );
        outcome.is_a_failure(1);
        let request = requests(1).nth(place - 1).expect("there are more");
        let shown = format!("request  {request}\ndirect   {request}\nprepared other\n");
        assert!(outcome.printed.starts_with(&shown), "{}", outcome.printed);
    }
}

/// A program that does not know the word, or no request at all, answers the same both ways at best.
#[test]
fn bad_requests_are_found_out() {
    with(&[], "sed 's/.*/bad request/'").is_a_failure(COUNT);
}

#[test]
fn a_missing_answer_is_found_out() {
    assert_eq!(with(&[], "sed 's/^prepared //; $d'").status, Some(1));
    assert_eq!(with(&[], "sed 's/^prepared //'; echo more").status, Some(1));
    assert_eq!(with(&[], "sed 's/^prepared //'; exit 1").status, Some(1));
}

#[test]
fn it_has_requests_of_its_own() {
    for options in [
        &["--lists"][..],
        &["--ops", "read"],
        &["--books", "random"],
        &["--requests", "x"],
    ] {
        assert_eq!(with(options, "cat").status, Some(2), "{options:?}");
    }
}
