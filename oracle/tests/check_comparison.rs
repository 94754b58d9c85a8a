//! What the comparison of the check holds a program's answers to, and which patterns it asks about.

use harness::check::{verdict, CheckRequest, CheckTally};
use harness::choices::Edition;
use harness::generator::{CheckGenerator, Random};
use harness::tally::Hold;
use std::collections::HashSet;

const ONE_DIGIT: &str = "2025 1 1 1 1 3 0 3600";
const TWO_DIGITS: &str = "2025 12 24 358 52 3 0 3600";

/// What is wrong with the answer to a check of the pattern.
fn fault(edition: Edition, pattern: &str, answer: &str) -> Option<String> {
    let request = CheckRequest {
        edition,
        pattern: pattern.into(),
        now: 2025,
        book: None,
    };
    request.fault(&verdict(&request, &mut Random::new(1)), answer)
}

#[track_caller]
fn fine(pattern: &str, answer: &str) {
    assert_eq!(fault(Edition::First, pattern, answer), None);
}

#[track_caller]
fn faulty(pattern: &str, answer: &str, why: &str) {
    assert_eq!(fault(Edition::First, pattern, answer).as_deref(), Some(why));
}

#[test]
fn a_yes_is_held_to_the_records() {
    fine("d/MM", "yes");
    faulty("d/M", "yes", "another answer");
    faulty("d/MM", "no", "another answer");
    faulty("d/MM", "refused 3 0", "another answer");
    faulty(
        "d/MM",
        &format!("no 2 {TWO_DIGITS}"),
        "the record comes back",
    );
}

#[test]
fn any_record_that_fails_at_the_first_failing_part_will_do() {
    fine("d/M", &format!("no 2 {TWO_DIGITS}"));
    fine("d/M", "no 2 -3 10 5 278 41 1 1 -1");
}

#[test]
fn the_record_shown_must_fail_there() {
    faulty("d/M", &format!("no 2 {ONE_DIGIT}"), "the record comes back");
    faulty(
        "d/M",
        &format!("no 0 {TWO_DIGITS}"),
        "the record fails at part 2",
    );
    faulty(
        "d5M",
        &format!("no 2 {TWO_DIGITS}"),
        "an earlier part fails",
    );
}

#[test]
fn the_record_shown_must_be_allowed_and_spelled_as_one() {
    faulty(
        "d/M",
        "no 2 0 12 31 365 52 3 0 3600",
        "the record is refused 4 1",
    );
    faulty(
        "d/M",
        "no 2 2025 12 31 365 52 3 0 86400",
        "the record is refused 4 8",
    );
    faulty("d/M", "no 2", "another answer");
    faulty("d/M", &format!("no 2 {TWO_DIGITS} 0"), "another answer");
    faulty("d/M", &format!("no 02 {TWO_DIGITS}"), "another answer");
}

#[test]
fn the_record_shown_must_be_of_a_real_day() {
    fine("d/M", "no 2 2024 12 30 365 1 1 0 0");
    for unreal in [
        "2025 11 31 335 48 1",
        "2024 12 30 364 1 1",
        "2024 12 30 365 53 1",
        "2024 12 30 365 1 2",
    ] {
        faulty(
            "d/M",
            &format!("no 2 {unreal} 0 0"),
            "the record is of no real day",
        );
    }
}

#[test]
fn each_edition_has_its_own_verdict_and_records() {
    let [first, second] = Edition::ALL;
    let [small, large] = [ONE_DIGIT, TWO_DIGITS].map(|fields| format!("no 0 {fields}"));
    let comes_back = Some("the record comes back".to_string());
    assert_eq!(fault(second, "M/d", "yes"), None);
    assert_eq!(fault(second, "M/d", &large), comes_back);
    assert_eq!(fault(first, "M5", &large), None);
    assert_eq!(fault(first, "M5", &small), comes_back);
    assert_eq!(fault(second, "M5", &small), None);
    assert_eq!(fault(second, "M5", &large), comes_back);
}

#[test]
fn a_refusal_is_held_to_its_line() {
    fine("d'", "refused 3 1");
    faulty("d'", "refused 3", "another answer");
    faulty("d'", &format!("no 0 {ONE_DIGIT}"), "another answer");
}

#[test]
fn its_own_verdicts_are_without_difference() {
    let mut tally = CheckTally::new(1);
    for request in CheckGenerator::new(1, Edition::ALL.to_vec()).take(400) {
        let answer = verdict(&request, &mut Random::new(2)).to_string();
        tally.hold(&request.to_string(), &answer);
    }
    for line in ["check 64", "check 64 2025 strict", "check 64 2025 first"] {
        tally.hold(line, "bad request");
    }
    assert!(tally.differences().are_none(), "{tally}");
}

#[test]
fn generated_requests_read_back_from_their_lines() {
    for request in CheckGenerator::new(1, Edition::ALL.to_vec()).take(10_000) {
        assert_eq!(CheckRequest::from_line(&request.to_string()), Some(request));
    }
}

#[test]
fn each_pattern_is_asked_in_both_editions() {
    let requests: Vec<_> = CheckGenerator::new(1, Edition::ALL.to_vec())
        .take(1000)
        .collect();
    for pair in requests.chunks(2) {
        let [first, second] = pair else {
            panic!("{pair:?}")
        };
        assert_eq!([first.edition, second.edition], Edition::ALL);
        assert_eq!(first.pattern, second.pattern);
    }
}

#[test]
fn a_default_run_has_every_listed_pattern() {
    assert!(CheckGenerator::whole_list() >= 100_000);
    let asked: HashSet<Vec<u8>> = CheckGenerator::new(1, vec![Edition::Second])
        .take(CheckGenerator::whole_list())
        .map(|request| request.pattern)
        .collect();
    let listed = [
        "",
        "d/M",
        "'d'",
        "XXXXX5",
        "XXXXX.5",
        "XXXXX'5'5",
        "yyyyyyyn",
        "'5''5'd5",
        "xxxxx//'a5'",
        "DDDDDDDDDDDDDDDDDDDDkkkkkkkkkkkk",
    ];
    for pattern in listed {
        assert!(asked.contains(pattern.as_bytes()), "{pattern}");
    }
    for symbol in *b"GyqMwdDeabhHKkmsnXx" {
        for count in [1, 2, 3, 4, 5, 6, 7, 8, 9, 10, 11, 12, 20, 100, 255, 256] {
            assert!(
                asked.contains(&vec![symbol; count]),
                "{count} times {symbol}"
            );
        }
    }
}
