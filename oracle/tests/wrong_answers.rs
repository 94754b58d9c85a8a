//! Both comparers on programs that answer: right answers pass, and one wrong, missing or needless answer among them is found.

mod comparing;

use comparing::{
    checks, compare_check_with, compare_with, is_found_out_with, one_wrong_answer_is_found, right,
    verdicts, Comparer, COUNT,
};
use harness::answer::{answer, as_pattern};
use harness::check::CheckRequest;
use harness::choices::Edition;
use harness::request::{Op, Request};
use harness::walk::{self, Part};

const ALWAYS_YES: &str = "while read -r line; do echo yes; done";

/// How many words of an accepted read stand before its spans, and the span of a unit that was not read.
const BEFORE_SPANS: usize = 19;
const NO_SPAN: &str = "0:0";

fn compare() -> Comparer {
    compare_with(None, COUNT)
}

fn compare_check() -> Comparer {
    compare_check_with(None)
}

#[test]
fn right_answers_pass() {
    for comparer in [compare(), compare_check()] {
        comparing::right_answers_pass(&comparer);
    }
}

#[test]
fn one_wrong_answer_is_found_and_shown() {
    for comparer in [compare(), compare_check()] {
        for place in (0..Op::usual(None).len()).chain([COUNT / 2, COUNT - 1]) {
            let right = &comparer.answers[place];
            for wrong in [format!("{right} 0"), right[1..].to_string(), String::new()] {
                one_wrong_answer_is_found(&comparer, place, &wrong);
            }
        }
    }
}

/// A program that answers so is found out at each request where that is wrong, of which there are some.
#[track_caller]
fn is_found_out(name: &str, answer: impl Fn(&Request) -> String) {
    is_found_out_with(None, COUNT, name, answer);
}

/// The same request, not strict.
fn plain(request: &Request) -> Request {
    let mut plain = request.clone();
    if let Request::Read { choices, .. } = &mut plain {
        choices.strict = false;
    }
    plain
}

/// The same request in the first edition.
fn in_the_first(request: &Request) -> Request {
    let mut first = request.clone();
    if let Request::Read { choices, .. } = &mut first {
        choices.edition = Edition::First;
    }
    first
}

#[test]
fn a_program_that_is_never_strict_is_found_out() {
    is_found_out("never_strict", |request| right(&plain(request)));
}

#[test]
fn a_program_that_reads_in_the_first_edition_alone_is_found_out() {
    is_found_out("first_edition", |request| right(&in_the_first(request)));
}

/// One of the two changes alone is found out as well.
#[test]
fn a_program_that_reads_a_single_month_or_a_short_year_as_before_is_found_out() {
    for (name, part) in [("months_as_before", "M"), ("years_as_before", "yy")] {
        let has = |request: &Request| match request {
            Request::Read { pattern, .. } => as_pattern(pattern).is_some_and(|pattern| {
                let bytes = |part: &Part| &pattern[part.start..part.start + part.length];
                walk::split(pattern)
                    .iter()
                    .any(|found| bytes(found) == part)
            }),
            _ => false,
        };
        is_found_out(name, |request| match has(request) {
            true => right(&in_the_first(request)),
            false => right(request),
        });
    }
}

#[test]
fn a_program_that_checks_in_the_first_edition_alone_is_found_out() {
    let first = checks(None).map(|request| CheckRequest {
        edition: Edition::First,
        ..request
    });
    let outcome = compare_check().with_answers("first_edition", &verdicts(first), "");
    assert_eq!(outcome.status, Some(1), "{}", outcome.printed);
    assert!(outcome.differences() > 0, "{}", outcome.printed);
    let shown = outcome.printed.lines();
    let mut requests = shown.filter(|line| line.starts_with("request  "));
    assert!(requests.all(|line| line.ends_with(" second")));
}

/// The right answer, but that each span in it is changed, by its unit.
fn with_spans(request: &Request, changed: impl Fn(usize, &str) -> String) -> String {
    let right = right(request);
    if !right.starts_with("read ") {
        return right;
    }
    let words = right.split(' ').enumerate();
    let words = words.map(|(place, word)| match place.checked_sub(BEFORE_SPANS) {
        Some(unit) if word != NO_SPAN => changed(unit, word),
        _ => word.to_string(),
    });
    words.collect::<Vec<_>>().join(" ")
}

#[test]
fn a_program_whose_spans_end_one_too_far_is_found_out() {
    let too_far = |_, span: &str| {
        let (start, end) = span.split_once(':').expect("a span has an end");
        let end: usize = end.parse().expect("it is a place");
        format!("{start}:{}", end + 1)
    };
    is_found_out("too_far", |request| with_spans(request, too_far));
}

/// The span of the unit in a read by the parts up to this one, if one of them gave it.
fn span_by(parts_up_to: &Part, read: &Request, unit: usize) -> Option<String> {
    let mut read = plain(read);
    if let Request::Read { pattern, .. } = &mut read {
        pattern.truncate(parts_up_to.start + parts_up_to.length);
    }
    let span = right(&read)
        .split(' ')
        .nth(BEFORE_SPANS + unit)?
        .to_string();
    (span != NO_SPAN).then_some(span)
}

#[test]
fn a_program_that_gives_the_first_span_of_a_unit_is_found_out() {
    let first_span = |request: &Request, unit: usize| {
        let Request::Read { pattern, .. } = request else {
            panic!("{request} is no read");
        };
        let parts = walk::split(as_pattern(pattern).expect("it was read"));
        let mut spans = parts.iter().filter_map(|part| span_by(part, request, unit));
        spans.next().expect("the last part gives one")
    };
    is_found_out("first_spans", |request| {
        with_spans(request, |unit, _| first_span(request, unit))
    });
}

#[test]
fn a_program_that_takes_the_rusts_days_below_zero_is_found_out() {
    is_found_out("days_of_the_rust", |request| match request {
        Request::DayOf { .. } => answer(&request.to_string()),
        _ => right(request),
    });
}

#[test]
fn a_program_that_refuses_days_with_one_number_alone_is_found_out() {
    is_found_out("17_for_18", |request| {
        right(request).replace("refused 18 0", "refused 17 0")
    });
    is_found_out("18_for_17", |request| {
        right(request).replace("refused 17 0", "refused 18 0")
    });
}

#[test]
fn a_missing_or_a_needless_answer_is_found() {
    for comparer in [compare(), compare_check()] {
        let missing = &comparer.answers[..COUNT - 1];
        let outcome = comparer.with_answers("missing", missing, "");
        outcome.is_a_failure(0);
        assert!(outcome
            .printed
            .ends_with("1 requests had no answer, 0 answers no request\n"));

        let needless = [comparer.answers.clone(), vec!["yes".to_string()]].concat();
        let outcome = comparer.with_answers("needless", &needless, "");
        outcome.is_a_failure(0);
        assert!(outcome
            .printed
            .ends_with("0 requests had no answer, 1 answers no request\n"));
    }
}

#[test]
fn a_program_that_fails_is_found_out() {
    for comparer in [compare(), compare_check()] {
        let outcome = comparer.with_answers("failing", &comparer.answers, "exit 3");
        outcome.is_a_failure(0);
        assert!(outcome.printed.contains("the program ended with"));
    }
}

#[test]
fn a_program_that_always_says_yes_is_found_out() {
    compare().with(&[ALWAYS_YES]).is_a_failure(COUNT);
    let comparer = compare_check();
    let others = comparer.answers.iter().filter(|answer| *answer != "yes");
    comparer.with(&[ALWAYS_YES]).is_a_failure(others.count());
}

#[test]
fn a_program_that_says_nothing_is_found_out() {
    for comparer in [compare(), compare_check()] {
        let outcome = comparer.with(&["cat >/dev/null"]);
        outcome.is_a_failure(0);
        assert!(outcome.printed.contains("300 requests had no answer"));
    }
}
