//! Mending: what is expected of it, what the generated patterns are like, and that a program that does not hold to it is found out.

use harness::choices::Edition;
use harness::expected::{expected, Expected};
use harness::generator::Generator;
use harness::mending::{mended, Ask, Mended, MendingTally};
use harness::options::Options;
use harness::request::{hex, Op, Request};
use std::io;

/// The line that is expected, by a pattern and what stands behind it.
fn mend(pattern: &str, rest: &str) -> String {
    let line = format!("mend {} {rest}", hex(pattern.as_bytes()));
    let request = Request::from_line(&line).expect("it is a request");
    assert_eq!(request.to_string(), line);
    expected(&request).line().to_string()
}

/// In these editions a pattern becomes another, by so many changes.
#[track_caller]
fn becomes(editions: &[Edition], pattern: &str, other: &str, changes: usize) {
    for edition in editions {
        let mended = mended(*edition, pattern.as_bytes());
        assert_eq!(
            String::from_utf8_lossy(&mended.pattern),
            other,
            "{edition:?}"
        );
        assert_eq!(mended.changes.len(), changes, "{edition:?}: {pattern}");
        assert_eq!(
            mended.undone(&mended.changes).as_deref(),
            Some(pattern.as_bytes())
        );
        assert_eq!(Mended::of_line(&mended.line()), Some(mended));
    }
}

#[test]
fn samples() {
    use Edition::{First, Second};
    let both = [First, Second];
    becomes(&both, "yyd", "yyyy d", 2);
    becomes(&[First], "M5", "MM5", 1);
    becomes(&[Second], "M5", "M 5", 1);
    becomes(&both, "XXXXX 5", "XXXXX   5", 1);
    becomes(&both, "XXXXX.5", "XXXXX  .5", 1);
    becomes(&both, "XXXXX5", "XXXXX5", 0);
    becomes(&both, "xxxxxd", "xxxxx  d", 1);
    becomes(&both, "X5", "X 5", 1);
    becomes(&both, "'abc''", "'abc'''", 1);
    becomes(&both, "'abc", "'abc", 0);
    becomes(&both, "dH", "d H", 1);
    becomes(&both, "yyyyMMdd", "yyyy MMdd", 1);
    becomes(&both, "yyyyy", "yyyyyyy", 1);
    becomes(&both, "yyyyyyMM", "yyyyyyyMM", 1);
    becomes(&[First], "d/M/yy", "d/MM/yyyy", 2);
    becomes(&[Second], "d/M/yy", "d/M/yyyy", 1);
    becomes(&both, "d 'of''", "d 'of'''", 1);
    becomes(&both, "", "", 0);
}

#[test]
fn lines_and_refusals() {
    assert_eq!(
        mend("yyd", "2025 6"),
        "mended 6 797979792064 2 0:7979:79797979 4:-:20"
    );
    assert_eq!(mend("M5", "2025 9 second"), "mended 3 4d2035 1 1:-:20");
    assert_eq!(mend("", "2025 0"), "mended 0 - 0");
    assert_eq!(mend(&"d".repeat(257), "0 0"), "refused 1 257");
    assert_eq!(mend("d\0'", "0 0"), "refused 2 1");
    assert_eq!(mend("d'", "0 0"), "refused 3 1");
    assert_eq!(mend("dH", "0 0"), "refused 14 0");
    assert_eq!(mend("dH", "80 0 second"), "refused 14 80");
    assert_eq!(mend(&"dH".repeat(128), "2025 0"), "refused 30 0");
    assert_eq!(mend("dH", "2025 2"), "refused 5 3");
}

fn generated(count: usize) -> Vec<Request> {
    Generator::new(1, Op::MENDS.to_vec()).take(count).collect()
}

/// In each edition some with each own change, with one space and with two, with none, and with each refusal.
#[test]
fn every_change_and_every_refusal_is_there() {
    for op in Op::MENDS {
        let requests = Generator::new(1, vec![op]).take(4000);
        let lines: Vec<String> = requests
            .map(|mend| expected(&mend).line().to_string())
            .collect();
        let with = |piece: &str| lines.iter().filter(|line| line.contains(piece)).count();
        for piece in [
            ":7979:79797979",
            ":7979797979:",
            ":797979797979:",
            ":-:27",
            ":-:20",
            ":-:2020",
        ] {
            assert!(with(piece) > 50, "{op:?} {piece}");
        }
        assert_eq!(with(":4d:4d4d") > 50, op == Op::Mend);
        for number in [1, 2, 3, 5, 14, 30] {
            assert!(with(&format!("refused {number} ")) > 5, "{op:?} {number}");
        }
        assert!(lines.iter().filter(|line| line.ends_with(" 0")).count() > 500);
    }
}

#[test]
fn mended_patterns_of_256_bytes_are_there() {
    let accepted = |mend: &Request| matches!(expected(mend), Expected::Accepted(line) if line.starts_with("mended 256 "));
    assert!(generated(4000).iter().filter(|mend| accepted(mend)).count() > 20);
}

#[test]
fn they_are_asked_for_by_an_option_of_their_own() {
    let options = |words: &[&str]| Options::of_requests(words.iter().map(|word| word.to_string()));
    let mends = options(&["--mends", "--count", "4"]).expect("these are options");
    let ops: Vec<Op> = mends.generated().map(|mend| mend.op()).collect();
    assert_eq!(ops, [Op::MENDS, Op::MENDS].concat());
    for words in [
        ["--mends", "--ops", "mend"],
        ["--mends", "--lists", "--mends"],
        ["--mends", "--books", "english"],
    ] {
        assert!(options(&words).is_err(), "{words:?}");
    }
    assert!(Options::of_checks(["--mends".to_string()].into_iter()).is_err());
    assert!(Op::usual(None).iter().all(|op| op.mend_edition().is_none()));
}

/// A program that mends as it should, but for what is done to its answers.
struct Program<Answer>(Answer);

impl<Answer: Fn(&Request, String) -> String> Ask for Program<Answer> {
    fn answers(&mut self, requests: Vec<String>) -> io::Result<Vec<String>> {
        Ok(requests.iter().map(|line| self.answer(line)).collect())
    }
}

impl<Answer: Fn(&Request, String) -> String> Program<Answer> {
    fn answer(&self, line: &str) -> String {
        match Request::from_line(line) {
            Some(mend) => (self.0)(&mend, expected(&mend).line().to_string()),
            None => checked(line),
        }
    }
}

/// A pattern passes the check just where nothing of it is mended; the record of a no is not looked at.
fn checked(line: &str) -> String {
    let mend = line
        .replacen("check ", "mend ", 1)
        .replacen(" second", "", 1);
    let second = if line.ends_with(" second") {
        " second"
    } else {
        ""
    };
    let request = Request::from_line(&format!("{mend} 4096{second}")).expect("it is a check");
    match expected(&request) {
        Expected::Accepted(line) if line.ends_with(" 0") => "yes".to_string(),
        Expected::Accepted(_) => "no 0 and a record".to_string(),
        other if other.line() == "refused 30 0" => "no 0 and a record".to_string(),
        other => other.line().to_string(),
    }
}

fn faults(answer: impl Fn(&Request, String) -> String) -> usize {
    let mut tally = MendingTally::default();
    let held = tally.hold(&mut Program(answer), &generated(500));
    held.expect("nothing fails");
    tally.faults()
}

#[test]
fn a_program_that_mends_rightly_holds() {
    assert_eq!(faults(|_, line| line), 0);
}

/// The right answer with the changes made otherwise.
fn otherwise(line: String, change: impl Fn(&mut Mended)) -> String {
    match Mended::of_line(&line) {
        Some(mut mended) => {
            change(&mut mended);
            mended.line()
        }
        None => line,
    }
}

#[test]
fn a_program_that_does_not_hold_is_found_out() {
    let not_listed = |_: &Request, line| otherwise(line, |mended| mended.changes.truncate(1));
    assert!(faults(not_listed) > 0, "a change that is not listed");
    let needless = |_: &Request, line| {
        otherwise(line, |mended| {
            if mended.changes.is_empty() {
                let new = b" ".to_vec();
                let (place, old) = (mended.pattern.len(), Vec::new());
                mended.pattern.extend(&new);
                mended
                    .changes
                    .push(harness::mending::Change { place, old, new });
            }
        })
    };
    assert!(faults(needless) > 0, "a space where nothing disturbs");
    let left = |mend: &Request, line: String| match mend {
        Request::Mend { pattern, .. } if line.starts_with("mended ") => {
            let (pattern, changes) = (pattern.clone(), Vec::new());
            Mended { pattern, changes }.line()
        }
        _ => line,
    };
    assert!(faults(left) > 0, "nothing mended");
    let one_space = |_: &Request, line| {
        otherwise(line, |mended| {
            if let Some(last) = mended.changes.last_mut().filter(|last| last.new == b"  ") {
                mended.pattern.remove(last.place);
                last.new.pop();
            }
        })
    };
    assert!(faults(one_space) > 0, "one space for five X");
    let refuses = |_: &Request, line: String| match line.starts_with("mended ") {
        true => "refused 30 0".to_string(),
        false => line,
    };
    assert!(faults(refuses) > 0, "a pattern that passes is refused");
    assert!(faults(|_, _| "yes".to_string()) > 0);
}
