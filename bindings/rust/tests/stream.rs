//! The program `ask` as a stream: what it does with lines of every kind, with much at once, and with one who waits for it.

mod asking;

use std::io::{BufRead, BufReader, Write};
use std::process::{Command, Stdio};

const LONGEST: usize = 20_000;
const BAD_REQUEST: &str = "bad request\n";

/// A list that ends without a newline, with words and lines that are none, and bytes that are no text.
#[test]
fn listed_requests() {
    let answers = asking::answers(include_bytes!("requests.in"));
    let expected = include_bytes!("requests.out");
    let lines = answers
        .split(|byte| *byte == b'\n')
        .zip(expected.split(|byte| *byte == b'\n'));
    for (number, (answer, expected)) in (1..).zip(lines) {
        let [answer, expected] = [answer, expected].map(String::from_utf8_lossy);
        assert_eq!(answer, expected, "line {number}");
    }
    assert_eq!(answers.len(), expected.len());
}

#[test]
fn one_who_waits_gets_each_answer() {
    let mut program = asking::start();
    let mut input = program.stdin.take().expect("standard input is piped");
    let mut answers = BufReader::new(program.stdout.take().expect("standard output is piped")).lines();
    for (request, expected) in [
        ("split 79\n", &["parts 1 run:0:1"][..]),
        ("parse_offset 5a\nche", &["offset 0"]),
        ("ck 64 2025\n\n", &["yes", "bad request"]),
    ] {
        input.write_all(request.as_bytes()).expect("the program reads");
        for answer in expected {
            assert_eq!(
                answers.next().expect("there is an answer").expect("it can be read"),
                *answer
            );
        }
    }
    drop(input);
    assert!(answers.next().is_none());
    assert!(program.wait().expect("the program ends").success());
}

/// A hundred thousand answers of fifty bytes to requests of thirteen: each read has more of them than any row holds.
#[test]
fn much_is_answered_at_once() {
    let count = 100_000;
    let answers = asking::answers("check 4d 2025\n".repeat(count).as_bytes());
    let one = asking::answers(b"check 4d 2025");
    assert!(one.starts_with(b"no 0 ") && one.len() > 30);
    assert!(answers == one.repeat(count));
    assert!(asking::answers(&vec![b'\n'; count]) == BAD_REQUEST.repeat(count).as_bytes());
}

#[test]
fn a_line_that_is_too_long_is_no_request_and_those_around_it_are() {
    let answered = "parts 1 run:0:1\n";
    for before in [0, 1, 5, 5000] {
        for length in [LONGEST - 1, LONGEST, LONGEST + 1, 65_536, 300_000] {
            let long = format!("split {}\n", "7".repeat(length - 6));
            let requests = ["split 79\n".repeat(before), long, "split 79\n".repeat(3)].concat();
            let bad = match length {
                LONGEST => format!("refused 1 {}\n", (LONGEST - 6) / 2),
                _ => BAD_REQUEST.to_string(),
            };
            let expected = [answered.repeat(before), bad, answered.repeat(3)].concat();
            assert!(
                asking::answers(requests.as_bytes()) == expected.as_bytes(),
                "{before} before {length}"
            );
        }
    }
}

#[test]
fn a_last_line_needs_no_end() {
    assert_eq!(asking::answers(b"split 79"), b"parts 1 run:0:1\n");
    assert_eq!(asking::answers(b"split 79\n"), b"parts 1 run:0:1\n");
    assert_eq!(asking::answers(&vec![b'7'; 100_000]), BAD_REQUEST.as_bytes());
    assert_eq!(asking::answers(b""), b"");
}

#[test]
fn it_takes_no_words() {
    let run = Command::new(env!("CARGO_BIN_EXE_ask"))
        .arg("split")
        .stdin(Stdio::null())
        .output();
    let run = run.expect("the program runs");
    assert_eq!((run.status.code(), run.stdout), (Some(2), Vec::new()));
    assert!(run.stderr.starts_with(b"usage: ask"));
}
