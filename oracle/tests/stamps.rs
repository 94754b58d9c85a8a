//! Stamps: what is expected of them, and what the generated ones are like.

use harness::choices::Books;
use harness::expected::{expected, Expected};
use harness::generator::Generator;
use harness::options::Options;
use harness::request::{hex, Op, Request};
use std::collections::HashSet;

/// The line that is expected.
fn line(request: &str) -> String {
    let read = Request::from_line(request).expect("it is a request");
    assert_eq!(read.to_string(), request);
    expected(&read).line().to_string()
}

fn read(text: &str) -> String {
    line(&format!("rfc_read {}", hex(text.as_bytes())))
}

fn wrote(text: &str) -> String {
    format!("wrote {} {}", text.len(), hex(text.as_bytes()))
}

#[test]
fn samples_of_the_rfc() {
    for (text, words) in [
        ("1985-04-12T23:20:50.52Z", "1985 4 12 84050520000000 0 0"),
        (
            "1996-12-19T16:39:57-08:00",
            "1996 12 19 59997000000000 -28800 0",
        ),
        (
            "1937-01-01T12:00:27.87+00:20",
            "1937 1 1 43227870000000 1200 0",
        ),
    ] {
        assert_eq!(read(text), format!("stamp {words}"));
    }
    assert_eq!(read("1990-12-31T23:59:60Z"), "refused 27 0");
    assert_eq!(read("1990-12-31T15:59:60-08:00"), "refused 27 0");
}

#[test]
fn what_the_request_says() {
    for (text, answer) in [
        ("2025-12-03t07:05:09z", "stamp 2025 12 3 25509000000000 0 0"),
        (
            "2025-12-03T07:05:09+00:00",
            "stamp 2025 12 3 25509000000000 0 0",
        ),
        (
            "2025-12-03T07:05:09-00:00",
            "stamp 2025 12 3 25509000000000 0 1",
        ),
        (
            "2025-12-03T07:05:09.1234567899Z",
            "stamp 2025 12 3 25509123456789 0 0",
        ),
        ("", "refused 25 0"),
        ("2025-13-03", "refused 25 10"),
        ("2025-12-03 07:05:09Z", "refused 25 10"),
        ("2025-12-03T07:05:09,5Z", "refused 25 19"),
        ("2025-12-03T07:05:09.Z", "refused 25 20"),
        ("2025-12-03T07:05:09.5", "refused 25 21"),
        ("2025-12-03T07:05:09Z ", "refused 25 20"),
        ("2025-12-03T07:05:09+05:30:00", "refused 25 25"),
        ("0000-13-30T00:00:60Z", "refused 26 0"),
        ("2025-12-03T00:00:61Z", "refused 26 0"),
        ("2025-12-03T00:00:00-23:60", "refused 26 0"),
        ("0000-02-30T00:00:60Z", "refused 27 0"),
        ("0000-02-30T00:00:00Z", "refused 28 0"),
        ("2025-02-30T00:00:00Z", "refused 17 0"),
    ] {
        assert_eq!(read(text), answer, "{text}");
    }
    assert_eq!(read(&"0".repeat(2049)), "refused 6 2049");
    assert_eq!(read("2025-\u{e9}"), "refused 7 5");
}

#[test]
fn what_is_written() {
    let write = |words: &str| line(&format!("rfc_write {words}"));
    assert_eq!(
        write("2025 12 3 25509000000000 0 0 20"),
        wrote("2025-12-03T07:05:09Z")
    );
    assert_eq!(
        write("2025 12 3 25509000000000 0 1 35"),
        wrote("2025-12-03T07:05:09-00:00")
    );
    assert_eq!(
        write("7 12 3 25509000120000 -60 0 35"),
        wrote("0007-12-03T07:05:09.000120000-00:01")
    );
    for (words, answer) in [
        ("0 13 3 0 0 0 35", "refused 4 1"),
        ("2025 13 3 0 0 0 35", "refused 4 2"),
        ("2025 12 32 0 0 0 35", "refused 4 3"),
        ("2025 12 3 86400000000000 86400 0 35", "refused 4 7"),
        ("-1 2 30 0 -86400 0 35", "refused 4 8"),
        ("-1 2 30 0 1 0 0", "refused 28 0"),
        ("10000 2 30 0 1 0 0", "refused 28 0"),
        ("2025 2 30 0 1 0 0", "refused 17 0"),
        ("2025 2 28 0 1 0 0", "refused 29 0"),
        ("2025 2 28 0 60 1 0", "refused 29 0"),
        ("2025 2 28 0 60 0 24", "refused 5 25"),
    ] {
        assert_eq!(write(words), answer, "{words}");
    }
}

fn answers(op: Op, count: usize) -> Vec<Expected> {
    let requests = Generator::new(1, vec![op]).take(count);
    requests.map(|request| expected(&request)).collect()
}

#[test]
fn a_quarter_is_accepted_and_every_refusal_is_there() {
    for (op, numbers) in [
        (Op::RfcRead, &[6, 7, 17, 25, 26, 27, 28][..]),
        (Op::RfcWrite, &[4, 5, 17, 28, 29]),
    ] {
        let answers = answers(op, 12_000);
        let is_accepted = |answer: &&Expected| matches!(answer, Expected::Accepted(_));
        assert!(answers.iter().filter(is_accepted).count() > 3000, "{op:?}");
        for number in numbers {
            let start = format!("refused {number} ");
            let count = answers
                .iter()
                .filter(|answer| answer.line().starts_with(&start))
                .count();
            assert!(count > 20, "{op:?} {number}: {count}");
        }
    }
}

/// Every prefix of a stamp, and every byte of one changed to every other.
#[test]
fn a_long_run_goes_through_all_that_is_enumerated() {
    let texts: HashSet<Vec<u8>> = Generator::new(1, vec![Op::RfcRead])
        .take(300_000)
        .map(|request| match request {
            Request::RfcRead { text } => text,
            _ => panic!("{request} is no stamp"),
        })
        .collect();
    let stamp = b"2024-02-29t00:00:00-00:00";
    for place in 0..stamp.len() {
        assert!(texts.contains(&stamp[..place]));
        for byte in 0..=255 {
            let mut changed = stamp.to_vec();
            changed[place] = byte;
            assert!(texts.contains(&changed), "{place} {byte}");
        }
    }
}

#[test]
fn they_are_asked_for_by_an_option_of_their_own() {
    let options = |words: &[&str]| Options::of_requests(words.iter().map(|word| word.to_string()));
    let stamps = options(&["--stamps", "--count", "4"]).expect("these are options");
    let ops: Vec<Op> = stamps.generated().map(|stamp| stamp.op()).collect();
    assert_eq!(ops, [Op::STAMPS, Op::STAMPS].concat());
    assert!(options(&["--stamps", "--ops", "rfc_read"]).is_err());
    assert!(options(&["--stamps", "--lists"]).is_err());
    assert!(options(&["--stamps", "--mends"]).is_err());
    assert!(options(&["--stamps", "--books", "english"]).is_err());
    assert!(options(&["--ops", "rfc_read,rfc_write"]).is_ok());
    assert!(Options::of_checks(["--stamps".to_string()].into_iter()).is_err());
    for books in [None, Some(Books::English), Some(Books::Random)] {
        assert!(Op::usual(books).iter().all(|op| !Op::STAMPS.contains(op)));
    }
}
