//! The specification's samples and shortcuts of the check: which verdict comes out of trying records.

use harness::check::{verdict, CheckRequest, Verdict};
use harness::choices::Edition;
use harness::generator::Random;

fn check(edition: Edition, pattern: impl AsRef<[u8]>, now: i32) -> Verdict {
    let request = CheckRequest {
        edition,
        pattern: pattern.as_ref().to_vec(),
        now,
        book: None,
    };
    verdict(&request, &mut Random::new(1))
}

fn years(edition: Edition) -> [i32; 6] {
    [edition.first_year(), 999, 1000, 1999, 2025, 9999]
}

#[track_caller]
fn yes_in(edition: Edition, pattern: &str) {
    for now in years(edition) {
        let answer = check(edition, pattern, now);
        assert_eq!(answer, Verdict::Yes, "{edition:?}: {pattern} in {now}");
    }
}

#[track_caller]
fn no_in(edition: Edition, pattern: &str, part: usize) {
    for now in years(edition) {
        let answer = check(edition, pattern, now);
        let is_no = matches!(answer, Verdict::No(found, _) if found == part);
        assert!(is_no, "{edition:?}: {pattern} in {now}: {answer}");
    }
}

/// In both editions.
#[track_caller]
fn yes(pattern: &str) {
    for edition in Edition::ALL {
        yes_in(edition, pattern);
    }
}

/// In both editions.
#[track_caller]
fn no(pattern: &str, part: usize) {
    for edition in Edition::ALL {
        no_in(edition, pattern, part);
    }
}

/// In both editions.
#[track_caller]
fn refused(pattern: impl AsRef<[u8]>, now: i32, line: &str) {
    for edition in Edition::ALL {
        assert_eq!(check(edition, &pattern, now).to_string(), line);
    }
}

#[test]
fn sheet_samples() {
    yes("d/MM");
    no_in(Edition::First, "d/M", 2);
    yes_in(Edition::Second, "d/M");
    yes("XXXXX5");
    no("XXXXX.5", 0);
    yes("");
}

#[test]
fn five_letters_of_a_zone_look_one_byte_further() {
    for zone in ["XXXXX", "xxxxx"] {
        no(&format!("{zone}55"), 0);
        no(&format!("{zone}d"), 0);
        no(&format!("{zone}q5"), 0);
        no(&format!("{zone}aaaaad"), 0);
        yes(&format!("{zone}q"));
        yes(&format!("{zone}q/5"));
        yes(&format!("{zone}'a'/5"));
    }
    no("XXXXX''y", 0);
    no("X5", 0);
    no("xxxxn", 0);
    yes("XX5");
    yes("XXXXXX5");
}

#[test]
fn a_single_month_is_broken_in_the_first_edition() {
    for (pattern, part) in [("M", 0), ("M/d", 0), ("MM M MM", 2)] {
        no_in(Edition::First, pattern, part);
        yes_in(Edition::Second, pattern);
    }
    for count in [2, 3, 4, 5, 6, 12] {
        yes(&"M".repeat(count));
    }
}

#[test]
fn years_of_two_five_and_six_letters_are_broken() {
    for count in [2, 5, 6] {
        no(&"y".repeat(count), 0);
    }
    for count in [1, 3, 4, 7, 8, 20, 256] {
        yes(&"y".repeat(count));
    }
}

/// By a digit behind it alone.
#[track_caller]
fn is_disturbed(edition: Edition, part: &str) {
    yes_in(edition, part);
    yes_in(edition, &format!("{part}/5"));
    yes_in(edition, &format!("{part}eee"));
    yes_in(edition, &format!("{part}X"));
    no_in(edition, &format!("{part}5"), 0);
    no_in(edition, &format!("{part}'5'"), 0);
    no_in(edition, &format!("{part}n"), 0);
    no_in(edition, &format!("/{part}qqqq"), 1);
}

#[test]
fn numbers_that_a_digit_behind_them_disturbs() {
    let disturbed = "y yyy yyyy w d D DD DDDD h H K k m s";
    for edition in Edition::ALL {
        for part in disturbed.split(' ') {
            is_disturbed(edition, part);
        }
    }
    is_disturbed(Edition::Second, "M");
    yes("ddMMyyyyyyy");
    no("ddMMyyyyHH", 2);
}

#[test]
fn an_open_quote_that_ends_in_an_escaped_one_is_broken() {
    no("'abc''", 0);
    no("dd'5''", 1);
    yes("'abc");
    yes("'abc'");
    yes("'abc'''");
    yes("''");
}

#[test]
fn each_part_counts_by_its_own_bytes() {
    // The second day is read right, and its value is the one that stays.
    no("d5 dd", 0);
    no("MM M5 MM", 2);
}

#[test]
fn refusals_come_in_their_order() {
    refused("d".repeat(257), 2025, "refused 1 257");
    refused(b"d\x80\0", 2025, "refused 2 1");
    refused("'", 2025, "refused 3 0");
    refused("d'''", 2025, "refused 3 3");
    refused("d", 0, "refused 14 0");
    refused("d", 10_000, "refused 14 10000");

    refused(["\0", &"'".repeat(257)].concat(), 0, "refused 1 258");
    refused("\0'", 0, "refused 2 0");
    refused("d'", -1, "refused 3 1");
    refused("M", i32::MIN, "refused 14 -2147483648");
}

#[test]
fn the_second_edition_refuses_more_current_years() {
    for now in [1, 80] {
        for pattern in ["", "d", "M", "yy"] {
            let line = format!("refused 14 {now}");
            assert_eq!(check(Edition::Second, pattern, now).to_string(), line);
        }
        assert_eq!(check(Edition::First, "d", now), Verdict::Yes);
    }
    assert_eq!(check(Edition::Second, "d", 81), Verdict::Yes);
    assert_eq!(check(Edition::Second, "d'", 80).to_string(), "refused 3 1");
}
