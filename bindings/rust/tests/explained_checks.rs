//! What is said of a check: the part, a real day, the text of that day, and what the part takes of it.

use sheet::{check_with, explain_check, explain_check_with, Edition, Verdict};

const EDITIONS: [Edition; 2] = [Edition::First, Edition::Second];
const YES: &str = "on every day each part reads just what it wrote";

#[track_caller]
fn says(edition: Edition, pattern: &str, sentence: &str) {
    let found = explain_check_with(edition, pattern, 2025);
    assert_eq!(found.as_deref(), Ok(sentence), "{edition:?} {pattern}");
}

#[track_caller]
fn both_say(pattern: &str, sentence: &str) {
    for edition in EDITIONS {
        says(edition, pattern, sentence);
    }
}

#[test]
fn of_a_yes() {
    for pattern in ["", "d/MM", "yyyyyyy", "''", "'abc'", "XXXXX5"] {
        both_say(pattern, YES);
    }
}

/// Whose verdict hangs on the edition.
#[test]
fn of_a_single_month() {
    let cut = "part 2, `M`: on Saturday, 23 November 2024 the text is `23/11`; `M` takes `1` of `11`";
    says(Edition::First, "d/M", cut);
    says(Edition::Second, "d/M", YES);
    let cut = "part 0, `M`: on Saturday, 23 November 2024 the text is `1123`; `M` takes `1` of `11`";
    let more = "part 0, `M`: on Monday, 5 February 2024 the text is `205`; `M` takes `20`, of which `2` is its own";
    says(Edition::First, "Mdd", cut);
    says(Edition::Second, "Mdd", more);
}

#[test]
fn of_fewer_bytes() {
    both_say(
        "yyyyy",
        "part 0, `yyyyy`: on Friday, 23 November 1000001 the text is `1000001`; `yyyyy` takes `10000` of `1000001`",
    );
    both_say(
        "d yyyyyy",
        "part 2, `yyyyyy`: on Friday, 23 November 1000001 the text is `23 1000001`; `yyyyyy` takes `100000` of `1000001`",
    );
}

/// The time and the offset are told where the part shows them.
#[test]
fn of_more_bytes() {
    both_say(
        "dH",
        "part 0, `d`: on Monday, 5 February 2024 the text is `53`; `d` takes `53`, of which `5` is its own",
    );
    both_say(
        "w5",
        "part 0, `w`: on Monday, 5 February 2024 the text is `65`; `w` takes `65`, of which `6` is its own",
    );
    both_say(
        "yd",
        "part 0, `y`: on Monday, 5 February 2024 the text is `20245`; `y` takes `20245`, of which `2024` is its own",
    );
    both_say(
        "d. Hmm",
        "part 3, `H`: on Monday, 5 February 2024 at 03:04:07 the text is `5. 304`; `H` takes `30`, of which `3` is its own",
    );
    both_say(
        "X55",
        "part 0, `X`: on Monday, 5 February 2024 at the offset +08:00 the text is `+0855`; \
         `X` takes `+0855`, of which `+08` is its own",
    );
}

/// Only a year of two digits takes its own bytes for something else.
#[test]
fn of_another_value() {
    let day = "part 0, `yy`: on Friday, 23 November 1000001 the text is `01`; ";
    both_say("yy", &format!("{day}`yy` takes `01` as 2001"));
    for (edition, year, value) in [
        (Edition::First, 9999, 9001),
        (Edition::Second, 9999, 10_001),
        (Edition::First, 81, 1),
        (Edition::Second, 81, 1),
    ] {
        let sentence = explain_check_with(edition, "yy", year);
        assert_eq!(sentence, Ok(format!("{day}`yy` takes `01` as {value}")));
    }
}

#[test]
fn of_a_part_that_cannot_be_read() {
    both_say(
        "'abc''",
        "part 0, `'abc''`: on Saturday, 23 November 2024 the text is `abc`; `'abc''` needs four bytes, found `abc`",
    );
    both_say(
        "X5",
        "part 0, `X`: on Monday, 5 February 2024 at the offset +08:00 the text is `+085`; \
         `X` needs `Z` or an offset such as `+05` or `+0530`, found `+085`, of which `+08` is its own",
    );
    both_say(
        "xxxxx.5",
        "part 0, `xxxxx`: on Saturday, 23 November 2024 at the offset -09:00 the text is `-09:00.5`; \
         `xxxxx` needs an offset such as `+05:30` or `+05:30:09`, found `-09:00.5`, of which `-09:00` is its own",
    );
    both_say(
        "y99999999",
        "part 0, `y`: on Monday, 5 February 2024 the text is `202499999999`; \
         `y` needs a year in digits, 2147483647 at most, found `20249999999`, of which `2024` is its own",
    );
}

/// Far behind in a long text it is shown from the part on.
#[test]
fn of_a_long_text() {
    both_say(
        "eeee, d MMMM yyyy 'at' HH.mm, d5",
        "part 16, `d`: on Monday, 5 February 2024 the text is `..55`; `d` takes `55`, of which `5` is its own",
    );
}

#[test]
fn it_refuses_as_the_check_does() {
    for (pattern, year) in [("'", 2025), ("\0", 2025), ("d", 0), ("d", 80)] {
        for edition in EDITIONS {
            let refused = check_with(edition, pattern, year).err();
            assert_eq!(explain_check_with(edition, pattern, year).err(), refused);
        }
        assert_eq!(
            explain_check(pattern, year),
            explain_check_with(Edition::First, pattern, year)
        );
    }
}

/// Each symbol at each count that differs, alone and before what may disturb it: one line, with the part that the check names.
#[test]
fn every_no_is_explained() {
    for symbol in "GyqMwdDeabhKHkmsnXx'".chars() {
        for count in 1..=12 {
            for behind in ["", "5", "55", ".5", "d", "e5", "/", "'5'", "'5''"] {
                let pattern = String::from(symbol).repeat(count) + behind;
                is_explained(Edition::First, &pattern);
                is_explained(Edition::Second, &pattern);
            }
        }
    }
}

#[track_caller]
fn is_explained(edition: Edition, pattern: &str) {
    let Ok(verdict) = check_with(edition, pattern, 2025) else {
        return;
    };
    let sentence = explain_check_with(edition, pattern, 2025).expect("it is not refused");
    match verdict {
        Verdict::Yes => assert_eq!(sentence, YES),
        Verdict::No { part, .. } => {
            let days = [
                "Monday, 5 February 2024",
                "Saturday, 23 November 2024",
                "Friday, 23 November 1000001",
            ];
            assert!(sentence.starts_with(&format!("part {part}, `")), "{sentence}");
            assert!(days.iter().any(|day| sentence.contains(day)), "{sentence}");
            let why = ["` of `", ", of which `", " as ", " needs "];
            assert!(why.iter().any(|why| sentence.contains(why)), "{pattern}: {sentence}");
        }
    }
}
