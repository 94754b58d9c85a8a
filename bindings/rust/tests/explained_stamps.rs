//! What is said of a text that is no stamp: what stood there and what was needed, or which number is out of its range.

use sheet::{explain_stamp, read_stamp, write_stamp, Stamp};

/// Of every place of the longest form, what is needed there.
#[test]
fn explained() {
    let of = |text: &str| explain_stamp(text, &read_stamp(text).expect_err("this is refused"));
    let ending = "one more digit, `Z`, or an offset such as `+05:30`";
    let needs = [
        "a digit",
        "a digit",
        "a digit",
        "a digit",
        "`-`",
        "a digit",
        "a digit",
        "`-`",
        "a digit",
        "a digit",
        "`T`",
        "a digit",
        "a digit",
        "`:`",
        "a digit",
        "a digit",
        "`:`",
        "a digit",
        "a digit",
        "`.` and digits, `Z`, or an offset such as `+05:30`",
        "a digit",
        ending,
        ending,
        "a digit",
        "a digit",
        "`:`",
        "a digit",
        "a digit",
        "the end",
    ];
    let text = "2025-12-03T07:05:09.12+05:30";
    for (place, needed) in needs.into_iter().enumerate() {
        let wrong = format!("{}!", &text[..place]);
        assert_eq!(of(&wrong), format!("the stamp can't go on at `!`: it needs {needed}"));
        if place < text.len() {
            assert_eq!(
                of(&text[..place]),
                format!("the stamp ends too soon: it needs {needed}")
            );
        }
    }
    assert_eq!(
        of("2025-12-03T07:05:09Z!"),
        "the stamp can't go on at `!`: it needs the end"
    );
    assert_eq!(
        of("2025-12-03T07:05:09+!"),
        "the stamp can't go on at `!`: it needs a digit"
    );
    for (text, sentence) in [
        ("2025-13-32T07:05:09Z", "the stamp's month is 13, not 01 to 12"),
        ("2025-12-00T07:05:09Z", "the stamp's day is 00, not 01 to 31"),
        ("2025-12-03T24:60:61Z", "the stamp's hour is 24, not 00 to 23"),
        ("2025-12-03T07:60:61Z", "the stamp's minute is 60, not 00 to 59"),
        ("2025-12-03T07:05:61z", "the stamp's second is 61, not 00 to 60"),
        (
            "2025-12-03T07:05:09.5+24:60",
            "the hour of the stamp's offset is 24, not 00 to 23",
        ),
        (
            "2025-12-03T07:05:09.5-23:60",
            "the minute of the stamp's offset is 60, not 00 to 59",
        ),
        ("2025-12-03T07:05:60Z", "the stamp has the second 60"),
        ("0000-12-03T07:05:00Z", "the year of the stamp is not from 1 to 9999"),
        ("2025-02-29T07:05:00Z", "there is no such day"),
        (
            "2025-02-\u{e9}",
            "the text has a byte that is not plain ASCII: at place 8, counted from 0",
        ),
    ] {
        assert_eq!(of(text), sentence);
    }
}

/// Whatever it is that was refused.
#[test]
fn refusals_of_another_text_are_explained_as_they_print() {
    let [grammar, range, day] = ["2025-12-03T07:05:09Z!", "2025-13-03T07:05:09Z", "2025-02-30T07:05:09Z"]
        .map(|text| read_stamp(text).expect_err("this is refused"));
    for text in ["", "2025", "2025-12-03T07:05:09Z"] {
        assert_eq!(explain_stamp(text, &range), range.to_string());
        assert_eq!(explain_stamp(text, &day), day.to_string());
    }
    assert_eq!(explain_stamp("2025", &grammar), grammar.to_string());
    assert_eq!(
        grammar.to_string(),
        "the text is not a stamp of RFC 3339: at place 20, counted from 0"
    );
    assert_eq!(range.to_string(), "a number of the stamp is out of its range");
    let some = read_stamp("2025-12-03T07:05:09Z").expect("it is a stamp");
    let offset = write_stamp(&Stamp { offset: 1, ..some }).expect_err("this is refused");
    assert_eq!(
        offset.to_string(),
        "the offset of the stamp is not of whole minutes, or not 0 though it is unknown"
    );
}
