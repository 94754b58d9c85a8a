//! Mending: samples, what has to hold of every mended pattern in both editions, its limits, what undoing refuses, and its sentences.

mod shelves;

use sheet::{check_with, mend, mend_with, split, undo, Change, Edition, Mending, Misfit, Refusal, Verdict};
use shelves::Random;

const YEAR: i32 = 2025;
const BOTH: [Edition; 2] = [Edition::First, Edition::Second];

fn change(place: usize, byte: u8, before: usize, after: usize) -> Change {
    Change {
        place,
        byte,
        before,
        after,
    }
}

fn says_yes(edition: Edition, pattern: &[u8]) -> bool {
    check_with(edition, pattern, YEAR) == Ok(Verdict::Yes)
}

/// What has to hold of it, whatever the pattern is.
#[track_caller]
fn holds(edition: Edition, pattern: &[u8]) -> Mending {
    let mending = mend_with(edition, pattern, YEAR).expect("it is not refused");
    let Mending {
        pattern: mended,
        changes,
    } = &mending;
    assert!(says_yes(edition, mended), "{pattern:?}");
    assert_eq!(changes.is_empty(), says_yes(edition, pattern), "{pattern:?}");
    assert_eq!(undo(mended, changes).as_deref(), Ok(pattern));
    let sentences = mending.sentences();
    let explained = |change: &Change, sentence: &String| (change.byte == b' ') == sentence.contains(", since ");
    assert!(
        changes
            .iter()
            .zip(&sentences)
            .all(|(change, sentence)| explained(change, sentence)),
        "{sentences:?}"
    );
    let again = mend_with(edition, mended, YEAR).expect("it is not refused");
    assert_eq!((&again.pattern, again.changes.len()), (mended, 0));
    for number in 0..changes.len() {
        let one_undone = mending.without(number).expect("there is such a change");
        assert!(
            !says_yes(edition, &one_undone.pattern),
            "{pattern:?}: change {number} is needless"
        );
        assert_eq!(undo(&one_undone.pattern, &one_undone.changes).as_deref(), Ok(pattern));
    }
    mending
}

/// In these editions a pattern becomes another, by these changes.
#[track_caller]
fn becomes(editions: &[Edition], pattern: &str, other: &str, changes: &[Change]) {
    for edition in editions {
        let mending = holds(*edition, pattern.as_bytes());
        assert_eq!(String::from_utf8_lossy(&mending.pattern), other, "{edition:?}");
        assert_eq!(mending.changes, changes, "{edition:?}");
    }
}

#[test]
fn samples() {
    use Edition::{First, Second};
    becomes(&BOTH, "yyd", "yyyy d", &[change(0, b'y', 2, 4), change(4, b' ', 0, 1)]);
    becomes(&[First], "M5", "MM5", &[change(0, b'M', 1, 2)]);
    becomes(&[Second], "M5", "M 5", &[change(1, b' ', 0, 1)]);
    becomes(&BOTH, "XXXXX 5", "XXXXX   5", &[change(5, b' ', 0, 2)]);
    becomes(&BOTH, "xxxxx.5", "xxxxx  .5", &[change(5, b' ', 0, 2)]);
    becomes(&BOTH, "XXXXX5", "XXXXX5", &[]);
    becomes(&BOTH, "'abc''", "'abc'''", &[change(6, b'\'', 0, 1)]);
    becomes(&BOTH, "'abc", "'abc", &[]);
    becomes(
        &BOTH,
        "yyyyy/yyyyyy",
        "yyyyyyy/yyyyyyy",
        &[change(0, b'y', 5, 7), change(8, b'y', 6, 7)],
    );
    becomes(&BOTH, "", "", &[]);
    becomes(&[First], "d/M", "d/MM", &[change(2, b'M', 1, 2)]);
    becomes(&[Second], "d/M", "d/M", &[]);
}

#[test]
fn the_first_edition_is_that_of_mend() {
    for pattern in ["M5", "dM", "yy", "d/MM", ""] {
        assert_eq!(mend(pattern, YEAR), mend_with(Edition::First, pattern, YEAR));
    }
}

/// All short ones over what changes, what is disturbed, what disturbs, spaces and quotes.
#[test]
fn every_short_pattern() {
    let pieces = [
        "M", "yy", "yyyyy", "XXXXX", "x", "d", "5", ".", " ", "''", "'5'", "'a''", "q", "e",
    ];
    let mut patterns = vec![String::new()];
    for _ in 0..3 {
        let longer = |pattern: &String| pieces.map(|piece| pattern.clone() + piece);
        patterns = patterns.iter().flat_map(longer).collect();
        for pattern in &patterns {
            // A quote that a piece leaves open may take up others, and end alone.
            for edition in BOTH
                .into_iter()
                .filter(|edition| mend_with(*edition, pattern, YEAR).is_ok())
            {
                holds(edition, pattern.as_bytes());
            }
        }
    }
}

#[test]
fn any_pattern() {
    let mut random = Random::new();
    let (mut altered, mut too_long) = (0, 0);
    for turn in 0..20_000 {
        let most = if turn % 10 == 0 { 256 } else { 24 };
        let length = random.below(most + 1);
        let pattern: Vec<u8> = (0..length).map(|_| *random.pick(b"MydDHXxq'5 ./TAyyXXXX")).collect();
        let edition = *random.pick(&BOTH);
        match mend_with(edition, &pattern, YEAR) {
            Ok(_) => altered += usize::from(!holds(edition, &pattern).changes.is_empty()),
            Err(refusal) if refusal.number() == 30 => too_long += 1,
            Err(refusal) => assert_eq!(refusal.number(), 3),
        }
    }
    assert!(
        altered > 5000 && too_long > 50,
        "{altered} altered, {too_long} too long"
    );
}

fn parts_of(pattern: &[u8]) -> Vec<Vec<u8>> {
    let parts = split(pattern).expect("it is a pattern");
    parts.iter().map(|part| pattern[part.range()].to_vec()).collect()
}

/// The parts of the mended pattern are those of the one that was given, in order, each with its own change, and spaces between.
#[test]
fn the_parts_stay() {
    let [yes, no] = [true, false];
    for (edition, pattern, changed) in [
        (
            Edition::First,
            "yydM/XXXXX.5MMM",
            &[yes, no, yes, no, no, no, no, no][..],
        ),
        (Edition::Second, "M5 MMM'a''", &[no, no, no, no, yes]),
        (Edition::First, "XXXXX  5y'o''clock'", &[no, no, no, no, no]),
    ] {
        let mending = holds(edition, pattern.as_bytes());
        let spaces: Vec<Change> = mending
            .changes
            .iter()
            .filter(|change| change.byte == b' ')
            .copied()
            .collect();
        let without_spaces = undo(&mending.pattern, &spaces).expect("they fit");
        let (before, after) = (parts_of(pattern.as_bytes()), parts_of(&without_spaces));
        let differ: Vec<bool> = before
            .iter()
            .zip(&after)
            .map(|(before, after)| before != after)
            .collect();
        assert_eq!((before.len(), &differ[..]), (after.len(), changed), "{pattern}");
        assert!(before
            .iter()
            .zip(&after)
            .all(|(before, after)| after.starts_with(before)));
    }
}

/// The mended pattern has 256 bytes at most; one byte more is refused 30, whatever it is of.
#[test]
fn at_the_longest_pattern() {
    for (piece, more) in [
        ("M", 1),
        ("yy", 2),
        ("yyyyy", 2),
        ("yyyyyy", 1),
        ("dH", 1),
        ("XXXXX.5", 2),
        ("'a''", 1),
    ] {
        let filled = |length: usize| "-".repeat(length - piece.len()) + piece;
        let longest = holds(Edition::First, filled(256 - more).as_bytes());
        assert_eq!(longest.pattern.len(), 256);
        let refusal = mend(filled(256 - more + 1), YEAR).expect_err("it is too long");
        assert_eq!((refusal.number(), refusal.details()), (30, &[0][..]));
        assert_eq!(refusal.to_string(), "the mended pattern has over 256 bytes");
    }
    let longest = "/".repeat(256);
    assert_eq!(
        mend(&longest, YEAR).map(|mending| mending.pattern),
        Ok(longest.into_bytes())
    );
    assert_eq!(
        mend_with(Edition::Second, "M/".repeat(128), YEAR).map(|mending| mending.changes.len()),
        Ok(0)
    );
    assert_eq!(
        mend("M/".repeat(128), YEAR).map_err(|refusal| refusal.number()),
        Err(30)
    );
}

/// Each change has two bytes of the mended pattern at least, so that there are no more.
#[test]
fn most_changes() {
    let mending = holds(Edition::First, ("dH".repeat(63) + "dM").as_bytes());
    assert_eq!((mending.pattern.len(), mending.changes.len()), (256, 128));
    assert_eq!(mending.pattern, ("d H ".repeat(63) + "d MM").into_bytes());
}

/// 1, 2, 3 and 14 as of the check, before 30.
#[test]
fn refused_as_the_check() {
    for edition in BOTH {
        for (pattern, year) in [
            ("d".repeat(257), 0),
            ("dH\0'".to_string(), 0),
            ("dH'".to_string(), 0),
            ("dH".to_string(), 0),
            ("dH".to_string(), 10_000),
            ("dH".repeat(128), -1),
        ] {
            let refusal = |refused: Result<Verdict, Refusal>| refused.expect_err("it is refused");
            assert_eq!(
                mend_with(edition, &pattern, year),
                Err(refusal(check_with(edition, &pattern, year)))
            );
        }
    }
    assert_eq!(
        mend_with(Edition::Second, "dH", 80).map_err(|refusal| refusal.number()),
        Err(14)
    );
    assert!(mend("dH", 80).is_ok() && mend_with(Edition::Second, "dH", 81).is_ok());
}

/// Each damage to a list by which it does not fit its pattern.
#[test]
fn changes_that_do_not_fit() {
    let Mending { pattern, changes } = mend("yyd", YEAR).expect("it is not refused");
    assert_eq!(undo(&pattern, &changes).as_deref(), Ok(&b"yyd"[..]));
    let misfits = [
        vec![changes[1], changes[0]],
        vec![changes[0], changes[0]],
        vec![change(0, b'y', 5, 4)],
        vec![change(0, b'y', 2, 5)],
        vec![change(0, b'M', 2, 4)],
        vec![change(1, b'y', 2, 4)],
        vec![change(4, b' ', 0, 2)],
        vec![change(7, b' ', 0, 0)],
        vec![change(usize::MAX, b' ', 0, 1)],
        vec![change(0, b'y', 0, usize::MAX)],
        vec![change(0, b'y', usize::MAX, usize::MAX)],
        vec![change(3, b'y', 0, 1), change(3, b'y', 0, 1)],
        vec![change(0, b'y', 0, 0); 129],
    ];
    for changes in misfits {
        assert_eq!(undo(&pattern, &changes), Err(Misfit), "{changes:?}");
    }
    assert_eq!(undo("yyyy-d", &changes), Err(Misfit));
    assert_eq!(undo("", &changes), Err(Misfit));
    assert_eq!(Misfit.to_string(), "the changes do not fit the pattern");
}

/// Any bytes that changes fit, and as many changes as a list has.
#[test]
fn changes_that_fit() {
    assert_eq!(undo("", &[]), Ok(Vec::new()));
    assert_eq!(undo(b"\0\xff\xff\xff", &[change(1, 255, 1, 3)]), Ok(b"\0\xff".to_vec()));
    assert_eq!(
        undo("aab", &[change(0, b'a', 2, 2), change(3, b'c', 0, 0)]),
        Ok(b"aab".to_vec())
    );
    let many: Vec<Change> = (0..128).map(|number| change(2 * number, b'a', 0, 1)).collect();
    assert_eq!(undo("ab".repeat(128), &many), Ok(vec![b'b'; 128]));
    assert_eq!(undo("a".repeat(5000), &[change(10, b'a', 3, 4990)]), Ok(vec![b'a'; 13]));
}

#[test]
fn one_change_undone() {
    let mending = mend("yyMM'a''", YEAR).expect("it is not refused");
    assert_eq!(mending.pattern, b"yyyy MM'a'''");
    let without = |mending: &Mending, number| mending.without(number).expect("there is such a change");
    assert_eq!(without(&mending, 0).pattern, b"yy MM'a'''");
    assert_eq!(without(&mending, 1).pattern, b"yyyyMM'a'''");
    assert_eq!(without(&mending, 2).pattern, b"yyyy MM'a''");
    assert_eq!(
        without(&mending, 1).changes,
        [change(0, b'y', 2, 4), change(10, b'\'', 0, 1)]
    );
    assert_eq!(without(&without(&without(&mending, 1), 1), 0).pattern, b"yyMM'a''");
    assert_eq!(mending.without(3), Err(Misfit));
}

/// By edition and pattern, a sentence for each change.
#[test]
fn sentences() {
    use Edition::{First, Second};
    let sentences: [(Edition, &str, &[&str]); 24] = [
        (First, "M", &["`M` became `MM`"]),
        (First, "yy", &["`yy` became `yyyy`"]),
        (First, "yyyyy", &["`yyyyy` became `yyyyyyy`"]),
        (First, "yyyyyy", &["`yyyyyy` became `yyyyyyy`"]),
        (First, "'o''", &["the quote at the end was closed"]),
        (First, "dH", &["a space after `d`, since `H` can begin with a digit"]),
        (First, "d5", &["a space after `d`, since `5` is a digit"]),
        (First, "d55", &["a space after `d`, since `55` begins with a digit"]),
        (
            First,
            "d'5 o''clock'",
            &["a space after `d`, since `'5 o''clock'` begins with a digit"],
        ),
        (
            First,
            "yyyyMMdd",
            &["a space after `yyyy`, since `MM` can begin with a digit"],
        ),
        (Second, "Md", &["a space after `M`, since `d` can begin with a digit"]),
        (First, "X5", &["a space after `X`, since `5` is a digit"]),
        (
            First,
            "Xqqqq",
            &["a space after `X`, since `qqqq` can begin with a digit"],
        ),
        (
            First,
            "XXXXXd",
            &["two spaces after `XXXXX`, since `d` can have a digit as its second byte"],
        ),
        (
            First,
            "xxxxxX",
            &["two spaces after `xxxxx`, since `X` can have a digit as its second byte"],
        ),
        (
            First,
            "XXXXX55",
            &["two spaces after `XXXXX`, since `55` has a digit as its second byte"],
        ),
        (
            First,
            "XXXXX'-5'",
            &["two spaces after `XXXXX`, since `'-5'` has a digit as its second byte"],
        ),
        (
            First,
            "XXXXX.5",
            &["two spaces after `XXXXX`, since `5` behind `.` is a digit"],
        ),
        (
            First,
            "XXXXX 5",
            &["two spaces after `XXXXX`, since `5` behind ` ` is a digit"],
        ),
        (
            First,
            "XXXXX''H",
            &["two spaces after `XXXXX`, since `H` behind `''` can begin with a digit"],
        ),
        (
            First,
            "XXXXXeHH",
            &["two spaces after `XXXXX`, since `HH` behind `e` can begin with a digit"],
        ),
        (
            First,
            "XXXXXbbbbb'5'",
            &["two spaces after `XXXXX`, since `'5'` behind `bbbbb` begins with a digit"],
        ),
        (
            First,
            "XXXXXMd",
            &[
                "two spaces after `XXXXX`, since `MM` can have a digit as its second byte",
                "`M` became `MM`",
            ],
        ),
        (First, "d/MM", &[]),
    ];
    for (edition, pattern, expected) in sentences {
        let mending = holds(edition, pattern.as_bytes());
        assert_eq!(mending.sentences(), expected, "{pattern}");
        assert_eq!(mending.to_string(), expected.join("\n"));
    }
}

/// With changes of another pattern, or such as no mending makes, a sentence says what it can.
#[test]
fn every_change_has_a_sentence() {
    let of = |pattern: &str, change: Change| {
        let mending = Mending {
            pattern: pattern.as_bytes().to_vec(),
            changes: vec![change],
        };
        mending.to_string()
    };
    assert_eq!(of("", change(0, b' ', 0, 1)), "a space put in");
    assert_eq!(of("d ", change(1, b' ', 0, 1)), "a space put in");
    assert_eq!(of("d", change(usize::MAX, b' ', 0, 2)), "two spaces put in");
    assert_eq!(
        of("d", change(1, b' ', 0, usize::MAX)),
        format!("{} spaces put in", usize::MAX)
    );
    assert_eq!(of("dM", change(1, b'x', 0, 2)), "`xx` put in");
    let long = change(0, b'y', usize::MAX, 30);
    assert_eq!(of("y", long), format!("`{0}..` became `{0}..`", "y".repeat(24)));
}
