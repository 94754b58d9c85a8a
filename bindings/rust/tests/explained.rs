//! What is said of a refused read: what stood there and what was wanted.

use sheet::{
    check, check_with, explain, explain_date, explain_with, parse_offset, read, read_date, read_with, Choices, Edition,
    Refusal,
};

const SENTENCES: &str = include_str!("explained.tsv");
const SYMBOLS: &[u8] = b"GyqMwdDeabhKHkmsnXx";
const DATE_SYMBOLS: &[u8] = b"GyqMwdDe";

fn explained(pattern: impl AsRef<[u8]>, text: impl AsRef<[u8]>) -> String {
    let refusal = read(&pattern, &text, 2025).expect_err("this is refused");
    explain(pattern, text, &refusal)
}

fn explained_with(choices: Choices, pattern: &str, text: &str) -> String {
    let refusal = read_with(choices, pattern, text, 2025).expect_err("this is refused");
    explain_with(choices, pattern, text, &refusal)
}

#[test]
fn listed_ones() {
    for line in SENTENCES.lines().skip(1) {
        let (found, sentence) = match line.split('\t').collect::<Vec<_>>()[..] {
            [pattern, text, sentence] => (explained(pattern, text), sentence),
            [pattern, text, sentence, "strict"] => (explained_with(Choices::new().strict(), pattern, text), sentence),
            _ => panic!("{line} has other columns"),
        };
        assert_eq!(found, sentence);
    }
}

/// At the end of the text every symbol wants something, and so does every literal.
#[test]
fn every_symbol_at_every_count() {
    for symbol in SYMBOLS.iter().chain(b"/Z5") {
        let listed = format!("\n{}", char::from(*symbol));
        assert!(!SYMBOLS.contains(symbol) || SENTENCES.contains(&listed));
        for count in 1..=256 {
            let sentence = explained(vec![*symbol; count], "");
            assert!(sentence.ends_with(", found the end of the text"), "{sentence}");
        }
    }
}

/// By the Date pair time symbols are literals.
#[test]
fn of_dates() {
    for symbol in SYMBOLS {
        let pattern = [*symbol; 3];
        let refusal = read_date(pattern, "", 2025).expect_err("this is refused");
        let (sentence, full) = (explain_date(pattern, "", &refusal), explained(pattern, ""));
        if DATE_SYMBOLS.contains(symbol) {
            assert_eq!(sentence, full);
        } else {
            let name = String::from_utf8_lossy(&pattern);
            assert_eq!(
                sentence,
                format!("`{name}` needs three bytes, found the end of the text")
            );
        }
    }
    let refusal = read_date("HH dd", "07:3", 2025).expect_err("this is refused");
    assert_eq!(
        explain_date("HH dd", "07:3", &refusal),
        "`dd` needs two digits, found `3`"
    );
}

/// Where it is strict they are compared.
#[test]
fn of_dates_read_strictly() {
    let strict = Choices::new().date().strict();
    assert_eq!(explained_with(strict, "dd HH", "03 07"), "`HH` needs `HH`, found `07`");
    assert_eq!(
        explained_with(strict, "HH dd", "HH 3"),
        "`dd` needs two digits, found `3`"
    );
}

/// In the second edition a single M wants what d wants; all else is said as in the first.
#[test]
fn of_the_second_edition() {
    let second = Choices::new().edition(Edition::Second);
    assert_eq!(explained("M", "x5"), "`M` needs one digit, found `x`");
    assert_eq!(
        explained_with(second, "M", "x5"),
        "`M` needs one or two digits, found `x5`"
    );
    // Shown from behind the two digits that the month took.
    assert_eq!(
        explained_with(second, "M dd", "12 3"),
        "`dd` needs two digits, found `3`"
    );
    for (pattern, text) in [("yy", "5"), ("MM", "5"), ("d", "x5"), ("MMM", "Dez"), ("HH", "7")] {
        assert_eq!(explained_with(second, pattern, text), explained(pattern, text));
    }
    assert_eq!(explained_with(second.strict(), "M/", "12-"), "`/` needs `/`, found `-`");
}

/// With the edition at hand its years are named; without it, those of an edition that refuses that year.
#[test]
fn of_a_current_year() {
    let second = Choices::new().edition(Edition::Second);
    for (year, printed) in [(0, 1), (80, 81), (10_000, 1)] {
        let refusal = check_with(Edition::Second, "d", year).expect_err("this is refused");
        let sentence = |first: i32| format!("the current year is not from {first} to 9999: it is {year}");
        assert_eq!(explain_with(second, "d", "3", &refusal), sentence(81));
        assert_eq!(explain("d", "3", &refusal), sentence(printed));
    }
}

/// Of what only a strict read refuses nothing more is known to others, and of what is not left over nothing can be shown.
#[test]
fn refusals_of_strict_reads_are_said_to_others_as_they_print() {
    let strict = Choices::new().strict();
    for text in ["3-12", "3/12 "] {
        let refusal = read_with(strict, "d/MM", text, 2025).expect_err("this is refused");
        assert_eq!(explain("d/MM", text, &refusal), refusal.to_string());
        assert_eq!(explain_date("d/MM", text, &refusal), refusal.to_string());
    }
    let refusal = read_with(strict, "d", "3/", 2025).expect_err("this is refused");
    assert_eq!(explain_with(strict, "d", "3", &refusal), refusal.to_string());
    assert_eq!(explain_with(strict, "d", "", &refusal), refusal.to_string());
}

#[test]
fn other_refusals_are_said_as_they_print() {
    for (pattern, text, year) in [
        ("d'", "3", 2025),
        ("d", "\u{e9}", 2025),
        ("d", "3", 0),
        ("\0", "3", 2025),
    ] {
        let refusal = read(pattern, text, year).expect_err("this is refused");
        assert_eq!(explain(pattern, text, &refusal), refusal.to_string());
    }
    let refusal = parse_offset("+24:00").expect_err("this is refused");
    assert_eq!(explain("X", "+24:00", &refusal), refusal.to_string());
}

#[test]
fn bytes_that_are_no_text_are_escaped() {
    assert_eq!(explained("dd", "\n\0"), r"`dd` needs two digits, found `\n\x00`");
    assert_eq!(explained("\x7f\x7f", "\t"), r"`\x7f\x7f` needs two bytes, found `\t`");
    // A refusal of another text is answered too.
    let refusal = read("dd", "x", 2025).expect_err("this is refused");
    assert_eq!(
        explain("dd", "3\u{e9}", &refusal),
        r"`dd` needs two digits, found `3\xc3`"
    );
}

/// Numbers that look random, the same in every run.
fn numbers() -> impl Iterator<Item = u64> {
    std::iter::successors(Some(0x9e37_79b9_7f4a_7c15_u64), |state| {
        let state = state ^ state << 13;
        let state = state ^ state >> 7;
        Some(state ^ state << 17)
    })
}

/// Any pattern, any text and any refusal, even one of others: one line that can be printed.
#[test]
fn anything_is_explained() {
    let alphabet = b"GyqMwdDeabhKHkmsnXx'''/ -+:05Z\0\n\x7f\xff";
    let mut numbers = numbers();
    let mut some_bytes = move |most: u64| -> Vec<u8> {
        let mut next = || numbers.next().expect("there is always another");
        let length = next() % most;
        (0..length)
            .map(|_| alphabet[next() as usize % alphabet.len()])
            .collect()
    };
    let strict = Choices::new().strict();
    let second = Choices::new().edition(Edition::Second);
    let mut refusals: Vec<Refusal> = vec![check("'", 2025).expect_err("this is refused")];
    for _ in 0..20_000 {
        let (pattern, text) = (some_bytes(12), some_bytes(16));
        refusals.extend(read(&pattern, &text, 2025).err());
        refusals.extend(read_date(&pattern, &text, 2025).err());
        refusals.extend(read_with(strict, &pattern, &text, 2025).err());
        refusals.extend(read_with(second, &pattern, &text, 2025).err());
        let start = refusals.len().saturating_sub(8);
        for refusal in &refusals[start..] {
            for sentence in [
                explain(&pattern, &text, refusal),
                explain_date(&pattern, &text, refusal),
                explain_with(strict, &pattern, &text, refusal),
                explain_with(second, &pattern, &text, refusal),
            ] {
                assert!(sentence.bytes().all(|byte| (b' '..=b'~').contains(&byte)), "{sentence}");
            }
        }
    }
}
