//! Rows of prepared patterns that are damaged, and rows that no one prepared: each is answered, by 105 or by what its words mean; no
//! byte is altered that is not answered for, and none at all but by what is accepted.

mod laid;
mod lent;
mod shelves;

use laid::{check, prepared, put_right, read, read_list, write, MOST_WORDS, R, REFUSED, TAG, WORDS};
use lent::{left, ALL_CHOICES, BYTE, MARK};
use sheet::{raw, Book, Columns, NotPrepared, Prepared};
use shelves::Random;

type Row = [u64; raw::PREPARED_ROW];

const PATTERNS: [&str; 10] = [
    "",
    "yyyy/MM/dd",
    "d/M",
    "yyyy-MM-dd HH:mm:ss",
    "dd.MM.yyyy HH:mm:ss.nnn XXX",
    "eeee, d MMMM yyyy",
    "h 'o''clock' a, GGGG qqq",
    "'unclosed and long''",
    "yy yyyyy ///// wwDDDxxxxx",
    "'",
];

const TEXTS: [&[u8]; 6] = [
    b"",
    b"2025/12/03",
    b"2025-12-03 07:05:09",
    b"Wednesday, 3 December 2025",
    b"7 o'clock PM, Anno Domini Q4",
    b"\n3/12\n03.12.2025 07:05:09.000 +05:30\n\xff\n11111111111111111111111111111",
];

/// What a function may return for a row that passes, and then 105.
const REFUSALS: &[u32] = &[
    raw::PATTERN_TOO_LONG,
    raw::PATTERN_BYTE,
    raw::LONE_QUOTE,
    raw::NOT_PREPARED,
];

#[track_caller]
fn is_known(number: u32, besides: &[u32]) {
    let known = number == raw::ACCEPTED || REFUSALS.contains(&number) || besides.contains(&number);
    assert!(known, "{number}");
}

/// A room that is large, small or none.
fn written(book: &[u8], row: &[u64], large: usize) -> u32 {
    let mut last = raw::ACCEPTED;
    for room in [large, 40, 0] {
        let mut answer = [MARK; 3];
        let (number, out) = left(room, |out| write(book, row, &R, out, &mut answer));
        is_known(number, &[raw::NO_ROOM]);
        let altered = match number {
            raw::ACCEPTED => answer[0] as usize,
            _ => 0,
        };
        assert!(altered <= room && out[altered..].iter().all(|byte| *byte == BYTE));
        assert_eq!(answer[2], MARK);
        assert!(number != raw::NOT_PREPARED || answer == [MARK; 3]);
        last = number;
    }
    last
}

fn is_read(choices: u32, book: &[u8], row: &[u64], text: &[u8]) -> u32 {
    let mut answer = [MARK; raw::READ_ANSWER + 1];
    let number = read(choices, book, row, text, 2025, &mut answer);
    is_known(number, &[6, 7, 8, 9, 10, 11, 15, 16, 19]);
    assert_eq!(answer[raw::READ_ANSWER], MARK);
    if number == raw::ACCEPTED {
        let places = &answer[raw::READ_STARTS..raw::READ_ANSWER];
        assert!((0..=text.len() as i64).contains(&answer[0]) && (0..1 << 15).contains(&answer[1]));
        assert!(places.iter().all(|place| (0..=text.len() as i64).contains(place)));
        assert_eq!(i64::from(answer[1].count_ones()), answer[2]);
    }
    assert!(number != raw::NOT_PREPARED || answer == [MARK; raw::READ_ANSWER + 1]);
    number
}

fn is_listed(choices: u32, book: &[u8], row: &[u64], text: &[u8]) -> u32 {
    let lines = text.split_inclusive(|byte| *byte == b'\n').count();
    let marks = || Columns {
        days: vec![-77; lines + 1],
        months: vec![-78; lines + 1],
        years: vec![-79; lines + 1],
        codes: vec![80; lines + 1],
    };
    let (mut rows, mut answer) = (marks(), [MARK; 3]);
    let number = read_list(choices, book, row, text, 2025, &mut rows, &mut answer);
    is_known(number, &[]);
    if number == raw::ACCEPTED {
        assert_eq!(answer, [lines as i64, 0, MARK]);
        let last = [
            rows.days[lines],
            rows.months[lines],
            rows.years[lines],
            rows.codes[lines] as i32,
        ];
        assert_eq!(last, [-77, -78, -79, 80]);
    } else {
        assert_eq!(rows, marks());
    }
    assert!(number != raw::NOT_PREPARED || answer == [MARK; 3]);
    number
}

fn is_checked(choices: u32, row: &[u64]) -> u32 {
    let mut answer = [MARK; raw::CHECK_ANSWER + 1];
    let number = check(choices, row, 2025, &mut answer);
    is_known(number, &[]);
    assert_eq!(answer[raw::CHECK_ANSWER], MARK);
    assert!(number != raw::NOT_PREPARED || answer == [MARK; raw::CHECK_ANSWER + 1]);
    number
}

/// Uses a row in every way, and answers whether it is taken for a prepared pattern, of which all uses say the same.
#[track_caller]
fn is_taken(random: &mut Random, row: &[u64]) -> bool {
    let (english, none) = (&Book::english().row()[..], &[][..]);
    let book = *random.pick(&[english, none]);
    let (choices, text) = (random.below(ALL_CHOICES as usize + 1) as u32, *random.pick(&TEXTS));
    // No words write more than the larger.
    let large = if random.below(50) == 0 { 140_000 } else { 4096 };
    let numbers = [
        written(book, row, large),
        is_read(choices, book, row, text),
        is_listed(choices, book, row, text),
        is_checked(choices & !raw::DATE_PAIR, row),
    ];
    let taken = numbers.map(|number| number != raw::NOT_PREPARED);
    assert_eq!(taken, [taken[0]; 4]);
    taken[0]
}

fn some_prepared(random: &mut Random) -> Row {
    let pair = random.below(2) as u32;
    prepared(pair, random.pick(&PATTERNS).as_bytes())
}

/// The entries that count: the first three, the words that have steps, and those that hold bytes.
fn entries(row: &Row) -> Vec<usize> {
    let (steps, held) = (row[0].wrapping_sub(TAG) as usize, (row[2] % 512) as usize);
    match steps {
        0..=MOST_WORDS => (0..WORDS + steps).chain(WORDS + held..WORDS + MOST_WORDS).collect(),
        _ => (0..WORDS).collect(),
    }
}

#[test]
fn what_is_prepared_is_taken() {
    let mut random = Random::new();
    for pattern in PATTERNS {
        for pair in [0, 1] {
            let mut row = prepared(pair, pattern.as_bytes());
            assert!(is_taken(&mut random, &row));
            let whole = row;
            put_right(&mut row);
            assert_eq!(row, whole, "its check word is the one of the tests");
        }
    }
}

/// Of the check word, of what was found, and of each word; the first entry says how many words there are.
#[test]
fn any_one_bit_is_noticed() {
    let mut random = Random::new();
    for pattern in PATTERNS {
        let row = prepared(0, pattern.as_bytes());
        for entry in entries(&row).into_iter().skip(1) {
            for bit in 0..64 {
                let mut damaged = row;
                damaged[entry] ^= 1 << bit;
                // Another place of the first held byte is another choice of words.
                if entry == 2 && bit < 9 {
                    is_taken(&mut random, &damaged);
                    continue;
                }
                assert!(!is_taken(&mut random, &damaged), "{pattern} {entry} {bit}");
                assert_eq!(Prepared::from_row(damaged), Err(NotPrepared));
            }
        }
    }
}

#[test]
fn a_row_that_begins_otherwise_is_not_taken() {
    let mut random = Random::new();
    for pattern in PATTERNS {
        let row = prepared(0, pattern.as_bytes());
        let others = (9..64).map(|bit| row[0] ^ 1 << bit);
        let counts = [TAG - 1, TAG + 257, TAG + 300, REFUSED, REFUSED + 4, 0, u64::MAX];
        for first in others
            .filter(|first| *first != row[0] && !is_a_mark(*first))
            .chain(counts)
        {
            let mut damaged = row;
            damaged[0] = first;
            assert!(!is_taken(&mut random, &damaged), "{pattern} {first}");
            put_right(&mut damaged);
            assert!(!is_taken(&mut random, &damaged), "{pattern} {first}");
        }
    }
}

fn is_a_mark(first: u64) -> bool {
    (TAG..=TAG + 256).contains(&first) || (REFUSED + 1..=REFUSED + 3).contains(&first)
}

#[test]
fn a_row_that_is_cut_is_not_taken() {
    let mut random = Random::new();
    for pattern in PATTERNS {
        let row = prepared(0, pattern.as_bytes());
        for size in (0..raw::PREPARED_ROW).step_by(7).chain([raw::PREPARED_ROW - 1]) {
            assert!(!is_taken(&mut random, &row[..size]), "{pattern} {size}");
        }
    }
}

#[test]
fn random_words_are_not_taken() {
    let mut random = Random::new();
    for _ in 0..5000 {
        let row: Row = std::array::from_fn(|_| random.next());
        assert!(!is_taken(&mut random, &row));
        let mut begun = row;
        begun[0] = TAG + random.below(257) as u64;
        assert!(!is_taken(&mut random, &begun));
    }
}

/// Any words, each as often as not with a code that is in use, of a row that begins as a prepared one.
fn random_row(random: &mut Random) -> Row {
    let codes = [1, 3, 4, 9, 10, 15, 22, 29, 30, 31];
    let mut row: Row = std::array::from_fn(|_| match random.below(2) {
        0 => random.next(),
        _ => random.next() & !31 | *random.pick(&codes),
    });
    let most = *random.pick(&[2, 9, 9, 257]);
    row[0] = TAG + random.below(most) as u64;
    row[2] = row[2] & !511 | random.below(257) as u64;
    row
}

/// They are answered by what the words mean.
#[test]
fn random_words_with_a_right_check_word_are_taken() {
    let mut random = Random::new();
    for _ in 0..5000 {
        let mut row = random_row(&mut random);
        put_right(&mut row);
        assert!(is_taken(&mut random, &row));
        let prepared = Prepared::from_row(row).expect("it is taken");
        let (text, room) = (prepared.write(&R), prepared.write_into(&R, &mut []));
        assert!(text.is_ok() && (room == Ok(0) || room.unwrap_err().number() == raw::NO_ROOM));
    }
}

/// Some bits of a prepared pattern, and a check word that was made right again.
#[test]
fn damage_that_the_check_word_does_not_show() {
    let mut random = Random::new();
    let mut taken = 0;
    for _ in 0..5000 {
        let mut row = some_prepared(&mut random);
        let entries = entries(&row);
        for _ in 0..=random.below(3) {
            row[*random.pick(&entries)] ^= 1 << random.below(64);
        }
        put_right(&mut row);
        taken += usize::from(is_taken(&mut random, &row));
    }
    assert!(taken > 2500, "only {taken} were taken");
}

/// The detail of a refused pattern may be any number that an answer can hold.
#[test]
fn refused_patterns_with_any_detail() {
    let mut random = Random::new();
    let most = i64::MAX as u64;
    for number in 1..=3 {
        for detail in [0, 1, 256, 257, most, most + 1, u64::MAX, random.next()] {
            let mut row = [0; raw::PREPARED_ROW];
            (row[0], row[2]) = (REFUSED + number, detail);
            put_right(&mut row);
            assert_eq!(is_taken(&mut random, &row), detail <= most);
            row[1] ^= 1;
            assert!(!is_taken(&mut random, &row));
        }
    }
}
