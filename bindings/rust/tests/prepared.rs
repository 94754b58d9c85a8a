//! Prepared patterns: by every choice and with every book they answer as the pattern does that was prepared.

mod laid;
mod shelves;

use laid::R;
use sheet::{
    check_with, raw, read_by, read_date, read_list_by, read_list_by_into, read_with, write, write_by, write_by_into,
    write_date, Book, Choices, Edition, Fields, Prepared, Rows,
};
use shelves::{some_books, Random};
use std::mem::size_of;

fn all_choices() -> [Choices; 8] {
    let plain = Choices::new();
    let first = [plain, plain.date(), plain.strict(), plain.date().strict()];
    let second = first.map(|choices| choices.edition(Edition::Second));
    std::array::from_fn(|place| if place < 4 { first[place] } else { second[place - 4] })
}

fn some_record(random: &mut Random) -> Fields {
    let day = sheet::day_of(random.next() as i32);
    Fields {
        weekday: if random.below(20) == 0 { 7 } else { day.weekday },
        nanoseconds: random.next() % 86_400_000_000_000,
        offset: random.below(172_799) as i32 - 86_399,
        ..day.into()
    }
}

/// Of all symbols at all counts, of what patterns have most, and of literals in and out of quotes.
fn some_pattern(random: &mut Random) -> Vec<u8> {
    const USUAL: [&str; 12] = [
        "yyyy/MM/dd",
        "HH:mm:ss",
        "d/M",
        "dd.MM.yy",
        "MMM",
        "eeee",
        "'at'",
        "'o''clock'",
        "''",
        "XXX",
        "nnn",
        "'open",
    ];
    let mut pattern = Vec::new();
    for _ in 0..random.below(7) {
        if random.below(2) == 0 {
            pattern.extend(random.pick(&USUAL).bytes());
            continue;
        }
        let symbol = *random.pick(b"GyyqMMwddDeabhKHkmsnXx/-. 5T'");
        let count = 1 + random.below(9);
        pattern.extend(vec![symbol; count]);
    }
    if random.below(50) == 0 {
        pattern.push(*random.pick(&[0, 128, b'\'']));
    }
    pattern
}

/// What the pattern writes, mostly, of which some bytes may be altered.
fn some_text(random: &mut Random, choices: Choices, book: &Book, pattern: &[u8]) -> Vec<u8> {
    let written = write_by(choices, book, pattern, &some_record(random));
    let mut text = written.map_or_else(|_| b"3/12".to_vec(), String::into_bytes);
    for _ in 0..random.below(3) {
        let place = random.below(text.len() + 1);
        match random.below(3) {
            0 => text.truncate(place),
            1 => text.insert(place, *random.pick(b"0 Ma-+\n\xff")),
            _ if place < text.len() => text[place] = *random.pick(b"05/aMD\n"),
            _ => text.push(b'x'),
        }
    }
    text
}

/// English, most often, or another.
fn some_book<'a>(random: &mut Random, books: &'a [Book]) -> &'a Book {
    match random.below(2) {
        0 => Book::english(),
        _ => random.pick(books),
    }
}

#[test]
fn it_holds_2072_bytes_and_nothing_besides() {
    assert_eq!(size_of::<Prepared>(), 2072);
}

#[test]
fn it_writes_as_its_pattern() {
    let (mut random, books) = (Random::new(), some_books());
    let mut accepted = 0;
    for _ in 0..4000 {
        let pattern = some_pattern(&mut random);
        for choices in [Choices::new(), Choices::new().date().strict()] {
            let prepared = Prepared::with(choices, &pattern);
            let (fields, book) = (some_record(&mut random), some_book(&mut random, &books));
            let direct = write_by(choices, book, &pattern, &fields);
            assert_eq!(prepared.write_by(book, &fields), direct, "{pattern:?}");
            let mut rooms = [[255; 80]; 2];
            let room = random.below(81);
            let [ours, theirs] = &mut rooms;
            assert_eq!(
                prepared.write_by_into(book, &fields, &mut ours[..room]),
                write_by_into(choices, book, &pattern, &fields, &mut theirs[..room])
            );
            assert_eq!(rooms[0], rooms[1]);
            accepted += usize::from(direct.is_ok());
        }
        assert_eq!(Prepared::new(&pattern).write(&R), write(&pattern, &R));
        assert_eq!(
            Prepared::with(Choices::new().date(), &pattern).write(&R),
            write_date(&pattern, &R)
        );
    }
    assert!(accepted > 4000, "only {accepted} were accepted");
}

#[test]
fn it_reads_as_its_pattern() {
    let (mut random, books) = (Random::new(), some_books());
    let mut accepted = 0;
    for _ in 0..3000 {
        let pattern = some_pattern(&mut random);
        for choices in all_choices() {
            let prepared = Prepared::with(choices, &pattern);
            let book = some_book(&mut random, &books);
            let text = some_text(&mut random, choices, book, &pattern);
            let year = *random.pick(&[2025, 2025, 2025, 80, 81, 0, 10_000]);
            let direct = read_by(choices, book, &pattern, &text, year);
            assert_eq!(
                prepared.read_by(choices, book, &text, year),
                direct,
                "{pattern:?} {text:?}"
            );
            let without = read_with(choices, &pattern, &text, year);
            assert_eq!(
                prepared.read_with(choices, &text, year),
                without,
                "{pattern:?} {text:?}"
            );
            accepted += usize::from(direct.is_ok());
        }
    }
    assert!(accepted > 3000, "only {accepted} were accepted");
}

#[test]
fn the_pair_is_the_one_that_was_prepared() {
    let [full, date] = [Choices::new(), Choices::new().date()].map(|pair| Prepared::with(pair, "dd HH"));
    assert_eq!(
        full.read_with(Choices::new().date(), "03 07", 2025),
        full.read("03 07", 2025)
    );
    assert_eq!(date.read("03 xx", 2025), read_date("dd HH", "03 xx", 2025));
    assert_eq!(full.write(&R).as_deref(), Ok("03 07"));
    assert_eq!(date.write(&R).as_deref(), Ok("03 HH"));
}

/// Of the pair with time symbols, whichever was prepared.
#[test]
fn it_is_checked_as_its_pattern() {
    let mut random = Random::new();
    let mut noes = 0;
    for _ in 0..5000 {
        let pattern = some_pattern(&mut random);
        for edition in [Edition::First, Edition::Second] {
            for year in [2025, 80, 81, 0, 10_000] {
                let direct = check_with(edition, &pattern, year);
                for pair in [Choices::new(), Choices::new().date()] {
                    let prepared = Prepared::with(pair, &pattern);
                    assert_eq!(prepared.check_with(edition, year), direct, "{pattern:?}");
                }
                noes += usize::from(matches!(direct, Ok(sheet::Verdict::No { .. })));
            }
        }
    }
    assert!(noes > 5000, "only {noes} were told no");
}

#[test]
fn it_reads_lists_as_its_pattern() {
    let (mut random, books) = (Random::new(), some_books());
    for _ in 0..500 {
        let pattern = some_pattern(&mut random);
        for choices in all_choices() {
            let (prepared, book) = (Prepared::with(choices, &pattern), some_book(&mut random, &books));
            let mut text = Vec::new();
            for _ in 0..random.below(5) {
                text.extend(some_text(&mut random, choices, book, &pattern));
                text.push(b'\n');
            }
            let year = *random.pick(&[2025, 2025, 2025, 80, 0]);
            let direct = read_list_by(choices, book, &pattern, &text, year);
            assert_eq!(prepared.read_list_by(choices, book, &text, year), direct, "{pattern:?}");
            let cells = random.below(8);
            let [ours, theirs] = [true, false].map(|ours| {
                let mut cells = [vec![-77; cells], vec![-78; cells], vec![-79; cells]];
                let mut codes = vec![80; cells[0].len()];
                let [days, months, years] = &mut cells;
                let rows = Rows {
                    days,
                    months,
                    years,
                    codes: &mut codes,
                };
                let answer = match ours {
                    true => prepared.read_list_by_into(choices, book, &text, year, rows),
                    false => read_list_by_into(choices, book, &pattern, &text, year, rows),
                };
                (answer, cells, codes)
            });
            assert_eq!(ours, theirs, "{pattern:?}");
        }
    }
}

/// Before all that is refused at a use.
#[test]
fn a_refused_pattern_is_refused_at_each_use_in_its_place() {
    let long = vec![b'd'; 257];
    for (pattern, number, detail) in [(&long[..], 1, 257), (b"d\xff'", 2, 1), (b"dd'", 3, 2)] {
        for pair in [Choices::new(), Choices::new().date()] {
            let prepared = Prepared::with(pair, pattern);
            let refusal = prepared.refusal().expect("it is refused");
            assert_eq!((refusal.number(), refusal.details()), (number, &[detail][..]));
            let (none, late) = (Fields { month: 0, ..R }, vec![200; 3000]);
            assert_eq!(prepared.write_into(&none, &mut []), Err(refusal));
            assert_eq!(prepared.read_with(Choices::new().strict(), &late, 0), Err(refusal));
            assert_eq!(prepared.check_with(Edition::Second, 0), Err(refusal));
            assert_eq!(prepared.read_list("\n\n", 0), Err(refusal));
            assert_eq!(write(pattern, &none).unwrap_err(), refusal);
        }
    }
}

/// The longest pattern, which writes most.
#[test]
fn what_is_longer_than_usual_is_written() {
    let pattern = "MMMM".repeat(64).replace("MMMMMMMM", "MMMMeeee");
    let september = Fields { month: 9, ..R };
    let text = Prepared::new(&pattern).write(&september);
    assert_eq!(text, write(&pattern, &september));
    assert_eq!(text.map(|text| text.len()), Ok(64 * 9));
    assert_eq!(raw::LONGEST_PATTERN, pattern.len());
}
