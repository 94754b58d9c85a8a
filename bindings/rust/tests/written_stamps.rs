//! Stamps of RFC 3339 that are written: each refusal in its order, every room, that what is written reads as the same and is what a
//! pattern writes, and stamps as fields.

mod shelves;

use sheet::{day_of, read_stamp, write, write_stamp, write_stamp_into, Fields, Refusal, Stamp};
use shelves::Random;

const SECOND: u64 = 1_000_000_000;

/// At five and nine past seven, in UTC.
const SOME: Stamp = Stamp {
    year: 2025,
    month: 12,
    day: 3,
    nanoseconds: 25_509 * SECOND,
    offset: 0,
    unknown: false,
};

/// The number of a refusal and its one detail.
fn number<T>(answer: Result<T, Refusal>) -> Option<(u32, i64)> {
    let refusal = answer.err()?;
    assert_eq!(refusal.details().len(), 1);
    Some((refusal.number(), refusal.details()[0]))
}

/// The fields by the numbers that they have among all, then year, day, offset and room.
#[test]
fn refused_writes() {
    for (stamp, expected) in [
        (
            Stamp {
                year: 0,
                month: 0,
                ..SOME
            },
            (4, 1),
        ),
        (
            Stamp {
                year: 5_879_612,
                ..SOME
            },
            (4, 1),
        ),
        (
            Stamp {
                month: 13,
                day: 0,
                ..SOME
            },
            (4, 2),
        ),
        (
            Stamp {
                day: 32,
                offset: 86_400,
                ..SOME
            },
            (4, 3),
        ),
        (
            Stamp {
                nanoseconds: 86_400 * SECOND,
                offset: 86_400,
                ..SOME
            },
            (4, 7),
        ),
        (
            Stamp {
                offset: 86_400,
                year: -1,
                ..SOME
            },
            (4, 8),
        ),
        (
            Stamp {
                offset: -86_400,
                year: -1,
                ..SOME
            },
            (4, 8),
        ),
        (
            Stamp {
                year: -1,
                month: 2,
                day: 30,
                ..SOME
            },
            (28, 0),
        ),
        (
            Stamp {
                year: 10_000,
                month: 2,
                day: 30,
                ..SOME
            },
            (28, 0),
        ),
        (
            Stamp {
                month: 2,
                day: 29,
                offset: 30,
                ..SOME
            },
            (17, 0),
        ),
        (
            Stamp {
                offset: 30,
                unknown: true,
                ..SOME
            },
            (29, 0),
        ),
        (Stamp { offset: 86_399, ..SOME }, (29, 0)),
        (Stamp { offset: -1, ..SOME }, (29, 0)),
        (
            Stamp {
                offset: 60,
                unknown: true,
                ..SOME
            },
            (29, 0),
        ),
    ] {
        assert_eq!(number(write_stamp(&stamp)), Some(expected), "{stamp:?}");
        let mut out = [255; 3];
        assert_eq!(number(write_stamp_into(&stamp, &mut out)), Some(expected));
        assert_eq!(out, [255; 3]);
    }
}

/// Every room: just enough, less, and more, of which what is behind the text stays.
#[test]
fn room() {
    for text in [
        "2025-12-03T07:05:09Z",
        "2025-12-03T07:05:09-00:00",
        "2025-12-03T07:05:09.000120000+05:30",
    ] {
        let stamp = read_stamp(text).expect("it is a stamp");
        for room in 0..text.len() {
            let mut out = vec![255; room];
            let answer = write_stamp_into(&stamp, &mut out);
            assert_eq!((number(answer), out), (Some((5, text.len() as i64)), vec![255; room]));
        }
        for room in text.len()..50 {
            let mut out = vec![255; room];
            assert_eq!(write_stamp_into(&stamp, &mut out), Ok(text.len()));
            assert_eq!(out, [text.as_bytes(), &vec![255; room - text.len()]].concat());
        }
    }
}

fn some_stamp(random: &mut Random) -> Stamp {
    let day = day_of(random.below(3_652_059) as i32);
    let any = random.below(1_000_000_000) as u64;
    let fraction = *random.pick(&[0, 0, 1, 120_000, 999_999_999, any]);
    let minutes = random.below(2879) as i32 - 1439;
    let offset = *random.pick(&[0, minutes, 1439, -1439, -1]) * 60;
    Stamp {
        unknown: offset == 0 && random.below(2) == 0,
        year: day.year,
        month: day.month,
        day: day.day,
        nanoseconds: random.below(86_400) as u64 * SECOND + fraction,
        offset,
    }
}

/// A stamp that is written, then read, is itself; and as a pattern writes it where there is no fraction and an offset.
#[test]
fn what_is_written_reads_as_the_same() {
    let mut random = Random::new();
    for _ in 0..200_000 {
        let stamp = some_stamp(&mut random);
        let text = write_stamp(&stamp).expect("it is written");
        assert_eq!(read_stamp(&text), Ok(stamp));
        if (stamp.nanoseconds % SECOND, stamp.unknown) == (0, false) {
            let fields = Fields::try_from(stamp).expect("there is such a day");
            assert_eq!(write("yyyy-MM-dd'T'HH:mm:ssXXX", &fields), Ok(text));
        }
    }
}

/// What is read, with any digits and letters, reads as the same where it is written.
#[test]
fn what_is_read_is_written_as_the_same() {
    let mut random = Random::new();
    for _ in 0..50_000 {
        let mut text = write_stamp(&some_stamp(&mut random))
            .expect("it is written")
            .into_bytes();
        if text.len() > 25 && text[19] == b'.' {
            let digits = random.below(40);
            text.splice(29..29, (0..digits).map(|digit| b'0' + (digit % 10) as u8));
        }
        if random.below(2) == 0 {
            text.make_ascii_lowercase();
        }
        let stamp = read_stamp(&text).expect("it is a stamp");
        let again = write_stamp(&stamp).expect("it is written");
        assert_eq!(read_stamp(again), Ok(stamp));
    }
}

/// With the calendar's day of the year, week and weekday.
#[test]
fn as_fields_and_back() {
    let mut random = Random::new();
    for _ in 0..10_000 {
        let stamp = some_stamp(&mut random);
        let fields = Fields::try_from(stamp).expect("there is such a day");
        let day = day_of(sheet::day_number(stamp.year, stamp.month, stamp.day).expect("there is such a day"));
        assert_eq!(
            (fields.day_of_year, fields.week, fields.weekday),
            (day.day_of_year, day.week, day.weekday)
        );
        assert_eq!(
            Stamp::from(fields),
            Stamp {
                unknown: false,
                ..stamp
            }
        );
    }
    assert_eq!(number(Fields::try_from(Stamp { day: 32, ..SOME })), Some((17, 0)));
}
