//! `rfc_read T` and `rfc_write YEAR MONTH DAY NANOS OFFSET MARK ROOM`

use crate::answers::{agreed, numbered, refused};
use crate::marks::{filled, first_altered, ENTRY};
use crate::words::Words;
use crate::writing::{answer_of_both, text_of, wrote_text, MOST_ROOM};
use sheet::{raw, Refusal, Stamp};

/// All that a reading leaves in the row that it was lent.
type Row = [i64; raw::RFC_READ_ANSWER];

pub fn answer_read(mut words: Words) -> Option<String> {
    let text = words.bytes()?;
    words.end()?;
    let (number, row) = row_left(&text);
    Some(agreed(laid(number, &row), read(&sheet::read_stamp(&text))))
}

pub fn answer_write(mut words: Words) -> Option<String> {
    let stamp = Stamp {
        year: words.number()?,
        month: words.number()?,
        day: words.number()?,
        nanoseconds: words.number()?,
        offset: words.number()?,
        unknown: words.number::<u32>().filter(|mark| *mark <= 1)? == 1,
    };
    let room = words.number().filter(|room| *room <= MOST_ROOM)?;
    words.end()?;
    let mut out = filled(room);
    let wrote = sheet::write_stamp_into(&stamp, &mut out);
    let safe = answer_of_both(&wrote, &out, &sheet::write_stamp(&stamp));
    Some(agreed(Lent::by(&stamp, room).answer(), safe))
}

/// What the crate read.
fn read(stamp: &Result<Stamp, Refusal>) -> String {
    match stamp {
        Ok(stamp) => {
            let Stamp {
                year,
                month,
                day,
                nanoseconds,
                offset,
                unknown,
            } = stamp;
            let mark = u32::from(*unknown);
            format!("stamp {year} {month} {day} {nanoseconds} {offset} {mark}")
        }
        Err(refusal) => refused(refusal),
    }
}

/// What a row has in it: of a refusal one detail, and zeros behind it; where it has others, all of it.
fn laid(number: u32, row: &Row) -> String {
    match (number, row) {
        (raw::ACCEPTED, _) => numbered("stamp", row),
        (number, [detail, 0, 0, 0, 0, 0]) => format!("refused {number} {detail}"),
        _ => numbered("answer", row),
    }
}

/// What is returned, and the row of the same call.
fn row_left(text: &[u8]) -> (u32, Row) {
    let mut row = [ENTRY; raw::RFC_READ_ANSWER];
    // SAFETY: each pointer goes with the length of the slice that it comes from, and what is altered is borrowed alone.
    let number = unsafe { raw::sheet_rfc_read(text.as_ptr(), text.len(), row.as_mut_ptr(), row.len()) };
    (number, row)
}

/// What a write returned, and left in what it was lent.
struct Lent {
    number: u32,
    answer: [i64; raw::RFC_WRITE_ANSWER],
    out: Vec<u8>,
}

impl Lent {
    fn by(stamp: &Stamp, room: usize) -> Lent {
        let mut lent = Lent {
            number: raw::ACCEPTED,
            answer: [ENTRY; raw::RFC_WRITE_ANSWER],
            out: filled(room),
        };
        // SAFETY: each pointer goes with the length of the slice that it comes from, and what is altered is borrowed alone.
        lent.number = unsafe {
            raw::sheet_rfc_write(
                stamp.year,
                stamp.month,
                stamp.day,
                stamp.nanoseconds,
                stamp.offset,
                u32::from(stamp.unknown),
                lent.out.as_mut_ptr(),
                lent.out.len(),
                lent.answer.as_mut_ptr(),
                lent.answer.len(),
            )
        };
        lent
    }

    /// What is altered behind the text, or by a refused write anywhere, is the answer in its place.
    fn answer(&self) -> String {
        let [first, second] = self.answer;
        let length = match self.number {
            raw::ACCEPTED => first as usize,
            _ => 0,
        };
        if let Some(place) = first_altered(&self.out, length) {
            return format!("altered {place}");
        }
        match (self.number, second) {
            (raw::ACCEPTED, 0) => wrote_text(length, text_of(&self.out, length)),
            (number, 0) => format!("refused {number} {first}"),
            _ => numbered("answer", &self.answer),
        }
    }
}

#[cfg(test)]
mod tests {
    use super::{answer_read, answer_write, laid, row_left, Lent};
    use crate::hex;
    use crate::words::Words;
    use sheet::{raw, Stamp};

    fn read(text: &str) -> String {
        answer_read(Words::of(hex::encoded(text.as_bytes()).as_bytes())).expect("a request")
    }

    fn write(words: &str) -> Option<String> {
        answer_write(Words::of(words.as_bytes()))
    }

    fn wrote(text: &str) -> Option<String> {
        Some(format!("wrote {} {}", text.len(), hex::encoded(text.as_bytes())))
    }

    #[test]
    fn what_is_read() {
        assert_eq!(read("1985-04-12T23:20:50.52Z"), "stamp 1985 4 12 84050520000000 0 0");
        assert_eq!(
            read("1996-12-19T16:39:57-08:00"),
            "stamp 1996 12 19 59997000000000 -28800 0"
        );
        assert_eq!(read("2025-12-03t07:05:09-00:00"), "stamp 2025 12 3 25509000000000 0 1");
        assert_eq!(read("2025-13-03"), "refused 25 10");
        assert_eq!(read("0000-02-30T00:00:61Z"), "refused 26 0");
        assert_eq!(read("0000-02-30T00:00:60Z"), "refused 27 0");
        assert_eq!(read("0000-02-30T00:00:00Z"), "refused 28 0");
        assert_eq!(read("2025-02-30T00:00:00Z"), "refused 17 0");
        assert_eq!(read(&"0".repeat(2049)), "refused 6 2049");
        assert_eq!(read("2\u{e9}"), "refused 7 1");
    }

    #[test]
    fn what_is_written() {
        assert_eq!(write("2025 12 3 25509000000000 0 0 20"), wrote("2025-12-03T07:05:09Z"));
        assert_eq!(
            write("2025 12 3 25509000000000 0 1 4096"),
            wrote("2025-12-03T07:05:09-00:00")
        );
        assert_eq!(
            write("7 12 3 25509000120000 -60 0 35"),
            wrote("0007-12-03T07:05:09.000120000-00:01")
        );
        for (words, line) in [
            ("0 13 0 86400000000000 86400 1 0", "refused 4 1"),
            ("-1 2 30 0 30 1 0", "refused 28 0"),
            ("2025 2 30 0 30 1 0", "refused 17 0"),
            ("2025 2 28 0 30 0 0", "refused 29 0"),
            ("2025 2 28 0 60 1 0", "refused 29 0"),
            ("2025 2 28 0 0 1 24", "refused 5 25"),
        ] {
            assert_eq!(write(words).as_deref(), Some(line), "{words}");
        }
    }

    #[test]
    fn numbers_are_those_that_their_types_hold() {
        for words in [
            "-2147483648 4294967295 4294967295 18446744073709551615 -2147483648 1 0",
            "2147483647 0 0 0 2147483647 0 4096",
        ] {
            assert_eq!(write(words).as_deref(), Some("refused 4 1"), "{words}");
        }
        for words in [
            "2025 12 3 0 0 2 35",
            "2025 12 3 0 0 -0 35",
            "2025 12 3 0 0 35",
            "2025 12 3 0 0 0 4097",
            "2025 12 3 0 0 0 -1",
            "2025 12 3 0 0 0 35 ",
            "2025 12 3 0 0 0 35 strict",
            "2147483648 12 3 0 0 0 35",
            "2025 -1 3 0 0 0 35",
            "2025 12 4294967296 0 0 0 35",
            "2025 12 3 18446744073709551616 0 0 35",
            "2025 12 3 0 2147483648 0 35",
            "2025 12 3 0 +0 0 35",
        ] {
            assert_eq!(write(words), None, "{words}");
        }
        for words in ["", "5", "5A", "5a 5a", "5a "] {
            assert_eq!(answer_read(Words::of(words.as_bytes())), None, "{words}");
        }
    }

    #[test]
    fn a_row_that_has_anything_else_is_shown() {
        let (number, mut row) = row_left(b"2025");
        assert_eq!(laid(number, &row), "refused 25 4");
        row[5] = 7;
        assert_eq!(laid(number, &row), "answer 4 0 0 0 0 7");
    }

    #[test]
    fn a_byte_that_is_altered_besides_is_shown() {
        let stamp = sheet::read_stamp("2025-12-03T07:05:09Z").expect("it is a stamp");
        for (stamp, first, line) in [
            (stamp, 20, "wrote 20 "),
            (Stamp { offset: 1, ..stamp }, 0, "refused 29 0"),
        ] {
            assert!(Lent::by(&stamp, 30).answer().starts_with(line));
            for place in first..30 {
                let mut lent = Lent::by(&stamp, 30);
                lent.out[place] = b'0';
                assert_eq!(lent.answer(), format!("altered {place}"));
            }
            let mut lent = Lent::by(&stamp, 30);
            lent.answer[1] = 7;
            assert_eq!(lent.answer(), format!("answer {} 7", lent.answer[0]));
        }
        assert_eq!(Lent::by(&stamp, 19).number, raw::NO_ROOM);
    }
}
