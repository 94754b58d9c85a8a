//! `write P FIELDS ROOM` and `write_date P FIELDS ROOM`, both with the word `book:B`

use crate::answers::refused;
use crate::books::with_book;
use crate::hex;
use crate::marks::{filled, first_altered};
use crate::pair::Pair;
use crate::words::Words;
use crate::writer::Writer;
use sheet::{raw, Book, Refusal};

pub const MOST_ROOM: usize = 4096;

pub fn answer(pair: Pair, words: Words) -> Option<String> {
    answered(words, |book| {
        book.map_or(Writer::Of(pair), |book| Writer::By(pair, book))
    })
}

/// By the writer that is chosen for the book, or for none.
pub fn answered(mut words: Words, writer: impl FnOnce(Option<&Book>) -> Writer<'_>) -> Option<String> {
    let pattern = words.bytes()?;
    let fields = words.fields()?;
    let room = words.number().filter(|room| *room <= MOST_ROOM)?;
    let book = words.book();
    words.end()?;
    Some(with_book(book, |book| {
        let writer = writer(book);
        let mut out = filled(room);
        let wrote = writer.write_into(&pattern, &fields, &mut out);
        let made = writer.write(&pattern, &fields);
        answer_of_both(&wrote, &out, &made)
    }))
}

/// What the writer did that is lent an output; where the one that makes its own did not do the same, the answers of both.
pub fn answer_of_both(wrote: &Result<usize, Refusal>, out: &[u8], made: &Result<String, Refusal>) -> String {
    let lent = written(wrote, out);
    if agree(wrote, out, made) {
        return lent;
    }
    let own = match made {
        Ok(text) => wrote_text(text.len(), text.as_bytes()),
        Err(refusal) => refused(refusal),
    };
    format!("{lent} unlike {own}")
}

/// What a writer did with an output that was filled before.
fn written(wrote: &Result<usize, Refusal>, out: &[u8]) -> String {
    let length = *wrote.as_ref().unwrap_or(&0);
    if let Some(place) = first_altered(out, length) {
        return format!("altered {place}");
    }
    match wrote {
        Ok(length) => wrote_text(*length, text_of(out, *length)),
        Err(refusal) => refused(refusal),
    }
}

/// The reported length is shown as it is, even where there are not so many bytes.
pub fn wrote_text(length: usize, text: &[u8]) -> String {
    format!("wrote {length} {}", hex::encoded(text))
}

pub fn text_of(out: &[u8], length: usize) -> &[u8] {
    &out[..length.min(out.len())]
}

/// Whether the function that makes its own output does the same as the one that is lent one, but for the room.
fn agree(wrote: &Result<usize, Refusal>, out: &[u8], made: &Result<String, Refusal>) -> bool {
    match (wrote, made) {
        (Ok(length), Ok(text)) => text_of(out, *length) == text.as_bytes(),
        (Err(refusal), Ok(text)) => refusal.number() == raw::NO_ROOM && refusal.details() == [text.len() as i64],
        (wrote, made) => wrote.as_ref().err() == made.as_ref().err(),
    }
}

#[cfg(test)]
mod tests {
    use super::{agree, answer, answer_of_both, written};
    use crate::hex;
    use crate::marks::filled;
    use crate::pair::Pair;
    use crate::words::Words;
    use sheet::{Book, Refusal};

    const R: &str = "2025 12 3 337 49 3 25509000120000 19800";

    fn asked(line: &str) -> Option<String> {
        answer(Pair::Full, Words::of(line.as_bytes()))
    }

    /// The refusal that the library gives a pattern of such a length, and to no room.
    fn refusals() -> (Refusal, Refusal) {
        let fields = Words::of(R.as_bytes()).fields().expect("these are fields");
        let too_long = sheet::write("d".repeat(257), &fields).unwrap_err();
        let no_room = sheet::write_into("dd", &fields, &mut []).unwrap_err();
        (too_long, no_room)
    }

    #[test]
    fn room_is_up_to_4096_bytes() {
        assert_eq!(asked(&format!("6464 {R} 2")).as_deref(), Some("wrote 2 3033"));
        assert_eq!(asked(&format!("6464 {R} 1")).as_deref(), Some("refused 5 2"));
        assert_eq!(asked(&format!("- {R} 0")).as_deref(), Some("wrote 0 -"));
        assert_eq!(asked(&format!("6464 {R} 4096")).as_deref(), Some("wrote 2 3033"));
        for room in ["4097", "-1", "-0", ""] {
            assert_eq!(asked(&format!("6464 {R} {room}")), None);
        }
    }

    /// `MMM` and `H` on R, by English and by a book with another name for December.
    #[test]
    fn by_the_word_for_a_book() {
        let mut names = Book::english().names();
        names.short_months[11] = "Dez";
        let other = Book::from_names(names).expect("these are names");
        let [english, other] = [Book::english(), &other].map(|book| hex::encoded(&book.write()));
        let asked = |pair, words: &str| answer(pair, Words::of(format!("4d4d4d48 {R} {words}").as_bytes()));
        for (pair, hour) in [(Pair::Full, "37"), (Pair::Date, "48")] {
            for (book, name) in [(&english, "446563"), (&other, "44657a")] {
                let wrote = format!("wrote 4 {name}{hour}");
                assert_eq!(asked(pair, &format!("4 book:{book}")), Some(wrote));
                assert_eq!(asked(pair, &format!("3 book:{book}")).as_deref(), Some("refused 5 4"));
            }
            assert_eq!(asked(pair, "4 book:4c4e42").as_deref(), Some("refused 22 0"));
            for words in [
                "4 strict",
                "4 second",
                "4 book:",
                "4 book:- ",
                "4 strict book:-",
                "4 book:- book:-",
            ] {
                assert_eq!(asked(pair, words), None, "{words}");
            }
        }
    }

    #[test]
    fn a_byte_that_is_altered_behind_the_text_is_shown() {
        let mut out = filled(9);
        out[..2].copy_from_slice(b"03");
        assert_eq!(written(&Ok(2), &out), "wrote 2 3033");
        assert_eq!(written(&Ok(1), &out), "altered 1");
        out[8] = 0;
        assert_eq!(written(&Ok(2), &out), "altered 8");
    }

    #[test]
    fn a_byte_that_a_refused_write_altered_is_shown() {
        let (too_long, _) = refusals();
        let mut out = filled(9);
        assert_eq!(written(&Err(too_long), &out), "refused 1 257");
        out[4] = b'0';
        assert_eq!(written(&Err(too_long), &out), "altered 4");
    }

    #[test]
    fn a_length_beyond_the_output_is_shown() {
        assert_eq!(written(&Ok(5), b"03"), "wrote 5 3033");
    }

    #[test]
    fn both_ways_to_write_do_the_same() {
        let (too_long, no_room) = refusals();
        let text = |text: &str| Ok(text.to_string());
        assert!(agree(&Ok(2), b"03", &text("03")));
        assert!(!agree(&Ok(2), b"03", &text("04")));
        assert!(!agree(&Ok(2), b"03", &text("3")));
        assert!(agree(&Err(no_room), b"", &text("03")));
        assert!(!agree(&Err(no_room), b"", &text("3")));
        assert!(!agree(&Err(too_long), b"", &text("03")));
        assert!(agree(&Err(too_long), b"", &Err(too_long)));
        assert!(!agree(&Err(no_room), b"", &Err(too_long)));
        assert!(!agree(&Ok(0), b"", &Err(too_long)));
    }

    #[test]
    fn where_they_do_not_both_answers_are_shown() {
        let (too_long, no_room) = refusals();
        let text = |text: &str| Ok(text.to_string());
        assert_eq!(answer_of_both(&Ok(2), b"03", &text("03")), "wrote 2 3033");
        assert_eq!(
            answer_of_both(&Ok(2), b"04", &text("03")),
            "wrote 2 3034 unlike wrote 2 3033"
        );
        assert_eq!(
            answer_of_both(&Err(no_room), b"", &Err(too_long)),
            "refused 5 2 unlike refused 1 257"
        );
    }
}
