//! `mend P NOW ROOM`, with the word `second`

use crate::answers::{agreed, numbered, refused};
use crate::checking::checked;
use crate::hex;
use crate::marks::{filled, first_altered, ENTRY};
use crate::words::Words;
use crate::writing::{text_of, MOST_ROOM};
use sheet::{raw, Change, Choices, Edition, Mending, Verdict};

/// What is asked: a pattern to mend, and how many bytes the lent output has.
struct Mend {
    edition: Edition,
    pattern: Vec<u8>,
    current_year: i32,
    room: usize,
}

pub fn answer(mut words: Words) -> Option<String> {
    let mend = Mend {
        pattern: words.bytes()?,
        current_year: words.number()?,
        room: words.number().filter(|room| *room <= MOST_ROOM)?,
        edition: words.edition(),
    };
    words.end()?;
    Some(mend.answer())
}

impl Mend {
    /// What is laid into a lent output and a lent row; where the function that makes its own gives something else, both answers.
    fn answer(&self) -> String {
        agreed(self.lent().answer(), self.own())
    }

    fn lent(&self) -> Lent {
        let mut lent = Lent {
            number: raw::ACCEPTED,
            answer: [ENTRY; raw::MEND_ANSWER],
            out: filled(self.room),
            changes: vec![ENTRY; ROW],
        };
        // SAFETY: each pointer goes with the length of the slice that it comes from, and what is altered is borrowed alone.
        lent.number = unsafe {
            raw::sheet_mend(
                Choices::new().edition(self.edition).number(),
                self.pattern.as_ptr(),
                self.pattern.len(),
                self.current_year,
                lent.out.as_mut_ptr(),
                lent.out.len(),
                lent.changes.as_mut_ptr(),
                lent.changes.len(),
                lent.answer.as_mut_ptr(),
                lent.answer.len(),
            )
        };
        lent
    }

    /// By the functions of the crate, with what undoing and the check say of it where that is not as it should be.
    fn own(&self) -> String {
        let Self { edition, pattern, .. } = self;
        let mended = match edition {
            Edition::First => sheet::mend(pattern, self.current_year),
            Edition::Second => sheet::mend_with(*edition, pattern, self.current_year),
        };
        match mended {
            Ok(mending) if mending.pattern.len() <= self.room => self.looked_at(&mending),
            Ok(mending) => format!("refused {} {}", raw::NO_ROOM, mending.pattern.len()),
            Err(refusal) => refused(&refusal),
        }
    }

    /// The mending; another answer where it is not undone to the pattern, or the check does not say yes.
    fn looked_at(&self, mending: &Mending) -> String {
        let undone = match sheet::undo(&mending.pattern, &mending.changes) {
            Ok(undone) if undone == self.pattern => None,
            Ok(undone) => Some(format!("undone {}", hex::encoded(&undone))),
            Err(misfit) => Some(misfit.to_string()),
        };
        let verdict = sheet::check_with(self.edition, &mending.pattern, self.current_year);
        match (undone, verdict) {
            (Some(undone), _) => undone,
            (None, Ok(Verdict::Yes)) => mended(mending.pattern.len(), &mending.pattern, &mending.changes),
            (None, verdict) => checked(verdict),
        }
    }
}

/// With an entry behind those that are asked for.
const ROW: usize = raw::CHANGES_ROW + 1;

/// The reported length is shown as it is, even where there are not so many bytes.
fn mended(length: usize, pattern: &[u8], changes: &[Change]) -> String {
    let mut line = format!("mended {length} {} {}", hex::encoded(pattern), changes.len());
    for change in changes {
        let [old, new] = [change.before, change.after].map(|times| hex::encoded(&vec![change.byte; times]));
        line += &format!(" {}:{old}:{new}", change.place);
    }
    line
}

/// What a mending returned, and left in the output and the rows that it was lent.
struct Lent {
    number: u32,
    answer: [i64; raw::MEND_ANSWER],
    out: Vec<u8>,
    changes: Vec<i64>,
}

impl Lent {
    /// Of an accepted mending the pattern and its changes; what is altered behind them, or by a refused one anywhere, is the answer in
    /// their place.
    fn answer(&self) -> String {
        let [first, second] = self.answer;
        let accepted = self.number == raw::ACCEPTED;
        let length = if accepted { first as usize } else { 0 };
        if let Some(place) = first_altered(&self.out, length) {
            return format!("altered {place}");
        }
        let row = if accepted { raw::CHANGES_ROW } else { 0 };
        if let Some(place) = (row..ROW).find(|place| self.changes[*place] != ENTRY) {
            return format!("altered {place}");
        }
        match (accepted, second) {
            (true, count) => self.mended(length, count),
            (false, 0) => format!("refused {} {first}", self.number),
            _ => numbered("answer", &self.answer),
        }
    }

    /// The row itself where it has something else than so many changes of a pattern and then zeros.
    fn mended(&self, length: usize, count: i64) -> String {
        let row = &self.changes[..raw::CHANGES_ROW];
        let entries = usize::try_from(count)
            .ok()
            .and_then(|count| count.checked_mul(raw::CHANGE));
        let is_of_a_pattern = |entry: &i64| (0..=raw::LONGEST_PATTERN as i64).contains(entry);
        match entries.and_then(|entries| row.split_at_checked(entries)) {
            Some((changes, rest)) if changes.iter().all(is_of_a_pattern) && rest.iter().all(|entry| *entry == 0) => {
                let changes: Vec<Change> = changes.chunks(raw::CHANGE).map(of_row).collect();
                mended(length, text_of(&self.out, length), &changes)
            }
            _ => numbered(&numbered("changes", &self.answer), row),
        }
    }
}

fn of_row(row: &[i64]) -> Change {
    Change {
        place: row[0] as usize,
        byte: row[1] as u8,
        before: row[2] as usize,
        after: row[3] as usize,
    }
}

#[cfg(test)]
mod tests {
    use super::{answer, mended, Lent, Mend};
    use crate::hex;
    use crate::words::Words;
    use sheet::{raw, Change, Edition, Mending};

    fn asked(words: &str) -> Option<String> {
        answer(Words::of(words.as_bytes()))
    }

    /// Of a pattern and what stands behind it.
    fn mend_of(pattern: &str, rest: &str) -> String {
        asked(&format!("{} {rest}", hex::encoded(pattern.as_bytes()))).expect("a request")
    }

    /// The answer for a mended pattern with these changes.
    fn listed(pattern: &str, changes: &str) -> String {
        let count = changes.split_whitespace().count();
        let line = format!("mended {} {} {count}", pattern.len(), hex::encoded(pattern.as_bytes()));
        [line.as_str(), changes].join(" ").trim_end().to_string()
    }

    #[test]
    fn patterns_with_their_changes() {
        assert_eq!(mend_of("yyd", "2025 6"), listed("yyyy d", "0:7979:79797979 4:-:20"));
        assert_eq!(mend_of("M5", "2025 9"), listed("MM5", "0:4d:4d4d"));
        assert_eq!(mend_of("M5", "2025 9 second"), listed("M 5", "1:-:20"));
        assert_eq!(mend_of("XXXXX 5", "2025 99"), listed("XXXXX   5", "5:-:2020"));
        assert_eq!(mend_of("'abc''", "2025 4096"), listed("'abc'''", "6:-:27"));
        for word in ["", " second"] {
            assert_eq!(mend_of("d/MM", &format!("2025 4{word}")), listed("d/MM", ""));
            assert_eq!(mend_of("", &format!("2025 0{word}")), "mended 0 - 0");
        }
    }

    #[test]
    fn refused_in_the_order_of_their_numbers() {
        let long = "d".repeat(257);
        assert_eq!(mend_of(&long, "0 0"), "refused 1 257");
        assert_eq!(mend_of("\0'", "0 0"), "refused 2 0");
        assert_eq!(mend_of("d'", "0 0"), "refused 3 1");
        assert_eq!(mend_of("d", "0 0"), "refused 14 0");
        assert_eq!(mend_of("d", "80 0 second"), "refused 14 80");
        assert_eq!(mend_of(&"dH".repeat(128), "2025 0"), "refused 30 0");
        assert_eq!(mend_of("yyd", "2025 5"), "refused 5 6");
    }

    #[test]
    fn room_is_up_to_4096_and_the_words_in_their_order() {
        for words in [
            "64 2025",
            "64 2025 4097",
            "64 2025 -1",
            "64 2025 -0",
            "64 2025 second",
            "64 second 2025 9",
            "64 2025 9 second second",
            "64 2025 9 strict",
            "64 2025 9 strict second",
            "64 2025 9 second book:-",
            "64 2025 9 ",
            "64 9 2025 9",
        ] {
            assert_eq!(asked(words), None, "{words}");
        }
    }

    fn mend(room: usize) -> Mend {
        Mend {
            edition: Edition::First,
            pattern: b"yyd".to_vec(),
            current_year: 2025,
            room,
        }
    }

    /// Behind the mended pattern and the row, and anywhere after a refusal.
    #[test]
    fn what_is_altered_besides_is_shown() {
        let line = listed("yyyy d", "0:7979:79797979 4:-:20");
        for (room, first, row, line) in [(9, 6, raw::CHANGES_ROW, line.as_str()), (5, 0, 0, "refused 5 6")] {
            assert_eq!(mend(room).lent().answer(), line);
            for place in first..room {
                let mut lent = mend(room).lent();
                lent.out[place] = b' ';
                assert_eq!(lent.answer(), format!("altered {place}"));
            }
            for place in [row, raw::CHANGES_ROW] {
                let mut lent = mend(room).lent();
                lent.changes[place] = 0;
                assert_eq!(lent.answer(), format!("altered {place}"));
            }
        }
        let mut lent = mend(5).lent();
        lent.answer[1] = 7;
        assert_eq!(lent.answer(), "answer 6 7");
    }

    /// An entry behind the changes, a count that is not theirs, an entry that no change has.
    #[test]
    fn another_row_is_shown() {
        let changed = |change: fn(&mut Lent)| {
            let mut lent = mend(6).lent();
            change(&mut lent);
            lent.answer()
        };
        assert!(changed(|lent| lent.changes[511] = 1).starts_with("changes 6 2 0 121 2 4 4 32 0 1 0 0 "));
        assert!(changed(|lent| lent.changes[0] = -1).starts_with("changes 6 2 -1 121 "));
        for count in [1, 129, -1, i64::MAX] {
            let mut lent = mend(6).lent();
            lent.answer[1] = count;
            assert!(lent.answer().starts_with(&format!("changes 6 {count} 0 121 ")));
        }
    }

    /// A list by which the pattern does not come back, one that does not fit, and a pattern to which the check says no.
    #[test]
    fn a_mending_that_does_not_hold_is_shown() {
        let [yyyy, space] = [(0, b'y', 2, 4), (4, b' ', 0, 1)].map(|(place, byte, before, after)| Change {
            place,
            byte,
            before,
            after,
        });
        let looked_at = |pattern: &str, changes: &[Change]| {
            mend(9).looked_at(&Mending {
                pattern: pattern.as_bytes().to_vec(),
                changes: changes.to_vec(),
            })
        };
        assert_eq!(looked_at("yyyy d", &[yyyy, space]), mend(9).answer());
        assert_eq!(looked_at("yyyy d", &[yyyy]), "undone 79792064");
        assert_eq!(
            looked_at("yyyy-d", &[yyyy, space]),
            "the changes do not fit the pattern"
        );
        assert!(looked_at("yyd", &[]).starts_with("no 0 1000001 "));
        assert_eq!(mended(3, b"yy", &[yyyy]), "mended 3 7979 1 0:7979:79797979");
    }
}
