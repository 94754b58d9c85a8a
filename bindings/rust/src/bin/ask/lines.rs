//! The stream: lines in, answers out.

use std::io::{self, BufWriter, ErrorKind, Read, Write};

/// A line with more bytes is no request.
pub const LONGEST: usize = 20_000;

/// A read finds room behind the longest line that can be held.
const ROW: usize = 65_536;

/// Answers each line of the input. Before it waits for more input, all that was asked so far is answered and written out.
pub fn answer_all(mut input: impl Read, output: impl Write, answer: impl Fn(&[u8]) -> String) -> io::Result<()> {
    let mut output = BufWriter::new(output);
    let mut row = vec![0; ROW];
    let mut held = 0;
    loop {
        let read = read_some(&mut input, &mut row[held..])?;
        if read == 0 {
            break;
        }
        let filled = held + read;
        let used = answer_lines(&row[..filled], &mut output, &answer)?;
        output.flush()?;
        held = keep(&mut row, used, filled);
    }
    // A last line may have no end; an empty one is no line.
    if held > 0 {
        writeln!(output, "{}", answer(&row[..held]))?;
    }
    output.flush()
}

/// How many bytes came; none at the end of the input.
fn read_some(input: &mut impl Read, row: &mut [u8]) -> io::Result<usize> {
    loop {
        match input.read(row) {
            Err(error) if error.kind() == ErrorKind::Interrupted => continue,
            read => return read,
        }
    }
}

/// Answers each line that has ended, and gives the place behind the last.
fn answer_lines(bytes: &[u8], output: &mut impl Write, answer: impl Fn(&[u8]) -> String) -> io::Result<usize> {
    let mut used = 0;
    for line in bytes.split_inclusive(|byte| *byte == b'\n') {
        if let Some(line) = line.strip_suffix(b"\n") {
            writeln!(output, "{}", answer(line))?;
            used += line.len() + 1;
        }
    }
    Ok(used)
}

/// Moves the rest to the start, and gives its length. Of a line that is too long just so much is kept that it stays too long.
fn keep(row: &mut [u8], used: usize, filled: usize) -> usize {
    let kept = (filled - used).min(LONGEST + 1);
    row.copy_within(used..used + kept, 0);
    kept
}

#[cfg(test)]
mod tests {
    use super::{answer_all, LONGEST, ROW};
    use std::cell::RefCell;
    use std::collections::VecDeque;
    use std::io::{self, ErrorKind, Read, Write};

    /// What goes in and out, in the order in which it does.
    #[derive(Default)]
    struct Partner {
        given: RefCell<VecDeque<Vec<u8>>>,
        got: RefCell<Vec<u8>>,
        /// How much was there whenever the program waited for input.
        got_by_then: RefCell<Vec<usize>>,
    }

    impl Read for &Partner {
        fn read(&mut self, row: &mut [u8]) -> io::Result<usize> {
            self.got_by_then.borrow_mut().push(self.got.borrow().len());
            let mut given = self.given.borrow_mut();
            let Some(mut piece) = given.pop_front() else {
                return Ok(0);
            };
            // An empty piece stands for a signal that comes before any byte does.
            if piece.is_empty() {
                return Err(ErrorKind::Interrupted.into());
            }
            let now = piece.len().min(row.len());
            row[..now].copy_from_slice(&piece[..now]);
            if now < piece.len() {
                given.push_front(piece.split_off(now));
            }
            Ok(now)
        }
    }

    impl Write for &Partner {
        fn write(&mut self, bytes: &[u8]) -> io::Result<usize> {
            self.got.borrow_mut().extend(bytes);
            Ok(bytes.len())
        }

        fn flush(&mut self) -> io::Result<()> {
            Ok(())
        }
    }

    /// A line's answer is its first byte and its length, of which too much is not told apart.
    fn measured(line: &[u8]) -> String {
        let first = line.first().map_or('.', |byte| char::from(*byte));
        match line.len() {
            length if length > LONGEST => format!("{first} too long"),
            length => format!("{first} {length}"),
        }
    }

    fn partner(pieces: impl IntoIterator<Item = Vec<u8>>) -> Partner {
        let partner = Partner {
            given: RefCell::new(pieces.into_iter().collect()),
            ..Partner::default()
        };
        answer_all(&partner, &partner, measured).expect("nothing fails");
        partner
    }

    fn answers(pieces: impl IntoIterator<Item = Vec<u8>>) -> String {
        String::from_utf8(partner(pieces).got.into_inner()).expect("answers are text")
    }

    fn line(byte: u8, length: usize) -> Vec<u8> {
        let mut line = vec![byte; length];
        line.push(b'\n');
        line
    }

    #[test]
    fn lines_come_in_any_pieces() {
        let bytes = b"ab\n\n c\nd";
        let expected = "a 2\n. 0\n  2\nd 1\n";
        for size in 1..=bytes.len() {
            assert_eq!(answers(bytes.chunks(size).map(<[u8]>::to_vec)), expected);
        }
        assert_eq!(answers([b"ab\n\n c".to_vec(), Vec::new(), b"\nd".to_vec()]), expected);
    }

    #[test]
    fn an_input_with_no_line_has_no_answer() {
        assert_eq!(answers([]), "");
        assert_eq!(answers([b"a\n".to_vec()]), "a 1\n");
    }

    #[test]
    fn all_is_answered_before_more_is_waited_for() {
        let partner = partner([b"a\nb\nc".to_vec(), b"d\n".to_vec()]);
        let expected = ["", "a 1\nb 1\n", "a 1\nb 1\nc 2\n"];
        assert_eq!(partner.got_by_then.into_inner(), expected.map(str::len));
    }

    #[test]
    fn one_read_may_have_more_answers_than_any_row_holds() {
        let partner = partner([vec![b'\n'; ROW]]);
        assert_eq!(partner.got_by_then.into_inner().len(), 2, "all came in one read");
        assert_eq!(partner.got.into_inner(), ". 0\n".repeat(ROW).into_bytes());
    }

    #[test]
    fn a_line_that_is_too_long_stays_so_and_the_next_is_read_as_usual() {
        for length in [LONGEST, LONGEST + 1, ROW - 1, ROW, ROW + 1, 5 * ROW] {
            let lines = [line(b'a', 7), line(b'b', length), line(b'c', 3)].concat();
            let second = measured(&vec![b'b'; length]);
            for size in [100, ROW, lines.len()] {
                let found = answers(lines.chunks(size).map(<[u8]>::to_vec));
                assert_eq!(found, format!("a 7\n{second}\nc 3\n"), "{length} by {size}");
            }
        }
    }

    #[test]
    fn a_last_line_that_is_too_long_stays_so() {
        let found = answers([line(b'a', 1), vec![b'b'; 3 * ROW]]);
        assert_eq!(found, "a 1\nb too long\n");
    }
}
