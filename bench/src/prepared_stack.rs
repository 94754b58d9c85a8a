//! How deep the functions of prepared patterns go.

use crate::ours::ROOM;
use crate::prepared::{check_into, prepare_into, read_into, row_of, write_into};
use crate::records::CURRENT_YEAR;
use crate::stack::depth;
use harness::Fields;
use sheet::raw;

pub const FUNCTIONS: [&str; 6] = [
    "prepare",
    "prepared_write",
    "the same, a byte short",
    "prepared_read",
    "prepared_check",
    "prepared_read_list",
];

/// By one pattern, in the order of `FUNCTIONS`, with a book; the text is what it writes without.
pub fn depths(book: &[u8], pattern: &[u8], f: &Fields, text: &[u8]) -> Vec<usize> {
    let pattern = std::str::from_utf8(pattern).expect("a pattern of ASCII");
    let (mut row, mut out) = (row_of(pattern), [0; ROOM]);
    let (mut wrote, mut read, mut checked) = ([0; raw::WRITE_ANSWER], [0; raw::READ_ANSWER], [0; raw::CHECK_ANSWER]);
    vec![
        depth(|| prepare_into(pattern.as_bytes(), &mut row, &mut wrote)),
        depth(|| write_into(book, &row, f, &mut out, &mut wrote)),
        depth(|| write_into(book, &row, f, &mut out[..text.len() - 1], &mut wrote)),
        depth(|| read_into(book, &row, text, &mut read)),
        depth(|| check_into(&row, &mut checked)),
        of_list(book, &row[..], text),
    ]
}

/// A list of two lines that are the text.
fn of_list(book: &[u8], row: &[u64], text: &[u8]) -> usize {
    let list = [text, text].join(&b'\n');
    let (mut days, mut months, mut years, mut codes) = ([0; 2], [0; 2], [0; 2], [0; 2]);
    let mut answer = [0; raw::LIST_ANSWER];
    depth(|| {
        // SAFETY: each pointer goes with the length of the slice that it comes from.
        unsafe {
            raw::sheet_prepared_read_list(
                0,
                book.as_ptr(),
                book.len(),
                row.as_ptr(),
                row.len(),
                list.as_ptr(),
                list.len(),
                CURRENT_YEAR,
                days.as_mut_ptr(),
                days.len(),
                months.as_mut_ptr(),
                months.len(),
                years.as_mut_ptr(),
                years.len(),
                codes.as_mut_ptr(),
                codes.len(),
                answer.as_mut_ptr(),
                answer.len(),
            )
        }
    })
}
