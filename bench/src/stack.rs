//! How deep each exported function goes: the stack below a call is painted, and what is paint no longer was used.

use crate::books;
use crate::ours::ROOM;
use crate::prepared_stack;
use crate::records::{Record, CURRENT_YEAR};
use crate::rows::Row;
use harness::Fields;
use sheet::raw;
use std::fmt::Write;
use std::hint::black_box;
use std::thread;

/// More than any function takes, and a thread that has it.
const PAINTED: usize = 64 * 1024;
const THREAD: usize = 16 * PAINTED;
const PAINT: u8 = 0xa5;

/// Every list of names, and a number, a year and a zone.
const NAMES: &str = "GGGG qqqq MMMM eeee bbbb aaaa yyyyyyyy nnnnn XXXXX";

type Rows = unsafe extern "C" fn(*const u8, usize, *mut i64, usize, *mut i64, usize) -> u32;

/// Where the stack ends, downwards.
#[cfg(target_arch = "x86_64")]
#[inline(always)]
fn stack_pointer() -> usize {
    let pointer: usize;
    // SAFETY: a register is read.
    unsafe { std::arch::asm!("mov {}, rsp", out(reg) pointer, options(nomem, nostack, preserves_flags)) };
    pointer
}

#[cfg(target_arch = "aarch64")]
#[inline(always)]
fn stack_pointer() -> usize {
    let pointer: usize;
    // SAFETY: a register is read.
    unsafe { std::arch::asm!("mov {}, sp", out(reg) pointer, options(nomem, nostack, preserves_flags)) };
    pointer
}

/// How many bytes below the stack pointer a call leaves changed. The first call, in which a linker may be at work, does not
/// count.
#[inline(never)]
pub fn depth(mut call: impl FnMut() -> u32) -> usize {
    black_box(call());
    let top = stack_pointer();
    // SAFETY: the thread's stack has PAINTED bytes below this frame, and nothing is kept there between calls.
    unsafe {
        for place in 1..PAINTED {
            ((top - place) as *mut u8).write_volatile(PAINT);
        }
        black_box(call());
        (1..PAINTED)
            .rev()
            .find(|place| ((top - place) as *const u8).read_volatile() != PAINT)
            .unwrap_or(0)
    }
}

fn of_write(write: raw::Writer, pattern: &[u8], f: &Fields, out: &mut [u8]) -> (usize, usize) {
    let mut answer = [0; raw::WRITE_ANSWER];
    let used = depth(|| {
        // SAFETY: each pointer goes with the length of the slice that it comes from.
        unsafe {
            write(
                pattern.as_ptr(),
                pattern.len(),
                f.year,
                f.month,
                f.day,
                f.day_of_year,
                f.week,
                f.weekday,
                f.nanoseconds,
                f.offset,
                out.as_mut_ptr(),
                out.len(),
                answer.as_mut_ptr(),
                answer.len(),
            )
        }
    });
    (used, answer[0] as usize)
}

fn of_read(read: raw::Reader, pattern: &[u8], text: &[u8]) -> usize {
    let mut answer = [0; raw::READ_ANSWER];
    depth(|| {
        // SAFETY: each pointer goes with the length of the slice that it comes from.
        unsafe {
            read(
                pattern.as_ptr(),
                pattern.len(),
                text.as_ptr(),
                text.len(),
                CURRENT_YEAR,
                answer.as_mut_ptr(),
                answer.len(),
            )
        }
    })
}

fn of_rows(function: Rows, pattern: &[u8]) -> usize {
    let mut answer = [0; raw::SPLIT_ANSWER];
    let mut row = [0; raw::SPLIT_PARTS];
    depth(|| {
        // SAFETY: each pointer goes with the length of the slice that it comes from.
        unsafe {
            function(
                pattern.as_ptr(),
                pattern.len(),
                answer.as_mut_ptr(),
                answer.len(),
                row.as_mut_ptr(),
                row.len(),
            )
        }
    })
}

fn of_check(pattern: &[u8]) -> usize {
    let mut answer = [0; raw::CHECK_ANSWER];
    depth(|| {
        // SAFETY: each pointer goes with the length of the slice that it comes from.
        unsafe {
            raw::sheet_check(
                pattern.as_ptr(),
                pattern.len(),
                CURRENT_YEAR,
                answer.as_mut_ptr(),
                answer.len(),
            )
        }
    })
}

/// A pattern mended, and its changes undone.
fn of_mend(pattern: &[u8]) -> [usize; 2] {
    let (mut mended, mut undone) = ([0; raw::LONGEST_PATTERN], [0; raw::LONGEST_PATTERN]);
    let mut changes = [0; raw::CHANGES_ROW];
    let mut answer = [0; raw::MEND_ANSWER];
    let (p, c) = ((pattern.as_ptr(), pattern.len()), (changes.as_mut_ptr(), changes.len()));
    let (m, u) = ((mended.as_mut_ptr(), mended.len()), (undone.as_mut_ptr(), undone.len()));
    let row = (answer.as_mut_ptr(), answer.len());
    // SAFETY: each pointer goes with the length of the slice that it comes from; and likewise below.
    let mend = depth(|| unsafe { raw::sheet_mend(0, p.0, p.1, CURRENT_YEAR, m.0, m.1, c.0, c.1, row.0, row.1) });
    let (length, used) = (answer[0] as usize, raw::CHANGE * answer[1] as usize);
    let row = (answer.as_mut_ptr(), answer.len());
    let undo = depth(|| unsafe { raw::sheet_undo(m.0, length, c.0, used, u.0, u.1, row.0, row.1) });
    [mend, undo]
}

/// A write and the read of what it wrote, by the book.
fn of_both_by(book: &[u8], pattern: &[u8], f: &Fields, text: &[u8]) -> [usize; 2] {
    let (mut wrote, mut read) = ([0; raw::WRITE_ANSWER], [0; raw::READ_ANSWER]);
    let mut out = [0; ROOM];
    [
        depth(|| books::write_into(book, pattern, f, &mut out, &mut wrote)),
        depth(|| books::read_into(book, pattern, text, &mut read)),
    ]
}

/// A list of two lines that are the text, and its first line.
fn of_lists(book: &[u8], pattern: &[u8], text: &[u8]) -> [usize; 2] {
    let list = [text, text].join(&b'\n');
    let (b, p, t) = (
        (book.as_ptr(), book.len()),
        (pattern.as_ptr(), pattern.len()),
        (list.as_ptr(), list.len()),
    );
    let (mut days, mut months, mut years, mut codes) = ([0; 2], [0; 2], [0; 2], [0; 2]);
    let (d, m, y, c) = (
        days.as_mut_ptr(),
        months.as_mut_ptr(),
        years.as_mut_ptr(),
        codes.as_mut_ptr(),
    );
    let (mut listed, mut line) = ([0; raw::LIST_ANSWER], [0; raw::LINE_ANSWER]);
    let (l, l_len, a, a_len) = (listed.as_mut_ptr(), listed.len(), line.as_mut_ptr(), line.len());
    // SAFETY: each pointer goes with the length of the slice that it comes from.
    unsafe {
        [
            depth(|| {
                raw::sheet_read_list(
                    0,
                    b.0,
                    b.1,
                    p.0,
                    p.1,
                    t.0,
                    t.1,
                    CURRENT_YEAR,
                    d,
                    2,
                    m,
                    2,
                    y,
                    2,
                    c,
                    2,
                    l,
                    l_len,
                )
            }),
            depth(|| raw::sheet_read_line(0, b.0, b.1, p.0, p.1, t.0, t.1, 0, CURRENT_YEAR, a, a_len)),
        ]
    }
}

/// A book read and written.
fn of_books(book: &[u8]) -> [(&'static str, usize); 2] {
    let mut answer = [0; raw::BOOK_ANSWER];
    let mut bytes = [0; raw::LONGEST_BOOK];
    let (from, row) = ((book.as_ptr(), book.len()), (answer.as_mut_ptr(), answer.len()));
    let to = (bytes.as_mut_ptr(), bytes.len());
    // SAFETY: each pointer goes with the length of the slice that it comes from; and likewise below.
    let write = depth(|| unsafe { raw::sheet_book_write(from.0, from.1, to.0, to.1, row.0, row.1) });
    let length = answer[0] as usize;
    let mut opened = [0; raw::BOOK_ROW];
    let (from, to) = ((bytes.as_ptr(), length), (opened.as_mut_ptr(), opened.len()));
    let row = (answer.as_mut_ptr(), answer.len());
    let read = depth(|| unsafe { raw::sheet_book_read(from.0, from.1, to.0, to.1, row.0, row.1) });
    [("book_read", read), ("book_write", write)]
}

fn of_parse_offset(text: &[u8]) -> usize {
    let mut answer = [0; raw::OFFSET_ANSWER];
    // SAFETY: each pointer goes with the length of the slice that it comes from.
    depth(|| unsafe { raw::sheet_parse_offset(text.as_ptr(), text.len(), answer.as_mut_ptr(), answer.len()) })
}

fn of_day(number: i32) -> usize {
    let mut answer = [0; raw::DAY_ANSWER];
    // SAFETY: the pointer goes with the length of the slice that it comes from.
    depth(|| unsafe { raw::sheet_day(number, answer.as_mut_ptr(), answer.len()) })
}

fn of_day_number(year: i32, month: u32, day: u32) -> usize {
    let mut answer = [0; raw::DAY_NUMBER_ANSWER];
    // SAFETY: the pointer goes with the length of the slice that it comes from.
    depth(|| unsafe { raw::sheet_day_number(year, month, day, answer.as_mut_ptr(), answer.len()) })
}

/// The deepest of days at both ends of the numbers, around 0 and of now.
fn of_days() -> [(&'static str, usize); 2] {
    let dates = [
        (-5_879_611, 6, 23),
        (-1, 12, 31),
        (1, 1, 1),
        (2025, 2, 29),
        (5_879_611, 12, 31),
    ];
    let days = [i32::MIN, -1, 0, 739_587, i32::MAX].map(of_day);
    let numbers = dates.map(|(year, month, day)| of_day_number(year, month, day));
    let deepest = |depths: [usize; 5]| depths.into_iter().max().unwrap_or(0);
    [("day", deepest(days)), ("day_number", deepest(numbers))]
}

/// Of the longest stamp that is written.
fn of_stamps() -> [(&'static str, usize); 2] {
    let mut out = [0; raw::LONGEST_STAMP];
    let mut answer = [0; raw::RFC_READ_ANSWER];
    let (bytes, row) = (out.as_mut_ptr(), answer.as_mut_ptr());
    // SAFETY: each pointer goes with the length of the row that it comes from.
    let write = depth(|| unsafe {
        let (room, entries) = (raw::LONGEST_STAMP, raw::RFC_WRITE_ANSWER);
        raw::sheet_rfc_write(9999, 12, 31, 86_399_999_999_999, -86_340, 0, bytes, room, row, entries)
    });
    // SAFETY: likewise.
    let read = depth(|| unsafe { raw::sheet_rfc_read(bytes, raw::LONGEST_STAMP, row, raw::RFC_READ_ANSWER) });
    [("rfc_read", read), ("rfc_write", write)]
}

/// The depths by one pattern, in the order of `FUNCTIONS`, and then by it prepared.
fn depths(book: &[u8], pattern: &[u8], f: &Fields) -> Vec<usize> {
    let mut out = [0; ROOM];
    let (write, length) = of_write(raw::sheet_write, pattern, f, &mut out);
    let text = out[..length].to_vec();
    let [write_by, read_by] = of_both_by(book, pattern, f, &text);
    let [list, line] = of_lists(book, pattern, &text);
    let [mend, undo] = of_mend(pattern);
    let direct = vec![
        write,
        of_write(raw::sheet_write, pattern, f, &mut out[..length]).0,
        of_write(raw::sheet_write, pattern, f, &mut out[..length - 1]).0,
        of_write(raw::sheet_write_date, pattern, f, &mut out).0,
        of_read(raw::sheet_read, pattern, &text),
        of_read(raw::sheet_read_date, pattern, &text),
        write_by,
        read_by,
        list,
        line,
        of_check(pattern),
        mend,
        undo,
        of_rows(raw::sheet_split, pattern),
        of_rows(raw::sheet_units, pattern),
    ];
    [direct, prepared_stack::depths(book, pattern, f, &text)].concat()
}

const FUNCTIONS: [&str; 15] = [
    "write",
    "write, room to the byte",
    "write, a byte too little",
    "write_date",
    "read",
    "read_date",
    "write_by a book",
    "read_by a book",
    "read_list by a book",
    "read_line by a book",
    "check",
    "mend",
    "undo",
    "split",
    "units",
];

/// The table: a line for each function, a column for each pattern.
pub fn table(rows: &[Row], records: &[Record]) -> String {
    let patterns: Vec<&str> = rows.iter().map(|row| row.pattern.as_str()).chain([NAMES]).collect();
    let (fields, book) = (records[0].fields, books::opened());
    let (columns, offset, others) = with_stack(|| {
        let columns = patterns
            .iter()
            .map(|pattern| depths(&book, pattern.as_bytes(), &fields))
            .collect::<Vec<_>>();
        let others = of_days().into_iter().chain(of_books(&book)).chain(of_stamps());
        (columns, of_parse_offset(b"+05:30"), others.collect::<Vec<_>>())
    });
    let mut table = String::from("Bytes of stack that a call takes, with its return address\n\n");
    for (number, pattern) in patterns.iter().enumerate() {
        let shown = if pattern.len() > 60 {
            "256 bytes of pattern"
        } else {
            pattern
        };
        let _ = writeln!(table, "{}: {shown}", number + 1);
    }
    let _ = write!(table, "\n{:<24}", "");
    for number in 1..=patterns.len() {
        let _ = write!(table, "{number:>6}");
    }
    for (line, function) in FUNCTIONS.iter().chain(&prepared_stack::FUNCTIONS).enumerate() {
        let _ = write!(table, "\n{function:<24}");
        for column in &columns {
            let _ = write!(table, "{:>6}", column[line]);
        }
    }
    let _ = write!(table, "\n{:<24}{offset:>6}\n", "parse_offset, +05:30");
    for (name, depth) in others {
        let _ = writeln!(table, "{name:<24}{depth:>6}");
    }
    table
}

/// In a thread, whose stack is known to be large enough.
fn with_stack<T: Send>(measured: impl FnOnce() -> T + Send) -> T {
    thread::scope(|scope| {
        thread::Builder::new()
            .stack_size(THREAD)
            .spawn_scoped(scope, measured)
            .expect("a thread can be started")
            .join()
            .expect("what is measured does not panic")
    })
}
