//! Stamps of RFC 3339, read and written: ours beside chrono, time and java.time, on the same random stamps of three forms.

use crate::java;
#[cfg(others)]
use crate::others;
use crate::table::{columns, table_row};
use crate::timing::{interleaved, Calls, Timing};
use harness::days::unguarded_day_of;
use harness::generator::Random;
use sheet::raw;
use std::hint::black_box;

/// More stamps than a processor learns the branches of.
const COUNT: usize = 1 << 13;
const SEED: u64 = 1;
/// What stands behind the seconds, by form.
const FORMS: [&str; 3] = ["Z", "+05:30", ".123456789+05:30"];
/// How many bytes the date and the time have.
const SECONDS_END: usize = 19;

/// What a stamp says, as the library of chrono and time takes it.
#[repr(C)]
#[derive(Clone, Copy)]
pub struct Stamp {
    pub year: i32,
    pub month: u32,
    pub day: u32,
    pub offset: i32,
    pub nanos: u64,
}

/// Texts of one length, side by side.
#[repr(C)]
#[derive(Clone, Copy)]
pub struct Texts {
    pub bytes: *const u8,
    pub length: usize,
    pub count: usize,
}

/// Adds all stamps of some texts.
type Read = Box<dyn Fn(Texts) -> u64>;
/// Writes stamps from a place on into bytes, so many as these have room for, each of one length.
type Write = Box<dyn Fn(usize, &mut [u8], usize)>;

struct Contender {
    name: &'static str,
    read: Read,
    write: Write,
}

/// A line of the table: by contender, ours first.
struct Line {
    label: String,
    cells: Vec<(String, Timing)>,
}

/// Some years from each end, for offsets, of which java.time takes none over 18 hours and time none under one with its sign; no fraction
/// ends with a zero, which others leave out.
fn stamps(form: usize) -> Vec<Stamp> {
    let mut random = Random::new(SEED);
    let stamp = |_| {
        let day = unguarded_day_of(366 + random.below(3_651_000) as i32);
        let second = random.below(86_400) as u64;
        let nanos = 10 * random.below(100_000_000) as u64 + 1 + random.below(9) as u64;
        let minutes = 60 + random.below(780) as i32;
        let offset = 60 * if random.below(2) == 0 { minutes } else { -minutes };
        Stamp {
            year: day.year,
            month: day.month,
            day: day.day,
            offset: if form == 0 { 0 } else { offset },
            nanos: second * 1_000_000_000 + if form == 2 { nanos } else { 0 },
        }
    };
    (0..COUNT).map(stamp).collect()
}

/// A stamp in one word.
fn folded(row: &[i64; raw::RFC_READ_ANSWER]) -> u64 {
    let [year, month, day, nanos, offset, _] = row.map(|entry| entry as u64);
    year ^ month << 14 ^ day << 18 ^ nanos << 16 ^ offset.rotate_left(32)
}

fn our_read(texts: Texts) -> u64 {
    let mut row = [0; raw::RFC_READ_ANSWER];
    let mut sum: u64 = 0;
    for place in 0..texts.count {
        // SAFETY: the texts stand side by side, and the row's pointer goes with its length.
        let number = unsafe {
            let text = texts.bytes.add(place * texts.length);
            raw::sheet_rfc_read(text, texts.length, row.as_mut_ptr(), row.len())
        };
        assert_eq!(number, raw::ACCEPTED);
        sum = sum.wrapping_add(folded(&row));
    }
    sum
}

fn our_write(stamp: &Stamp, out: &mut [u8]) {
    let mut row = [0; raw::RFC_WRITE_ANSWER];
    // SAFETY: each pointer goes with the length of the slice that it comes from.
    let number = unsafe {
        raw::sheet_rfc_write(
            stamp.year,
            stamp.month,
            stamp.day,
            stamp.nanos,
            stamp.offset,
            0,
            out.as_mut_ptr(),
            out.len(),
            row.as_mut_ptr(),
            row.len(),
        )
    };
    assert_eq!(number, raw::ACCEPTED);
}

fn ours(stamps: &[Stamp]) -> Contender {
    let stamps = stamps.to_vec();
    Contender {
        name: "ours",
        read: Box::new(our_read),
        write: Box::new(move |from, out, length| {
            for (stamp, out) in stamps[from..].iter().zip(out.chunks_exact_mut(length)) {
                our_write(stamp, out);
            }
        }),
    }
}

fn contenders(stamps: &[Stamp]) -> Vec<Contender> {
    #[cfg(others)]
    let of = |name, read, write| Contender { name, read, write };
    #[cfg(others)]
    let more = [
        of("chrono", others::chrono_reader(), others::chrono_writer(stamps)),
        of("time", others::time_reader(), others::time_writer(stamps)),
    ];
    #[cfg(not(others))]
    let more = [];
    [ours(stamps)].into_iter().chain(more).collect()
}

/// The texts of all, as a contender writes them.
fn texts(contender: &Contender, length: usize) -> Vec<u8> {
    let mut out = vec![0; COUNT * length];
    (contender.write)(0, &mut out, length);
    out
}

/// FNV-1a of each text, added.
fn hashed(texts: &[u8], length: usize) -> u64 {
    let hash = |text: &[u8]| {
        text.iter().fold(0xcbf2_9ce4_8422_2325_u64, |hash, byte| {
            (hash ^ u64::from(*byte)).wrapping_mul(0x0100_0000_01b3)
        })
    };
    let all = texts.chunks_exact(length).map(hash);
    all.fold(0, u64::wrapping_add)
}

/// So many calls at a time, around all stamps and around again.
fn around<'a>(mut some: impl FnMut(usize, usize) + 'a) -> Calls<'a> {
    let mut place = 0;
    Box::new(move |calls| {
        let mut left = calls;
        while left > 0 {
            let now = left.min(COUNT - place);
            some(place, now);
            place = (place + now) % COUNT;
            left -= now;
        }
    })
}

fn reading<'a>(contender: &'a Contender, texts: &'a [u8], length: usize) -> Calls<'a> {
    around(move |place, count| {
        let bytes = black_box(&texts[place * length..]).as_ptr();
        black_box((contender.read)(Texts { bytes, length, count }));
    })
}

/// Into the same bytes again and again.
fn writing<'a>(contender: &'a Contender, length: usize) -> Calls<'a> {
    let mut out = vec![0; COUNT * length];
    around(move |place, count| (contender.write)(place, black_box(&mut out[..count * length]), length))
}

/// One form by all, after each has written the same texts and read the same sum.
fn compared(form: usize, java: &[java::Told]) -> Result<[Line; 2], String> {
    let by = contenders(&stamps(form));
    let length = SECONDS_END + FORMS[form].len();
    let right = texts(&by[0], length);
    let all = Texts {
        bytes: right.as_ptr(),
        length,
        count: COUNT,
    };
    let sum = (by[0].read)(all);
    let agree = |contender: &&Contender| texts(contender, length) == right && (contender.read)(all) == sum;
    let [of_read, of_write] = ["read", "write"].map(|op| told(java, op, form));
    let java_agrees =
        of_read.is_none_or(|told| told.sum == sum) && of_write.is_none_or(|told| told.sum == hashed(&right, length));
    if by.iter().filter(agree).count() < by.len() || !java_agrees {
        return Err(format!("stamps with {} differ\nnothing is measured", FORMS[form]));
    }
    let reads = by.iter().map(|one| reading(one, &right, length)).collect();
    let writes = by.iter().map(|one| writing(one, length)).collect();
    Ok([
        line("read", form, &by, reads, of_read),
        line("write", form, &by, writes, of_write),
    ])
}

fn told<'a>(java: &'a [java::Told], op: &str, form: usize) -> Option<&'a java::Told> {
    let name = format!("{op}_{}", FORMS[form]);
    java.iter().find(|told| told.op == name)
}

fn line(op: &str, form: usize, by: &[Contender], mut calls: Vec<Calls>, java: Option<&java::Told>) -> Line {
    let timings = interleaved(&mut calls);
    let ours = timings[0].nanos;
    let names = by.iter().map(|one| one.name.to_string());
    let of_java = java.map(|told| {
        let (nanos, ratio) = (told.nanos, told.nanos / ours);
        (java::NAME.to_string(), Timing { nanos, ratio })
    });
    Line {
        label: format!("{op} ..T07:05:09{}", FORMS[form]),
        cells: names.zip(timings).chain(of_java).collect(),
    }
}

/// The table, or what does not agree.
pub fn table() -> Result<String, String> {
    let java = java::told("Stamps", SEED, COUNT);
    let mut lines = Vec::new();
    for form in 0..FORMS.len() {
        lines.extend(compared(form, &java)?);
    }
    lines.sort_by_key(|line| line.label.starts_with("write"));
    Ok(printed(&lines))
}

fn printed(lines: &[Line]) -> String {
    let mut table = "Stamps, ns a call, and how many times ours\n".to_string();
    let names = lines[0].cells.iter().map(|(name, _)| name);
    let headings = names
        .enumerate()
        .map(|(number, name)| columns(number, name, ' ', "x ours"));
    table += &table_row("", headings);
    for line in lines {
        let cells = line.cells.iter().enumerate().map(|(number, (_, timing))| {
            let (nanos, ratio) = (format!("{:.1}", timing.nanos), format!("x{:.2}", timing.ratio));
            columns(number, &nanos, ' ', &ratio)
        });
        table += &table_row(&line.label, cells);
    }
    table
}
