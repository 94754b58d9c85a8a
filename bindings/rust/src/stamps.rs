use crate::explaining::shown;
use crate::{day_of, raw, Day, Fields, Refusal};
use std::str::FromStr;

/// A stamp of RFC 3339, such as `2025-12-03T07:05:09.5+05:30`: a day, a time of that day and an offset.
///
/// [`read_stamp`] and [`FromStr`] read one, [`write_stamp`] writes it. As [`Fields`], with what the calendar says of its day, it is written
/// by a pattern:
///
/// ```
/// use sheet::{Fields, Stamp};
///
/// # fn main() -> Result<(), sheet::Refusal> {
/// let stamp: Stamp = "2025-12-03T07:05:09.5+05:30".parse()?;
/// let fields = Fields::try_from(stamp)?;
/// assert_eq!(sheet::write("eeee, d MMMM, h:mm a XXX", &fields)?, "Wednesday, 3 December, 7:05 AM +05:30");
/// assert_eq!(Stamp::from(fields), stamp);
/// # Ok(())
/// # }
/// ```
#[derive(Clone, Copy, Debug, PartialEq, Eq, Hash)]
pub struct Stamp {
    /// 1 to 9999.
    pub year: i32,
    /// 1 to 12.
    pub month: u32,
    /// 1 to 31, as many as the month has.
    pub day: u32,
    /// Since the start of the day, 0 to 86,399,999,999,999.
    pub nanoseconds: u64,
    /// In seconds east of UTC, -86,340 to 86,340, of whole minutes.
    pub offset: i32,
    /// Whether the offset is unknown: it is written `-00:00`, and is 0.
    pub unknown: bool,
}

impl Stamp {
    fn of_row(row: [i64; raw::RFC_READ_ANSWER]) -> Stamp {
        let [year, month, day, nanoseconds, offset, unknown] = row;
        Stamp {
            year: year as i32,
            month: month as u32,
            day: day as u32,
            nanoseconds: nanoseconds as u64,
            offset: offset as i32,
            unknown: unknown == 1,
        }
    }
}

/// Reads a stamp of RFC 3339, and nothing behind it. A small `t` and a small `z` are taken, and of a fraction the digits past nine are
/// dropped. Refuses with 6, 7, 25 where the text is not of that grammar, 26, 27 for a leap second, 28 for year 0, or 17, the first in
/// this order.
///
/// ```
/// # fn main() -> Result<(), sheet::Refusal> {
/// let stamp = sheet::read_stamp("2025-12-03T07:05:09-00:00")?;
/// assert_eq!((stamp.year, stamp.month, stamp.day), (2025, 12, 3));
/// assert_eq!((stamp.nanoseconds, stamp.offset, stamp.unknown), (25_509_000_000_000, 0, true));
///
/// let number = |text: &str| sheet::read_stamp(text).unwrap_err().number();
/// assert_eq!(number("2025-12-03 07:05:09Z"), 25);
/// assert_eq!(number("2025-12-03T24:00:00Z"), 26);
/// assert_eq!(number("1990-12-31T23:59:60Z"), 27);
/// assert_eq!(number("2025-02-30T00:00:00Z"), 17);
/// # Ok(())
/// # }
/// ```
pub fn read_stamp(text: impl AsRef<[u8]>) -> Result<Stamp, Refusal> {
    let text = text.as_ref();
    let mut answer = [0; raw::RFC_READ_ANSWER];
    // SAFETY: each pointer goes with the length of the slice that it comes from, and what is altered is borrowed alone.
    let number = unsafe { raw::sheet_rfc_read(text.as_ptr(), text.len(), answer.as_mut_ptr(), answer.len()) };
    Refusal::unless_accepted(number, &answer)?;
    Ok(Stamp::of_row(answer))
}

/// Writes a stamp of RFC 3339: with capitals, with nine digits of fraction or, where it is zero, none, and with `Z` for the offset 0. What
/// is written reads as the same stamp. Refuses with 4, 28, 17 or 29, the first in this order.
///
/// ```
/// use sheet::{write_stamp, Stamp};
///
/// # fn main() -> Result<(), sheet::Refusal> {
/// let stamp = Stamp { year: 2025, month: 12, day: 3, nanoseconds: 25_509_000_120_000, offset: 19_800, unknown: false };
/// assert_eq!(write_stamp(&stamp)?, "2025-12-03T07:05:09.000120000+05:30");
///
/// let stamp = Stamp { nanoseconds: 25_509_000_000_000, offset: 0, ..stamp };
/// assert_eq!(write_stamp(&stamp)?, "2025-12-03T07:05:09Z");
/// assert_eq!(write_stamp(&Stamp { unknown: true, ..stamp })?, "2025-12-03T07:05:09-00:00");
/// assert_eq!(write_stamp(&Stamp { offset: 30, ..stamp }).unwrap_err().number(), 29);
/// # Ok(())
/// # }
/// ```
pub fn write_stamp(stamp: &Stamp) -> Result<String, Refusal> {
    let mut out = vec![0; raw::LONGEST_STAMP];
    let length = write_stamp_into(stamp, &mut out)?;
    out.truncate(length);
    Ok(String::from_utf8(out).expect("a stamp is ASCII"))
}

/// Writes a stamp into lent bytes, and answers how many it wrote; those behind them are not altered. Refuses as [`write_stamp`] does,
/// then with 5 where the bytes are too few, of which 35 are always enough; then none is altered.
///
/// ```
/// # fn main() -> Result<(), sheet::Refusal> {
/// let stamp = sheet::read_stamp("2025-12-03t07:05:09z")?;
/// let mut out = *b"......................";
/// assert_eq!(sheet::write_stamp_into(&stamp, &mut out)?, 20);
/// assert_eq!(&out, b"2025-12-03T07:05:09Z..");
/// # Ok(())
/// # }
/// ```
pub fn write_stamp_into(stamp: &Stamp, out: &mut [u8]) -> Result<usize, Refusal> {
    let mut answer = [0; raw::RFC_WRITE_ANSWER];
    // SAFETY: each pointer goes with the length of the slice that it comes from, and what is altered is borrowed alone.
    let number = unsafe {
        raw::sheet_rfc_write(
            stamp.year,
            stamp.month,
            stamp.day,
            stamp.nanoseconds,
            stamp.offset,
            u32::from(stamp.unknown),
            out.as_mut_ptr(),
            out.len(),
            answer.as_mut_ptr(),
            answer.len(),
        )
    };
    Refusal::unless_accepted(number, &answer)?;
    Ok(answer[0] as usize)
}

/// Says of a text that [`read_stamp`] refused what stood there and what was wanted, or which number is out of its range, in one
/// sentence. A refusal of another text, or one that says all, is said as it prints.
///
/// ```
/// let explained = |text: &str| sheet::explain_stamp(text, &sheet::read_stamp(text).unwrap_err());
/// assert_eq!(
///     explained("2025-12-03T07:05:09,5Z"),
///     "the stamp can't go on at `,5Z`: it needs `.` and digits, `Z`, or an offset such as `+05:30`"
/// );
/// assert_eq!(explained("2025-12-03T07:05"), "the stamp ends too soon: it needs `:`");
/// assert_eq!(explained("2025-12-03T24:00:00Z"), "the stamp's hour is 24, not 00 to 23");
/// ```
pub fn explain_stamp(text: impl AsRef<[u8]>, refusal: &Refusal) -> String {
    let text = text.as_ref();
    let sentence = match (refusal.number(), refusal.details()) {
        (raw::NOT_STAMP, &[place]) => where_it_stops(text, place as usize),
        (raw::STAMP_RANGE, _) => out_of_range(text),
        _ => None,
    };
    sentence.unwrap_or_else(|| refusal.to_string())
}

/// The sentence of 25, where the text has such a place.
fn where_it_stops(text: &[u8], place: usize) -> Option<String> {
    let rest = text.get(place..)?;
    let wanted = wanted_at(text, place);
    Some(match rest {
        [] => format!("the stamp ends too soon: it needs {wanted}"),
        _ => format!("the stamp can't go on at {}: it needs {wanted}", shown(rest, 0)),
    })
}

/// Where the date and the time have their signs; all other places up to the last have a digit.
const SIGNS: [(usize, &str); 5] = [(4, "`-`"), (7, "`-`"), (10, "`T`"), (13, "`:`"), (16, "`:`")];
/// How many bytes the date and the time have.
const SECONDS_END: usize = 19;

/// What a stamp has at a place up to which it is one.
fn wanted_at(text: &[u8], place: usize) -> &'static str {
    if place < SECONDS_END {
        let sign = SIGNS.iter().find(|(at, _)| *at == place);
        return sign.map_or("a digit", |(_, sign)| sign);
    }
    let before = &text[SECONDS_END..place];
    let fraction = match before {
        [b'.', digits @ ..] => 1 + digits.iter().take_while(|byte| byte.is_ascii_digit()).count(),
        _ => 0,
    };
    match (fraction, &before[fraction..]) {
        (0, []) => "`.` and digits, `Z`, or an offset such as `+05:30`",
        (1, []) => "a digit",
        (_, []) => "one more digit, `Z`, or an offset such as `+05:30`",
        (_, [b'Z' | b'z']) | (_, [_, _, _, _, _, _]) => "the end",
        (_, [_, _, _]) => "`:`",
        _ => "a digit",
    }
}

/// The sentence of 26, which has no detail: the first number of the stamp that is not in its range.
fn out_of_range(text: &[u8]) -> Option<String> {
    let offset = text.len().checked_sub("+05:30".len())?;
    let numbers = [
        ("stamp's month", 5, 1, 12),
        ("stamp's day", 8, 1, 31),
        ("stamp's hour", 11, 0, 23),
        ("stamp's minute", 14, 0, 59),
        ("stamp's second", 17, 0, 60),
        ("hour of the stamp's offset", offset + 1, 0, 23),
        ("minute of the stamp's offset", offset + 4, 0, 59),
    ];
    let out = numbers.into_iter().find_map(|(name, at, first, last)| {
        let digits = std::str::from_utf8(text.get(at..at + 2)?).ok()?;
        let number: u32 = digits.parse().ok()?;
        (!(first..=last).contains(&number)).then_some((name, digits, first, last))
    });
    let (name, digits, first, last) = out?;
    Some(format!("the {name} is {digits}, not {first:02} to {last}"))
}

impl FromStr for Stamp {
    type Err = Refusal;

    fn from_str(text: &str) -> Result<Stamp, Refusal> {
        read_stamp(text)
    }
}

/// With what the calendar says of the day; whether the offset is unknown is lost. Refuses as [`day_number`](crate::day_number) does.
impl TryFrom<Stamp> for Fields {
    type Error = Refusal;

    fn try_from(stamp: Stamp) -> Result<Fields, Refusal> {
        let Stamp {
            year,
            month,
            day,
            nanoseconds,
            offset,
            unknown: _,
        } = stamp;
        let day: Day = day_of(crate::day_number(year, month, day)?);
        Ok(Fields {
            nanoseconds,
            offset,
            ..day.into()
        })
    }
}

/// With an offset that is known.
impl From<Fields> for Stamp {
    fn from(fields: Fields) -> Stamp {
        Stamp {
            year: fields.year,
            month: fields.month,
            day: fields.day,
            nanoseconds: fields.nanoseconds,
            offset: fields.offset,
            unknown: false,
        }
    }
}
