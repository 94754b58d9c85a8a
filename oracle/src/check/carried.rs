//! What a part carries of a record, by the brackets of the specification's table.

use crate::calendar::Fields;

const SECOND: u64 = 1_000_000_000;

/// The unit, in the order of ParseUnit, and the value; none where the run carries none.
pub fn carried(symbol: u8, count: usize, fields: &Fields) -> Option<(usize, i64)> {
    let second = fields.nanoseconds / SECOND;
    let hour = second / 3600;
    let (unit, value) = match symbol {
        b'y' => (0, i64::from(fields.year)),
        b'M' if count != 5 => (1, i64::from(fields.month)),
        b'd' => (2, i64::from(fields.day)),
        b'D' => (3, i64::from(fields.day_of_year)),
        b'H' | b'k' => (4, hour as i64),
        b'a' | b'b' => (5, hour as i64 / 12),
        b'h' | b'K' => (6, hour as i64 % 12),
        b'm' => (7, (second / 60 % 60) as i64),
        b's' => (8, (second % 60) as i64),
        b'n' => part_of_a_second(count, fields.nanoseconds % SECOND),
        b'X' | b'x' => (14, i64::from(offset(count, fields.offset))),
        _ => return None,
    };
    Some((unit, value))
}

fn part_of_a_second(count: usize, nanoseconds: u64) -> (usize, i64) {
    let (unit, size) = match count {
        1 => (9, 100_000_000),
        2 => (10, 10_000_000),
        4 => (12, 1000),
        5 => (13, 1),
        _ => (11, 1_000_000),
    };
    (unit, (nanoseconds / size) as i64)
}

/// Cut to minutes toward zero where no seconds are written.
fn offset(count: usize, offset: i32) -> i32 {
    match count {
        4 | 5 => offset,
        _ => offset / 60 * 60,
    }
}
