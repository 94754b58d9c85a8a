//! What mending and undoing alter of what they are lent, as C sees them, and in which order they are refused.

mod lent;

use lent::{left, mend, undo, BYTE, MARK};
use sheet::raw;

const ROW: usize = raw::CHANGES_ROW + 3;

/// The choices that a check takes.
const CHOICES: [u32; 4] = [0, raw::STRICT, raw::SECOND_EDITION, raw::STRICT + raw::SECOND_EDITION];

/// The number returned, with the output, the row of changes and the answer as they are left.
struct Left {
    number: u32,
    out: Vec<u8>,
    changes: Vec<i64>,
    answer: Vec<i64>,
}

fn mended(choices: u32, pattern: &[u8], year: i32, room: usize) -> Left {
    let (mut changes, mut answer) = (vec![MARK; ROW], vec![MARK; 4]);
    let (number, out) = left(room, |out| mend(choices, pattern, year, out, &mut changes, &mut answer));
    Left {
        number,
        out,
        changes,
        answer,
    }
}

/// Some bytes, and marks behind them.
fn marked_behind(bytes: &[u8], room: usize) -> Vec<u8> {
    let mut out = bytes.to_vec();
    out.resize(room, BYTE);
    out
}

#[test]
fn what_a_mending_alters() {
    for choices in CHOICES {
        for room in [6, 7, 300] {
            let left = mended(choices, b"yyd", 2025, room);
            assert_eq!(
                (left.number, &left.answer[..]),
                (raw::ACCEPTED, &[6, 2, MARK, MARK][..])
            );
            assert_eq!(left.out, marked_behind(b"yyyy d", room));
            let listed = [0, b'y'.into(), 2, 4, 4, b' '.into(), 0, 1];
            assert_eq!(left.changes[..8], listed);
            assert_eq!(left.changes[8..raw::CHANGES_ROW], [0; raw::CHANGES_ROW - 8]);
            assert_eq!(left.changes[raw::CHANGES_ROW..], [MARK; 3]);
        }
    }
}

#[test]
fn a_pattern_that_passes_stays() {
    for choices in CHOICES {
        for pattern in [&b""[..], b"d/MM", b"XXXXX5", &[b'/'; 256]] {
            let left = mended(choices, pattern, 2025, 300);
            assert_eq!(left.answer, [pattern.len() as i64, 0, MARK, MARK]);
            assert_eq!(left.out, marked_behind(pattern, 300));
            assert_eq!(left.changes[..raw::CHANGES_ROW], [0; raw::CHANGES_ROW]);
        }
    }
}

/// The details, then 0; no byte and no change, also where the output has one byte too few.
#[test]
fn what_a_refused_mending_alters() {
    let long = [b'd'; 257];
    let too_long = b"dH".repeat(128);
    for (pattern, year, room, refusal) in [
        (&long[..], 0, 0, (raw::PATTERN_TOO_LONG, 257)),
        (b"d\0'", 0, 0, (raw::PATTERN_BYTE, 1)),
        (b"d'", 0, 9, (raw::LONE_QUOTE, 1)),
        (b"d", -5, 9, (raw::CURRENT_YEAR, -5)),
        (&too_long, 0, 9, (raw::CURRENT_YEAR, 0)),
        (&too_long, 2025, 0, (raw::MENDED_TOO_LONG, 0)),
        (&too_long, 2025, 1000, (raw::MENDED_TOO_LONG, 0)),
        (b"yyd", 2025, 0, (raw::NO_ROOM, 6)),
        (b"yyd", 2025, 5, (raw::NO_ROOM, 6)),
        (b"d/MM", 2025, 3, (raw::NO_ROOM, 4)),
    ] {
        let left = mended(0, pattern, year, room);
        assert_eq!((left.number, left.answer[0]), refusal);
        assert_eq!(left.answer[1..], [0, MARK, MARK]);
        assert_eq!((left.out, left.changes), (vec![BYTE; room], vec![MARK; ROW]));
    }
    assert_eq!(mended(raw::SECOND_EDITION, b"yyd", 80, 9).number, raw::CURRENT_YEAR);
}

/// No choices, then a row that is too small, both before all refusals; nothing is altered.
#[test]
fn the_order_of_a_mending() {
    for pattern in [&b"yyd"[..], b"'", &[b'd'; 257]] {
        for (entries, answers) in [(0, 0), (511, 2), (512, 1), (512, 2), (511, 1)] {
            let returned = |choices: u32| {
                let (mut changes, mut answer) = (vec![MARK; entries], vec![MARK; answers]);
                let (number, out) = left(9, |out| mend(choices, pattern, 2025, out, &mut changes, &mut answer));
                if number >= raw::ROW_TOO_SMALL {
                    assert_eq!(
                        (changes, answer, out),
                        (vec![MARK; entries], vec![MARK; answers], vec![BYTE; 9])
                    );
                }
                number
            };
            for choices in [1, 3, 5, 7, 8, 9, 1 << 16, u32::MAX] {
                assert_eq!(returned(choices), raw::NO_SUCH_CHOICE);
            }
            for choices in CHOICES {
                let too_small = entries < raw::CHANGES_ROW || answers < raw::MEND_ANSWER;
                assert_eq!(returned(choices) == raw::ROW_TOO_SMALL, too_small);
            }
        }
    }
}

#[test]
fn what_undoing_alters() {
    let changes = [0, b'y'.into(), 2, 4, 4, b' '.into(), 0, 1];
    for room in [3, 4, 300] {
        let mut answer = [MARK; 4];
        let (number, out) = left(room, |out| undo(b"yyyy d", &changes, out, &mut answer));
        assert_eq!((number, answer), (raw::ACCEPTED, [3, 0, MARK, MARK]));
        assert_eq!(out, marked_behind(b"yyd", room));
    }
    for room in 0..3 {
        let mut answer = [MARK; 4];
        let (number, out) = left(room, |out| undo(b"yyyy d", &changes, out, &mut answer));
        assert_eq!((number, answer), (raw::NO_ROOM, [3, 0, MARK, MARK]));
        assert_eq!(out, vec![BYTE; room]);
    }
}

/// Any row that holds no changes of the pattern, of any length.
#[test]
fn rows_that_do_not_fit() {
    let y = i64::from(b'y');
    let rows: [&[i64]; 16] = [
        &[0],
        &[0, y, 2],
        &[0, y, 2, 4, 4],
        &[0; 516],
        &[0; 511],
        &[-1, y, 2, 4],
        &[0, -1, 0, 0],
        &[0, 256, 0, 0],
        &[0, y + 256, 2, 4],
        &[0, y, -1, 4],
        &[0, y, 0, -1],
        &[0, y, 5, 4],
        &[0, y, 2, i64::MAX],
        &[i64::MAX, y, 0, 0],
        &[i64::MIN, i64::MIN, i64::MIN, i64::MIN],
        &[4, 32, 0, 1, 0, y, 2, 4],
    ];
    for row in rows {
        for room in [0, 9] {
            let mut answer = [MARK; 2];
            let (number, out) = left(room, |out| undo(b"yyyy d", row, out, &mut answer));
            assert_eq!(
                (number, answer, out),
                (raw::MISFIT, [MARK; 2], vec![BYTE; room]),
                "{row:?}"
            );
        }
        for entries in [0, 1] {
            let mut answer = vec![MARK; entries];
            let (number, out) = left(9, |out| undo(b"yyyy d", row, out, &mut answer));
            assert_eq!(
                (number, answer, out),
                (raw::ROW_TOO_SMALL, vec![MARK; entries], vec![BYTE; 9])
            );
        }
    }
}

/// A full row of a pattern that has no change: zeros, each of which fits where nothing stands.
#[test]
fn a_row_of_zeros_undoes_nothing() {
    let mut answer = [MARK; 2];
    let (number, out) = left(4, |out| undo(b"d/MM", &[0; raw::CHANGES_ROW], out, &mut answer));
    assert_eq!((number, answer, &out[..]), (raw::ACCEPTED, [4, 0], &b"d/MM"[..]));
}
