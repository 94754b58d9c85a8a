//! Request [12]: patterns mended, which the Rust does not do. A part's own change is read off the specification; whether a digit from
//! the rest can still disturb it is found by trying records on the Rust, as its check is.

mod held;

pub use held::{Ask, MendingTally};

use crate::answer::as_pattern;
use crate::check::is_disturbed;
use crate::choices::Edition;
use crate::limits::{mended_limit, room_limit};
use crate::request::{bytes, hex, number};
use crate::walk::{self, Kind, Part};

/// At a place of the mended pattern these bytes stand where those stood.
#[derive(Clone, Debug, PartialEq, Eq)]
pub struct Change {
    pub place: usize,
    pub old: Vec<u8>,
    pub new: Vec<u8>,
}

#[derive(Clone, Debug, Default, PartialEq, Eq)]
pub struct Mended {
    pub pattern: Vec<u8>,
    pub changes: Vec<Change>,
}

/// How many parts decide whether the first of them is disturbed: each writes a byte at least, and five X look one byte further.
const WINDOW: usize = 3;

/// The mended pattern of one within the limits, however long it is.
pub fn mended(edition: Edition, pattern: &[u8]) -> Mended {
    let parts = walk::split(as_pattern(pattern).expect("a pattern within the limits is ASCII"));
    let own: Vec<Vec<u8>> = parts
        .iter()
        .map(|part| with_own_change(edition, part, &pattern[part.start..][..part.length]))
        .collect();
    let mut mended = Mended::default();
    for (number, part) in parts.iter().enumerate() {
        let old = &pattern[part.start..][..part.length];
        mended.take_part(part.kind, old, &own[number]);
        let end = own.len().min(number + WINDOW);
        if is_disturbed(edition, &own[number..end].concat()) {
            mended.put(b"", spaces_behind(&own[number]));
        }
    }
    mended
}

/// "In edition 1 single M becomes MM. In both, yy becomes yyyy, five or six y become seven, an unclosed quote that ends in an escaped
/// quote is closed."
fn with_own_change(edition: Edition, part: &Part, bytes: &[u8]) -> Vec<u8> {
    match (part.kind, bytes) {
        (Kind::Run, b"M") if edition == Edition::First => b"MM".to_vec(),
        (Kind::Run, b"yy") => b"yyyy".to_vec(),
        (Kind::Run, b"yyyyy" | b"yyyyyy") => b"yyyyyyy".to_vec(),
        // A quote inside is always an escaped one, so that a last one ends such a pair.
        (Kind::Open, [b'\'', .., b'\'']) => [bytes, b"'"].concat(),
        _ => bytes.to_vec(),
    }
}

/// "One space is put in, or two for five X or x."
fn spaces_behind(part: &[u8]) -> &'static [u8] {
    match part {
        b"XXXXX" | b"xxxxx" => b"  ",
        _ => b" ",
    }
}

impl Mended {
    /// A run changes as a whole; of a quoted part the quote behind it is the change.
    fn take_part(&mut self, kind: Kind, old: &[u8], new: &[u8]) {
        if old == new {
            self.pattern.extend(new);
        } else if kind == Kind::Run {
            self.put(old, new);
        } else {
            self.pattern.extend(old);
            self.put(b"", &new[old.len()..]);
        }
    }

    fn put(&mut self, old: &[u8], new: &[u8]) {
        self.changes.push(Change {
            place: self.pattern.len(),
            old: old.to_vec(),
            new: new.to_vec(),
        });
        self.pattern.extend(new);
    }

    pub fn line(&self) -> String {
        let (length, count) = (self.pattern.len(), self.changes.len());
        let mut line = format!("mended {length} {} {count}", hex(&self.pattern));
        for Change { place, old, new } in &self.changes {
            line += &format!(" {place}:{}:{}", hex(old), hex(new));
        }
        line
    }

    /// The mended pattern of an answer, where it is spelled as one.
    pub fn of_line(line: &str) -> Option<Mended> {
        let mut words = line.strip_prefix("mended ")?.split(' ');
        let _length: usize = number(&mut words)?;
        let pattern = bytes(&mut words)?;
        let _count: usize = number(&mut words)?;
        let changes = words.map(change).collect::<Option<_>>()?;
        Some(Mended { pattern, changes }).filter(|mended| mended.line() == line)
    }

    /// With these of its changes undone, from the last to the first; none where one is not there.
    pub fn undone(&self, changes: &[Change]) -> Option<Vec<u8>> {
        let mut pattern = self.pattern.clone();
        for Change { place, old, new } in changes.iter().rev() {
            let end = place + new.len();
            if pattern.get(*place..end)? != new {
                return None;
            }
            pattern.splice(*place..end, old.iter().copied());
        }
        Some(pattern)
    }

    /// Refusals 30 and 5.
    pub fn limit(&self, room: usize) -> Option<String> {
        mended_limit(&self.pattern).or_else(|| room_limit(&self.pattern, room))
    }
}

fn change(word: &str) -> Option<Change> {
    let mut words = word.split(':');
    let change = Change {
        place: number(&mut words)?,
        old: bytes(&mut words)?,
        new: bytes(&mut words)?,
    };
    words.next().is_none().then_some(change)
}
