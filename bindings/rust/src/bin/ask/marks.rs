//! What fills a lent output or row before a call, so that it shows what the call altered.

/// An entry of a row that no call lays there.
pub const ENTRY: i64 = i64::MIN;

/// The byte of an output at a place: none of a text, and another one than its neighbours'.
fn mark(place: usize) -> u8 {
    128 + (place % 127) as u8
}

pub fn filled(room: usize) -> Vec<u8> {
    (0..room).map(mark).collect()
}

/// The first place from the given one on whose byte is not the one that filled it.
pub fn first_altered(out: &[u8], from: usize) -> Option<usize> {
    (from..out.len()).find(|place| out[*place] != mark(*place))
}

#[cfg(test)]
mod tests {
    use super::{filled, first_altered};

    #[test]
    fn any_byte_that_is_altered_is_found() {
        let mut out = filled(300);
        assert_eq!(first_altered(&out, 0), None);
        for place in [299, 128, 127, 1, 0] {
            // A neighbour's byte, or one of a text.
            out[place] = if place % 2 == 0 { out[place] ^ 1 } else { b'0' };
            assert_eq!(first_altered(&out, 0), Some(place));
            assert_eq!(first_altered(&out, place), Some(place));
        }
        assert_eq!(first_altered(&out, 2), Some(127));
        assert_eq!(first_altered(&out, 300), None);
    }
}
