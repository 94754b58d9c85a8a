//! Byte strings as words: two lowercase digits a byte, `-` for no bytes.

const DIGITS: &[u8; 16] = b"0123456789abcdef";

pub fn encoded(bytes: &[u8]) -> String {
    if bytes.is_empty() {
        return "-".to_string();
    }
    let digit = |value: u8| char::from(DIGITS[usize::from(value)]);
    let mut word = String::with_capacity(2 * bytes.len());
    for byte in bytes {
        word.push(digit(byte / 16));
        word.push(digit(byte % 16));
    }
    word
}

/// None where the word is no byte string.
pub fn decoded(word: &[u8]) -> Option<Vec<u8>> {
    if word == b"-" {
        return Some(Vec::new());
    }
    let pairs = word.chunks_exact(2);
    if word.is_empty() || !pairs.remainder().is_empty() {
        return None;
    }
    pairs.map(|pair| Some(16 * value(pair[0])? + value(pair[1])?)).collect()
}

fn value(digit: u8) -> Option<u8> {
    match digit {
        b'0'..=b'9' => Some(digit - b'0'),
        b'a'..=b'f' => Some(digit - b'a' + 10),
        _ => None,
    }
}

#[cfg(test)]
mod tests {
    use super::{decoded, encoded};

    #[test]
    fn every_byte_comes_back() {
        let bytes: Vec<u8> = (0..=255).collect();
        assert_eq!(decoded(encoded(&bytes).as_bytes()), Some(bytes));
        assert_eq!(encoded(&[0, 0x9f, 0xa0, 255]), "009fa0ff");
        assert_eq!((encoded(&[]), decoded(b"-")), ("-".to_string(), Some(Vec::new())));
    }

    #[test]
    fn other_words_are_no_byte_strings() {
        for word in ["", "7", "7A", "7g", "--", "-7", " 7", "7/", "7:", "7`", "797"] {
            assert_eq!(decoded(word.as_bytes()), None, "{word}");
        }
    }
}
