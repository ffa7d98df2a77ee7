//! Bytes as lower-case hex, `-` for no bytes.

const DIGITS: &[u8; 16] = b"0123456789abcdef";

/// The bytes of a word; none for an odd length, another byte or an empty word.
pub fn decode(word: &[u8]) -> Option<Vec<u8>> {
    if word == b"-" {
        return Some(Vec::new());
    }
    if word.is_empty() {
        return None;
    }
    decode_pairs(word)
}

/// The bytes of pairs of digits alone, so that an empty word is no bytes.
pub fn decode_pairs(word: &[u8]) -> Option<Vec<u8>> {
    if word.len() % 2 != 0 {
        return None;
    }
    let pairs = word.chunks_exact(2);
    pairs
        .map(|pair| Some(digit(pair[0])? << 4 | digit(pair[1])?))
        .collect()
}

fn digit(byte: u8) -> Option<u8> {
    match byte {
        b'0'..=b'9' => Some(byte - b'0'),
        b'a'..=b'f' => Some(byte - b'a' + 10),
        _ => None,
    }
}

/// Puts the word for `bytes` at the end of `out`.
pub fn encode(bytes: &[u8], out: &mut Vec<u8>) {
    if bytes.is_empty() {
        out.push(b'-');
    }
    encode_pairs(bytes, out);
}

/// The pairs of digits alone, so that no bytes are an empty word.
pub fn encode_pairs(bytes: &[u8], out: &mut Vec<u8>) {
    for byte in bytes {
        out.push(DIGITS[usize::from(byte >> 4)]);
        out.push(DIGITS[usize::from(byte & 15)]);
    }
}

#[cfg(test)]
mod tests {
    use super::*;

    #[test]
    fn there_and_back() {
        let all: Vec<u8> = (0..=255).collect();
        for bytes in [&all[..], b"", b"\x00", b"\xff\x0a"] {
            let mut word = Vec::new();
            encode(bytes, &mut word);
            assert_eq!(decode(&word).as_deref(), Some(bytes));
            let mut pairs = Vec::new();
            encode_pairs(bytes, &mut pairs);
            assert_eq!(decode_pairs(&pairs).as_deref(), Some(bytes));
        }
    }

    #[test]
    fn other_words() {
        for word in ["", "0", "0A", "g0", "--", "00 ", " 00", "0x", "000"] {
            assert_eq!(decode(word.as_bytes()), None, "{word}");
            if !word.is_empty() {
                assert_eq!(decode_pairs(word.as_bytes()), None, "{word}");
            }
        }
        assert_eq!(decode_pairs(b""), Some(Vec::new()));
        assert_eq!(decode_pairs(b"-"), None);
        assert_eq!(decode_pairs(b"0aff"), Some(vec![0x0a, 0xff]));
    }
}
