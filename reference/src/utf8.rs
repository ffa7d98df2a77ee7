//! RFC 3629: is a byte string UTF-8, and if not, where is its first bad sequence?

/// The first byte of the first bad sequence, if there is one (01 Reading, row 3).
pub fn first_bad(bytes: &[u8]) -> Option<usize> {
    let mut at = 0;
    while at < bytes.len() {
        at += match sequence_length(&bytes[at..]) {
            Some(length) => length,
            None => return Some(at),
        };
    }
    None
}

/// The length of the well-formed sequence at the start of `bytes`, by the
/// table of RFC 3629 section 4. Only the second byte's range depends on the
/// first byte; all later ones are 80..BF.
fn sequence_length(bytes: &[u8]) -> Option<usize> {
    let (length, low, high) = match bytes[0] {
        0x00..=0x7f => return Some(1),
        0xc2..=0xdf => (2, 0x80, 0xbf),
        0xe0 => (3, 0xa0, 0xbf),
        0xe1..=0xec | 0xee..=0xef => (3, 0x80, 0xbf),
        0xed => (3, 0x80, 0x9f),
        0xf0 => (4, 0x90, 0xbf),
        0xf1..=0xf3 => (4, 0x80, 0xbf),
        0xf4 => (4, 0x80, 0x8f),
        _ => return None,
    };
    let rest = bytes.get(1..length)?;
    let second_fits = (low..=high).contains(&rest[0]);
    let others_fit = rest[1..].iter().all(|byte| (0x80..=0xbf).contains(byte));
    (second_fits && others_fit).then_some(length)
}

/// How many code points a well-formed text holds: one for each byte that does
/// not continue a sequence.
pub fn code_points(text: &[u8]) -> usize {
    text.iter().filter(|byte| **byte & 0xc0 != 0x80).count()
}

#[cfg(test)]
mod tests {
    use super::*;

    fn by_std(bytes: &[u8]) -> Option<usize> {
        std::str::from_utf8(bytes)
            .err()
            .map(|error| error.valid_up_to())
    }

    #[test]
    fn agrees_with_std_on_all_short_strings() {
        for a in 0..=255u8 {
            assert_eq!(first_bad(&[a]), by_std(&[a]));
            for b in 0..=255u8 {
                assert_eq!(first_bad(&[a, b]), by_std(&[a, b]));
                for c in [0x00, 0x22, 0x7f, 0x80, 0x9f, 0xa0, 0xbf, 0xc0, 0xff] {
                    assert_eq!(first_bad(&[a, b, c]), by_std(&[a, b, c]));
                    for d in [0x22, 0x7f, 0x80, 0xbf, 0xc0] {
                        let bytes = [b'x', a, b, c, d];
                        assert_eq!(first_bad(&bytes), by_std(&bytes));
                    }
                }
            }
        }
    }

    #[test]
    fn place_is_the_first_byte_of_the_sequence() {
        assert_eq!(first_bad(b"ab\xe3\x81"), Some(2));
        assert_eq!(first_bad(b"ab\xe3\x81\x82"), None);
        assert_eq!(first_bad(b"a\xed\xa0\x80"), Some(1));
        assert_eq!(first_bad(b"\xf4\x90\x80\x80"), Some(0));
        assert_eq!(first_bad(b""), None);
    }

    #[test]
    fn counts_code_points() {
        assert_eq!(code_points("aé語😀".as_bytes()), 4);
        assert_eq!(code_points(b""), 0);
    }
}
