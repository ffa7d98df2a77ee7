//! A string's text (02 §2): what its spelled bytes, those between the quotes,
//! stand for by RFC 7159 section 7. A lone surrogate stands for no character,
//! and a text that has one is broken.

/// The text in UTF-8; none if it is broken.
pub fn text(spelled: &[u8]) -> Option<Vec<u8>> {
    let (text, whole) = decoded(spelled);
    whole.then_some(text)
}

/// The text before the first lone surrogate, for rules on the first characters
/// alone: a surrogate among these leaves too few of them.
pub fn beginning(spelled: &[u8]) -> Vec<u8> {
    decoded(spelled).0
}

/// The text before the first lone surrogate, and whether that is all of it.
fn decoded(spelled: &[u8]) -> (Vec<u8>, bool) {
    let mut text = Vec::new();
    let whole = letters(spelled).all(|(_, letter)| letter.put(&mut text));
    (text, whole)
}

/// The letters in their order, each with its place among the spelled bytes: that
/// of an escape's backslash, of a pair's first.
pub fn letters(spelled: &[u8]) -> impl Iterator<Item = (usize, Letter)> + '_ {
    let mut place = 0;
    std::iter::from_fn(move || {
        let rest = &spelled[place..];
        // A byte stands for itself, a backslash that begins no escape too: JSON has none.
        let byte = || Some((Letter::Byte(*rest.first()?), 1));
        let (letter, length) = escape(rest).or_else(byte)?;
        place += length;
        Some((place - length, letter))
    })
}

/// What a byte or an escape stands for.
pub enum Letter {
    /// Itself, or its part of a letter of several bytes.
    Byte(u8),
    Point(char),
    /// A surrogate without the other half of its pair.
    Lone,
}

impl Letter {
    /// Puts the letter at the end of a text; says no where it stands for none.
    pub fn put(&self, text: &mut Vec<u8>) -> bool {
        match self {
            Letter::Byte(byte) => text.push(*byte),
            Letter::Point(point) => text.extend(point.encode_utf8(&mut [0; 4]).bytes()),
            Letter::Lone => return false,
        }
        true
    }
}

/// The escape at the start of `spelled`, or the two of a surrogate pair, and
/// the length.
fn escape(spelled: &[u8]) -> Option<(Letter, usize)> {
    let point = match spelled.strip_prefix(b"\\")?.first()? {
        b'"' => '"',
        b'\\' => '\\',
        b'/' => '/',
        b'b' => '\u{8}',
        b'f' => '\u{c}',
        b'n' => '\n',
        b'r' => '\r',
        b't' => '\t',
        _ => return hex_escape(spelled),
    };
    Some((Letter::Point(point), 2))
}

fn hex_escape(spelled: &[u8]) -> Option<(Letter, usize)> {
    const LENGTH: usize = 6;
    let first = unit(spelled)?;
    let units = [first].into_iter().chain(unit(&spelled[LENGTH..]));
    Some(match char::decode_utf16(units).next()? {
        Ok(point) => (Letter::Point(point), LENGTH * point.len_utf16()),
        Err(_) => (Letter::Lone, LENGTH),
    })
}

/// The number of the `\uXXXX` at the start of `spelled`.
fn unit(spelled: &[u8]) -> Option<u16> {
    let digits = spelled.strip_prefix(b"\\u")?.get(..4)?;
    digits.iter().try_fold(0, |unit, digit| {
        let digit = char::from(*digit).to_digit(16)?;
        Some(unit << 4 | digit as u16)
    })
}

#[cfg(test)]
mod tests {
    use super::*;

    /// The whole text, or what stands before the first lone surrogate.
    fn of(spelled: &str) -> Result<String, String> {
        let begun = String::from_utf8(beginning(spelled.as_bytes())).unwrap();
        match text(spelled.as_bytes()) {
            Some(text) => {
                assert_eq!(text, begun.as_bytes());
                Ok(begun)
            }
            None => Err(begun),
        }
    }

    #[test]
    fn texts_without_escapes_are_their_own_bytes() {
        for plain in ["", "a", "u0041", "a/b", "語é\u{7f}\u{10ffff}", "\"\n"] {
            assert_eq!(of(plain), Ok(plain.into()));
        }
        // Of whatever kind they are.
        for bytes in [&b"\xff\x80"[..], b"\xed\xa0\x80", b"\x00\x1f"] {
            assert_eq!(text(bytes).as_deref(), Some(bytes));
        }
    }

    #[test]
    fn escapes_of_two_letters() {
        for (spelled, wanted) in [
            (r#"\""#, "\""),
            (r"\\", "\\"),
            (r"\/", "/"),
            (r"\b\f\n\r\t", "\u{8}\u{c}\n\r\t"),
            (r"text\/plain", "text/plain"),
            // The second backslash begins nothing.
            (r"\\u0041", "\\u0041"),
            (r"\\\u0041", "\\A"),
            (r"\\\\n", "\\\\n"),
        ] {
            assert_eq!(of(spelled), Ok(wanted.into()), "{spelled}");
        }
    }

    #[test]
    fn every_code_point_by_its_number() {
        for unit in 0..=0xffffu32 {
            let spelled = [format!("\\u{unit:04x}"), format!("\\u{unit:04X}")];
            let wanted = char::from_u32(unit).map(String::from);
            for spelled in spelled {
                assert_eq!(of(&spelled).ok(), wanted, "{spelled}");
            }
        }
        assert_eq!(of(r"\u002F\u002f\u00e9\u8A9e"), Ok("//é語".into()));
        assert_eq!(of(r"x\u0000y"), Ok("x\0y".into()));
        assert_eq!(of(r"\u00410"), Ok("A0".into()));
    }

    #[test]
    fn surrogate_pairs_are_one_code_point() {
        for (spelled, wanted) in [
            (r"\ud800\udc00", '\u{10000}'),
            (r"\uD83D\ude00", '\u{1f600}'),
            (r"\udbff\uDFFF", '\u{10ffff}'),
            (r"\ud800\udfff", '\u{103ff}'),
            (r"\udbff\udc00", '\u{10fc00}'),
        ] {
            assert_eq!(of(spelled), Ok(wanted.into()), "{spelled}");
        }
        assert_eq!(of(r"a\ud83d\ude00\u0062"), Ok("a\u{1f600}b".into()));
    }

    #[test]
    fn letters_have_their_places() {
        for (spelled, wanted) in [
            ("", &[][..]),
            ("ab", &[0, 1]),
            (r"a\u0062\/c", &[0, 1, 7, 9]),
            (r"\ud83d\ude00a", &[0, 12]),
            (r"a\ud83d\u0041", &[0, 1, 7]),
            (r"\ud83d\ud83d\ude00", &[0, 6]),
            ("é\\n", &[0, 1, 2]),
            (r"\x", &[0, 1]),
        ] {
            let letters = letters(spelled.as_bytes());
            let places: Vec<usize> = letters.map(|(place, _)| place).collect();
            assert_eq!(places, wanted, "{spelled}");
        }
    }

    #[test]
    fn lone_surrogates_break_a_text() {
        for (spelled, begun) in [
            (r"\ud800", ""),
            (r"\udfff", ""),
            (r"a\udc00b", "a"),
            (r"\udc00\ud800", ""),
            (r"a\ud83dx\ude00", "a"),
            (r"\n\ud83d\u0041", "\n"),
            (r"\ud83d\n", ""),
            (r"\ud83d\\ude00", ""),
            (r"a\ud83d\ud83d\ude00", "a"),
            (r"\ud83d\ude00\ude00", "\u{1f600}"),
            (r"200 \uDBFF", "200 "),
            // What follows the surrogate is no whole escape.
            (r"\ud83d\ude0", ""),
            (r"\ud83d\", ""),
        ] {
            assert_eq!(of(spelled), Err(begun.into()), "{spelled}");
        }
    }

    /// Only bytes that are no JSON string's inside have such backslashes.
    #[test]
    fn backslashes_that_begin_no_escape() {
        for spelled in [
            r"\", r"a\", r"\x41", r"\U0041", r"\u", r"\u004", r"\u00g1", r"\u+041", r"\'", r"\ ",
            r"\0", r"\u 041",
        ] {
            assert_eq!(of(spelled), Ok(spelled.into()), "{spelled}");
        }
        assert_eq!(of(r"\u00\u0041"), Ok(r"\u00A".into()));
        assert_eq!(of(r"\x\n"), Ok("\\x\n".into()));
        assert_eq!(of(r"\u12\ud83d"), Err(r"\u12".into()));
        assert_eq!(text(b"\\\xff\\n").as_deref(), Some(&b"\\\xff\n"[..]));
    }
}
