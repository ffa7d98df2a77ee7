//! RFC 7159 to a depth of eight and a ceiling of values: one walk from left to
//! right that builds a tree with the place of every value and counts them, or
//! stops at the first byte that cannot be.

use crate::escapes;

/// Arrays and objects may hold each other to this depth (01 Reading).
pub const MAX_DEPTH: usize = 8;

/// The bytes that a value may begin with.
const FIRST_BYTES: &[u8] = b"{[\"-0123456789ntf";

/// A whole JSON text.
#[derive(Debug, Clone, PartialEq, Eq)]
pub struct Text {
    pub outermost: Value,
    /// The outermost value, every element and every member's value (02 §9).
    pub count: u32,
}

/// A value and the bytes `start..end` it stands on.
#[derive(Debug, Clone, PartialEq, Eq)]
pub struct Value {
    pub start: usize,
    pub end: usize,
    pub kind: Kind,
}

#[derive(Debug, Clone, PartialEq, Eq)]
pub enum Kind {
    Null,
    True,
    False,
    Number,
    String,
    Array(Vec<Value>),
    Object(Vec<Member>),
}

#[derive(Debug, Clone, PartialEq, Eq)]
pub struct Member {
    pub name: Span,
    pub value: Value,
}

/// A string's place, both quotes included.
#[derive(Debug, Clone, Copy, PartialEq, Eq)]
pub struct Span {
    pub start: usize,
    pub end: usize,
}

/// Why the walk stopped, and where (01 Reading, rows 4 and 5, and 02 §9's 11).
#[derive(Debug, Clone, Copy, PartialEq, Eq)]
pub enum Fault {
    NotJson(usize),
    TooDeep(usize),
    TooMany(usize),
}

impl Fault {
    /// The row's number and the place.
    pub fn row(self) -> (u8, usize) {
        match self {
            Fault::NotJson(place) => (4, place),
            Fault::TooDeep(place) => (5, place),
            Fault::TooMany(place) => (11, place),
        }
    }
}

impl Value {
    /// The bytes of the value as they stand in the message.
    pub fn raw<'a>(&self, message: &'a [u8]) -> &'a [u8] {
        &message[self.start..self.end]
    }

    /// The bytes between a string's quotes as they stand; nothing for another
    /// kind.
    pub fn spelled<'a>(&self, message: &'a [u8]) -> Option<&'a [u8]> {
        match self.kind {
            Kind::String => Some(&message[self.start + 1..self.end - 1]),
            _ => None,
        }
    }

    /// A string's text; nothing if it is broken, or for another kind.
    pub fn text(&self, message: &[u8]) -> Option<Vec<u8>> {
        escapes::text(self.spelled(message)?)
    }

    pub fn array(&self) -> Option<&[Value]> {
        match &self.kind {
            Kind::Array(elements) => Some(elements),
            _ => None,
        }
    }

    pub fn object(&self) -> Option<&[Member]> {
        match &self.kind {
            Kind::Object(members) => Some(members),
            _ => None,
        }
    }
}

impl Span {
    /// The string's text; nothing if it is broken.
    pub fn text(&self, message: &[u8]) -> Option<Vec<u8>> {
        escapes::text(&message[self.start + 1..self.end - 1])
    }
}

/// Reads a whole JSON text of no more values than the ceiling.
pub fn parse(bytes: &[u8], ceiling: u32) -> Result<Text, Fault> {
    let mut walker = Walker::new(bytes, ceiling);
    let outermost = walker.text()?;
    Ok(Text {
        outermost,
        count: walker.begun,
    })
}

/// How many values begin until the walk stops, whatever stops it.
pub fn begun(bytes: &[u8]) -> u32 {
    let mut walker = Walker::new(bytes, u32::MAX);
    let _ = walker.text();
    walker.begun
}

/// The walk. All bytes before `at` begin some JSON text, so the place of a
/// fault is always `at`: the offending byte, or the length at the end.
struct Walker<'a> {
    bytes: &'a [u8],
    at: usize,
    ceiling: u32,
    /// The values that have begun: never more than the ceiling.
    begun: u32,
}

impl<'a> Walker<'a> {
    fn new(bytes: &'a [u8], ceiling: u32) -> Self {
        Walker {
            bytes,
            at: 0,
            ceiling,
            begun: 0,
        }
    }

    fn peek(&self) -> Option<u8> {
        self.bytes.get(self.at).copied()
    }

    fn not_json(&self) -> Fault {
        Fault::NotJson(self.at)
    }

    /// Steps over the next byte if it is `wanted`.
    fn take(&mut self, wanted: u8) -> bool {
        let there = self.peek() == Some(wanted);
        if there {
            self.at += 1;
        }
        there
    }

    fn expect(&mut self, wanted: u8) -> Result<(), Fault> {
        if self.take(wanted) {
            Ok(())
        } else {
            Err(self.not_json())
        }
    }

    fn skip_space(&mut self) {
        while let Some(b' ' | b'\t' | b'\n' | b'\r') = self.peek() {
            self.at += 1;
        }
    }

    /// White space, one value, white space.
    fn text(&mut self) -> Result<Value, Fault> {
        self.skip_space();
        let value = self.value(0)?;
        self.skip_space();
        match self.peek() {
            None => Ok(value),
            Some(_) => Err(self.not_json()),
        }
    }

    /// A value inside `depth` open arrays and objects.
    fn value(&mut self, depth: usize) -> Result<Value, Fault> {
        let start = self.at;
        let kind = match self.begin(depth)? {
            b'{' => Kind::Object(self.list(b'}', depth, Self::member)?),
            b'[' => Kind::Array(self.list(b']', depth, Self::value)?),
            b'"' => {
                self.string()?;
                Kind::String
            }
            b'n' => self.literal(b"null", Kind::Null)?,
            b't' => self.literal(b"true", Kind::True)?,
            b'f' => self.literal(b"false", Kind::False)?,
            _ => {
                self.number()?;
                Kind::Number
            }
        };
        Ok(Value {
            start,
            end: self.at,
            kind,
        })
    }

    /// Counts the value that begins here and shows its first byte: unless none
    /// begins, or a ninth bracket does, or it is one too many, in this order.
    fn begin(&mut self, depth: usize) -> Result<u8, Fault> {
        let first = self.peek().filter(|byte| FIRST_BYTES.contains(byte));
        let first = first.ok_or(self.not_json())?;
        if depth == MAX_DEPTH && matches!(first, b'{' | b'[') {
            return Err(Fault::TooDeep(self.at));
        }
        if self.begun == self.ceiling {
            return Err(Fault::TooMany(self.at));
        }
        self.begun += 1;
        Ok(first)
    }

    /// An object's members or an array's elements, from bracket to bracket.
    fn list<T>(
        &mut self,
        close: u8,
        depth: usize,
        item: fn(&mut Self, usize) -> Result<T, Fault>,
    ) -> Result<Vec<T>, Fault> {
        let mut items = Vec::new();
        self.at += 1;
        self.skip_space();
        if self.take(close) {
            return Ok(items);
        }
        loop {
            items.push(item(self, depth + 1)?);
            self.skip_space();
            if !self.take(b',') {
                self.expect(close)?;
                return Ok(items);
            }
            self.skip_space();
        }
    }

    fn member(&mut self, depth: usize) -> Result<Member, Fault> {
        let name = self.string()?;
        self.skip_space();
        self.expect(b':')?;
        self.skip_space();
        let value = self.value(depth)?;
        Ok(Member { name, value })
    }

    /// RFC 7159 section 7. Bytes of 80 and above were judged by `utf8`.
    fn string(&mut self) -> Result<Span, Fault> {
        let start = self.at;
        self.expect(b'"')?;
        loop {
            match self.peek() {
                Some(b'"') => {
                    self.at += 1;
                    return Ok(Span {
                        start,
                        end: self.at,
                    });
                }
                Some(b'\\') => self.escape()?,
                Some(0x20..) => self.at += 1,
                _ => return Err(self.not_json()),
            }
        }
    }

    fn escape(&mut self) -> Result<(), Fault> {
        self.expect(b'\\')?;
        match self.peek() {
            Some(b'"' | b'\\' | b'/' | b'b' | b'f' | b'n' | b'r' | b't') => self.at += 1,
            Some(b'u') => {
                self.at += 1;
                for _ in 0..4 {
                    self.one_of(u8::is_ascii_hexdigit)?;
                }
            }
            _ => return Err(self.not_json()),
        }
        Ok(())
    }

    /// RFC 7159 section 6.
    fn number(&mut self) -> Result<(), Fault> {
        self.take(b'-');
        if !self.take(b'0') {
            self.digits()?;
        }
        if self.take(b'.') {
            self.digits()?;
        }
        if self.take(b'e') || self.take(b'E') {
            if !self.take(b'+') {
                self.take(b'-');
            }
            self.digits()?;
        }
        Ok(())
    }

    /// One or more digits.
    fn digits(&mut self) -> Result<(), Fault> {
        self.one_of(u8::is_ascii_digit)?;
        while let Some(b'0'..=b'9') = self.peek() {
            self.at += 1;
        }
        Ok(())
    }

    fn literal(&mut self, word: &[u8], kind: Kind) -> Result<Kind, Fault> {
        for byte in word {
            self.expect(*byte)?;
        }
        Ok(kind)
    }

    fn one_of(&mut self, class: fn(&u8) -> bool) -> Result<(), Fault> {
        if self.peek().is_some_and(|byte| class(&byte)) {
            self.at += 1;
            Ok(())
        } else {
            Err(self.not_json())
        }
    }
}

#[cfg(test)]
mod tests {
    use super::Fault::{NotJson, TooDeep, TooMany};
    use super::*;

    /// The outermost value where no ceiling is in the way.
    fn parse(bytes: &[u8]) -> Result<Value, Fault> {
        super::parse(bytes, u32::MAX).map(|text| text.outermost)
    }

    /// The count under a ceiling.
    fn count(text: &[u8], ceiling: u32) -> Result<u32, Fault> {
        super::parse(text, ceiling).map(|text| text.count)
    }

    fn fault(text: &str) -> Option<Fault> {
        parse(text.as_bytes()).err()
    }

    #[test]
    fn accepts_every_kind_at_the_top() {
        for text in [
            "null",
            "true",
            "false",
            "0",
            "-0",
            "10",
            "-1.50",
            "1e5",
            "1E+05",
            "0.0e-9",
            "\"\"",
            "[]",
            "{}",
            " \t\r\n[ ]\n",
            "[1,2]",
            "{\"a\":1,\"a\":[{}]}",
            "\"\\\"\\\\\\/\\b\\f\\n\\r\\t\\u00aF\\ud800\"",
            "\"\u{7f}\u{2028}\"",
        ] {
            assert_eq!(fault(text), None, "{text}");
        }
    }

    #[test]
    fn places_of_what_is_not_json() {
        for (text, place) in [
            ("", 0),
            ("  ", 2),
            ("[01]", 2),
            ("01", 1),
            ("-01", 2),
            ("-", 1),
            ("-a", 1),
            ("+1", 0),
            (".5", 0),
            ("1.", 2),
            ("[1.]", 3),
            ("1.e1", 2),
            ("1e", 2),
            ("1e+", 3),
            ("1e+-1", 3),
            ("1.5.2", 3),
            ("nul!", 3),
            ("nul", 3),
            ("nulll", 4),
            ("tRue", 1),
            ("falsy", 4),
            ("True", 0),
            ("\"abc", 4),
            ("\"a\u{1f}\"", 2),
            ("\"a\n\"", 2),
            ("\"\\x\"", 2),
            ("\"\\", 2),
            ("\"\\u12g4\"", 5),
            ("\"\\u12\"", 5),
            ("[", 1),
            ("[1", 2),
            ("[1 2]", 3),
            ("[1,]", 3),
            ("[,1]", 1),
            ("[1}", 2),
            ("]", 0),
            ("{", 1),
            ("{,", 1),
            ("{a", 1),
            ("{\"a\"", 4),
            ("{\"a\" 1}", 5),
            ("{\"a\":", 5),
            ("{\"a\":}", 5),
            ("{\"a\":1,}", 7),
            ("{\"a\":1]", 6),
            ("{[", 1),
            ("[] x", 3),
            ("[][]", 2),
            ("\u{feff}[]", 0),
            ("[\u{a0}]", 1),
        ] {
            assert_eq!(fault(text), Some(NotJson(place)), "{text:?}");
        }
    }

    #[test]
    fn depth_eight_and_nine() {
        assert_eq!(fault("[[[[[[[[]]]]]]]]"), None);
        assert_eq!(fault("[[[[[[[[["), Some(TooDeep(8)));
        assert_eq!(fault("[[[[[[[[ {"), Some(TooDeep(9)));
        assert_eq!(fault("[{\"a\":[{\"a\":[{\"a\":[{\"a\":1}]}]}]}]"), None);
        assert_eq!(
            fault("[{\"a\":[{\"a\":[{\"a\":[{\"a\":[]"),
            Some(TooDeep(24))
        );
        // Brackets side by side are not nested.
        assert_eq!(fault("[[[[[[[[],[],[]]]]]]]]"), None);
        // Where no value may stand a bracket is not one that opens.
        assert_eq!(fault("[[[[[[[[1["), Some(NotJson(9)));
        assert_eq!(fault("[[[[[[[{["), Some(NotJson(8)));
        // The earlier place wins.
        assert_eq!(fault("[x[[[[[[[["), Some(NotJson(1)));
        assert_eq!(fault("[[[[[[[[[x"), Some(TooDeep(8)));
    }

    #[test]
    fn every_cut_of_a_text_stops_short_at_its_length() {
        let text = br#"[{"a":[-1.5e+3,true,null,false],"\u00e9\n":"x"},{}]"#;
        for length in 0..text.len() {
            assert_eq!(parse(&text[..length]), Err(NotJson(length)));
        }
        assert!(parse(text).is_ok());
    }

    /// Does the walk reach the end of this text without a fault before it?
    fn begins_a_text(text: &[u8]) -> bool {
        match parse(text) {
            Ok(_) => true,
            Err(fault) => fault == NotJson(text.len()),
        }
    }

    /// Can this text be gone on with until it is JSON?
    fn can_be_completed(prefix: &[u8]) -> bool {
        let mut text = prefix.to_vec();
        while parse(&text).is_err() {
            let next = b"\"]}:0".iter().find(|byte| {
                let longer = [&text[..], &[**byte]].concat();
                begins_a_text(&longer)
            });
            match next {
                Some(byte) => text.push(*byte),
                None => return false,
            }
        }
        true
    }

    /// All texts of up to `length` bytes of the alphabet.
    fn all_texts(alphabet: &[u8], length: u32) -> Vec<Vec<u8>> {
        let mut all = vec![Vec::new()];
        let mut last = all.clone();
        for _ in 0..length {
            let longer = |text: &Vec<u8>| -> Vec<Vec<u8>> {
                let each = alphabet.iter();
                each.map(|byte| [&text[..], &[*byte]].concat()).collect()
            };
            last = last.iter().flat_map(longer).collect();
            all.extend_from_slice(&last);
        }
        all
    }

    /// Row 4 by its own words, on all short texts: what stands before the
    /// place can be completed, and with the byte at the place no text goes on.
    #[test]
    fn places_mean_what_the_paper_says() {
        let all = all_texts(b"[]{}\":,0-", 5);
        let valid = all.iter().filter(|text| parse(text).is_ok());
        let prefixes: std::collections::HashSet<&[u8]> = valid
            .flat_map(|text| (0..=text.len()).map(|length| &text[..length]))
            .collect();
        for text in &all {
            if let Err(NotJson(place)) = parse(text) {
                assert!(can_be_completed(&text[..place]), "{text:?}");
                if place < text.len() {
                    assert!(!prefixes.contains(&text[..=place]), "{text:?}");
                }
            }
        }
    }

    #[test]
    fn names_are_not_counted() {
        for (text, wanted) in [
            ("1", 1),
            (" \"[1,2]\" ", 1),
            ("[]", 1),
            ("{}", 1),
            ("[1]", 2),
            ("[1,2]", 3),
            ("{\"a\":1}", 2),
            ("{\"a\":1,\"a\":{}}", 3),
            ("[[],[[]],{\"a\":[null]}]", 7),
            ("[[[[[[[[]]]]]]]]", 8),
        ] {
            assert_eq!(count(text.as_bytes(), u32::MAX), Ok(wanted), "{text}");
            assert_eq!(count(text.as_bytes(), wanted), Ok(wanted), "{text}");
        }
    }

    #[test]
    fn values_under_a_ceiling() {
        for (text, ceiling, wanted) in [
            ("1", 0, Err(TooMany(0))),
            (" []", 0, Err(TooMany(1))),
            (" ", 0, Err(NotJson(1))),
            ("", 0, Err(NotJson(0))),
            ("x", 0, Err(NotJson(0))),
            ("]", 0, Err(NotJson(0))),
            ("[]", 1, Ok(1)),
            ("[]x", 1, Err(NotJson(2))),
            ("[1,2]", 3, Ok(3)),
            ("[1,2]", 2, Err(TooMany(3))),
            ("[1,2]", 1, Err(TooMany(1))),
            ("[1 1]", 1, Err(TooMany(1))),
            ("[1 1]", 2, Err(NotJson(3))),
            ("[1,]", 2, Err(NotJson(3))),
            ("[1,", 2, Err(NotJson(3))),
            ("[ \t-", 1, Err(TooMany(3))),
            ("{\"a\":1}", 2, Ok(2)),
            ("{\"a\":1}", 1, Err(TooMany(5))),
            ("{\"a\"1}", 1, Err(NotJson(4))),
            ("{1", 1, Err(NotJson(1))),
            ("{\"a", 1, Err(NotJson(3))),
            // What begins as a value need not be one.
            ("[tx", 1, Err(TooMany(1))),
            ("[tx", 2, Err(NotJson(2))),
            ("\"\u{1}", 0, Err(TooMany(0))),
        ] {
            let text_count = count(text.as_bytes(), ceiling);
            assert_eq!(text_count, wanted, "{text} at {ceiling}");
        }
    }

    #[test]
    fn a_ninth_bracket_comes_before_one_value_too_many() {
        for text in ["[[[[[[[[[", "[[[[[[[[{"] {
            for (ceiling, wanted) in [(7, TooMany(7)), (8, TooDeep(8)), (9, TooDeep(8))] {
                assert_eq!(count(text.as_bytes(), ceiling), Err(wanted), "{text}");
            }
        }
        assert_eq!(count(b"[[[[[[[[1", 8), Err(TooMany(8)));
        assert_eq!(count(b"[[[[[[[[1,[", 9), Err(TooDeep(10)));
    }

    /// Twice the count is the bytes plus one: no text has more values (02 §9).
    #[test]
    fn as_many_values_as_the_bytes_allow() {
        let open = format!("[{}1", "1,".repeat(16_383));
        assert_eq!(open.len(), 32_768);
        assert_eq!(count(open.as_bytes(), 16_384), Err(TooMany(32_767)));
        assert_eq!(count(open.as_bytes(), 16_385), Err(NotJson(32_768)));
        let closed = format!("[{}1]", "1,".repeat(16_382));
        assert_eq!(closed.len(), 32_767);
        assert_eq!(count(closed.as_bytes(), 16_383), Err(TooMany(32_765)));
        assert_eq!(count(closed.as_bytes(), 16_384), Ok(16_384));
    }

    /// The values of a tree, one by one.
    fn values(value: &Value) -> u32 {
        let inner: u32 = match &value.kind {
            Kind::Array(elements) => elements.iter().map(values).sum(),
            Kind::Object(members) => members.iter().map(|member| values(&member.value)).sum(),
            _ => 0,
        };
        1 + inner
    }

    /// 11 by its own words, on all short texts: as many values as the ceiling
    /// have begun before the place, and one more begins there. Where no value
    /// is too many the ceiling changes nothing.
    #[test]
    fn ceilings_mean_what_the_paper_says() {
        for text in all_texts(b"[]{}\":,0t", 5) {
            let all = begun(&text);
            for ceiling in 0..all {
                let Err(TooMany(place)) = count(&text, ceiling) else {
                    panic!("{text:?} at {ceiling}");
                };
                assert_eq!(begun(&text[..place]), ceiling, "{text:?}");
                assert_eq!(begun(&text[..=place]), ceiling + 1, "{text:?}");
            }
            let free = super::parse(&text, u32::MAX);
            assert_eq!(super::parse(&text, all), free, "{text:?}");
            if let Ok(read) = free {
                assert_eq!(read.count, values(&read.outermost));
                assert!(2 * read.count as usize <= text.len() + 1);
            }
        }
    }

    #[test]
    fn values_know_their_places() {
        let text = br#" [ "a\/" , {"\u006b":12} ] "#;
        let value = parse(text).unwrap();
        let elements = value.array().unwrap();
        assert_eq!(value.raw(text), &text[1..text.len() - 1]);
        assert_eq!(elements[0].spelled(text), Some(&b"a\\/"[..]));
        assert_eq!(elements[0].text(text), Some(b"a/".to_vec()));
        assert_eq!(elements[1].raw(text), br#"{"\u006b":12}"#);
        let member = &elements[1].object().unwrap()[0];
        assert_eq!(member.name.text(text), Some(b"k".to_vec()));
        assert_eq!(member.value.raw(text), b"12");
        assert_eq!(member.value.spelled(text), None);
        assert_eq!(member.value.text(text), None);
    }
}
