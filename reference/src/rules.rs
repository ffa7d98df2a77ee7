//! The rules of 01 Reading for single texts, whose escapes are decoded (02 §2).

use crate::utf8;

/// The most code points in a Refer-Memo.
const MAX_MEMO: usize = 128;

/// The words that a value may be, each list in the order of 01 Reading.
pub const AVAILABILITIES: [&str; 2] = ["available", "unavailable"];
pub const PRESENCES: [&str; 2] = ["online", "offline"];
pub const CALL_MODES: [&str; 2] = ["emergency", "training"];
pub const RESCUEES: [&str; 2] = ["caller", "third-party"];
pub const SERVICES: [&str; 4] = ["ambulance", "fire", "unknown", "callback"];
/// Values that are no strings, as they are written.
pub const CALL_TESTS: [&str; 2] = ["0", "1"];
pub const SECURE_CALLS: [&str; 2] = ["false", "true"];
/// The members that each Via object has once each.
pub const HOP_MEMBERS: [&str; 3] = ["host", "destination", "organization"];

/// The number of a text among words, counted from 1.
pub fn number_among(words: &[&str], text: &[u8]) -> Option<usize> {
    let index = words.iter().position(|word| word.as_bytes() == text);
    index.map(|index| index + 1)
}

/// The one of this number, counted from 1.
pub fn numbered<T: Copy>(all: &[T], number: usize) -> Option<T> {
    all.get(number.checked_sub(1)?).copied()
}

pub fn is_one_of(words: &[&str], text: &[u8]) -> bool {
    number_among(words, text).is_some()
}

/// The eight methods with their codes (01 Reading, CSeq).
#[derive(Debug, Clone, Copy, PartialEq, Eq, Hash)]
pub enum Method {
    Invite = 1,
    Bye = 2,
    Cancel = 3,
    Ack = 4,
    Message = 5,
    Callback = 6,
    Refer = 7,
    Notify = 8,
}

impl Method {
    /// In the order of their codes.
    pub const ALL: [Method; 8] = [
        Method::Invite,
        Method::Bye,
        Method::Cancel,
        Method::Ack,
        Method::Message,
        Method::Callback,
        Method::Refer,
        Method::Notify,
    ];
    pub const NAMES: [&'static str; 8] = [
        "INVITE", "BYE", "CANCEL", "ACK", "MESSAGE", "CALLBACK", "REFER", "NOTIFY",
    ];

    pub fn of_name(name: &[u8]) -> Option<Method> {
        numbered(&Self::ALL, number_among(&Self::NAMES, name)?)
    }

    pub fn of_code(code: u8) -> Option<Method> {
        numbered(&Self::ALL, code.into())
    }

    pub fn name(self) -> &'static str {
        Self::NAMES[self as usize - 1]
    }

    pub fn code(self) -> u8 {
        self as u8
    }
}

/// What a Content-Type says of the Body. An image comes under two names, that of
/// TS-1022 7.5 and that of 5.11 (02 §14).
#[derive(Debug, Clone, Copy, PartialEq, Eq)]
pub enum ContentType {
    Plain = 1,
    TextImage = 2,
    MessageImage = 3,
    Presence = 4,
    Location = 5,
    Refer = 6,
}

impl ContentType {
    /// A MESSAGE's first, then a NOTIFY's.
    pub const ALL: [ContentType; 6] = [
        ContentType::Plain,
        ContentType::TextImage,
        ContentType::MessageImage,
        ContentType::Presence,
        ContentType::Location,
        ContentType::Refer,
    ];
    pub const NAMES: [&'static str; 6] = [
        "text/plain",
        "text/vnd.net119.uri.image",
        "message/vnd.net119.uri.image",
        "message/vnd.net119.presence",
        "message/vnd.net119.location",
        "message/vnd.net119.refer",
    ];
    pub const IMAGES: [ContentType; 2] = [ContentType::TextImage, ContentType::MessageImage];

    pub fn of_name(name: &[u8]) -> Option<ContentType> {
        numbered(&Self::ALL, number_among(&Self::NAMES, name)?)
    }

    pub fn name(self) -> &'static str {
        Self::NAMES[self as usize - 1]
    }

    /// The type of this name, if it is one that the method allows.
    pub fn of_method(method: Method, name: &[u8]) -> Option<ContentType> {
        let content_type = Self::of_name(name)?;
        let own = match content_type {
            ContentType::Plain | ContentType::TextImage | ContentType::MessageImage => {
                Method::Message
            }
            ContentType::Presence | ContentType::Location | ContentType::Refer => Method::Notify,
        };
        (own == method).then_some(content_type)
    }
}

/// A To or From address.
#[derive(Debug, Clone, Copy, PartialEq, Eq)]
pub enum Address<'a> {
    Caller { user: &'a [u8], fire: &'a [u8] },
    Callee { fire: &'a [u8] },
}

/// CSeq: the number and the method.
pub fn parse_cseq(text: &[u8]) -> Option<(u32, Method)> {
    let space = text.iter().position(|byte| *byte == b' ')?;
    let number = parse_sequence_number(&text[..space])?;
    let method = Method::of_name(&text[space + 1..])?;
    Some((number, method))
}

/// A decimal number from 1 to 4294967295 without a leading zero.
fn parse_sequence_number(digits: &[u8]) -> Option<u32> {
    if digits.first() == Some(&b'0') {
        return None;
    }
    parse_decimal(digits)?.try_into().ok()
}

/// One or more decimal digits whose value is below 2^64.
pub fn parse_decimal(digits: &[u8]) -> Option<u64> {
    if digits.is_empty() {
        return None;
    }
    digits.iter().try_fold(0u64, |value, byte| {
        if !byte.is_ascii_digit() {
            return None;
        }
        value.checked_mul(10)?.checked_add(u64::from(byte - b'0'))
    })
}

/// Length between `low` and `high`, and every byte of the class.
fn made_of(text: &[u8], low: usize, high: usize, class: impl Fn(u8) -> bool) -> bool {
    (low..=high).contains(&text.len()) && text.iter().all(|byte| class(*byte))
}

/// Neither the first nor the last byte of a text that is not empty is of the class.
fn ends_are_not(text: &[u8], class: impl Fn(u8) -> bool) -> bool {
    let ends = [text.first(), text.last()];
    ends.into_iter().all(|end| end.is_some_and(|b| !class(*b)))
}

pub fn is_fire_id(text: &[u8]) -> bool {
    let class = |b: u8| b.is_ascii_lowercase() || b.is_ascii_digit() || b == b'_';
    made_of(text, 2, 15, class) && ends_are_not(text, |b| b == b'_')
}

pub fn is_user_id(text: &[u8]) -> bool {
    made_of(text, 1, 15, |b| b.is_ascii_alphanumeric())
}

/// To, From: `net119:USER@FIRE.caller` or `net119:fire@FIRE.callee`.
pub fn parse_address(text: &[u8]) -> Option<Address<'_>> {
    let rest = text.strip_prefix(b"net119:")?;
    let sign = rest.iter().position(|byte| *byte == b'@')?;
    let (user, place) = (&rest[..sign], &rest[sign + 1..]);
    if let Some(fire) = place.strip_suffix(b".caller") {
        (is_user_id(user) && is_fire_id(fire)).then_some(Address::Caller { user, fire })
    } else {
        let fire = place.strip_suffix(b".callee")?;
        (user == b"fire" && is_fire_id(fire)).then_some(Address::Callee { fire })
    }
}

/// Call-ID and Session-ID.
pub fn is_call_id(text: &[u8]) -> bool {
    let class = |b: u8| b.is_ascii_alphanumeric() || b == b'-' || b == b'.';
    made_of(text, 2, 64, class) && ends_are_not(text, |b| !b.is_ascii_alphanumeric())
}

/// Date: `YYYY-MM-DDThh:mm:ss+ZZZZ`.
pub fn is_date(text: &[u8]) -> bool {
    const DAY: usize = 10;
    if text.len() <= DAY || !is_day(&text[..DAY]) || !is_shaped(&text[DAY..], b"Tdd:dd:dd+dddd") {
        return false;
    }
    let number = |from: usize, to: usize| parse_decimal(&text[from..to]).unwrap_or(0);
    let (hour, minute, second) = (number(11, 13), number(14, 16), number(17, 19));
    let (zone_hour, zone_minute) = (number(20, 22), number(22, 24));
    (hour <= 23 && minute <= 59 && second <= 59) && (zone_hour <= 14 && zone_minute <= 59)
}

/// A real day, `YYYY-MM-DD`: how a Date begins, and a birthday (02 §4).
pub fn is_day(text: &[u8]) -> bool {
    if !is_shaped(text, b"dddd-dd-dd") {
        return false;
    }
    let number = |from: usize, to: usize| parse_decimal(&text[from..to]).unwrap_or(0);
    let (year, month, day) = (number(0, 4), number(5, 7), number(8, 10));
    year >= 1 && (1..=12).contains(&month) && (1..=days_of_month(year, month)).contains(&day)
}

/// Has the text a digit wherever the shape has a `d`, and else the shape's mark?
fn is_shaped(text: &[u8], shape: &[u8]) -> bool {
    text.len() == shape.len()
        && text.iter().zip(shape).all(|(byte, shape)| match shape {
            b'd' => byte.is_ascii_digit(),
            mark => byte == mark,
        })
}

fn days_of_month(year: u64, month: u64) -> u64 {
    let leap = year % 4 == 0 && (year % 100 != 0 || year % 400 == 0);
    match month {
        4 | 6 | 9 | 11 => 30,
        2 if leap => 29,
        2 => 28,
        _ => 31,
    }
}

pub fn is_host(text: &[u8]) -> bool {
    made_of(text, 1, 253, |b| {
        b.is_ascii_alphanumeric() || b == b'-' || b == b'.'
    })
}

pub fn is_destination(text: &[u8]) -> bool {
    made_of(text, 1, 64, |b| {
        (0x21..=0x7e).contains(&b) && b != b'"' && b != b'\\'
    })
}

pub fn is_organization(text: &[u8]) -> bool {
    let class = |b: u8| b.is_ascii_alphanumeric() || b == b'-';
    made_of(text, 2, 10, class) && ends_are_not(text, |b| b == b'-')
}

/// Status of a response: the code. The text after the space is free.
pub fn parse_status(text: &[u8]) -> Option<u16> {
    let code = text.get(..3)?;
    let value = parse_decimal(code)?;
    let fits = (100..=699).contains(&value) && text.get(3) == Some(&b' ');
    fits.then_some(value as u16)
}

/// Destination and Responded-By: a Fire-ID, then `.callee`.
pub fn is_callee_queue(text: &[u8]) -> bool {
    text.strip_suffix(b".callee").is_some_and(is_fire_id)
}

/// Message-ID: a side, a Fire-ID and letters or digits, parted by `-`.
pub fn is_message_id(text: &[u8]) -> bool {
    let parts: Vec<&[u8]> = text.split(|byte| *byte == b'-').collect();
    match parts[..] {
        [side, fire, own] => {
            text.len() <= 64
                && (side == b"caller" || side == b"callee")
                && is_fire_id(fire)
                && !own.is_empty()
                && own.iter().all(u8::is_ascii_alphanumeric)
        }
        _ => false,
    }
}

pub fn is_language(text: &[u8]) -> bool {
    made_of(text, 2, 2, |b| b.is_ascii_lowercase())
}

/// Refer-Memo: free but for its length and for line breaks.
pub fn is_memo(text: &[u8]) -> bool {
    let one_line = !text.iter().any(|byte| matches!(byte, b'\n' | b'\r'));
    one_line && utf8::code_points(text) <= MAX_MEMO
}

/// The Body of an image.
pub fn is_image(text: &[u8]) -> bool {
    text.starts_with(b"https://")
}

#[cfg(test)]
mod tests {
    use super::*;
    use crate::gen::texts;

    fn letters(count: usize) -> Vec<u8> {
        vec![b'a'; count]
    }

    /// A good text stays good up to its longest length and no further.
    fn bounds(rule: fn(&[u8]) -> bool, low: usize, high: usize) {
        for (length, good) in [
            (low - 1, false),
            (low, true),
            (high, true),
            (high + 1, false),
        ] {
            assert_eq!(rule(&letters(length)), good, "length {length}");
        }
    }

    #[test]
    fn lengths() {
        bounds(is_fire_id, 2, 15);
        bounds(is_user_id, 1, 15);
        bounds(is_call_id, 2, 64);
        bounds(is_host, 1, 253);
        bounds(is_destination, 1, 64);
        bounds(is_organization, 2, 10);
        bounds(is_language, 2, 2);
    }

    #[test]
    fn classes() {
        for byte in 0..=255u8 {
            let inner = [b'a', byte, b'a'];
            let lower_or_digit = byte.is_ascii_lowercase() || byte.is_ascii_digit();
            let letter_or_digit = byte.is_ascii_alphanumeric();
            assert_eq!(is_fire_id(&inner), lower_or_digit || byte == b'_');
            assert_eq!(is_fire_id(&[byte, b'a']), lower_or_digit);
            assert_eq!(is_fire_id(&[b'a', byte]), lower_or_digit);
            assert_eq!(is_user_id(&inner), letter_or_digit);
            assert_eq!(
                is_call_id(&inner),
                letter_or_digit || byte == b'-' || byte == b'.'
            );
            assert_eq!(is_call_id(&[byte, b'a']), letter_or_digit);
            assert_eq!(is_call_id(&[b'a', byte]), letter_or_digit);
            assert_eq!(
                is_host(&[byte]),
                letter_or_digit || byte == b'-' || byte == b'.'
            );
            assert_eq!(is_organization(&inner), letter_or_digit || byte == b'-');
            assert_eq!(is_organization(&[byte, b'a']), letter_or_digit);
            assert_eq!(is_organization(&[b'a', byte]), letter_or_digit);
            let graphic = (0x21..=0x7e).contains(&byte) && byte != b'"' && byte != b'\\';
            assert_eq!(is_destination(&[byte]), graphic);
            assert_eq!(is_language(&[b'a', byte]), byte.is_ascii_lowercase());
        }
    }

    #[test]
    fn fire_ids_and_organizations() {
        for bad in texts::BAD_FIRE_IDS {
            assert!(!is_fire_id(bad.as_bytes()), "{bad}");
        }
        for bad in texts::BAD_ORGANIZATIONS {
            assert!(!is_organization(bad.as_bytes()), "{bad}");
        }
    }

    #[test]
    fn call_id_of_the_mark() {
        assert!(is_call_id(b"A1"));
        assert!(!is_call_id(b"A."));
        assert!(is_call_id(b"A.1"));
        assert!(is_call_id(b"a..--.b"));
    }

    #[test]
    fn cseq() {
        assert_eq!(
            parse_cseq(b"4294967295 BYE"),
            Some((4294967295, Method::Bye))
        );
        for (method, name) in Method::ALL.into_iter().zip(Method::NAMES) {
            let text = format!("1 {name}");
            assert_eq!(parse_cseq(text.as_bytes()), Some((1, method)));
            assert_eq!(method.name(), name);
            assert_eq!(Method::of_code(method.code()), Some(method));
            for bad in texts::bad_cseqs(name) {
                assert_eq!(parse_cseq(bad.as_bytes()), None, "{bad}");
            }
        }
        for bad in [" BYE", "1\tBYE", "1", "", "99999999999999999999999 BYE"] {
            assert_eq!(parse_cseq(bad.as_bytes()), None, "{bad}");
        }
        assert_eq!(Method::of_code(0), None);
        assert_eq!(Method::of_code(9), None);
    }

    #[test]
    fn addresses() {
        let caller = Address::Caller {
            user: b"u1",
            fire: b"nishi",
        };
        assert_eq!(parse_address(b"net119:u1@nishi.caller"), Some(caller));
        let callee = Address::Callee { fire: b"kita" };
        assert_eq!(parse_address(b"net119:fire@kita.callee"), Some(callee));
        assert!(parse_address(b"net119:fire@kita.caller").is_some());
        let others = [
            "net119:u1@kita.Caller",
            "net119:u1@.caller",
            "net119:u1.caller",
            "sip:u1@kita.caller",
            "net119:fire@kita.caller.callee",
        ];
        for bad in [texts::BAD_ADDRESSES, &others].concat() {
            assert_eq!(parse_address(bad.as_bytes()), None, "{bad}");
        }
    }

    #[test]
    fn dates() {
        let others = [
            "0001-01-01T00:00:00+1459",
            "9999-12-31T23:59:59+1400",
            "2023-04-30T12:00:00+0059",
            "0004-02-29T00:00:00+0000",
            "2023-01-31T00:00:00+0000",
        ];
        for good in [texts::DATES, &others].concat() {
            assert!(is_date(good.as_bytes()), "{good}");
        }
        let others = [
            "2023-06-31T00:00:00+0000",
            "2023-09-31T00:00:00+0000",
            "2023-11-31T00:00:00+0000",
            "2023/01/01T00:00:00+0900",
            " 2023-01-01T00:00:00+090",
            "2o23-01-01T00:00:00+0900",
        ];
        for bad in [texts::BAD_DATES, &others].concat() {
            assert!(!is_date(bad.as_bytes()), "{bad}");
        }
    }

    #[test]
    fn statuses() {
        assert_eq!(parse_status(b"100 "), Some(100));
        assert_eq!(parse_status(b"699 x\\n y"), Some(699));
        assert_eq!(parse_status(b"200 OK"), Some(200));
        for bad in [texts::BAD_STATUSES, &["200\tOK", "+20 OK", " 200 x"]].concat() {
            assert_eq!(parse_status(bad.as_bytes()), None, "{bad}");
        }
    }

    #[test]
    fn queues_and_message_ids() {
        assert!(is_callee_queue(b"kita.callee"));
        for bad in ["kita.caller", "k.callee", ".callee", "kita", "_kita.callee"] {
            assert!(!is_callee_queue(bad.as_bytes()), "{bad}");
        }
        let longest = format!("caller-kita-{}", "x".repeat(52));
        assert_eq!(longest.len(), 64);
        assert!(is_message_id(longest.as_bytes()));
        assert!(!is_message_id(format!("{longest}x").as_bytes()));
        assert!(is_message_id(b"callee-k_1-0A"));
        for bad in texts::BAD_MESSAGE_IDS {
            assert!(!is_message_id(bad.as_bytes()), "{bad}");
        }
    }

    #[test]
    fn words() {
        assert_eq!(number_among(&SERVICES, b"ambulance"), Some(1));
        assert_eq!(number_among(&SERVICES, b"callback"), Some(4));
        for other in ["", "Fire", "fir", "fires", "fire ", "police"] {
            assert_eq!(number_among(&SERVICES, other.as_bytes()), None, "{other}");
            assert!(!is_one_of(&SERVICES, other.as_bytes()));
        }
    }

    #[test]
    fn content_types() {
        for (content_type, name) in ContentType::ALL.into_iter().zip(ContentType::NAMES) {
            assert_eq!(content_type.name(), name);
            let name = name.as_bytes();
            assert_eq!(ContentType::of_name(name), Some(content_type));
            for method in Method::ALL {
                let own = match method {
                    Method::Message => content_type as u8 <= 3,
                    Method::Notify => content_type as u8 > 3,
                    _ => false,
                };
                let found = ContentType::of_method(method, name);
                assert_eq!(found, own.then_some(content_type));
            }
        }
        for bad in texts::BAD_CONTENT_TYPES {
            assert_eq!(ContentType::of_name(bad.as_bytes()), None, "{bad}");
        }
        assert_eq!(
            ContentType::IMAGES.map(ContentType::name),
            ["text/vnd.net119.uri.image", "message/vnd.net119.uri.image"]
        );
    }

    #[test]
    fn memos_and_images() {
        for unit in ["a", "\u{e9}", "語", "\u{1f600}"] {
            assert!(is_memo(unit.repeat(128).as_bytes()));
            assert!(!is_memo(unit.repeat(129).as_bytes()));
        }
        assert!(is_memo(b""));
        assert!(is_memo(b"a\\n\"b\t\x0b\x0c\xc2\x85\xe2\x80\xa8"));
        for bad in ["\n", "\r", "a\nb", "a\r", "\r\n"] {
            assert!(!is_memo(bad.as_bytes()), "{bad:?}");
        }
        // Bytes that are no UTF-8 count by their kind.
        assert!(is_memo(&[0x80; 500]));
        assert!(is_memo(&[0xff; 128]));
        assert!(!is_memo(&[0xff; 129]));
        for good in texts::IMAGES {
            assert!(is_image(good.as_bytes()), "{good}");
        }
        for bad in texts::BAD_IMAGES {
            assert!(!is_image(bad.as_bytes()), "{bad}");
        }
    }

    #[test]
    fn decimals() {
        assert_eq!(parse_decimal(b"18446744073709551615"), Some(u64::MAX));
        assert_eq!(parse_decimal(b"18446744073709551616"), None);
        assert_eq!(parse_decimal(b"007"), Some(7));
        assert_eq!(parse_decimal(b""), None);
        assert_eq!(parse_decimal(b"1a"), None);
    }
}
