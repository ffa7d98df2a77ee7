//! Texts that keep or break the rules of 01 Reading, at and around each mark.
//! The rules themselves are tested by the lists of them. They stand in messages
//! as they are here: an escape breaks a rule by the backslash where a text is
//! not decoded, and by the letter it stands for where it is.

use super::rng::Rng;

const LOWER: &[u8] = b"abcdefghijklmnopqrstuvwxyz0123456789";
const LOWER_MARK: &[u8] = b"abcxyz0129_";
const ALNUM: &[u8] = b"abcdefghijABCDEFGHIJ0123456789";
const ALNUM_MARKS: &[u8] = b"abcXYZ019-.";
const GRAPHIC: &[u8] = b"!#$%&'()*+,-./09:;<=>?@AZ[]^_`az{|}~";

/// A length that is often at either end of its range.
fn length(rng: &mut Rng, low: usize, high: usize) -> usize {
    match rng.below(6) {
        0 => low,
        1 => high,
        2 => high - 1,
        _ => rng.between(low, high.min(low + 8)),
    }
}

/// A text whose first and last bytes are of the narrower class.
fn bounded(rng: &mut Rng, ends: &[u8], inner: &[u8], low: usize, high: usize) -> Vec<u8> {
    let length = length(rng, low, high);
    let mut text = rng.text(inner, length);
    if let Some(first) = text.first_mut() {
        *first = *rng.pick(ends);
    }
    if let Some(last) = text.last_mut() {
        *last = *rng.pick(ends);
    }
    text
}

/// Bytes of a class, at either end of the range of lengths or just outside.
pub fn at_length(rng: &mut Rng, class: &[u8], low: usize, high: usize) -> Vec<u8> {
    let length = *rng.pick(&[low - 1, low, low + 1, high - 1, high, high + 1]);
    rng.text(class, length)
}

pub fn fire_id(rng: &mut Rng) -> Vec<u8> {
    if rng.percent(70) {
        rng.one_of(&["kita", "nishi", "tokyo", "osaka", "a1", "k_2", "sakai"])
    } else {
        bounded(rng, LOWER, LOWER_MARK, 2, 15)
    }
}

pub const BAD_FIRE_IDS: &[&str] = &[
    "",
    "k",
    "_",
    "__",
    "_kita",
    "kita_",
    "Kita",
    "ki-ta",
    "ki.ta",
    "ki ta",
    "kit\u{e9}",
    "k234567890123456",
    "k2345678901234567890",
    "ki\\u0054a",
    "kita\\n",
    "北",
];

pub fn bad_fire_id(rng: &mut Rng) -> Vec<u8> {
    rng.one_of(BAD_FIRE_IDS)
}

pub fn user_id(rng: &mut Rng) -> Vec<u8> {
    if rng.percent(70) {
        rng.one_of(&["u1", "user00001", "fire", "Q", "A9z"])
    } else {
        bounded(rng, ALNUM, ALNUM, 1, 15)
    }
}

pub fn call_id(rng: &mut Rng) -> Vec<u8> {
    bounded(rng, ALNUM, ALNUM_MARKS, 2, 64)
}

pub fn bad_call_id(rng: &mut Rng) -> Vec<u8> {
    match rng.below(14) {
        0 => Vec::new(),
        1 => b"A".to_vec(),
        2 => b"A.".to_vec(),
        3 => b"-A".to_vec(),
        4 => b".1".to_vec(),
        5 => b"A_1".to_vec(),
        6 => b"A 1".to_vec(),
        7 => vec![b'A'; 65],
        8 => vec![b'9'; 66],
        9 => "A\u{e9}1".into(),
        10 => b"A\\u005f1".to_vec(),
        11 => b"A1-".to_vec(),
        12 => b"A@1".to_vec(),
        _ => [vec![b'A'; 63], b".".to_vec()].concat(),
    }
}

pub fn near_call_id(rng: &mut Rng) -> Vec<u8> {
    at_length(rng, b"azAZ09-.", 2, 64)
}

pub fn caller_address(user: &[u8], fire: &[u8]) -> Vec<u8> {
    [b"net119:", user, b"@", fire, b".caller"].concat()
}

pub fn callee_address(fire: &[u8]) -> Vec<u8> {
    [b"net119:fire@", fire, b".callee"].concat()
}

/// Addresses of callers and of callees.
pub const BAD_ADDRESSES: &[&str] = &[
    "",
    "net119:",
    "net119:u1@kita",
    "net119:u1@kita.callee",
    "net119:Fire@kita.callee",
    "net119:@kita.caller",
    "net119:fire@.callee",
    "net119:u1@k.caller",
    "net119:u1@kita.caller ",
    " net119:u1@kita.caller",
    "net119:u1@kita.callers",
    "net119:u1@kita.calle",
    "net119:u_1@kita.caller",
    "net119:u1@@kita.caller",
    "net119:u1@kita_.caller",
    "net119:u234567890123456@kita.caller",
    "net119:u1@k234567890123456.caller",
    "net119:fire@k234567890123456.callee",
    "NET119:u1@kita.caller",
    "net118:u1@kita.caller",
    "net119:u1\\u003akita.caller",
    "net119:u1@kita.caller.callee",
    "u1@kita.caller",
];

pub fn bad_address(rng: &mut Rng) -> Vec<u8> {
    rng.one_of(BAD_ADDRESSES)
}

/// An address of parts that are each near their marks.
pub fn near_address(rng: &mut Rng) -> Vec<u8> {
    let scheme = *rng.pick(&["net119:", "net119:", "net119:", "net119", ""]);
    let user = match rng.below(3) {
        0 => b"fire".to_vec(),
        1 => user_id(rng),
        _ => at_length(rng, b"azAZ09", 1, 15),
    };
    let fire = match rng.below(3) {
        0 => fire_id(rng),
        1 => at_length(rng, b"abz09", 2, 15),
        _ => at_length(rng, b"abz09_", 2, 15),
    };
    let side = *rng.pick(&[".caller", ".callee", ".caller", ".callee", ".caller.callee"]);
    [scheme.as_bytes(), &user, b"@", &fire, side.as_bytes()].concat()
}

pub fn bad_cseqs(method: &str) -> [String; 20] {
    [
        format!("0 {method}"),
        format!("01 {method}"),
        format!("4294967296 {method}"),
        format!("4294967300 {method}"),
        format!("18446744073709551617 {method}"),
        format!("99999999999999999999 {method}"),
        format!("1  {method}"),
        format!("1 {method} "),
        format!(" 1 {method}"),
        format!("1{method}"),
        format!("-1 {method}"),
        format!("+1 {method}"),
        format!("1\\u0009{method}"),
        format!("1.0 {method}"),
        format!("1 {}", method.to_lowercase()),
        format!("1 {method}S"),
        format!("1 {}", &method[..method.len() - 1]),
        "1 OPTIONS".into(),
        "1 ".into(),
        method.into(),
    ]
}

pub fn bad_cseq(rng: &mut Rng, method: &str) -> Vec<u8> {
    rng.pick(&bad_cseqs(method)).as_bytes().to_vec()
}

/// A CSeq's number, around a power of ten or the end of its range.
pub fn near_number(rng: &mut Rng) -> u64 {
    let middle = match rng.below(3) {
        0 => u64::from(u32::MAX),
        1 => 10u64.pow(rng.below(20) as u32),
        _ => rng.below(5_000_000_000) as u64,
    };
    (middle + rng.below(4) as u64).saturating_sub(1)
}

/// Days that there are, at the ends of months and of ranges.
pub const DATES: &[&str] = &[
    "2024-02-29T23:59:59+0900",
    "2000-02-29T00:00:00+0000",
    "0001-01-01T00:00:00+0000",
    "9999-12-31T23:59:59+1459",
    "2023-04-30T12:00:00+1400",
    "2023-02-28T23:00:59+0059",
    "0400-02-29T00:59:00+0001",
    "2023-01-31T00:00:00+0900",
    "2023-03-31T00:00:00+0900",
    "2023-05-31T00:00:00+0900",
    "2023-06-30T00:00:00+0900",
    "2023-07-31T00:00:00+0900",
    "2023-08-31T00:00:00+0900",
    "2023-09-30T00:00:00+0900",
    "2023-10-31T00:00:00+0900",
    "2023-11-30T00:00:00+0900",
    "2023-12-31T00:00:00+0900",
];

pub fn date(rng: &mut Rng) -> Vec<u8> {
    if rng.percent(30) {
        return rng.one_of(DATES);
    }
    let (year, month, day) = (rng.between(1, 9999), rng.between(1, 12), rng.between(1, 28));
    let (hour, minute, second) = (rng.below(24), rng.below(60), rng.below(60));
    let (zone_hour, zone_minute) = (rng.below(15), rng.below(60));
    format!(
        "{year:04}-{month:02}-{day:02}T{hour:02}:{minute:02}:{second:02}+{zone_hour:02}{zone_minute:02}"
    )
    .into()
}

pub const BAD_DATES: &[&str] = &[
    "",
    "1900-02-29T00:00:00+0000",
    "2100-02-29T00:00:00+0000",
    "2023-02-29T00:00:00+0000",
    "2024-02-30T00:00:00+0000",
    "2023-04-31T00:00:00+0000",
    "2023-01-32T00:00:00+0000",
    "2023-01-00T00:00:00+0000",
    "2023-00-01T00:00:00+0000",
    "2023-13-01T00:00:00+0000",
    "0000-01-01T00:00:00+0000",
    "2023-01-01T24:00:00+0000",
    "2023-01-01T00:60:00+0000",
    "2023-01-01T00:00:60+0000",
    "2023-01-01T00:00:00+1500",
    "2023-01-01T00:00:00+1460",
    "2023-01-01T00:00:00-0900",
    "2023-01-01T00:00:00+09:00",
    "2023-01-01T00:00:00+090",
    "2023-01-01T00:00:00+09000",
    "2023-01-01t00:00:00+0900",
    "2023-01-01 00:00:00+0900",
    "2023-01-01T00:00:00Z",
    "2023-1-01T00:00:00+09000",
];

/// Mostly bad dates: some that a number turns bad are real days after all.
pub fn bad_date(rng: &mut Rng) -> Vec<u8> {
    if rng.percent(60) {
        return rng.one_of(BAD_DATES);
    }
    if rng.one_in(3) {
        // Every fourth of these years is a leap year.
        let century = rng.between(1, 99);
        return format!("{century:02}00-02-29T00:00:00+0000").into();
    }
    if rng.one_in(2) {
        let (month, day) = (rng.below(14), rng.between(29, 32));
        return format!("2023-{month:02}-{day:02}T00:00:00+0000").into();
    }
    let mut text = date(rng);
    let at = rng.below(text.len());
    text[at] = *rng.pick(b"0123456789-T:+ Z/");
    text
}

/// A date with one or two of its numbers at or past an end of their range, or
/// the end of a February.
pub fn near_date(rng: &mut Rng) -> Vec<u8> {
    if rng.one_in(3) {
        let year = match rng.below(4) {
            0 => rng.between(1, 24) * 400,
            1 => rng.between(1, 99) * 100,
            2 => rng.between(1, 2499) * 4,
            _ => rng.between(1, 9999),
        };
        let day = rng.between(28, 30);
        return format!("{year:04}-02-{day}T00:00:00+0000").into();
    }
    const EDGES: [(usize, &[&str]); 8] = [
        (0, &["0000", "0001", "9999"]),
        (5, &["00", "01", "12", "13"]),
        (8, &["00", "01", "28", "29", "30", "31", "32"]),
        (11, &["00", "23", "24"]),
        (14, &["00", "59", "60"]),
        (17, &["00", "59", "60"]),
        (20, &["00", "14", "15"]),
        (22, &["00", "59", "60"]),
    ];
    let mut text = date(rng);
    for _ in 0..rng.between(1, 2) {
        let (at, numbers) = *rng.pick(&EDGES);
        let number = rng.pick(numbers).as_bytes();
        text[at..at + number.len()].copy_from_slice(number);
    }
    text
}

pub fn host(rng: &mut Rng) -> Vec<u8> {
    if rng.percent(80) {
        rng.one_of(&["h1.nx", "call01.east.emcall.jp", "10.0.0.1", "-", "."])
    } else if rng.one_in(8) {
        let length = rng.between(252, 253);
        rng.text(ALNUM_MARKS, length)
    } else {
        let length = rng.between(1, 20);
        rng.text(ALNUM_MARKS, length)
    }
}

pub fn bad_host(rng: &mut Rng) -> Vec<u8> {
    match rng.below(8) {
        0 => Vec::new(),
        1 => vec![b'h'; 254],
        2 => b"h_1".to_vec(),
        3 => b"h 1".to_vec(),
        4 => b"h:61614".to_vec(),
        5 => "h\u{e9}".into(),
        6 => b"h\\u005F".to_vec(),
        _ => b"h/1".to_vec(),
    }
}

pub fn destination(rng: &mut Rng) -> Vec<u8> {
    if rng.percent(80) {
        rng.one_of(&["/queue/tokyo.caller", "kita.callee", "!", "~"])
    } else {
        let length = length(rng, 1, 64);
        rng.text(GRAPHIC, length)
    }
}

pub fn bad_destination(rng: &mut Rng) -> Vec<u8> {
    match rng.below(7) {
        0 => Vec::new(),
        1 => vec![b'd'; 65],
        2 => b"d 1".to_vec(),
        3 => b"d\x7f".to_vec(),
        4 => "d\u{80}".into(),
        5 => b"d\\\\1".to_vec(),
        _ => b"\\\"".to_vec(),
    }
}

pub fn organization(rng: &mut Rng) -> Vec<u8> {
    if rng.percent(80) {
        rng.one_of(&["nx", "emcall", "A-1", "0123456789"])
    } else {
        bounded(rng, ALNUM, b"abAB01-", 2, 10)
    }
}

pub const BAD_ORGANIZATIONS: &[&str] = &[
    "",
    "n",
    "-nx",
    "nx-",
    "n_x",
    "n.x",
    "n x",
    "01234567890",
    "--",
    "n\\u002d",
    "n\u{e9}",
];

pub fn bad_organization(rng: &mut Rng) -> Vec<u8> {
    rng.one_of(BAD_ORGANIZATIONS)
}

/// A Destination or a Responded-By.
pub fn callee_queue(rng: &mut Rng) -> Vec<u8> {
    [fire_id(rng), b".callee".to_vec()].concat()
}

pub fn status(rng: &mut Rng, code: u16) -> Vec<u8> {
    [format!("{code} ").as_bytes(), &phrase(rng)].concat()
}

/// The text of a status after its code, free.
fn phrase(rng: &mut Rng) -> Vec<u8> {
    const PHRASES: &[&str] = &[
        "OK",
        "",
        "Trying",
        "Ringing",
        "Request Terminated",
        "a\\n\\\"b\\\\",
        "\\ud83d\\ude00",
        "\\ude00\\ud83d",
        "呼出中",
        " two",
    ];
    rng.one_of(PHRASES)
}

pub const BAD_STATUSES: &[&str] = &[
    "",
    "099 x",
    "700 x",
    "999 x",
    "000 x",
    "200",
    "200OK",
    "20 OK",
    "2000 OK",
    "2\\u004f0 OK",
    " 200 OK",
    "200\\tOK",
    "2OO OK",
    "-20 OK",
    "available",
    "available\\udc00",
    "un\\ud800available",
];

pub fn bad_status(rng: &mut Rng) -> Vec<u8> {
    rng.one_of(BAD_STATUSES)
}

pub fn message_id(rng: &mut Rng) -> Vec<u8> {
    let side = rng.one_of(&["caller", "callee"]);
    let fire = fire_id(rng);
    let room = 64 - side.len() - fire.len() - 2;
    let own = bounded(rng, ALNUM, ALNUM, 1, room);
    [side, fire, own].join(&b'-')
}

pub const BAD_MESSAGE_IDS: &[&str] = &[
    "",
    "caller-kita-",
    "caller-kita",
    "caller--1",
    "Caller-kita-1",
    "desk-kita-1",
    "caller-k-1",
    "caller-_a-1",
    "caller-kita-1-2",
    "caller-kita-1.2",
    "callee-kita-\\u002d",
    "callerkita-1",
    "callee-k234567890123456-1",
];

pub fn bad_message_id(rng: &mut Rng) -> Vec<u8> {
    if rng.one_in(4) {
        return [b"caller-kita-".to_vec(), vec![b'x'; 53]].concat();
    }
    rng.one_of(BAD_MESSAGE_IDS)
}

pub const BAD_CONTENT_TYPES: &[&str] = &[
    "",
    "text/html",
    "text/plain ",
    "Text/plain",
    "text\\\\/plain",
    "text\\u003aplain",
    "text\\/plain\\u0000",
    "message/plain",
    "text/vnd.net119.presence",
    "message/vnd.net119.",
    "message/vnd.net119.uri",
    "message/vnd.net119.image",
    "message/vnd.net119.uri.imag",
    "message/vnd.net119.uri.images",
    "message/vnd.net119.uri.image ",
    " message/vnd.net119.uri.image",
    "Message/vnd.net119.uri.image",
    "message/vnd.net119.URI.image",
    "message\\/vnd.net119.uri.image\\udc00",
    "application/vnd.net119.uri.image",
    "vnd.net119.uri.image",
];

pub fn bad_content_type(rng: &mut Rng) -> Vec<u8> {
    rng.one_of(BAD_CONTENT_TYPES)
}

/// Bodies of an image.
pub const IMAGES: &[&str] = &[
    "https://",
    "https:///",
    "https://x.jp/1.jpg",
    "https://\\u0041",
    "https://\\ud800x",
    "https://a\\n",
];

pub fn image(rng: &mut Rng) -> Vec<u8> {
    rng.one_of(IMAGES)
}

pub const BAD_IMAGES: &[&str] = &[
    "",
    "https:",
    "https:/",
    "https:/x",
    "https//x",
    "http://",
    "http://x",
    "HTTPS://",
    "Https://x",
    " https://",
    "https ://x",
    "https:\\\\//",
    "https:/\\u005c/x",
    "\\u0048ttps://x",
    "https:\\ud800//",
    "https:/\\udfff",
    "x.jp/1.jpg",
];

pub fn bad_image(rng: &mut Rng) -> Vec<u8> {
    rng.one_of(BAD_IMAGES)
}

/// A memo of so many code points, all the same.
pub fn memo(rng: &mut Rng, count: usize) -> Vec<u8> {
    let unit = *rng.pick(&["a", "語", "é", "\u{1f600}"]);
    unit.repeat(count).into()
}

/// A length that is at either end of its range now and then.
pub fn seldom_at_an_end(rng: &mut Rng, low: usize, high: usize) -> usize {
    match rng.below(16) {
        0 => low,
        1 => high,
        _ => rng.between(low, high.min(low + 8)),
    }
}

/// A text of `low` to `high` code points of a kind or two, some spelled with
/// escapes.
pub fn points(rng: &mut Rng, low: usize, high: usize) -> Vec<u8> {
    const UNITS: &[&str] = &[
        "a",
        "Z",
        " ",
        "語",
        "山",
        "カ",
        "é",
        "\u{1f600}",
        "\\n",
        "\\/",
        "\\\\",
        "\\u8a9e",
        "\\u0000",
        "\\ud83d\\uDE00",
    ];
    // Half of the time of those alone that people write.
    let units = if rng.one_in(2) { UNITS } else { &UNITS[..6] };
    let few = [*rng.pick(units), *rng.pick(units)];
    let count = seldom_at_an_end(rng, low, high);
    (0..count).flat_map(|_| rng.pick(&few).bytes()).collect()
}

/// Free text for a Body, a User-Agent or an option.
pub fn free(rng: &mut Rng) -> Vec<u8> {
    const FREE: &[&str] = &[
        "",
        "yes",
        "出血はありますか？",
        "a\\nb\\t\\u3042\\\"",
        "\\ud800",
        "https://x.jp/1.jpg",
        "Mozilla/5.0 (Android 6.0.1)",
        "\u{fff9}a\u{fffa}b\u{fffb}",
        "\u{7f}\u{10ffff}",
    ];
    rng.one_of(FREE)
}
