//! The rules of 01 Reading one by one, and the constant tables beside them:
//! each line is `NAME HEX`, a question and the bytes it is asked of: a text as
//! it is when decoded. HEX may be empty; what is not such a line is answered `?`.

use crate::fields::{self, Tag};
use crate::hex;
use crate::lines::Answerer;
use crate::probe::MAX_LINE;
use crate::rules::{self, Address, ContentType, Method};
use crate::writing;

/// What a name asks of the bytes.
pub enum Question {
    /// Do they keep a rule? `yes` or `no`.
    Keeps(fn(&[u8]) -> bool),
    /// Which of these words are they? Its number counted from 1, 0 for none.
    Number(&'static [&'static str]),
    /// What do they say? Or `no`.
    Says(fn(&[u8]) -> Option<String>),
    /// What stands in a table at the first byte's row and the second's column?
    /// None outside the table, answered `?`.
    Table(fn(usize, usize) -> Option<usize>),
}

use Question::{Keeps, Number, Says, Table};

/// Every name with its question.
pub const QUESTIONS: [(&str, Question); 32] = [
    ("fire-id", Keeps(rules::is_fire_id)),
    ("user-id", Keeps(rules::is_user_id)),
    ("call-id", Keeps(rules::is_call_id)),
    ("date", Keeps(rules::is_date)),
    ("host", Keeps(rules::is_host)),
    ("destination", Keeps(rules::is_destination)),
    ("organization", Keeps(rules::is_organization)),
    ("desk", Keeps(rules::is_callee_queue)),
    ("message-id", Keeps(rules::is_message_id)),
    ("message-type", Keeps(is_message_type)),
    ("notify-type", Keeps(is_notify_type)),
    ("image", Keeps(rules::is_image)),
    ("memo", Keeps(rules::is_memo)),
    ("language", Keeps(rules::is_language)),
    ("cseq", Says(cseq)),
    ("address", Says(address)),
    ("status", Says(status)),
    ("availability", Number(&rules::AVAILABILITIES)),
    ("content-type", Number(&ContentType::NAMES)),
    ("presence", Number(&rules::PRESENCES)),
    ("call-mode", Number(&rules::CALL_MODES)),
    ("call-test", Number(&rules::CALL_TESTS)),
    ("secure-call", Number(&rules::SECURE_CALLS)),
    ("rescuee", Number(&rules::RESCUEES)),
    ("service", Number(&rules::SERVICES)),
    ("tag", Number(&Tag::NAMES)),
    ("method", Number(&Method::NAMES)),
    ("field", Number(&fields::NAMES)),
    ("hop-member", Number(&rules::HOP_MEMBERS)),
    ("phrase", Says(phrase)),
    ("tag-asks", Table(tag_asks)),
    ("method-asks", Table(method_asks)),
];

pub struct RuleLines;

impl Answerer for RuleLines {
    const LIMIT: usize = MAX_LINE;

    fn answer(&mut self, line: &[u8]) -> Option<Vec<u8>> {
        let space = line.iter().position(|byte| *byte == b' ')?;
        let (name, word) = (&line[..space], &line[space + 1..]);
        let mut named = QUESTIONS.iter();
        let (_, question) = named.find(|(known, _)| known.as_bytes() == name)?;
        let bytes = hex::decode_pairs(word)?;
        let answer = match question {
            Keeps(rule) => if rule(&bytes) { "yes" } else { "no" }.into(),
            Number(words) => rules::number_among(words, &bytes).unwrap_or(0).to_string(),
            Says(says) => says(&bytes).unwrap_or("no".into()),
            Table(at) => {
                let [row, column] = two_bytes(&bytes).map(usize::from);
                at(row, column)?.to_string()
            }
        };
        Some(answer.into())
    }
}

/// The first two bytes, 0 for those that are missing.
fn two_bytes(bytes: &[u8]) -> [u8; 2] {
    [0, 1].map(|index| bytes.get(index).copied().unwrap_or(0))
}

fn is_message_type(text: &[u8]) -> bool {
    ContentType::of_method(Method::Message, text).is_some()
}

fn is_notify_type(text: &[u8]) -> bool {
    ContentType::of_method(Method::Notify, text).is_some()
}

/// The number and the method's code.
fn cseq(text: &[u8]) -> Option<String> {
    let (number, method) = rules::parse_cseq(text)?;
    Some(format!("{number} {}", method.code()))
}

/// The side, and the places where a caller's user and either's Fire-ID end.
fn address(text: &[u8]) -> Option<String> {
    let says = match rules::parse_address(text)? {
        Address::Caller { user, fire } => {
            let user_end = "net119:".len() + user.len();
            let fire_end = user_end + "@".len() + fire.len();
            format!("caller {user_end} {fire_end}")
        }
        Address::Callee { fire } => {
            format!("callee {}", "net119:fire@".len() + fire.len())
        }
    };
    Some(says)
}

fn status(text: &[u8]) -> Option<String> {
    rules::parse_status(text).map(|code| code.to_string())
}

/// A listed status code, which is two bytes big-endian, with its text.
fn phrase(bytes: &[u8]) -> Option<String> {
    let code = u16::from_be_bytes(two_bytes(bytes));
    writing::phrase(code).map(|text| format!("{code} {text}"))
}

/// 1 if the tag requires the field, else 0; there is no tag 0 and no field 0.
fn tag_asks(tag: usize, field: usize) -> Option<usize> {
    if tag > Tag::ALL.len() || field > fields::NAMES.len() {
        return None;
    }
    let required = Tag::of_number(tag).is_some_and(|tag| tag.required().contains(&field));
    Some(usize::from(required))
}

/// 1 if the method requires the field of its requests, 2 if it is optional,
/// else 0. The fields that every request requires are the tag's, not these.
fn method_asks(method: usize, field: usize) -> Option<usize> {
    if method > Method::ALL.len() || field > fields::NAMES.len() {
        return None;
    }
    let Some(method) = Method::of_code(method as u8) else {
        return Some(0);
    };
    if fields::required_by(method).contains(&field) {
        Some(1)
    } else if fields::optional_for(method).contains(&field) {
        Some(2)
    } else {
        Some(0)
    }
}

#[cfg(test)]
mod tests {
    use super::*;
    use crate::lines;

    fn answers(script: &str) -> Vec<String> {
        lines::tests::answers(RuleLines, script)
    }

    /// The answer about these bytes.
    fn of(name: &str, bytes: &[u8]) -> String {
        let mut line = format!("{name} ").into_bytes();
        hex::encode_pairs(bytes, &mut line);
        let text = lines::tests::written(RuleLines, &line);
        text.strip_suffix('\n').unwrap().to_string()
    }

    #[test]
    fn rules_kept_and_broken() {
        for (name, good, bad) in [
            ("fire-id", "k_1", "k_"),
            ("user-id", "A", "a_b"),
            ("call-id", "A1", "A."),
            (
                "date",
                "2000-02-29T00:00:00+0000",
                "1900-02-29T00:00:00+0000",
            ),
            ("host", "-", "h_1"),
            ("destination", "~", "a\"b"),
            ("organization", "nx", "nx-"),
            ("desk", "kita.callee", "kita.caller"),
            ("message-id", "caller-kita-1", "caller-kita-"),
            ("message-type", "text/plain", "message/vnd.net119.refer"),
            (
                "message-type",
                "message/vnd.net119.uri.image",
                "message/vnd.net119.uri.images",
            ),
            ("notify-type", "message/vnd.net119.refer", "text/plain"),
            (
                "notify-type",
                "message/vnd.net119.location",
                "message/vnd.net119.uri.image",
            ),
            ("image", "https://", "http://x"),
            ("memo", "a\"b", "a\nb"),
            ("memo", "a\\b", "a\rb"),
            ("language", "ja", "JA"),
        ] {
            assert_eq!(of(name, good.as_bytes()), "yes", "{name}");
            assert_eq!(of(name, bad.as_bytes()), "no", "{name}");
            let empty = if name == "memo" { "yes" } else { "no" };
            assert_eq!(of(name, b""), empty, "{name}");
        }
    }

    #[test]
    fn what_texts_say() {
        assert_eq!(of("cseq", b"4294967295 BYE"), "4294967295 2");
        assert_eq!(of("cseq", b"1 NOTIFY"), "1 8");
        assert_eq!(of("cseq", b"01 BYE"), "no");
        let caller = "net119:u1@nishi.caller";
        assert_eq!(of("address", caller.as_bytes()), "caller 9 15");
        assert_eq!((&caller[7..9], &caller[10..15]), ("u1", "nishi"));
        let callee = "net119:fire@kita.callee";
        assert_eq!(of("address", callee.as_bytes()), "callee 16");
        assert_eq!(&callee[12..16], "kita");
        assert_eq!(of("address", b"net119:fire@kita.caller"), "caller 11 16");
        assert_eq!(of("address", b"net119:u1@kita.callee"), "no");
        assert_eq!(of("status", b"699 \xff\\"), "699");
        assert_eq!(of("status", b"700 x"), "no");
    }

    #[test]
    fn numbers_of_words() {
        for (name, words) in [
            ("availability", "available unavailable"),
            (
                "content-type",
                "text/plain text/vnd.net119.uri.image message/vnd.net119.uri.image \
                 message/vnd.net119.presence message/vnd.net119.location \
                 message/vnd.net119.refer",
            ),
            ("presence", "online offline"),
            ("call-mode", "emergency training"),
            ("call-test", "0 1"),
            ("secure-call", "false true"),
            ("rescuee", "caller third-party"),
            ("service", "ambulance fire unknown callback"),
            ("tag", "request response ping pong"),
            (
                "method",
                "INVITE BYE CANCEL ACK MESSAGE CALLBACK REFER NOTIFY",
            ),
            ("field", &fields::NAMES.join(" ")),
            ("hop-member", "host destination organization"),
        ] {
            for (index, word) in words.split_whitespace().enumerate() {
                let number = (index + 1).to_string();
                assert_eq!(of(name, word.as_bytes()), number, "{name} {word}");
                let longer = format!("{word} ");
                assert_eq!(of(name, longer.as_bytes()), "0", "{name} {word}");
            }
            assert_eq!(of(name, b""), "0", "{name}");
        }
    }

    #[test]
    fn phrases() {
        assert_eq!(of("phrase", &[0, 100]), "100 Trying");
        assert_eq!(of("phrase", &[0, 202]), "202 Accepted");
        let gone = "481 Call/Transaction Does Not Exist";
        assert_eq!(of("phrase", &481u16.to_be_bytes()), gone);
        assert_eq!(of("phrase", &[0, 100, 1, 2]), "100 Trying");
        for bytes in [
            &[][..],
            &[0],
            &[100],
            &[1],
            &[100, 0],
            &[0, 99],
            &[255, 255],
        ] {
            assert_eq!(of("phrase", bytes), "no", "{bytes:?}");
        }
    }

    /// The fields with this entry in a table's row.
    fn columns(name: &str, row: u8, entry: &str) -> Vec<u8> {
        let all = 0..=26;
        all.filter(|field| of(name, &[row, *field]) == entry)
            .collect()
    }

    #[test]
    fn fields_of_tags() {
        for (tag, required) in [
            (0, &[][..]),
            (1, &[1, 2, 3, 4, 5, 6]),
            (2, &[1, 2, 3, 4, 5, 6, 7]),
            (3, &[4, 6, 25]),
            (4, &[4, 6, 7, 26]),
        ] {
            assert_eq!(columns("tag-asks", tag, "1"), required, "{tag}");
            assert_eq!(columns("tag-asks", tag, "0").len(), 27 - required.len());
        }
        assert_eq!(of("tag-asks", &[]), "0");
        assert_eq!(of("tag-asks", &[4]), "0");
        for bytes in [[5, 0], [255, 1], [0, 27], [1, 255]] {
            assert_eq!(of("tag-asks", &bytes), "?");
        }
    }

    #[test]
    fn fields_of_methods() {
        for (method, required, optional) in [
            (0, &[][..], &[][..]),
            (1, &[14, 15, 16, 17, 18, 19, 20, 21, 22, 23], &[12, 13]),
            (2, &[], &[]),
            (3, &[], &[]),
            (4, &[], &[]),
            (5, &[8, 9, 10], &[24]),
            (6, &[], &[]),
            (7, &[11, 12], &[13]),
            (8, &[9, 10], &[]),
        ] {
            assert_eq!(columns("method-asks", method, "1"), required, "{method}");
            assert_eq!(columns("method-asks", method, "2"), optional, "{method}");
            let rest = 27 - required.len() - optional.len();
            assert_eq!(columns("method-asks", method, "0").len(), rest);
        }
        assert_eq!(of("method-asks", &[]), "0");
        assert_eq!(of("method-asks", &[8]), "0");
        for bytes in [[9, 0], [255, 1], [0, 27], [1, 255]] {
            assert_eq!(of("method-asks", &bytes), "?");
        }
    }

    #[test]
    fn what_is_no_question() {
        for line in [
            "",
            " ",
            "fire-id",
            "Fire-ID 6b31",
            "fire 6b31",
            " fire-id 6b31",
            "fire-id  6b31",
            "fire-id 6b31 ",
            "fire-id 6b31\r",
            "fire-id 6b3",
            "fire-id 6B31",
            "fire-id -",
            "fire-id\t6b31",
            "6b31",
        ] {
            assert_eq!(RuleLines.answer(line.as_bytes()), None, "{line}");
        }
        assert!(answers("").is_empty());
        assert_eq!(answers("\nfire-id \nfire-id 6b31"), ["?", "no", "yes"]);
        let long = format!("memo {}\nlanguage 6a61", "80".repeat(MAX_LINE / 2));
        assert_eq!(answers(&long), ["?", "yes"]);
    }
}
