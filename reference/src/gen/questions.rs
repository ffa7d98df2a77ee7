//! Lines for `rules`: for each name texts that keep its rule, texts at both
//! sides of each mark, the same with one byte changed, and bytes at random.

use super::draft;
use super::rng::Rng;
use super::texts::{self, at_length};
use crate::fields::{self, Tag};
use crate::hex;
use crate::rules::{self, ContentType, Method};
use crate::writing::STATUS_TEXTS;

type Maker = fn(&mut Rng) -> Vec<u8>;

/// A name, how often it is asked, and of which texts.
struct Name {
    name: &'static str,
    weight: usize,
    texts: Texts,
}

enum Texts {
    /// A text that keeps the rule mostly, and one that mostly breaks it or
    /// stands near a mark.
    Made(Maker, Maker),
    /// One of these words, and one near them.
    Words(&'static [&'static str]),
}

impl Name {
    fn good(&self, rng: &mut Rng) -> Vec<u8> {
        match self.texts {
            Texts::Made(good, _) => good(rng),
            Texts::Words(words) => rng.one_of(words),
        }
    }

    fn near(&self, rng: &mut Rng) -> Vec<u8> {
        match self.texts {
            Texts::Made(_, near) => near(rng),
            Texts::Words(words) => near_word(rng, words),
        }
    }
}

const fn made(name: &'static str, weight: usize, good: Maker, near: Maker) -> Name {
    Name {
        name,
        weight,
        texts: Texts::Made(good, near),
    }
}

const fn words(name: &'static str, weight: usize, words: &'static [&'static str]) -> Name {
    Name {
        name,
        weight,
        texts: Texts::Words(words),
    }
}

/// Every name that is asked.
static NAMES: [Name; 32] = [
    made("fire-id", 4, texts::fire_id, |rng| {
        let near = |rng: &mut Rng| at_length(rng, b"abz09_", 2, 15);
        either(rng, texts::bad_fire_id, near)
    }),
    made("user-id", 4, texts::user_id, |rng| {
        at_length(rng, b"azAZ09", 1, 15)
    }),
    made("call-id", 4, texts::call_id, |rng| {
        either(rng, texts::bad_call_id, texts::near_call_id)
    }),
    made("date", 12, texts::date, |rng| {
        either(rng, texts::bad_date, texts::near_date)
    }),
    made("host", 4, texts::host, |rng| {
        let near = |rng: &mut Rng| at_length(rng, b"azAZ09-.", 1, 253);
        either(rng, texts::bad_host, near)
    }),
    made("destination", 4, texts::destination, |rng| {
        let near = |rng: &mut Rng| at_length(rng, b"!#[]~az", 1, 64);
        either(rng, texts::bad_destination, near)
    }),
    made("organization", 4, texts::organization, |rng| {
        let near = |rng: &mut Rng| at_length(rng, b"azAZ09-", 2, 10);
        either(rng, texts::bad_organization, near)
    }),
    made("desk", 4, texts::callee_queue, near_desk),
    made("message-id", 8, texts::message_id, |rng| {
        either(rng, texts::bad_message_id, near_message_id)
    }),
    made("message-type", 2, content_type, near_content_type),
    made("notify-type", 2, content_type, near_content_type),
    made("image", 2, texts::image, |rng| {
        let near = |rng: &mut Rng| near_word(rng, texts::IMAGES);
        either(rng, texts::bad_image, near)
    }),
    made("memo", 4, memo, near_memo),
    made("language", 3, language, |rng| at_length(rng, b"az", 2, 2)),
    made("cseq", 10, cseq, near_cseq),
    made("address", 10, address, |rng| {
        either(rng, texts::bad_address, texts::near_address)
    }),
    made("status", 5, status, |rng| {
        either(rng, texts::bad_status, near_status)
    }),
    words("availability", 2, &rules::AVAILABILITIES),
    made("content-type", 3, content_type, near_content_type),
    words("presence", 2, &rules::PRESENCES),
    words("call-mode", 2, &rules::CALL_MODES),
    words("call-test", 2, &rules::CALL_TESTS),
    words("secure-call", 2, &rules::SECURE_CALLS),
    words("rescuee", 2, &rules::RESCUEES),
    words("service", 2, &rules::SERVICES),
    words("tag", 2, &Tag::NAMES),
    words("method", 3, &Method::NAMES),
    words("field", 6, &fields::NAMES),
    words("hop-member", 2, &rules::HOP_MEMBERS),
    made("phrase", 6, listed_code, any_code),
    made(
        "tag-asks",
        5,
        |rng| two_up_to(rng, 4, 26),
        |rng| two_up_to(rng, 6, 28),
    ),
    made(
        "method-asks",
        5,
        |rng| two_up_to(rng, 8, 26),
        |rng| two_up_to(rng, 10, 28),
    ),
];

/// The next line, without its line feed.
pub fn line(rng: &mut Rng) -> Vec<u8> {
    if rng.one_in(60) {
        return odd_line(rng);
    }
    let name = any_name(rng);
    let asks_a_table = name.name.ends_with("-asks");
    let bytes = match rng.below(12) {
        0..=3 => name.good(rng),
        4..=6 => name.near(rng),
        // A table has two bytes at most: it is not said what more would mean.
        7..=10 if asks_a_table => name.good(rng),
        _ if asks_a_table => {
            let length = rng.below(3);
            (0..length).map(|_| rng.byte()).collect()
        }
        7..=9 => {
            let mut text = name.good(rng);
            change_a_byte(rng, &mut text);
            text
        }
        10 => any_name(rng).good(rng),
        _ => any_bytes(rng),
    };
    written(name.name, &bytes)
}

/// One of the names, each as often as its weight says.
fn any_name(rng: &mut Rng) -> &'static Name {
    let weighted: Vec<(usize, &Name)> = NAMES.iter().map(|name| (name.weight, name)).collect();
    rng.weighted(&weighted)
}

fn written(name: &str, bytes: &[u8]) -> Vec<u8> {
    let mut line = format!("{name} ").into_bytes();
    hex::encode_pairs(bytes, &mut line);
    line
}

fn either(rng: &mut Rng, one: Maker, other: Maker) -> Vec<u8> {
    if rng.one_in(2) {
        one(rng)
    } else {
        other(rng)
    }
}

/// Changes, adds or removes one byte, often by little.
fn change_a_byte(rng: &mut Rng, text: &mut Vec<u8>) {
    if text.is_empty() {
        text.push(rng.byte());
        return;
    }
    let at = rng.below(text.len());
    let other = match rng.below(6) {
        0 => text[at] ^ 0x20,
        1 => text[at].wrapping_add(1),
        2 => text[at].wrapping_sub(1),
        3 => rng.byte(),
        4 => *rng.pick(b"/09:@AZ[`az{"),
        _ => *rng.pick(b"-._@ :+/\\\"0T\x00\x7f\x80\xff"),
    };
    match rng.below(4) {
        0 => text.insert(at, other),
        1 => text.push(other),
        2 => {
            text.remove(at);
        }
        _ => text[at] = other,
    }
}

/// Few bytes at random, of all or of those that texts are made of.
fn any_bytes(rng: &mut Rng) -> Vec<u8> {
    let length = rng.below(26);
    if rng.one_in(2) {
        (0..length).map(|_| rng.byte()).collect()
    } else {
        rng.text(b"abzABZ0129-._:@ +/\\T", length)
    }
}

fn near_desk(rng: &mut Rng) -> Vec<u8> {
    let fire = match rng.below(3) {
        0 => texts::fire_id(rng),
        1 => texts::bad_fire_id(rng),
        _ => at_length(rng, b"abz09", 2, 15),
    };
    let ends = [".callee", ".callee", ".caller", "callee", ".calle", ""];
    [fire, rng.one_of(&ends)].concat()
}

/// A text of about 64 bytes, or one part of it near its own marks.
fn near_message_id(rng: &mut Rng) -> Vec<u8> {
    let side = *rng.pick(&["caller", "callee", "caller", "callee", "", "call"]);
    let fire = at_length(rng, b"abz09_", 2, 15);
    let room = 64usize.saturating_sub(side.len() + fire.len() + 2);
    let own = if rng.one_in(3) {
        at_length(rng, b"azAZ09-", 1, room)
    } else {
        at_length(rng, b"azAZ09", 1, room)
    };
    [side.as_bytes().to_vec(), fire, own].join(&b'-')
}

fn content_type(rng: &mut Rng) -> Vec<u8> {
    rng.one_of(&ContentType::NAMES)
}

fn near_content_type(rng: &mut Rng) -> Vec<u8> {
    let near = |rng: &mut Rng| near_word(rng, &ContentType::NAMES);
    either(rng, texts::bad_content_type, near)
}

fn memo(rng: &mut Rng) -> Vec<u8> {
    let count = *rng.pick(&[0, 1, 20, 127, 128]);
    texts::memo(rng, count)
}

/// A memo of about 128 code points of any mix, bad UTF-8 among them, at times
/// with a backslash, a line break or what is none.
fn near_memo(rng: &mut Rng) -> Vec<u8> {
    const UNITS: &[&[u8]] = &[
        b"a",
        b"\"",
        b"\x00",
        "\u{e9}".as_bytes(),
        "語".as_bytes(),
        "\u{1f600}".as_bytes(),
        b"\xff",
        b"\xc0",
        b"\x7f\x80\xbf",
        b"\xc2\xbf\x80\x80",
    ];
    let count = rng.between(126, 130);
    let few = [*rng.pick(UNITS), *rng.pick(UNITS)];
    let mut text: Vec<u8> = (0..count).flat_map(|_| *rng.pick(&few)).copied().collect();
    if rng.one_in(4) {
        let at = rng.below(text.len() + 1);
        text.insert(at, *rng.pick(b"\\\n\r\t\x0b"));
    }
    if rng.one_in(6) {
        text.splice(0..0, vec![0x80; 3]);
    }
    text
}

fn language(rng: &mut Rng) -> Vec<u8> {
    rng.text(b"abjmnyz", 2)
}

fn cseq(rng: &mut Rng) -> Vec<u8> {
    let method = *rng.pick(&Method::NAMES);
    format!("{} {method}", draft::number(rng)).into()
}

/// A bad CSeq, or one with a number near a mark.
fn near_cseq(rng: &mut Rng) -> Vec<u8> {
    let method = *rng.pick(&Method::NAMES);
    match rng.one_in(2) {
        true => texts::bad_cseq(rng, method),
        false => format!("{} {method}", texts::near_number(rng)).into(),
    }
}

fn address(rng: &mut Rng) -> Vec<u8> {
    let fire = texts::fire_id(rng);
    if rng.one_in(2) {
        texts::callee_address(&fire)
    } else {
        texts::caller_address(&texts::user_id(rng), &fire)
    }
}

fn status(rng: &mut Rng) -> Vec<u8> {
    let code = rng.between(100, 699) as u16;
    texts::status(rng, code)
}

fn near_status(rng: &mut Rng) -> Vec<u8> {
    let code = *rng.pick(&[0, 99, 100, 101, 599, 600, 698, 699, 700, 701, 999, 1000]);
    let space = *rng.pick(&[" ", " ", " ", "", "\t", "0"]);
    let rest = any_bytes(rng);
    [format!("{code:03}{space}").as_bytes(), &rest].concat()
}

/// A word in other letters, cut, gone on, or stuck to another of its kind.
pub fn near_word(rng: &mut Rng, words: &[&str]) -> Vec<u8> {
    let mut text = rng.one_of(words);
    let at = rng.below(text.len() + 1);
    match rng.below(7) {
        0 => text.make_ascii_uppercase(),
        1 => text.make_ascii_lowercase(),
        2 => text.truncate(at),
        3 => {
            text.drain(..at);
        }
        4 => text.push(*rng.pick(b" s0\x00\"")),
        5 => text.insert(0, *rng.pick(b" \"0")),
        _ => text.append(&mut rng.one_of(words)),
    }
    text
}

fn listed_code(rng: &mut Rng) -> Vec<u8> {
    rng.pick(&STATUS_TEXTS).0.to_be_bytes().to_vec()
}

/// A code beside a listed one or any, at times with a byte too few or more.
fn any_code(rng: &mut Rng) -> Vec<u8> {
    let listed = rng.pick(&STATUS_TEXTS).0;
    let code = match rng.below(4) {
        0 => listed + 1,
        1 => listed - 1,
        2 => rng.below(1000) as u16,
        _ => listed,
    };
    let mut bytes = code.to_be_bytes().to_vec();
    match rng.below(6) {
        0 => bytes.reverse(),
        1 => bytes.truncate(1),
        2 => bytes.clear(),
        3 => bytes.push(rng.byte()),
        _ => {}
    }
    bytes
}

/// Two bytes for a table, the first at most `row`, the second at most `column`.
fn two_up_to(rng: &mut Rng, row: usize, column: usize) -> Vec<u8> {
    vec![rng.below(row + 1) as u8, rng.below(column + 1) as u8]
}

/// Lines that are answered `?`, and some that only look like it.
fn odd_line(rng: &mut Rng) -> Vec<u8> {
    const ODD: &[&str] = &[
        "",
        " ",
        "?",
        "\r",
        "fire-id",
        "fire-id ",
        "fire-id  6b31",
        " fire-id 6b31",
        "fire-id 6b31 ",
        "fire-id 6b31\r",
        "fire-id 6b 31",
        "fire-id 6b3",
        "fire-id 6B31",
        "fire-id 6c3g",
        "fire-id -",
        "fire-id --",
        "fire-id\t6b31",
        "fire-id6b31",
        "Fire-ID 6b31",
        "fire-ids 6b31",
        "fire-i 6b31",
        "fire_id 6b31",
        "fire 6b31",
        "session-id 4131",
        "to 4131",
        "6b31",
        " 6b31",
        "memo ",
        "memo 5c",
        "memo 5c6e",
        "memo 0a",
        "memo 610d",
        "memo c285",
        "cseq ",
        "phrase ",
        "phrase 0",
        "phrase 00c",
        "tag-asks ",
        "tag-asks 0500",
        "tag-asks 001b",
        "tag-asks 041a",
        "method-asks ",
        "method-asks 0900",
        "method-asks 001b",
        "method-asks 081a",
        "date 323032342d30322d32395432333a35393a35392b30393030",
    ];
    rng.one_of(ODD)
}

#[cfg(test)]
mod tests {
    use super::*;
    use crate::lines::tests::written;
    use crate::rule_lines::{Question, RuleLines, QUESTIONS};
    use std::collections::{BTreeMap, BTreeSet};

    #[test]
    fn every_question_has_its_texts() {
        let asked: Vec<&str> = NAMES.iter().map(|name| name.name).collect();
        let known: Vec<&str> = QUESTIONS.iter().map(|(name, _)| *name).collect();
        assert_eq!(asked, known);
    }

    /// The answers to each name, in a long run.
    fn answers_by_name() -> BTreeMap<String, BTreeSet<String>> {
        let mut rng = Rng::new(1);
        let lines: Vec<Vec<u8>> = (0..100_000).map(|_| line(&mut rng)).collect();
        let answers = written(RuleLines, &lines.join(&b'\n'));
        let mut all: BTreeMap<String, BTreeSet<String>> = BTreeMap::new();
        for (line, answer) in lines.iter().zip(answers.lines()) {
            let line = String::from_utf8_lossy(line);
            let name = line.split(' ').next().unwrap_or_default();
            let answers = all.entry(name.into()).or_default();
            answers.insert(answer.into());
        }
        all
    }

    #[test]
    fn every_answer_is_reached() {
        let all = answers_by_name();
        for (name, question) in &QUESTIONS {
            let answers = &all[*name];
            let wanted: Vec<String> = match question {
                Question::Keeps(_) => vec!["yes".into(), "no".into()],
                Question::Number(words) => (0..=words.len()).map(|n| n.to_string()).collect(),
                Question::Says(_) => vec!["no".into()],
                Question::Table(_) => vec!["0".into(), "1".into(), "?".into()],
            };
            for answer in wanted {
                assert!(answers.contains(&answer), "{name}: {answer}");
            }
        }
        assert!(all["method-asks"].contains("2"));
        // All listed codes, besides `no` and `?`.
        assert_eq!(all["phrase"].len(), STATUS_TEXTS.len() + 2);
        // The longest user with the longest Fire-ID.
        assert!(all["address"].contains("caller 22 38"));
        assert!(all["address"].contains("callee 27"));
        for code in 1..=8 {
            assert!(all["cseq"].contains(&format!("4294967295 {code}")));
        }
        assert!(all["status"].contains("100") && all["status"].contains("699"));
    }
}
