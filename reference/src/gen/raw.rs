//! JSON texts that are no messages: the grammar's corners, for `read`.

use super::damage;
use super::draft;
use super::node::{Node, Spacing};
use super::rng::Rng;

const NUMBERS: &[&str] = &[
    "0",
    "-0",
    "1",
    "-1",
    "10",
    "01",
    "00",
    "-01",
    "-",
    "--1",
    "+1",
    ".5",
    "1.",
    "1.5",
    "-1.5",
    "1..5",
    "1.5.1",
    "1e",
    "1e5",
    "1E5",
    "1e+5",
    "1e-5",
    "1e+",
    "1e-",
    "1e+-5",
    "1ee5",
    "1e5.5",
    "1.e5",
    "0e0",
    "0.0",
    "0.",
    "0e",
    "0x1",
    "1_000",
    "1 2",
    "Infinity",
    "NaN",
    "-Infinity",
    "123456789012345678901234567890",
    "1e999999",
    "-a",
    "0-",
    "1+1",
    "-0.0E-0",
    "١",
];

const LITERALS: &[&str] = &["null", "true", "false"];

const STRINGS: &[&str] = &[
    "\"\"",
    "\"",
    "\"abc",
    "\"\\\"\"",
    "\"\\\\\"",
    "\"\\/\"",
    "\"\\b\\f\\n\\r\\t\"",
    "\"\\u0000\"",
    "\"\\uFfFf\"",
    "\"\\ud800\"",
    "\"\\udc00\\ud800\"",
    "\"\\ud83d\\ude00\"",
    "\"\\u\"",
    "\"\\u1\"",
    "\"\\u12\"",
    "\"\\u123\"",
    "\"\\u123g\"",
    "\"\\ug123\"",
    "\"\\u12 4\"",
    "\"\\U0041\"",
    "\"\\x41\"",
    "\"\\a\"",
    "\"\\'\"",
    "\"\\0\"",
    "\"\\",
    "\"\\u",
    "\"\\u00",
    "'a'",
    "\"a\" \"b\"",
    "\"\u{7f}\"",
    "\"\u{80}\u{7ff}\u{800}\u{ffff}\u{10000}\u{10ffff}\"",
    "\"\u{2028}\"",
];

const STRUCTURES: &[&str] = &[
    "[]",
    "{}",
    "[",
    "{",
    "]",
    "}",
    "[]]",
    "{}}",
    "[,]",
    "[1,]",
    "[,1]",
    "[1,,2]",
    "[1 2]",
    "[1}",
    "{,}",
    "{\"a\"}",
    "{\"a\":}",
    "{\"a\":1,}",
    "{\"a\":1 \"b\":2}",
    "{\"a\" 1}",
    "{\"a\"::1}",
    "{\"a\",1}",
    "{1:2}",
    "{a:1}",
    "{null:1}",
    "{\"a\":1]",
    "{[]:1}",
    "{{}:1}",
    "{\"a\":{}}",
    "{\"a\":1,\"a\":2}",
    "[[],[],{}]",
    "[:]",
    "[\"a\":1]",
    ":",
    ",",
    "[] []",
    "{}{}",
    "1 1",
    "null null",
    "[]x",
    "// c",
    "/**/[]",
    "[1/**/]",
    "#",
    "",
    " ",
    "\t\r\n ",
    "\u{b}[]",
    "\u{c}[]",
    "\u{a0}[]",
    "\u{feff}[]",
    "\u{feff}",
    "[]\u{0}",
    "\u{0}",
];

/// Envelopes that row 6 refuses, and a few that it does not.
const ENVELOPES: &[&str] = &[
    "[\"request\",{}]",
    "[\"response\",{}]",
    "[\"ping\",{}]",
    "[\"pong\",{}]",
    "[\"request\"]",
    "[\"request\",{},{}]",
    "[{},\"request\"]",
    "[\"request\",[]]",
    "[\"request\",null]",
    "[\"Request\",{}]",
    "[null,{}]",
    "{\"request\":{}}",
    "\"request\"",
    "[\"ping\",{\"Date\":1}]",
    "[[\"request\",{}]]",
    "[\"\\u0070ing\",{}]",
    "[\"\\u0050ing\",{}]",
    "[\"ping\\udc00\",{}]",
    "[\"pin\",{}]",
    "[\"ping \",{}]",
    "null",
    "[\"pong\",{\"Date\":1,\"Date\":1}]",
    "[\"ping\",{\"x\":1,\"x\":1}]",
];

/// A case of the grammar.
pub fn text(rng: &mut Rng) -> Vec<u8> {
    match rng.below(16) {
        0 | 1 => wrapped(rng, NUMBERS),
        2 => literal(rng),
        3 | 4 => wrapped(rng, STRINGS),
        5 => control_byte(rng),
        6 | 7 => wrapped(rng, STRUCTURES),
        8 => rng.one_of(ENVELOPES),
        9 | 10 => depth(rng),
        11 => bad_utf8(rng),
        12 => alphabet(rng),
        _ => tree(rng),
    }
}

/// A case by itself or where a value may stand.
fn wrapped(rng: &mut Rng, cases: &[&str]) -> Vec<u8> {
    let case = rng.one_of(cases);
    wrap(rng, &case)
}

fn wrap(rng: &mut Rng, case: &[u8]) -> Vec<u8> {
    let (before, after): (&str, &str) = *rng.pick(&[
        ("", ""),
        ("", ""),
        (" ", "\n"),
        ("[", "]"),
        ("[1,", ",2]"),
        ("{\"a\":", "}"),
        ("{\"a\":[", "]}"),
        ("[\"request\",{\"x\":", "}]"),
        ("", " x"),
        ("[", ""),
    ]);
    [before.as_bytes(), case, after.as_bytes()].concat()
}

/// A literal, cut or changed at any of its bytes, or gone on.
fn literal(rng: &mut Rng) -> Vec<u8> {
    let mut word = rng.one_of(LITERALS);
    let at = rng.below(word.len());
    match rng.below(5) {
        0 => word.truncate(at),
        1 => word[at] = *rng.pick(b"!xNnTtRrUuLlEeFfAaSs\""),
        2 => word.push(*rng.pick(b"lex0 \"")),
        3 => word.insert(at, b' '),
        _ => {}
    }
    wrap(rng, &word)
}

/// A byte below 20 hex, or 7F, inside a string or beside it.
fn control_byte(rng: &mut Rng) -> Vec<u8> {
    let byte = match rng.below(20) {
        0 => 0x7f,
        1 => 0x20,
        _ => rng.below(0x20) as u8,
    };
    let case = match rng.below(3) {
        0 => vec![b'"', b'a', byte, b'"'],
        1 => vec![b'"', b'\\', byte, b'"'],
        _ => vec![b'"', b'"', byte],
    };
    wrap(rng, &case)
}

/// Seven to ten brackets of any mix, closed, cut or gone on.
pub fn depth(rng: &mut Rng) -> Vec<u8> {
    let levels = rng.between(7, 10);
    if rng.one_in(2) {
        let node = draft::nested(rng, levels);
        let spacing = *rng.pick(&[Spacing::None, Spacing::Heavy]);
        return node.render(rng, spacing);
    }
    let mut text = Vec::new();
    for _ in 0..levels {
        text.extend_from_slice(
            rng.pick(&["[", "[ ", "[1,", "{\"a\":", "{\"[\":"])
                .as_bytes(),
        );
    }
    let tail = *rng.pick(&[
        "", "[", "{", "]", "}", "1", "x", "1[", "\"\"{", "[]", "{}", ",",
    ]);
    text.extend_from_slice(tail.as_bytes());
    text
}

fn bad_utf8(rng: &mut Rng) -> Vec<u8> {
    let mut case = b"\"a".to_vec();
    case.extend_from_slice(damage::sequence(rng));
    if rng.percent(80) {
        case.extend_from_slice(b"b\"");
    }
    let mut text = wrap(rng, &case);
    if rng.one_in(4) {
        damage::put_sequence(rng, &mut text);
    }
    text
}

/// A short string of the bytes JSON is made of.
fn alphabet(rng: &mut Rng) -> Vec<u8> {
    let length = rng.between(1, 12);
    rng.text(b"[]{}\"\",:10-.eEntf\\u \n", length)
}

/// A random tree, half the time damaged.
fn tree(rng: &mut Rng) -> Vec<u8> {
    let node = branch(rng, 0);
    let spacing = *rng.pick(&[Spacing::None, Spacing::Light, Spacing::Heavy]);
    let mut text = node.render(rng, spacing);
    if rng.one_in(2) {
        damage::scatter(rng, &mut text);
    }
    text
}

fn branch(rng: &mut Rng, level: usize) -> Node {
    let count = rng.below(4);
    match rng.below(4) {
        0 if level < 9 => Node::Array((0..count).map(|_| branch(rng, level + 1)).collect()),
        1 if level < 9 => {
            let member = |rng: &mut Rng| {
                let name = *rng.pick(&["", "a", "\\n", "名", "To"]);
                Node::member(name, branch(rng, level + 1))
            };
            Node::Object((0..count).map(|_| member(rng)).collect())
        }
        _ => draft::any_value(rng),
    }
}
