//! Lines for `json`.

use super::ceilings;
use super::damage;
use super::draft::Plan;
use super::flow;
use super::raw;
use super::rng::Rng;
use crate::hex;
use crate::message::MAX_LENGTH;

/// The next line, without its line feed.
pub fn line(rng: &mut Rng) -> Vec<u8> {
    let mut text = match rng.below(2000) {
        0 => long(rng),
        1 => ceilings::crowd(rng),
        2..=29 => return odd_line(rng),
        30..=149 => {
            let plan = Plan::random(rng);
            flow::message(rng, &plan)
        }
        150..=249 => rng.text(b"[]{}\",:0 ", 14),
        250..=299 => {
            let length = rng.between(1, 6);
            (0..length).map(|_| rng.byte()).collect()
        }
        _ => raw::text(rng),
    };
    if rng.one_in(8) {
        damage::scatter(rng, &mut text);
    }
    let ceiling = ceilings::around(rng, &text);
    let mut line = format!("{ceiling} ").into_bytes();
    hex::encode(&text, &mut line);
    line
}

/// A text about as long as a message may be, which is no matter here.
fn long(rng: &mut Rng) -> Vec<u8> {
    let length = rng.between(MAX_LENGTH - 1, MAX_LENGTH + 2);
    let mut text = raw::text(rng);
    damage::grow(rng, &mut text, length);
    text
}

/// Lines of no bytes, lines that are answered `?`, and some that only look
/// like it.
fn odd_line(rng: &mut Rng) -> Vec<u8> {
    const ODD: &[&str] = &[
        "",
        " ",
        "-",
        "9",
        "9 ",
        "0 ",
        "9 -",
        "0 -",
        "9 --",
        "9 -5b",
        "9 5",
        "9 5b5",
        "9 5B5D",
        "9 5b5D",
        "9 5b5g",
        "9 5b 5d",
        "9  5b5d",
        " 9 5b5d",
        "9 5b5d ",
        "9 5b5d\r",
        "9\t5b5d",
        "\r",
        "?",
        "5b5d",
        " 5b5d",
        "- 5b5d",
        "-1 5b5d",
        "+1 5b5d",
        "0x9 5b5d",
        "00009 5b5d",
        "4294967295 5b5d",
        "4294967296 5b5d",
        "18446744073709551616 5b5d",
        "9 []",
        "9 0x5b",
        "read 5b5d",
    ];
    rng.one_of(ODD)
}
