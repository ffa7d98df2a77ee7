//! Ceilings of values (02 §9): numbers around the values of a text, and lines
//! for `probe` that read wide, deep, broken and real texts under them.

use super::damage;
use super::draft;
use super::node::{Node, Spacing};
use super::raw;
use super::rng::Rng;
use super::script;
use crate::json;
use crate::message::{CEILING, MAX_LENGTH};

/// Texts whose fault stands close to where a value begins.
const SHORT: &[&str] = &[
    "1",
    "tx",
    "[tx",
    "[1,tx",
    "{\"a\":tx",
    "[nul]",
    "[falsE]",
    "[-",
    "[-x]",
    "[01]",
    "[\"",
    "[\"\\x\"]",
    "[1 1]",
    "[1,]",
    "[1,,1]",
    "[,1]",
    "[1}",
    "[x",
    "[]1",
    "[1]]",
    "{1:1}",
    "{\"a",
    "{\"a\"1}",
    "{\"a\":}",
    "{\"a\":1 1}",
    "{\"a\":1,}",
    "[[[[[[[[1[",
    "[[[[[[[[,[",
    "[[[[[[[[1,[",
    "[[[[[[[[[tx",
];

/// The next two lines: a ceiling, and a text to read under it.
pub fn pair(rng: &mut Rng) -> Vec<u8> {
    let text = match rng.percent(30) {
        true => broken(rng),
        false => whole(rng),
    };
    let ceiling = around(rng, &text);
    [script::ceiling(ceiling), script::read(text)].join(&b'\n')
}

/// A ceiling near the values that a text begins, where one value more or less
/// matters; now and then one of few values, or one that none passes.
pub fn around(rng: &mut Rng, text: &[u8]) -> u32 {
    let begun = json::begun(text);
    match rng.below(14) {
        0..=2 => begun.saturating_sub(1),
        3..=7 => begun,
        8 | 9 => begun + 1,
        10 => rng.below(begun as usize + 1) as u32,
        11 => rng.below(5) as u32,
        _ => *rng.pick(&[CEILING - 1, CEILING, CEILING + 1, u32::MAX - 1, u32::MAX]),
    }
}

/// As many values as the longest message has room for, or one more or less.
pub fn crowd(rng: &mut Rng) -> Vec<u8> {
    let most = MAX_LENGTH / 2;
    let count = rng.between(most - 1, most + 1);
    let mut text = tight(rng, count);
    if rng.one_in(4) {
        text.push(b' ');
    }
    text.truncate(MAX_LENGTH + usize::from(rng.one_in(8)));
    text
}

/// A wide or deep text, or a message.
fn whole(rng: &mut Rng) -> Vec<u8> {
    match rng.below(14) {
        0 => {
            let count = few_or_many(rng);
            tight(rng, count)
        }
        1 => loose(rng),
        2..=4 => raw::depth(rng),
        5 if rng.one_in(30) => crowd(rng),
        _ => script::message(rng),
    }
}

/// A text cut at any place or changed in a few bytes, or one that is broken
/// from the start.
fn broken(rng: &mut Rng) -> Vec<u8> {
    match rng.below(10) {
        0 | 1 => rng.one_of(SHORT),
        2 => {
            let length = rng.below(6);
            rng.text(b" \t\r\n", length)
        }
        3..=5 => {
            let mut text = whole(rng);
            text.truncate(rng.below(text.len() + 1));
            text
        }
        6 => raw::text(rng),
        _ => {
            let mut text = whole(rng);
            damage::scatter(rng, &mut text);
            text
        }
    }
}

fn few_or_many(rng: &mut Rng) -> usize {
    match rng.below(40) {
        0 => rng.between(30, 3000),
        _ => rng.between(1, 30),
    }
}

/// A text of so many values in as few bytes as may be: twice as many less one.
fn tight(rng: &mut Rng, count: usize) -> Vec<u8> {
    let levels = *rng.pick(&[1, 2, json::MAX_DEPTH]);
    crowded(rng, count, levels).render(rng, Spacing::None)
}

/// So many values in arrays to a depth of `levels`, none of them empty.
fn crowded(rng: &mut Rng, count: usize, levels: usize) -> Node {
    if count == 1 {
        return Node::raw([*rng.pick(b"0123456789")]);
    }
    let mut elements = Vec::new();
    let mut left = count - 1;
    while left > 0 {
        let own = match levels > 1 && rng.one_in(6) {
            true => rng.between(1, left),
            false => 1,
        };
        elements.push(crowded(rng, own, levels - 1));
        left -= own;
    }
    Node::Array(elements)
}

/// Small values of all kinds side by side, as elements or as members.
fn loose(rng: &mut Rng) -> Vec<u8> {
    let count = few_or_many(rng);
    let values: Vec<Node> = (0..count).map(|_| draft::any_value(rng)).collect();
    let member = |value| Node::member("a", value);
    let list = match rng.one_in(2) {
        true => Node::Array(values),
        false => Node::Object(values.into_iter().map(member).collect()),
    };
    let spacing = *rng.pick(&[Spacing::None, Spacing::Light, Spacing::Heavy]);
    let mut text = list.render(rng, spacing);
    text.truncate(MAX_LENGTH);
    text
}

#[cfg(test)]
mod tests {
    use super::*;
    use crate::json::Fault;

    #[test]
    fn tight_texts_have_as_many_values_as_their_bytes_allow() {
        let mut rng = Rng::new(1);
        for count in (1..300).chain([16_383, 16_384, 16_385]) {
            let text = tight(&mut rng, count);
            let read = json::parse(&text, count as u32).unwrap();
            assert_eq!(read.count, count as u32);
            assert_eq!(2 * count, text.len() + 1);
        }
    }

    #[test]
    fn both_sides_of_every_ceiling() {
        let mut rng = Rng::new(1);
        let (mut too_many, mut too_deep, mut exact) = (0, 0, 0);
        for _ in 0..4000 {
            let text = whole(&mut rng);
            let ceiling = around(&mut rng, &text);
            match json::parse(&text, ceiling) {
                Err(Fault::TooMany(_)) => too_many += 1,
                // A ninth bracket that is also one too many.
                Err(Fault::TooDeep(_)) if ceiling == json::begun(&text) => too_deep += 1,
                Ok(read) if read.count == ceiling => exact += 1,
                _ => {}
            }
        }
        assert!(too_many > 800 && too_deep > 100 && exact > 500);
    }

    #[test]
    fn crowds_pass_the_programs_ceiling_or_just_do_not() {
        let mut rng = Rng::new(1);
        let (mut over, mut under) = (0, 0);
        for _ in 0..60 {
            let text = crowd(&mut rng);
            match json::parse(&text, CEILING) {
                Err(Fault::TooMany(_)) => over += 1,
                Ok(read) if read.count >= CEILING - 1 => under += 1,
                other => panic!("{:?}", other.map(|read| read.count)),
            }
        }
        assert!(over > 10 && under > 20);
    }
}
