//! Near misses (02 §12): values of the fields 1 to 5 that are good but for a
//! letter or two, so that the first bad one may stand anywhere.

use super::draft;
use super::escapes;
use super::node::Node;
use super::rng::Rng;
use super::texts;
use crate::escapes::text;
use crate::fields::*;

/// The fields whose letters are told.
pub const FIELDS: [usize; 5] = [CSEQ, TO, FROM, DATE, CALL_ID];

/// How a value comes to be a miss.
#[derive(Clone, Copy)]
pub enum Miss {
    Changed,
    Removed,
    Inserted,
    Doubled,
    Cut,
    Prolonged,
    /// A letter beyond ASCII stands among the others or for one of them.
    Foreign,
    /// A lone surrogate stands among the letters.
    Lone,
    /// Another text stands there, at a limit of the rule or past it.
    Limit,
    NoString,
}

impl Miss {
    pub const ALL: [Miss; 10] = [
        Miss::Changed,
        Miss::Removed,
        Miss::Inserted,
        Miss::Doubled,
        Miss::Cut,
        Miss::Prolonged,
        Miss::Foreign,
        Miss::Lone,
        Miss::Limit,
        Miss::NoString,
    ];
}

/// A value near a good one of this field. Some are still good.
pub fn near(rng: &mut Rng, field: usize, miss: Miss, good: &Node) -> Node {
    let text = match (miss, escapes::string(good).and_then(text)) {
        (Miss::NoString, _) | (_, None) => return draft::any_value(rng),
        (Miss::Limit, Some(text)) => at_a_limit(rng, field, &text),
        (_, Some(text)) => text,
    };
    let mut letters: Vec<char> = String::from_utf8_lossy(&text).chars().collect();
    edit(rng, miss, &mut letters);
    if rng.one_in(6) {
        edit(rng, Miss::Changed, &mut letters);
    }
    let value = Node::text(escapes::quotable(rng, &String::from_iter(letters)));
    match miss {
        Miss::Lone => escapes::broken(rng, &value),
        _ => value,
    }
}

/// A text of the field with parts at either end of their range, or just outside. A
/// CSeq keeps its method, which other fields go by.
fn at_a_limit(rng: &mut Rng, field: usize, good: &[u8]) -> Vec<u8> {
    match field {
        CSEQ => {
            let number = texts::near_number(rng).to_string();
            let rest = good.iter().skip_while(|byte| byte.is_ascii_digit());
            number.bytes().chain(rest.copied()).collect()
        }
        TO | FROM => texts::near_address(rng),
        DATE => texts::near_date(rng),
        _ => texts::near_call_id(rng),
    }
}

/// Does to the letters what the miss says, if that is done to letters.
fn edit(rng: &mut Rng, miss: Miss, letters: &mut Vec<char>) {
    const FOREIGN: [char; 8] = [
        '\u{80}',
        'é',
        'ſ',
        '\u{2028}',
        '語',
        '１',
        '\u{1f600}',
        '\u{10ffff}',
    ];
    if letters.is_empty() {
        return;
    }
    let at = rng.below(letters.len());
    let letter = letters[at];
    let other = another(rng, letter);
    match miss {
        Miss::Changed => letters[at] = other,
        Miss::Removed => {
            letters.remove(at);
        }
        Miss::Inserted => letters.insert(at, other),
        Miss::Doubled if rng.one_in(4) => letters.extend_from_within(..),
        Miss::Doubled => letters.insert(at, letter),
        Miss::Cut => letters.truncate(at),
        Miss::Prolonged => {
            let count = rng.weighted(&[(6, 1), (3, 2), (1, 300)]);
            let more = *rng.pick(&[letter, other, ' ']);
            letters.extend(vec![more; count]);
        }
        Miss::Foreign => {
            let replaced = rng.below(2);
            letters.splice(at..at + replaced, [*rng.pick(&FOREIGN)]);
        }
        Miss::Lone | Miss::Limit | Miss::NoString => {}
    }
}

/// A letter beside this one, of the other case, at either end of a class, or one
/// that parts the texts of the fields or must be spelled with an escape.
fn another(rng: &mut Rng, letter: char) -> char {
    let letter = letter as u8;
    let other = match rng.below(5) {
        0 => letter ^ 0x20,
        1 => letter.wrapping_add(1),
        2 => letter.wrapping_sub(1),
        3 => *rng.pick(b"/09:@AZ[`az{"),
        _ => *rng.pick(b"-._@ :+/0T\"\\\x00\x1f\x7f"),
    };
    char::from(other & 0x7f)
}
