//! Counts the answers of either program by word, number and shape, so that a
//! case that was never reached shows with 0.

use crate::call::Word;
use crate::hex;
use crate::lines::Lines;
use crate::probe::FILL;
use std::collections::BTreeMap;
use std::fmt;
use std::io::{self, BufRead, Write};

/// Longer than any answer that is told apart by its end.
const LINE_LIMIT: usize = 200_000;

/// The shape of an answer line, in the order they are printed.
#[derive(Debug, Clone, PartialEq, Eq, PartialOrd, Ord)]
enum Shape {
    // The program's answers.
    Bad,
    Accepted(Word, u8),
    Refused(u32),
    // The probe's answers.
    Question,
    Ok,
    WrongTable,
    Dump,
    Read,
    Unread(u32),
    /// 2 to 5 and 11: a reading and an event are answered alike.
    NoText(u32),
    EventAccepted(Word, u8),
    EventRefused(u32, u32),
    Located,
    NotLocated(u32),
    Written,
    NotWritten(u32),
    Removed,
    NotRemoved(u32),
    /// None of these: no answer should be.
    Other,
}

impl Shape {
    fn is_of_keep(&self) -> bool {
        *self <= Shape::Refused(u32::MAX)
    }
}

impl fmt::Display for Shape {
    fn fmt(&self, f: &mut fmt::Formatter) -> fmt::Result {
        match self {
            Shape::Bad => write!(f, "bad"),
            Shape::Accepted(word, state) => write!(f, "{} {state}", word.name()),
            Shape::Refused(number) => write!(f, "refused {number}"),
            Shape::Question => write!(f, "?"),
            Shape::Ok => write!(f, "ok"),
            Shape::WrongTable => write!(f, "no 1"),
            Shape::Dump => write!(f, "dump"),
            Shape::Read => write!(f, "read ok"),
            Shape::Unread(number) => write!(f, "read no {number}"),
            Shape::NoText(number) => write!(f, "read or event no {number}"),
            Shape::EventAccepted(word, state) => write!(f, "event ok {} {state}", word.name()),
            Shape::EventRefused(number, reply) => write!(f, "event no {number} reply {reply}"),
            Shape::Located => write!(f, "positions ok"),
            Shape::NotLocated(number) => write!(f, "positions no {number}"),
            Shape::Written => write!(f, "written ok"),
            Shape::NotWritten(number) => write!(f, "written no {number}"),
            Shape::Removed => write!(f, "removed ok"),
            Shape::NotRemoved(number) => write!(f, "removed no {number}"),
            Shape::Other => write!(f, "other"),
        }
    }
}

/// Counts the answers on `input`; one line for each shape, `COUNT SHAPE`.
pub fn run(input: impl BufRead, mut output: impl Write) -> io::Result<()> {
    let mut counts = BTreeMap::new();
    let mut lines = Lines::new(input, LINE_LIMIT);
    while let Some(line) = lines.next()? {
        *counts.entry(shape_of(line.bytes)).or_insert(0u64) += 1;
    }
    add_never_reached(&mut counts);
    for (shape, count) in counts {
        writeln!(output, "{count:>8} {shape}")?;
    }
    output.flush()
}

/// Adds with 0 all shapes that the program seen can give.
fn add_never_reached(counts: &mut BTreeMap<Shape, u64>) {
    let keep = counts.keys().any(Shape::is_of_keep);
    let probe = counts.keys().any(|shape| !shape.is_of_keep());
    let mut possible = Vec::new();
    if keep {
        possible.extend(keep_shapes());
    }
    if probe {
        possible.extend(probe_shapes());
    }
    for shape in possible {
        counts.entry(shape).or_insert(0);
    }
}

/// The words with the states they can come with.
fn words() -> Vec<(Word, u8)> {
    let any = [Word::Pass, Word::Repeat, Word::None];
    let mut all: Vec<(Word, u8)> = any
        .into_iter()
        .flat_map(|word| (1..=6).map(move |state| (word, state)))
        .collect();
    all.extend([
        (Word::Bye, 5),
        (Word::Timeout, 5),
        (Word::Idle, 5),
        (Word::Freed, 0),
    ]);
    all
}

fn keep_shapes() -> Vec<Shape> {
    let mut shapes = vec![Shape::Bad];
    shapes.extend(
        words()
            .into_iter()
            .map(|(word, state)| Shape::Accepted(word, state)),
    );
    shapes.extend((2..=11).chain(20..=28).map(Shape::Refused));
    shapes
}

fn probe_shapes() -> Vec<Shape> {
    let mut shapes = vec![
        Shape::Question,
        Shape::Ok,
        Shape::WrongTable,
        Shape::Dump,
        Shape::Read,
        Shape::Located,
        Shape::Written,
        Shape::Removed,
    ];
    shapes.extend((6..=10).map(Shape::Unread));
    shapes.extend((2..=5).chain([11]).map(Shape::NoText));
    shapes.extend((2..=10).map(Shape::NotLocated));
    shapes.extend(
        words()
            .into_iter()
            .map(|(word, state)| Shape::EventAccepted(word, state)),
    );
    shapes.extend((6..=10).map(|number| Shape::EventRefused(number, 0)));
    let replies = [
        (1, 0),
        (20, 0),
        (20, 404),
        (20, 481),
        (21, 0),
        (21, 481),
        (22, 0),
        (22, 500),
        (23, 0),
        (23, 500),
        (24, 0),
        (24, 400),
        (25, 405),
        (26, 404),
        (27, 486),
        (28, 0),
    ];
    shapes.extend(replies.map(|(number, reply)| Shape::EventRefused(number, reply)));
    shapes.extend([9, 30, 31, 32, 33, 34, 35, 38, 39].map(Shape::NotWritten));
    // Taking an entry off makes no text longer, so 39 is not among these.
    shapes.extend([30, 33, 36, 37, 38].map(Shape::NotRemoved));
    shapes
}

fn shape_of(line: &[u8]) -> Shape {
    let Ok(text) = std::str::from_utf8(line) else {
        return Shape::Other;
    };
    let words: Vec<&str> = text.split(' ').collect();
    known_shape(&words).unwrap_or(Shape::Other)
}

fn known_shape(words: &[&str]) -> Option<Shape> {
    let shape = match *words {
        ["bad"] => Shape::Bad,
        ["?"] => Shape::Question,
        ["ok"] => Shape::Ok,
        ["no", "1"] => Shape::WrongTable,
        ["ok", count] if count.parse::<u64>().is_ok() => Shape::Read,
        ["ok", word, state] if Word::of_name(word).is_some() => {
            Shape::EventAccepted(Word::of_name(word)?, state.parse().ok()?)
        }
        ["ok", length, room] if is_in_room(length, room) => Shape::Written,
        ["ok", length, room, _] if is_in_room(length, room) => Shape::Removed,
        ["ok", ref positions @ ..] if are_positions(positions) => Shape::Located,
        ["no", number, room] if is_untouched(room) => Shape::NotWritten(number.parse().ok()?),
        ["no", number, place] if place.parse::<usize>().is_ok() => {
            Shape::NotLocated(number.parse().ok()?)
        }
        ["no", number, _, rest] => match number.parse().ok()? {
            number @ 30.. => Shape::NotRemoved(number),
            number => refusal(number, rest.parse().ok()?),
        },
        [_, "refused", number] => Shape::Refused(number.parse().ok()?),
        [_, word, state] => Shape::Accepted(Word::of_name(word)?, state.parse().ok()?),
        [hex] if !hex.is_empty() => Shape::Dump,
        _ => return None,
    };
    Some(shape)
}

/// Does a result of this length fit a room that is shown in hex?
fn is_in_room(length: &str, room: &str) -> bool {
    let bytes = hex::decode(room.as_bytes());
    let length = length.parse::<usize>();
    bytes.is_some_and(|bytes| length.is_ok_and(|length| length <= bytes.len()))
}

/// Is this a room as it was before a writer refused?
fn is_untouched(room: &str) -> bool {
    hex::decode(room.as_bytes()).is_some_and(|bytes| bytes.iter().all(|byte| *byte == FILL))
}

/// Pairs of coordinates, with `home` before the last where there is a home.
fn are_positions(words: &[&str]) -> bool {
    let (places, home) = match words.iter().position(|word| *word == "home") {
        Some(index) => (&words[..index], &words[index + 1..]),
        None => (words, &[][..]),
    };
    let mut coordinates = places.iter().chain(home);
    places.len() % 2 == 0
        && matches!(home.len(), 0 | 2)
        && coordinates.all(|word| word.parse::<i32>().is_ok())
}

/// A refusal with a place: of a reading with its count, which is 0 only where
/// there is no text, or of an event with its reply, 0 for all of reading's.
fn refusal(number: u32, count_or_reply: u32) -> Shape {
    match (number, count_or_reply) {
        (2..=5 | 11, 0) => Shape::NoText(number),
        (6..=10, 1..) => Shape::Unread(number),
        (_, reply) => Shape::EventRefused(number, reply),
    }
}

#[cfg(test)]
mod tests {
    use super::*;

    #[test]
    fn tells_shapes_apart() {
        for (line, shape) in [
            ("bad", Shape::Bad),
            ("0012 pass 3", Shape::Accepted(Word::Pass, 3)),
            ("7 freed 0", Shape::Accepted(Word::Freed, 0)),
            ("7 refused 20", Shape::Refused(20)),
            ("?", Shape::Question),
            ("ok", Shape::Ok),
            ("no 1", Shape::WrongTable),
            ("4e4354", Shape::Dump),
            ("-", Shape::Dump),
            ("ok 12", Shape::Read),
            ("no 4 2 0", Shape::NoText(4)),
            ("no 11 0 0", Shape::NoText(11)),
            ("no 9 19 12", Shape::Unread(9)),
            ("no 9 19 0", Shape::EventRefused(9, 0)),
            ("ok pass 3", Shape::EventAccepted(Word::Pass, 3)),
            ("no 20 0 481", Shape::EventRefused(20, 481)),
            ("ok home 35660000 139750000", Shape::Located),
            ("ok 35660000 139750000", Shape::Located),
            ("ok 0 -180000000 -1 0 home 1 1", Shape::Located),
            ("ok home 1", Shape::Other),
            ("ok 1 1 1", Shape::Other),
            ("ok 1 x", Shape::Other),
            ("no 4 2", Shape::NotLocated(4)),
            ("no 10 0", Shape::NotLocated(10)),
            ("ok 2 5b5d", Shape::Written),
            ("ok 0 -", Shape::Written),
            ("no 33 -", Shape::NotWritten(33)),
            ("no 9 5a", Shape::NotWritten(9)),
            ("ok 2 5b5d5a 61", Shape::Removed),
            ("no 36 5a -", Shape::NotRemoved(36)),
            ("", Shape::Other),
            ("a b", Shape::Other),
            ("no 4 x", Shape::Other),
        ] {
            assert_eq!(shape_of(line.as_bytes()), shape, "{line}");
        }
    }

    #[test]
    fn shows_what_was_never_reached() {
        let mut out = Vec::new();
        run(&b"1 pass 1\n2 pass 1\nbad\n"[..], &mut out).unwrap();
        let text = String::from_utf8(out).unwrap();
        assert!(text.contains("       2 pass 1\n"));
        assert!(text.contains("       0 refused 27\n"));
        assert!(!text.contains("event"));
    }
}
