//! Lines for `probe` that try the check of UTF-8 (01 Reading, row 3) where one
//! that passes many bytes at once could go wrong: the first bad sequence stands
//! at every place of a block in turn, whatever is around it.

use super::rng::Rng;
use super::script;
use crate::message::MAX_LENGTH;

/// A check may pass so many bytes at once.
const BLOCK: usize = 32;

/// The lowest and the highest of each byte.
type Shape = [(u8, u8)];

const TAIL: (u8, u8) = (0x80, 0xbf);

/// The characters of one to four bytes, with their weights: the table of
/// RFC 3629 section 4, and most of three bytes are kana and kanji.
const CHARACTERS: [&[(usize, &Shape)]; 4] = [
    &[(1, &[(0x00, 0x7f)])],
    &[(1, &[(0xc2, 0xdf), TAIL])],
    &[
        (12, &[(0xe3, 0xe9), TAIL, TAIL]),
        (3, &[(0xe1, 0xec), TAIL, TAIL]),
        (2, &[(0xee, 0xef), TAIL, TAIL]),
        (1, &[(0xe0, 0xe0), (0xa0, 0xbf), TAIL]),
        (1, &[(0xed, 0xed), (0x80, 0x9f), TAIL]),
    ],
    &[
        (1, &[(0xf0, 0xf0), (0x90, 0xbf), TAIL, TAIL]),
        (1, &[(0xf1, 0xf3), TAIL, TAIL, TAIL]),
        (1, &[(0xf4, 0xf4), (0x80, 0x8f), TAIL, TAIL]),
    ],
];

/// What the table leaves out: lone tails, first bytes of no character,
/// overlong forms, surrogates, and what is above 10FFFF.
const FORBIDDEN: &[&Shape] = &[
    &[TAIL],
    &[TAIL, TAIL, TAIL],
    &[(0xc0, 0xc1)],
    &[(0xc0, 0xc1), TAIL],
    &[(0xe0, 0xe0), (0x80, 0x9f), TAIL],
    &[(0xed, 0xed), (0xa0, 0xbf), TAIL],
    &[(0xf0, 0xf0), (0x80, 0x8f), TAIL, TAIL],
    &[(0xf4, 0xf4), (0x90, 0xbf), TAIL, TAIL],
    &[(0xf5, 0xff)],
    &[(0xf5, 0xff), TAIL, TAIL, TAIL],
];

/// What good text is made of, with weights.
const PIECES: &[(usize, Piece)] = &[
    (3, Piece::Ascii),
    (3, Piece::ThreeBytes),
    (1, Piece::OtherWidths),
    (1, Piece::Mixture),
];

#[derive(Clone, Copy)]
enum Piece {
    Ascii,
    ThreeBytes,
    OtherWidths,
    Mixture,
}

/// Makes such lines, one after the other.
pub struct Utf8 {
    rng: Rng,
    turn: usize,
}

impl Utf8 {
    pub fn new(seed: u64) -> Self {
        Utf8 {
            rng: Rng::new(seed),
            turn: 0,
        }
    }

    /// The next line, without its line feed.
    pub fn line(&mut self) -> Vec<u8> {
        let (text, _) = self.text();
        script::read(text)
    }

    /// The next text and the place of its first bad sequence. Every eighth
    /// round of the places has none.
    fn text(&mut self) -> (Vec<u8>, Option<usize>) {
        let rng = &mut self.rng;
        let turn = self.turn;
        self.turn += 1;
        if turn / BLOCK % 8 == 7 {
            return (good_text(rng), None);
        }
        let (text, place) = bad_text(rng, turn % BLOCK);
        (text, Some(place))
    }
}

/// Mostly short, now and then thousands of bytes.
fn length(rng: &mut Rng) -> usize {
    match rng.below(400) {
        0 => MAX_LENGTH,
        1 => rng.between(2000, MAX_LENGTH),
        _ => rng.between(1, 200),
    }
}

/// Any characters, or a JSON string of them.
fn good_text(rng: &mut Rng) -> Vec<u8> {
    let length = length(rng);
    if rng.one_in(2) {
        return good(rng, length);
    }
    let mut text = good(rng, length.saturating_sub(2));
    for byte in &mut text {
        if matches!(byte, 0x00..=0x1f | b'"' | b'\\') {
            *byte = b'a';
        }
    }
    [b"\"", &text[..], b"\""].concat()
}

/// A text whose first bad sequence is so many bytes into a block, and its place.
fn bad_text(rng: &mut Rng, into: usize) -> (Vec<u8>, usize) {
    let length = length(rng).max(into + 1);
    let last_block = (length - 1 - into) / BLOCK;
    let place = BLOCK * rng.between(0, last_block) + into;
    let mut text = good(rng, place);
    text.extend(bad_sequence(rng));
    if text.len() < length && !rng.one_in(4) {
        let left = length - text.len();
        text.extend(behind(rng, left));
    }
    // The beginning of a bad sequence is bad too.
    text.truncate(length);
    (text, place)
}

/// Good text, now and then with another bad sequence in it. It does not begin
/// with a tail, which could mend what is before it.
fn behind(rng: &mut Rng, length: usize) -> Vec<u8> {
    let mut text = good(rng, length);
    if rng.one_in(4) {
        let at = rng.between(1, length);
        text.splice(at..at, bad_sequence(rng));
    }
    text
}

/// One of the forbidden, or a character that is cut short or has another byte
/// in the place of a tail, often one of the two beside the tails.
fn bad_sequence(rng: &mut Rng) -> Vec<u8> {
    let mut sequence = Vec::new();
    if rng.one_in(2) {
        let shape = *rng.pick(FORBIDDEN);
        put(rng, shape, &mut sequence);
        return sequence;
    }
    let width = *rng.pick(&[2, 3, 3, 4]);
    put_character(rng, width, &mut sequence);
    let at = rng.between(1, width - 1);
    match rng.below(8) {
        0 | 1 => sequence[at] = *rng.pick(&[0x7f, 0xc0]),
        2 => sequence[at] = byte(rng, (0x00, 0x7f)),
        3 => sequence[at] = byte(rng, (0xc0, 0xff)),
        _ => sequence.truncate(at),
    }
    sequence
}

/// Good text of just this length, with one kind of piece more often than others.
fn good(rng: &mut Rng, length: usize) -> Vec<u8> {
    let favourite = rng.weighted(PIECES);
    let mut pieces = Vec::new();
    let mut left = length;
    while left > 0 {
        let piece = match rng.one_in(2) {
            true => favourite,
            false => rng.weighted(PIECES),
        };
        let bytes = piece.bytes(rng, left);
        left -= bytes.len();
        pieces.push(bytes);
    }
    // So that what was made to fit does not always stand last.
    rng.shuffle(&mut pieces);
    pieces.concat()
}

impl Piece {
    /// Rows of characters of one width each, as many as fit.
    fn bytes(self, rng: &mut Rng, most: usize) -> Vec<u8> {
        let rows = match self {
            Piece::Ascii => vec![(1, rng.between(0, 70))],
            Piece::ThreeBytes => vec![(3, rng.between(0, 12))],
            Piece::OtherWidths => vec![(*rng.pick(&[2, 4]), rng.between(1, 3))],
            Piece::Mixture => {
                let mut row = || (*rng.pick(&[1, 1, 2, 3, 3, 4]), rng.between(1, 6));
                (0..6).map(|_| row()).collect()
            }
        };
        let mut bytes = Vec::new();
        for (width, count) in rows {
            for _ in 0..count {
                if bytes.len() + width <= most {
                    put_character(rng, width, &mut bytes);
                }
            }
        }
        bytes
    }
}

/// Puts a character of so many bytes at the end of `out`.
fn put_character(rng: &mut Rng, width: usize, out: &mut Vec<u8>) {
    let shape = rng.weighted(CHARACTERS[width - 1]);
    put(rng, shape, out);
}

/// Puts bytes of the shape: any, and now and then the lowest or the highest.
fn put(rng: &mut Rng, shape: &Shape, out: &mut Vec<u8>) {
    match rng.below(12) {
        0 => out.extend(shape.iter().map(|(low, _)| low)),
        1 => out.extend(shape.iter().map(|(_, high)| high)),
        _ => out.extend(shape.iter().map(|bounds| byte(rng, *bounds))),
    }
}

fn byte(rng: &mut Rng, (low, high): (u8, u8)) -> u8 {
    rng.between(low.into(), high.into()) as u8
}

#[cfg(test)]
mod tests {
    use super::*;
    use crate::lines::Answerer;
    use crate::probe::Probe;

    #[test]
    fn the_place_is_answered_and_goes_round_the_block() {
        let mut probe = Probe::new();
        let mut utf8 = Utf8::new(1);
        let mut places = [0; BLOCK];
        // Sixteen times seven rounds of bad texts and one of good ones.
        for _ in 0..16 * 8 * BLOCK {
            let (text, place) = utf8.text();
            assert!((1..=MAX_LENGTH).contains(&text.len()));
            let answer = probe.answer(&script::read(text)).unwrap();
            let answer = String::from_utf8(answer).unwrap();
            match place {
                Some(place) => {
                    assert_eq!(answer, format!("no 3 {place} 0"));
                    places[place % BLOCK] += 1;
                }
                None => assert!(answer.starts_with("no 4 ") || answer.starts_with("no 6 0 ")),
            }
        }
        assert_eq!(places, [16 * 7; BLOCK]);
    }
}
