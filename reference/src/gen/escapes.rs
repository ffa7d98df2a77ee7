//! Strings spelled with escapes (02 §2): the same text in other letters, texts
//! at and far beyond their longest, lone surrogates, names spelled two ways.

use super::draft::{self, Draft};
use super::node::Node;
use super::rng::Rng;
use super::texts;
use crate::escapes;
use crate::message::MAX_LENGTH;

/// Surrogates that are no pairs: alone, the wrong way round, or with something
/// else where the low one should be.
const LONE: &[&str] = &[
    r"\ud800",
    r"\uDBFF",
    r"\udc00",
    r"\uDFff",
    r"\udc00\ud800",
    r"\ude00\uD83D",
    r"\ud83d\u0041",
    r"\ud83dx",
    r"\ud83d\n",
    r"\ud83d\/",
    r"\uD83d\\ude00",
    r"\ud83d\ud83d\ude00",
    r"\ud83d\ude00\ude00",
];

/// Which letters of a string are escapes.
#[derive(Clone, Copy)]
enum Share {
    /// Those alone that must be.
    Needed,
    One,
    /// The letters before some place.
    Head,
    /// The letters from some place on.
    Tail,
    Half,
    All,
}

const SHARES: [(usize, Share); 5] = [
    (4, Share::One),
    (1, Share::Head),
    (1, Share::Tail),
    (2, Share::Half),
    (2, Share::All),
];

/// The bytes of a draft: about every fourth is spelled with escapes, and most
/// of these say the same as before.
pub fn render(rng: &mut Rng, mut draft: Draft) -> Vec<u8> {
    if rng.percent(24) {
        match rng.below(20) {
            0 | 1 => put_lone_somewhere(rng, &mut draft),
            2 => in_an_object(rng, &mut draft, double_a_name),
            3 => in_an_object(rng, &mut draft, break_a_name),
            4 | 5 => in_an_object(rng, &mut draft, grow_a_string),
            _ => {}
        }
        respell(rng, &mut draft);
    }
    draft.render(rng)
}

/// Spells some strings of a draft otherwise: few, many or all of them.
fn respell(rng: &mut Rng, draft: &mut Draft) {
    let times = *rng.pick(&[1, 2, 8]);
    each_string(draft, &mut |spelled| {
        if rng.one_in(times) {
            *spelled = spell(rng, spelled);
        }
    });
}

/// The same text in other letters. What is broken stays as it is.
pub fn spell(rng: &mut Rng, spelled: &[u8]) -> Vec<u8> {
    let share = rng.weighted(&SHARES);
    letters(rng, spelled, share).concat()
}

/// A text as it may stand between quotes: mostly with no escape that it can do
/// without.
pub fn quotable(rng: &mut Rng, text: &str) -> Vec<u8> {
    let share = match rng.one_in(3) {
        true => rng.weighted(&SHARES),
        false => Share::Needed,
    };
    letters_of(rng, text, share).concat()
}

/// The letters of a spelled text in other letters.
fn letters(rng: &mut Rng, spelled: &[u8], share: Share) -> Vec<Vec<u8>> {
    let text = escapes::text(spelled).and_then(|text| String::from_utf8(text).ok());
    match text {
        Some(text) => letters_of(rng, &text, share),
        None => vec![spelled.to_vec()],
    }
}

/// The letters of a text, some of them as escapes; those that must be always.
fn letters_of(rng: &mut Rng, text: &str, share: Share) -> Vec<Vec<u8>> {
    let at = rng.below(text.chars().count().max(1));
    let letter = |(index, point): (usize, char)| {
        let chosen = match share {
            Share::Needed => false,
            Share::One => index == at,
            Share::Head => index < at,
            Share::Tail => index >= at,
            Share::Half => rng.one_in(2),
            Share::All => true,
        };
        match chosen || point < ' ' || point == '"' || point == '\\' {
            true => escape(rng, point),
            false => String::from(point).into(),
        }
    };
    text.chars().enumerate().map(letter).collect()
}

/// A letter as an escape: a short one where there is one and it so happens,
/// else by its number, as a pair where that is too great for one.
fn escape(rng: &mut Rng, point: char) -> Vec<u8> {
    const SHORT: [(char, &str); 8] = [
        ('"', r#"\""#),
        ('\\', r"\\"),
        ('/', r"\/"),
        ('\u{8}', r"\b"),
        ('\u{c}', r"\f"),
        ('\n', r"\n"),
        ('\r', r"\r"),
        ('\t', r"\t"),
    ];
    match SHORT.iter().find(|(known, _)| *known == point) {
        Some((_, short)) if rng.percent(60) => short.as_bytes().to_vec(),
        _ => {
            let units = point.encode_utf16(&mut [0; 2]).to_vec();
            units
                .into_iter()
                .flat_map(|unit| by_number(rng, unit))
                .collect()
        }
    }
}

/// `\uXXXX` with digits of either case.
fn by_number(rng: &mut Rng, unit: u16) -> Vec<u8> {
    let mut digits = format!("{unit:04x}").into_bytes();
    let times = rng.between(1, 3);
    for digit in &mut digits {
        if rng.one_in(times) {
            digit.make_ascii_uppercase();
        }
    }
    [b"\\u", &digits[..]].concat()
}

/// A text with a lone surrogate among its letters, often as the last.
pub fn put_lone(rng: &mut Rng, spelled: &[u8]) -> Vec<u8> {
    let mut letters = letters(rng, spelled, Share::One);
    let at = match rng.one_in(3) {
        true => letters.len(),
        false => rng.below(letters.len() + 1),
    };
    letters.insert(at, rng.one_of(LONE));
    letters.concat()
}

/// A value with a lone surrogate in it, if it is a string.
pub fn broken(rng: &mut Rng, value: &Node) -> Node {
    match string(value) {
        Some(spelled) => Node::text(put_lone(rng, spelled)),
        None => value.clone(),
    }
}

/// What stands between the quotes of a value that is a string.
pub fn string(value: &Node) -> Option<&[u8]> {
    match value {
        Node::Raw(bytes) => bytes.strip_prefix(b"\"")?.strip_suffix(b"\""),
        _ => None,
    }
}

/// Lets `act` change every string of a draft: tag, names and values.
fn each_string(draft: &mut Draft, act: &mut impl FnMut(&mut Vec<u8>)) {
    each_in(&mut draft.tag, act);
    for (name, value) in &mut draft.fields {
        act(name);
        each_in(value, act);
    }
}

fn each_in(node: &mut Node, act: &mut impl FnMut(&mut Vec<u8>)) {
    match node {
        Node::Raw(_) => {
            if let Some(spelled) = string(node) {
                let mut spelled = spelled.to_vec();
                act(&mut spelled);
                *node = Node::text(spelled);
            }
        }
        Node::Array(elements) => elements.iter_mut().for_each(|node| each_in(node, act)),
        Node::Object(members) => {
            for (name, value) in members {
                act(name);
                each_in(value, act);
            }
        }
    }
}

/// Lets `act` change any one string of a draft.
fn any_string(rng: &mut Rng, draft: &mut Draft, act: fn(&mut Rng, &[u8]) -> Vec<u8>) {
    let mut count = 0;
    each_string(draft, &mut |_| count += 1);
    let mut left = rng.below(count);
    each_string(draft, &mut |spelled| {
        if left == 0 {
            *spelled = act(rng, spelled);
        }
        left = left.wrapping_sub(1);
    });
}

/// Anywhere, or in a value of the message's own object: often in one that is
/// free from some letter on.
fn put_lone_somewhere(rng: &mut Rng, draft: &mut Draft) {
    if rng.one_in(3) {
        return any_string(rng, draft, put_lone);
    }
    let partly_free = |(name, _): &(Vec<u8>, Node)| name == b"Status" || name == b"Body";
    let index = match draft.fields.iter().position(partly_free) {
        Some(index) if rng.one_in(2) => index,
        _ => rng.below(draft.fields.len()),
    };
    let value = &mut draft.fields[index].1;
    *value = broken(rng, value);
}

type Members = Vec<(Vec<u8>, Node)>;

/// Lets `act` change the message's own object, or one of Via's.
fn in_an_object(rng: &mut Rng, draft: &mut Draft, act: fn(&mut Rng, &mut Members)) {
    let via = draft.fields.iter_mut().find(|(name, _)| name == b"Via");
    if let (Some((_, Node::Array(hops))), true) = (via, rng.one_in(3)) {
        let at = rng.below(hops.len().max(1));
        if let Some(Node::Object(members)) = hops.get_mut(at) {
            return act(rng, members);
        }
    }
    act(rng, &mut draft.fields);
}

/// A name that is there twice in other letters: in those of one or of both.
fn double_a_name(rng: &mut Rng, members: &mut Members) {
    let Some((name, value)) = any_member(rng, members) else {
        return;
    };
    let double = Node::member(spell(rng, name), another(rng, value));
    if rng.one_in(2) {
        *name = spell(rng, name);
    }
    let at = rng.below(members.len() + 1);
    members.insert(at, double);
}

/// A broken name, once or twice, beside the name it was or in its place.
fn break_a_name(rng: &mut Rng, members: &mut Members) {
    let in_place = rng.one_in(2);
    let Some((name, value)) = any_member(rng, members) else {
        return;
    };
    let broken = put_lone(rng, name);
    let value = another(rng, value);
    if in_place {
        *name = broken.clone();
    }
    for _ in 0..rng.between(1, 2) - usize::from(in_place) {
        let at = rng.below(members.len() + 1);
        members.insert(at, Node::member(&broken, value.clone()));
    }
}

fn any_member<'m>(rng: &mut Rng, members: &'m mut Members) -> Option<&'m mut (Vec<u8>, Node)> {
    let at = rng.below(members.len().max(1));
    members.get_mut(at)
}

/// The same value or any.
fn another(rng: &mut Rng, value: &Node) -> Node {
    match rng.one_in(2) {
        true => value.clone(),
        false => draft::any_value(rng),
    }
}

/// Lets a value grow until it is at its longest or one letter longer, or far
/// beyond; or else a name.
fn grow_a_string(rng: &mut Rng, members: &mut Members) {
    let Some((name, value)) = any_member(rng, members) else {
        return;
    };
    let longest = match &name[..] {
        b"host" => 253,
        b"Refer-Memo" => 128,
        b"organization" => 10,
        _ => 64,
    };
    let length = match rng.below(4) {
        0 => longest,
        1 => longest + 1,
        _ => rng.between(100, 600),
    };
    match string(value) {
        Some(spelled) if !rng.one_in(6) => *value = Node::text(grown(rng, spelled, length)),
        _ => *name = grown(rng, name, length),
    }
}

/// A text of so many letters at least, half of the time all of them escapes.
fn grown(rng: &mut Rng, spelled: &[u8], length: usize) -> Vec<u8> {
    let share = match rng.one_in(2) {
        true => Share::All,
        false => rng.weighted(&SHARES),
    };
    let mut letters = letters(rng, spelled, share);
    let at = rng.below(letters.len().max(1));
    let letter = letters.get(at).cloned().unwrap_or(b"a".to_vec());
    let missing = length.saturating_sub(letters.len());
    letters.splice(at..at, vec![letter; missing]);
    letters.concat()
}

/// A memo of about 128 code points, now and then with a line break or what is
/// none, or with a lone surrogate.
pub fn memo(rng: &mut Rng) -> Vec<u8> {
    const POINTS: [char; 7] = ['a', '/', '"', '\\', 'é', '語', '\u{1f600}'];
    const BREAKS: [char; 5] = ['\n', '\r', '\t', '\u{85}', '\u{2028}'];
    let few = [*rng.pick(&POINTS), *rng.pick(&POINTS)];
    let count = rng.between(127, 129);
    let mut text: Vec<char> = (0..count).map(|_| *rng.pick(&few)).collect();
    if rng.one_in(3) {
        let at = rng.below(count);
        text[at] = *rng.pick(&BREAKS);
    }
    let share = rng.weighted(&SHARES);
    let spelled = letters_of(rng, &String::from_iter(text), share).concat();
    match rng.one_in(8) {
        true => put_lone(rng, &spelled),
        false => spelled,
    }
}

/// Bytes to decode: a text in other letters, or parts of one at random, at
/// times with surrogates or with what stands in no JSON string.
pub fn spelled(rng: &mut Rng) -> Vec<u8> {
    const SOUND: &[&[u8]] = &[
        b"a",
        b"u0041",
        b"/",
        "é語\u{1f600}".as_bytes(),
        br#"\""#,
        br"\\",
        br"\/",
        br"\b\f\n\r\t",
        br"\u0041",
        br"\u0000",
        br"\u00e9\u00E9",
        br"\u07ff\u0800",
        br"\u8a9E",
        br"\ud7ff\uE000",
        br"\uFFFF",
        br"\ud800\udc00",
        br"\uD83D\uDE00",
        br"\udbff\udfff",
    ];
    const SURROGATES: &[&[u8]] = &[br"\ud800", br"\uDBFF", br"\udc00", br"\uDfFf"];
    const ODD: &[&[u8]] = &[
        br"\",
        br"\x",
        br"\u",
        br"\u1",
        br"\u12",
        br"\u123",
        br"\u12g4",
        br"\u+123",
        br"\U0041",
        br"\'",
        br"\ud83",
        b"\"",
        b"\n\x00\x1f",
        b"\x80\xff",
        b"\xed\xa0\x80",
    ];
    if rng.one_in(3) {
        let text = match rng.below(4) {
            0 => texts::host(rng),
            1 => texts::destination(rng),
            2 => texts::free(rng),
            _ => memo(rng),
        };
        return spell(rng, &text);
    }
    let kinds: &[&[&[u8]]] = match rng.below(6) {
        0 => &[SOUND, SURROGATES],
        1 => &[SOUND, SURROGATES, ODD],
        2 => &[SOUND, ODD],
        _ => &[SOUND],
    };
    let count = rng.below(9);
    let part = |_| {
        let kind = *rng.pick(kinds);
        *rng.pick(kind)
    };
    (0..count).map(part).collect::<Vec<&[u8]>>().concat()
}

/// The same behind or before letters, so many that the text, up to a lone
/// surrogate, is just as long as may be, or one byte more.
pub fn lengthened(rng: &mut Rng, spelled: &[u8]) -> Vec<u8> {
    let length = escapes::beginning(spelled).len();
    let missing = (MAX_LENGTH + rng.below(2)).saturating_sub(length);
    let letters = vec![b'x'; missing];
    match rng.percent(70) {
        true => [&letters, spelled].concat(),
        false => [spelled, &letters].concat(),
    }
}

#[cfg(test)]
mod tests {
    use super::*;
    use crate::json;

    /// Is this what may stand between the quotes of a JSON string?
    fn is_json(spelled: &[u8]) -> bool {
        let quoted = [b"\"", spelled, b"\""].concat();
        json::parse(&quoted, 1).is_ok()
    }

    #[test]
    fn other_letters_say_the_same() {
        let mut rng = Rng::new(1);
        for _ in 0..4000 {
            let text = texts::free(&mut rng);
            let spelled = spell(&mut rng, &text);
            assert!(is_json(&spelled));
            assert_eq!(escapes::text(&spelled), escapes::text(&text));
            let call_id = texts::call_id(&mut rng);
            let spelled = spell(&mut rng, &call_id);
            assert!(is_json(&spelled));
            assert_eq!(escapes::text(&spelled), Some(call_id));
        }
    }

    #[test]
    fn lone_surrogates_are_lone_wherever_they_stand() {
        let mut rng = Rng::new(1);
        for _ in 0..4000 {
            let memo = texts::memo(&mut rng, 5);
            let spelled = spell(&mut rng, &memo);
            let broken = put_lone(&mut rng, &spelled);
            assert!(is_json(&broken));
            assert_eq!(escapes::text(&broken), None);
        }
    }

    /// Letters before a part join no escape of it.
    #[test]
    fn lengthened_texts_are_at_their_longest() {
        let mut rng = Rng::new(1);
        let mut reached = [0; 2];
        for _ in 0..100 {
            let spelled = spelled(&mut rng);
            let longer = lengthened(&mut rng, &spelled);
            if longer.ends_with(&spelled) {
                reached[escapes::beginning(&longer).len() - MAX_LENGTH] += 1;
            }
        }
        assert!(reached.iter().all(|count| *count > 20));
    }

    #[test]
    fn memos_are_strings() {
        let mut rng = Rng::new(1);
        for _ in 0..1000 {
            assert!(is_json(&memo(&mut rng)));
        }
    }
}
