//! Bytes changed at random, bad UTF-8 put in, and messages grown to a length.

use super::rng::Rng;

/// Bytes that matter to some reader.
const TELLING: &[u8] = b"\"\\{}[],:0123456789eE+-. \t\r\nuntrlfas/\x00\x1f\x7f\x80\xc0\xed\xff";

/// Sequences of every kind that RFC 3629 forbids, and near them some that it allows.
const SEQUENCES: &[&[u8]] = &[
    b"\x80",
    b"\xbf",
    b"\xc0\x80",
    b"\xc1\xbf",
    b"\xc2",
    b"\xc2\x7f",
    b"\xc2\xc0",
    b"\xc2\x80",
    b"\xdf\xbf",
    b"\xe0\x80\x80",
    b"\xe0\x9f\xbf",
    b"\xe0\xa0\x80",
    b"\xe0\xa0",
    b"\xe1\x80",
    b"\xe1\x80\xc0",
    b"\xe1\x7f\x80",
    b"\xec\xbf\xbf",
    b"\xed\x9f\xbf",
    b"\xed\xa0\x80",
    b"\xed\xbf\xbf",
    b"\xee\x80\x80",
    b"\xef\xbf\xbf",
    b"\xef\xbb\xbf",
    b"\xf0\x80\x80\x80",
    b"\xf0\x8f\xbf\xbf",
    b"\xf0\x90\x80\x80",
    b"\xf0\x90\x80",
    b"\xf1\x80\x80\x7f",
    b"\xf3\xbf\xbf\xbf",
    b"\xf4\x8f\xbf\xbf",
    b"\xf4\x90\x80\x80",
    b"\xf5\x80\x80\x80",
    b"\xfe",
    b"\xff",
];

/// One of the sequences above.
pub fn sequence(rng: &mut Rng) -> &'static [u8] {
    SEQUENCES[rng.below(SEQUENCES.len())]
}

/// Changes a few bytes: put in, taken out, replaced, cut off or moved.
pub fn scatter(rng: &mut Rng, bytes: &mut Vec<u8>) {
    let times = if rng.one_in(4) { rng.between(2, 4) } else { 1 };
    for _ in 0..times {
        if bytes.is_empty() {
            bytes.push(*rng.pick(TELLING));
        }
        let at = rng.below(bytes.len());
        let byte = if rng.one_in(6) {
            rng.byte()
        } else {
            *rng.pick(TELLING)
        };
        match rng.below(7) {
            0 | 1 => bytes[at] = byte,
            2 => bytes.insert(at, byte),
            3 => {
                bytes.remove(at);
            }
            4 => bytes.truncate(at),
            5 => bytes.push(byte),
            _ => {
                let other = rng.below(bytes.len());
                bytes.swap(at, other);
            }
        }
    }
}

/// Puts one of the sequences anywhere.
pub fn put_sequence(rng: &mut Rng, bytes: &mut Vec<u8>) {
    let at = rng.below(bytes.len() + 1);
    let sequence = sequence(rng);
    bytes.splice(at..at, sequence.iter().copied());
}

/// Grows a message to a length with white space before its last byte or after
/// it, or with an ignored field.
pub fn grow(rng: &mut Rng, bytes: &mut Vec<u8>, length: usize) {
    const FIELD: &[u8] = b"\"x-pad\":\"\",";
    let missing = length.saturating_sub(bytes.len());
    let open = bytes.iter().position(|byte| *byte == b'{');
    match open {
        Some(open) if missing >= FIELD.len() && rng.one_in(2) => {
            let fill = vec![b'a'; missing - FIELD.len()];
            let field = [&FIELD[..9], &fill, &FIELD[9..]].concat();
            bytes.splice(open + 1..open + 1, field);
        }
        _ => {
            let at = if rng.one_in(2) { bytes.len() } else { 0 };
            bytes.splice(at..at, vec![b' '; missing]);
        }
    }
}
