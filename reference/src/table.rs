//! The table image (01 The table image): a header of 16 bytes, then records of
//! 160 bytes, all numbers big-endian.

use crate::rules::{self, Method};
use std::collections::HashSet;
use std::ops::Range;

pub const HEADER: usize = 16;
pub const RECORD: usize = 160;
pub const MAX_RECORDS: usize = 255;

const MAGIC: [u8; 6] = [b'N', b'C', b'T', 0, 0, 1];

#[derive(Debug, Clone, Copy, PartialEq, Eq)]
pub enum State {
    Calling = 1,
    Ringing = 2,
    Answered = 3,
    Talking = 4,
    Ended = 5,
    Cancelling = 6,
}

impl State {
    pub const ALL: [State; 6] = [
        State::Calling,
        State::Ringing,
        State::Answered,
        State::Talking,
        State::Ended,
        State::Cancelling,
    ];

    fn of_number(number: u8) -> Option<State> {
        rules::numbered(&State::ALL, number.into())
    }
}

/// A record in use.
#[derive(Debug, Clone, PartialEq, Eq)]
pub struct Record {
    pub state: State,
    pub call_id: Vec<u8>,
    pub user: Vec<u8>,
    pub caller_fire: Vec<u8>,
    pub callee_fire: Vec<u8>,
    pub secure: bool,
    pub invite_number: u32,
    pub caller_highest: u32,
    pub caller_method: Method,
    /// The callee's highest number and its method; none before its first.
    pub callee_highest: Option<(u32, Method)>,
    pub last_time: u64,
    pub entered: u64,
    pub chat_time: u64,
}

/// The bytes that an image of this many records has.
pub fn length_for(count: usize) -> usize {
    HEADER + RECORD * count
}

/// A blank table; nothing for a wrong count or length (refused by 1).
pub fn blank(count: usize, length: usize) -> Option<Vec<u8>> {
    let good = (1..=MAX_RECORDS).contains(&count) && length == length_for(count);
    good.then(|| blank_of(count))
}

/// A blank table of 1 to 255 records.
pub fn blank_of(count: usize) -> Vec<u8> {
    let mut image = vec![0; length_for(count)];
    image[..6].copy_from_slice(&MAGIC);
    image[6..8].copy_from_slice(&(count as u16).to_be_bytes());
    image
}

/// 01 The table image, 'Well-formed'.
pub fn well_formed(image: &[u8]) -> bool {
    header_fits(image) && {
        let mut call_ids = HashSet::new();
        (0..count(image)).all(|index| {
            let bytes = &image[place(index)];
            match Record::decode(bytes) {
                Slot::Free => true,
                Slot::Torn => false,
                Slot::Used(record) => call_ids.insert(record.call_id),
            }
        })
    }
}

fn header_fits(image: &[u8]) -> bool {
    image.len() >= HEADER
        && image[..6] == MAGIC
        && (1..=MAX_RECORDS).contains(&usize::from(read_u16(image, 6)))
        && all_zero(&image[8..HEADER])
        && image.len() == length_for(usize::from(read_u16(image, 6)))
}

/// How many whole records follow the header.
pub fn count(image: &[u8]) -> usize {
    image.len().saturating_sub(HEADER) / RECORD
}

/// The places of the records that are not free, in any image.
pub fn used(image: &[u8]) -> Vec<usize> {
    let indices = 0..count(image);
    indices
        .filter(|index| image[place(*index)][0] != 0)
        .collect()
}

fn place(index: usize) -> Range<usize> {
    length_for(index)..length_for(index + 1)
}

/// The record of a Call-ID in a well-formed table.
pub fn find(image: &[u8], call_id: &[u8]) -> Option<usize> {
    (0..count(image)).find(|index| {
        let bytes = &image[place(*index)];
        usize::from(bytes[1]) == call_id.len() && bytes[2..].starts_with(call_id)
    })
}

/// The lowest free record of a well-formed table.
pub fn lowest_free(image: &[u8]) -> Option<usize> {
    (0..count(image)).find(|index| image[place(*index)][0] == 0)
}

/// The record at an index of a well-formed table, if it is in use.
pub fn load(image: &[u8], index: usize) -> Option<Record> {
    match Record::decode(&image[place(index)]) {
        Slot::Used(record) => Some(record),
        Slot::Free | Slot::Torn => None,
    }
}

/// Writes a record, or frees its place: all 00.
pub fn store(image: &mut [u8], index: usize, record: Option<&Record>) {
    let bytes = record.map_or([0; RECORD], Record::encode);
    image[place(index)].copy_from_slice(&bytes);
}

enum Slot {
    Free,
    Used(Record),
    Torn,
}

impl Record {
    fn decode(bytes: &[u8]) -> Slot {
        if all_zero(bytes) {
            return Slot::Free;
        }
        Record::decode_used(bytes).map_or(Slot::Torn, Slot::Used)
    }

    /// A record that meets every clause, or nothing.
    fn decode_used(bytes: &[u8]) -> Option<Record> {
        let callee_number = read_u32(bytes, 124);
        let callee_highest = match (callee_number, bytes[144]) {
            (0, 0) => None,
            (0, _) => return None,
            (number, code) => Some((number, Method::of_code(code)?)),
        };
        let record = Record {
            state: State::of_number(bytes[0])?,
            call_id: read_text(bytes, 1, 64, rules::is_call_id)?,
            user: read_text(bytes, 66, 15, rules::is_user_id)?,
            caller_fire: read_text(bytes, 82, 15, rules::is_fire_id)?,
            callee_fire: read_text(bytes, 98, 15, rules::is_fire_id)?,
            secure: match bytes[114] {
                0 => false,
                1 => true,
                _ => return None,
            },
            invite_number: read_u32(bytes, 116),
            caller_highest: read_u32(bytes, 120),
            caller_method: Method::of_code(bytes[115])?,
            callee_highest,
            last_time: read_u64(bytes, 128),
            entered: read_u64(bytes, 136),
            chat_time: read_u64(bytes, 152),
        };
        let good = record.invite_number >= 1
            && record.caller_highest >= record.invite_number
            && record.entered <= record.last_time
            && record.chat_time <= record.last_time
            && all_zero(&bytes[145..152]);
        good.then_some(record)
    }

    pub fn encode(&self) -> [u8; RECORD] {
        let mut bytes = [0; RECORD];
        bytes[0] = self.state as u8;
        write_text(&mut bytes, 1, &self.call_id);
        write_text(&mut bytes, 66, &self.user);
        write_text(&mut bytes, 82, &self.caller_fire);
        write_text(&mut bytes, 98, &self.callee_fire);
        bytes[114] = u8::from(self.secure);
        bytes[115] = self.caller_method.code();
        bytes[116..120].copy_from_slice(&self.invite_number.to_be_bytes());
        bytes[120..124].copy_from_slice(&self.caller_highest.to_be_bytes());
        if let Some((number, method)) = self.callee_highest {
            bytes[124..128].copy_from_slice(&number.to_be_bytes());
            bytes[144] = method.code();
        }
        bytes[128..136].copy_from_slice(&self.last_time.to_be_bytes());
        bytes[136..144].copy_from_slice(&self.entered.to_be_bytes());
        bytes[152..160].copy_from_slice(&self.chat_time.to_be_bytes());
        bytes
    }
}

fn all_zero(bytes: &[u8]) -> bool {
    bytes.iter().all(|byte| *byte == 0)
}

/// A length at `at`, then a text in `room` bytes: within its rule, and 00
/// after its end.
fn read_text(bytes: &[u8], at: usize, room: usize, rule: fn(&[u8]) -> bool) -> Option<Vec<u8>> {
    let length = usize::from(bytes[at]);
    if length > room {
        return None;
    }
    let (text, unused) = bytes[at + 1..at + 1 + room].split_at(length);
    (rule(text) && all_zero(unused)).then(|| text.to_vec())
}

fn write_text(bytes: &mut [u8], at: usize, text: &[u8]) {
    bytes[at] = text.len() as u8;
    bytes[at + 1..at + 1 + text.len()].copy_from_slice(text);
}

fn read_u16(bytes: &[u8], at: usize) -> u16 {
    u16::from_be_bytes([bytes[at], bytes[at + 1]])
}

pub fn read_u32(bytes: &[u8], at: usize) -> u32 {
    u32::from_be_bytes(std::array::from_fn(|i| bytes[at + i]))
}

pub fn read_u64(bytes: &[u8], at: usize) -> u64 {
    u64::from_be_bytes(std::array::from_fn(|i| bytes[at + i]))
}

#[cfg(test)]
pub mod tests {
    use super::*;

    pub fn sample(call_id: &str) -> Record {
        Record {
            state: State::Talking,
            call_id: call_id.as_bytes().to_vec(),
            user: b"u1".to_vec(),
            caller_fire: b"nishi".to_vec(),
            callee_fire: b"kita".to_vec(),
            secure: true,
            invite_number: 3,
            caller_highest: 5,
            caller_method: Method::Message,
            callee_highest: Some((7, Method::Refer)),
            last_time: 2000,
            entered: 1500,
            chat_time: 1800,
        }
    }

    fn image_of(records: &[Record], count: usize) -> Vec<u8> {
        let mut image = blank_of(count);
        for (index, record) in records.iter().enumerate() {
            store(&mut image, index, Some(record));
        }
        image
    }

    #[test]
    fn blank_tables() {
        for count in [1, 2, 255] {
            let image = blank(count, length_for(count)).unwrap();
            assert!(well_formed(&image));
            assert_eq!(image.len(), 16 + 160 * count);
            assert_eq!(&image[..8], &[b'N', b'C', b'T', 0, 0, 1, 0, count as u8]);
            assert!(all_zero(&image[8..]));
        }
        assert_eq!(blank(0, 16), None);
        assert_eq!(blank(256, length_for(256)), None);
        assert_eq!(blank(1, 175), None);
        assert_eq!(blank(1, 177), None);
    }

    #[test]
    fn a_record_reads_back() {
        let record = sample("A1.nx");
        let mut image = image_of(std::slice::from_ref(&record), 2);
        assert!(well_formed(&image));
        assert_eq!(load(&image, 0), Some(record));
        assert_eq!(load(&image, 1), None);
        assert_eq!(find(&image, b"A1.nx"), Some(0));
        assert_eq!(find(&image, b"A1.n"), None);
        assert_eq!(lowest_free(&image), Some(1));
        store(&mut image, 0, None);
        assert_eq!(image, blank_of(2));
    }

    #[test]
    fn offsets_are_those_of_the_paper() {
        let bytes = sample("A1").encode();
        assert_eq!(bytes[0], 4);
        assert_eq!(&bytes[1..5], &[2, b'A', b'1', 0]);
        assert_eq!(&bytes[66..70], &[2, b'u', b'1', 0]);
        assert_eq!(&bytes[82..89], b"\x05nishi\x00");
        assert_eq!(&bytes[98..104], b"\x04kita\x00");
        assert_eq!(bytes[114], 1);
        assert_eq!(bytes[115], 5);
        assert_eq!(&bytes[116..128], &[0, 0, 0, 3, 0, 0, 0, 5, 0, 0, 0, 7]);
        assert_eq!(&bytes[128..136], &[0, 0, 0, 0, 0, 0, 7, 208]);
        assert_eq!(&bytes[136..144], &[0, 0, 0, 0, 0, 0, 5, 220]);
        assert_eq!(bytes[144], 7);
        assert_eq!(&bytes[152..160], &[0, 0, 0, 0, 0, 0, 7, 8]);
    }

    #[test]
    fn torn_headers() {
        let good = image_of(&[sample("A1")], 1);
        for at in 0..16 {
            let mut image = good.clone();
            image[at] ^= 1;
            assert!(!well_formed(&image), "header byte {at}");
        }
        for length in [0, 15, 16, 175] {
            assert!(!well_formed(&good[..length]), "length {length}");
        }
        let mut longer = good;
        longer.push(0);
        assert!(!well_formed(&longer));
        let mut none = blank_of(1);
        none[7] = 0;
        assert!(!well_formed(&none[..16]));
    }

    /// Sets bytes of the only record and asks whether the image is well-formed.
    fn with(changes: &[(usize, u8)]) -> bool {
        let mut image = image_of(&[sample("A1")], 1);
        for (at, byte) in changes {
            image[HEADER + at] = *byte;
        }
        well_formed(&image)
    }

    #[test]
    fn torn_records() {
        assert!(with(&[]));
        for state in 1..=6 {
            assert!(with(&[(0, state)]));
        }
        assert!(!with(&[(0, 0)]));
        assert!(!with(&[(0, 7)]));
        // Texts: within their rules, 00 after their ends.
        assert!(!with(&[(1, 1), (3, 0)]));
        assert!(!with(&[(1, 3)]));
        assert!(with(&[(1, 3), (4, b'z')]));
        assert!(!with(&[(3, b'.')]));
        assert!(!with(&[(4, 1)]));
        assert!(!with(&[(65, 1)]));
        assert!(!with(&[(1, 65)]));
        assert!(!with(&[(66, 0), (67, 0), (68, 0)]));
        assert!(with(&[(66, 1), (68, 0)]));
        assert!(!with(&[(66, 16)]));
        assert!(!with(&[(81, b'x')]));
        assert!(!with(&[(67, b'_')]));
        assert!(!with(&[(83, b'N')]));
        assert!(!with(&[(97, b'x')]));
        assert!(!with(&[(99, b'_')]));
        assert!(!with(&[(113, b'x')]));
        // Secure-Call and methods.
        assert!(with(&[(114, 0)]));
        assert!(!with(&[(114, 2)]));
        for (at, code, good) in [
            (115, 0, false),
            (115, 1, true),
            (115, 8, true),
            (115, 9, false),
        ] {
            assert_eq!(with(&[(at, code)]), good);
        }
        for (code, good) in [(0, false), (1, true), (8, true), (9, false)] {
            assert_eq!(with(&[(144, code)]), good);
        }
        assert!(with(&[(127, 0), (144, 0)]));
        assert!(!with(&[(127, 0)]));
        // Numbers.
        assert!(!with(&[(119, 0)]));
        assert!(with(&[(119, 5)]));
        assert!(!with(&[(119, 6)]));
        // Times: both others at most the last time (2000 = 07D0).
        assert!(with(&[(142, 7), (143, 208)]));
        assert!(!with(&[(142, 7), (143, 209)]));
        assert!(with(&[(158, 7), (159, 208)]));
        assert!(!with(&[(158, 7), (159, 209)]));
        // Bytes 145 to 151.
        for at in 145..=151 {
            assert!(!with(&[(at, 1)]));
        }
    }

    #[test]
    fn a_free_record_is_all_zero() {
        for at in 0..RECORD {
            let mut image = blank_of(2);
            image[HEADER + at] = 1;
            assert!(!well_formed(&image));
        }
    }

    #[test]
    fn call_ids_are_distinct() {
        assert!(well_formed(&image_of(&[sample("A1"), sample("A2")], 3)));
        assert!(!well_formed(&image_of(&[sample("A1"), sample("A1")], 3)));
        assert!(well_formed(&image_of(&[sample("A1"), sample("a1")], 3)));
    }

    #[test]
    fn longest_texts_fit() {
        let mut record = sample(&"A".repeat(64));
        record.user = vec![b'u'; 15];
        record.caller_fire = vec![b'f'; 15];
        record.callee_fire = vec![b'g'; 15];
        let image = image_of(std::slice::from_ref(&record), 1);
        assert!(well_formed(&image));
        assert_eq!(load(&image, 0), Some(record));
    }
}
