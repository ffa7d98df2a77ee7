//! Table images made directly: well-formed ones with calls in every state, and
//! ones torn at each clause of 01 The table image.

use super::draft;
use super::rng::Rng;
use super::texts;
use crate::rules::Method;
use crate::table::{self, Record, State, HEADER, RECORD};

/// A well-formed record with times not far from `clock`.
pub fn record(rng: &mut Rng, clock: u64, call_id: Vec<u8>) -> Record {
    let last_time = match rng.below(30) {
        0 => u64::MAX,
        1 => 0,
        _ => clock.saturating_add(rng.below(5000) as u64),
    };
    let before = |rng: &mut Rng| {
        let steps = [
            0, 0, 1, 14_999, 15_000, 150_000, 1_800_000, 3_600_000, 3_600_001,
        ];
        last_time.saturating_sub(*rng.pick(&steps))
    };
    let invite_number = draft::number(rng);
    let caller_highest = match rng.below(4) {
        0 => invite_number,
        1 => u32::MAX,
        _ => invite_number.saturating_add(rng.below(5) as u32),
    };
    let callee_highest = rng
        .one_in(2)
        .then(|| (draft::number(rng), *rng.pick(&Method::ALL)));
    Record {
        state: *rng.pick(&State::ALL),
        call_id,
        user: texts::user_id(rng),
        caller_fire: texts::fire_id(rng),
        callee_fire: texts::fire_id(rng),
        secure: rng.one_in(2),
        invite_number,
        caller_highest,
        caller_method: *rng.pick(&Method::ALL),
        callee_highest,
        last_time,
        entered: before(rng),
        chat_time: before(rng),
    }
}

/// A well-formed image of so many records, some of them free.
pub fn good(rng: &mut Rng, clock: u64, count: usize) -> Vec<u8> {
    let mut image = table::blank_of(count);
    for index in 0..count {
        if rng.percent(70) {
            let call_id = format!("T{index}.{}", rng.below(10)).into();
            let record = record(rng, clock, call_id);
            table::store(&mut image, index, Some(&record));
        }
    }
    image
}

/// Tears an image in one place; now and then the change does no harm.
pub fn tear(rng: &mut Rng, image: &mut Vec<u8>) {
    match rng.below(10) {
        0 => tear_length(rng, image),
        1 => tear_header(rng, image),
        2 => {
            let at = rng.below(image.len());
            image[at] ^= 1 << rng.below(8);
        }
        3 => twin(rng, image),
        _ => tear_record(rng, image),
    }
}

fn tear_length(rng: &mut Rng, image: &mut Vec<u8>) {
    match rng.below(7) {
        0 => image.push(0),
        1 => {
            image.pop();
        }
        2 => image.clear(),
        3 => image.truncate(HEADER),
        4 => image.truncate(HEADER - 1),
        5 => image.extend_from_slice(&[0; RECORD]),
        _ => image.truncate(image.len() - RECORD),
    }
}

fn tear_header(rng: &mut Rng, image: &mut [u8]) {
    let at = rng.below(HEADER);
    image[at] = match rng.below(3) {
        0 => image[at].wrapping_add(1),
        1 => 0,
        _ => rng.byte(),
    };
}

/// Two records with one Call-ID.
fn twin(rng: &mut Rng, image: &mut [u8]) {
    let count = table::count(image);
    let (one, other) = (rng.below(count), rng.below(count));
    let record = table::load(image, one);
    if let Some(record) = record {
        table::store(image, other, Some(&record));
    }
}

/// Changes a byte that some clause of a record is about.
fn tear_record(rng: &mut Rng, image: &mut [u8]) {
    let used = table::used(image);
    let index = if used.is_empty() || rng.one_in(12) {
        0
    } else {
        *rng.pick(&used)
    };
    let at = table::length_for(index);
    let record = &mut image[at..at + RECORD];
    match rng.below(14) {
        0 => record[0] = *rng.pick(&[0, 1, 6, 7, 255]),
        1 => record[1] = *rng.pick(&[0, 1, 2, 64, 65, 66, 255]),
        2 => record[rng.between(2, 65)] = *rng.pick(b"\x00.-_aA0"),
        3 => record[*rng.pick(&[66, 82, 98])] = *rng.pick(&[0, 1, 2, 15, 16, 17, 255]),
        4 => record[rng.between(67, 113)] = *rng.pick(b"\x00_aA0."),
        5 => record[114] = *rng.pick(&[0, 1, 2, 255]),
        6 => record[115] = *rng.pick(&[0, 1, 8, 9]),
        7 => record[144] = *rng.pick(&[0, 1, 8, 9]),
        8 => record[rng.between(145, 151)] = 1,
        9 => record[116..120].copy_from_slice(&[0; 4]),
        10 => set_highest_near_invite(rng, record),
        11 => record[124..128].copy_from_slice(&[0, 0, 0, rng.below(2) as u8]),
        12 => set_time_near_last(rng, record, 136),
        _ => set_time_near_last(rng, record, 152),
    }
}

/// The caller's highest one below the INVITE number, or at it.
fn set_highest_near_invite(rng: &mut Rng, record: &mut [u8]) {
    let invite = table::read_u32(record, 116);
    let highest = invite.saturating_sub(rng.below(2) as u32);
    record[120..124].copy_from_slice(&highest.to_be_bytes());
}

/// A time one above the last time, or at it.
fn set_time_near_last(rng: &mut Rng, record: &mut [u8], at: usize) {
    let last = table::read_u64(record, 128);
    let time = last.saturating_add(rng.below(2) as u64);
    record[at..at + 8].copy_from_slice(&time.to_be_bytes());
}
