//! Lines for `keep`.

use super::ceilings;
use super::draft::Plan;
use super::flow::{self, Flow, Happening};
use super::raw;
use super::rng::Rng;
use crate::keep::Keep;
use crate::lines::Answerer;
use crate::message::MAX_LENGTH;

/// Makes a log, one line after the other.
pub struct Log {
    rng: Rng,
    flow: Flow,
    keep: Keep,
}

impl Log {
    pub fn new(seed: u64) -> Self {
        let mut rng = Rng::new(seed);
        let flow = Flow::new(&mut rng);
        Log {
            rng,
            flow,
            keep: Keep::new(),
        }
    }

    /// The next line, without a line feed in it.
    pub fn line(&mut self) -> Vec<u8> {
        let rng = &mut self.rng;
        let mut line = match rng.below(1500) {
            0 => long_line(rng),
            1..=45 => odd_line(rng),
            46..=65 => [b"1000 ", &raw::text(rng)[..]].concat(),
            66 | 67 => [b"1000 ", &ceilings::crowd(rng)[..]].concat(),
            _ => {
                let (time, happening) = self.flow.next(rng, &self.keep.image);
                let time = written_time(rng, time);
                let rest = match happening {
                    Happening::Message(bytes) => bytes,
                    Happening::Tick(call_id) => [b"tick ", &call_id[..]].concat(),
                };
                [time.as_bytes(), b" ", &rest].concat()
            }
        };
        for byte in &mut line {
            if *byte == b'\n' {
                *byte = b'\r';
            }
        }
        self.keep.answer(&line);
        line
    }
}

/// A time, now and then with leading zeros.
fn written_time(rng: &mut Rng, time: u64) -> String {
    match rng.below(40) {
        0 => format!("{time:020}"),
        1 => format!("{time:06}"),
        _ => time.to_string(),
    }
}

/// Lines without a time, with a bad one, or with little after it.
fn odd_line(rng: &mut Rng) -> Vec<u8> {
    const ODD: &[&str] = &[
        "",
        " ",
        "  ",
        "\r",
        "x",
        "1000",
        "1000\r",
        "1000\ttick A1",
        " 1000 tick A1",
        "+1 tick A1",
        "-1 tick A1",
        "0x10 tick A1",
        "1.5 tick A1",
        "1e3 tick A1",
        "18446744073709551616 tick A1",
        "99999999999999999999 tick A1",
        "000000000000000000001 tick A1",
        "184467440737095516150 tick A1",
        "tick A1",
        "[\"request\",{}]",
        "18446744073709551615 tick A1",
        "00000000000000000001 tick A1",
        "1000 ",
        "1000  ",
        "1000 tick",
        "1000 tick ",
        "1000 tick  A1",
        "1000 tick A1 ",
        "1000 tick A1\r",
        "1000 tick A",
        "1000 tick \u{0}",
        "1000 Tick A1",
        "1000 ticks A1",
        "1000 tick\tA1",
        "1000 tick A1.nx",
        "1000 []\r",
        "1000 \r[\"ping\",{}]",
        "1000 \u{feff}[]",
    ];
    rng.one_of(ODD)
}

/// A line at or over the longest, with a time or without.
fn long_line(rng: &mut Rng) -> Vec<u8> {
    let time = *rng.pick(&[
        "1000 ",
        "00000000000000001000 ",
        "18446744073709551615 ",
        "x ",
        "",
    ]);
    let lengths = [MAX_LENGTH - 1, MAX_LENGTH, MAX_LENGTH + 1, 40_000, 100_000];
    let length = *rng.pick(&lengths);
    let mut rest = match rng.below(4) {
        0 => b"tick A1".to_vec(),
        1 => b"tick ".to_vec(),
        2 => {
            let plan = Plan::random(rng);
            flow::message(rng, &plan)
        }
        _ => Vec::new(),
    };
    let fill = *rng.pick(b" aA[");
    rest.resize(length, fill);
    [time.as_bytes(), &rest].concat()
}
