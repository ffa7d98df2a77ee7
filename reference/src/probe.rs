//! The probe: one command a line, every answer in full. What is not a command
//! is answered `?`.
//!
//! Where the description leaves a choice: words are parted by exactly one
//! space and none is empty; numbers are one or more digits, leading zeros
//! allowed while the value fits; hex is lower-case and of even length; a tick's
//! Call-ID, a date, each text of a path and what `text` decodes have a
//! message's limit.

use crate::hex;
use crate::keeper;
use crate::lines::Answerer;
use crate::message::{self, Message, CEILING};
use crate::particulars::Positions;
use crate::rules;
use crate::table;
use crate::writing::{self, OwnPath};

pub const MAX_LINE: usize = 170_000;
pub const MAX_TABLE: usize = 65_536;
pub const MAX_BYTES: usize = 40_000;
pub const MAX_ROOM: usize = 40_000;
/// COUNT and CODE are of 16 bits.
pub const MAX_SMALL: u64 = 65_535;
/// What an output room is filled with before each call.
pub const FILL: u8 = 0x5a;

/// The held table, and the ceiling that `read` and `msg` read under (02 §9).
pub struct Probe {
    pub image: Vec<u8>,
    pub ceiling: u32,
}

impl Probe {
    pub fn new() -> Self {
        Probe {
            image: table::blank_of(table::MAX_RECORDS),
            ceiling: CEILING,
        }
    }

    /// Puts the answer to a command at the end of `out`.
    fn obey(&mut self, command: Command, out: &mut Vec<u8>) {
        match command {
            Command::Ceiling(ceiling) => {
                self.ceiling = ceiling;
                put(out, "ok");
            }
            Command::Read(bytes) => {
                let reading = message::read(&bytes, self.ceiling);
                let verdict = match reading.answer {
                    Ok(_) => "ok".into(),
                    Err(no) => format!("no {} {}", no.number, no.place),
                };
                put(out, &format!("{verdict} {}", reading.count));
            }
            Command::Positions(bytes) => {
                let answer = match message::read(&bytes, CEILING).answer {
                    Ok(message) => located(message),
                    Err(no) => format!("no {} {}", no.number, no.place),
                };
                put(out, &answer);
            }
            Command::Blank(count, length) => match table::blank(count, length) {
                Some(image) => {
                    self.image = image;
                    put(out, "ok");
                }
                None => put(out, "no 1"),
            },
            Command::Table(image) => {
                let good = table::well_formed(&image);
                self.image = image;
                put(out, if good { "ok" } else { "no 1" });
            }
            Command::Dump => hex::encode(&self.image, out),
            Command::Message(now, bytes) => {
                let answer = keeper::message(&mut self.image, self.ceiling, now, &bytes);
                put_event(out, answer);
            }
            Command::Tick(now, call_id) => {
                put_event(out, keeper::tick(&mut self.image, now, &call_id));
            }
            Command::Reply(code, date, room, bytes) => {
                let mut room = vec![FILL; room];
                let result = writing::reply(&bytes, code, &date, &mut room);
                put_written(out, result, &room);
            }
            Command::Add(path, room, bytes) => {
                let mut room = vec![FILL; room];
                let result = writing::add(&bytes, path.lend(), &mut room);
                put_written(out, result, &room);
            }
            Command::Remove(path, room, bytes) => {
                let mut room = vec![FILL; room];
                let result = writing::remove(&bytes, path.lend(), &mut room);
                put_written(out, result.map(|(length, _)| length), &room);
                out.push(b' ');
                hex::encode(result.map_or(&[], |(_, host)| host), out);
            }
            Command::Text(room, spelled) => {
                let mut room = vec![FILL; room];
                let result = writing::text(&spelled, &mut room);
                put_written(out, result, &room);
            }
        }
    }
}

impl Answerer for Probe {
    const LIMIT: usize = MAX_LINE;

    fn answer(&mut self, line: &[u8]) -> Option<Vec<u8>> {
        let command = Command::parse(line)?;
        let mut out = Vec::new();
        self.obey(command, &mut out);
        Some(out)
    }
}

fn put(out: &mut Vec<u8>, text: &str) {
    out.extend_from_slice(text.as_bytes());
}

/// The positions in a message, in whole millionths of a degree (02 §4).
fn located(message: Message) -> String {
    let Positions { places, home } = match message {
        Message::Request(exchange) => exchange.positions,
        Message::Response(..) | Message::Probe => Positions::default(),
    };
    let places = places.iter().map(|place| ("", place));
    let home = home.iter().map(|home| (" home", home));
    let written = places.chain(home).map(|(word, position)| {
        let (latitude, longitude) = (position.latitude, position.longitude);
        format!("{word} {latitude} {longitude}")
    });
    format!("ok{}", written.collect::<String>())
}

fn put_event(out: &mut Vec<u8>, answer: keeper::Answer) {
    let text = match answer {
        Ok(yes) => format!("ok {} {}", yes.word.name(), yes.state),
        Err(no) => format!("no {} {} {}", no.number, no.place, no.reply),
    };
    put(out, &text);
}

fn put_written(out: &mut Vec<u8>, result: Result<usize, u8>, room: &[u8]) {
    let text = match result {
        Ok(length) => format!("ok {length} "),
        Err(number) => format!("no {number} "),
    };
    put(out, &text);
    hex::encode(room, out);
}

enum Command {
    Ceiling(u32),
    Read(Vec<u8>),
    Positions(Vec<u8>),
    Blank(usize, usize),
    Table(Vec<u8>),
    Dump,
    Message(u64, Vec<u8>),
    Tick(u64, Vec<u8>),
    Reply(u16, Vec<u8>, usize, Vec<u8>),
    Add(OwnPath, usize, Vec<u8>),
    Remove(OwnPath, usize, Vec<u8>),
    Text(usize, Vec<u8>),
}

impl Command {
    fn parse(line: &[u8]) -> Option<Command> {
        let words: Vec<&[u8]> = line.split(|byte| *byte == b' ').collect();
        let command = match words[..] {
            [b"ceiling", ceiling] => Command::Ceiling(ceiling_of(ceiling)?),
            [b"read", bytes] => Command::Read(bytes_of(bytes)?),
            [b"positions", bytes] => Command::Positions(bytes_of(bytes)?),
            [b"blank", count, length] => Command::Blank(
                number_to(count, MAX_SMALL)? as usize,
                number_to(length, MAX_TABLE as u64)? as usize,
            ),
            [b"table", image] => Command::Table(bytes_to(image, MAX_TABLE)?),
            [b"dump"] => Command::Dump,
            [b"msg", time, bytes] => {
                Command::Message(rules::parse_decimal(time)?, bytes_of(bytes)?)
            }
            [b"tick", time, call_id] => {
                Command::Tick(rules::parse_decimal(time)?, bytes_of(call_id)?)
            }
            [b"reply", code, date, room, bytes] => Command::Reply(
                number_to(code, MAX_SMALL)? as u16,
                bytes_of(date)?,
                room_of(room)?,
                bytes_of(bytes)?,
            ),
            [b"add", host, destination, organization, room, bytes] => Command::Add(
                path_of(host, destination, organization)?,
                room_of(room)?,
                bytes_of(bytes)?,
            ),
            [b"remove", host, destination, organization, room, bytes] => Command::Remove(
                path_of(host, destination, organization)?,
                room_of(room)?,
                bytes_of(bytes)?,
            ),
            [b"text", room, spelled] => Command::Text(room_of(room)?, bytes_of(spelled)?),
            _ => return None,
        };
        Some(command)
    }
}

/// A number of at most `most`.
fn number_to(word: &[u8], most: u64) -> Option<u64> {
    rules::parse_decimal(word).filter(|number| *number <= most)
}

/// A ceiling of values, below 2^32.
pub fn ceiling_of(word: &[u8]) -> Option<u32> {
    rules::parse_decimal(word)?.try_into().ok()
}

fn room_of(word: &[u8]) -> Option<usize> {
    number_to(word, MAX_ROOM as u64).map(|room| room as usize)
}

/// Bytes in hex, at most `most` of them.
fn bytes_to(word: &[u8], most: usize) -> Option<Vec<u8>> {
    hex::decode(word).filter(|bytes| bytes.len() <= most)
}

fn bytes_of(word: &[u8]) -> Option<Vec<u8>> {
    bytes_to(word, MAX_BYTES)
}

fn path_of(host: &[u8], destination: &[u8], organization: &[u8]) -> Option<OwnPath> {
    Some(OwnPath {
        host: bytes_of(host)?,
        destination: bytes_of(destination)?,
        organization: bytes_of(organization)?,
    })
}

#[cfg(test)]
mod tests {
    use super::*;
    use crate::lines;
    use crate::samples::{Sample, CALLER_INFORMATION, LIVE_LOCATION};

    fn answers(script: &str) -> Vec<String> {
        lines::tests::answers(Probe::new(), script)
    }

    fn answer(line: &str) -> String {
        let all = answers(&format!("{line}\n"));
        assert_eq!(all.len(), 1);
        all[0].clone()
    }

    fn hexed(bytes: &[u8]) -> String {
        let mut out = Vec::new();
        hex::encode(bytes, &mut out);
        String::from_utf8(out).unwrap()
    }

    #[test]
    fn reading() {
        assert_eq!(answer("read -"), "no 2 0 0");
        assert_eq!(answer("read 5b30315d"), "no 4 2 0");
        assert_eq!(
            answer(&format!("read {}", hexed(&Sample::ping().bytes()))),
            "ok 10"
        );
        assert_eq!(answer("read 5b225d"), "no 4 3 0");
        assert_eq!(answer("read 5b7b7d5d"), "no 6 0 2");
    }

    #[test]
    fn readings_under_a_ceiling() {
        let ping = Sample::ping().text();
        let last = ping.rfind("\"nx\"").unwrap();
        let open = format!("[{}1", "1,".repeat(16_383));
        for (ceiling, text, wanted) in [
            (0, "[]", "no 11 0 0"),
            (1, "[tx", "no 11 1 0"),
            (2, "[tx", "no 4 2 0"),
            (9, &ping, &format!("no 11 {last} 0")),
            (10, &ping, "ok 10"),
            (CEILING, &open, "no 11 32767 0"),
            (u32::MAX, &open, "no 4 32768 0"),
        ] {
            let text = hexed(text.as_bytes());
            let script = format!("ceiling {ceiling}\nread {text}");
            assert_eq!(answers(&script), ["ok", wanted]);
        }
        let open = hexed(open.as_bytes());
        assert_eq!(answer(&format!("read {open}")), "no 11 32767 0");
    }

    #[test]
    fn the_held_ceiling() {
        let (lines, wanted): (Vec<&str>, Vec<&str>) = [
            ("read 5b315d", "no 6 0 2"),
            ("ceiling 1", "ok"),
            ("blank 1 176", "ok"),
            ("read 5b315d", "no 11 1 0"),
            ("msg 1 5b315d", "no 11 1 0"),
            ("tick 1 4131", "no 20 0 0"),
            ("ceiling 4294967296", "?"),
            ("ceiling x", "?"),
            ("read 5b315d", "no 11 1 0"),
            ("ceiling 002", "ok"),
            ("read 5b315d", "no 6 0 2"),
            ("msg 1 5b315d", "no 6 0 0"),
            ("ceiling 0", "ok"),
            ("read 5b315d", "no 11 0 0"),
            ("table 00", "no 1"),
            ("msg 1 5b315d", "no 1 0 0"),
        ]
        .into_iter()
        .unzip();
        assert_eq!(answers(&lines.join("\n")), wanted);
    }

    /// Writing always reads at 16,384 (02 §9).
    #[test]
    fn writers_have_their_own_ceiling() {
        let request = hexed(&Sample::request("7 BYE").bytes());
        let response = hexed(&Sample::response("7 BYE", "200 OK").bytes());
        let date = hexed(b"2024-03-01T00:00:00+0900");
        for line in [
            format!("reply 200 {date} 400 {request}"),
            format!("add 61 61 6161 400 {request}"),
            format!("remove 61 61 6161 0 {response}"),
        ] {
            let script = format!("ceiling 0\n{line}");
            assert_eq!(answers(&script)[1], answer(&line));
        }
    }

    #[test]
    fn positions() {
        let answer = |sample: &Sample| answer(&format!("positions {}", hexed(&sample.bytes())));
        let invite = Sample::request("1 INVITE");
        assert_eq!(answer(&invite), "ok home 35660000 139750000");
        let gps = r#"{"provider":"gps","latitude":-0.5,"longitude":-0}"#;
        let map = r#"{"provider":"map","latitude":90,"longitude":-180.000000}"#;
        let two = invite.clone().with("Locations", &format!("[{gps},{map}]"));
        let places = "ok -500000 0 90000000 -180000000";
        assert_eq!(answer(&two), format!("{places} home 35660000 139750000"));
        let home = r#"{"latitude":35.66,"longitude":139.75}"#;
        let away = two
            .clone()
            .with("Call-Mode", "\"training\"")
            .with("Caller", &CALLER_INFORMATION.replace(home, "\"\""));
        assert_eq!(answer(&away), places);
        assert_eq!(answer(&away.with("Locations", "[]")), "ok");
        let notify = Sample::request("1 NOTIFY");
        assert_eq!(answer(&notify), "ok");
        let located = notify
            .with("Content-Type", "\"message/vnd.net119.location\"")
            .with("Body", LIVE_LOCATION);
        assert_eq!(answer(&located), "ok 35660000 139750000");
        let place = located.text().find("139.75").unwrap();
        let beyond = located.with("Body", &LIVE_LOCATION.replace("139.75", "1e2"));
        assert_eq!(answer(&beyond), format!("no 9 {place}"));
        for other in [
            Sample::request("1 BYE"),
            Sample::response("1 INVITE", "200 OK"),
            Sample::ping(),
            Sample::pong(),
        ] {
            assert_eq!(answer(&other), "ok");
        }
        assert_eq!(answer(&Sample::request("2 CALLBACK")), "no 10 0");
    }

    /// As writing they read at 16,384 always (02 §9).
    #[test]
    fn positions_have_their_own_ceiling() {
        let invite = hexed(&Sample::request("1 INVITE").bytes());
        let script = format!("ceiling 0\npositions {invite}\npositions -\nread {invite}");
        let wanted = ["ok", "ok home 35660000 139750000", "no 2 0", "no 11 0 0"];
        assert_eq!(answers(&script), wanted);
        let open = format!("[{}1", "1,".repeat(16_383));
        let open = hexed(open.as_bytes());
        assert_eq!(answer(&format!("positions {open}")), "no 11 32767");
    }

    #[test]
    fn what_is_no_command() {
        for line in [
            "",
            " ",
            "read",
            "read ",
            "read 5",
            "read 5B",
            "read 5b 5d",
            "read  5b",
            " read 5b",
            "read 5b\r",
            "READ 5b",
            "positions",
            "positions ",
            "positions 5",
            "positions 5B5D",
            "positions 5b5d 1",
            "position 5b5d",
            "ceiling",
            "ceiling ",
            "ceiling -1",
            "ceiling 1 ",
            "ceiling 1 2",
            "ceiling 4294967296",
            "ceiling 18446744073709551616",
            "Ceiling 1",
            "dump ",
            "blank 1",
            "blank 65536 176",
            "blank 1 65537",
            "blank -1 176",
            "table",
            "msg 18446744073709551616 -",
            "msg 1",
            "tick 1 A1",
            "reply 65536 - 0 -",
            "reply 200 - 40001 -",
            "add - - - 40001 -",
            "remove - - 0 -",
            "text",
            "text -",
            "text 1",
            "text 5c6e 1",
            "text 40001 5c",
            "text 1 5C",
            "text 1 5c 1",
        ] {
            assert_eq!(answer(line), "?", "{line}");
        }
        assert!(answers("").is_empty());
        assert_eq!(answers("\n\n"), ["?", "?"]);
        assert_eq!(answers("read -"), ["no 2 0 0"]);
    }

    #[test]
    fn limits_of_size() {
        let line = |length: usize| format!("read {}", "0".repeat(length - 5));
        assert_eq!(answer(&format!("read {}", "5b".repeat(40_000))), "no 2 0 0");
        assert_eq!(answer(&format!("read {}", "5b".repeat(40_001))), "?");
        assert_eq!(
            answer(&format!("tick 1 {}", "41".repeat(40_000))),
            "no 9 0 0"
        );
        assert_eq!(answer(&format!("tick 1 {}", "41".repeat(40_001))), "?");
        assert_eq!(answer(&format!("table {}", "00".repeat(65_536))), "no 1");
        assert_eq!(answer(&format!("table {}", "00".repeat(65_537))), "?");
        assert_eq!(answer(&line(170_000)), "?");
        let script = format!("{}\nread -\n", line(170_001));
        assert_eq!(answers(&script), ["?", "no 2 0 0"]);
        assert_eq!(answer("blank 65535 65536"), "no 1");
        assert_eq!(answer("reply 65535 - 2 -"), "no 30 5a5a");
        assert_eq!(answer("reply 200 - 40000 -").len(), "no 30 ".len() + 80_000);
    }

    #[test]
    fn the_held_table() {
        let blank = hexed(&table::blank_of(1));
        let script =
            "blank 1 176\ndump\nblank 0 16\nblank 1 177\ndump\ntable 00\ndump\ntable -\ndump";
        let wanted = [
            "ok", &blank, "no 1", "no 1", &blank, "no 1", "00", "no 1", "-",
        ];
        assert_eq!(answers(script), wanted);
        // At first 255 blank records.
        let first = hexed(&table::blank_of(255));
        assert_eq!(answer("dump"), first);
        let script = format!("table {blank}\ntick 1 4131\nblank 2 336\ntable ff\ntick 1 4131");
        assert_eq!(
            answers(&script),
            ["ok", "no 20 0 0", "ok", "no 1", "no 1 0 0"]
        );
    }

    #[test]
    fn events() {
        let message = |sample: Sample| format!("msg 1000 {}", hexed(&sample.bytes()));
        let script = [
            "blank 1 176".to_string(),
            message(Sample::request("1 INVITE")),
            message(Sample::request("1 INVITE").of_call("B2")),
            message(Sample::request("1 BYE").of_call("B2")),
            "tick 15999 41312e6e78".into(),
            "tick 16000 41312e6e78".into(),
            "tick 0 41312e6e78".into(),
            "msg 1 5b5d".into(),
        ]
        .join("\n");
        let wanted = [
            "ok",
            "ok pass 1",
            "no 27 0 486",
            "no 20 0 481",
            "ok none 1",
            "ok timeout 5",
            "no 22 0 0",
            "no 6 0 0",
        ];
        assert_eq!(answers(&script), wanted);
    }

    /// A tick's Call-ID has no bad letter: its place is 0 (02 §12).
    #[test]
    fn bad_letters() {
        let message = Sample::request("4294967296 BYE");
        let place = message.text().find("6 BYE").unwrap();
        let message = hexed(&message.bytes());
        assert_eq!(
            answer(&format!("read {message}")),
            format!("no 9 {place} 13")
        );
        assert_eq!(
            answer(&format!("msg 1 {message}")),
            format!("no 9 {place} 0")
        );
        assert_eq!(answer(&format!("tick 1 {}", hexed(b"A1_"))), "no 9 0 0");
    }

    #[test]
    fn writers() {
        let request = hexed(&Sample::request("7 BYE").bytes());
        let date = hexed(b"2024-03-01T00:00:00+0900");
        let written = answer(&format!("reply 200 {date} 400 {request}"));
        let words: Vec<&str> = written.split(' ').collect();
        let length: usize = words[1].parse().unwrap();
        assert_eq!((words[0], words[2].len()), ("ok", 800));
        assert!(words[2][2 * length..].chars().all(|c| "5a".contains(c)));
        assert_eq!(
            answer(&format!("reply 200 {date} 2 {request}")),
            "no 33 5a5a"
        );
        assert_eq!(answer(&format!("reply 200 {date} 0 {request}")), "no 33 -");
        assert_eq!(answer(&format!("reply 200 - 1 {request}")), "no 32 5a");
        assert_eq!(answer(&format!("add 61 61 6161 0 {request}")), "no 33 -");
        assert_eq!(answer("add - - - 1 -"), "no 38 5a");
        assert_eq!(answer("remove - - - 1 -"), "no 38 5a -");
        assert_eq!(
            answer(&format!("remove 61 61 6161 0 {request}")),
            "no 30 - -"
        );
        let entry = r#"{"host":"a","destination":"a","organization":"aa"}"#;
        let response = Sample::response("7 BYE", "200 OK")
            .with_via(1, &[entry])
            .bytes();
        let off = answer(&format!("remove 61 61 6161 400 {}", hexed(&response)));
        assert!(off.starts_with("ok ") && off.ends_with(" 68312e6e78"));
    }

    #[test]
    fn texts() {
        for (spelled, room, wanted) in [
            ("", 0, "ok 0 -"),
            ("", 1, "ok 0 5a"),
            (r"a\/b", 3, "ok 3 612f62"),
            (r"a\/b", 5, "ok 3 612f625a5a"),
            (r"a\/b", 2, "no 33 5a5a"),
            (r"\ud83d\ude00", 4, "ok 4 f09f9880"),
            (r"a\ud83d", 2, "no 9 5a5a"),
            (r"a\ud83d", 0, "no 9 -"),
            // What begins no escape stands for itself.
            (r"\x\u12", 6, "ok 6 5c785c753132"),
        ] {
            let line = format!("text {room} {}", hexed(spelled.as_bytes()));
            assert_eq!(answer(&line), wanted, "{spelled}");
        }
        assert_eq!(answer("text 2 ff5c6e"), "ok 2 ff0a");
        let most = |count: usize| format!("text 40000 {}", "5c".repeat(count));
        assert!(answer(&most(40_000)).starts_with("ok 20000 5c"));
        assert_eq!(answer(&most(40_001)), "?");
        // The text is held to a message's length, however it is spelled.
        let long = |room: usize, spelled: &str, count: usize| {
            let spelled = hexed(&[spelled.as_bytes(), &vec![b'a'; count]].concat());
            answer(&format!("text {room} {spelled}"))
        };
        assert!(long(40_000, r"\u0061", 32_767).starts_with("ok 32768 61"));
        assert_eq!(long(1, r"\u0061", 32_767), "no 33 5a");
        assert_eq!(long(1, r"\u0061", 32_768), "no 39 5a");
        assert_eq!(long(1, r"\ud83d", 32_768), "no 9 5a");
    }
}
