//! Lines for `probe`.

use super::ceilings;
use super::damage;
use super::draft::{self, Plan};
use super::escapes;
use super::flow::{self, Flow, Happening};
use super::image;
use super::raw;
use super::rng::Rng;
use super::texts;
use crate::hex;
use crate::lines::Answerer;
use crate::message::{CEILING, MAX_LENGTH};
use crate::probe::{Probe, MAX_BYTES, MAX_LINE, MAX_ROOM, MAX_TABLE};
use crate::rules::Method;
use crate::table;
use crate::writing::{self, OwnPath, STATUS_TEXTS};

/// Tables of more records than this are dumped rarely: they are long.
const SMALL: usize = 8;

/// Makes a script, one line after the other.
pub struct Script {
    rng: Rng,
    flow: Flow,
    probe: Probe,
    /// The line that a ceiling was chosen for.
    next: Option<Vec<u8>>,
}

impl Script {
    pub fn new(seed: u64) -> Self {
        let mut rng = Rng::new(seed);
        let flow = Flow::new(&mut rng);
        Script {
            rng,
            flow,
            probe: Probe::new(),
            next: None,
        }
    }

    /// The next line, without its line feed.
    pub fn line(&mut self) -> Vec<u8> {
        let line = self.next.take().unwrap_or_else(|| self.compose());
        self.probe.answer(&line);
        line
    }

    fn compose(&mut self) -> Vec<u8> {
        let rng = &mut self.rng;
        let held = &self.probe.image;
        let records = table::count(held);
        if !table::well_formed(held) && rng.percent(25) {
            return new_table(rng);
        }
        if self.probe.ceiling != CEILING && rng.percent(40) {
            return ceiling(CEILING);
        }
        match rng.below(1000) {
            0..=4 => new_table(rng),
            5..=44 => table_line(rng, held),
            45..=64 if records <= SMALL || rng.one_in(60) => b"dump".to_vec(),
            45..=84 => odd_line(rng),
            85..=85 => long_line(rng),
            86..=115 => self.ceiling_line(),
            116..=279 => read_line(rng),
            280..=319 => text_line(rng),
            320..=439 => reply_line(rng),
            440..=529 => add_line(rng),
            530..=619 => remove_line(rng),
            _ => self.event_line(),
        }
    }

    fn event_line(&mut self) -> Vec<u8> {
        let (time, happening) = self.flow.next(&mut self.rng, &self.probe.image);
        match happening {
            Happening::Message(bytes) => words("msg", &[&time, &Hex(bytes)]),
            Happening::Tick(call_id) => words("tick", &[&time, &Hex(call_id)]),
        }
    }

    /// A ceiling around the values of what the next line reads: its last word.
    /// That of a tick is no text, and any ceiling is as good.
    fn ceiling_line(&mut self) -> Vec<u8> {
        let next = match self.rng.one_in(2) {
            true => read_line(&mut self.rng),
            false => self.event_line(),
        };
        let word = next.rsplit(|byte| *byte == b' ').next();
        let text = word.and_then(hex::decode).unwrap_or_default();
        self.next = Some(next);
        ceiling(ceilings::around(&mut self.rng, &text))
    }
}

/// Something that is a word of a line.
trait Word {
    fn put(&self, out: &mut Vec<u8>);
}

struct Hex(Vec<u8>);

impl Word for Hex {
    fn put(&self, out: &mut Vec<u8>) {
        hex::encode(&self.0, out);
    }
}

impl Word for u64 {
    fn put(&self, out: &mut Vec<u8>) {
        out.extend_from_slice(self.to_string().as_bytes());
    }
}

impl Word for usize {
    fn put(&self, out: &mut Vec<u8>) {
        (*self as u64).put(out);
    }
}

fn words(command: &str, words: &[&dyn Word]) -> Vec<u8> {
    let mut line = command.as_bytes().to_vec();
    for word in words {
        line.push(b' ');
        word.put(&mut line);
    }
    line
}

/// A blank table that is right: mostly of few records.
fn new_table(rng: &mut Rng) -> Vec<u8> {
    let count = match rng.below(30) {
        0 => 255,
        1 => 254,
        2 => rng.between(9, 60),
        _ => rng.between(1, 6),
    };
    words("blank", &[&count, &table::length_for(count)])
}

/// A table in hex, right or torn, or a blank one with a wrong count or length.
fn table_line(rng: &mut Rng, held: &[u8]) -> Vec<u8> {
    if rng.one_in(4) {
        return wrong_blank(rng);
    }
    let held_is_good = table::count(held) <= SMALL && table::well_formed(held);
    let mut bytes = if held_is_good && rng.one_in(2) {
        held.to_vec()
    } else {
        let count = if rng.one_in(100) {
            255
        } else {
            rng.between(1, 5)
        };
        let clock = *rng.pick(&[0, 1000, 4_000_000, 1_700_000_000_000]);
        image::good(rng, clock, count)
    };
    if rng.percent(60) {
        image::tear(rng, &mut bytes);
    }
    words("table", &[&Hex(bytes)])
}

fn wrong_blank(rng: &mut Rng) -> Vec<u8> {
    let count = *rng.pick(&[0, 1, 2, 255, 256, 257, 409, 65_535]);
    let length = match rng.below(4) {
        0 => table::length_for(count) + 1,
        1 => table::length_for(count) - 1,
        2 => table::length_for(count),
        _ => *rng.pick(&[0, 16, MAX_TABLE, 176]),
    };
    words("blank", &[&count, &length.min(MAX_TABLE)])
}

/// Lines that are answered `?`, and some that only look like it.
fn odd_line(rng: &mut Rng) -> Vec<u8> {
    const ODD: &[&str] = &[
        "",
        " ",
        "?",
        "\r",
        "read",
        "read ",
        "read 5",
        "read 5B5D",
        "read 5b5d ",
        "read  5b5d",
        " read 5b5d",
        "read 5b 5d",
        "read 5b5g",
        "read --",
        "read -",
        "read 5b5d\r",
        "READ 5b5d",
        "reads 5b5d",
        "read\t5b5d",
        "positions",
        "positions ",
        "positions -",
        "positions 5b5d",
        "positions 5B5D",
        "positions 5b5d ",
        "positions  5b5d",
        "positions 5b5d 1",
        "position 5b5d",
        "Positions 5b5d",
        "ceiling",
        "ceiling ",
        "ceiling -",
        "ceiling x",
        "ceiling -1",
        "ceiling +1",
        "ceiling 1 ",
        "ceiling  1",
        "ceiling 1 2",
        "ceiling 1.0",
        "ceiling 0x10",
        "ceiling 00016384",
        "ceiling 4294967295",
        "ceiling 4294967296",
        "ceiling 4294967297",
        "ceiling 18446744073709551616",
        "Ceiling 1",
        "ceilings 1",
        "dump ",
        "dump -",
        "dump\r",
        "Dump",
        "blank",
        "blank 1",
        "blank 1 ",
        "blank  176",
        "blank 1 176 0",
        "blank 01 0176",
        "blank 65535 65536",
        "blank 65536 176",
        "blank 1 65537",
        "blank -1 176",
        "blank +1 176",
        "blank 1 1 7 6",
        "blank 0x1 176",
        "blank 18446744073709551617 176",
        "table",
        "table ",
        "table -",
        "table 0",
        "table 4e4354000001000100000000000000000",
        "msg 1",
        "msg 1 ",
        "msg -",
        "msg 1 -",
        "msg 18446744073709551615 -",
        "msg 18446744073709551616 -",
        "msg 00000000000000000000000001 -",
        "msg x -",
        "msg 1 2 -",
        "msg  -",
        "tick 1 4131",
        "tick 1 A1",
        "tick 1 -",
        "tick 18446744073709551616 4131",
        "tick 4131",
        "reply 200 - 0 -",
        "reply 65535 - 0 -",
        "reply 65536 - 0 -",
        "reply 200 - 40001 -",
        "reply 200 0 0 -",
        "reply 200 - 0",
        "reply 200 -  -",
        "add 61 61 6161 0 -",
        "add 61 61 6161 40001 -",
        "add 61 61 0 -",
        "add - - - 0 -",
        "add 61 61 6161 0 - -",
        "remove 61 61 6161 0 -",
        "remove 61 61 6161 40001 -",
        "remove - - - 0 -",
        "remove 61 61 6161 99999999999999999999 -",
        "remove 6 61 6161 0 -",
        "add 61  6161 0 -",
        "text",
        "text -",
        "text 0 -",
        "text 1 -",
        "text 0 5c",
        "text 1 5c6e",
        "text 01 5c6e",
        "text 5c6e 1",
        "text 2 5c2f ",
        "text 2  5c2f",
        "text  2 5c2f",
        "text 2 ",
        "text  5c2f",
        "text 1 5C2F",
        "text 1 5c2",
        "text -1 5c2f",
        "text - 5c2f",
        "text 40000 5c2f",
        "text 40001 5c2f",
        "text 1 5c2f 1",
        "text 0 5c7564383030",
        "text 3 5c7564383030",
        "Text 1 5c2f",
        "texts 1 5c2f",
        "help",
    ];
    rng.one_of(ODD)
}

/// Lines at and over each limit of size.
fn long_line(rng: &mut Rng) -> Vec<u8> {
    let over = rng.below(2);
    match rng.below(12) {
        0 => read(vec![b'['; MAX_BYTES + over]),
        1 => read(vec![b' '; MAX_LENGTH + over]),
        2 => words("msg", &[&1usize, &Hex(vec![b' '; MAX_BYTES + over])]),
        3 => words("tick", &[&1usize, &Hex(vec![b'A'; MAX_BYTES + over])]),
        4 => words("table", &[&Hex(vec![0; MAX_TABLE + over])]),
        5 => {
            let mut line = b"read ".to_vec();
            line.resize(MAX_LINE + over, b'0');
            line
        }
        6 => words(
            "reply",
            &[
                &200usize,
                &Hex(vec![b'2'; MAX_BYTES + over]),
                &0usize,
                &Hex(Vec::new()),
            ],
        ),
        7 => read(ceilings::crowd(rng)),
        8 => text(vec![b'\\'; MAX_BYTES + over], MAX_ROOM),
        9 => text(b"\\u0041".repeat(MAX_BYTES / 6), MAX_ROOM + over),
        10 => positions(vec![b'['; MAX_BYTES + over]),
        _ => {
            let plan = Plan::random(rng);
            let mut bytes = flow::message(rng, &plan);
            damage::grow(rng, &mut bytes, MAX_LENGTH + over);
            read(bytes)
        }
    }
}

fn read_line(rng: &mut Rng) -> Vec<u8> {
    let bytes = match rng.one_in(2) {
        true => raw::text(rng),
        false => message(rng),
    };
    match rng.one_in(8) {
        true => positions(bytes),
        false => read(bytes),
    }
}

/// A message to read: right, or spoiled for one of the rows or more.
pub fn message(rng: &mut Rng) -> Vec<u8> {
    match rng.below(5) {
        0 => {
            let own = *rng.pick(&[
                Method::Invite,
                Method::Message,
                Method::Notify,
                Method::Refer,
            ]);
            let mut plan = Plan::of_method(rng, own);
            plan.response = None;
            let mut draft = plan.compose(rng);
            draft.break_a_field(rng);
            escapes::render(rng, draft)
        }
        1 => {
            let mut draft = draft::ping_or_pong(rng);
            if rng.one_in(2) {
                draft.spoil(rng);
            }
            escapes::render(rng, draft)
        }
        2 => {
            let plan = Plan::random(rng);
            flow::message(rng, &plan)
        }
        _ => {
            let mut draft = Plan::random(rng).compose(rng);
            draft.spoil(rng);
            if rng.one_in(3) {
                draft.spoil(rng);
            }
            let mut bytes = escapes::render(rng, draft);
            if rng.one_in(12) {
                damage::scatter(rng, &mut bytes);
            }
            bytes
        }
    }
}

/// The line that reads these bytes.
pub fn read(bytes: Vec<u8>) -> Vec<u8> {
    words("read", &[&Hex(bytes)])
}

/// The line that shows the positions in a message of these bytes.
pub fn positions(bytes: Vec<u8>) -> Vec<u8> {
    words("positions", &[&Hex(bytes)])
}

/// The line that sets this ceiling.
pub fn ceiling(ceiling: u32) -> Vec<u8> {
    words("ceiling", &[&u64::from(ceiling)])
}

/// A room for a result: too short by one, exact, larger, none or any.
fn room_for(rng: &mut Rng, length: Option<usize>) -> usize {
    match (length, rng.below(200)) {
        (_, 0) => MAX_ROOM,
        (_, 1) => 0,
        (Some(length), 2..=30) => length.saturating_sub(1),
        (Some(length), 31..=90) => length,
        (Some(length), 91..=95) => rng.below(length + 1),
        (Some(length), _) => (length + rng.below(20)).min(MAX_ROOM),
        (None, _) => rng.below(40),
    }
}

/// Room for any result.
fn ample() -> Vec<u8> {
    vec![0; MAX_ROOM]
}

fn reply_line(rng: &mut Rng) -> Vec<u8> {
    let mut plan = Plan::random(rng);
    if rng.percent(90) {
        plan.response = None;
    }
    let code = match rng.below(12) {
        0 => *rng.pick(&[
            0, 99, 101, 199, 201, 203, 300, 403, 482, 502, 504, 600, 699, 65_535,
        ]),
        1 => 202,
        _ => rng.pick(&STATUS_TEXTS).0,
    };
    let date = if rng.percent(8) {
        texts::bad_date(rng)
    } else {
        texts::date(rng)
    };
    let mut bytes = writers_message(rng, &plan);
    if rng.one_in(100) {
        let grown = writing::reply(&bytes, code, &date, &mut ample());
        grow_via(rng, &mut bytes, grown.ok());
    }
    let length = writing::reply(&bytes, code, &date, &mut ample()).ok();
    let room = room_for(rng, length);
    words(
        "reply",
        &[&usize::from(code), &Hex(date), &room, &Hex(bytes)],
    )
}

/// Bytes to decode, with a room around their text.
fn text_line(rng: &mut Rng) -> Vec<u8> {
    let mut spelled = escapes::spelled(rng);
    if rng.one_in(30) {
        spelled = escapes::lengthened(rng, &spelled);
    }
    let length = writing::text(&spelled, &mut ample()).ok();
    let room = room_for(rng, length);
    text(spelled, room)
}

/// The line that decodes these bytes.
fn text(spelled: Vec<u8>, room: usize) -> Vec<u8> {
    words("text", &[&room, &Hex(spelled)])
}

/// A message for a writer: mostly right.
fn writers_message(rng: &mut Rng, plan: &Plan) -> Vec<u8> {
    if rng.percent(15) {
        return flow::message(rng, plan);
    }
    let mut draft = plan.compose(rng);
    if rng.one_in(6) {
        draft.add_ignored(rng);
    }
    escapes::render(rng, draft)
}

/// Puts white space into the Via until the result is just as long as may be,
/// or one byte more.
fn grow_via(rng: &mut Rng, bytes: &mut Vec<u8>, length: Option<usize>) {
    let (Some(length), Some(name)) = (length, find(bytes, b"\"Via\"")) else {
        return;
    };
    let Some(open) = bytes[name..].iter().position(|byte| *byte == b'[') else {
        return;
    };
    let missing = (MAX_LENGTH + rng.below(2)).saturating_sub(length);
    let at = name + open + 1;
    bytes.splice(at..at, vec![b' '; missing]);
}

fn find(bytes: &[u8], part: &[u8]) -> Option<usize> {
    bytes.windows(part.len()).position(|window| window == part)
}

/// Our own path: mostly good, or breaking one of its rules.
fn own_path(rng: &mut Rng) -> OwnPath {
    let mut path = draft::path(rng);
    if rng.percent(8) {
        match rng.below(3) {
            0 => path.host = texts::bad_host(rng),
            1 => path.destination = texts::bad_destination(rng),
            _ => path.organization = texts::bad_organization(rng),
        }
        if rng.one_in(4) {
            path.destination = vec![rng.byte()];
        }
    }
    path
}

fn path_line(command: &str, path: OwnPath, room: usize, bytes: Vec<u8>) -> Vec<u8> {
    words(
        command,
        &[
            &Hex(path.host),
            &Hex(path.destination),
            &Hex(path.organization),
            &room,
            &Hex(bytes),
        ],
    )
}

fn add_line(rng: &mut Rng) -> Vec<u8> {
    let path = own_path(rng);
    let mut plan = Plan::random(rng);
    if rng.percent(90) {
        plan.response = None;
    }
    match rng.below(20) {
        0 => plan.via.push(path.clone()),
        1 => plan.via.insert(0, path.clone()),
        2 => plan.via[0].host = path.host.clone(),
        3 => plan.via[0].destination = path.destination.clone(),
        4 => {
            let count = rng.between(15, 16);
            plan.via.resize_with(count, || draft::path(rng));
        }
        _ => {}
    }
    plan.via.truncate(16);
    let mut bytes = writers_message(rng, &plan);
    if rng.one_in(100) {
        let grown = writing::add(&bytes, path.lend(), &mut ample());
        grow_via(rng, &mut bytes, grown.ok());
    }
    let length = writing::add(&bytes, path.lend(), &mut ample()).ok();
    let room = room_for(rng, length);
    path_line("add", path, room, bytes)
}

fn remove_line(rng: &mut Rng) -> Vec<u8> {
    let path = own_path(rng);
    let mut plan = Plan::random(rng);
    if rng.percent(92) {
        plan.response = Some(draft::status(rng, plan.method));
    }
    if rng.percent(85) {
        let mut ours = path.clone();
        match rng.below(12) {
            0 => ours.host = texts::host(rng),
            1 => ours.destination = texts::destination(rng),
            2 => ours.organization = texts::organization(rng),
            _ => {}
        }
        plan.via.truncate(15);
        plan.via.push(ours);
        if rng.one_in(12) {
            plan.via.drain(..plan.via.len() - 1);
        }
    }
    let mut bytes = writers_message(rng, &plan);
    if rng.one_in(6) {
        bytes = way_back(rng, &path, bytes);
    }
    let length = writing::remove(&bytes, path.lend(), &mut ample()).ok();
    let room = room_for(rng, length.map(|(length, _)| length));
    path_line("remove", path, room, bytes)
}

/// The reply to a request that we forwarded, where none of it is refused.
fn way_back(rng: &mut Rng, path: &OwnPath, otherwise: Vec<u8>) -> Vec<u8> {
    let request = Plan {
        response: None,
        ..Plan::random(rng)
    };
    let request = writers_message(rng, &request);
    let mut out = ample();
    let Ok(length) = writing::add(&request, path.lend(), &mut out) else {
        return otherwise;
    };
    let forwarded = out[..length].to_vec();
    match writing::reply(&forwarded, 200, &texts::date(rng), &mut out) {
        Ok(length) => out[..length].to_vec(),
        Err(_) => otherwise,
    }
}
