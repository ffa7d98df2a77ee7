//! Call flows side by side. The table that the lines so far have made is the
//! model: each next event is mostly one that fits some call in it, with the
//! right number and a time near the limits, and sometimes one that does not.

use super::damage;
use super::draft::{self, Plan};
use super::escapes;
use super::rng::Rng;
use super::texts;
use crate::call::{self, highest, CALLING_LIMIT, ENDED_LIMIT, IDLE_LIMIT, RINGING_LIMIT};
use crate::message::{Side, MAX_LENGTH};
use crate::rules::Method;
use crate::table::{self, Record, State};

/// What happens at a time.
pub enum Happening {
    Message(Vec<u8>),
    Tick(Vec<u8>),
}

/// Times beyond this would leave no room to go on, so few calls get one.
const FAR: u64 = 1 << 62;
/// How many calls may be left at such a time.
const MAX_FAR: usize = 3;

#[derive(Clone, Copy, PartialEq, Eq)]
enum Phase {
    /// A few calls that live their lives.
    Calm,
    /// New calls until the table is full, and some more.
    Flood,
    /// Ticks until most records are free again.
    Sweep,
}

pub struct Flow {
    clock: u64,
    made: usize,
    phase: Phase,
    left: usize,
}

/// A message's kind in a flow.
#[derive(Clone, Copy)]
enum Step {
    Request(Method),
    Response(Method, u16),
    /// A response of any class.
    AnyResponse(Method),
}

impl Flow {
    pub fn new(rng: &mut Rng) -> Self {
        Flow {
            clock: *rng.pick(&[0, 1000, 1_700_000_000_000]),
            made: 0,
            phase: Phase::Calm,
            left: 300,
        }
    }

    /// The next event on this table.
    pub fn next(&mut self, rng: &mut Rng, image: &[u8]) -> (u64, Happening) {
        let used = table::used(image);
        let live = live_calls(image, &used);
        let count = table::count(image);
        self.turn(count, used.len());
        let wants_new = match self.phase {
            Phase::Calm if live.len() < 6 && used.len() < count => rng.percent(25),
            Phase::Calm => rng.percent(3),
            Phase::Flood => rng.percent(80),
            Phase::Sweep => false,
        };
        let prefers_live = !live.is_empty() && self.phase != Phase::Sweep && rng.percent(75);
        let choices = if prefers_live { &live } else { &used };
        let record = (!choices.is_empty()).then(|| *rng.pick(choices));
        let record = record.and_then(|index| table::load(image, index));
        match record {
            _ if rng.percent(4) => self.stray(rng),
            Some(record) if self.phase == Phase::Sweep && rng.percent(80) => {
                self.expire(rng, &record)
            }
            Some(record) if !wants_new => {
                let far = far_calls(image, &used);
                self.go_on(rng, &record, far < MAX_FAR)
            }
            _ => self.begin(rng),
        }
    }

    /// Goes to the next phase when this one has lasted.
    fn turn(&mut self, count: usize, used: usize) {
        let full = self.phase == Phase::Flood && used == count;
        let most = if full { 30 } else { usize::MAX };
        self.left = self.left.min(most).saturating_sub(1);
        let swept = self.phase == Phase::Sweep && used <= 12.min(count / 2);
        if self.left > 0 && !swept {
            return;
        }
        (self.phase, self.left) = match self.phase {
            Phase::Calm => (Phase::Flood, 2 * count + 6),
            Phase::Flood => (Phase::Sweep, 6 * count + 10),
            Phase::Sweep => (Phase::Calm, 12 * count + 60),
        };
    }

    fn pass_time(&mut self, time: u64) -> u64 {
        if time < FAR {
            self.clock = self.clock.max(time);
        }
        time
    }

    fn later(&mut self, rng: &mut Rng, from: u64) -> u64 {
        let step = rng.weighted(&[(3, 0), (4, 40), (4, 3000), (1, 20_000)]);
        let time = from.saturating_add(rng.below(step + 1) as u64);
        self.pass_time(time)
    }

    /// A new INVITE.
    fn begin(&mut self, rng: &mut Rng) -> (u64, Happening) {
        self.made += 1;
        let mut plan = Plan::of_method(rng, Method::Invite);
        plan.response = None;
        plan.call_id = self.new_call_id(rng);
        plan.number = if rng.one_in(12) {
            draft::number(rng)
        } else {
            rng.between(1, 3) as u32
        };
        let time = self.later(rng, self.clock);
        (time, Happening::Message(message(rng, &plan)))
    }

    /// Names that differ, of all lengths.
    fn new_call_id(&mut self, rng: &mut Rng) -> Vec<u8> {
        let made = self.made;
        match rng.below(8) {
            0 => texts::call_id(rng),
            1 => format!("{made:02}").into(),
            2 => format!("{made:064}").into(),
            3 => format!("a{made}.-x").into(),
            _ => format!("{made}-1.server01.nx").into(),
        }
    }

    /// An event that names no call there is, or is no call's at all.
    fn stray(&mut self, rng: &mut Rng) -> (u64, Happening) {
        let time = self.later(rng, self.clock);
        let happening = match rng.below(8) {
            0 => Happening::Tick(texts::bad_call_id(rng)),
            1 => Happening::Tick(texts::call_id(rng)),
            2 | 3 => {
                let mut draft = draft::ping_or_pong(rng);
                if rng.one_in(4) {
                    draft.spoil(rng);
                }
                Happening::Message(escapes::render(rng, draft))
            }
            _ => {
                let plan = Plan::random(rng);
                Happening::Message(message(rng, &plan))
            }
        };
        (time, happening)
    }

    /// A tick that ends or frees a call, or just does not.
    fn expire(&mut self, rng: &mut Rng, record: &Record) -> (u64, Happening) {
        let (start, limit) = call::limit(record);
        let over = u64::from(!rng.one_in(3));
        let time = start.saturating_add(limit + over).max(record.last_time);
        let time = if time < FAR {
            time.max(self.clock)
        } else {
            time
        };
        let time = self.later(rng, time);
        (time, tick(rng, record))
    }

    /// An event of a call that has a record.
    fn go_on(&mut self, rng: &mut Rng, record: &Record, far: bool) -> (u64, Happening) {
        if rng.percent(14) {
            let time = self.limit_time(rng, record, far);
            return (time, tick(rng, record));
        }
        let step = if rng.percent(80) {
            fitting_step(rng, record.state)
        } else if rng.one_in(2) {
            Step::Request(*rng.pick(&Method::ALL))
        } else {
            Step::AnyResponse(*rng.pick(&Method::ALL))
        };
        let plan = plan_for(rng, record, step);
        let time = match step {
            Step::Request(Method::Callback) => self.limit_time(rng, record, far),
            _ => self.plain_time(rng, record, far),
        };
        (time, Happening::Message(message(rng, &plan)))
    }

    /// Mostly a little later; at times just at the last time, before it, or at an end.
    fn plain_time(&mut self, rng: &mut Rng, record: &Record, far: bool) -> u64 {
        let last = record.last_time;
        match rng.below(60) {
            0..=2 => last,
            3 | 4 => last.saturating_sub(1),
            5 => last.saturating_sub(rng.between(1, 100_000) as u64),
            6 => 0,
            7 if far && rng.one_in(4) => u64::MAX - rng.below(2) as u64,
            8 | 9 => self.limit_time(rng, record, far),
            _ => {
                let from = if last < FAR {
                    last.max(self.clock)
                } else {
                    last
                };
                self.later(rng, from)
            }
        }
    }

    /// A time at a limit of this call, or one millisecond to either side.
    fn limit_time(&mut self, rng: &mut Rng, record: &Record, far: bool) -> u64 {
        if rng.one_in(5) {
            return self.plain_time_once(rng, record, far);
        }
        let (start, limit) = if rng.percent(85) {
            call::limit(record)
        } else {
            let limits = [CALLING_LIMIT, RINGING_LIMIT, IDLE_LIMIT, ENDED_LIMIT];
            let starts = [record.entered, record.chat_time, record.last_time];
            (*rng.pick(&starts), *rng.pick(&limits))
        };
        let time = start
            .saturating_add(limit + rng.below(3) as u64)
            .saturating_sub(1);
        if time < record.last_time && rng.percent(70) {
            return self.plain_time_once(rng, record, far);
        }
        self.pass_time(time)
    }

    fn plain_time_once(&mut self, rng: &mut Rng, record: &Record, far: bool) -> u64 {
        match rng.below(8) {
            0 => record.last_time,
            1 => record.last_time.saturating_sub(1),
            2 if far && rng.one_in(8) => u64::MAX,
            _ => {
                let step = rng.below(2000) as u64;
                let time = record.last_time.saturating_add(step);
                self.pass_time(time)
            }
        }
    }
}

/// A tick of this call. Its Call-ID is bytes as they are (02 §2), so that one
/// spelled with escapes is none.
fn tick(rng: &mut Rng, record: &Record) -> Happening {
    let call_id = &record.call_id;
    Happening::Tick(match rng.one_in(40) {
        true => escapes::spell(rng, call_id),
        false => call_id.clone(),
    })
}

/// The calls that have not ended.
fn live_calls(image: &[u8], used: &[usize]) -> Vec<usize> {
    let ended = |index: &usize| image[table::length_for(*index)] == State::Ended as u8;
    used.iter().copied().filter(|index| !ended(index)).collect()
}

fn far_calls(image: &[u8], used: &[usize]) -> usize {
    let records = used.iter().filter_map(|index| table::load(image, *index));
    records.filter(|record| record.last_time >= FAR).count()
}

/// What may well come next in a state, and now and then what may not.
fn fitting_step(rng: &mut Rng, state: State) -> Step {
    use Method::*;
    use Step::{AnyResponse, Request, Response};
    match state {
        State::Calling => rng.weighted(&[
            (3, Response(Invite, 100)),
            (6, Response(Invite, 180)),
            (4, Response(Invite, 200)),
            (2, AnyResponse(Invite)),
            (2, Request(Cancel)),
            (1, Request(Invite)),
        ]),
        State::Ringing => rng.weighted(&[
            (1, Response(Invite, 180)),
            (1, Response(Invite, 183)),
            (6, Response(Invite, 200)),
            (1, Response(Invite, 486)),
            (1, AnyResponse(Invite)),
            (2, Request(Cancel)),
            (1, Request(Invite)),
        ]),
        State::Answered => rng.weighted(&[
            (8, Request(Ack)),
            (1, Response(Invite, 200)),
            (2, Request(Message)),
            (1, AnyResponse(Message)),
            (1, Request(Notify)),
            (1, Request(Cancel)),
            (1, Request(Bye)),
        ]),
        State::Talking => rng.weighted(&[
            (10, Request(Message)),
            (5, AnyResponse(Message)),
            (4, Request(Notify)),
            (2, AnyResponse(Notify)),
            (6, Request(Refer)),
            (2, AnyResponse(Refer)),
            (2, Request(Bye)),
            (1, Request(Ack)),
            (1, Response(Invite, 200)),
            (1, AnyResponse(Ack)),
            (1, AnyResponse(Cancel)),
            (1, Request(Cancel)),
            (1, Request(Invite)),
        ]),
        State::Ended => rng.weighted(&[
            (6, Request(Callback)),
            (3, AnyResponse(Callback)),
            (3, AnyResponse(Bye)),
            (2, Request(Bye)),
            (2, Response(Invite, 200)),
            (1, Response(Invite, 487)),
            (1, Request(Message)),
            (1, AnyResponse(Message)),
            (1, AnyResponse(Cancel)),
            (1, Request(Invite)),
            (1, Request(Cancel)),
        ]),
        State::Cancelling => rng.weighted(&[
            (3, Response(Invite, 487)),
            (3, Response(Invite, 200)),
            (2, Response(Invite, 180)),
            (3, AnyResponse(Cancel)),
            (1, AnyResponse(Invite)),
            (1, Request(Cancel)),
            (1, Request(Invite)),
        ]),
    }
}

/// The message of a step for this call: its texts, and mostly its numbers.
fn plan_for(rng: &mut Rng, record: &Record, step: Step) -> Plan {
    let (method, response) = match step {
        Step::Request(method) => (method, None),
        Step::Response(method, status) => (method, Some(status)),
        Step::AnyResponse(method) => (method, Some(draft::status(rng, method))),
    };
    let from = draft::sender(rng, method);
    let mut plan = Plan {
        response,
        number: right_number(rng, record, method, from, response.is_some()),
        method,
        from,
        call_id: record.call_id.clone(),
        user: record.user.clone(),
        caller_fire: record.caller_fire.clone(),
        callee_fire: record.callee_fire.clone(),
        secure: rng.one_in(2),
        via: draft::paths(rng),
    };
    if rng.percent(12) && (method != Method::Callback || rng.one_in(8)) {
        plan.number = wrong_number(rng, record, from);
    }
    // A repeat: the side's last request once more.
    if response.is_none() && rng.percent(6) {
        let last = call::last_request(record, from);
        (plan.number, plan.method) = last.unwrap_or((plan.number, plan.method));
    }
    if rng.percent(4) {
        change_a_party(rng, &mut plan);
    }
    plan
}

fn right_number(rng: &mut Rng, record: &Record, method: Method, from: Side, answer: bool) -> u32 {
    match method {
        Method::Invite | Method::Ack | Method::Cancel => record.invite_number,
        Method::Callback => 1,
        _ if answer && rng.one_in(3) => rng.between(1, 3) as u32,
        _ if answer => highest(record, from).max(1),
        _ => highest(record, from).saturating_add(rng.weighted(&[(12, 1), (1, 2), (1, 7)])),
    }
}

fn wrong_number(rng: &mut Rng, record: &Record, from: Side) -> u32 {
    let own = highest(record, from);
    let number = match rng.below(8) {
        0 | 1 => own,
        2 => own.saturating_sub(1),
        3 => own.saturating_add(1),
        4 => record.invite_number.saturating_add(1),
        5 => record.invite_number - 1,
        6 => record.caller_highest,
        _ => draft::number(rng),
    };
    number.max(1)
}

fn change_a_party(rng: &mut Rng, plan: &mut Plan) {
    let text = match rng.below(3) {
        0 => &mut plan.user,
        1 => &mut plan.caller_fire,
        _ => &mut plan.callee_fire,
    };
    let last = text.len() - 1;
    match rng.below(3) {
        0 if text.len() > 2 => {
            text.truncate(last);
            text[last - 1] = b'q';
        }
        1 if text.len() < 15 => text.push(b'x'),
        _ => text[last] = if text[last] == b'z' { b'y' } else { b'z' },
    }
}

/// The bytes of a plan: mostly right, or spoiled in one of many ways.
pub fn message(rng: &mut Rng, plan: &Plan) -> Vec<u8> {
    let mut draft = plan.compose(rng);
    if rng.percent(12) {
        draft.add_ignored(rng);
    }
    if rng.percent(13) {
        draft.spoil(rng);
    }
    let mut bytes = escapes::render(rng, draft);
    match rng.below(100) {
        0..=2 => damage::scatter(rng, &mut bytes),
        3 => damage::put_sequence(rng, &mut bytes),
        4 if rng.one_in(10) => {
            let length = MAX_LENGTH - 1 + rng.below(3);
            damage::grow(rng, &mut bytes, length);
        }
        _ => {}
    }
    bytes
}
