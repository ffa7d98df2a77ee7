//! The rule of one call (01 Events): its record, an event and a time give an
//! answer and what becomes of the record. No table is in it.

use crate::message::{Exchange, Side};
use crate::rules::Method;
use crate::table::{Record, State};

/// All times are milliseconds.
pub const CALLING_LIMIT: u64 = 15_000;
pub const RINGING_LIMIT: u64 = 150_000;
pub const IDLE_LIMIT: u64 = 1_800_000;
pub const ENDED_LIMIT: u64 = 3_600_000;

#[derive(Debug, Clone, Copy)]
pub enum Event<'e> {
    Request(&'e Exchange<'e>),
    Response(&'e Exchange<'e>, u16),
    Tick,
}

#[derive(Debug, Clone, Copy, PartialEq, Eq, PartialOrd, Ord)]
pub enum Word {
    Pass,
    Repeat,
    Bye,
    Timeout,
    Idle,
    Freed,
    None,
}

impl Word {
    pub const ALL: [Word; 7] = [
        Word::Pass,
        Word::Repeat,
        Word::Bye,
        Word::Timeout,
        Word::Idle,
        Word::Freed,
        Word::None,
    ];

    pub fn name(self) -> &'static str {
        match self {
            Word::Pass => "pass",
            Word::Repeat => "repeat",
            Word::Bye => "bye",
            Word::Timeout => "timeout",
            Word::Idle => "idle",
            Word::Freed => "freed",
            Word::None => "none",
        }
    }

    pub fn of_name(name: &str) -> Option<Word> {
        Word::ALL.into_iter().find(|word| word.name() == name)
    }
}

/// What an accepted event does to the record.
#[derive(Debug, PartialEq, Eq)]
pub enum Outcome {
    /// Repeat and none change nothing.
    Unchanged(Word),
    Changed(Word, Record),
    Freed,
}

/// An outcome, or a number from 21 to 26.
pub type Answer = Result<Outcome, u8>;

/// The record that a new INVITE takes.
pub fn new_call(invite: &Exchange, now: u64) -> Record {
    Record {
        state: State::Calling,
        call_id: invite.call_id.clone(),
        user: invite.user.clone(),
        caller_fire: invite.caller_fire.clone(),
        callee_fire: invite.callee_fire.clone(),
        secure: invite.secure,
        invite_number: invite.number,
        caller_highest: invite.number,
        caller_method: Method::Invite,
        callee_highest: None,
        last_time: now,
        entered: now,
        chat_time: now,
    }
}

/// The answer of a call that has a record.
pub fn answer(record: &Record, event: Event, now: u64) -> Answer {
    if let Event::Request(exchange) | Event::Response(exchange, _) = event {
        if !same_parties(record, exchange) {
            return Err(21);
        }
    }
    if now < record.last_time {
        return Err(22);
    }
    match event {
        Event::Request(exchange) => request(record, exchange, now),
        Event::Response(exchange, status) => response(record, exchange, status, now),
        Event::Tick => Ok(tick(record, now)),
    }
}

fn same_parties(record: &Record, exchange: &Exchange) -> bool {
    record.user == exchange.user
        && record.caller_fire == exchange.caller_fire
        && record.callee_fire == exchange.callee_fire
}

/// Accepts with the state as it is: only the last time is set.
fn stay(record: &Record, word: Word, now: u64) -> Outcome {
    Outcome::Changed(
        word,
        Record {
            last_time: now,
            ..record.clone()
        },
    )
}

/// Accepts with a new state: its entry time is set, and by Answered the chat time.
fn enter(record: &Record, word: Word, state: State, now: u64) -> Outcome {
    let chat_time = match state {
        State::Answered => now,
        _ => record.chat_time,
    };
    Outcome::Changed(
        word,
        Record {
            state,
            last_time: now,
            entered: now,
            chat_time,
            ..record.clone()
        },
    )
}

// Requests.

fn request(record: &Record, exchange: &Exchange, now: u64) -> Answer {
    match exchange.method {
        Method::Invite => again(record, exchange),
        Method::Ack => ack(record, exchange, now),
        Method::Cancel => cancel(record, exchange, now),
        Method::Bye | Method::Message | Method::Notify | Method::Refer => {
            within_call(record, exchange, now)
        }
        Method::Callback => callback(record, now),
    }
}

/// An INVITE for a call that has a record.
fn again(record: &Record, exchange: &Exchange) -> Answer {
    if exchange.number == record.invite_number {
        Ok(Outcome::Unchanged(Word::Repeat))
    } else {
        Err(24)
    }
}

fn ack(record: &Record, exchange: &Exchange, now: u64) -> Answer {
    if exchange.number != record.invite_number {
        return Err(23);
    }
    match record.state {
        State::Answered => Ok(enter(record, Word::Pass, State::Talking, now)),
        State::Talking => Ok(Outcome::Unchanged(Word::Repeat)),
        _ => Err(24),
    }
}

fn cancel(record: &Record, exchange: &Exchange, now: u64) -> Answer {
    if exchange.number != record.invite_number {
        return Err(23);
    }
    match record.state {
        State::Calling | State::Ringing => Ok(enter(record, Word::Pass, State::Cancelling, now)),
        _ => Ok(Outcome::Unchanged(Word::Repeat)),
    }
}

/// A side's highest number with its method; none before its first.
pub fn last_request(record: &Record, side: Side) -> Option<(u32, Method)> {
    match side {
        Side::Caller => Some((record.caller_highest, record.caller_method)),
        Side::Callee => record.callee_highest,
    }
}

/// A side's highest number; 0 before its first.
pub fn highest(record: &Record, side: Side) -> u32 {
    last_request(record, side).map_or(0, |(number, _)| number)
}

/// BYE, MESSAGE, NOTIFY and REFER.
fn within_call(record: &Record, exchange: &Exchange, now: u64) -> Answer {
    if last_request(record, exchange.from) == Some((exchange.number, exchange.method)) {
        return Ok(Outcome::Unchanged(Word::Repeat));
    }
    if exchange.number <= highest(record, exchange.from) {
        return Err(23);
    }
    if !matches!(record.state, State::Answered | State::Talking) {
        return Err(24);
    }
    if exchange.method == Method::Refer && !record.secure {
        return Err(25);
    }
    let numbered = set_highest(record, exchange);
    Ok(match exchange.method {
        Method::Bye => enter(&numbered, Word::Pass, State::Ended, now),
        Method::Message => {
            let chatted = Record {
                chat_time: now,
                ..numbered
            };
            stay(&chatted, Word::Pass, now)
        }
        _ => stay(&numbered, Word::Pass, now),
    })
}

/// The record with the sender's highest number and its method set.
fn set_highest(record: &Record, exchange: &Exchange) -> Record {
    let mut record = record.clone();
    match exchange.from {
        Side::Caller => {
            record.caller_highest = exchange.number;
            record.caller_method = exchange.method;
        }
        Side::Callee => record.callee_highest = Some((exchange.number, exchange.method)),
    }
    record
}

/// A CALLBACK sets no number: its 1 is not the callee's highest.
fn callback(record: &Record, now: u64) -> Answer {
    if record.state != State::Ended {
        return Err(24);
    }
    if now - record.entered > ENDED_LIMIT {
        return Err(26);
    }
    Ok(stay(record, Word::Pass, now))
}

// Responses.

fn response(record: &Record, exchange: &Exchange, status: u16, now: u64) -> Answer {
    match exchange.method {
        Method::Invite => to_invite(record, exchange, status, now),
        Method::Bye | Method::Message | Method::Notify | Method::Refer => {
            if exchange.number > highest(record, exchange.from) {
                return Err(23);
            }
            pass_in(
                record,
                &[State::Answered, State::Talking, State::Ended],
                now,
            )
        }
        Method::Cancel | Method::Ack => {
            if exchange.number != record.invite_number {
                return Err(23);
            }
            if exchange.method == Method::Cancel && record.state == State::Cancelling {
                return Ok(stay(record, Word::Pass, now));
            }
            pass_in(
                record,
                &[State::Answered, State::Talking, State::Ended],
                now,
            )
        }
        Method::Callback => pass_in(record, &[State::Ended], now),
    }
}

/// Pass in these states, 24 in all others.
fn pass_in(record: &Record, states: &[State], now: u64) -> Answer {
    if states.contains(&record.state) {
        Ok(stay(record, Word::Pass, now))
    } else {
        Err(24)
    }
}

fn to_invite(record: &Record, exchange: &Exchange, status: u16, now: u64) -> Answer {
    use State::*;
    if exchange.number != record.invite_number {
        return Err(23);
    }
    match (status, record.state) {
        (180, Calling) => Ok(enter(record, Word::Pass, Ringing, now)),
        (100..=199, Calling | Ringing | Cancelling) => Ok(stay(record, Word::Pass, now)),
        (200..=299, Calling | Ringing) => Ok(enter(record, Word::Pass, Answered, now)),
        (200..=299, Answered | Talking) => Ok(stay(record, Word::Pass, now)),
        (200..=299, Cancelling) => Ok(enter(record, Word::Bye, Ended, now)),
        (200..=299, Ended) => Ok(stay(record, Word::Bye, now)),
        (300.., Calling | Ringing | Cancelling) => Ok(enter(record, Word::Pass, Ended, now)),
        _ => Err(24),
    }
}

// Ticks.

/// The time since which a call's limit runs, and the limit.
pub fn limit(record: &Record) -> (u64, u64) {
    match record.state {
        State::Calling | State::Cancelling => (record.entered, CALLING_LIMIT),
        State::Ringing => (record.entered, RINGING_LIMIT),
        State::Answered | State::Talking => (record.chat_time, IDLE_LIMIT),
        State::Ended => (record.entered, ENDED_LIMIT),
    }
}

/// The time is not below the last time, nor that below the others.
fn tick(record: &Record, now: u64) -> Outcome {
    let (since, limit) = limit(record);
    let passed = now - since;
    match record.state {
        State::Calling | State::Cancelling | State::Ringing if passed >= limit => {
            enter(record, Word::Timeout, State::Ended, now)
        }
        State::Answered | State::Talking if passed >= limit => {
            enter(record, Word::Idle, State::Ended, now)
        }
        State::Ended if passed > limit => Outcome::Freed,
        _ => Outcome::Unchanged(Word::None),
    }
}
