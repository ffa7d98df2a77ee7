//! Events on a lent table image: the call's rule at the record that the
//! Call-ID names, with 01 Events' numbers, places and replies.

use crate::call::{self, Event, Outcome, Word};
use crate::message::{self, Exchange, Message, Refusal};
use crate::rules::{self, Method};
use crate::table;

#[derive(Debug, Clone, Copy, PartialEq, Eq)]
pub struct Accepted {
    pub word: Word,
    /// The new state's number; 0 once freed.
    pub state: u8,
}

#[derive(Debug, Clone, Copy, PartialEq, Eq)]
pub struct Refused {
    pub number: u8,
    pub place: usize,
    pub reply: u16,
}

pub type Answer = Result<Accepted, Refused>;

const TORN: Refused = Refused {
    number: 1,
    place: 0,
    reply: 0,
};

/// A message, read under a ceiling of values, on any bytes at all.
pub fn message(image: &mut [u8], ceiling: u32, now: u64, bytes: &[u8]) -> Answer {
    if !table::well_formed(image) {
        return Err(TORN);
    }
    message_on_good_table(image, ceiling, now, bytes)
}

/// A tick on any bytes at all.
pub fn tick(image: &mut [u8], now: u64, call_id: &[u8]) -> Answer {
    if !table::well_formed(image) {
        return Err(TORN);
    }
    tick_on_good_table(image, now, call_id)
}

/// A message where the table is known to be well-formed; it stays so.
pub fn message_on_good_table(image: &mut [u8], ceiling: u32, now: u64, bytes: &[u8]) -> Answer {
    let message = message::read(bytes, ceiling).answer.map_err(unread)?;
    let (exchange, event) = match &message {
        Message::Request(exchange) => (exchange, Event::Request(exchange)),
        Message::Response(exchange, status) => (exchange, Event::Response(exchange, *status)),
        Message::Probe => return Err(refused(28, 0)),
    };
    let answer = match (table::find(image, &exchange.call_id), event) {
        (None, Event::Request(invite)) if invite.method == Method::Invite => {
            start(image, invite, now)
        }
        (found, event) => go_on(image, found, event, now),
    };
    answer.map_err(|number| refused(number, reply(number, event)))
}

/// A tick where the table is known to be well-formed; it stays so.
pub fn tick_on_good_table(image: &mut [u8], now: u64, call_id: &[u8]) -> Answer {
    if !rules::is_call_id(call_id) {
        return Err(refused(9, 0));
    }
    let found = table::find(image, call_id);
    go_on(image, found, Event::Tick, now).map_err(|number| refused(number, 0))
}

/// A new INVITE takes the lowest free record.
fn start(image: &mut [u8], invite: &Exchange, now: u64) -> Result<Accepted, u8> {
    let index = table::lowest_free(image).ok_or(27)?;
    let record = call::new_call(invite, now);
    table::store(image, index, Some(&record));
    Ok(Accepted {
        word: Word::Pass,
        state: record.state as u8,
    })
}

/// An event for a call that should have a record.
fn go_on(image: &mut [u8], found: Option<usize>, event: Event, now: u64) -> Result<Accepted, u8> {
    let index = found.ok_or(20)?;
    let record = table::load(image, index).ok_or(20)?;
    let (word, state) = match call::answer(&record, event, now)? {
        Outcome::Unchanged(word) => (word, record.state as u8),
        Outcome::Changed(word, changed) => {
            table::store(image, index, Some(&changed));
            (word, changed.state as u8)
        }
        Outcome::Freed => {
            table::store(image, index, None);
            (Word::Freed, 0)
        }
    };
    Ok(Accepted { word, state })
}

fn unread(refusal: Refusal) -> Refused {
    Refused {
        number: refusal.number,
        place: refusal.place,
        reply: 0,
    }
}

fn refused(number: u8, reply: u16) -> Refused {
    Refused {
        number,
        place: 0,
        reply,
    }
}

/// 01 Events, the column 'Reply'.
fn reply(number: u8, event: Event) -> u16 {
    let method = match event {
        Event::Request(exchange) if exchange.method != Method::Ack => exchange.method,
        _ => return 0,
    };
    match number {
        20 if method == Method::Callback => 404,
        20 | 21 => 481,
        22 | 23 => 500,
        24 => 400,
        25 => 405,
        26 => 404,
        27 => 486,
        _ => 0,
    }
}

#[cfg(test)]
mod tests {
    use super::*;
    use crate::message::CEILING;
    use crate::samples::{Sample, CALLEE, CALLER};
    use crate::table::{Record, State};

    fn message(image: &mut [u8], now: u64, bytes: &[u8]) -> Answer {
        super::message(image, CEILING, now, bytes)
    }

    /// A call entered at 1000, last heard of at 2000; INVITE 3, caller's
    /// highest 5 (MESSAGE), callee's 7 (MESSAGE).
    fn record(state: State) -> Record {
        Record {
            state,
            call_id: b"A1.nx".to_vec(),
            callee_highest: Some((7, Method::Message)),
            last_time: 2000,
            entered: 1000,
            chat_time: 1200,
            ..table::tests::sample("A1.nx")
        }
    }

    fn image_of(record: &Record) -> Vec<u8> {
        let mut image = table::blank_of(2);
        table::store(&mut image, 1, Some(record));
        image
    }

    /// The answer to a message, and the record after it. A refusal, a repeat
    /// and a none leave every byte as it was.
    fn send(before: &Record, now: u64, sample: &Sample) -> (Answer, Option<Record>) {
        let mut image = image_of(before);
        let answer = message(&mut image, now, &sample.bytes());
        judged(before, answer, image)
    }

    fn wait(before: &Record, now: u64) -> (Answer, Option<Record>) {
        let mut image = image_of(before);
        let answer = tick(&mut image, now, b"A1.nx");
        judged(before, answer, image)
    }

    fn judged(before: &Record, answer: Answer, image: Vec<u8>) -> (Answer, Option<Record>) {
        let changes = answer.is_ok_and(|yes| !matches!(yes.word, Word::Repeat | Word::None));
        assert!(changes || image == image_of(before));
        assert!(table::well_formed(&image));
        assert_eq!(table::load(&image, 0), None);
        (answer, table::load(&image, 1))
    }

    fn yes(word: Word, state: u8) -> Answer {
        Ok(Accepted { word, state })
    }

    fn no(number: u8, reply: u16) -> Answer {
        Err(refused(number, reply))
    }

    /// `pass4`, `repeat4`, `bye5` or a number for each state from 1 to 6.
    fn row(sample: &Sample, outcomes: &str, reply: u16) {
        for (state, outcome) in State::ALL.into_iter().zip(outcomes.split(' ')) {
            let (word, digit) = outcome.split_at(outcome.len() - 1);
            let wanted = match Word::of_name(word) {
                Some(word) => yes(word, digit.parse().unwrap()),
                None => no(outcome.parse().unwrap(), reply),
            };
            let (answer, _) = send(&record(state), 2000, sample);
            assert_eq!(answer, wanted, "{state:?} {}", sample.text());
        }
    }

    #[test]
    fn requests_in_every_state() {
        let repeats = "repeat1 repeat2 repeat3 repeat4 repeat5 repeat6";
        row(&Sample::request("3 INVITE"), repeats, 0);
        row(&Sample::request("4 INVITE"), "24 24 24 24 24 24", 400);
        row(&Sample::request("2 INVITE"), "24 24 24 24 24 24", 400);
        row(&Sample::request("3 ACK"), "24 24 pass4 repeat4 24 24", 0);
        row(&Sample::request("4 ACK"), "23 23 23 23 23 23", 0);
        let cancel = "pass6 pass6 repeat3 repeat4 repeat5 repeat6";
        row(&Sample::request("3 CANCEL"), cancel, 0);
        row(&Sample::request("5 CANCEL"), "23 23 23 23 23 23", 500);
        row(&Sample::request("6 BYE"), "24 24 pass5 pass5 24 24", 400);
        row(
            &Sample::request("6 MESSAGE"),
            "24 24 pass3 pass4 24 24",
            400,
        );
        row(&Sample::request("6 NOTIFY"), "24 24 pass3 pass4 24 24", 400);
        row(&Sample::request("8 REFER"), "24 24 pass3 pass4 24 24", 400);
        row(
            &Sample::request("8 BYE").sent_by_callee(),
            "24 24 pass5 pass5 24 24",
            400,
        );
        row(
            &Sample::request("8 MESSAGE").sent_by_callee(),
            "24 24 pass3 pass4 24 24",
            400,
        );
        row(&Sample::request("1 CALLBACK"), "24 24 24 24 pass5 24", 400);
    }

    #[test]
    fn numbers_of_either_side() {
        let repeats = "repeat1 repeat2 repeat3 repeat4 repeat5 repeat6";
        row(&Sample::request("5 MESSAGE"), repeats, 0);
        row(&Sample::request("7 MESSAGE").sent_by_callee(), repeats, 0);
        // The same number with another method, and lower numbers.
        row(&Sample::request("5 BYE"), "23 23 23 23 23 23", 500);
        row(&Sample::request("4 MESSAGE"), "23 23 23 23 23 23", 500);
        row(&Sample::request("7 REFER"), "23 23 23 23 23 23", 500);
        row(
            &Sample::request("6 MESSAGE").sent_by_callee(),
            "23 23 23 23 23 23",
            500,
        );
        // A callee without a number begins with any.
        let fresh = Record {
            callee_highest: None,
            ..record(State::Talking)
        };
        let (answer, after) = send(&fresh, 2000, &Sample::request("1 BYE").sent_by_callee());
        assert_eq!(answer, yes(Word::Pass, 5));
        assert_eq!(after.unwrap().callee_highest, Some((1, Method::Bye)));
        // CALLBACK's 1 is not the callee's highest.
        let ended = Record {
            callee_highest: None,
            ..record(State::Ended)
        };
        let (_, after) = send(&ended, 2000, &Sample::request("1 CALLBACK"));
        assert_eq!(after.unwrap().callee_highest, None);
    }

    #[test]
    fn responses_in_every_state() {
        let to = |cseq: &str, status: &str| Sample::response(cseq, status);
        row(
            &to("3 INVITE", "100 Trying"),
            "pass1 pass2 24 24 24 pass6",
            0,
        );
        row(
            &to("3 INVITE", "180 Ringing"),
            "pass2 pass2 24 24 24 pass6",
            0,
        );
        row(&to("3 INVITE", "179 x"), "pass1 pass2 24 24 24 pass6", 0);
        row(&to("3 INVITE", "181 x"), "pass1 pass2 24 24 24 pass6", 0);
        row(&to("3 INVITE", "199 x"), "pass1 pass2 24 24 24 pass6", 0);
        row(
            &to("3 INVITE", "200 OK"),
            "pass3 pass3 pass3 pass4 bye5 bye5",
            0,
        );
        row(
            &to("3 INVITE", "299 x"),
            "pass3 pass3 pass3 pass4 bye5 bye5",
            0,
        );
        row(&to("3 INVITE", "300 x"), "pass5 pass5 24 24 24 pass5", 0);
        row(&to("3 INVITE", "699 x"), "pass5 pass5 24 24 24 pass5", 0);
        row(&to("4 INVITE", "200 OK"), "23 23 23 23 23 23", 0);
        for status in ["100 x", "200 OK", "481 x"] {
            for cseq in ["5 BYE", "1 MESSAGE", "5 NOTIFY"] {
                row(&to(cseq, status), "24 24 pass3 pass4 pass5 24", 0);
            }
            row(&to("7 REFER", status), "24 24 pass3 pass4 pass5 24", 0);
            row(
                &to("7 BYE", status).sent_by_callee(),
                "24 24 pass3 pass4 pass5 24",
                0,
            );
            row(&to("3 CANCEL", status), "24 24 pass3 pass4 pass5 pass6", 0);
            row(&to("3 ACK", status), "24 24 pass3 pass4 pass5 24", 0);
            row(&to("1 CALLBACK", status), "24 24 24 24 pass5 24", 0);
        }
        row(&to("6 BYE", "200 OK"), "23 23 23 23 23 23", 0);
        row(&to("8 REFER", "202 x"), "23 23 23 23 23 23", 0);
        row(
            &to("8 MESSAGE", "200 OK").sent_by_callee(),
            "23 23 23 23 23 23",
            0,
        );
        row(&to("2 CANCEL", "200 OK"), "23 23 23 23 23 23", 0);
        row(&to("4 ACK", "200 OK"), "23 23 23 23 23 23", 0);
    }

    #[test]
    fn times_after_an_acceptance() {
        let times = |record: Option<Record>| {
            let record = record.unwrap();
            (record.last_time, record.entered, record.chat_time)
        };
        let after = |state: State, sample: Sample| times(send(&record(state), 3000, &sample).1);
        // A state that stays keeps its entry time.
        let ring = Sample::response("3 INVITE", "180 x");
        assert_eq!(after(State::Ringing, ring.clone()), (3000, 1000, 1200));
        assert_eq!(after(State::Calling, ring), (3000, 3000, 1200));
        let trying = Sample::response("3 INVITE", "100 x");
        assert_eq!(after(State::Calling, trying), (3000, 1000, 1200));
        // Reaching 3 sets the chat time, being there does not.
        let ok = Sample::response("3 INVITE", "200 OK");
        assert_eq!(after(State::Ringing, ok.clone()), (3000, 3000, 3000));
        assert_eq!(after(State::Answered, ok.clone()), (3000, 1000, 1200));
        assert_eq!(after(State::Ended, ok.clone()), (3000, 1000, 1200));
        assert_eq!(after(State::Cancelling, ok), (3000, 3000, 1200));
        assert_eq!(
            after(State::Answered, Sample::request("3 ACK")),
            (3000, 3000, 1200)
        );
        // A passed MESSAGE does, its response does not.
        assert_eq!(
            after(State::Talking, Sample::request("6 MESSAGE")),
            (3000, 1000, 3000)
        );
        let response = Sample::response("5 MESSAGE", "200 OK");
        assert_eq!(after(State::Talking, response), (3000, 1000, 1200));
        assert_eq!(
            after(State::Talking, Sample::request("6 NOTIFY")),
            (3000, 1000, 1200)
        );
        assert_eq!(
            after(State::Talking, Sample::request("6 BYE")),
            (3000, 3000, 1200)
        );
        assert_eq!(
            after(State::Ended, Sample::request("1 CALLBACK")),
            (3000, 1000, 1200)
        );
    }

    #[test]
    fn numbers_after_a_pass() {
        let (_, after) = send(&record(State::Talking), 2000, &Sample::request("9 NOTIFY"));
        let after = after.unwrap();
        assert_eq!(
            (after.caller_highest, after.caller_method),
            (9, Method::Notify)
        );
        assert_eq!(after.callee_highest, Some((7, Method::Message)));
        let (_, after) = send(&record(State::Talking), 2000, &Sample::request("9 REFER"));
        let after = after.unwrap();
        assert_eq!(
            (after.caller_highest, after.caller_method),
            (5, Method::Message)
        );
        assert_eq!(after.callee_highest, Some((9, Method::Refer)));
    }

    #[test]
    fn ticks_at_each_limit() {
        let at = |state: State, now: u64| wait(&record(state), now);
        for (state, limit, word) in [
            (State::Calling, 16_000, Word::Timeout),
            (State::Cancelling, 16_000, Word::Timeout),
            (State::Ringing, 151_000, Word::Timeout),
            (State::Answered, 1_801_200, Word::Idle),
            (State::Talking, 1_801_200, Word::Idle),
        ] {
            assert_eq!(at(state, limit - 1).0, yes(Word::None, state as u8));
            let (answer, after) = at(state, limit);
            assert_eq!(answer, yes(word, 5));
            let after = after.unwrap();
            assert_eq!(
                (after.last_time, after.entered, after.chat_time),
                (limit, limit, 1200)
            );
            assert_eq!(at(state, u64::MAX).0, yes(word, 5));
        }
        assert_eq!(at(State::Ended, 3_601_000).0, yes(Word::None, 5));
        assert_eq!(at(State::Ended, 3_601_001), (yes(Word::Freed, 0), None));
    }

    #[test]
    fn callback_within_the_hour() {
        let callback = Sample::request("1 CALLBACK");
        let at = |now| send(&record(State::Ended), now, &callback).0;
        assert_eq!(at(3_601_000), yes(Word::Pass, 5));
        assert_eq!(at(3_601_001), no(26, 404));
        // A response to it has no hour.
        let response = Sample::response("1 CALLBACK", "200 OK");
        let (answer, _) = send(&record(State::Ended), 3_601_001, &response);
        assert_eq!(answer, yes(Word::Pass, 5));
    }

    #[test]
    fn refer_needs_a_secure_call() {
        let open = Record {
            secure: false,
            ..record(State::Talking)
        };
        assert_eq!(
            send(&open, 2000, &Sample::request("8 REFER")).0,
            no(25, 405)
        );
        // 23 and 24 come before it.
        assert_eq!(
            send(&open, 2000, &Sample::request("6 REFER")).0,
            no(23, 500)
        );
        let ended = Record {
            secure: false,
            ..record(State::Ended)
        };
        assert_eq!(
            send(&ended, 2000, &Sample::request("8 REFER")).0,
            no(24, 400)
        );
    }

    #[test]
    fn an_earlier_time_is_22_before_all_that_follows() {
        for (sample, reply) in [
            (Sample::request("3 INVITE"), 500),
            (Sample::request("9 INVITE"), 500),
            (Sample::request("9 ACK"), 0),
            (Sample::request("5 MESSAGE"), 500),
            (Sample::request("1 CALLBACK"), 500),
            (Sample::response("9 INVITE", "200 OK"), 0),
        ] {
            assert_eq!(
                send(&record(State::Talking), 1999, &sample).0,
                no(22, reply)
            );
        }
        assert_eq!(wait(&record(State::Talking), 1999).0, no(22, 0));
        assert_eq!(wait(&record(State::Talking), 2000).0, yes(Word::None, 4));
    }

    #[test]
    fn other_parties_are_21_before_22() {
        let talking = record(State::Talking);
        for from in [
            "\"net119:u2@nishi.caller\"",
            "\"net119:u1@higashi.caller\"",
            "\"net119:u@nishi.caller\"",
        ] {
            let sample = Sample::request("6 MESSAGE").with("From", from);
            assert_eq!(send(&talking, 0, &sample).0, no(21, 481));
            let response = Sample::response("5 MESSAGE", "200 OK").with("From", from);
            assert_eq!(send(&talking, 0, &response).0, no(21, 0));
            let ack = Sample::request("3 ACK").with("From", from);
            assert_eq!(send(&talking, 0, &ack).0, no(21, 0));
            let invite = Sample::request("3 INVITE").with("From", from);
            assert_eq!(send(&talking, 0, &invite).0, no(21, 481));
            let callback = Sample::request("1 CALLBACK").with("To", from);
            assert_eq!(send(&talking, 0, &callback).0, no(21, 481));
        }
        let sample = Sample::request("6 BYE").with("To", "\"net119:fire@kit.callee\"");
        assert_eq!(send(&talking, 2000, &sample).0, no(21, 481));
    }

    #[test]
    fn no_such_call_is_20() {
        let talking = record(State::Talking);
        let to_none = |sample: Sample| send(&talking, 0, &sample.of_call("B2")).0;
        for method in ["BYE", "CANCEL", "MESSAGE", "REFER", "NOTIFY"] {
            assert_eq!(
                to_none(Sample::request(&format!("1 {method}"))),
                no(20, 481)
            );
        }
        assert_eq!(to_none(Sample::request("1 CALLBACK")), no(20, 404));
        assert_eq!(to_none(Sample::request("1 ACK")), no(20, 0));
        assert_eq!(to_none(Sample::response("1 INVITE", "200 OK")), no(20, 0));
        assert_eq!(to_none(Sample::response("1 CALLBACK", "200 OK")), no(20, 0));
        let mut image = image_of(&talking);
        assert_eq!(tick(&mut image, 0, b"B2"), no(20, 0));
    }

    #[test]
    fn pings_are_28_and_bad_ticks_9() {
        let talking = record(State::Talking);
        assert_eq!(send(&talking, 2000, &Sample::ping()).0, no(28, 0));
        assert_eq!(send(&talking, 2000, &Sample::pong()).0, no(28, 0));
        let mut image = image_of(&talking);
        for call_id in [&b""[..], b"A", b"A.", b"A1\r", &[b'A'; 65]] {
            assert_eq!(tick(&mut image, 2000, call_id), no(9, 0));
        }
        // Reading comes first.
        let bad = Sample::ping().with("Date", "1");
        assert!(matches!(send(&talking, 0, &bad).0, Err(no) if no.number == 9 && no.place > 0));
    }

    #[test]
    fn too_many_values_are_11_before_all_but_1() {
        let talking = image_of(&record(State::Talking));
        let mut image = talking.clone();
        let bye = Sample::request("6 BYE");
        let second = Refused {
            number: 11,
            place: 1,
            reply: 0,
        };
        for (now, bytes) in [
            (2000, bye.bytes()),
            (0, bye.of_call("B2").bytes()),
            (0, Sample::ping().bytes()),
        ] {
            assert_eq!(super::message(&mut image, 1, now, &bytes), Err(second));
        }
        assert_eq!(image, talking);
        assert_eq!(super::message(&mut [], 0, 0, b"1"), no(1, 0));
        // A tick reads no values.
        let waiting = tick(&mut image, 2000, b"A1.nx");
        assert_eq!(waiting, yes(Word::None, 4));
    }

    #[test]
    fn a_torn_table_is_1_before_all() {
        let mut image = image_of(&record(State::Talking));
        image[0] = b'n';
        let torn = image.clone();
        assert_eq!(message(&mut image, 0, b""), no(1, 0));
        assert_eq!(
            message(&mut image, 0, &Sample::request("1 INVITE").bytes()),
            no(1, 0)
        );
        assert_eq!(tick(&mut image, 0, b""), no(1, 0));
        assert_eq!(message(&mut [], 0, b""), no(1, 0));
        assert_eq!(image, torn);
    }

    #[test]
    fn a_new_invite_takes_the_lowest_free_record() {
        let mut image = table::blank_of(2);
        let invite = |call_id: &str| Sample::request("9 INVITE").of_call(call_id).bytes();
        for (index, call_id) in ["C0", "C1"].into_iter().enumerate() {
            assert_eq!(message(&mut image, 5, &invite(call_id)), yes(Word::Pass, 1));
            let wanted = Record {
                state: State::Calling,
                call_id: call_id.into(),
                invite_number: 9,
                caller_highest: 9,
                caller_method: Method::Invite,
                callee_highest: None,
                last_time: 5,
                entered: 5,
                chat_time: 5,
                ..table::tests::sample(call_id)
            };
            assert_eq!(table::load(&image, index), Some(wanted));
        }
        let full = image.clone();
        assert_eq!(message(&mut image, 0, &invite("C2")), no(27, 486));
        // A response to an INVITE of no call is 20, full or not.
        let response = Sample::response("9 INVITE", "200 OK").of_call("C2");
        assert_eq!(message(&mut image, 0, &response.bytes()), no(20, 0));
        assert_eq!(image, full);
        // Freeing moves no record; the next call takes the free place.
        assert_eq!(tick(&mut image, 15_005, b"C0"), yes(Word::Timeout, 5));
        assert_eq!(tick(&mut image, 3_615_006, b"C0"), yes(Word::Freed, 0));
        assert_eq!(table::load(&image, 0), None);
        assert_eq!(table::find(&image, b"C1"), Some(1));
        assert_eq!(message(&mut image, 7, &invite("C2")), yes(Word::Pass, 1));
        assert_eq!(table::find(&image, b"C2"), Some(0));
    }

    /// 02 §2: records hold texts, whatever letters they came in, and a tick's
    /// Call-ID is bytes as they are.
    #[test]
    fn calls_in_other_letters() {
        let spelled = |sample: Sample| {
            sample
                .of_call(r"\u0041\u0031.nx")
                .with("From", r#""net119:\u0075\u0031@nishi.caller""#)
                .with("To", r#""net119:fire@kit\u0061.callee""#)
                .bytes()
        };
        let mut plain = table::blank_of(1);
        let mut image = plain.clone();
        let invite = Sample::request("3 INVITE");
        assert_eq!(message(&mut plain, 5, &invite.bytes()), yes(Word::Pass, 1));
        let invite = spelled(invite);
        assert_eq!(message(&mut image, 5, &invite), yes(Word::Pass, 1));
        assert_eq!(image, plain);
        assert_eq!(message(&mut plain, 6, &invite), yes(Word::Repeat, 1));
        let ringing = Sample::response("3 INVITE", "18\\u0030 Ringing");
        assert_eq!(
            message(&mut plain, 7, &spelled(ringing)),
            yes(Word::Pass, 2)
        );
        let other = Sample::request("3 CANCEL").with("From", r#""net119:\u00752@nishi.caller""#);
        assert_eq!(message(&mut plain, 8, &other.bytes()), no(21, 481));
        assert_eq!(tick(&mut plain, 8, br"\u0041\u0031.nx"), no(9, 0));
        assert_eq!(tick(&mut plain, 8, b"A1.nx"), yes(Word::None, 2));
    }

    #[test]
    fn secure_call_comes_from_the_invite() {
        for (value, secure) in [("true", true), ("false", false)] {
            let mut image = table::blank_of(1);
            let invite = Sample::request("1 INVITE").with("Secure-Call", value);
            assert!(message(&mut image, 0, &invite.bytes()).is_ok());
            assert_eq!(table::load(&image, 0).unwrap().secure, secure);
        }
    }

    #[test]
    fn the_greatest_times_and_numbers() {
        let mut image = table::blank_of(1);
        let invite = Sample::request("4294967295 INVITE");
        assert_eq!(
            message(&mut image, u64::MAX, &invite.bytes()),
            yes(Word::Pass, 1)
        );
        let ok = Sample::response("4294967295 INVITE", "200 OK");
        assert_eq!(message(&mut image, u64::MAX - 1, &ok.bytes()), no(22, 0));
        assert_eq!(
            message(&mut image, u64::MAX, &ok.bytes()),
            yes(Word::Pass, 3)
        );
        assert_eq!(tick(&mut image, u64::MAX, b"A1.nx"), yes(Word::None, 3));
        let bye = Sample::request("4294967295 BYE");
        assert_eq!(message(&mut image, u64::MAX, &bye.bytes()), no(23, 500));
        assert_eq!(
            message(&mut image, u64::MAX, &bye.sent_by_callee().bytes()),
            yes(Word::Pass, 5)
        );
    }

    #[test]
    fn sides_are_those_of_the_record() {
        // The same user and Fire-IDs, but both addresses read from the other field.
        let sample = Sample::request("8 MESSAGE")
            .with("From", CALLEE)
            .with("To", CALLER);
        assert_eq!(
            send(&record(State::Talking), 2000, &sample).0,
            yes(Word::Pass, 4)
        );
    }
}
