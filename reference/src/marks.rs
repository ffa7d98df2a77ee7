//! The worked examples of document 01, each as it stands there.

use crate::call::Word;
use crate::keep::Keep;
use crate::keeper::{self, Accepted};
use crate::lines;
use crate::message::{self, CEILING};
use crate::rules;
use crate::samples::Sample;
use crate::table::{self, Record, State};
use crate::writing;

const REQUEST: &str = r#"["request",{"CSeq":"7 BYE","To":"net119:u1@nishi.caller","From":"net119:fire@kita.callee","Call-ID":"A1.nx","Date":"2024-02-29T23:59:59+0900","Via":[{"host":"h1.nx","destination":"kita.callee","organization":"nx"}]}]"#;

const REPLY: &str = r#"["response",{"Status":"200 OK","CSeq":"7 BYE","To":"net119:u1@nishi.caller","From":"net119:fire@kita.callee","Call-ID":"A1.nx","Date":"2024-03-01T00:00:00+0900","Via":[{"host":"h1.nx","destination":"kita.callee","organization":"nx"}]}]"#;

#[test]
fn the_bye_and_its_reply() {
    let mut out = [0x5a; 300];
    let date = b"2024-03-01T00:00:00+0900";
    let length = writing::reply(REQUEST.as_bytes(), 200, date, &mut out).unwrap();
    assert_eq!(&out[..length], REPLY.as_bytes());
    assert!(out[length..].iter().all(|byte| *byte == 0x5a));
}

#[test]
fn the_first_tick() {
    let answer = lines::tests::written(Keep::new(), b"1000 tick A1.nx\n");
    assert_eq!(answer, "1000 refused 20\n");
}

#[test]
fn both_sides_of_the_mark_in_reading() {
    assert!(rules::is_call_id(b"A1"));
    assert!(!rules::is_call_id(b"A."));
    assert!(rules::parse_cseq(b"4294967295 BYE").is_some());
    assert!(rules::parse_cseq(b"4294967296 BYE").is_none());
    assert!(rules::parse_cseq(b"01 BYE").is_none());
    assert!(rules::is_date(b"2000-02-29T00:00:00+0000"));
    assert!(!rules::is_date(b"1900-02-29T00:00:00+0000"));
    let refusal = message::read(b"[01]", CEILING).answer.unwrap_err();
    assert_eq!((refusal.number, refusal.place), (4, 2));
}

/// A table of one record in this state since then.
fn image(state: State, since: u64) -> Vec<u8> {
    let mut image = table::blank_of(1);
    let record = Record {
        state,
        last_time: since,
        entered: since,
        chat_time: since,
        ..table::tests::sample("A1.nx")
    };
    table::store(&mut image, 0, Some(&record));
    image
}

#[test]
fn both_sides_of_the_mark_in_time() {
    let mut calling = image(State::Calling, 1000);
    let none = Accepted {
        word: Word::None,
        state: 1,
    };
    assert_eq!(keeper::tick(&mut calling, 15_999, b"A1.nx"), Ok(none));
    let timeout = Accepted {
        word: Word::Timeout,
        state: 5,
    };
    assert_eq!(keeper::tick(&mut calling, 16_000, b"A1.nx"), Ok(timeout));

    let callback = Sample::request("1 CALLBACK").bytes();
    let pass = Accepted {
        word: Word::Pass,
        state: 5,
    };
    let mut ended = image(State::Ended, 0);
    assert_eq!(
        keeper::message(&mut ended, CEILING, 3_600_000, &callback),
        Ok(pass)
    );
    let late = keeper::message(&mut ended, CEILING, 3_600_001, &callback).unwrap_err();
    assert_eq!((late.number, late.place, late.reply), (26, 0, 404));
}

#[test]
fn a_100_does_not_stop_the_15_seconds() {
    let mut image = table::blank_of(1);
    let invite = Sample::request("1 INVITE").bytes();
    let trying = Sample::response("1 INVITE", "100 Trying").bytes();
    assert!(keeper::message(&mut image, CEILING, 1000, &invite).is_ok());
    assert!(keeper::message(&mut image, CEILING, 15_000, &trying).is_ok());
    let timeout = Accepted {
        word: Word::Timeout,
        state: 5,
    };
    assert_eq!(keeper::tick(&mut image, 16_000, b"A1.nx"), Ok(timeout));
}
