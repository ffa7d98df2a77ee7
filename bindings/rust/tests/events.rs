//! Events on a table of one record: word and state of what is accepted; number, place and reply of what is refused.

use net119::{
    blank, message, message_within, read_within, table_length, tick, well_formed, Accepted,
    Counted, Refused, State, Unread, Word, WrongSize, CEILING,
};

const INVITE: &str = r#","Session-ID":"S1.nx","Call-Mode":"emergency","Call-Test":0,"Secure-Call":true,"Rescuee":"caller","Request-Service":"ambulance","Language":"ja","Locations":[],"User-Agent":"","Caller":{"region":"nishi","uid":"u1","email":"u1@mail.nx","last-modified":"2024-02-29T09:00:00+0900","personal-information":{"name":"A","address":"B","sex":"male","birthday":"1982-01-19","location":{"latitude":35.66,"longitude":139.75}},"region-information":{"name":"Nishi","tel":"119"}}"#;
const STATUS: &str = r#","Status":"200 OK""#;

/// A request of the caller, or the response to one.
fn made(tag: &str, call: &str, cseq: &str, more: &str) -> Vec<u8> {
    format!(
        r#"["{tag}",{{"CSeq":"{cseq}","To":"net119:fire@kita.callee","From":"net119:u1@nishi.caller","Call-ID":"{call}","Date":"2024-02-29T23:59:59+0900","Via":[{{"host":"h1.nx","destination":"kita.callee","organization":"nx"}}]{more}}}]"#
    )
    .into_bytes()
}

fn accepted(word: Word, state: Option<State>) -> Result<Accepted, Refused> {
    Ok(Accepted { word, state })
}

fn refused(number: u8, place: usize, reply: Option<u16>) -> Result<Accepted, Refused> {
    Err(Refused {
        number,
        place,
        reply,
    })
}

fn blank_table() -> [u8; table_length(1)] {
    let mut table = [0x5a; table_length(1)];
    blank(&mut table, 1).unwrap();
    assert!(well_formed(&table));
    table
}

#[test]
fn a_call_that_is_cancelled_and_taken_at_once() {
    let mut table = blank_table();
    let invite = made("request", "A1.nx", "1 INVITE", INVITE);
    let calling = accepted(Word::Pass, Some(State::Calling));
    assert_eq!(message(&mut table, 1000, &invite), calling);
    let again = accepted(Word::Repeat, Some(State::Calling));
    assert_eq!(message(&mut table, 1001, &invite), again);
    let cancel = made("request", "A1.nx", "1 CANCEL", "");
    let cancelling = accepted(Word::Pass, Some(State::Cancelling));
    assert_eq!(message(&mut table, 2000, &cancel), cancelling);
    let taken = made("response", "A1.nx", "1 INVITE", STATUS);
    let bye = accepted(Word::Bye, Some(State::Ended));
    assert_eq!(message(&mut table, 3000, &taken), bye);
    let nothing = accepted(Word::None, Some(State::Ended));
    assert_eq!(tick(&mut table, 3_603_000, b"A1.nx"), nothing);
    let freed = accepted(Word::Freed, None);
    assert_eq!(tick(&mut table, 3_603_001, b"A1.nx"), freed);
    assert_eq!(table, blank_table());
}

#[test]
fn a_call_that_nobody_chats_in() {
    let mut table = blank_table();
    let invite = made("request", "A1.nx", "1 INVITE", INVITE);
    message(&mut table, 1000, &invite).unwrap();
    let taken = made("response", "A1.nx", "1 INVITE", STATUS);
    let answered = accepted(Word::Pass, Some(State::Answered));
    assert_eq!(message(&mut table, 2000, &taken), answered);
    let ack = made("request", "A1.nx", "1 ACK", "");
    let talking = accepted(Word::Pass, Some(State::Talking));
    assert_eq!(message(&mut table, 3000, &ack), talking);
    let idle = accepted(Word::Idle, Some(State::Ended));
    assert_eq!(tick(&mut table, 1_802_000, b"A1.nx"), idle);
}

#[test]
fn a_call_that_nobody_takes() {
    let mut table = blank_table();
    let invite = made("request", "A1.nx", "1 INVITE", INVITE);
    message(&mut table, 1000, &invite).unwrap();
    let ringing = made(
        "response",
        "A1.nx",
        "1 INVITE",
        r#","Status":"180 Ringing""#,
    );
    let rings = accepted(Word::Pass, Some(State::Ringing));
    assert_eq!(message(&mut table, 2000, &ringing), rings);
    let timeout = accepted(Word::Timeout, Some(State::Ended));
    assert_eq!(tick(&mut table, 152_000, b"A1.nx"), timeout);
}

#[test]
fn refusals_say_where_and_what_is_due_and_leave_the_table() {
    let mut table = blank_table();
    let invite = made("request", "A1.nx", "1 INVITE", INVITE);
    message(&mut table, 1000, &invite).unwrap();
    let before = table;

    let other = made("request", "B2.nx", "1 INVITE", INVITE);
    assert_eq!(message(&mut table, 2000, &other), refused(27, 0, Some(486)));
    let bye = made("request", "B2.nx", "2 BYE", "");
    assert_eq!(message(&mut table, 2000, &bye), refused(20, 0, Some(481)));
    let ack = made("request", "B2.nx", "1 ACK", "");
    assert_eq!(message(&mut table, 2000, &ack), refused(20, 0, None));
    let early = made("request", "A1.nx", "2 BYE", "");
    assert_eq!(message(&mut table, 999, &early), refused(22, 0, Some(500)));
    assert_eq!(message(&mut table, 2000, &early), refused(24, 0, Some(400)));

    assert_eq!(message(&mut table, 2000, b""), refused(2, 0, None));
    assert_eq!(message(&mut table, 2000, b"[01]"), refused(4, 2, None));
    let unnumbered = made("request", "A1.nx", "02 BYE", "");
    let place = br#"["request",{"CSeq":""#.len();
    let answer = message(&mut table, 2000, &unnumbered);
    assert_eq!(answer, refused(9, place, None));
    let silent = made("response", "A1.nx", "1 INVITE", "");
    assert_eq!(message(&mut table, 2000, &silent), refused(8, 7, None));

    assert_eq!(tick(&mut table, 2000, b""), refused(9, 0, None));
    assert_eq!(tick(&mut table, 2000, b"B2.nx"), refused(20, 0, None));
    assert_eq!(tick(&mut table, 999, b"A1.nx"), refused(22, 0, None));
    assert_eq!(table, before);
    assert_eq!(message(&mut [], 2000, &invite), refused(1, 0, None));
    assert_eq!(blank(&mut table, 2), Err(WrongSize));
    assert_eq!(table, before);
}

#[test]
fn a_budget_of_values() {
    let mut table = blank_table();
    let invite = made("request", "A1.nx", "1 INVITE", INVITE);
    let Counted { read, count } = read_within(&invite, CEILING);
    assert_eq!((read, count), (Ok(()), 38));
    let enough = u32::try_from(count).unwrap();
    assert_eq!(read_within(&invite, enough).read, Ok(()));
    // The last value is the telephone number of the caller's centre.
    let place = invite.len() - br#""119"}}}]"#.len();
    let less = Counted {
        read: Err(Unread { number: 11, place }),
        count: 0,
    };
    assert_eq!(read_within(&invite, enough - 1), less);
    let before = table;
    assert_eq!(
        message_within(&mut table, 1000, &invite, enough - 1),
        refused(11, place, None)
    );
    assert_eq!(table, before);
    let calling = accepted(Word::Pass, Some(State::Calling));
    assert_eq!(message_within(&mut table, 1000, &invite, enough), calling);
}

/// The table holds the Call-ID's text, however a message spells it; a tick's is bytes as they are.
#[test]
fn a_call_in_other_letters() {
    let (mut table, mut plain) = (blank_table(), blank_table());
    let invite = made("request", r"\u00411\u002Enx", "1 INVITE", INVITE);
    let calling = accepted(Word::Pass, Some(State::Calling));
    assert_eq!(message(&mut table, 1000, &invite), calling);
    let invite = made("request", "A1.nx", "1 INVITE", INVITE);
    assert_eq!(message(&mut plain, 1000, &invite), calling);
    assert_eq!(table, plain);
    let again = accepted(Word::Repeat, Some(State::Calling));
    assert_eq!(message(&mut table, 2000, &invite), again);
    assert_eq!(tick(&mut table, 2000, br"\u00411.nx"), refused(9, 0, None));
    let nothing = accepted(Word::None, Some(State::Calling));
    assert_eq!(tick(&mut table, 2000, b"A1.nx"), nothing);

    let twice = made("request", "A1.nx", "1 CANCEL", r#","C\u0053eq":"1 CANCEL""#);
    let place = twice.len() - br#""C\u0053eq":"1 CANCEL"}]"#.len();
    assert_eq!(message(&mut table, 2000, &twice), refused(7, place, None));
    let broken = made("request", "A1.nx", r"1 CANCEL\ud83d", "");
    let place = br#"["request",{"CSeq":"1 CANCEL"#.len();
    assert_eq!(message(&mut table, 2000, &broken), refused(9, place, None));
    assert_eq!(table, plain);
}
