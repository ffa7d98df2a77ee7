//! The known fields by number, and which of them each kind of message needs.

use crate::rules::{self, Method};

/// 01 Reading, 'Known fields by number': the field of number n stands at n - 1.
pub const NAMES: [&str; 26] = [
    "CSeq",
    "To",
    "From",
    "Date",
    "Call-ID",
    "Via",
    "Status",
    "Message-ID",
    "Content-Type",
    "Body",
    "Refer-To",
    "Referred-By",
    "Refer-Memo",
    "Session-ID",
    "Call-Mode",
    "Call-Test",
    "Secure-Call",
    "Rescuee",
    "Request-Service",
    "Language",
    "Locations",
    "User-Agent",
    "Caller",
    "Options",
    "Destination",
    "Responded-By",
];

pub const CSEQ: usize = 1;
pub const TO: usize = 2;
pub const FROM: usize = 3;
pub const DATE: usize = 4;
pub const CALL_ID: usize = 5;
pub const VIA: usize = 6;
pub const STATUS: usize = 7;
pub const MESSAGE_ID: usize = 8;
pub const CONTENT_TYPE: usize = 9;
pub const BODY: usize = 10;
pub const REFER_TO: usize = 11;
pub const REFERRED_BY: usize = 12;
pub const REFER_MEMO: usize = 13;
pub const SESSION_ID: usize = 14;
pub const CALL_MODE: usize = 15;
pub const CALL_TEST: usize = 16;
pub const SECURE_CALL: usize = 17;
pub const RESCUEE: usize = 18;
pub const REQUEST_SERVICE: usize = 19;
pub const LANGUAGE: usize = 20;
pub const LOCATIONS: usize = 21;
pub const USER_AGENT: usize = 22;
pub const CALLER: usize = 23;
pub const OPTIONS: usize = 24;
pub const DESTINATION: usize = 25;
pub const RESPONDED_BY: usize = 26;

/// The first element of a message.
#[derive(Debug, Clone, Copy, PartialEq, Eq)]
pub enum Tag {
    Request,
    Response,
    Ping,
    Pong,
}

impl Tag {
    /// In the order of 01 Reading, row 6.
    pub const ALL: [Tag; 4] = [Tag::Request, Tag::Response, Tag::Ping, Tag::Pong];
    pub const NAMES: [&'static str; 4] = ["request", "response", "ping", "pong"];

    pub fn of_name(name: &[u8]) -> Option<Tag> {
        Self::of_number(rules::number_among(&Self::NAMES, name)?)
    }

    /// The tag of this number, counted from 1.
    pub fn of_number(number: usize) -> Option<Tag> {
        rules::numbered(&Self::ALL, number)
    }

    /// The fields that a message of this tag must have.
    pub fn required(self) -> &'static [usize] {
        match self {
            Tag::Request => &[CSEQ, TO, FROM, DATE, CALL_ID, VIA],
            Tag::Response => &[CSEQ, TO, FROM, DATE, CALL_ID, VIA, STATUS],
            Tag::Ping => &[DATE, VIA, DESTINATION],
            Tag::Pong => &[DATE, VIA, STATUS, RESPONDED_BY],
        }
    }
}

/// The number of a known name.
pub fn number_of(name: &[u8]) -> Option<usize> {
    rules::number_among(&NAMES, name)
}

/// The fields that a request of this method must have besides those of its tag.
pub fn required_by(method: Method) -> &'static [usize] {
    match method {
        Method::Invite => &[
            SESSION_ID,
            CALL_MODE,
            CALL_TEST,
            SECURE_CALL,
            RESCUEE,
            REQUEST_SERVICE,
            LANGUAGE,
            LOCATIONS,
            USER_AGENT,
            CALLER,
        ],
        Method::Message => &[MESSAGE_ID, CONTENT_TYPE, BODY],
        Method::Notify => &[CONTENT_TYPE, BODY],
        Method::Refer => &[REFER_TO, REFERRED_BY],
        Method::Bye | Method::Cancel | Method::Ack | Method::Callback => &[],
    }
}

/// The fields that a request of this method may have: judged if they are there.
pub fn optional_for(method: Method) -> &'static [usize] {
    match method {
        Method::Invite => &[REFERRED_BY, REFER_MEMO],
        Method::Message => &[OPTIONS],
        Method::Refer => &[REFER_MEMO],
        _ => &[],
    }
}

#[cfg(test)]
mod tests {
    use super::*;

    #[test]
    fn names_and_numbers_agree() {
        for (number, name) in [
            (CSEQ, "CSeq"),
            (TO, "To"),
            (FROM, "From"),
            (DATE, "Date"),
            (CALL_ID, "Call-ID"),
            (VIA, "Via"),
            (STATUS, "Status"),
            (MESSAGE_ID, "Message-ID"),
            (CONTENT_TYPE, "Content-Type"),
            (BODY, "Body"),
            (REFER_TO, "Refer-To"),
            (REFERRED_BY, "Referred-By"),
            (REFER_MEMO, "Refer-Memo"),
            (SESSION_ID, "Session-ID"),
            (CALL_MODE, "Call-Mode"),
            (CALL_TEST, "Call-Test"),
            (SECURE_CALL, "Secure-Call"),
            (RESCUEE, "Rescuee"),
            (REQUEST_SERVICE, "Request-Service"),
            (LANGUAGE, "Language"),
            (LOCATIONS, "Locations"),
            (USER_AGENT, "User-Agent"),
            (CALLER, "Caller"),
            (OPTIONS, "Options"),
            (DESTINATION, "Destination"),
            (RESPONDED_BY, "Responded-By"),
        ] {
            assert_eq!(number_of(name.as_bytes()), Some(number));
        }
        assert_eq!(number_of(b"cseq"), None);
    }

    #[test]
    fn tags_by_name_and_number() {
        for (number, name, tag) in [
            (1, "request", Tag::Request),
            (2, "response", Tag::Response),
            (3, "ping", Tag::Ping),
            (4, "pong", Tag::Pong),
        ] {
            assert_eq!(Tag::of_name(name.as_bytes()), Some(tag));
            assert_eq!(Tag::of_number(number), Some(tag));
        }
        assert_eq!(Tag::of_name(b"Ping"), None);
        assert_eq!(Tag::of_number(0), None);
        assert_eq!(Tag::of_number(5), None);
    }
}
