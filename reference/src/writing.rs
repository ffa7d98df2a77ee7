//! Writing (01 Writing): replies, our own Via entry put on and taken off, and
//! the text of a part of a message (02 §2). Each writer answers the result's
//! length and leaves the bytes past it alone, or answers a number and leaves
//! the whole output alone.

use crate::escapes;
use crate::message::{self, Exchange, Hop, Message, CEILING, MAX_LENGTH, MAX_VIA};
use crate::rules::{self, Method};

/// The status texts, by code.
pub const STATUS_TEXTS: [(u16, &str); 14] = [
    (100, "Trying"),
    (180, "Ringing"),
    (200, "OK"),
    (202, "Accepted"),
    (400, "Bad Request"),
    (404, "Not Found"),
    (405, "Method Not Allowed"),
    (481, "Call/Transaction Does Not Exist"),
    (486, "Busy Here"),
    (487, "Request Terminated"),
    (488, "Not Acceptable Here"),
    (500, "Server Internal Error"),
    (501, "Not Implemented"),
    (503, "Service Unavailable"),
];

/// Our own entry in a Via.
#[derive(Debug, Clone, Copy)]
pub struct Path<'p> {
    pub host: &'p [u8],
    pub destination: &'p [u8],
    pub organization: &'p [u8],
}

impl Path<'_> {
    fn meets_rules(&self) -> bool {
        rules::is_host(self.host)
            && rules::is_destination(self.destination)
            && rules::is_organization(self.organization)
    }

    /// Is this hop ours? The organization is not compared.
    fn is(&self, hop: &Hop) -> bool {
        hop.host == self.host && hop.destination == self.destination
    }
}

/// The same, with texts of its own.
#[derive(Debug, Clone)]
pub struct OwnPath {
    pub host: Vec<u8>,
    pub destination: Vec<u8>,
    pub organization: Vec<u8>,
}

impl OwnPath {
    pub fn lend(&self) -> Path<'_> {
        Path {
            host: &self.host,
            destination: &self.destination,
            organization: &self.organization,
        }
    }
}

/// Writes the reply to a request.
pub fn reply(request: &[u8], code: u16, date: &[u8], out: &mut [u8]) -> Result<usize, u8> {
    let exchange = accepted_request(request)?;
    if exchange.method == Method::Ack {
        return Err(30);
    }
    let phrase = phrase_for(code, exchange.method).ok_or(31)?;
    if !rules::is_date(date) {
        return Err(32);
    }
    let status = format!("\"{code} {phrase}\"");
    let values = &exchange.values;
    let result = [
        b"[\"response\",{\"Status\":",
        status.as_bytes(),
        b",\"CSeq\":",
        values.cseq,
        b",\"To\":",
        values.to,
        b",\"From\":",
        values.from,
        b",\"Call-ID\":",
        values.call_id,
        b",\"Date\":\"",
        date,
        b"\",\"Via\":",
        values.via,
        b"}]",
    ]
    .concat();
    hand_over(&result, out)
}

/// Adds our entry right after the last Via object of a request.
pub fn add(request: &[u8], path: Path, out: &mut [u8]) -> Result<usize, u8> {
    if !path.meets_rules() {
        return Err(38);
    }
    let exchange = accepted_request(request)?;
    if exchange.via.iter().any(|hop| path.is(hop)) {
        return Err(34);
    }
    if exchange.via.len() == MAX_VIA {
        return Err(35);
    }
    let end = exchange.via.last().map_or(0, |hop| hop.end);
    let result = [
        &request[..end],
        b",{\"host\":\"",
        path.host,
        b"\",\"destination\":\"",
        path.destination,
        b"\",\"organization\":\"",
        path.organization,
        b"\"}",
        &request[end..],
    ]
    .concat();
    hand_over(&result, out)
}

/// Takes our entry off a response. Besides the length it answers the next
/// host as it stands, a part of the message.
pub fn remove<'m>(response: &'m [u8], path: Path, out: &mut [u8]) -> Result<(usize, &'m [u8]), u8> {
    if !path.meets_rules() {
        return Err(38);
    }
    let Ok(Message::Response(exchange, _)) = message::read(response, CEILING).answer else {
        return Err(30);
    };
    let [.., next, last] = &exchange.via[..] else {
        return Err(37);
    };
    if !path.is(last) {
        return Err(36);
    }
    let result = [&response[..next.end], &response[last.end..]].concat();
    let length = hand_over(&result, out)?;
    Ok((length, next.spelled_host))
}

/// Decodes what stands between a string's quotes, such as the next host: 9 for
/// a broken text, then 39 and 33.
pub fn text(spelled: &[u8], out: &mut [u8]) -> Result<usize, u8> {
    let text = escapes::text(spelled).ok_or(9)?;
    hand_over(&text, out)
}

fn accepted_request(bytes: &[u8]) -> Result<Exchange<'_>, u8> {
    match message::read(bytes, CEILING).answer {
        Ok(Message::Request(exchange)) => Ok(exchange),
        _ => Err(30),
    }
}

/// The text of a listed code; 202 is REFER's alone.
fn phrase_for(code: u16, method: Method) -> Option<&'static str> {
    if code == 202 && method != Method::Refer {
        return None;
    }
    phrase(code)
}

/// The text of a listed code.
pub fn phrase(code: u16) -> Option<&'static str> {
    let found = STATUS_TEXTS.iter().find(|(listed, _)| *listed == code);
    found.map(|(_, phrase)| *phrase)
}

/// 39 for a result that is too long, then 33 for an output that is too short.
fn hand_over(result: &[u8], out: &mut [u8]) -> Result<usize, u8> {
    if result.len() > MAX_LENGTH {
        return Err(39);
    }
    let room = out.get_mut(..result.len()).ok_or(33)?;
    room.copy_from_slice(result);
    Ok(result.len())
}

#[cfg(test)]
mod tests {
    use super::*;
    use crate::samples::Sample;

    const DATE: &[u8] = b"2024-03-01T00:00:00+0900";
    const OURS: Path = Path {
        host: b"relay.nx",
        destination: b"/queue/r",
        organization: b"nx",
    };
    const OUR_ENTRY: &str = r#"{"host":"relay.nx","destination":"/queue/r","organization":"nx"}"#;

    /// Runs a writer on a room of this length; what it wrote, the rest unchanged.
    fn written(
        room: usize,
        writer: impl FnOnce(&mut [u8]) -> Result<usize, u8>,
    ) -> Result<Vec<u8>, u8> {
        let mut out = vec![0x5a; room];
        let result = writer(&mut out);
        let length = result.unwrap_or(0);
        assert!(out[length..].iter().all(|byte| *byte == 0x5a));
        out.truncate(length);
        result.map(|_| out)
    }

    fn reply_to(sample: &Sample, code: u16, date: &[u8]) -> Result<Vec<u8>, u8> {
        written(40_000, |out| reply(&sample.bytes(), code, date, out))
    }

    fn add_to(sample: &Sample, path: Path) -> Result<Vec<u8>, u8> {
        written(40_000, |out| add(&sample.bytes(), path, out))
    }

    fn remove_from(sample: &Sample, path: Path) -> Result<Vec<u8>, u8> {
        let bytes = sample.bytes();
        written(40_000, |out| {
            remove(&bytes, path, out).map(|(length, _)| length)
        })
    }

    #[test]
    fn codes() {
        let bye = Sample::request("7 BYE");
        let refer = Sample::request("7 REFER");
        for code in 0..=1000 {
            let listed = STATUS_TEXTS.iter().any(|(known, _)| *known == code);
            assert_eq!(reply_to(&bye, code, DATE).is_ok(), listed && code != 202);
            assert_eq!(reply_to(&refer, code, DATE).is_ok(), listed);
        }
        assert_eq!(reply_to(&bye, 202, DATE), Err(31));
        assert_eq!(reply_to(&bye, 65_535, DATE), Err(31));
        for (code, phrase) in STATUS_TEXTS {
            let text = reply_to(&refer, code, DATE).unwrap();
            let start = format!("[\"response\",{{\"Status\":\"{code} {phrase}\",\"CSeq\":");
            assert!(text.starts_with(start.as_bytes()));
            assert!(message::read(&text, CEILING).answer.is_ok());
        }
    }

    #[test]
    fn replies_in_order_of_refusal() {
        // 30 before 31 before 32.
        for sample in [
            Sample::request("7 ACK"),
            Sample::response("7 BYE", "200 OK"),
            Sample::ping(),
            Sample::pong(),
            Sample::request("7 BYE").without("Date"),
        ] {
            assert_eq!(reply_to(&sample, 0, b""), Err(30));
        }
        let bye = Sample::request("7 BYE");
        assert_eq!(reply_to(&bye, 0, b""), Err(31));
        assert_eq!(reply_to(&bye, 200, b""), Err(32));
        assert_eq!(reply_to(&bye, 200, b"1900-02-29T00:00:00+0000"), Err(32));
        assert_eq!(
            reply_to(&bye, 200, b"2000-02-29T00:00:00+0000").map(|_| ()),
            Ok(())
        );
    }

    #[test]
    fn replies_copy_values_as_they_stand() {
        let via = r#"[ {"organization":"nx" , "host":"h","x":[1, 2],"destination":"d"} ]"#;
        let sample = Sample::request("7 BYE")
            .with("Via", via)
            .with("Status", "0");
        let text = String::from_utf8(reply_to(&sample, 200, DATE).unwrap()).unwrap();
        assert!(text.ends_with(&format!("\"Via\":{via}}}]")));
    }

    #[test]
    fn rooms_to_the_byte() {
        let bye = Sample::request("7 BYE").bytes();
        let length = written(40_000, |out| reply(&bye, 200, DATE, out))
            .unwrap()
            .len();
        assert_eq!(
            written(length - 1, |out| reply(&bye, 200, DATE, out)),
            Err(33)
        );
        assert!(written(length, |out| reply(&bye, 200, DATE, out)).is_ok());
        assert_eq!(written(0, |out| reply(&bye, 200, DATE, out)), Err(33));
        let length = written(40_000, |out| add(&bye, OURS, out)).unwrap().len();
        assert_eq!(written(length - 1, |out| add(&bye, OURS, out)), Err(33));
        assert!(written(length, |out| add(&bye, OURS, out)).is_ok());
        let two = Sample::response("7 BYE", "200 OK")
            .with_via(1, &[OUR_ENTRY])
            .bytes();
        let off = |out: &mut [u8]| remove(&two, OURS, out).map(|(length, _)| length);
        let length = written(40_000, off).unwrap().len();
        assert_eq!(written(length - 1, off), Err(33));
        assert!(written(length, off).is_ok());
    }

    /// A request whose Via is grown until its text has this length.
    fn long_via(length: usize) -> Sample {
        let entry = |pad: usize| {
            let pad = "p".repeat(pad);
            format!(r#"{{"host":"h","destination":"d","organization":"nx","x":"{pad}"}}"#)
        };
        let bye = Sample::request("7 BYE");
        let short = bye.clone().with_via(0, &[&entry(0)]).text().len();
        bye.with_via(0, &[&entry(length - short)])
    }

    #[test]
    fn results_of_the_longest_length() {
        let growth = reply_to(&long_via(1000), 200, DATE).unwrap().len() - 1000;
        let longest = long_via(MAX_LENGTH - growth);
        assert_eq!(reply_to(&longest, 200, DATE).unwrap().len(), MAX_LENGTH);
        let longer = long_via(MAX_LENGTH - growth + 1);
        assert_eq!(reply_to(&longer, 200, DATE), Err(39));
        // 39 before 33.
        assert_eq!(
            written(0, |out| reply(&longer.bytes(), 200, DATE, out)),
            Err(39)
        );
        let growth = OUR_ENTRY.len() + 1;
        let longest = long_via(MAX_LENGTH - growth);
        assert_eq!(add_to(&longest, OURS).unwrap().len(), MAX_LENGTH);
        let longer = long_via(MAX_LENGTH - growth + 1);
        assert_eq!(add_to(&longer, OURS), Err(39));
        assert_eq!(written(0, |out| add(&longer.bytes(), OURS, out)), Err(39));
        assert_eq!(add_to(&long_via(MAX_LENGTH), OURS), Err(39));
    }

    #[test]
    fn paths_that_break_the_rules() {
        let long = [b'a'; 254];
        let bad: [Path; 10] = [
            Path { host: b"", ..OURS },
            Path {
                host: &long,
                ..OURS
            },
            Path {
                host: b"h_1",
                ..OURS
            },
            Path {
                destination: b"",
                ..OURS
            },
            Path {
                destination: &long[..65],
                ..OURS
            },
            Path {
                destination: b"a\"b",
                ..OURS
            },
            Path {
                destination: b"a\\b",
                ..OURS
            },
            Path {
                organization: b"n",
                ..OURS
            },
            Path {
                organization: &long[..11],
                ..OURS
            },
            Path {
                organization: b"nx-",
                ..OURS
            },
        ];
        // 38 before 30.
        for path in bad {
            assert_eq!(add_to(&Sample::ping(), path), Err(38));
            assert_eq!(remove_from(&Sample::ping(), path), Err(38));
        }
        let longest = Path {
            host: &long[..253],
            destination: &long[..64],
            organization: &long[..10],
        };
        assert!(add_to(&Sample::request("7 ACK"), longest).is_ok());
        assert_eq!(add_to(&Sample::ping(), OURS), Err(30));
        assert_eq!(add_to(&Sample::pong(), OURS), Err(30));
        assert_eq!(add_to(&Sample::response("7 BYE", "200 OK"), OURS), Err(30));
        assert_eq!(remove_from(&Sample::request("7 BYE"), OURS), Err(30));
        assert_eq!(remove_from(&Sample::pong(), OURS), Err(30));
    }

    #[test]
    fn adding_our_entry() {
        let bye = Sample::request("7 BYE");
        let wanted = bye.clone().with_via(1, &[OUR_ENTRY]).bytes();
        assert_eq!(add_to(&bye, OURS), Ok(wanted));
        // Right after the last object, before any white space.
        let spaced = bye.clone().with("Via", &format!("[ {} ]", hop("h", "d")));
        let wanted = bye
            .clone()
            .with("Via", &format!("[ {},{OUR_ENTRY} ]", hop("h", "d")));
        assert_eq!(add_to(&spaced, OURS), Ok(wanted.bytes()));
        // 34: host and destination in one object, wherever it stands.
        let there = bye
            .clone()
            .with_via(0, &[&hop("relay.nx", "/queue/r"), &hop("h", "d")]);
        assert_eq!(add_to(&there, OURS), Err(34));
        let apart = [hop("relay.nx", "d"), hop("h", "/queue/r")];
        let apart = bye.clone().with_via(0, &[&apart[0], &apart[1]]);
        assert!(add_to(&apart, OURS).is_ok());
        // 34 before 35, and 35 before 39.
        assert!(add_to(&bye.clone().with_via(15, &[]), OURS).is_ok());
        assert_eq!(add_to(&bye.clone().with_via(16, &[]), OURS), Err(35));
        assert_eq!(
            add_to(&bye.clone().with_via(15, &[OUR_ENTRY]), OURS),
            Err(34)
        );
        let full = bye.with_via(16, &[]).of_length(MAX_LENGTH);
        assert_eq!(add_to(&full, OURS), Err(35));
    }

    fn hop(host: &str, destination: &str) -> String {
        format!(r#"{{"host":"{host}","destination":"{destination}","organization":"ab"}}"#)
    }

    #[test]
    fn removing_our_entry() {
        let ok = Sample::response("7 BYE", "200 OK");
        let two = ok.clone().with_via(1, &[OUR_ENTRY]).bytes();
        let mut out = vec![0; 1000];
        let (length, next) = remove(&two, OURS, &mut out).unwrap();
        assert_eq!(out[..length], ok.clone().with_via(1, &[]).bytes());
        assert_eq!(next, b"h1.nx");
        // The next host is a part of the message.
        assert!(two.as_ptr_range().contains(&next.as_ptr()));
        // From the end of the last but one to the end of the last.
        let spaced = format!("[ {} , {OUR_ENTRY} ]", hop("h", "d"));
        let wanted = ok.clone().with("Via", &format!("[ {} ]", hop("h", "d")));
        assert_eq!(
            remove_from(&ok.clone().with("Via", &spaced), OURS),
            Ok(wanted.bytes())
        );
        // The organization is not compared.
        let ours = hop("relay.nx", "/queue/r");
        assert!(remove_from(&ok.clone().with_via(1, &[&ours]), OURS).is_ok());
        // 37 before 36.
        assert_eq!(remove_from(&ok, OURS), Err(37));
        assert_eq!(
            remove_from(&ok.clone().with_via(0, &[OUR_ENTRY]), OURS),
            Err(37)
        );
        for last in [hop("relay.nx", "d"), hop("h", "/queue/r")] {
            let other = ok.clone().with_via(0, &[OUR_ENTRY, &last]);
            assert_eq!(remove_from(&other, OURS), Err(36));
        }
        assert!(remove_from(&ok.with_via(15, &[OUR_ENTRY]), OURS).is_ok());
    }

    /// 02 §2: bytes are copied and shown as they stand, 34 and 36 compare texts.
    #[test]
    fn entries_in_other_letters() {
        let ours = hop(r"\u0072elay.nx", r"\/queue\u002Fr");
        let bye = Sample::request("7 BYE").with_via(1, &[&ours]);
        assert_eq!(add_to(&bye, OURS), Err(34));
        let ok = Sample::response("7 BYE", "200 OK");
        let next = hop(r"\u00682.nx", "d");
        let bytes = ok.clone().with_via(0, &[&next, &ours]).bytes();
        let mut out = vec![0; 1000];
        let (length, host) = remove(&bytes, OURS, &mut out).unwrap();
        assert_eq!(out[..length], ok.clone().with_via(0, &[&next]).bytes());
        assert_eq!(host, br"\u00682.nx");
        assert!(bytes.as_ptr_range().contains(&host.as_ptr()));
        let mut room = [0x5a; 6];
        assert_eq!(text(host, &mut room), Ok(5));
        assert_eq!(&room, b"h2.nxZ");
        let other = hop(r"\u0072elay.nx", r"\/queue\u002Fs");
        assert_eq!(remove_from(&ok.with_via(1, &[&other]), OURS), Err(36));
        // Our own path has no escapes.
        let spelled = Path {
            host: br"\u0072elay.nx",
            ..OURS
        };
        assert_eq!(add_to(&bye, spelled), Err(38));
    }

    #[test]
    fn replies_copy_escapes() {
        let sample = Sample::request("7 \\u0042YE")
            .of_call(r"A\u0031")
            .with("To", r#""net119:fire@\u006bita.callee""#);
        let reply = String::from_utf8(reply_to(&sample, 200, DATE).unwrap()).unwrap();
        for value in [
            r#""CSeq":"7 \u0042YE""#,
            r#""To":"net119:fire@\u006bita.callee""#,
            r#""Call-ID":"A\u0031""#,
        ] {
            assert!(reply.contains(value), "{value}");
        }
        assert!(message::read(reply.as_bytes(), CEILING).answer.is_ok());
    }

    #[test]
    fn texts_of_parts() {
        let of = |spelled: &[u8], room: usize| written(room, |out| text(spelled, out));
        assert_eq!(of(br"\/\u00e9", 3), Ok("/é".into()));
        assert_eq!(of(br"\/\u00e9", 9), Ok("/é".into()));
        assert_eq!(of(br"\/\u00e9", 2), Err(33));
        assert_eq!(of(b"", 0), Ok(Vec::new()));
        // 9 before 39 before 33.
        assert_eq!(of(br"\/\ud800", 0), Err(9));
        assert_eq!(of(br"\/\ud800", 9), Err(9));
        let long = vec![b'a'; MAX_LENGTH];
        assert_eq!(of(&long, MAX_LENGTH), Ok(long.clone()));
        assert_eq!(of(&long, MAX_LENGTH - 1), Err(33));
        for (end, number) in [("a", 39), (r"\u0061", 39), (r"\ud800", 9)] {
            let longer = [&long, end.as_bytes()].concat();
            assert_eq!(of(&longer, 40_000), Err(number));
            assert_eq!(of(&longer, 0), Err(number));
        }
        // It is the text that is too long, not its spelling.
        assert_eq!(of(&br"\u0061".repeat(MAX_LENGTH), MAX_LENGTH), Ok(long));
    }

    #[test]
    fn removing_undoes_adding() {
        let via = format!("[\t{} , {}\r]", hop("a", "b"), hop("c", "d"));
        let request = Sample::request("7 BYE").with("Via", &via);
        let reply_here = reply_to(&request, 200, DATE).unwrap();
        let forwarded = add_to(&request, OURS).unwrap();
        let far = written(40_000, |out| reply(&forwarded, 200, DATE, out)).unwrap();
        let mut out = vec![0; 1000];
        let (length, next) = remove(&far, OURS, &mut out).unwrap();
        assert_eq!(out[..length], reply_here);
        assert_eq!(next, b"c");
    }
}
