//! Reading: from bytes to a message, or to the first refusal of rows 2 to 10
//! of 01 Reading and 02 §9's 11 with its place, and how many values were read.

use crate::escapes;
use crate::fields::{self, *};
use crate::json::{self, Kind, Member, Text, Value};
use crate::letters;
use crate::particulars::{self, Call, Positions};
use crate::rules::{self, Address, ContentType, Method};
use crate::utf8;

/// The longest message, and the longest result of the writers (house).
pub const MAX_LENGTH: usize = 32_768;
/// The most objects in a Via (house).
pub const MAX_VIA: usize = 16;
/// The program's ceiling of values, and always the writers' (02 §9).
pub const CEILING: u32 = 16_384;

/// What comes of reading.
#[derive(Debug)]
pub struct Reading<'a> {
    pub answer: Result<Message<'a>, Refusal>,
    /// The text's values; 0 where there is no text: 2 to 5, and 11 (02 §9).
    pub count: u32,
}

/// A number of 01 Reading's table or 02 §9's 11, and its place.
#[derive(Debug, Clone, Copy, PartialEq, Eq)]
pub struct Refusal {
    pub number: u8,
    pub place: usize,
}

/// An accepted message.
#[derive(Debug)]
pub enum Message<'a> {
    Request(Exchange<'a>),
    Response(Exchange<'a>, u16),
    /// A ping or a pong.
    Probe,
}

#[derive(Debug, Clone, Copy, PartialEq, Eq)]
pub enum Side {
    Caller,
    Callee,
}

impl Side {
    pub const ALL: [Side; 2] = [Side::Caller, Side::Callee];
}

/// What a request and its responses have in common. Texts are decoded
/// (02 §2); all slices are parts of the message itself.
#[derive(Debug)]
pub struct Exchange<'a> {
    pub number: u32,
    pub method: Method,
    /// The side that sent the request.
    pub from: Side,
    pub user: Vec<u8>,
    pub caller_fire: Vec<u8>,
    pub callee_fire: Vec<u8>,
    pub call_id: Vec<u8>,
    /// Was a Secure-Call of true there? Only a new INVITE's is ever used.
    pub secure: bool,
    pub values: CopiedValues<'a>,
    pub via: Vec<Hop<'a>>,
    /// Those of a request (02 §4).
    pub positions: Positions,
}

/// The five values that a reply copies, as they stand.
#[derive(Debug)]
pub struct CopiedValues<'a> {
    pub cseq: &'a [u8],
    pub to: &'a [u8],
    pub from: &'a [u8],
    pub call_id: &'a [u8],
    pub via: &'a [u8],
}

/// One object of a Via: where it ends in the message, two of its texts, and
/// the host as it stands.
#[derive(Debug)]
pub struct Hop<'a> {
    pub end: usize,
    pub host: Vec<u8>,
    pub destination: Vec<u8>,
    pub spelled_host: &'a [u8],
}

/// The checks of 01 Reading, in its order, under a ceiling of values.
pub fn read(bytes: &[u8], ceiling: u32) -> Reading<'_> {
    match text(bytes, ceiling) {
        Ok(text) => Reading {
            answer: message(bytes, &text.outermost),
            count: text.count,
        },
        Err(refusal) => Reading {
            answer: Err(refusal),
            count: 0,
        },
    }
}

/// Rows 2 to 5, and 11 in one walk with 4 and 5.
fn text(bytes: &[u8], ceiling: u32) -> Result<Text, Refusal> {
    let refuse = |number, place| Err(Refusal { number, place });
    if bytes.is_empty() || bytes.len() > MAX_LENGTH {
        return refuse(2, 0);
    }
    if let Some(place) = utf8::first_bad(bytes) {
        return refuse(3, place);
    }
    json::parse(bytes, ceiling).or_else(|fault| {
        let (number, place) = fault.row();
        refuse(number, place)
    })
}

/// Rows 6 to 10.
fn message<'a>(bytes: &'a [u8], outermost: &Value) -> Result<Message<'a>, Refusal> {
    let no_envelope = Refusal {
        number: 6,
        place: 0,
    };
    let (tag, members) = envelope(bytes, outermost).ok_or(no_envelope)?;
    let draft = Draft::collect(bytes, tag, members)?;
    draft.check_present(tag.required())?;
    draft.check_rules(tag.required())?;
    if let (Tag::Request, Some((_, method))) = (tag, draft.cseq()) {
        draft.check_present(fields::required_by(method))?;
        draft.check_rules(
            fields::required_by(method)
                .iter()
                .chain(fields::optional_for(method)),
        )?;
    }
    draft.agree()
}

/// Row 6: an array of two, a tag and an object.
fn envelope<'v>(bytes: &[u8], outermost: &'v Value) -> Option<(Tag, &'v [Member])> {
    let [first, second] = outermost.array()? else {
        return None;
    };
    let tag = Tag::of_name(&first.text(bytes)?)?;
    Some((tag, second.object()?))
}

/// A message on its way through rows 7 to 10: its known fields by number.
struct Draft<'a, 'v> {
    bytes: &'a [u8],
    tag: Tag,
    values: [Option<&'v Value>; 27],
}

impl<'a, 'v> Draft<'a, 'v> {
    /// Row 7: sorts the members by number, known names only; a broken name is
    /// none.
    fn collect(bytes: &'a [u8], tag: Tag, members: &'v [Member]) -> Result<Self, Refusal> {
        let mut values = [None; 27];
        for member in members {
            let name = member.name.text(bytes);
            let Some(number) = name.and_then(|name| fields::number_of(&name)) else {
                continue;
            };
            if values[number].is_some() {
                let place = member.name.start;
                return Err(Refusal { number: 7, place });
            }
            values[number] = Some(&member.value);
        }
        Ok(Draft { bytes, tag, values })
    }

    /// Row 8: the place is the lowest missing field's number.
    fn check_present(&self, required: &[usize]) -> Result<(), Refusal> {
        let missing = required
            .iter()
            .filter(|field| self.values[**field].is_none());
        match missing.min() {
            Some(field) => Err(Refusal {
                number: 8,
                place: *field,
            }),
            None => Ok(()),
        }
    }

    /// Row 9: the place is that of the lowest broken field's fault.
    fn check_rules<'f>(&self, fields: impl IntoIterator<Item = &'f usize>) -> Result<(), Refusal> {
        let broken = fields.into_iter().filter_map(|field| {
            let fault = self.fault(*field, self.values[*field]?)?;
            Some((field, fault))
        });
        match broken.min() {
            Some((_, place)) => Err(Refusal { number: 9, place }),
            None => Ok(()),
        }
    }

    /// Where a value breaks its field's rule, if it does: the particulars at their
    /// lowest fault (02 §4), others as a whole.
    fn fault(&self, field: usize, value: &Value) -> Option<usize> {
        match field {
            BODY => self.fault_of_body(value),
            LOCATIONS => particulars::fault_of_locations(self.bytes, value),
            CALLER => particulars::fault_of_caller(self.bytes, value, self.call()),
            _ => (!self.meets_rule(field, value)).then(|| self.first_bad(field, value)),
        }
    }

    /// Where a value that breaks its field's rule does: at its first bad letter if
    /// it is a string of fields 1 to 5 (02 §12), else at its first byte.
    fn first_bad(&self, field: usize, value: &Value) -> usize {
        let spelled = value.spelled(self.bytes);
        let letter = spelled.and_then(|spelled| letters::first_bad(field, spelled));
        letter.map_or(value.start, |letter| value.start + 1 + letter)
    }

    /// The text of a field that is there, a string and not broken.
    fn text(&self, field: usize) -> Option<Vec<u8>> {
        self.values[field]?.text(self.bytes)
    }

    fn is(&self, field: usize, word: &str) -> bool {
        self.text(field).as_deref() == Some(word.as_bytes())
    }

    fn cseq(&self) -> Option<(u32, Method)> {
        rules::parse_cseq(&self.text(CSEQ)?)
    }

    /// The code of a string that begins as a Status; the rest is free.
    fn status(&self, value: &Value) -> Option<u16> {
        rules::parse_status(&escapes::beginning(value.spelled(self.bytes)?))
    }

    /// 01 Reading, 'Rules': does this value meet its field's rule?
    fn meets_rule(&self, field: usize, value: &Value) -> bool {
        match field {
            VIA => hops(self.bytes, value).is_some(),
            STATUS if self.tag != Tag::Pong => self.status(value).is_some(),
            CALL_TEST => rules::is_one_of(&rules::CALL_TESTS, value.raw(self.bytes)),
            SECURE_CALL => rules::is_one_of(&rules::SECURE_CALLS, value.raw(self.bytes)),
            USER_AGENT => value.kind == Kind::String,
            OPTIONS => value
                .array()
                .is_some_and(|options| options.iter().all(|option| option.kind == Kind::String)),
            _ => value
                .text(self.bytes)
                .is_some_and(|text| self.text_meets_rule(field, &text)),
        }
    }

    /// The same for the fields whose rule is on a string's whole text.
    fn text_meets_rule(&self, field: usize, text: &[u8]) -> bool {
        match field {
            CSEQ => rules::parse_cseq(text).is_some(),
            TO | FROM => rules::parse_address(text).is_some(),
            DATE => rules::is_date(text),
            CALL_ID | SESSION_ID => rules::is_call_id(text),
            STATUS => rules::is_one_of(&rules::AVAILABILITIES, text),
            MESSAGE_ID => rules::is_message_id(text),
            CONTENT_TYPE => self.content_type().is_some(),
            REFER_TO | REFERRED_BY => rules::is_fire_id(text),
            REFER_MEMO => rules::is_memo(text),
            CALL_MODE => rules::is_one_of(&rules::CALL_MODES, text),
            RESCUEE => rules::is_one_of(&rules::RESCUEES, text),
            REQUEST_SERVICE => rules::is_one_of(&rules::SERVICES, text),
            LANGUAGE => rules::is_language(text),
            DESTINATION | RESPONDED_BY => rules::is_callee_queue(text),
            _ => unreachable!("field {field} has no rule on a text"),
        }
    }

    /// What the Content-Type says of the Body, if it is one that the method allows.
    fn content_type(&self) -> Option<ContentType> {
        let (_, method) = self.cseq()?;
        ContentType::of_method(method, &self.text(CONTENT_TYPE)?)
    }

    /// Where the Body breaks its rule, if it does. Without a good Content-Type it
    /// does not matter: that field has the lower number.
    fn fault_of_body(&self, value: &Value) -> Option<usize> {
        let good = match self.content_type() {
            None => false,
            Some(ContentType::Plain) => value.kind == Kind::String,
            Some(ContentType::TextImage | ContentType::MessageImage) => value
                .spelled(self.bytes)
                .is_some_and(|spelled| rules::is_image(&escapes::beginning(spelled))),
            Some(ContentType::Presence) => value
                .text(self.bytes)
                .is_some_and(|text| rules::is_one_of(&rules::PRESENCES, &text)),
            Some(ContentType::Location) => {
                return particulars::fault_of_live_location(self.bytes, value);
            }
            Some(ContentType::Refer) => self.status(value).is_some(),
        };
        (!good).then_some(value.start)
    }

    /// What Caller's rule depends on. Where one of these fields is broken it does
    /// not matter: they have the lower numbers.
    fn call(&self) -> Call {
        let texts = [CALL_MODE, RESCUEE, REQUEST_SERVICE].map(|field| self.text(field));
        let [mode, rescuee, service] = texts.map(Option::unwrap_or_default);
        Call::of(&mode, &rescuee, &service)
    }

    /// The positions that a request of this method has.
    fn positions(&self, method: Method) -> Option<Positions> {
        let positions = match (self.tag, method) {
            (Tag::Request, Method::Invite) => {
                let (locations, caller) = (self.values[LOCATIONS]?, self.values[CALLER]?);
                Positions::of_invite(self.bytes, locations, caller)
            }
            (Tag::Request, Method::Notify)
                if self.content_type() == Some(ContentType::Location) =>
            {
                Positions::of_live_location(self.bytes, self.values[BODY]?)
            }
            _ => Positions::default(),
        };
        Some(positions)
    }

    /// Row 10, and the message itself.
    fn agree(&self) -> Result<Message<'a>, Refusal> {
        if matches!(self.tag, Tag::Ping | Tag::Pong) {
            return Ok(Message::Probe);
        }
        let agreed = self.exchange().and_then(|exchange| match self.tag {
            Tag::Request => self
                .request_agrees(&exchange)
                .then_some(Message::Request(exchange)),
            _ => {
                let status = self.status(self.values[STATUS]?)?;
                let fits = status != 202 || exchange.method == Method::Refer;
                fits.then_some(Message::Response(exchange, status))
            }
        });
        agreed.ok_or(Refusal {
            number: 10,
            place: 0,
        })
    }

    /// The part of row 10 that binds responses too: sides and CALLBACK's 1.
    /// All fields read here have met their rules.
    fn exchange(&self) -> Option<Exchange<'a>> {
        let (number, method) = self.cseq()?;
        let (from, to) = (self.text(FROM)?, self.text(TO)?);
        let addresses = (rules::parse_address(&from)?, rules::parse_address(&to)?);
        let (side, user, caller_fire, callee_fire) = match addresses {
            (Address::Caller { user, fire }, Address::Callee { fire: callee }) => {
                (Side::Caller, user, fire, callee)
            }
            (Address::Callee { fire: callee }, Address::Caller { user, fire }) => {
                (Side::Callee, user, fire, callee)
            }
            _ => return None,
        };
        if !may_send(side, method) || (method == Method::Callback && number != 1) {
            return None;
        }
        let raw = |field: usize| self.values[field].map(|value| value.raw(self.bytes));
        Some(Exchange {
            number,
            method,
            from: side,
            user: user.to_vec(),
            caller_fire: caller_fire.to_vec(),
            callee_fire: callee_fire.to_vec(),
            call_id: self.text(CALL_ID)?,
            secure: self.values[SECURE_CALL].is_some_and(|value| value.kind == Kind::True),
            values: CopiedValues {
                cseq: raw(CSEQ)?,
                to: raw(TO)?,
                from: raw(FROM)?,
                call_id: raw(CALL_ID)?,
                via: raw(VIA)?,
            },
            via: hops(self.bytes, self.values[VIA]?)?,
            positions: self.positions(method)?,
        })
    }

    /// The part of row 10 that binds requests alone.
    fn request_agrees(&self, exchange: &Exchange) -> bool {
        match exchange.method {
            Method::Invite => {
                !self.is(REQUEST_SERVICE, "callback") || !self.is(CALL_MODE, "training")
            }
            Method::Message => {
                exchange.from == Side::Caller || self.content_type() == Some(ContentType::Plain)
            }
            _ => true,
        }
    }
}

/// 01 Reading, 'Number 10': which side may send which method.
pub fn may_send(side: Side, method: Method) -> bool {
    match method {
        Method::Invite | Method::Ack | Method::Cancel | Method::Notify => side == Side::Caller,
        Method::Refer | Method::Callback => side == Side::Callee,
        Method::Bye | Method::Message => true,
    }
}

/// The Via rule: 1 to 16 objects with their three texts, once each.
fn hops<'a>(bytes: &'a [u8], via: &Value) -> Option<Vec<Hop<'a>>> {
    let objects = via.array()?;
    if !(1..=MAX_VIA).contains(&objects.len()) {
        return None;
    }
    objects.iter().map(|object| hop(bytes, object)).collect()
}

fn hop<'a>(bytes: &'a [u8], object: &Value) -> Option<Hop<'a>> {
    let members = object.object()?;
    let [host, destination, organization] =
        rules::HOP_MEMBERS.map(|name| only_value(bytes, members, name.as_bytes()));
    let organization = organization?.text(bytes)?;
    let hop = Hop {
        end: object.end,
        host: host?.text(bytes)?,
        destination: destination?.text(bytes)?,
        spelled_host: host?.spelled(bytes)?,
    };
    let good = rules::is_host(&hop.host)
        && rules::is_destination(&hop.destination)
        && rules::is_organization(&organization);
    good.then_some(hop)
}

/// The value of the one member of this name: none if it is missing or there
/// twice.
fn only_value<'v>(bytes: &[u8], members: &'v [Member], name: &[u8]) -> Option<&'v Value> {
    let mut named = members
        .iter()
        .filter(|member| member.name.text(bytes).as_deref() == Some(name));
    match (named.next(), named.next()) {
        (Some(member), None) => Some(&member.value),
        _ => None,
    }
}

#[cfg(test)]
mod tests {
    use super::*;
    use crate::gen::texts;
    use crate::particulars::Position;
    use crate::samples::{Sample, CALLEE, CALLER, CALLER_INFORMATION, LIVE_LOCATION};

    fn verdict(bytes: &[u8]) -> Option<(u8, usize)> {
        verdict_under(CEILING, bytes)
    }

    fn verdict_under(ceiling: u32, bytes: &[u8]) -> Option<(u8, usize)> {
        let refusal = read(bytes, ceiling).answer.err();
        refusal.map(|no| (no.number, no.place))
    }

    fn of(sample: Sample) -> Option<(u8, usize)> {
        verdict(&sample.bytes())
    }

    /// The place of a field's value in a sample's text.
    fn value_place(sample: &Sample, name: &str) -> usize {
        let name = format!("\"{name}\":");
        sample.text().find(&name).unwrap() + name.len()
    }

    /// Values of one field that break its rule, and values that meet it.
    fn rule(sample: Sample, name: &str, good: &[&str], bad: &[&str]) {
        for value in good {
            let changed = sample.clone().with(name, value);
            assert_eq!(of(changed), None, "{name}: {value}");
        }
        for value in bad {
            let changed = sample.clone().with(name, value);
            let place = value_place(&changed, name);
            assert_eq!(of(changed), Some((9, place)), "{name}: {value}");
        }
    }

    /// Texts of one field with `|` before the first letter that breaks its rule, or
    /// at their end where they only stop short (02 §12).
    fn bad_letters(sample: Sample, name: &str, marked: &[&str]) {
        for marked in marked {
            let changed = sample.clone().with(name, &quoted(&marked.replace('|', "")));
            let place = value_place(&changed, name) + 1 + marked.find('|').unwrap();
            assert_eq!(of(changed), Some((9, place)), "{name}: {marked}");
        }
    }

    fn cseq(method: &str) -> String {
        format!("1 {method}")
    }

    fn quoted(text: &str) -> String {
        format!("\"{text}\"")
    }

    #[test]
    fn samples_are_read() {
        for method in Method::NAMES {
            assert_eq!(of(Sample::request(&cseq(method))), None, "{method}");
            assert_eq!(of(Sample::response(&cseq(method), "200 OK")), None);
        }
        assert_eq!(of(Sample::ping()), None);
        assert_eq!(of(Sample::pong()), None);
    }

    #[test]
    fn row_2_length() {
        assert_eq!(verdict(b""), Some((2, 0)));
        let bye = Sample::request("1 BYE");
        assert_eq!(of(bye.clone().of_length(32_767)), None);
        assert_eq!(of(bye.clone().of_length(32_768)), None);
        assert_eq!(of(bye.of_length(32_769)), Some((2, 0)));
        assert_eq!(verdict(&[0xff; 32_769]), Some((2, 0)));
        assert_eq!(verdict(&[0xff; 32_768]), Some((3, 0)));
    }

    #[test]
    fn row_3_comes_before_row_4() {
        assert_eq!(verdict(b"x\x80"), Some((3, 1)));
        assert_eq!(verdict(b"\"\xed\xa0\x80\""), Some((3, 1)));
        assert_eq!(verdict("\u{feff}[]".as_bytes()), Some((4, 0)));
    }

    #[test]
    fn rows_4_and_5_are_one_walk() {
        assert_eq!(verdict(b"[01]"), Some((4, 2)));
        assert_eq!(verdict(b"[[[[[[[[[01"), Some((5, 8)));
        assert_eq!(verdict(b"[[[[[[[[]x"), Some((4, 9)));
        let deep = |brackets: usize| {
            let value = format!("{}{}", "[".repeat(brackets), "]".repeat(brackets));
            Sample::ping().with("x", &value)
        };
        assert_eq!(of(deep(6)), None);
        let place = value_place(&deep(7), "x") + 6;
        assert_eq!(of(deep(7)), Some((5, place)));
    }

    #[test]
    fn number_11_is_in_the_same_walk() {
        for (text, ceiling, wanted) in [
            ("[01]", 1, (11, 1)),
            ("[01]", 2, (4, 2)),
            ("[[[[[[[[[01", 7, (11, 7)),
            ("[[[[[[[[[01", 8, (5, 8)),
            ("[tx", 1, (11, 1)),
            ("[tx", 2, (4, 2)),
            (" ", 0, (4, 1)),
            ("1", 0, (11, 0)),
            ("1", 1, (6, 0)),
            // 2 and 3 come before.
            ("", 0, (2, 0)),
        ] {
            let verdict = verdict_under(ceiling, text.as_bytes());
            assert_eq!(verdict, Some(wanted), "{text} at {ceiling}");
        }
        assert_eq!(verdict_under(0, b"1\xff"), Some((3, 1)));
        assert_eq!(verdict_under(0, &[b'['; 32_769]), Some((2, 0)));
    }

    /// 16,384 is passed by no JSON text that a message may be (02 §9), but by
    /// what only begins one.
    #[test]
    fn the_programs_ceiling() {
        let open = format!("[{}1", "1,".repeat(16_383));
        assert_eq!(open.len(), MAX_LENGTH);
        assert_eq!(verdict(open.as_bytes()), Some((11, MAX_LENGTH - 1)));
        let ping = Sample::ping().with("x", "[1]");
        let ones = (MAX_LENGTH - ping.text().len()) / 2;
        let crowded = ping.with("x", &format!("[{}1]", "1,".repeat(ones)));
        assert!(crowded.text().len() > MAX_LENGTH - 2);
        assert_eq!(of(crowded), None);
    }

    #[test]
    fn counts_of_texts() {
        let count = |sample: &Sample, ceiling: u32| read(&sample.bytes(), ceiling).count;
        // The array, its tag and its object, two fields, and a Via of one
        // object with three texts.
        let ping = Sample::ping();
        for (sample, number, counted) in [
            (ping.clone(), None, 10),
            (ping.clone().with_via(2, &[]), None, 14),
            (ping.clone().with("x", "[{\"y\":1}]"), None, 13),
            (ping.clone().and("Date", "1"), Some(7), 11),
            (ping.clone().without("Date"), Some(8), 9),
            (ping.clone().with("Date", "[[]]"), Some(9), 11),
            (Sample::request("2 CALLBACK"), Some(10), 13),
        ] {
            let refused = of(sample.clone()).map(|(number, _)| number);
            assert_eq!(refused, number, "{}", sample.text());
            assert_eq!(count(&sample, counted), counted, "{}", sample.text());
            // One value too many is no text, and counts nothing.
            let bytes = sample.bytes();
            let verdict = verdict_under(counted - 1, &bytes);
            assert!(matches!(verdict, Some((11, _))), "{}", sample.text());
            assert_eq!(count(&sample, counted - 1), 0);
        }
        for (text, counted) in [
            (&b"[1,{}]"[..], 3),
            (b"[1,2", 0),
            (b"[[[[[[[[[", 0),
            (b"\"\xff\"", 0),
            (b"", 0),
        ] {
            assert_eq!(read(text, CEILING).count, counted);
        }
    }

    #[test]
    fn row_6_envelope() {
        for text in [
            "[]",
            "{}",
            "null",
            "\"request\"",
            "[\"request\"]",
            "[\"request\",{},{}]",
            "[\"request\",[]]",
            "[\"request\",null]",
            "[{},\"request\"]",
            "[\"Request\",{}]",
            "[\"request \",{}]",
            "[\"\\u0052equest\",{}]",
            "[\"request\\ud800\",{}]",
            "[null,{}]",
            "[\"\",{}]",
        ] {
            assert_eq!(verdict(text.as_bytes()), Some((6, 0)), "{text}");
        }
        assert_eq!(verdict(b"[\"request\",{}]"), Some((8, 1)));
        assert_eq!(verdict(b"[\"\\u0072eque\\u0073t\",{}]"), Some((8, 1)));
        assert_eq!(verdict(b" [ \"ping\" , { } ] "), Some((8, 4)));
    }

    #[test]
    fn row_7_doubled_names() {
        let text = r#"["ping",{"To":1,"x":1,"x":2,"Date":1,"To":2,"Date":2}]"#;
        let place = text.rfind("\"To\"").unwrap();
        assert_eq!(verdict(text.as_bytes()), Some((7, place)));
        // Unknown names may be doubled.
        assert_eq!(of(Sample::ping().and("x", "1").and("x", "1")), None);
        assert_eq!(of(Sample::ping().and("\\u0064ate", "1")), None);
        // Every known name counts, even where the field itself is ignored.
        for name in fields::NAMES {
            let doubled = Sample::ping().without(name).and(name, "1").and(name, "1");
            let place = doubled.text().rfind(&format!("\"{name}\":")).unwrap();
            assert_eq!(of(doubled), Some((7, place)), "{name}");
        }
        // Names inside other values do not count.
        assert_eq!(
            of(Sample::ping().with("x", "{\"Date\":1,\"Date\":2}")),
            None
        );
    }

    /// Drops each required field: the answer is 8 with its number.
    fn needs(sample: &Sample, numbers: &[usize]) {
        for number in 1..=26 {
            let name = fields::NAMES[number - 1];
            let wanted = numbers.contains(&number).then_some((8, number));
            assert_eq!(of(sample.clone().without(name)), wanted, "{name}");
        }
    }

    #[test]
    fn row_8_missing_fields() {
        let head = [1, 2, 3, 4, 5, 6];
        for method in ["BYE", "CANCEL", "ACK", "CALLBACK"] {
            needs(&Sample::request(&cseq(method)), &head);
        }
        let invite = [head.to_vec(), (14..=23).collect()].concat();
        needs(&Sample::request("1 INVITE"), &invite);
        needs(&Sample::request("1 MESSAGE"), &[1, 2, 3, 4, 5, 6, 8, 9, 10]);
        needs(&Sample::request("1 NOTIFY"), &[1, 2, 3, 4, 5, 6, 9, 10]);
        needs(&Sample::request("1 REFER"), &[1, 2, 3, 4, 5, 6, 11, 12]);
        for method in Method::NAMES {
            needs(
                &Sample::response(&cseq(method), "200 OK"),
                &[1, 2, 3, 4, 5, 6, 7],
            );
        }
        needs(&Sample::ping(), &[4, 6, 25]);
        needs(&Sample::pong(), &[4, 6, 7, 26]);
        // The lowest number, wherever the fields stand.
        let two = Sample::request("1 INVITE")
            .without("Caller")
            .without("Language");
        assert_eq!(of(two), Some((8, 20)));
    }

    #[test]
    fn rows_8_and_9_run_twice() {
        // The tag's run: 8 before 9.
        let sample = Sample::request("1 MESSAGE").with("To", "1");
        assert_eq!(of(sample.clone().without("Via")), Some((8, 6)));
        // The tag's 9 before the method's 8.
        let place = value_place(&sample.clone().without("Body"), "To");
        assert_eq!(of(sample.without("Body")), Some((9, place)));
        // The method's 8 before its 9.
        let sample = Sample::request("1 MESSAGE").with("Message-ID", "1");
        assert_eq!(of(sample.without("Body")), Some((8, 10)));
        // The lowest number, not the first place; optional fields among them.
        let sample = Sample::request("1 INVITE")
            .with("Caller", "1")
            .with("Language", "1")
            .with("Refer-Memo", "1");
        let place = value_place(&sample, "Refer-Memo");
        assert_eq!(of(sample.clone()), Some((9, place)));
        let place = value_place(&sample.clone().without("Refer-Memo"), "Language");
        assert_eq!(of(sample.without("Refer-Memo")), Some((9, place)));
        // A method that is not known leaves only the tag's run.
        let sample = Sample::request("1 MESSAGE").with("CSeq", "\"1 OPTIONS\"");
        assert_eq!(of(sample.without("Body")), Some((9, 22)));
        // 9 before 10.
        let sample = Sample::request("1 BYE")
            .with("To", CALLER)
            .with("Via", "[]");
        let place = value_place(&sample, "Via");
        assert_eq!(of(sample), Some((9, place)));
    }

    #[test]
    fn fields_of_other_methods_are_ignored() {
        for number in 7..=26 {
            let name = fields::NAMES[number - 1];
            assert_eq!(of(Sample::request("1 BYE").with(name, "[{}]")), None);
            if number > 7 {
                let response = Sample::response("1 INVITE", "200 OK");
                assert_eq!(of(response.with(name, "[{}]")), None);
            }
        }
        let ping = Sample::ping().with("CSeq", "0").with("Status", "0");
        assert_eq!(of(ping), None);
        assert_eq!(of(Sample::request("1 REFER").with("Options", "0")), None);
    }

    #[test]
    fn row_9_heads() {
        let no_strings = ["null", "true", "0", "-1.5", "[\"A1\"]", "{}"];
        let bye = Sample::request("2 BYE");
        rule(
            bye.clone(),
            "CSeq",
            &["\"4294967295 BYE\"", "\"1 BYE\"", "\"1\\u0020B\\u0059E\""],
            &no_strings,
        );
        rule(
            bye.clone(),
            "To",
            &[
                CALLEE,
                "\"net119:fire@a1.callee\"",
                "\"net119:\\u0066ire\\u0040a1.callee\"",
            ],
            &no_strings,
        );
        rule(bye.clone(), "From", &[CALLER], &no_strings);
        rule(
            bye.clone(),
            "Date",
            &[
                "\"2000-02-29T00:00:00+0000\"",
                "\"2000-02-29T00\\u003a00:00\\u002B0000\"",
            ],
            &no_strings,
        );
        rule(
            bye,
            "Call-ID",
            &[
                "\"A1\"",
                &quoted(&"A".repeat(64)),
                "\"A\\u0031\"",
                &quoted(&"\\u0041".repeat(64)),
            ],
            &no_strings,
        );
    }

    #[test]
    fn row_9_letters() {
        let bye = Sample::request("2 BYE");
        bad_letters(
            bye.clone(),
            "CSeq",
            &[
                "|",
                "429496729|6 BYE",
                "|01 BYE",
                "|0 BYE",
                "1 B|\\u0079E",
                "|\\u0030\\u0031 BYE",
                "1 BYE|\\ud800",
            ],
        );
        for name in ["To", "From"] {
            bad_letters(
                bye.clone(),
                name,
                &[
                    "|",
                    "net119:u1@kita|",
                    "net119:u1@kita.calle|e",
                    "net119:fire@a1|\\udc00.callee",
                ],
            );
        }
        bad_letters(
            bye.clone(),
            "Date",
            &[
                "|",
                "1900-02-2|9T00:00:00+0000",
                "19\\u00300-02-2|9T00:00:00+0000",
                "2000-02-29T|語",
            ],
        );
        bad_letters(
            bye,
            "Call-ID",
            &[
                "|",
                "A.|",
                "A|",
                &format!("{}|A", "A".repeat(64)),
                "A\\u002e|",
                &format!("{}|\\u0041", "\\u0041".repeat(64)),
                "A|\\ud8001",
                "A|_\\ud800",
                "A|\\ud83d\\ude00",
            ],
        );
    }

    /// Of every kind of message; a missing field comes before.
    #[test]
    fn row_9_letters_everywhere() {
        let requests = Method::NAMES.map(|method| Sample::request(&cseq(method)));
        let responses = Method::NAMES.map(|method| Sample::response(&cseq(method), "200 OK"));
        for sample in requests.into_iter().chain(responses) {
            bad_letters(sample.clone(), "CSeq", &["1 |bye"]);
            bad_letters(sample.clone(), "To", &["net119:u1@|_a.caller"]);
            bad_letters(sample.clone(), "From", &["net119:fire@kita.callee|e"]);
            bad_letters(sample.clone(), "Date", &["2024-02-|30T00:00:00+0000"]);
            bad_letters(sample.clone(), "Call-ID", &["A1|/nx"]);
            let missing = sample.with("Call-ID", "\"A\"").without("Via");
            assert_eq!(of(missing), Some((8, 6)));
        }
        for sample in [Sample::ping(), Sample::pong()] {
            bad_letters(sample.clone(), "Date", &["2024-02-|30T00:00:00+0000", "|"]);
            // Fields of other messages are ignored.
            assert_eq!(of(sample.with("Call-ID", "\"A\"")), None);
        }
        // The lowest field number answers, not the first bad letter.
        let two = Sample::request("1 BYE").with("Call-ID", "\"A\"");
        bad_letters(two.clone(), "Date", &["2024-02-29|"]);
        bad_letters(two.with("Via", "[]"), "Call-ID", &["A1|_"]);
        // Session-ID has Call-ID's rule, but not its place.
        let invite = Sample::request("1 INVITE");
        rule(invite, "Session-ID", &[], &["\"A_1\"", "\"A1.\""]);
    }

    #[test]
    fn row_9_statuses_and_queues() {
        rule(
            Sample::response("2 BYE", "200 OK"),
            "Status",
            &[
                "\"100 \"",
                "\"699 a\\n\\\"\"",
                "\"2\\u00300\\u0020OK\"",
                "\"200 \\ud800\"",
                "\"200\\u0020\\udc00\\ud800\"",
            ],
            &[
                "\"099 x\"",
                "\"700 x\"",
                "\"200\"",
                "200",
                "\"available\"",
                "\"2\\u004f0 OK\"",
                "\"200\\ud800 OK\"",
                "\"\\udc00200 OK\"",
            ],
        );
        rule(
            Sample::pong(),
            "Status",
            &[
                "\"available\"",
                "\"unavailable\"",
                "\"\\u0075n\\u0061vailable\"",
            ],
            &[
                "\"200 OK\"",
                "\"Available\"",
                "true",
                "\"available \"",
                "\"available\\ud800\"",
            ],
        );
        rule(
            Sample::pong(),
            "Responded-By",
            &["\"a1.callee\""],
            &["\"a1.caller\"", "1"],
        );
        rule(
            Sample::ping(),
            "Destination",
            &["\"a1.callee\""],
            &["\"a.callee\"", "[]"],
        );
    }

    #[test]
    fn row_9_via() {
        let bye = Sample::request("2 BYE");
        assert_eq!(of(bye.clone().with_via(1, &[])), None);
        assert_eq!(of(bye.clone().with_via(16, &[])), None);
        let seventeen = bye.clone().with_via(17, &[]);
        let place = value_place(&seventeen, "Via");
        assert_eq!(of(seventeen), Some((9, place)));
        let entry = |host: &str, destination: &str, organization: &str| {
            format!(
                r#"[{{"host":"{host}","destination":"{destination}","organization":"{organization}"}}]"#
            )
        };
        let long = |count: usize| "a".repeat(count);
        let good = [
            entry("a", "!", "nx"),
            entry(&long(253), &long(64), &long(10)),
            entry("-.", "~[]{}", "a-b"),
            entry("\\u0068\\u002e1", "\\/queue\\u002Fr", "n\\u002dx"),
            entry(
                &"\\u0061".repeat(253),
                &"\\/".repeat(64),
                &"\\u0061".repeat(10),
            ),
            r#"[{"\u0068ost":"h","destinatio\u006E":"d","organization":"nx"}]"#.into(),
            // Broken names are no repeat, equal ones neither.
            r#"[{"host\ud800":1,"host\ud800":1,"host":"h","destination":"d","organization":"nx"}]"#
                .into(),
            r#" [ { "organization":"nx","x":[],"x":1,"destination":"d","host":"h" } ] "#.into(),
        ];
        let bad = [
            "[]".into(),
            "{}".into(),
            "\"[]\"".into(),
            "[1]".into(),
            "[{}]".into(),
            entry("", "d", "nx"),
            entry(&long(254), "d", "nx"),
            entry("h_", "d", "nx"),
            entry("h", "", "nx"),
            entry("h", &long(65), "nx"),
            entry("h", "d d", "nx"),
            entry("h", "\\\\", "nx"),
            entry("h", "\\\"", "nx"),
            entry("h", "\\u0022", "nx"),
            entry("h", "d\\u005C", "nx"),
            entry("h", "d\\u0020", "nx"),
            entry("h", "d\\u00e9", "nx"),
            entry(&"\\u0061".repeat(254), "d", "nx"),
            entry("h", &"\\/".repeat(65), "nx"),
            entry("h\\ud800", "d", "nx"),
            entry("h", "\\udc00", "nx"),
            entry("h", "d", "nx\\udbff"),
            entry("h", "d", "n"),
            entry("h", "d", &long(11)),
            entry("h", "d", "-nx"),
            entry("h", "d", "nx-"),
            r#"[{"host":"h","destination":"d"}]"#.into(),
            r#"[{"host":"h","destination":"d","organization":1}]"#.into(),
            r#"[{"host":"h","host":"h","destination":"d","organization":"nx"}]"#.into(),
            r#"[{"host":"h","destination":"d","organization":"nx"},[]]"#.into(),
            r#"[{"host\ud800":"h","destination":"d","organization":"nx"}]"#.into(),
            r#"[{"host":"h","\u0068ost":"h","destination":"d","organization":"nx"}]"#.into(),
        ];
        let good: Vec<&str> = good.iter().map(|text: &String| text.trim()).collect();
        let bad: Vec<&str> = bad.iter().map(String::as_str).collect();
        rule(bye, "Via", &good, &bad);
    }

    #[test]
    fn row_9_invite() {
        let invite = Sample::request("1 INVITE");
        let memo = |unit: &str, count: usize| format!("\"{}\"", unit.repeat(count));
        rule(invite.clone(), "Session-ID", &["\"A1\""], &["\"A\"", "1"]);
        rule(
            invite.clone(),
            "Call-Mode",
            &["\"emergency\"", "\"training\""],
            &["\"Emergency\"", "\"test\"", "null"],
        );
        rule(
            invite.clone(),
            "Call-Test",
            &["0", "1"],
            &["2", "-0", "0.0", "1e0", "\"0\"", "true", "10"],
        );
        rule(
            invite.clone(),
            "Secure-Call",
            &["true", "false"],
            &["\"true\"", "1", "null"],
        );
        rule(
            invite.clone(),
            "Rescuee",
            &["\"caller\"", "\"third-party\"", "\"third\\u002dparty\""],
            &["\"callee\"", "\"third\\u005fparty\"", "\"caller\\udfff\""],
        );
        rule(
            invite.clone(),
            "Request-Service",
            &["\"ambulance\"", "\"fire\"", "\"unknown\"", "\"callback\""],
            &["\"police\"", "\"\""],
        );
        rule(
            invite.clone(),
            "Language",
            &["\"ja\"", "\"zz\""],
            &["\"JA\"", "\"j\"", "\"jpn\"", "\"j1\""],
        );
        rule(
            invite.clone(),
            "Locations",
            &["[]", "[ ]"],
            &["{}", "\"\"", "null"],
        );
        rule(
            invite.clone(),
            "User-Agent",
            &["\"\"", "\"a\\n\"", "\"\\ud800\""],
            &["{}", "1", "null"],
        );
        rule(
            invite.clone(),
            "Caller",
            &[CALLER_INFORMATION],
            &["[]", "\"\"", "null", "{}", "{\"a\":1}"],
        );
        rule(
            invite.clone(),
            "Referred-By",
            &["\"a1\""],
            &["\"a\"", "\"_a\"", "1"],
        );
        rule(
            invite,
            "Refer-Memo",
            &[
                "\"\"",
                &memo("a", 128),
                &memo("語", 128),
                &memo("😀", 128),
                &memo("\\ud83d\\ude00", 128),
                &memo("\\u8a9e", 128),
                "\"a\\t\\b\\\\n\\u0085\\u2028\\u0000\"",
            ],
            &[
                &memo("a", 129),
                &memo("語", 129),
                &memo("\\ud83d\\ude00", 129),
                &memo("\\\\", 129),
                "\"a\\nb\"",
                "\"\\r\"",
                "\"a\\u000a\"",
                "\"\\u000Da\"",
                "\"a\\ud83d\"",
                "\"\\ude00\\ud83d\"",
                "1",
            ],
        );
    }

    /// A value with `»` before its fault, where it has one.
    fn particulars(sample: &Sample, name: &str, marked: &str) {
        let changed = sample.clone().with(name, &marked.replace('»', ""));
        let place = |at| (9, value_place(&changed, name) + at);
        assert_eq!(of(changed.clone()), marked.find('»').map(place), "{marked}");
    }

    /// 02 §4: the place is the inner one.
    #[test]
    fn row_9_particulars() {
        let invite = Sample::request("1 INVITE");
        for locations in [
            r#"[{"provider":"map","latitude":35.66,"longitude":139.75}]"#,
            r#"[{"provider":"map","latitude":35.66,"longitude":»180.5}]"#,
            r#"[ »{"latitude":35.66,"longitude":139.75}]"#,
            "[»1,{}]",
        ] {
            particulars(&invite, "Locations", locations);
        }
        let tel = r#""tel":"119""#;
        for bad in [r#""tel":»"""#, r#""tel":"119",»"t\u0065l":"119""#] {
            particulars(&invite, "Caller", &CALLER_INFORMATION.replace(tel, bad));
        }
        let notify =
            Sample::request("1 NOTIFY").with("Content-Type", "\"message\\/vnd.net119.location\"");
        particulars(&notify, "Body", LIVE_LOCATION);
        particulars(&notify, "Body", &LIVE_LOCATION.replace("30", "»30.0"));
        // Where another type asks for nothing inside, or the field is ignored.
        let message = Sample::request("1 MESSAGE");
        assert_eq!(
            of(message.with("Caller", "{}").with("Locations", "[1]")),
            None
        );
        let response = Sample::response("1 INVITE", "200 OK");
        assert_eq!(
            of(response.with("Caller", "{}").with("Locations", "0")),
            None
        );
        assert_eq!(
            of(Sample::response("1 NOTIFY", "200 OK").with("Body", "{}")),
            None
        );
    }

    /// In their fields' turn, whatever stands first.
    #[test]
    fn particulars_in_their_turn() {
        let bad_caller = CALLER_INFORMATION.replace("\"119\"", "\"x\"");
        let bad = |sample: &Sample, name: &str, start: &str| {
            let text = sample.text();
            let at = value_place(sample, name);
            let place = at + text[at..].find(start).unwrap();
            assert_eq!(of(sample.clone()), Some((9, place)), "{name}");
        };
        let caller = Sample::request("1 INVITE").with("Caller", &bad_caller);
        bad(&caller, "Caller", "\"x\"");
        let agent = caller.with("User-Agent", "0");
        bad(&agent, "User-Agent", "0");
        let locations = agent.with("Locations", "[1]");
        bad(&locations, "Locations", "1");
        let language = locations.with("Language", "\"jpn\"");
        bad(&language, "Language", "\"jpn\"");
        // 8 comes before, 10 behind.
        assert_eq!(of(language.without("Session-ID")), Some((8, 14)));
        let training = Sample::request("1 INVITE")
            .with("Request-Service", "\"callback\"")
            .with("Call-Mode", "\"training\"");
        assert_eq!(of(training.clone()), Some((10, 0)));
        bad(&training.with("Caller", &bad_caller), "Caller", "\"x\"");
    }

    /// By fields 15, 18 and 19, by their decoded texts.
    #[test]
    fn which_calls_may_have_contacts() {
        let contact = r#"[{"name":"M","relation":"mother","tel":"1"}]"#;
        let with = |contacts: &str| {
            let member = format!("{{\"emergency-contacts\":{contacts},");
            CALLER_INFORMATION.replacen('{', &member, 1)
        };
        for mode in ["emergency", "training", "tr\\u0061ining"] {
            for rescuee in ["caller", "third-party", "c\\u0061ller", "third\\u002dparty"] {
                for service in [
                    "ambulance",
                    "fire",
                    "unknown",
                    "callback",
                    "\\u0061mbulance",
                ] {
                    if service == "callback" && mode != "emergency" {
                        continue;
                    }
                    let invite = Sample::request("1 INVITE")
                        .with("Call-Mode", &quoted(mode))
                        .with("Rescuee", &quoted(rescuee))
                        .with("Request-Service", &quoted(service));
                    let allowed = mode == "emergency"
                        && rescuee.ends_with("ller")
                        && service.ends_with("mbulance");
                    let marked = if allowed {
                        contact.into()
                    } else {
                        format!("»{contact}")
                    };
                    particulars(&invite, "Caller", &with(&marked));
                    particulars(&invite, "Caller", &with("[]"));
                    // What may be empty is a matter of the mode alone.
                    let mark = if mode == "emergency" { "»" } else { "" };
                    let born = CALLER_INFORMATION.replace("\"1982-01-19\"", &format!("{mark}\"\""));
                    particulars(&invite, "Caller", &born);
                }
            }
        }
    }

    #[test]
    fn positions_come_out_of_requests() {
        let positions = |sample: Sample| match read(&sample.bytes(), CEILING).answer {
            Ok(Message::Request(exchange) | Message::Response(exchange, _)) => exchange.positions,
            _ => panic!("{}", sample.text()),
        };
        let nishi = Position {
            latitude: 35_660_000,
            longitude: 139_750_000,
        };
        let invite = Sample::request("1 INVITE");
        let found = positions(invite.clone());
        assert_eq!((found.places, found.home), (vec![], Some(nishi)));
        let notify = Sample::request("1 NOTIFY");
        assert_eq!(positions(notify.clone()), Positions::default());
        let located = notify
            .with("Content-Type", "\"message/vnd.net119.location\"")
            .with("Body", LIVE_LOCATION);
        let found = positions(located);
        assert_eq!((found.places, found.home), (vec![nishi], None));
        let response = Sample::response("1 INVITE", "200 OK").with("Caller", CALLER_INFORMATION);
        assert_eq!(positions(response), Positions::default());
    }

    #[test]
    fn row_9_other_methods() {
        let message = Sample::request("1 MESSAGE");
        rule(
            message.clone(),
            "Message-ID",
            &["\"callee-k_1-Z9\"", "\"caller\\u002dkita-\\u0031\""],
            &["\"caller-kita-\"", "1", "\"caller-kita-\\u002d\""],
        );
        rule(
            message.clone(),
            "Content-Type",
            &["\"text/plain\"", "\"text\\/plain\"", "\"text\\u002Fplain\""],
            &[
                "\"text/html\"",
                "\"message/vnd.net119.refer\"",
                "1",
                "\"text\\\\/plain\"",
                "\"text/plain\\ud800\"",
            ],
        );
        rule(
            message.clone(),
            "Body",
            &["\"\"", "\"a\\n\\u3042\"", "\"https://\"", "\"\\ud800\""],
            &["{}", "1", "null", "[]"],
        );
        rule(
            message,
            "Options",
            &["[]", "[\"a\",\"\\n\"]", "[\"\\udc00\"]"],
            &["{}", "[1]", "[\"a\",null]", "\"a\"", "[[]]"],
        );
        let notify = |kind: &str| {
            let kind = format!("\"message/vnd.net119.{kind}\"");
            Sample::request("1 NOTIFY").with("Content-Type", &kind)
        };
        rule(
            notify("presence"),
            "Content-Type",
            &["\"message/vnd.net119.presence\""],
            &[
                "\"text/plain\"",
                "\"presence\"",
                "\"message/vnd.net119.\"",
                "null",
            ],
        );
        rule(
            notify("presence"),
            "Body",
            &["\"online\"", "\"offline\"", "\"on\\u006cine\""],
            &[
                "\"Online\"",
                "\"on\\u004cine\"",
                "\"online\\ud800\"",
                "{}",
                "\"\"",
            ],
        );
        rule(
            notify("location"),
            "Body",
            &[LIVE_LOCATION],
            &["[]", "\"online\"", "null", "{}", "{\"a\":[]}"],
        );
        rule(
            notify("refer"),
            "Body",
            &[
                "\"180 Ringing\"",
                "\"202 \\n\"",
                "\"699 \"",
                "\"\\u0031\\u00380 Ringing\"",
                "\"180 \\ud800\"",
            ],
            &["\"99 x\"", "\"700 x\"", "\"180\"", "180", "\"180\\ud800 \""],
        );
        // A broken Content-Type is the lower field, whatever the Body is.
        let both = notify("x").with("Body", "1");
        let place = value_place(&both, "Content-Type");
        assert_eq!(of(both), Some((9, place)));
        let refer = Sample::request("1 REFER");
        rule(
            refer.clone(),
            "Refer-To",
            &["\"a1\""],
            &["\"a\"", "\"A1\"", "1"],
        );
        rule(refer.clone(), "Referred-By", &["\"a1\""], &["\"a1_\"", "1"]);
        rule(
            refer,
            "Refer-Memo",
            &["\"\"", "\"\\\\\""],
            &["\"\\n\"", "null"],
        );
    }

    /// Both names of an image, as values.
    const IMAGE_TYPES: [&str; 2] = [
        "\"text/vnd.net119.uri.image\"",
        "\"message/vnd.net119.uri.image\"",
    ];

    #[test]
    fn images_in_messages() {
        for name in IMAGE_TYPES {
            let image = Sample::request("1 MESSAGE")
                .with("Content-Type", name)
                .with("Body", "\"https://x\"");
            let callees = image.clone().sent_by_callee();
            assert_eq!(of(image.clone()), None);
            assert_eq!(of(callees.clone()), Some((10, 0)));
            let spelled = ["https:\\/\\/", "\\u0068ttps:\\u002F/x", "https:/\\/\\udfff"];
            for good in [texts::IMAGES, &spelled].concat() {
                rule(image.clone(), "Body", &[&quoted(good)], &[]);
            }
            // 9 before a callee's 10.
            for sent in [image, callees] {
                for bad in texts::BAD_IMAGES {
                    rule(sent.clone(), "Body", &[], &[&quoted(bad)]);
                }
                let no_strings = ["{}", "[\"https://x\"]", "1", "true", "null"];
                rule(sent, "Body", &[], &no_strings);
            }
        }
    }

    /// TS-1022 5.11 shows one there: refused, whatever the Body is (02 §14).
    #[test]
    fn images_in_notifies() {
        for body in ["\"https://x\"", "\"online\"", "\"180 Ringing\"", "{}"] {
            let notify = Sample::request("1 NOTIFY").with("Body", body);
            rule(notify.clone(), "Content-Type", &[], &IMAGE_TYPES);
            rule(notify.sent_by_callee(), "Content-Type", &[], &IMAGE_TYPES);
        }
    }

    #[test]
    fn images_change_nothing_elsewhere() {
        let others = ["INVITE", "BYE", "CANCEL", "ACK", "CALLBACK", "REFER"];
        let requests = others.map(|method| Sample::request(&cseq(method)));
        let responses = Method::NAMES.map(|method| Sample::response(&cseq(method), "200 OK"));
        for sample in requests.into_iter().chain(responses) {
            for sent in [sample.clone().sent_by_caller(), sample.sent_by_callee()] {
                for name in IMAGE_TYPES {
                    let image = sent.clone().with("Content-Type", name);
                    assert_eq!(of(image.clone()), of(sent.clone()));
                    assert_eq!(of(image.with("Body", "1")), of(sent.clone()));
                }
            }
        }
    }

    #[test]
    fn content_types_that_are_only_near() {
        for near in texts::BAD_CONTENT_TYPES {
            for method in ["MESSAGE", "NOTIFY"] {
                let sample = Sample::request(&cseq(method)).with("Body", "\"https://x\"");
                rule(sample, "Content-Type", &[], &[&quoted(near)]);
            }
        }
    }

    /// 02 §2: a name spelled two ways is there twice, a broken one is none.
    #[test]
    fn names_in_other_letters() {
        for number in 1..=26 {
            let name = fields::NAMES[number - 1];
            let (first, rest) = name.split_at(1);
            let spelled = format!("\\u{:04x}{rest}", first.as_bytes()[0]);
            let ping = Sample::ping().without(name);
            for [one, other] in [[name, &spelled], [&spelled, name], [&spelled, &spelled]] {
                let doubled = ping.clone().and(one, "1").and(other, "1");
                let place = doubled.text().rfind(&quoted(other)).unwrap();
                assert_eq!(of(doubled), Some((7, place)), "{one} {other}");
            }
            let broken = format!("{name}\\ud800");
            let missing = of(ping.clone());
            let doubled = ping.and(&broken, "1").and(&broken, "1");
            assert_eq!(of(doubled), missing, "{name}");
        }
        let date = "\"2000-02-29T00:00:00+0000\"";
        let ping = Sample::ping().without("Date");
        assert_eq!(of(ping.clone().and("Dat\\u0065", date)), None);
        assert_eq!(of(ping.clone().and("Date\\udc00", date)), Some((8, 4)));
        let broken = ping.and("\\u0044ate", "1");
        let place = value_place(&broken, "\\u0044ate");
        assert_eq!(of(broken), Some((9, place)));
    }

    #[test]
    fn row_10_in_other_letters() {
        let ten = Some((10, 0));
        let invite = Sample::request("1 INVITE")
            .with("Request-Service", "\"c\\u0061llback\"")
            .with("Call-Mode", "\"trainin\\u0067\"");
        assert_eq!(of(invite), ten);
        assert_eq!(of(Sample::request("\\u0032 CALLBACK")), ten);
        let message = Sample::request("1 MESSAGE").sent_by_callee();
        let plain = message.clone().with("Content-Type", "\"text\\/plain\"");
        assert_eq!(of(plain), None);
        let image = message
            .with("Content-Type", "\"text\\/vnd.net119.uri.image\"")
            .with("Body", "\"https:\\/\\/x\"");
        assert_eq!(of(image), ten);
        assert_eq!(of(Sample::response("1 BYE", "20\\u0032 OK")), ten);
        let caller = "\"net119:u1@nishi.c\\u0061ller\"";
        assert_eq!(of(Sample::request("1 BYE").with("To", caller)), ten);
    }

    /// Call-Test and Secure-Call are no strings.
    #[test]
    fn what_is_no_string_has_no_escapes() {
        let invite = Sample::request("1 INVITE");
        rule(invite.clone(), "Call-Test", &[], &["\"0\"", "\"\\u0030\""]);
        rule(invite, "Secure-Call", &[], &["\"tru\\u0065\""]);
    }

    #[test]
    fn row_10_sides() {
        let ten = Some((10, 0));
        for method in Method::NAMES {
            let by_caller = !matches!(method, "REFER" | "CALLBACK");
            let by_callee = matches!(method, "BYE" | "MESSAGE" | "REFER" | "CALLBACK");
            for sample in [
                Sample::request(&cseq(method)),
                Sample::response(&cseq(method), "200 OK"),
            ] {
                let caller = of(sample.clone().sent_by_caller());
                assert_eq!(caller, if by_caller { None } else { ten }, "{method}");
                let callee = of(sample.clone().sent_by_callee());
                assert_eq!(callee, if by_callee { None } else { ten }, "{method}");
                for side in [CALLER, CALLEE] {
                    let same = sample.clone().with("From", side).with("To", side);
                    assert_eq!(of(same), ten, "{method}");
                }
            }
        }
    }

    #[test]
    fn row_10_the_rest() {
        let ten = Some((10, 0));
        assert_eq!(of(Sample::request("2 CALLBACK")), ten);
        assert_eq!(of(Sample::response("2 CALLBACK", "200 OK")), ten);
        let invite = Sample::request("1 INVITE").with("Request-Service", "\"callback\"");
        assert_eq!(of(invite.clone()), None);
        assert_eq!(of(invite.clone().with("Call-Mode", "\"training\"")), ten);
        let fire = invite.with("Request-Service", "\"fire\"");
        assert_eq!(of(fire.with("Call-Mode", "\"training\"")), None);
        for method in Method::NAMES {
            let wanted = if method == "REFER" { None } else { ten };
            assert_eq!(of(Sample::response(&cseq(method), "202 OK")), wanted);
            assert_eq!(of(Sample::response(&cseq(method), "201 OK")), None);
        }
        // A Status in a request, and a Body of 202, are not the Status meant.
        assert_eq!(
            of(Sample::request("1 BYE").with("Status", "\"202 OK\"")),
            None
        );
        let notify = Sample::request("1 NOTIFY")
            .with("Content-Type", "\"message/vnd.net119.refer\"")
            .with("Body", "\"202 Accepted\"");
        assert_eq!(of(notify), None);
    }

    /// The seventh message of the sample's call, a BYE, between its two parties.
    fn names_the_call(exchange: &Exchange) {
        assert_eq!((exchange.number, exchange.method), (7, Method::Bye));
        assert_eq!(exchange.user, b"u1");
        assert_eq!(exchange.caller_fire, b"nishi");
        assert_eq!(exchange.callee_fire, b"kita");
        assert_eq!(exchange.call_id, b"A1.nx");
    }

    #[test]
    fn what_is_read() {
        let bytes = Sample::request("7 BYE").sent_by_callee().bytes();
        let Ok(Message::Request(exchange)) = read(&bytes, CEILING).answer else {
            panic!("a request");
        };
        assert_eq!(exchange.from, Side::Callee);
        names_the_call(&exchange);
        assert_eq!(exchange.values.cseq, b"\"7 BYE\"");
        assert_eq!(exchange.via.len(), 1);
        assert_eq!(exchange.via[0].host, b"h1.nx");
        assert_eq!(exchange.via[0].spelled_host, b"h1.nx");
        assert_eq!(bytes[exchange.via[0].end - 1], b'}');
    }

    #[test]
    fn what_is_read_in_other_letters() {
        let hop = r#"[{"host":"\u00681","destination":"\/q","organization":"nx"}]"#;
        let bytes = Sample::request("\\u0037 BYE")
            .with("From", "\"net119:u\\u0031@\\u006eishi.caller\"")
            .with("To", "\"net119:fire@k\\u0069ta.callee\"")
            .of_call("A\\u0031.nx")
            .with("Via", hop)
            .bytes();
        let Ok(Message::Request(exchange)) = read(&bytes, CEILING).answer else {
            panic!("a request");
        };
        assert_eq!(exchange.from, Side::Caller);
        names_the_call(&exchange);
        assert_eq!(exchange.values.cseq, br#""\u0037 BYE""#);
        assert_eq!(exchange.values.call_id, br#""A\u0031.nx""#);
        assert_eq!(exchange.values.via, hop.as_bytes());
        assert_eq!(exchange.via[0].host, b"h1");
        assert_eq!(exchange.via[0].destination, b"/q");
        assert_eq!(exchange.via[0].spelled_host, br"\u00681");
    }
}
