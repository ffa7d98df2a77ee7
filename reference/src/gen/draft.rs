//! Messages on their way out: composed right from a plan, then spoiled in one
//! place or more, then written with or without white space.

use super::escapes;
use super::misses::{self, Miss};
use super::node::{Node, Spacing};
use super::particulars;
use super::rng::Rng;
use super::texts;
use crate::fields;
use crate::message::{self, Side};
use crate::particulars::Call;
use crate::rules::{self, ContentType, Method};
use crate::writing::OwnPath;

/// What a request or response is to say.
#[derive(Debug, Clone)]
pub struct Plan {
    pub response: Option<u16>,
    pub number: u32,
    pub method: Method,
    pub from: Side,
    pub call_id: Vec<u8>,
    pub user: Vec<u8>,
    pub caller_fire: Vec<u8>,
    pub callee_fire: Vec<u8>,
    pub secure: bool,
    pub via: Vec<OwnPath>,
}

/// A tag and fields in order.
#[derive(Debug, Clone)]
pub struct Draft {
    pub tag: Node,
    pub fields: Vec<(Vec<u8>, Node)>,
}

/// The side that sends a method, where there is a choice either.
pub fn sender(rng: &mut Rng, method: Method) -> Side {
    match Side::ALL.map(|side| message::may_send(side, method)) {
        [true, false] => Side::Caller,
        [false, true] => Side::Callee,
        _ => *rng.pick(&Side::ALL),
    }
}

pub fn path(rng: &mut Rng) -> OwnPath {
    OwnPath {
        host: texts::host(rng),
        destination: texts::destination(rng),
        organization: texts::organization(rng),
    }
}

/// Via entries: 1 to 3 of them mostly, 16 rarely.
pub fn paths(rng: &mut Rng) -> Vec<OwnPath> {
    let count = match rng.below(60) {
        0 => 16,
        1 => 15,
        2 => rng.between(4, 14),
        _ => rng.between(1, 3),
    };
    (0..count).map(|_| path(rng)).collect()
}

impl Plan {
    pub fn random(rng: &mut Rng) -> Plan {
        let method = *rng.pick(&Method::ALL);
        Plan::of_method(rng, method)
    }

    /// The same of this method, from a side that may send it.
    pub fn of_method(rng: &mut Rng, method: Method) -> Plan {
        let status = status(rng, method);
        Plan {
            response: rng.one_in(3).then_some(status),
            number: match method {
                Method::Callback => 1,
                _ => number(rng),
            },
            method,
            from: sender(rng, method),
            call_id: texts::call_id(rng),
            user: texts::user_id(rng),
            caller_fire: texts::fire_id(rng),
            callee_fire: texts::fire_id(rng),
            secure: !rng.one_in(3),
            via: paths(rng),
        }
    }

    /// The message of this plan, all right.
    pub fn compose(&self, rng: &mut Rng) -> Draft {
        let caller = texts::caller_address(&self.user, &self.caller_fire);
        let callee = texts::callee_address(&self.callee_fire);
        let (from, to) = match self.from {
            Side::Caller => (caller, callee),
            Side::Callee => (callee, caller),
        };
        let cseq = format!("{} {}", self.number, self.method.name());
        let mut draft = Draft {
            tag: Node::text(if self.response.is_some() {
                "response"
            } else {
                "request"
            }),
            fields: Vec::new(),
        };
        if let Some(status) = self.response {
            draft.set("Status", Node::text(texts::status(rng, status)));
        }
        draft.set("CSeq", Node::text(cseq));
        draft.set("To", Node::text(to));
        draft.set("From", Node::text(from));
        draft.set("Call-ID", Node::text(&self.call_id));
        draft.set("Date", Node::text(texts::date(rng)));
        if self.response.is_none() {
            self.add_method_fields(rng, &mut draft);
        }
        draft.set("Via", via(rng, &self.via));
        draft
    }

    fn add_method_fields(&self, rng: &mut Rng, draft: &mut Draft) {
        use ContentType::*;
        match self.method {
            Method::Invite => self.add_invite_fields(rng, draft),
            Method::Message => {
                let content_type = match self.from == Side::Caller && rng.one_in(2) {
                    true => *rng.pick(&ContentType::IMAGES),
                    false => Plain,
                };
                draft.set("Message-ID", Node::text(texts::message_id(rng)));
                draft.set_body(rng, content_type);
                if rng.one_in(4) {
                    let count = rng.below(3);
                    let options = (0..count).map(|_| Node::text(texts::free(rng)));
                    draft.set("Options", Node::Array(options.collect()));
                }
            }
            Method::Notify => {
                let content_type = *rng.pick(&[Presence, Location, Refer]);
                draft.set_body(rng, content_type);
            }
            Method::Refer => {
                draft.set("Refer-To", Node::text(texts::fire_id(rng)));
                draft.set("Referred-By", Node::text(texts::fire_id(rng)));
                if rng.one_in(2) {
                    draft.set("Refer-Memo", memo(rng));
                }
            }
            Method::Bye | Method::Cancel | Method::Ack | Method::Callback => {}
        }
    }

    fn add_invite_fields(&self, rng: &mut Rng, draft: &mut Draft) {
        let service = *rng.pick(&rules::SERVICES);
        let mode = match service != "callback" && rng.one_in(4) {
            true => "training",
            false => "emergency",
        };
        let rescuee = *rng.pick(&rules::RESCUEES);
        let call = Call::of(mode.as_bytes(), rescuee.as_bytes(), service.as_bytes());
        let language = *rng.pick(&["ja", "en", "zz", "aa"]);
        let secure = if self.secure { "true" } else { "false" };
        draft.set("Session-ID", Node::text(texts::call_id(rng)));
        draft.set("Call-Mode", Node::text(mode));
        draft.set("Call-Test", Node::raw(rng.pick(&rules::CALL_TESTS)));
        draft.set("Secure-Call", Node::raw(secure));
        draft.set("Rescuee", Node::text(rescuee));
        draft.set("Request-Service", Node::text(service));
        draft.set("Language", Node::text(language));
        draft.set("Locations", particulars::locations(rng));
        draft.set("User-Agent", Node::text(texts::free(rng)));
        draft.set("Caller", particulars::caller(rng, call));
        if rng.one_in(6) {
            draft.set("Referred-By", Node::text(texts::fire_id(rng)));
            draft.set("Refer-Memo", memo(rng));
        }
    }
}

/// A sequence number, at times at the end of its range.
pub fn number(rng: &mut Rng) -> u32 {
    match rng.below(30) {
        0 => u32::MAX,
        1 => u32::MAX - 1,
        2 => rng.next() as u32 | 1,
        _ => rng.between(1, 9) as u32,
    }
}

/// A status of any class; 202 for REFER alone.
pub fn status(rng: &mut Rng, method: Method) -> u16 {
    const STATUSES: &[u16] = &[
        100, 180, 181, 183, 199, 200, 201, 299, 300, 302, 399, 400, 404, 405, 481, 486, 487, 488,
        500, 501, 503, 600, 699,
    ];
    match (method, rng.below(3)) {
        (Method::Refer, 0) => 202,
        (_, 1) => 200,
        _ => *rng.pick(STATUSES),
    }
}

fn memo(rng: &mut Rng) -> Node {
    let count = match rng.below(4) {
        0 => 128,
        1 => 127,
        2 => 0,
        _ => rng.between(1, 30),
    };
    Node::text(texts::memo(rng, count))
}

fn via(rng: &mut Rng, paths: &[OwnPath]) -> Node {
    Node::Array(paths.iter().map(|path| hop(rng, path)).collect())
}

/// A Via object, now and then with members that are ignored or out of order.
fn hop(rng: &mut Rng, path: &OwnPath) -> Node {
    let mut members = vec![
        Node::member("host", Node::text(&path.host)),
        Node::member("destination", Node::text(&path.destination)),
        Node::member("organization", Node::text(&path.organization)),
    ];
    if rng.one_in(12) {
        let name = *rng.pick(&["x-sender", "Host", "port", "\\u0048ost", "CSeq", ""]);
        let value = rng
            .pick(&[Node::text("#K46"), Node::raw("1"), Node::Array(Vec::new())])
            .clone();
        members.push(Node::member(name, value.clone()));
        if rng.one_in(2) {
            members.push(Node::member(name, value));
        }
        rng.shuffle(&mut members);
    }
    Node::Object(members)
}

/// A ping or a pong, all right.
pub fn ping_or_pong(rng: &mut Rng) -> Draft {
    let ping = rng.one_in(2);
    let queue = texts::callee_queue(rng);
    let mut draft = Draft {
        tag: Node::text(if ping { "ping" } else { "pong" }),
        fields: Vec::new(),
    };
    if ping {
        draft.set("Destination", Node::text(queue));
    } else {
        draft.set("Responded-By", Node::text(queue));
        draft.set("Status", Node::text(rng.pick(&rules::AVAILABILITIES)));
    }
    draft.set("Date", Node::text(texts::date(rng)));
    let paths = paths(rng);
    draft.set("Via", via(rng, &paths));
    draft
}

impl Draft {
    /// Puts a field in the place of one of its name, or at the end.
    pub fn set(&mut self, name: &str, value: Node) {
        match self.index(name) {
            Some(index) => self.fields[index].1 = value,
            None => self.fields.push(Node::member(name, value)),
        }
    }

    fn index(&self, name: &str) -> Option<usize> {
        self.fields
            .iter()
            .position(|(known, _)| known == name.as_bytes())
    }

    /// Lets `act` change the value of a field, if it is there.
    pub fn change(&mut self, name: &str, act: impl FnOnce(&mut Node)) {
        if let Some(index) = self.index(name) {
            act(&mut self.fields[index].1);
        }
    }

    fn get(&self, name: &str) -> Option<&Node> {
        self.index(name).map(|index| &self.fields[index].1)
    }

    /// A Content-Type with a Body that fits it.
    fn set_body(&mut self, rng: &mut Rng, content_type: ContentType) {
        self.set("Content-Type", Node::text(content_type.name()));
        self.set("Body", body(rng, content_type));
    }

    /// The whole message as a tree.
    pub fn tree(&self) -> Node {
        Node::Array(vec![self.tag.clone(), Node::Object(self.fields.clone())])
    }

    /// The bytes: mostly compact and in order.
    pub fn render(&self, rng: &mut Rng) -> Vec<u8> {
        let mut draft = self.clone();
        if rng.one_in(4) {
            rng.shuffle(&mut draft.fields);
        }
        let spacing = rng.weighted(&[(7, Spacing::None), (2, Spacing::Light), (1, Spacing::Heavy)]);
        draft.tree().render(rng, spacing)
    }

    /// Adds fields that are ignored: unknown ones, or known ones of other methods.
    pub fn add_ignored(&mut self, rng: &mut Rng) {
        const NAMES: &[&str] = &[
            "x-trace",
            "cseq",
            "CSEQ",
            "",
            "\\u0063Seq",
            "Call_ID",
            "名",
            "Via ",
            "x-trace",
        ];
        let name = if rng.one_in(3) {
            let unused = fields::NAMES
                .iter()
                .filter(|name| self.index(name).is_none());
            let unused: Vec<&&str> = unused.collect();
            match unused.is_empty() {
                true => "x-trace",
                false => rng.pick(&unused),
            }
        } else {
            rng.pick(NAMES)
        };
        let value = any_value(rng);
        let at = rng.below(self.fields.len() + 1);
        self.fields.insert(at, Node::member(name, value));
    }

    /// Spoils the draft in one way, for one of the rows 5 to 10.
    pub fn spoil(&mut self, rng: &mut Rng) {
        match rng.below(24) {
            0 => self.spoil_envelope(rng),
            1..=2 => self.double_a_field(rng),
            3..=5 => self.drop_a_field(rng),
            6..=10 => self.break_a_field(rng),
            11 => self.nest(rng),
            12..=16 => self.disagree(rng),
            17..=20 => self.miss_a_letter(rng),
            _ => self.break_particulars(rng),
        }
    }

    /// Row 6, as far as a draft can show it.
    fn spoil_envelope(&mut self, rng: &mut Rng) {
        const TAGS: &[&str] = &[
            "\"Request\"",
            "\"request \"",
            "\"\"",
            "\"reques\"",
            "\"pang\"",
            "\"\\u0052equest\"",
            "\"request\\ud800\"",
            "null",
            "1",
            "[\"request\"]",
            "{}",
            "\"request\",{}",
            "\"request\",null",
        ];
        self.tag = Node::raw(rng.pick(TAGS));
    }

    /// Row 7; an unknown name may be there twice.
    fn double_a_field(&mut self, rng: &mut Rng) {
        let index = rng.below(self.fields.len());
        let mut double = self.fields[index].clone();
        if rng.one_in(2) {
            double.1 = any_value(rng);
        }
        let at = rng.below(self.fields.len() + 1);
        self.fields.insert(at, double);
    }

    /// Row 8.
    fn drop_a_field(&mut self, rng: &mut Rng) {
        let count = if rng.one_in(4) { 2 } else { 1 };
        for _ in 0..count.min(self.fields.len() - 1) {
            let index = rng.below(self.fields.len());
            if rng.one_in(4) {
                self.fields[index].0.push(b'x');
            } else {
                self.fields.remove(index);
            }
        }
    }

    /// Row 9.
    pub fn break_a_field(&mut self, rng: &mut Rng) {
        let count = if rng.one_in(4) { 2 } else { 1 };
        for _ in 0..count {
            let index = self.pick_a_field(rng);
            let name = self.fields[index].0.clone();
            if let Some(number) = fields::number_of(&name) {
                self.fields[index].1 = bad_value(rng, number, &self.fields[index].1);
            }
        }
        if self.get("Message-ID").is_some() && rng.one_in(4) {
            self.set("Options", bad_value(rng, fields::OPTIONS, &Node::raw("[]")));
        }
        let may_have_memo = self.get("Refer-To").is_some() || self.get("Call-Mode").is_some();
        if may_have_memo && rng.one_in(4) {
            let memo = bad_value(rng, fields::REFER_MEMO, &Node::raw("\"\""));
            self.set("Refer-Memo", memo);
        }
        // TS-1022 5.11 shows a photo in a NOTIFY, which has no Message-ID.
        let is_notify = self.get("Content-Type").is_some() && self.get("Message-ID").is_none();
        if is_notify && rng.one_in(6) {
            self.set_body(rng, ContentType::MessageImage);
        }
    }

    /// Row 9 in one of the fields whose letters are told (02 §12).
    fn miss_a_letter(&mut self, rng: &mut Rng) {
        let field = match self.get("CSeq").is_some() {
            true => *rng.pick(&misses::FIELDS),
            false => fields::DATE,
        };
        let miss = *rng.pick(&Miss::ALL);
        self.miss(rng, field, miss);
    }

    /// Puts a near miss in the place of a field's value, if it is there.
    pub fn miss(&mut self, rng: &mut Rng, field: usize, miss: Miss) {
        if let Some(index) = self.index(fields::NAMES[field - 1]) {
            let value = &mut self.fields[index].1;
            *value = misses::near(rng, field, miss, value);
        }
    }

    /// Row 9 inside a value that has particulars (02 §4), or in any.
    fn break_particulars(&mut self, rng: &mut Rng) {
        let mut fields = vec![fields::LOCATIONS, fields::CALLER, fields::BODY];
        fields.retain(|field| self.index(fields::NAMES[field - 1]).is_some());
        if fields.is_empty() {
            return self.break_a_field(rng);
        }
        let field = *rng.pick(&fields);
        self.change(fields::NAMES[field - 1], |value| {
            particulars::spoil(rng, field, value);
        });
    }

    /// Any field, but half the time one of the method's own if there is any.
    fn pick_a_field(&self, rng: &mut Rng) -> usize {
        let is_own = |index: &usize| {
            let number = fields::number_of(&self.fields[*index].0);
            number.is_some_and(|number| number > fields::VIA)
        };
        let own: Vec<usize> = (0..self.fields.len()).filter(is_own).collect();
        match own.is_empty() || rng.one_in(2) {
            true => rng.below(self.fields.len()),
            false => *rng.pick(&own),
        }
    }

    /// Row 5 and its near side: a value so deep that eight or nine are open.
    fn nest(&mut self, rng: &mut Rng) {
        let levels = rng.between(5, 8);
        let name = *rng.pick(&["Caller", "Locations", "x-deep"]);
        match self.get(name) {
            Some(_) => self.change(name, |value| particulars::hide(rng, value, levels - 1)),
            None => self.set("x-deep", nested(rng, levels)),
        }
    }

    /// Row 10.
    fn disagree(&mut self, rng: &mut Rng) {
        let (Some(to), Some(from)) = (self.index("To"), self.index("From")) else {
            return self.set("Date", Node::text(texts::bad_date(rng)));
        };
        match rng.below(5) {
            0 => {
                let sent = self.fields[from].1.clone();
                self.fields[from].1 = std::mem::replace(&mut self.fields[to].1, sent);
            }
            1 => self.fields[to].1 = self.fields[from].1.clone(),
            2 => {
                let cseq = *rng.pick(&["2 CALLBACK", "4294967295 CALLBACK"]);
                self.set("CSeq", Node::text(cseq));
            }
            3 => {
                self.set("Status", Node::text("202 Accepted"));
            }
            _ if self.get("Call-Mode").is_some() => {
                self.set("Call-Mode", Node::text("training"));
                self.set("Request-Service", Node::text("callback"));
                self.change("Caller", particulars::drop_contacts);
            }
            _ => {
                let content_type = *rng.pick(&ContentType::IMAGES);
                self.set_body(rng, content_type);
                self.fields[from].1 = Node::text("net119:fire@kita.callee");
                self.fields[to].1 = Node::text("net119:u1@nishi.caller");
            }
        }
    }
}

/// A Body that fits a Content-Type.
pub fn body(rng: &mut Rng, content_type: ContentType) -> Node {
    use ContentType::*;
    match content_type {
        Plain => Node::text(texts::free(rng)),
        TextImage | MessageImage => Node::text(texts::image(rng)),
        Presence => Node::text(rng.pick(&rules::PRESENCES)),
        Location => particulars::live_location(rng),
        Refer => {
            const STATUSES: &[&str] = &[
                "180 Ringing",
                "202 Accepted",
                "699 ",
                "100 \\n",
                "180 \\ud800",
            ];
            Node::text(rng.pick(STATUSES))
        }
    }
}

/// Arrays and objects in each other, so many levels of them.
pub fn nested(rng: &mut Rng, levels: usize) -> Node {
    let mut node = match rng.below(4) {
        0 => Node::raw("1"),
        1 => Node::text("[{"),
        2 => Node::Array(Vec::new()),
        _ => Node::Object(Vec::new()),
    };
    let own = usize::from(!matches!(node, Node::Raw(_)));
    for _ in own..levels {
        node = match rng.below(4) {
            0 => Node::Array(vec![node]),
            1 => Node::Array(vec![Node::raw("[]"), node, Node::raw("{}")]),
            2 => Node::Object(vec![Node::member("a", node)]),
            _ => Node::Object(vec![
                Node::member("b", Node::raw("{}")),
                Node::member("b", node),
            ]),
        };
    }
    node
}

/// Any JSON value, small.
pub fn any_value(rng: &mut Rng) -> Node {
    const VALUES: &[&str] = &[
        "null",
        "true",
        "false",
        "0",
        "1",
        "-1.5e+3",
        "2",
        "\"\"",
        "\"x\"",
        "\"\\n\"",
        "[]",
        "{}",
        "[1]",
        "[\"a\",null]",
        "{\"host\":1}",
        "\"online\"",
        "00000001e0",
    ];
    // The last one is not JSON; it is to come rarely.
    let count = VALUES.len() - usize::from(!rng.one_in(8));
    Node::raw(VALUES[rng.below(count)])
}

/// A value that breaks the field's rule, or seldom one that just meets it.
fn bad_value(rng: &mut Rng, field: usize, old: &Node) -> Node {
    if rng.one_in(5) {
        return any_value(rng);
    }
    if rng.one_in(10) {
        return escapes::broken(rng, old);
    }
    use fields::*;
    let text = match field {
        CSEQ => {
            let method = *rng.pick(&Method::NAMES);
            texts::bad_cseq(rng, method)
        }
        TO | FROM => texts::bad_address(rng),
        DATE => texts::bad_date(rng),
        CALL_ID | SESSION_ID => texts::bad_call_id(rng),
        VIA => return bad_via(rng, old),
        STATUS => texts::bad_status(rng),
        MESSAGE_ID => texts::bad_message_id(rng),
        // The other method's are as wrong as those of none.
        CONTENT_TYPE if rng.one_in(2) => rng.one_of(&ContentType::NAMES),
        CONTENT_TYPE => texts::bad_content_type(rng),
        BODY if !matches!(old, Node::Object(_)) => bad_body(rng, old),
        REFER_TO | REFERRED_BY => texts::bad_fire_id(rng),
        REFER_MEMO => match rng.below(5) {
            0 => texts::memo(rng, 129),
            1 | 2 => rng.one_of(&["a\\nb", "\\rb", "a\\u000a", "a\\u000Db"]),
            _ => escapes::memo(rng),
        },
        CALL_MODE => b"Emergency".to_vec(),
        CALL_TEST => {
            const TESTS: &[&str] = &["2", "-0", "0.0", "1e0", "\"0\"", "true", "10", "-1", "0e0"];
            return Node::raw(rng.pick(TESTS));
        }
        SECURE_CALL => return Node::raw(rng.pick(&["\"true\"", "0", "1", "null", "[true]"])),
        RESCUEE => b"third_party".to_vec(),
        REQUEST_SERVICE => b"police".to_vec(),
        LANGUAGE => rng.one_of(&["j", "jpn", "JA", "j1", ""]),
        BODY | LOCATIONS | CALLER => {
            let mut value = old.clone();
            particulars::spoil(rng, field, &mut value);
            return value;
        }
        OPTIONS => {
            const LISTS: &[&str] = &[
                "{}",
                "\"[]\"",
                "[1]",
                "[\"a\",1]",
                "[[]]",
                "[\"\\n\"]",
                "[]",
            ];
            return Node::raw(rng.pick(LISTS));
        }
        USER_AGENT => return any_value(rng),
        _ => [texts::bad_fire_id(rng), b".callee".to_vec()].concat(),
    };
    Node::text(text)
}

/// A Body that the Content-Type it stands with seldom allows.
fn bad_body(rng: &mut Rng, old: &Node) -> Vec<u8> {
    const BODIES: &[&str] = &[
        "Online",
        "online ",
        "on\\u004cine",
        "https://x",
        "700 x",
        "099 x",
        "200",
        "180 \\n",
        "",
    ];
    let is_image = matches!(old, Node::Raw(bytes) if bytes.starts_with(b"\"https:"));
    let bodies = if is_image { texts::BAD_IMAGES } else { BODIES };
    rng.one_of(bodies)
}

/// A Via that breaks its rule by its count or in one of its objects.
fn bad_via(rng: &mut Rng, old: &Node) -> Node {
    let Node::Array(mut hops) = old.clone() else {
        return any_value(rng);
    };
    match rng.below(5) {
        0 => hops.clear(),
        1 => {
            let path = path(rng);
            let count = rng.between(16, 17);
            hops.resize(count, hop(rng, &path));
        }
        2 => {
            let at = rng.below(hops.len() + 1);
            hops.insert(at, any_value(rng));
        }
        _ => {
            let at = rng.below(hops.len().max(1));
            if let Some(Node::Object(members)) = hops.get_mut(at) {
                break_hop(rng, members);
            }
        }
    }
    Node::Array(hops)
}

fn break_hop(rng: &mut Rng, members: &mut Vec<(Vec<u8>, Node)>) {
    if members.is_empty() {
        return;
    }
    let at = rng.below(members.len());
    match rng.below(6) {
        0 => {
            members.remove(at);
        }
        1 => {
            let double = members[at].clone();
            members.push(double);
        }
        2 => members[at].1 = any_value(rng),
        3 => members[at].0.push(b' '),
        _ => {
            let text = match &members[at].0[..] {
                b"host" => texts::bad_host(rng),
                b"destination" => texts::bad_destination(rng),
                _ => texts::bad_organization(rng),
            };
            members[at].1 = Node::text(text);
        }
    }
}
