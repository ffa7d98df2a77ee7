//! Particulars (02 §4): Locations, Callers and Live-Locations that are sound, and
//! faults that are put into them one by one.

use super::draft;
use super::escapes;
use super::node::Node;
use super::questions;
use super::rng::Rng;
use super::texts;
use crate::fields;
use crate::particulars::{Call, BOUNDS, PROVIDERS, SEXES};

type Members = Vec<(Vec<u8>, Node)>;

/// The types of TS-1022 section 10.
#[derive(Clone, Copy, PartialEq, Eq)]
enum Type {
    Location,
    Caller,
    Personal,
    Home,
    Contact,
    Region,
    Live,
}

/// What a value may be.
#[derive(Clone, Copy)]
enum Kind {
    /// Of so many code points.
    Text(usize, usize),
    Digits(usize, usize),
    Word(&'static [&'static str]),
    FireId,
    UserId,
    Date,
    Day,
    /// So many degrees to either side.
    Coordinate(u64),
    Metres,
    Object(Type),
    List(Type),
}

struct Member {
    name: &'static str,
    /// In so many of a hundred objects.
    share: usize,
    kind: Kind,
}

const fn must(name: &'static str, kind: Kind) -> Member {
    Member {
        name,
        share: 100,
        kind,
    }
}

const fn may(name: &'static str, kind: Kind) -> Member {
    Member {
        name,
        share: 50,
        kind,
    }
}

const LATITUDE: Member = must("latitude", Kind::Coordinate(BOUNDS[0]));
const LONGITUDE: Member = must("longitude", Kind::Coordinate(BOUNDS[1]));

const LOCATION: &[Member] = &[
    must("provider", Kind::Word(&PROVIDERS)),
    LATITUDE,
    LONGITUDE,
    may("name", Kind::Text(0, 15)),
    may("accuracy", Kind::Metres),
    may("memo", Kind::Text(0, 64)),
];
const CALLER: &[Member] = &[
    must("region", Kind::FireId),
    must("uid", Kind::UserId),
    must("email", Kind::Text(1, 254)),
    must("last-modified", Kind::Date),
    must("personal-information", Kind::Object(Type::Personal)),
    Member {
        name: "emergency-contacts",
        share: 80,
        kind: Kind::List(Type::Contact),
    },
    must("region-information", Kind::Object(Type::Region)),
];
const PERSONAL: &[Member] = &[
    must("name", Kind::Text(1, 30)),
    may("kana", Kind::Text(0, 30)),
    must("address", Kind::Text(1, 64)),
    may("tel", Kind::Digits(0, 15)),
    may("fax", Kind::Digits(0, 15)),
    must("sex", Kind::Word(&SEXES)),
    must("birthday", Kind::Day),
    must("location", Kind::Object(Type::Home)),
];
const HOME: &[Member] = &[LATITUDE, LONGITUDE];
const CONTACT: &[Member] = &[
    must("name", Kind::Text(1, 30)),
    may("kana", Kind::Text(0, 30)),
    must("relation", Kind::Text(1, 15)),
    may("tel", Kind::Digits(0, 15)),
    may("fax", Kind::Digits(0, 15)),
    may("email", Kind::Text(0, 254)),
];
const REGION: &[Member] = &[
    must("name", Kind::Text(1, 40)),
    must("tel", Kind::Digits(1, 15)),
];
const LIVE: &[Member] = &[
    must("provider", Kind::Word(&["gps", "network"])),
    must("date", Kind::Date),
    LATITUDE,
    LONGITUDE,
    must("accuracy", Kind::Metres),
];

impl Type {
    fn members(self) -> &'static [Member] {
        match self {
            Type::Location => LOCATION,
            Type::Caller => CALLER,
            Type::Personal => PERSONAL,
            Type::Home => HOME,
            Type::Contact => CONTACT,
            Type::Region => REGION,
            Type::Live => LIVE,
        }
    }

    fn member(self, name: &[u8]) -> Option<&'static Member> {
        let mut members = self.members().iter();
        members.find(|member| member.name.as_bytes() == name)
    }
}

/// Locations in order: often none or one.
pub fn locations(rng: &mut Rng) -> Node {
    let count = *rng.pick(&[0, 0, 1, 1, 1, 2, 3, 4]);
    let mut order: Vec<usize> = (0..count).map(|_| rng.below(PROVIDERS.len())).collect();
    order.sort();
    let locations = order
        .into_iter()
        .map(|index| location(rng, PROVIDERS[index]));
    Node::Array(locations.collect())
}

fn location(rng: &mut Rng, provider: &str) -> Node {
    let mut members = members(rng, Type::Location, ANY_CALL);
    set(&mut members, "provider", Node::text(provider));
    if provider == "preset" {
        set(&mut members, "name", Node::text(texts::points(rng, 1, 15)));
    }
    let measured = provider == "gps" || provider == "network";
    if let Some(accuracy) = get(&mut members, "accuracy").filter(|_| !measured) {
        *accuracy = Node::raw("0");
    }
    dress(rng, Type::Location, members)
}

/// A Caller of such a call.
pub fn caller(rng: &mut Rng, call: Call) -> Node {
    object(rng, Type::Caller, call)
}

/// A NOTIFY's location.
pub fn live_location(rng: &mut Rng) -> Node {
    object(rng, Type::Live, ANY_CALL)
}

/// For the types to which the call is no matter.
const ANY_CALL: Call = Call {
    training: false,
    contacts: true,
};

fn object(rng: &mut Rng, own: Type, call: Call) -> Node {
    let mut members = members(rng, own, call);
    match own {
        Type::Personal if call.training => leave_empty(rng, &mut members),
        Type::Contact => {
            let (way, kind) = *rng.pick(&WAYS);
            let value = sound(rng, kind, ANY_CALL);
            set(&mut members, way, value);
        }
        _ => {}
    }
    dress(rng, own, members)
}

/// The members that must be there, and some that may.
fn members(rng: &mut Rng, own: Type, call: Call) -> Members {
    let mut members = Vec::new();
    for member in own.members() {
        if rng.percent(member.share) {
            members.push(Node::member(member.name, sound(rng, member.kind, call)));
        }
    }
    members
}

/// An object of these members, now and then in another order or with members that
/// the type does not have.
fn dress(rng: &mut Rng, own: Type, mut members: Members) -> Node {
    if rng.one_in(4) {
        rng.shuffle(&mut members);
    }
    if rng.one_in(12) {
        const NAMES: &[&str] = &[
            "x", "", "Name", "name ", "tel", "date", "memo", "\\u0058", "名",
        ];
        let name = *rng.pick(NAMES);
        let count = match own.member(name.as_bytes()) {
            Some(_) => 0,
            None => rng.between(1, 2),
        };
        for _ in 0..count {
            let at = rng.below(members.len() + 1);
            members.insert(at, Node::member(name, other_kind(rng)));
        }
    }
    Node::Object(members)
}

/// In training the personal texts, birthday and home may be empty.
fn leave_empty(rng: &mut Rng, members: &mut Members) {
    const NAMES: [&str; 7] = [
        "name", "kana", "address", "tel", "fax", "birthday", "location",
    ];
    let all = rng.one_in(3);
    for name in NAMES {
        if let Some(value) = get(members, name) {
            if all || rng.one_in(2) {
                *value = Node::text("");
            }
        }
    }
}

/// The ways to reach a contact.
const WAYS: [(&str, Kind); 3] = [
    ("tel", Kind::Digits(1, 15)),
    ("fax", Kind::Digits(1, 15)),
    ("email", Kind::Text(1, 254)),
];

fn get<'m>(members: &'m mut Members, name: &str) -> Option<&'m mut Node> {
    let mut members = members.iter_mut();
    let found = members.find(|(known, _)| known == name.as_bytes());
    found.map(|(_, value)| value)
}

fn set(members: &mut Members, name: &str, value: Node) {
    match get(members, name) {
        Some(old) => *old = value,
        None => members.push(Node::member(name, value)),
    }
}

/// A value that keeps its rule.
fn sound(rng: &mut Rng, kind: Kind, call: Call) -> Node {
    match kind {
        Kind::Text(low, high) => Node::text(texts::points(rng, low, high)),
        Kind::Digits(low, high) => {
            let count = texts::seldom_at_an_end(rng, low, high);
            Node::text(rng.text(b"0123456789", count))
        }
        Kind::Word(words) => Node::text(rng.pick(words)),
        Kind::FireId => Node::text(texts::fire_id(rng)),
        Kind::UserId => Node::text(texts::user_id(rng)),
        Kind::Date => Node::text(texts::date(rng)),
        Kind::Day => Node::text(&texts::date(rng)[..DAY]),
        Kind::Coordinate(bound) => coordinate(rng, bound),
        Kind::Metres => {
            const METRES: &[&str] = &["0", "5", "30", "50", "300", "1000", "18446744073709551616"];
            Node::raw(rng.pick(METRES))
        }
        Kind::Object(own) => object(rng, own, call),
        Kind::List(Type::Contact) => {
            let most = if call.contacts { 3 } else { 0 };
            let count = rng.between(0, most);
            let contacts = (0..count).map(|_| object(rng, Type::Contact, call));
            Node::Array(contacts.collect())
        }
        Kind::List(_) => locations(rng),
    }
}

/// How a Date begins.
const DAY: usize = 10;

fn coordinate(rng: &mut Rng, bound: u64) -> Node {
    let sign = *rng.pick(&["", "", "", "-"]);
    let whole = rng.below(bound as usize);
    let decimals = rng.below(7);
    Node::raw(match rng.below(12) {
        0 => format!("{sign}{bound}"),
        1 => format!("{sign}{bound}.{}", "0".repeat(decimals.max(1))),
        2 => format!("{sign}0"),
        3 => format!("{sign}{whole}.999999"),
        _ if decimals == 0 => format!("{sign}{whole}"),
        _ => {
            let decimals = rng.text(b"0123456789", decimals);
            format!("{sign}{whole}.{}", String::from_utf8_lossy(&decimals))
        }
    })
}

/// Puts a fault into the value of field 10, 21 or 23, or what is just none.
pub fn spoil(rng: &mut Rng, field: usize, value: &mut Node) {
    let kind = match field {
        fields::LOCATIONS => Kind::List(Type::Location),
        fields::CALLER => Kind::Object(Type::Caller),
        _ => Kind::Object(Type::Live),
    };
    let mut count = 0;
    each_part(value, kind, &mut |_| count += 1);
    if count == 0 || rng.one_in(30) {
        *value = other_kind(rng);
        return;
    }
    let mut left = rng.below(count);
    each_part(value, kind, &mut |part| {
        if left == 0 {
            match part {
                Part::Object(own, members) => spoil_object(rng, own, members),
                Part::List(own, elements) => spoil_list(rng, own, elements),
            }
        }
        left = left.wrapping_sub(1);
    });
}

/// A part of a field's value that a fault may be in.
enum Part<'n> {
    Object(Type, &'n mut Members),
    List(Type, &'n mut Vec<Node>),
}

/// Lets `act` change every part of a value.
fn each_part(value: &mut Node, kind: Kind, act: &mut impl FnMut(Part)) {
    match (value, kind) {
        (Node::Object(members), Kind::Object(own)) => {
            act(Part::Object(own, members));
            for (name, value) in members {
                if let Some(member) = own.member(name) {
                    each_part(value, member.kind, act);
                }
            }
        }
        (Node::Array(elements), Kind::List(own)) => {
            act(Part::List(own, elements));
            for element in elements {
                each_part(element, Kind::Object(own), act);
            }
        }
        _ => {}
    }
}

fn spoil_list(rng: &mut Rng, own: Type, elements: &mut Vec<Node>) {
    let at = rng.below(elements.len() + 1);
    match own {
        _ if rng.one_in(4) => elements.insert(at, other_kind(rng)),
        Type::Location => {
            for _ in elements.len()..rng.between(2, 4) {
                let provider = *rng.pick(&PROVIDERS);
                elements.push(location(rng, provider));
            }
            rng.shuffle(elements);
        }
        _ => {
            let count = rng.between(1, 5);
            elements.resize_with(count, || object(rng, own, ANY_CALL));
        }
    }
}

fn spoil_object(rng: &mut Rng, own: Type, members: &mut Members) {
    if own == Type::Contact && rng.one_in(3) {
        return change_the_ways(rng, members);
    }
    let member = rng.pick(own.members());
    let Some(at) = place_of(members, member.name) else {
        members.push(Node::member(member.name, near(rng, member.kind)));
        return;
    };
    match rng.below(12) {
        0 | 1 => {
            members.remove(at);
        }
        2 | 3 => repeat(rng, members, at, member.kind),
        4 => members[at].0 = another_name(rng, member.name),
        5 | 6 => members[at].1 = other_kind(rng),
        7 => members[at].1 = escapes::broken(rng, &members[at].1),
        _ => members[at].1 = near(rng, member.kind),
    }
}

fn place_of(members: &Members, name: &str) -> Option<usize> {
    let mut members = members.iter();
    members.position(|(known, _)| known == name.as_bytes())
}

/// Each way of a contact missing, unset, set or wrong.
fn change_the_ways(rng: &mut Rng, members: &mut Members) {
    for (way, kind) in WAYS {
        members.retain(|(name, _)| name != way.as_bytes());
        let value = match rng.below(8) {
            0..=2 => continue,
            3 | 4 => Node::text(""),
            5 => sound(rng, kind, ANY_CALL),
            6 => near(rng, kind),
            _ => other_kind(rng),
        };
        let at = rng.below(members.len() + 1);
        members.insert(at, Node::member(way, value));
    }
}

/// A member that is there twice or three times, its name in any letters; any of
/// them may be the first.
fn repeat(rng: &mut Rng, members: &mut Members, at: usize, kind: Kind) {
    let (name, own) = members[at].clone();
    for _ in 0..rng.weighted(&[(5, 1), (1, 2)]) {
        let value = match rng.below(4) {
            0 => near(rng, kind),
            1 => sound(rng, kind, ANY_CALL),
            2 => other_kind(rng),
            _ => own.clone(),
        };
        let name = match rng.one_in(2) {
            true => escapes::spell(rng, &name),
            false => name.clone(),
        };
        let at = rng.below(members.len() + 1);
        members.insert(at, Node::member(name, value));
    }
}

/// A name near a member's: in other letters it is the same, else it is unknown.
fn another_name(rng: &mut Rng, name: &str) -> Vec<u8> {
    match rng.below(4) {
        0 => escapes::spell(rng, name.as_bytes()),
        1 => escapes::put_lone(rng, name.as_bytes()),
        _ => near_word(rng, &[name]),
    }
}

fn near_word(rng: &mut Rng, words: &[&str]) -> Vec<u8> {
    let word = questions::near_word(rng, words);
    escapes::quotable(rng, &String::from_utf8_lossy(&word))
}

/// A value of each of JSON's kinds.
fn other_kind(rng: &mut Rng) -> Node {
    const VALUES: &[&str] = &[
        "null",
        "true",
        "false",
        "0",
        "1",
        "-1",
        "1.5",
        "\"\"",
        "\"0\"",
        "\"x\"",
        "[]",
        "{}",
        "[1]",
        "[{}]",
        "[[]]",
        "{\"x\":1}",
        "[\"\"]",
    ];
    Node::raw(rng.pick(VALUES))
}

/// A value at one of its rule's bounds, or just beyond.
fn near(rng: &mut Rng, kind: Kind) -> Node {
    match kind {
        Kind::Text(low, high) => {
            let count = *rng.pick(&[low.saturating_sub(1), low, high, high + 1]);
            Node::text(texts::points(rng, count, count))
        }
        Kind::Digits(low, high) => Node::text(near_digits(rng, low, high)),
        // A word of another list is as wrong as none.
        Kind::Word(_) if rng.one_in(3) => Node::text(rng.pick(&PROVIDERS)),
        Kind::Word(words) => Node::text(near_word(rng, words)),
        Kind::FireId if rng.one_in(2) => Node::text(texts::bad_fire_id(rng)),
        Kind::FireId => Node::text(texts::at_length(rng, b"abz09_", 2, 15)),
        Kind::UserId if rng.one_in(4) => Node::text(rng.pick(&["u_1", "u 1", "語", "u-1", "u\\n"])),
        Kind::UserId => Node::text(texts::at_length(rng, b"azAZ09", 1, 15)),
        Kind::Date => Node::text(near_date(rng)),
        Kind::Day => Node::text(near_day(rng)),
        Kind::Coordinate(bound) => near_coordinate(rng, bound),
        Kind::Metres => near_metres(rng),
        Kind::Object(_) => Node::raw(rng.pick(&["{}", "\"\"", "null", "[]", "[{}]", "\" \""])),
        Kind::List(_) => Node::raw(rng.pick(&["{}", "\"\"", "null", "[]", "[null]", "[{}]"])),
    }
}

fn near_digits(rng: &mut Rng, low: usize, high: usize) -> Vec<u8> {
    let count = *rng.pick(&[low.saturating_sub(1), low, high, high + 1]);
    let mut digits = rng.text(b"0123456789", count);
    if rng.one_in(3) {
        let others = [
            "-", "+", " ", "a", "１", "/", ":", ".", "\\n", "\\ud800", "\\u003a",
        ];
        let at = rng.below(digits.len() + 1);
        digits.splice(at..at, rng.one_of(&others));
    } else if rng.one_in(3) {
        digits = escapes::spell(rng, &digits);
    }
    digits
}

fn near_date(rng: &mut Rng) -> Vec<u8> {
    match rng.one_in(2) {
        true => texts::bad_date(rng),
        false => texts::near_date(rng),
    }
}

/// A birthday: a Date's beginning, at times a letter too short or too long.
fn near_day(rng: &mut Rng) -> Vec<u8> {
    if rng.one_in(8) {
        return Vec::new();
    }
    let mut day = near_date(rng);
    let length = DAY - 1 + rng.weighted(&[(1, 0), (6, 1), (1, 2)]);
    day.truncate(length);
    day
}

fn near_coordinate(rng: &mut Rng, bound: u64) -> Node {
    let sign = *rng.pick(&["", "-"]);
    let beyond = bound + 1;
    let decimals = rng.between(5, 8);
    // Their millionths are the least that do not fit 31, 32, 63 and 64 bits.
    const WIDE: &[&str] = &[
        "2147.483648",
        "4294.967296",
        "9223372036854.775808",
        "18446744073709.551616",
    ];
    Node::raw(match rng.below(15) {
        0 => format!("{sign}{bound}.000001"),
        1 => format!("{sign}{bound}.000000"),
        2 => format!("{sign}{bound}.0000000"),
        3 => format!("{sign}{beyond}"),
        4 => format!("{sign}{}.999999", bound - 1),
        5 => format!("{sign}0"),
        6 => format!("{sign}0.{}", "0".repeat(decimals)),
        7 => format!("{sign}1.{}", "1".repeat(decimals)),
        8 => format!("{sign}1.{}1", "0".repeat(decimals - 1)),
        9 => format!("{sign}{bound}0"),
        10 => format!("{sign}1{}", "0".repeat(5 * decimals)),
        11 => format!("{sign}{}", rng.pick(WIDE)),
        _ => {
            let exponent = *rng.pick(&["e1", "E1", "e0", "e+0", "E-1", "e-400"]);
            let digits = *rng.pick(&["0", "1", "1.5", "9.000000", "0.0"]);
            format!("{sign}{digits}{exponent}")
        }
    })
}

/// Now and then digits that are no number of JSON.
fn near_metres(rng: &mut Rng) -> Node {
    const METRES: &[&str] = &[
        "0",
        "1",
        "-0",
        "-1",
        "0.0",
        "1.0",
        "1.5",
        "0e0",
        "1e3",
        "1E0",
        "10e-1",
        "\"1\"",
        "10000000000000000000000000000000000000000",
        "4294967296",
        "00",
        "01",
    ];
    let count = METRES.len() - if rng.one_in(12) { 0 } else { 2 };
    Node::raw(METRES[rng.below(count)])
}

/// What stands deep inside, where the type has no such member.
pub fn hide(rng: &mut Rng, value: &mut Node, levels: usize) {
    match value {
        Node::Object(members) => members.push(Node::member("a", draft::nested(rng, levels))),
        Node::Array(elements) => {
            if elements.is_empty() {
                elements.push(location(rng, "gps"));
            }
            hide(rng, &mut elements[0], levels - 1);
        }
        Node::Raw(_) => {}
    }
}

/// Leaves no contacts.
pub fn drop_contacts(caller: &mut Node) {
    if let Node::Object(members) = caller {
        members.retain(|(name, _)| name != b"emergency-contacts");
    }
}

#[cfg(test)]
mod tests {
    use super::super::node::Spacing;
    use super::*;
    use crate::json::{self, Value};
    use crate::particulars::{fault_of_caller, fault_of_live_location, fault_of_locations};

    const CALLS: [Call; 3] = [
        ANY_CALL,
        Call {
            training: false,
            contacts: false,
        },
        Call {
            training: true,
            contacts: false,
        },
    ];

    /// The rule's lowest fault in a value, if it is JSON.
    fn fault(
        rng: &mut Rng,
        value: &Node,
        rule: impl Fn(&[u8], &Value) -> Option<usize>,
    ) -> Option<usize> {
        let text = value.render(rng, Spacing::Light);
        let read = json::parse(&text, u32::MAX).ok()?;
        rule(&text, &read.outermost)
    }

    #[test]
    fn what_is_made_is_sound() {
        let mut rng = Rng::new(1);
        for _ in 0..3000 {
            let value = locations(&mut rng);
            assert_eq!(
                fault(&mut rng, &value, fault_of_locations),
                None,
                "{value:?}"
            );
            let value = live_location(&mut rng);
            assert_eq!(
                fault(&mut rng, &value, fault_of_live_location),
                None,
                "{value:?}"
            );
            for call in CALLS {
                let value = caller(&mut rng, call);
                let rule = |bytes: &[u8], value: &Value| fault_of_caller(bytes, value, call);
                assert_eq!(fault(&mut rng, &value, rule), None, "{value:?}");
            }
        }
    }

    /// More often than not a fault is one.
    #[test]
    fn what_is_spoiled_is_mostly_faulty() {
        let mut rng = Rng::new(1);
        let mut faults = [0; 3];
        for _ in 0..1000 {
            let mut all = [
                (fields::LOCATIONS, locations(&mut rng)),
                (fields::CALLER, caller(&mut rng, ANY_CALL)),
                (fields::BODY, live_location(&mut rng)),
            ];
            for ((field, value), faults) in all.iter_mut().zip(&mut faults) {
                spoil(&mut rng, *field, value);
                let found = fault(&mut rng, value, |bytes, value| match *field {
                    fields::LOCATIONS => fault_of_locations(bytes, value),
                    fields::CALLER => fault_of_caller(bytes, value, ANY_CALL),
                    _ => fault_of_live_location(bytes, value),
                });
                *faults += usize::from(found.is_some());
            }
        }
        assert!(faults.iter().all(|count| *count > 500), "{faults:?}");
    }
}
