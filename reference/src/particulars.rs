//! The caller's particulars (02 §4): the types of TS-1022 section 10, which stand
//! in Locations, in Caller and in a NOTIFY's location, and the positions that come
//! out of them. All faults of a field's value are there at once, and the lowest
//! place is the field's.

use crate::json::{Kind, Value};
use crate::rules;
use crate::utf8;
use std::ops::RangeInclusive;

/// In the order that Locations keep; the first two are a Live-Location's.
pub const PROVIDERS: [&str; 4] = ["gps", "network", "preset", "map"];
pub const SEXES: [&str; 2] = ["male", "female"];
/// How far a latitude and a longitude go to either side, in degrees.
pub const BOUNDS: [u64; 2] = [90, 180];

const MAX_DECIMALS: usize = 6;
const MAX_CONTACTS: usize = 3;
const MAX_EMAIL: usize = 254;

/// The members of each type: first those that must be there.
const LOCATION: [&str; 6] = [
    "provider",
    "latitude",
    "longitude",
    "name",
    "accuracy",
    "memo",
];
const CALLER: [&str; 7] = [
    "region",
    "uid",
    "email",
    "last-modified",
    "personal-information",
    "region-information",
    "emergency-contacts",
];
const PERSONAL: [&str; 8] = [
    "name", "address", "sex", "birthday", "location", "kana", "tel", "fax",
];
const HOME: [&str; 2] = ["latitude", "longitude"];
const CONTACT: [&str; 6] = ["name", "relation", "kana", "tel", "fax", "email"];
const REGION: [&str; 2] = ["name", "tel"];
const LIVE: [&str; 5] = ["provider", "latitude", "longitude", "accuracy", "date"];

/// What Caller's rule depends on.
#[derive(Debug, Clone, Copy)]
pub struct Call {
    /// May the personal texts, birthday and home be empty?
    pub training: bool,
    /// May there be contacts?
    pub contacts: bool,
}

impl Call {
    /// By the texts of fields 15, 18 and 19.
    pub fn of(mode: &[u8], rescuee: &[u8], service: &[u8]) -> Call {
        let training = mode == b"training";
        Call {
            training,
            contacts: !training && rescuee != b"third-party" && service == b"ambulance",
        }
    }
}

/// The lowest fault of field 21's value.
pub fn fault_of_locations(bytes: &[u8], value: &Value) -> Option<usize> {
    Judge::lowest(bytes, |judge| judge.locations(value))
}

/// The lowest fault of field 23's value.
pub fn fault_of_caller(bytes: &[u8], value: &Value, call: Call) -> Option<usize> {
    Judge::lowest(bytes, |judge| judge.caller(value, call))
}

/// The lowest fault of the Body of a NOTIFY's location.
pub fn fault_of_live_location(bytes: &[u8], value: &Value) -> Option<usize> {
    Judge::lowest(bytes, |judge| judge.live_location(value))
}

/// A field's value on its way, with the places of the faults so far.
struct Judge<'a> {
    bytes: &'a [u8],
    faults: Vec<usize>,
}

impl<'a> Judge<'a> {
    fn lowest(bytes: &'a [u8], judge_value: impl FnOnce(&mut Self)) -> Option<usize> {
        let faults = Vec::new();
        let mut judge = Judge { bytes, faults };
        judge_value(&mut judge);
        judge.faults.into_iter().min()
    }

    fn locations(&mut self, value: &Value) {
        let Some(locations) = self.array(value) else {
            return;
        };
        let mut last = None;
        for location in locations {
            // A location without one of the four providers is passed over.
            let Some((provider, place)) = self.location(location) else {
                continue;
            };
            self.ask(last <= Some(provider), place);
            last = Some(provider);
        }
    }

    /// A Caller-Location: if its provider is one of the four, its number and its
    /// place.
    fn location(&mut self, value: &Value) -> Option<(usize, usize)> {
        let bytes = self.bytes;
        let [provider, latitude, longitude, name, accuracy, memo] =
            self.members(value, &LOCATION)?;
        let number = provider.and_then(|provider| among(bytes, provider, &PROVIDERS));
        let chosen = |word: &str| number.is_some_and(|number| PROVIDERS[number - 1] == word);
        let least = usize::from(chosen("preset"));
        let measured = !chosen("preset") && !chosen("map");
        self.required(value, provider, |_| number.is_some());
        self.coordinates(value, latitude, longitude);
        self.ask(name.is_some() || !chosen("preset"), value.start);
        self.optional(name, |name| is_text(bytes, name, least..=15));
        self.optional(accuracy, |accuracy| match measured {
            true => is_metres(bytes, accuracy),
            false => accuracy.raw(bytes) == b"0",
        });
        self.optional(memo, |memo| is_text(bytes, memo, 0..=64));
        Some((number?, provider?.start))
    }

    /// A Caller-Information.
    fn caller(&mut self, value: &Value, call: Call) {
        let bytes = self.bytes;
        let Some([region, uid, email, modified, personal, centre, contacts]) =
            self.members(value, &CALLER)
        else {
            return;
        };
        self.required(value, region, |region| {
            keeps(bytes, region, rules::is_fire_id)
        });
        self.required(value, uid, |uid| keeps(bytes, uid, rules::is_user_id));
        self.required(value, email, |email| is_text(bytes, email, 1..=MAX_EMAIL));
        self.required(value, modified, |date| keeps(bytes, date, rules::is_date));
        self.nested(value, personal, |judge, personal| {
            judge.personal_information(personal, call.training);
        });
        self.nested(value, centre, Self::region_information);
        if let Some(contacts) = contacts {
            self.contacts(contacts, call.contacts);
        }
    }

    /// A Personal-Information. Sex has no exception in training.
    fn personal_information(&mut self, value: &Value, training: bool) {
        let bytes = self.bytes;
        let Some([name, address, sex, birthday, location, kana, tel, fax]) =
            self.members(value, &PERSONAL)
        else {
            return;
        };
        let least = usize::from(!training);
        let left_empty = |value: &Value| training && is_empty(bytes, value);
        self.required(value, name, |name| is_text(bytes, name, least..=30));
        self.required(value, address, |text| is_text(bytes, text, least..=64));
        self.required(value, sex, |sex| among(bytes, sex, &SEXES).is_some());
        self.required(value, birthday, |day| {
            left_empty(day) || keeps(bytes, day, rules::is_day)
        });
        self.nested(value, location, |judge, location| {
            if !left_empty(location) {
                judge.home_location(location);
            }
        });
        self.optional(kana, |kana| is_text(bytes, kana, 0..=30));
        self.optional(tel, |tel| is_digits(bytes, tel, 0..=15));
        self.optional(fax, |fax| is_digits(bytes, fax, 0..=15));
    }

    fn home_location(&mut self, value: &Value) {
        if let Some([latitude, longitude]) = self.members(value, &HOME) {
            self.coordinates(value, latitude, longitude);
        }
    }

    /// The Emergency-Contacts: none at all where the call may have none.
    fn contacts(&mut self, value: &Value, allowed: bool) {
        let Some(contacts) = self.array(value) else {
            return;
        };
        let most = if allowed { MAX_CONTACTS } else { 0 };
        self.ask(contacts.len() <= most, value.start);
        for contact in contacts {
            self.contact(contact);
        }
    }

    /// An Emergency-Contact.
    fn contact(&mut self, value: &Value) {
        let bytes = self.bytes;
        let Some([name, relation, kana, tel, fax, email]) = self.members(value, &CONTACT) else {
            return;
        };
        let is_set = |way: Option<&Value>| way.is_some_and(|way| !is_empty(bytes, way));
        self.ask([tel, fax, email].into_iter().any(is_set), value.start);
        self.required(value, name, |name| is_text(bytes, name, 1..=30));
        self.required(value, relation, |text| is_text(bytes, text, 1..=15));
        self.optional(kana, |kana| is_text(bytes, kana, 0..=30));
        self.optional(tel, |tel| is_digits(bytes, tel, 0..=15));
        self.optional(fax, |fax| is_digits(bytes, fax, 0..=15));
        self.optional(email, |email| is_text(bytes, email, 0..=MAX_EMAIL));
    }

    fn region_information(&mut self, value: &Value) {
        let bytes = self.bytes;
        if let Some([name, tel]) = self.members(value, &REGION) {
            self.required(value, name, |name| is_text(bytes, name, 1..=usize::MAX));
            self.required(value, tel, |tel| is_digits(bytes, tel, 1..=15));
        }
    }

    fn live_location(&mut self, value: &Value) {
        let bytes = self.bytes;
        let Some([provider, latitude, longitude, accuracy, date]) = self.members(value, &LIVE)
        else {
            return;
        };
        self.required(value, provider, |provider| {
            among(bytes, provider, &PROVIDERS[..2]).is_some()
        });
        self.coordinates(value, latitude, longitude);
        self.required(value, accuracy, |accuracy| is_metres(bytes, accuracy));
        self.required(value, date, |date| keeps(bytes, date, rules::is_date));
    }

    fn coordinates(&mut self, object: &Value, latitude: Option<&Value>, longitude: Option<&Value>) {
        let bytes = self.bytes;
        for (coordinate, bound) in [latitude, longitude].into_iter().zip(BOUNDS) {
            self.required(object, coordinate, |coordinate| {
                millionths(coordinate.raw(bytes), bound).is_some()
            });
        }
    }

    /// A fault at this place, unless it is good.
    fn ask(&mut self, good: bool, place: usize) {
        if !good {
            self.faults.push(place);
        }
    }

    /// The elements of a value that must be an array.
    fn array<'v>(&mut self, value: &'v Value) -> Option<&'v [Value]> {
        self.ask(value.array().is_some(), value.start);
        value.array()
    }

    /// The members with these names of a value that must be an object, each the
    /// first of its name. A repeat of one is a fault. Names are known after
    /// decoding, a broken one is none (02 §2).
    fn members<'v, const N: usize>(
        &mut self,
        value: &'v Value,
        names: &[&str; N],
    ) -> Option<[Option<&'v Value>; N]> {
        self.ask(value.object().is_some(), value.start);
        let mut first = [None; N];
        for member in value.object()? {
            let name = member.name.text(self.bytes);
            let number = name.and_then(|name| rules::number_among(names, &name));
            match number.map(|number| &mut first[number - 1]) {
                Some(Some(_)) => self.faults.push(member.name.start),
                Some(none) => *none = Some(&member.value),
                None => {}
            }
        }
        Some(first)
    }

    /// A member whose value is judged by itself; if it is missing, the fault is at
    /// its object's brace.
    fn nested(
        &mut self,
        object: &Value,
        member: Option<&Value>,
        judge_value: impl FnOnce(&mut Self, &Value),
    ) {
        match member {
            Some(value) => judge_value(self, value),
            None => self.faults.push(object.start),
        }
    }

    /// A member that must be there and keep its rule.
    fn required(
        &mut self,
        object: &Value,
        member: Option<&Value>,
        rule: impl FnOnce(&Value) -> bool,
    ) {
        self.nested(object, member, |judge, value| {
            judge.ask(rule(value), value.start);
        });
    }

    /// A member that must keep its rule if it is there.
    fn optional(&mut self, member: Option<&Value>, rule: impl FnOnce(&Value) -> bool) {
        if let Some(value) = member {
            self.ask(rule(value), value.start);
        }
    }
}

/// Is this a string, not broken, whose text keeps a rule?
fn keeps(bytes: &[u8], value: &Value, rule: fn(&[u8]) -> bool) -> bool {
    value.text(bytes).is_some_and(|text| rule(&text))
}

/// A string of so many code points.
fn is_text(bytes: &[u8], value: &Value, length: RangeInclusive<usize>) -> bool {
    let text = value.text(bytes);
    text.is_some_and(|text| length.contains(&utf8::code_points(&text)))
}

/// A string of so many digits.
fn is_digits(bytes: &[u8], value: &Value, length: RangeInclusive<usize>) -> bool {
    let text = value.text(bytes);
    text.is_some_and(|text| length.contains(&text.len()) && text.iter().all(u8::is_ascii_digit))
}

fn is_empty(bytes: &[u8], value: &Value) -> bool {
    value.spelled(bytes).is_some_and(<[u8]>::is_empty)
}

/// The number of a string among words, counted from 1.
fn among(bytes: &[u8], value: &Value, words: &[&str]) -> Option<usize> {
    rules::number_among(words, &value.text(bytes)?)
}

/// A number of any size, without sign, point and exponent. That it begins with no
/// zero, but for 0 itself, JSON says.
fn is_metres(bytes: &[u8], value: &Value) -> bool {
    value.kind == Kind::Number && value.raw(bytes).iter().all(u8::is_ascii_digit)
}

/// The degrees of a coordinate as it is written, in whole millionths: nothing
/// where there is an exponent, a seventh decimal, or more to either side.
fn millionths(written: &[u8], bound: u64) -> Option<i32> {
    let degrees = written.strip_prefix(b"-").unwrap_or(written);
    let mut parts = degrees.splitn(2, |byte| *byte == b'.');
    let (whole, decimals) = (parts.next()?, parts.next().unwrap_or_default());
    let zeros = MAX_DECIMALS.checked_sub(decimals.len())?;
    let digits = [whole, decimals, &b"000000"[..zeros]].concat();
    let distance = rules::parse_decimal(&digits).filter(|all| *all <= bound * 1_000_000)?;
    let distance = i32::try_from(distance).ok()?;
    Some(match degrees.len() < written.len() {
        true => -distance,
        false => distance,
    })
}

/// A place by its coordinates, in whole millionths of a degree.
#[derive(Debug, Clone, Copy, PartialEq, Eq)]
pub struct Position {
    pub latitude: i32,
    pub longitude: i32,
}

/// The positions in an accepted message.
#[derive(Debug, Default, PartialEq, Eq)]
pub struct Positions {
    /// Those of an INVITE's Locations, in order, or of a NOTIFY's location.
    pub places: Vec<Position>,
    /// Where Personal-Information has a location that is an object.
    pub home: Option<Position>,
}

impl Positions {
    pub fn of_invite(bytes: &[u8], locations: &Value, caller: &Value) -> Positions {
        let locations = locations.array().unwrap_or_default();
        let places = locations.iter().filter_map(|value| position(bytes, value));
        let home = member(bytes, caller, "personal-information")
            .and_then(|personal| member(bytes, personal, "location"));
        Positions {
            places: places.collect(),
            home: home.and_then(|home| position(bytes, home)),
        }
    }

    pub fn of_live_location(bytes: &[u8], body: &Value) -> Positions {
        Positions {
            places: position(bytes, body).into_iter().collect(),
            home: None,
        }
    }
}

/// The coordinates of an object; none of what is no object.
fn position(bytes: &[u8], value: &Value) -> Option<Position> {
    let [latitude, longitude] = HOME.map(|name| member(bytes, value, name));
    Some(Position {
        latitude: millionths(latitude?.raw(bytes), BOUNDS[0])?,
        longitude: millionths(longitude?.raw(bytes), BOUNDS[1])?,
    })
}

/// The value of an object's member of this name.
fn member<'v>(bytes: &[u8], value: &'v Value, name: &str) -> Option<&'v Value> {
    let mut members = value.object()?.iter();
    let named = members.find(|member| member.name.text(bytes).as_deref() == Some(name.as_bytes()));
    named.map(|member| &member.value)
}

#[cfg(test)]
mod tests {
    use super::*;
    use crate::gen::texts;
    use crate::json;
    use crate::samples::{CALLER_INFORMATION, LIVE_LOCATION};

    const EMERGENCY: Call = Call {
        training: false,
        contacts: true,
    };
    const WITHOUT_CONTACTS: Call = Call {
        training: false,
        contacts: false,
    };
    const TRAINING: Call = Call {
        training: true,
        contacts: false,
    };
    const CALLS: [Call; 3] = [EMERGENCY, WITHOUT_CONTACTS, TRAINING];

    const GPS: &str = r#"{"provider":"gps","latitude":35.66,"longitude":139.75}"#;
    const PRESET: &str = r#"{"provider":"preset","latitude":0,"longitude":-180,"name":"home"}"#;
    const MOTHER: &str = r#"{"name":"M","relation":"mother","tel":"1"}"#;

    /// The rule finds the lowest fault where the `»` stands, or none where there is
    /// no `»`.
    fn finds(marked: &str, rule: impl FnOnce(&[u8], &Value) -> Option<usize>) {
        let text = marked.replace('»', "");
        let read = json::parse(text.as_bytes(), u32::MAX).unwrap();
        let found = rule(text.as_bytes(), &read.outermost);
        assert_eq!(found, marked.find('»'), "{marked}");
    }

    fn locations(marked: &str) {
        finds(marked, fault_of_locations);
    }

    fn location(marked: &str) {
        locations(&format!("[{marked}]"));
    }

    fn caller(call: Call, marked: &str) {
        finds(marked, |bytes, value| fault_of_caller(bytes, value, call));
    }

    fn live_location(marked: &str) {
        finds(marked, fault_of_live_location);
    }

    /// A Caller with these contacts.
    fn with_contacts(contacts: &str) -> String {
        let member = format!("{{\"emergency-contacts\":{contacts},");
        CALLER_INFORMATION.replacen('{', &member, 1)
    }

    fn contact(marked: &str) {
        let contacts = format!("[{MOTHER},{marked}]");
        caller(EMERGENCY, &with_contacts(&contacts));
    }

    /// A text with a part of it replaced, where it first stands.
    fn changed(text: &str, from: &str, to: &str) -> String {
        assert!(text.contains(from), "{from} in {text}");
        text.replacen(from, to, 1)
    }

    /// Without a member the fault is at the brace of its object, which begins so;
    /// under a name that is near its own it is missing too.
    fn needs(text: &str, object: &str, member: &str, check: impl Fn(&str)) {
        let name = member.split(':').next().unwrap();
        let short = &name[..name.len() - 1];
        for near in [
            "\"x\"",
            &format!("{short}s\""),
            &format!("{short}\\ud800\""),
        ] {
            let left = changed(text, member, &changed(member, name, near));
            let object = changed(object, member, &changed(member, name, near));
            check(&changed(&left, &object, &format!("»{object}")));
        }
        let escaped = format!("\"\\u{:04x}{}", name.as_bytes()[1], &name[2..]);
        check(&changed(text, name, &escaped));
    }

    /// Values that a member may have, and values that are faults at their first byte.
    struct Values {
        good: Vec<String>,
        bad: Vec<String>,
    }

    fn values(good: &[&str], bad: &[&str]) -> Values {
        let own = |values: &[&str]| values.iter().map(|value| value.to_string()).collect();
        Values {
            good: own(good),
            bad: own(bad),
        }
    }

    /// The same of strings.
    fn strings(good: &[&str], bad: &[&str]) -> Values {
        let quoted = |texts: &[&str]| texts.iter().map(|text| format!("\"{text}\"")).collect();
        Values {
            good: quoted(good),
            bad: quoted(bad),
        }
    }

    impl Values {
        fn and(mut self, others: Values) -> Values {
            self.good.extend(others.good);
            self.bad.extend(others.bad);
            self
        }

        /// Strings of so many code points, however they are spelled.
        fn texts(least: usize, most: usize) -> Values {
            const UNITS: [&str; 11] = [
                "a",
                "é",
                "語",
                "\u{1f600}",
                r"\n",
                r"\/",
                r#"\""#,
                r"\\",
                r"\u0000",
                r"\u8a9e",
                r"\ud83d\ude00",
            ];
            let of = |count: usize| UNITS.map(|unit| unit.repeat(count));
            let (good, long) = ([of(least), of(most)].concat(), of(most + 1));
            let texts = |texts: &[String]| {
                let texts: Vec<&str> = texts.iter().map(String::as_str).collect();
                strings(&texts, &[])
            };
            let lone = [r"\ud800", r"a\udc00", r"\ude00\ud83d", r"\ud83d\u0041"];
            let short: &[&str] = if least > 0 { &[""] } else { &[] };
            let mut all = texts(&good);
            all.bad = texts(&long).good;
            all.and(strings(&[], &lone))
                .and(strings(&[], short))
                .and(values(&[], &["null", "true", "0", "[]", "{}", "[\"a\"]"]))
        }

        fn digits(least: usize) -> Values {
            let nines = r"\u0039".repeat(16);
            let (good, bad) = (&nines[..90], [&nines, "0123456789012345"]);
            let marks = [
                "+81", "03-1", "1 ", "１", "a", r"1\ud800", r"\/", "1.0", "٣",
            ];
            let short = match least {
                0 => strings(&[""], &[]),
                _ => strings(&[], &[""]),
            };
            strings(&["0", "012345678901234", good], &bad)
                .and(strings(&[], &marks))
                .and(short)
                .and(values(&[], &["null", "1", "[]", "{}"]))
        }

        fn coordinates(bound: u64) -> Values {
            let good = [
                "0", "0.0", "0.000000", "1.5", "1.000001", "0.123456", "9.100000",
            ];
            let bad = [
                "0.0000000",
                "1.1234567",
                "1.1000000",
                "1e1",
                "1E1",
                "1e0",
                "1.5e-1",
            ];
            let mut all = values(&good, &bad);
            all.good
                .extend(["", ".0", ".000000"].map(|zeros| format!("{bound}{zeros}")));
            all.good.push(format!("{}.999999", bound - 1));
            all.bad.extend([
                format!("{bound}.000001"),
                format!("{bound}.0000000"),
                format!("{}", bound + 1),
                format!("{bound}0"),
                format!("1{}", "0".repeat(40)),
                format!("18446744073709551616.{bound}"),
                // Their millionths are the least that do not fit 32 and 64 bits.
                "4294.967296".into(),
                "18446744073709.551616".into(),
            ]);
            let minus = |all: &[String]| all.iter().map(|text| format!("-{text}")).collect();
            let minus = Values {
                good: minus(&all.good),
                bad: minus(&all.bad),
            };
            let others = ["null", "true", "\"0\"", "\"\"", "[0]", "{}", "0e0", "0E+1"];
            all.and(minus).and(values(&[], &others))
        }

        fn metres() -> Values {
            let long = format!("1{}", "0".repeat(40));
            let bad = [
                "-0", "-1", "0.0", "1.0", "1.5", "0e0", "1e3", "1E0", "1e400",
            ];
            values(&["0", "1", "10", "18446744073709551616", &long], &bad)
                .and(values(&[], &["null", "false", "\"0\"", "\"\"", "[]", "{}"]))
        }

        fn dates() -> Values {
            strings(texts::DATES, texts::BAD_DATES)
                .and(strings(
                    &[r"\u0032024-02-29T23:59:59\u002b0900"],
                    &["2024-02-29"],
                ))
                .and(values(&[], &["null", "20240229", "[]", "{}"]))
        }

        /// Each in the place of a member's value.
        fn of(&self, text: &str, member: &str, check: impl Fn(&str)) {
            let (name, _) = member.split_once(':').unwrap();
            for good in &self.good {
                check(&changed(text, member, &format!("{name}:{good}")));
            }
            for bad in &self.bad {
                check(&changed(text, member, &format!("{name}:»{bad}")));
            }
        }
    }

    #[test]
    fn what_is_sound() {
        locations("[]");
        locations(&format!(" [ {GPS} , {PRESET} ] "));
        for call in CALLS {
            caller(call, CALLER_INFORMATION);
        }
        live_location(LIVE_LOCATION);
    }

    #[test]
    fn fields_and_elements_of_the_wrong_kind() {
        for value in ["null", "true", "1", "\"\"", "\"[]\""] {
            let marked = format!(" »{value} ");
            locations(&marked);
            live_location(&marked);
            location(&marked);
            for call in CALLS {
                caller(call, &marked);
            }
            locations(&format!("[{GPS}, »{value},{{}}]"));
        }
        locations("»{}");
        caller(EMERGENCY, "»[]");
        live_location("»[{}]");
        location("»[]");
    }

    #[test]
    fn members_of_a_location() {
        for member in [
            r#""provider":"gps""#,
            r#""latitude":35.66"#,
            r#""longitude":139.75"#,
        ] {
            needs(GPS, GPS, member, location);
        }
        strings(
            &["gps", "network", "map", r"\u0067ps"],
            &["GPS", "gps ", "", "cell", r"gps\ud800"],
        )
        .and(values(&[], &["null", "1", "[\"gps\"]"]))
        .of(GPS, r#""provider":"gps""#, location);
        Values::coordinates(90).of(GPS, r#""latitude":35.66"#, location);
        Values::coordinates(180).of(GPS, r#""longitude":139.75"#, location);
        let full =
            r#"{"memo":"m","accuracy":5,"name":"n","longitude":1,"latitude":1,"provider":"gps"}"#;
        for full in [full, &changed(full, "gps", "network")] {
            Values::metres().of(full, r#""accuracy":5"#, location);
            Values::texts(0, 15).of(full, r#""name":"n""#, location);
            Values::texts(0, 64).of(full, r#""memo":"m""#, location);
        }
    }

    #[test]
    fn presets_and_maps() {
        let full =
            r#"{"memo":"m","accuracy":0,"name":"n","longitude":1,"latitude":1,"provider":"map"}"#;
        for provider in ["map", "preset", r"\u006dap", r"prese\u0074"] {
            let full = changed(full, "map", provider);
            values(
                &["0"],
                &["1", "10", "-0", "0.0", "0e0", "null", "\"0\"", "[]"],
            )
            .of(&full, r#""accuracy":0"#, location);
            location(&changed(&full, r#""accuracy":0,"#, ""));
            Values::texts(0, 64).of(&full, r#""memo":"m""#, location);
        }
        Values::texts(0, 15).of(full, r#""name":"n""#, location);
        location(&changed(full, r#""name":"n","#, ""));
        Values::texts(1, 15).of(PRESET, r#""name":"home""#, location);
        needs(PRESET, PRESET, r#""name":"home""#, location);
        // What is none of the four asks for nothing else.
        for provider in ["\"prese\"", "null", "[\"preset\"]", r#""preset\ud800""#] {
            location(&format!(
                r#"{{"latitude":1,"provider":»{provider},"longitude":1,"accuracy":7,"name":""}}"#
            ));
        }
    }

    /// In the order gps, network, preset, map; the first that steps back answers.
    #[test]
    fn the_order_of_locations() {
        let of = |provider: &str| {
            format!(r#"{{"name":"n","latitude":1,"provider":{provider},"longitude":1}}"#)
        };
        let sound = PROVIDERS.map(|provider| of(&format!("\"{provider}\"")));
        let back = PROVIDERS.map(|provider| of(&format!("»\"{provider}\"")));
        locations(&format!("[{}]", sound.join(",")));
        for (one, first) in sound.iter().enumerate() {
            for other in 0..PROVIDERS.len() {
                let second = match other < one {
                    true => &back[other],
                    false => &sound[other],
                };
                locations(&format!("[{first},{second}]"));
                locations(&format!("[{first},{first},{second}, {}]", sound[other]));
                if other < one {
                    let gps = &sound[0];
                    locations(&format!("[{gps},{first},{second},{gps},{first},{gps}]"));
                }
            }
        }
        // What stands between the two has a lower place.
        let (map, gps) = (&sound[3], &sound[0]);
        for between in ["»1", "»{}", &of("»\"cell\""), &of("»null")] {
            locations(&format!("[{map},{between},{gps}]"));
        }
    }

    #[test]
    fn repeats_in_a_location() {
        for marked in [
            r#"{"provider":"gps","latitude":1,"longitude":2,»"latitude":3}"#,
            r#"{"provider":"gps","latitude":1,"longitude":2,»"latit\u0075de":1,"latitude":1}"#,
            r#"{"provider":"gps","l\u0061titude":1,»"latitude":"","longitude":2,"longitude":2}"#,
            // Of what the type does not have.
            r#"{"provider":"gps","latitude":1,"longitude":2,"x":3,"x":4,"date":1,"date":1}"#,
            r#"{"provider":"gps","latitude":1,"longitude":2,"Memo":0,"memo\ud800":0,"memo\ud800":0}"#,
            // The first of a name decides.
            r#"{"provider":"gps","latitude":1,"longitude":2,»"provider":"preset"}"#,
            r#"»{"provider":"preset","latitude":1,"longitude":2,"provider":"gps"}"#,
            r#"{"name":»"","name":"n","provider":"preset","latitude":1,"longitude":2}"#,
            r#"{"name":"n",»"name":"","provider":"preset","latitude":1,"longitude":2}"#,
            r#"{"accuracy":9,"provider":"gps",»"provider":"map","latitude":1,"longitude":2}"#,
        ] {
            location(marked);
        }
    }

    /// All faults of a value are there at once, missing members and repeats too.
    #[test]
    fn the_lowest_place_answers() {
        for marked in [
            r#"»{"latitude":91,"longitude":181,"accuracy":-1}"#,
            r#"{"provider":"gps","latitude":»91,"longitude":181}"#,
            r#"{"longitude":»181,"latitude":91,"provider":"gps"}"#,
            r#"{"memo":»0,"memo":1,"longitude":181,"latitude":91,"provider":"gps"}"#,
            r#"{"memo":"",»"memo":1,"longitude":181,"latitude":91,"provider":"gps"}"#,
        ] {
            location(marked);
            locations(&format!("[{GPS},{marked},[],{{}}]"));
        }
        let marked = r#"{"accuracy":»"","date":"","provider":"map","latitude":"","longitude":""}"#;
        live_location(marked);
        let region = r#""region":"","#;
        let all = r#"{"emergency-contacts":»0,"uid":"","region":"","email":"","last-modified":"","personal-information":0,"region-information":0}"#;
        caller(EMERGENCY, all);
        let fewer = changed(all, region, "").replace('»', "");
        caller(EMERGENCY, &format!("»{fewer}"));
    }

    #[test]
    fn members_of_a_caller() {
        let whole = CALLER_INFORMATION;
        for call in CALLS {
            let check = |marked: &str| caller(call, marked);
            for member in [
                r#""region":"nishi""#,
                r#""uid":"u1""#,
                r#""email":"u1@mail.nx""#,
                r#""last-modified":"2024-02-29T09:00:00+0900""#,
            ] {
                needs(whole, whole, member, check);
            }
            for member in ["\"personal-information\":", "\"region-information\":"] {
                check(&format!("»{}", changed(whole, member, "\"x\":")));
                let at = whole.find(member).unwrap() + member.len();
                for kind in ["null", "[]", "\"\"", "1"] {
                    check(&format!("{}»{kind},\"x\":{}", &whole[..at], &whole[at..]));
                }
            }
            strings(&["a1", "k_2", r"kit\u0061"], texts::BAD_FIRE_IDS)
                .and(values(&[], &["null", "1"]))
                .of(whole, r#""region":"nishi""#, check);
            strings(
                &["u", "A23456789012345", r"\u0041"],
                &["", "A234567890123456", "u_1", "語"],
            )
            .and(strings(&[], &[r"u\ud800", "u 1"]))
            .and(values(&[], &["null", "1"]))
            .of(whole, r#""uid":"u1""#, check);
            Values::texts(1, 254).of(whole, r#""email":"u1@mail.nx""#, check);
            Values::dates().of(
                whole,
                r#""last-modified":"2024-02-29T09:00:00+0900""#,
                check,
            );
        }
    }

    const PERSON: &str = r#"{"name":"A","address":"B","sex":"male","birthday":"1982-01-19","location":{"latitude":35.66,"longitude":139.75}}"#;

    #[test]
    fn members_of_a_person() {
        let whole = CALLER_INFORMATION;
        for call in CALLS {
            let check = |marked: &str| caller(call, marked);
            for member in [
                r#""name":"A""#,
                r#""address":"B""#,
                r#""sex":"male""#,
                r#""birthday":"1982-01-19""#,
                r#""location":{"latitude":35.66,"longitude":139.75}"#,
            ] {
                needs(whole, PERSON, member, check);
            }
            let least = usize::from(!call.training);
            Values::texts(least, 30).of(whole, r#""name":"A""#, check);
            Values::texts(least, 64).of(whole, r#""address":"B""#, check);
            strings(
                &["male", "female", r"m\u0061le"],
                &["", "Male", "mal", r"male\ud800"],
            )
            .and(values(&[], &["null", "0", "true"]))
            .of(whole, r#""sex":"male""#, check);
            let full = changed(
                whole,
                r#""name":"A""#,
                r#""kana":"","tel":"","fax":"","name":"A""#,
            );
            Values::texts(0, 30).of(&full, r#""kana":"""#, check);
            Values::digits(0).of(&full, r#""tel":"""#, check);
            Values::digits(0).of(&full, r#""fax":"""#, check);
            // Members that other types have.
            let other = changed(
                whole,
                r#""name":"A""#,
                r#""email":0,"relation":0,"name":"A""#,
            );
            check(&other);
        }
    }

    #[test]
    fn birthdays() {
        let good = [
            "0001-01-01",
            "9999-12-31",
            "2000-02-29",
            "2024-02-29",
            r"1982-0\u0031-31",
        ];
        let bad = [
            "1900-02-29",
            "2023-02-29",
            "2023-04-31",
            "2023-01-32",
            "2023-01-00",
            "2023-00-01",
            "2023-13-01",
            "0000-01-01",
            "1982-1-19",
            "1982/01/19",
            "19820119",
            " 1982-01-19",
            "1982-01-19 ",
            "1982-01-19T00:00:00+0900",
            "1982-01-1",
            "10000-01-01",
            r"1982-01-19\ud800",
            "１982-01-19",
        ];
        for call in CALLS {
            let empty = match call.training {
                true => strings(&[""], &[]),
                false => strings(&[], &[""]),
            };
            strings(&good, &bad)
                .and(empty)
                .and(values(&[], &["null", "19820119", "{}"]))
                .of(CALLER_INFORMATION, r#""birthday":"1982-01-19""#, |marked| {
                    caller(call, marked)
                });
        }
    }

    const HOME_LOCATION: &str = r#"{"latitude":35.66,"longitude":139.75}"#;

    #[test]
    fn homes() {
        let whole = CALLER_INFORMATION;
        for call in CALLS {
            let check = |marked: &str| caller(call, marked);
            for member in [r#""latitude":35.66"#, r#""longitude":139.75"#] {
                needs(whole, HOME_LOCATION, member, check);
            }
            Values::coordinates(90).of(whole, r#""latitude":35.66"#, check);
            Values::coordinates(180).of(whole, r#""longitude":139.75"#, check);
            let repeat = r#"{"latitude":1,»"latitude":1,"longitude":1}"#;
            check(&changed(whole, HOME_LOCATION, repeat));
            let others = r#"{"latitude":1,"longitude":1,"provider":1,"provider":1}"#;
            check(&changed(whole, HOME_LOCATION, others));
            let empty = match call.training {
                true => strings(&[""], &[]),
                false => strings(&[], &[""]),
            };
            strings(&[], &[" ", r"\ud800", r"\u0000", "x"])
                .and(empty)
                .and(values(&[], &["null", "[]", "{}", "{\"latitude\":1}", "0"]))
                .of(whole, &format!("\"location\":{HOME_LOCATION}"), check);
        }
    }

    /// The caller's other texts and the centre have no exception in training.
    #[test]
    fn centres() {
        let whole = CALLER_INFORMATION;
        let centre = r#"{"name":"Nishi","tel":"119"}"#;
        for call in CALLS {
            let check = |marked: &str| caller(call, marked);
            for member in [r#""name":"Nishi""#, r#""tel":"119""#] {
                needs(whole, centre, member, check);
            }
            let long = "語".repeat(5000);
            strings(&["x", " ", r"\u0000", &long], &["", r"x\ud800"])
                .and(values(&[], &["null", "1", "{}"]))
                .of(whole, r#""name":"Nishi""#, check);
            Values::digits(1).of(whole, r#""tel":"119""#, check);
            check(&changed(
                whole,
                r#""tel":"119""#,
                r#""tel":"119",»"tel":"119""#,
            ));
        }
    }

    #[test]
    fn how_many_contacts() {
        let three = format!("[{MOTHER},{MOTHER},{MOTHER}]");
        let four = format!("»[{MOTHER},{MOTHER},{MOTHER},{MOTHER}]");
        let bad = "»[0,0,0,0]";
        for contacts in ["[]", "[ ]", &format!("[{MOTHER}]"), &three, &four, bad] {
            caller(EMERGENCY, &with_contacts(contacts));
        }
        caller(EMERGENCY, &with_contacts(&format!("[{MOTHER},»0,0]")));
        for call in [WITHOUT_CONTACTS, TRAINING] {
            for contacts in ["[]", "[ ]", &format!("»[{MOTHER}]"), "»[0]", "»[[]]", &four] {
                caller(call, &with_contacts(contacts));
            }
        }
        for call in CALLS {
            for kind in ["»null", "»\"\"", "»{}", "»0", "»\"[]\""] {
                caller(call, &with_contacts(kind));
            }
            let repeat = r#""emergency-contacts":[],»"emergency-contacts":[],"uid""#;
            caller(call, &changed(CALLER_INFORMATION, "\"uid\"", repeat));
        }
    }

    #[test]
    fn members_of_a_contact() {
        for value in ["null", "[]", "\"\"", "1"] {
            contact(&format!("»{value}"));
        }
        let whole = r#"{"relation":"r","kana":"","fax":"2","email":"","tel":"1","name":"M"}"#;
        contact(whole);
        for member in [r#""relation":"r""#, r#""name":"M""#] {
            needs(whole, whole, member, contact);
        }
        Values::texts(1, 30).of(whole, r#""name":"M""#, contact);
        Values::texts(1, 15).of(whole, r#""relation":"r""#, contact);
        Values::texts(0, 30).of(whole, r#""kana":"""#, contact);
        Values::texts(0, 254).of(whole, r#""email":"""#, contact);
        Values::digits(0).of(whole, r#""tel":"1""#, contact);
        Values::digits(0).of(whole, r#""fax":"2""#, contact);
    }

    /// Unset is what is not there, and the empty string.
    #[test]
    fn ways_to_reach_a_contact() {
        let ways = ["tel", "fax", "email"];
        // Not there, empty, set, set to a fault.
        for states in 0..64 {
            let mut members = String::new();
            let mut set = false;
            let mut fault = false;
            for (index, way) in ways.iter().enumerate() {
                let value = match states >> (2 * index) & 3 {
                    0 => continue,
                    1 => "\"\"",
                    2 => "\"1\"",
                    _ if fault => "null",
                    _ => "»null",
                };
                set |= value != "\"\"";
                fault |= value == "»null";
                members += &format!(",\"{way}\":{value}");
            }
            let brace = if set { "" } else { "»" };
            contact(&format!(
                "{brace}{{\"name\":\"M\",\"relation\":\"r\"{members}}}"
            ));
        }
        for marked in [
            r#"»{"name":"M","relation":"r","tel":"","tel":"1"}"#,
            r#"{"name":"M","relation":"r","tel":"1",»"tel":""}"#,
            r#"»{"name":"M","relation":"r","tel\ud800":"1"}"#,
            r#"{"name":"M","relation":"r","t\u0065l":"1"}"#,
            r#"{"name":"M","relation":"r","tel":»"\ud800"}"#,
            r#"{"name":"M","relation":"r","tel":»{}}"#,
        ] {
            contact(marked);
        }
    }

    #[test]
    fn members_of_a_live_location() {
        let whole = LIVE_LOCATION;
        for member in [
            r#""provider":"gps""#,
            r#""latitude":35.66"#,
            r#""longitude":139.75"#,
            r#""accuracy":30"#,
            r#""date":"2024-02-29T23:59:59+0900""#,
        ] {
            needs(whole, whole, member, live_location);
        }
        strings(
            &["gps", "network", r"g\u0070s"],
            &["preset", "map", "", "GPS", r"gps\udc00"],
        )
        .and(values(&[], &["null", "1", "[\"gps\"]"]))
        .of(whole, r#""provider":"gps""#, live_location);
        Values::coordinates(90).of(whole, r#""latitude":35.66"#, live_location);
        Values::coordinates(180).of(whole, r#""longitude":139.75"#, live_location);
        Values::metres().of(whole, r#""accuracy":30"#, live_location);
        let date = r#""date":"2024-02-29T23:59:59+0900""#;
        Values::dates().of(whole, date, live_location);
        live_location(&changed(whole, date, &format!("{date},»{date}")));
        live_location(&changed(
            whole,
            date,
            &format!("{date},\"name\":0,\"name\":0,\"memo\":0"),
        ));
    }

    #[test]
    fn whole_millionths() {
        for (written, bound, wanted) in [
            ("0", 90, Some(0)),
            ("-0", 90, Some(0)),
            ("-0.000000", 90, Some(0)),
            ("90", 90, Some(90_000_000)),
            ("-90.000000", 90, Some(-90_000_000)),
            ("90.000001", 90, None),
            ("-180", 180, Some(-180_000_000)),
            ("179.999999", 180, Some(179_999_999)),
            ("-180.000001", 180, None),
            ("0.000001", 90, Some(1)),
            ("-0.1", 90, Some(-100_000)),
            ("35.660174", 90, Some(35_660_174)),
            ("35.66", 90, Some(35_660_000)),
            ("1.0000000", 90, None),
            ("1e1", 90, None),
            ("1.5E0", 90, None),
            ("4294.967296", 90, None),
            ("18446744073709.551616", 180, None),
            ("18446744073709551616", 180, None),
        ] {
            assert_eq!(millionths(written.as_bytes(), bound), wanted, "{written}");
        }
    }

    type Pair = (i32, i32);

    /// The coordinates that come out of an INVITE's fields.
    fn positions(locations: &str, caller: &str) -> (Vec<Pair>, Option<Pair>) {
        let text = format!("[{locations},{caller}]");
        let read = json::parse(text.as_bytes(), u32::MAX).unwrap();
        let [locations, caller] = read.outermost.array().unwrap() else {
            panic!("{text}");
        };
        let found = Positions::of_invite(text.as_bytes(), locations, caller);
        let pair = |position: Position| (position.latitude, position.longitude);
        let places = found.places.into_iter().map(pair);
        (places.collect(), found.home.map(pair))
    }

    #[test]
    fn what_comes_out() {
        let home = Some((35_660_000, 139_750_000));
        assert_eq!(positions("[]", CALLER_INFORMATION), (vec![], home));
        let away = changed(CALLER_INFORMATION, HOME_LOCATION, "\"\"");
        let both = format!("[{GPS},{PRESET}]");
        let places = vec![(35_660_000, 139_750_000), (0, -180_000_000)];
        assert_eq!(positions(&both, &away), (places, None));
        let spelled = r#"{ "longitud\u0065" : -0.5, "x":1, "\u006catitude":-0 }"#;
        let elsewhere = changed(CALLER_INFORMATION, HOME_LOCATION, spelled);
        assert_eq!(positions("[]", &elsewhere), (vec![], Some((0, -500_000))));
    }
}
