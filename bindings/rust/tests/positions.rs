//! Where a message says that its caller is.

use net119::{home, position, positions, Coordinates, Position, Provider, Unread};

const LOCATIONS: &str = r#"[{"provider":"gps","latitude":35.66,"longitude":139.75,"accuracy":20},{"l\u006fngitude":-180,"name":"school","provider":"preset","latitude":-0.000001}]"#;
const HOME: &str = r#"{"latitude":35.7,"longitude":-0}"#;
const BODY: &str = r#"{"provider":"network","latitude":-90,"longitude":180.000000,"accuracy":99999999999999999999,"date":"2024-02-29T23:59:59+0900"}"#;

/// A request of the caller.
fn request(cseq: &str, more: &str) -> Vec<u8> {
    format!(
        r#"["request",{{"CSeq":"{cseq}","To":"net119:fire@kita.callee","From":"net119:u1@nishi.caller","Call-ID":"A1.nx","Date":"2024-02-29T23:59:59+0900","Via":[{{"host":"h1.nx","destination":"kita.callee","organization":"nx"}}]{more}}}]"#
    )
    .into_bytes()
}

fn invite(locations: &str, home: &str) -> Vec<u8> {
    request(
        "1 INVITE",
        &format!(
            r#","Session-ID":"S1.nx","Call-Mode":"training","Call-Test":0,"Secure-Call":true,"Rescuee":"caller","Request-Service":"ambulance","Language":"ja","Locations":{locations},"User-Agent":"","Caller":{{"region":"nishi","uid":"u1","email":"u1@example.com","last-modified":"2024-02-29T23:59:59+0900","personal-information":{{"name":"N","address":"A","sex":"male","birthday":"1980-01-01","location":{home}}},"region-information":{{"name":"R","tel":"119"}}}}"#
        ),
    )
}

fn at(latitude: i32, longitude: i32) -> Coordinates {
    Coordinates {
        latitude,
        longitude,
    }
}

fn told(message: &[u8]) -> Vec<Position> {
    positions(message).unwrap().collect()
}

#[test]
fn of_an_invite() {
    let message = invite(LOCATIONS, HOME);
    let gps = Position {
        provider: Provider::Gps,
        coordinates: at(35_660_000, 139_750_000),
        accuracy: Some(20),
    };
    let preset = Position {
        provider: Provider::Preset,
        coordinates: at(-1, -180_000_000),
        accuracy: None,
    };
    assert_eq!(told(&message), [gps, preset]);
    assert_eq!(position(&message, 1), Ok(Some(preset)));
    assert_eq!(position(&message, 2), Ok(None));
    assert_eq!(position(&message, usize::MAX), Ok(None));
    assert_eq!(home(&message), Ok(Some(at(35_700_000, 0))));
}

#[test]
fn of_one_that_tells_none() {
    let message = invite("[]", "\"\"");
    assert_eq!(told(&message), []);
    assert_eq!(position(&message, 0), Ok(None));
    assert_eq!(home(&message), Ok(None));
    let bye = request("2 BYE", "");
    assert_eq!(told(&bye), []);
    assert_eq!(home(&bye), Ok(None));
}

#[test]
fn of_a_notify() {
    let more = format!(r#","Content-Type":"message/vnd.net119.location","Body":{BODY}"#);
    let message = request("3 NOTIFY", &more);
    let live = Position {
        provider: Provider::Network,
        coordinates: at(-90_000_000, 180_000_000),
        accuracy: Some(u64::MAX),
    };
    assert_eq!(told(&message), [live]);
    assert_eq!(home(&message), Ok(None));
    let more = r#","Content-Type":"message/vnd.net119.presence","Body":"online""#;
    assert_eq!(told(&request("3 NOTIFY", more)), []);
}

#[test]
fn of_one_that_is_refused() {
    let unread = Unread {
        number: 4,
        place: 2,
    };
    assert_eq!(positions(b"[01]").err(), Some(unread));
    assert_eq!(position(b"[01]", 0), Err(unread));
    assert_eq!(home(b"[01]"), Err(unread));
}
