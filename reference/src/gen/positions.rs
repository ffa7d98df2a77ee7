//! Lines for `probe` that read particulars (02 §4): INVITEs of calls of all kinds
//! and NOTIFYs of a location, about half of them sound, the others with one fault
//! to three.

use super::draft::{Draft, Plan};
use super::escapes;
use super::node::Node;
use super::particulars;
use super::rng::Rng;
use super::script;
use crate::fields::{BODY, CALLER, LOCATIONS, NAMES};
use crate::particulars::Call;
use crate::rules::{self, ContentType, Method};

/// The next line, without its line feed.
pub fn line(rng: &mut Rng) -> Vec<u8> {
    let message = message(rng);
    match rng.one_in(5) {
        true => script::read(message),
        false => script::positions(message),
    }
}

fn message(rng: &mut Rng) -> Vec<u8> {
    let (mut draft, fields) = match rng.one_in(4) {
        true => (notify(rng), &[BODY][..]),
        false => (invite(rng), &[LOCATIONS, CALLER, CALLER][..]),
    };
    for _ in 0..rng.weighted(&[(50, 0), (32, 1), (12, 2), (6, 3)]) {
        let field = *rng.pick(fields);
        draft.change(NAMES[field - 1], |value| {
            particulars::spoil(rng, field, value)
        });
    }
    if rng.one_in(16) {
        draft.spoil(rng);
    }
    escapes::render(rng, draft)
}

fn request(rng: &mut Rng, method: Method) -> Draft {
    let plan = Plan {
        response: None,
        ..Plan::of_method(rng, method)
    };
    plan.compose(rng)
}

fn notify(rng: &mut Rng) -> Draft {
    let mut draft = request(rng, Method::Notify);
    draft.set("Content-Type", Node::text(ContentType::Location.name()));
    draft.set("Body", particulars::live_location(rng));
    draft
}

/// An INVITE with fields 15, 18 and 19 of any kind, half of the time those of a
/// call that may have contacts. Now and then its Caller is one of another call.
fn invite(rng: &mut Rng) -> Draft {
    let (mut mode, mut rescuee, mut service) = ("emergency", "caller", "ambulance");
    if rng.one_in(2) {
        mode = *rng.pick(&rules::CALL_MODES);
        rescuee = *rng.pick(&rules::RESCUEES);
        service = *rng.pick(&rules::SERVICES);
    }
    let mut call = Call::of(mode.as_bytes(), rescuee.as_bytes(), service.as_bytes());
    if rng.one_in(12) {
        call.training = rng.one_in(2);
        call.contacts = rng.one_in(2);
    }
    let mut draft = request(rng, Method::Invite);
    draft.set("Call-Mode", Node::text(mode));
    draft.set("Rescuee", Node::text(rescuee));
    draft.set("Request-Service", Node::text(service));
    draft.set("Locations", particulars::locations(rng));
    draft.set("Caller", particulars::caller(rng, call));
    draft
}
