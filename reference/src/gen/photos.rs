//! Lines for `probe` that read photos: messages with the Content-Type of
//! TS-1022 5.11, of every method and from both sides in turn.

use super::draft::{self, Draft, Plan};
use super::node::Node;
use super::rng::Rng;
use super::script;
use super::texts;
use crate::message::Side;
use crate::rules::{self, ContentType, Method};

/// The fields of the method, the sides and the name: no damage reaches them.
const KEPT: [&str; 4] = ["CSeq", "To", "From", "Content-Type"];

/// Makes such lines, one after the other.
pub struct Photos {
    rng: Rng,
    turn: usize,
}

impl Photos {
    pub fn new(seed: u64) -> Self {
        Photos {
            rng: Rng::new(seed),
            turn: 0,
        }
    }

    /// The next line, without its line feed.
    pub fn line(&mut self) -> Vec<u8> {
        let methods = Method::ALL.len();
        let method = Method::ALL[self.turn % methods];
        let from = Side::ALL[self.turn / methods % Side::ALL.len()];
        self.turn += 1;
        script::read(photo(&mut self.rng, method, from))
    }
}

/// A message of this method from this side, whether it may send it or not.
fn photo(rng: &mut Rng, method: Method, from: Side) -> Vec<u8> {
    let mut plan = Plan {
        from,
        ..Plan::of_method(rng, method)
    };
    if rng.percent(60) {
        plan.response = None;
    }
    let mut draft = plan.compose(rng);
    draft.set("Content-Type", Node::text(ContentType::MessageImage.name()));
    match body(rng) {
        Some(body) => draft.set("Body", body),
        None => draft.fields.retain(|(name, _)| name != b"Body"),
    }
    if rng.percent(12) {
        draft.add_ignored(rng);
    }
    if rng.percent(30) {
        spoil_the_rest(rng, &mut draft);
    }
    draft.render(rng)
}

/// Mostly an image's Body; else one that is nearly so, another type's, any
/// value, or none.
fn body(rng: &mut Rng) -> Option<Node> {
    let body = match rng.below(20) {
        0 => return None,
        1..=3 => Node::text(texts::bad_image(rng)),
        4 | 5 => draft::any_value(rng),
        6 | 7 => {
            let content_type = *rng.pick(&ContentType::ALL);
            draft::body(rng, content_type)
        }
        _ => draft::body(rng, ContentType::MessageImage),
    };
    Some(body)
}

/// Spoils the draft in one way, but for the fields that are kept.
fn spoil_the_rest(rng: &mut Rng, draft: &mut Draft) {
    let fields = draft.fields.drain(..);
    let (kept, rest): (Vec<_>, Vec<_>) =
        fields.partition(|(name, _)| rules::is_one_of(&KEPT, name));
    draft.fields = rest;
    draft.spoil(rng);
    draft.fields.splice(0..0, kept);
}
