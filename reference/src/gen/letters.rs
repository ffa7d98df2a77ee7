//! Lines for `probe` that read messages with a bad letter (02 §12): all good but
//! for one near miss, in the fields 1 to 5 in turn.

use super::draft::{self, Plan};
use super::misses::{Miss, FIELDS};
use super::rng::Rng;
use super::script;
use super::texts;
use crate::fields::DATE;
use crate::message::{self, CEILING};
use crate::rules::Method;

/// Makes such lines, one after the other.
pub struct Letters {
    rng: Rng,
    turn: usize,
}

impl Letters {
    pub fn new(seed: u64) -> Self {
        Letters {
            rng: Rng::new(seed),
            turn: 0,
        }
    }

    /// The next line, without its line feed. What is still good is made anew.
    pub fn line(&mut self) -> Vec<u8> {
        let field = FIELDS[self.turn % FIELDS.len()];
        self.turn += 1;
        let miss = *self.rng.pick(&Miss::ALL);
        loop {
            let bytes = message(&mut self.rng, field, miss);
            let refusal = message::read(&bytes, CEILING).answer.err();
            if refusal.is_some_and(|refusal| refusal.number == 9) {
                return script::read(bytes);
            }
        }
    }
}

/// A request or a response, or where there is a Date a ping or a pong, with a near
/// miss in the field.
fn message(rng: &mut Rng, field: usize, miss: Miss) -> Vec<u8> {
    let mut draft = match field == DATE && rng.one_in(3) {
        true => draft::ping_or_pong(rng),
        false => plan(rng).compose(rng),
    };
    draft.miss(rng, field, miss);
    draft.render(rng)
}

/// A plan, half of the time of longer texts, which have more places for a miss.
fn plan(rng: &mut Rng) -> Plan {
    let plan = Plan::random(rng);
    if rng.one_in(2) {
        return plan;
    }
    Plan {
        number: match plan.method {
            Method::Callback => 1,
            _ => rng.next() as u32 | 1,
        },
        call_id: long(rng, texts::call_id),
        user: long(rng, texts::user_id),
        caller_fire: long(rng, texts::fire_id),
        callee_fire: long(rng, texts::fire_id),
        ..plan
    }
}

/// The longest of a few texts.
fn long(rng: &mut Rng, text: fn(&mut Rng) -> Vec<u8>) -> Vec<u8> {
    let few = [(); 6].map(|_| text(rng));
    few.into_iter().max_by_key(Vec::len).unwrap_or_default()
}
