//! Two engines as one: each call is made on the first, and on the second with copies of the same bytes. What the second leaves has to be what the first left.

use crate::engine::Engine;
use crate::history::Call;
use crate::layout;
use crate::lent::Lent;
use crate::model::answer_fields;

/// The first engine answers; the comparer asks how the second differed.
pub struct Beside<A, B> {
    first: A,
    second: B,
    /// How they differed in the last call.
    parted: Option<String>,
    /// Puts and Nexts made so far: those that support's engine has of its own.
    pub puts_and_nexts: u64,
}

impl<A: Engine, B: Engine> Beside<A, B> {
    pub fn new(first: A, second: B) -> Beside<A, B> {
        Beside { first, second, parted: None, puts_and_nexts: 0 }
    }

    fn both(&mut self, call: Call, state: &mut [u8], answer: &mut [u8]) -> u32 {
        self.both_with(call, state, &mut [], answer)
    }

    fn both_with(&mut self, call: Call, state: &mut [u8], image: &mut [u8], answer: &mut [u8]) -> u32 {
        self.puts_and_nexts += u64::from(matches!(call, Call::Put { .. } | Call::Next));
        let (mut state_copy, mut image_copy, mut answer_copy) = (Lent::new(state), Lent::new(image), Lent::new(answer));
        let number = self.first.call(&call, state, image, answer);
        let other = self.second.call(&call, state_copy.content(), image_copy.content(), answer_copy.content());
        let lends = call.lends();
        let differs = || {
            if other != number {
                return Some(format!("number {other}, should be {number}"));
            }
            let in_answer = answer_copy.differs(answer, |_| "the answer".to_string());
            let in_answer = in_answer.or_else(|| image_copy.differs(image, |_| lends.to_string()));
            in_answer.or_else(|| state_copy.differs(state, |place| format!("the memory ({})", layout::name_of(place))))
        };
        self.parted = differs().map(|what| format!("the second engine beside the first: {what}"));
        number
    }
}

impl<A: Engine, B: Engine> Engine for Beside<A, B> {
    fn start(&mut self, state: &mut [u8], edition: u32) -> u32 {
        self.both(Call::Start { edition }, state, &mut [])
    }

    fn open(&mut self, state: &mut [u8], weight: u32, answer: &mut [u8]) -> u32 {
        self.both(Call::Open { weight }, state, answer)
    }

    fn put(&mut self, state: &mut [u8], slot: u32, ticket: u32, length: u32, reference: u32, answer: &mut [u8]) -> u32 {
        self.both(Call::Put { slot, ticket, length, reference }, state, answer)
    }

    fn close(&mut self, state: &mut [u8], slot: u32, ticket: u32, answer: &mut [u8]) -> u32 {
        self.both(Call::Close { slot, ticket }, state, answer)
    }

    fn next(&mut self, state: &mut [u8], answer: &mut [u8]) -> u32 {
        self.both(Call::Next, state, answer)
    }

    fn ask(&mut self, state: &mut [u8], slot: u32, ticket: u32, answer: &mut [u8]) -> u32 {
        self.both(Call::Ask { slot, ticket }, state, answer)
    }

    fn fullest(&mut self, state: &mut [u8], answer: &mut [u8]) -> u32 {
        self.both(Call::Fullest, state, answer)
    }

    fn park(&mut self, state: &mut [u8], image: &mut [u8], answer: &mut [u8]) -> u32 {
        self.both_with(Call::Park { room: image.len() }, state, image, answer)
    }

    fn unpark(&mut self, state: &mut [u8], image: &mut [u8]) -> u32 {
        self.both_with(Call::Unpark { image: image.to_vec() }, state, image, &mut [])
    }

    fn lead(&mut self, w1: u32, v1: u32, w2: u32, v2: u32, answer: &mut [u8]) -> u32 {
        self.both(Call::Lead { w1, v1, w2, v2 }, &mut [], answer)
    }

    fn term(&mut self, order: u32, position: u32, answer: &mut [u8]) -> u32 {
        self.both(Call::Term { order, position }, &mut [], answer)
    }

    fn sheet(&mut self, weights: &mut [u32], rows: &mut [u32], answer: &mut [u8]) -> u32 {
        let call = Call::Sheet { weights: weights.to_vec(), rows: rows.to_vec() };
        let mut lists = call.image();
        let number = self.both_with(call, &mut [], &mut lists, answer);
        weights.iter_mut().chain(rows).zip(answer_fields(&lists)).for_each(|(number, left)| *number = left);
        number
    }

    fn parted(&mut self) -> Option<String> {
        self.parted.take()
    }
}
