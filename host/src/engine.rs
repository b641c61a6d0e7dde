//! An engine under test: the C entries' shape, on lent slices.

use crate::history::Call;

/// Each call answers document 01's number; the fields go to the answer buffer. Unpark too is lent an image that it could write, and Sheet such lists,
/// so that the comparer would see it.
pub trait Engine {
    fn start(&mut self, state: &mut [u8], edition: u32) -> u32;
    fn open(&mut self, state: &mut [u8], weight: u32, answer: &mut [u8]) -> u32;
    fn put(&mut self, state: &mut [u8], slot: u32, ticket: u32, length: u32, reference: u32, answer: &mut [u8]) -> u32;
    fn close(&mut self, state: &mut [u8], slot: u32, ticket: u32, answer: &mut [u8]) -> u32;
    fn next(&mut self, state: &mut [u8], answer: &mut [u8]) -> u32;
    fn ask(&mut self, state: &mut [u8], slot: u32, ticket: u32, answer: &mut [u8]) -> u32;
    fn fullest(&mut self, state: &mut [u8], answer: &mut [u8]) -> u32;
    fn park(&mut self, state: &mut [u8], image: &mut [u8], answer: &mut [u8]) -> u32;
    fn unpark(&mut self, state: &mut [u8], image: &mut [u8]) -> u32;
    fn lead(&mut self, w1: u32, v1: u32, w2: u32, v2: u32, answer: &mut [u8]) -> u32;
    fn term(&mut self, order: u32, position: u32, answer: &mut [u8]) -> u32;
    fn sheet(&mut self, weights: &mut [u32], rows: &mut [u32], answer: &mut [u8]) -> u32;

    /// Where this is two engines in one: how they differed in the last call. One by itself never does.
    fn parted(&mut self) -> Option<String> {
        None
    }

    /// The call by its name. Park's buffer and Unpark's image are lent as the image, which other calls do not take; as Sheet's it shows what the two lists hold
    /// after the call.
    fn call(&mut self, call: &Call, state: &mut [u8], image: &mut [u8], answer: &mut [u8]) -> u32 {
        match *call {
            Call::Start { edition } => self.start(state, edition),
            Call::Open { weight } => self.open(state, weight, answer),
            Call::Put { slot, ticket, length, reference } => self.put(state, slot, ticket, length, reference, answer),
            Call::Close { slot, ticket } => self.close(state, slot, ticket, answer),
            Call::Next => self.next(state, answer),
            Call::Ask { slot, ticket } => self.ask(state, slot, ticket, answer),
            Call::Fullest => self.fullest(state, answer),
            Call::Park { .. } => self.park(state, image, answer),
            Call::Unpark { .. } => self.unpark(state, image),
            Call::Lead { w1, v1, w2, v2 } => self.lead(w1, v1, w2, v2, answer),
            Call::Term { order, position } => self.term(order, position, answer),
            Call::Sheet { ref weights, ref rows } => {
                let (mut weights, mut rows) = (weights.clone(), rows.clone());
                let number = self.sheet(&mut weights, &mut rows, answer);
                image.copy_from_slice(&Call::Sheet { weights, rows }.image());
                number
            }
        }
    }
}
