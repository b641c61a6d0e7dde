//! The model engine: the independent scheduler behind the C entries' shape. It stands in for the exported library where that is not linked,
//! and wrong engines are made from it to test the comparer.

use crate::answers::{Fields, Refusal, Sheet, Written};
use crate::engine::Engine;
use crate::layout;
use crate::scheduler::Scheduler;
use crate::sheet;
use crate::spread;

pub struct Model;

/// The bytes of an answer's fields: 4 each, lowest first.
pub fn answer_bytes(fields: &[u32]) -> Vec<u8> {
    fields.iter().flat_map(|field| field.to_le_bytes()).collect()
}

/// The fields of an answer's bytes.
pub fn answer_fields(bytes: &[u8]) -> impl Iterator<Item = u32> + '_ {
    bytes.chunks(4).map(|field| field.iter().rev().fold(0, |number, &byte| number << 8 | u32::from(byte)))
}

/// A call on lent bytes: a wrong answer buffer before all else, then the memory, then the rules' own call.
pub fn on<A: Fields>(
    state: &mut [u8],
    answer: &mut [u8],
    answer_length: usize,
    call: impl FnOnce(&mut Scheduler) -> Result<A, Refusal>,
) -> u32 {
    on_by_number(state, answer, answer_length, |scheduler| call(scheduler).map_err(Refusal::number))
}

/// The same with refusals as numbers, so that a wrong engine may tell one that is in no table.
pub fn on_by_number<A: Fields>(
    state: &mut [u8],
    answer: &mut [u8],
    answer_length: usize,
    call: impl FnOnce(&mut Scheduler) -> Result<A, u32>,
) -> u32 {
    if answer.len() != answer_length {
        return Refusal::Unsound.number();
    }
    answer.fill(0);
    let Some(mut scheduler) = layout::sound_from_bytes(state) else {
        return Refusal::Unsound.number();
    };
    match call(&mut scheduler) {
        Ok(done) => {
            answer.copy_from_slice(&answer_bytes(&done.fields()));
            layout::write(&scheduler, state);
            0
        }
        Err(number) => number,
    }
}

/// A call without a state.
pub fn apart<const N: usize>(answer: &mut [u8], result: Result<[u8; N], Refusal>) -> u32 {
    if answer.len() != N {
        return Refusal::Unsound.number();
    }
    answer.fill(0);
    match result {
        Ok(bytes) => {
            answer.copy_from_slice(&bytes);
            0
        }
        Err(refusal) => refusal.number(),
    }
}

/// The call on two lists.
pub fn on_lists(answer: &mut [u8], result: Result<Sheet, Refusal>) -> u32 {
    apart(answer, result.map(|sheet| <[u8; 8]>::try_from(answer_bytes(&sheet.fields())).expect("two fields")))
}

impl Engine for Model {
    fn start(&mut self, state: &mut [u8], edition: u32) -> u32 {
        if state.len() != layout::LENGTH {
            return Refusal::Unsound.number();
        }
        match Scheduler::start(edition) {
            Ok(fresh) => {
                layout::write(&fresh, state);
                0
            }
            Err(refusal) => refusal.number(),
        }
    }

    fn open(&mut self, state: &mut [u8], weight: u32, answer: &mut [u8]) -> u32 {
        on(state, answer, 8, |scheduler| scheduler.open_sound(weight))
    }

    fn put(&mut self, state: &mut [u8], slot: u32, ticket: u32, length: u32, reference: u32, answer: &mut [u8]) -> u32 {
        on(state, answer, 8, |scheduler| scheduler.put_sound(slot, ticket, length, reference))
    }

    fn close(&mut self, state: &mut [u8], slot: u32, ticket: u32, answer: &mut [u8]) -> u32 {
        on(state, answer, 4, |scheduler| scheduler.close_sound(slot, ticket))
    }

    fn next(&mut self, state: &mut [u8], answer: &mut [u8]) -> u32 {
        on(state, answer, 28, |scheduler| scheduler.next_sound())
    }

    fn ask(&mut self, state: &mut [u8], slot: u32, ticket: u32, answer: &mut [u8]) -> u32 {
        on(state, answer, 20, |scheduler| scheduler.ask_sound(slot, ticket))
    }

    fn fullest(&mut self, state: &mut [u8], answer: &mut [u8]) -> u32 {
        on(state, answer, 44, |scheduler| scheduler.fullest_sound())
    }

    fn park(&mut self, state: &mut [u8], image: &mut [u8], answer: &mut [u8]) -> u32 {
        let (room, mut written) = (image.len(), Vec::new());
        let number = on(state, answer, 4, |scheduler| {
            written = scheduler.park_sound(room)?;
            Ok(Written { length: written.len() as u32 })
        });
        image[..written.len()].copy_from_slice(&written);
        number
    }

    fn unpark(&mut self, state: &mut [u8], image: &mut [u8]) -> u32 {
        if state.len() != layout::LENGTH {
            return Refusal::Unsound.number();
        }
        match Scheduler::unpark(image) {
            Ok(read) => {
                layout::write(&read, state);
                0
            }
            Err(refusal) => refusal.number(),
        }
    }

    fn lead(&mut self, w1: u32, v1: u32, w2: u32, v2: u32, answer: &mut [u8]) -> u32 {
        apart(answer, spread::lead(w1, v1, w2, v2).map(i64::to_le_bytes))
    }

    fn term(&mut self, order: u32, position: u32, answer: &mut [u8]) -> u32 {
        apart(answer, spread::term(order, position).map(u32::to_le_bytes))
    }

    fn sheet(&mut self, weights: &mut [u32], rows: &mut [u32], answer: &mut [u8]) -> u32 {
        on_lists(answer, sheet::check(weights, rows))
    }
}
