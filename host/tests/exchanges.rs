//! The order of an entry's parameters is in no contract: an engine that takes two of them in each other's place is found by the compared runs.
//! host/slips.py exchanges them in the code itself.

mod common;
mod rattle;

use std::collections::BTreeMap;
use std::mem::{discriminant, swap};

use host::beside::Beside;
use host::compare::run_seeds;
use host::engine::Engine;
use host::history::Call;
use rattle::{functions, source};

/// Each entry with a call of its kind.
const ENTRIES: [(&str, Call); 12] = [
    ("uplink_start", Call::Start { edition: 0 }),
    ("uplink_open", Call::Open { weight: 0 }),
    ("uplink_put", Call::Put { slot: 0, ticket: 0, length: 0, reference: 0 }),
    ("uplink_close", Call::Close { slot: 0, ticket: 0 }),
    ("uplink_next", Call::Next),
    ("uplink_ask", Call::Ask { slot: 0, ticket: 0 }),
    ("uplink_fullest", Call::Fullest),
    ("uplink_park", Call::Park { room: 0 }),
    ("uplink_unpark", Call::Unpark { image: Vec::new() }),
    ("uplink_term", Call::Term { order: 0, position: 0 }),
    ("uplink_lead", Call::Lead { w1: 0, v1: 0, w2: 0, v2: 0 }),
    ("uplink_sheet", Call::Sheet { weights: Vec::new(), rows: Vec::new() }),
];

/// And those of support's engine.
const SUPPORT: [(&str, Call); 2] = [("plain_put", Call::Put { slot: 0, ticket: 0, length: 0, reference: 0 }), ("plain_next", Call::Next)];

/// What is taken in each other's place.
#[derive(Clone, Copy, Debug)]
enum Two {
    Numbers(usize, usize),
    StateAndAnswer,
    StateAndImage,
    ImageAndAnswer,
    WeightsAndRows,
}

/// An engine with two parameters of one kind of call exchanged.
struct Exchanged<E> {
    engine: E,
    of: Call,
    two: Two,
}

impl<E: Engine> Exchanged<E> {
    fn made(&mut self, call: Call, state: &mut [u8], answer: &mut [u8]) -> u32 {
        self.made_with(call, state, &mut [], answer)
    }

    fn made_with(&mut self, mut call: Call, state: &mut [u8], image: &mut [u8], answer: &mut [u8]) -> u32 {
        let engine = &mut self.engine;
        if discriminant(&call) != discriminant(&self.of) {
            return engine.call(&call, state, image, answer);
        }
        match self.two {
            Two::Numbers(one, other) => {
                let mut numbers = call.numbers();
                let (before, after) = numbers.split_at_mut(other);
                swap(before[one], after[0]);
                engine.call(&call, state, image, answer)
            }
            Two::StateAndAnswer => engine.call(&call, answer, image, state),
            Two::StateAndImage => engine.call(&call, image, state, answer),
            Two::ImageAndAnswer => engine.call(&call, state, answer, image),
            Two::WeightsAndRows => unreachable!("the lists are exchanged below"),
        }
    }
}

impl<E: Engine> Engine for Exchanged<E> {
    fn start(&mut self, state: &mut [u8], edition: u32) -> u32 {
        self.made(Call::Start { edition }, state, &mut [])
    }

    fn open(&mut self, state: &mut [u8], weight: u32, answer: &mut [u8]) -> u32 {
        self.made(Call::Open { weight }, state, answer)
    }

    fn put(&mut self, state: &mut [u8], slot: u32, ticket: u32, length: u32, reference: u32, answer: &mut [u8]) -> u32 {
        self.made(Call::Put { slot, ticket, length, reference }, state, answer)
    }

    fn close(&mut self, state: &mut [u8], slot: u32, ticket: u32, answer: &mut [u8]) -> u32 {
        self.made(Call::Close { slot, ticket }, state, answer)
    }

    fn next(&mut self, state: &mut [u8], answer: &mut [u8]) -> u32 {
        self.made(Call::Next, state, answer)
    }

    fn ask(&mut self, state: &mut [u8], slot: u32, ticket: u32, answer: &mut [u8]) -> u32 {
        self.made(Call::Ask { slot, ticket }, state, answer)
    }

    fn fullest(&mut self, state: &mut [u8], answer: &mut [u8]) -> u32 {
        self.made(Call::Fullest, state, answer)
    }

    fn park(&mut self, state: &mut [u8], image: &mut [u8], answer: &mut [u8]) -> u32 {
        self.made_with(Call::Park { room: image.len() }, state, image, answer)
    }

    fn unpark(&mut self, state: &mut [u8], image: &mut [u8]) -> u32 {
        self.made_with(Call::Unpark { image: image.to_vec() }, state, image, &mut [])
    }

    fn lead(&mut self, w1: u32, v1: u32, w2: u32, v2: u32, answer: &mut [u8]) -> u32 {
        self.made(Call::Lead { w1, v1, w2, v2 }, &mut [], answer)
    }

    fn term(&mut self, order: u32, position: u32, answer: &mut [u8]) -> u32 {
        self.made(Call::Term { order, position }, &mut [], answer)
    }

    fn sheet(&mut self, weights: &mut [u32], rows: &mut [u32], answer: &mut [u8]) -> u32 {
        match self.two {
            Two::WeightsAndRows => self.engine.sheet(rows, weights, answer),
            _ => self.engine.sheet(weights, rows, answer),
        }
    }
}

/// Every two numbers of an entry, every two of state, image and answer where it has both, and both lists of a sheet.
fn exchanges(mut call: Call) -> Vec<Two> {
    let count = call.numbers().len();
    let mut found: Vec<Two> = (0..count).flat_map(|other| (0..other).map(move |one| Two::Numbers(one, other))).collect();
    if call.takes_state() && call.takes_answer() {
        found.push(Two::StateAndAnswer);
    }
    match call {
        Call::Park { .. } => found.extend([Two::StateAndImage, Two::ImageAndAnswer]),
        Call::Unpark { .. } => found.push(Two::StateAndImage),
        Call::Sheet { .. } => found.push(Two::WeightsAndRows),
        _ => {}
    }
    found
}

#[test]
fn every_exchange_is_found() {
    let mut tried = 0;
    for (entry, of) in ENTRIES {
        for two in exchanges(of.clone()) {
            let found = run_seeds(&mut Exchanged { engine: common::adapter(), of: of.clone(), two }, 1, 200_000);
            assert!(found.is_err(), "{entry}: {two:?} exchanged, and no difference");
            tried += 1;
        }
    }
    assert_eq!(tried, 26);
}

/// Those of support's engine, beside the adapter's as it is.
#[test]
fn every_exchange_of_support_is_found() {
    let mut tried = 0;
    for (entry, of) in SUPPORT {
        for two in exchanges(of.clone()) {
            let exchanged = Exchanged { engine: common::plain(), of: of.clone(), two };
            let found = run_seeds(&mut Beside::new(common::adapter(), exchanged), 1, 200_000);
            assert!(found.is_err(), "{entry}: {two:?} exchanged, and no difference");
            tried += 1;
        }
    }
    assert_eq!(tried, 8);
}

/// The calls here have as many numbers as the entries of the code.
#[test]
fn every_parameter_is_tried() {
    let entries = ["driver_c/src/lib.rt", "support_c/src/lib.rt"].into_iter().flat_map(|file| functions(&source(file)));
    let entries = entries.filter(|function| function.exported);
    let numbers = entries.map(|entry| (entry.name, entry.parameters.iter().filter(|(_, kind)| kind == "u32").count()));
    let tried = ENTRIES.into_iter().chain(SUPPORT).map(|(entry, mut call)| (entry.to_string(), call.numbers().len()));
    assert_eq!(numbers.collect::<BTreeMap<_, _>>(), tried.collect::<BTreeMap<_, _>>());
}
