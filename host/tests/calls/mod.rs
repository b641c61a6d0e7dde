//! The calls as checks make them, on the independent scheduler and on the engine under test.
#![allow(dead_code)]

#[path = "../common/mod.rs"]
mod common;

pub use common::engine;

use host::answers::{Added, Closed, Fields, Fullest, Opened, Refusal, Sent, Sheet, Told};
use host::engine::Engine;
use host::history::Call;
use host::image::LONGEST_IMAGE;
use host::layout::{sound_from_bytes, LENGTH};
use host::model::answer_fields;
use host::scheduler::{Scheduler, EDITIONS};
use host::sheet;
use host::spread::{lead, term};

/// The calls that the checks make, whoever answers them.
pub trait Calls {
    fn start(&mut self, edition: u32) -> Result<(), Refusal>;
    fn open(&mut self, weight: u32) -> Result<Opened, Refusal>;
    fn put(&mut self, slot: u32, ticket: u32, length: u32, reference: u32) -> Result<Added, Refusal>;
    fn close(&mut self, slot: u32, ticket: u32) -> Result<Closed, Refusal>;
    fn next(&mut self) -> Result<Sent, Refusal>;
    fn ask(&mut self, slot: u32, ticket: u32) -> Result<Told, Refusal>;
    fn fullest(&mut self) -> Result<Fullest, Refusal>;
    /// The state is parked, its memory is lost, and the image is read.
    fn change_firmware(&mut self);
    fn park(&mut self) -> Result<(), Refusal>;
    fn term(&mut self, order: u32, position: u32) -> Result<u32, Refusal>;
    fn lead(&mut self, w1: u32, v1: u32, w2: u32, v2: u32) -> Result<i64, Refusal>;
    fn sheet(&mut self, weights: &[u32], rows: &[u32]) -> Result<Sheet, Refusal>;
    /// The sound state that the last call left.
    fn state(&self) -> Scheduler;

    /// A fresh state, with channels of these weights in slots 0, 1, ..., each given so many records of one length.
    fn fill(&mut self, edition: u64, weights: &[u32], records: usize, length: u32) {
        let channels: Vec<(u32, usize)> = weights.iter().map(|&weight| (weight, records)).collect();
        self.fill_each(edition, &channels, length);
    }

    /// The same, each of a weight and with so many records.
    fn fill_each(&mut self, edition: u64, channels: &[(u32, usize)], length: u32) {
        self.start(edition as u32).unwrap();
        for &(weight, records) in channels {
            let opened = self.open(weight).unwrap();
            for reference in 0..records {
                self.put(opened.slot, opened.ticket, length, reference as u32).unwrap();
            }
        }
    }
}

impl Calls for Scheduler {
    fn start(&mut self, edition: u32) -> Result<(), Refusal> {
        Scheduler::start(edition).map(|fresh| *self = fresh)
    }

    fn open(&mut self, weight: u32) -> Result<Opened, Refusal> {
        Scheduler::open(self, weight)
    }

    fn put(&mut self, slot: u32, ticket: u32, length: u32, reference: u32) -> Result<Added, Refusal> {
        Scheduler::put(self, slot, ticket, length, reference)
    }

    fn close(&mut self, slot: u32, ticket: u32) -> Result<Closed, Refusal> {
        Scheduler::close(self, slot, ticket)
    }

    fn next(&mut self) -> Result<Sent, Refusal> {
        Scheduler::next(self)
    }

    fn ask(&mut self, slot: u32, ticket: u32) -> Result<Told, Refusal> {
        Scheduler::ask(self, slot, ticket)
    }

    fn fullest(&mut self) -> Result<Fullest, Refusal> {
        Scheduler::fullest(self)
    }

    fn change_firmware(&mut self) {
        let image = Scheduler::park(self, LONGEST_IMAGE).unwrap();
        *self = Scheduler::unpark(&image).unwrap();
    }

    fn park(&mut self) -> Result<(), Refusal> {
        Scheduler::park(self, LONGEST_IMAGE).map(|_| ())
    }

    fn term(&mut self, order: u32, position: u32) -> Result<u32, Refusal> {
        term(order, position)
    }

    fn lead(&mut self, w1: u32, v1: u32, w2: u32, v2: u32) -> Result<i64, Refusal> {
        lead(w1, v1, w2, v2)
    }

    fn sheet(&mut self, weights: &[u32], rows: &[u32]) -> Result<Sheet, Refusal> {
        sheet::check(weights, rows)
    }

    fn state(&self) -> Scheduler {
        assert!(self.sound());
        self.clone()
    }
}

/// The engine under test on a memory of its own. It begins unsound: only Start mends it.
struct Lent<E> {
    engine: E,
    memory: Vec<u8>,
}

impl<E: Engine> Lent<E> {
    /// The bytes of an accepted call's answer.
    fn answer(&mut self, call: Call) -> Result<Vec<u8>, Refusal> {
        let mut answer = vec![0xa5; call.answer_length()];
        let number = self.engine.call(&call, &mut self.memory, &mut call.image(), &mut answer);
        assert_eq!(self.engine.parted(), None);
        match number {
            0 => Ok(answer),
            number => Err(Refusal::from_number(number).unwrap()),
        }
    }

    fn fields<A: Fields>(&mut self, call: Call) -> Result<A, Refusal> {
        self.answer(call).map(|answer| A::of(&answer_fields(&answer).collect::<Vec<_>>()).unwrap())
    }
}

impl<E: Engine> Calls for Lent<E> {
    fn start(&mut self, edition: u32) -> Result<(), Refusal> {
        self.fields(Call::Start { edition })
    }

    fn open(&mut self, weight: u32) -> Result<Opened, Refusal> {
        self.fields(Call::Open { weight })
    }

    fn put(&mut self, slot: u32, ticket: u32, length: u32, reference: u32) -> Result<Added, Refusal> {
        self.fields(Call::Put { slot, ticket, length, reference })
    }

    fn close(&mut self, slot: u32, ticket: u32) -> Result<Closed, Refusal> {
        self.fields(Call::Close { slot, ticket })
    }

    fn next(&mut self) -> Result<Sent, Refusal> {
        self.fields(Call::Next)
    }

    fn ask(&mut self, slot: u32, ticket: u32) -> Result<Told, Refusal> {
        self.fields(Call::Ask { slot, ticket })
    }

    fn fullest(&mut self) -> Result<Fullest, Refusal> {
        self.fields(Call::Fullest)
    }

    fn change_firmware(&mut self) {
        let (mut image, mut answer) = (vec![0xa5; LONGEST_IMAGE], [0; 4]);
        assert_eq!(self.engine.park(&mut self.memory, &mut image, &mut answer), 0);
        self.memory.fill(0xa5);
        assert_eq!(self.engine.unpark(&mut self.memory, &mut image[..u32::from_le_bytes(answer) as usize]), 0);
        assert_eq!(self.engine.parted(), None);
    }

    fn park(&mut self) -> Result<(), Refusal> {
        self.answer(Call::Park { room: LONGEST_IMAGE }).map(|_| ())
    }

    fn term(&mut self, order: u32, position: u32) -> Result<u32, Refusal> {
        self.answer(Call::Term { order, position }).map(|answer| u32::from_le_bytes(answer.try_into().unwrap()))
    }

    fn lead(&mut self, w1: u32, v1: u32, w2: u32, v2: u32) -> Result<i64, Refusal> {
        self.answer(Call::Lead { w1, v1, w2, v2 }).map(|answer| i64::from_le_bytes(answer.try_into().unwrap()))
    }

    fn sheet(&mut self, weights: &[u32], rows: &[u32]) -> Result<Sheet, Refusal> {
        self.fields(Call::Sheet { weights: weights.to_vec(), rows: rows.to_vec() })
    }

    fn state(&self) -> Scheduler {
        sound_from_bytes(&self.memory).unwrap()
    }
}

/// A check on both.
pub fn on_both(check: impl Fn(&mut dyn Calls)) {
    check(&mut Scheduler::fresh(1));
    check(&mut Lent { engine: engine(), memory: vec![0xa5; LENGTH] });
}

/// A check on both in each edition, which it is given too.
pub fn in_both_editions(check: fn(&mut dyn Calls, u64)) {
    for edition in EDITIONS {
        on_both(|calls| check(calls, edition));
    }
}
