//! Makes a history that shows a difference shorter: steps are removed, openings with all that belongs to them, channels of the memory it
//! begins with, and numbers are made plainer, as long as some difference is left. One that stays long, as where the pool has to be filled first, begins
//! later.

use std::collections::HashMap;

use crate::compare::{run, state_call, Difference};
use crate::engine::Engine;
use crate::history::{Call, History, Step};
use crate::image::{image_of, read, LONGEST_IMAGE};
use crate::layout::{self, EDITION};
use crate::model::Model;
use crate::scheduler::{Channel, Scheduler, LONGEST, SLOTS};
use crate::sheets;

/// Steps that may be run while shrinking, so that a long history does not hold up the report.
const STEPS: usize = 400_000;
/// Histories up to this length are tried without each two of their steps.
const SHORT: usize = 40;
/// Longer ones are begun later.
const LONG: usize = 20;

/// The shortest history found and its difference, which shows at its last step.
pub fn shrink<E: Engine + ?Sized>(engine: &mut E, history: History, difference: Difference) -> (History, Difference) {
    let mut search = Search { engine, left: STEPS, best: history, difference };
    search.best.steps.truncate(search.difference.step + 1);
    let edition = u64::from(search.best.memory[EDITION.start]);
    let _ = [1, edition].into_iter().any(|edition| {
        let candidate = History { memory: layout::fresh(edition), ..search.best.clone() };
        search.keep_if_it_differs(candidate)
    });
    search.remove_steps();
    search.remove_channels();
    search.remove_all();
    if search.begin_later() {
        search.remove_channels();
        search.remove_all();
    }
    (search.best, search.difference)
}

struct Search<'e, E: ?Sized> {
    engine: &'e mut E,
    left: usize,
    best: History,
    difference: Difference,
}

impl<E: Engine + ?Sized> Search<'_, E> {
    fn keep_if_it_differs(&mut self, mut candidate: History) -> bool {
        if self.left < candidate.steps.len() {
            return false;
        }
        self.left -= candidate.steps.len();
        match run(self.engine, &candidate) {
            Ok(_) => false,
            Err(difference) => {
                candidate.steps.truncate(difference.step + 1);
                (self.best, self.difference) = (candidate, difference);
                true
            }
        }
    }

    /// All that can go but the beginning, until nothing more goes.
    fn remove_all(&mut self) {
        let mut before = usize::MAX;
        while self.best.steps.len() < before {
            before = self.best.steps.len();
            self.remove_openings();
            self.make_plainer();
            self.remove_steps();
            self.remove_pairs();
        }
    }

    /// A long history begins with the memory that all but its last few steps leave.
    fn begin_later(&mut self) -> bool {
        let count = self.best.steps.len();
        let few: &[usize] = if count > LONG { &[1, 2, 4, 8, 16] } else { &[] };
        few.iter().any(|kept| {
            let (first, last) = self.best.steps.split_at(count - kept);
            let (memory, steps) = (memory_after(&self.best.memory, first), last.to_vec());
            self.keep_if_it_differs(History { memory, steps, ..self.best.clone() })
        })
    }

    /// Removes runs of steps, long runs first, until no single step can go.
    fn remove_steps(&mut self) {
        let mut size = self.best.steps.len().div_ceil(2);
        while size > 0 {
            let (mut at, mut removed) = (0, false);
            while at < self.best.steps.len() {
                let mut candidate = self.best.clone();
                candidate.steps.drain(at..(at + size).min(candidate.steps.len()));
                if self.keep_if_it_differs(candidate) {
                    removed = true;
                } else {
                    // Every two neighbours: one often undoes the other.
                    at += if size == 2 { 1 } else { size };
                }
            }
            size = if size == 1 && removed { 1 } else { size / 2 };
        }
    }

    fn remove_pairs(&mut self) {
        let mut first = 0;
        while self.best.steps.len() <= SHORT && first < self.best.steps.len() {
            let second = (first + 1..self.best.steps.len()).find(|&second| {
                let mut candidate = self.best.clone();
                candidate.steps.remove(second);
                candidate.steps.remove(first);
                self.keep_if_it_differs(candidate)
            });
            first = if second.is_some() { 0 } else { first + 1 };
        }
    }

    /// Removes single openings; the slots and tickets of the calls that stay are those that they now have.
    fn remove_openings(&mut self) {
        for at in (0..self.best.steps.len()).rev() {
            if let Some(Step::Call(Call::Open { .. })) = self.best.steps.get(at) {
                let candidate = without_opening(&self.best, at);
                self.keep_if_it_differs(candidate);
            }
        }
    }

    /// Frees the slots of a sound beginning one by one.
    fn remove_channels(&mut self) {
        for slot in 0..SLOTS {
            if let Some(scheduler) = layout::sound_from_bytes(&self.best.memory) {
                let memory = layout::to_bytes(&without_channel(scheduler, slot));
                if memory != self.best.memory {
                    self.keep_if_it_differs(History { memory, ..self.best.clone() });
                }
            }
        }
    }

    fn make_plainer(&mut self) {
        for at in 0..self.best.steps.len() {
            let Some(Step::Call(call)) = self.best.steps.get(at) else { continue };
            plainer(call.clone()).into_iter().any(|call| {
                let mut candidate = self.best.clone();
                candidate.steps[at] = Step::Call(call);
                self.keep_if_it_differs(candidate)
            });
        }
    }
}

/// What steps leave of a memory, by the documents.
fn memory_after(memory: &[u8], steps: &[Step]) -> Vec<u8> {
    let mut memory = memory.to_vec();
    for step in steps {
        match step {
            Step::Call(call) => {
                Model.call(call, &mut memory, &mut call.image(), &mut vec![0; call.answer_length()]);
            }
            Step::Damage { place, flip } => memory[*place] ^= flip,
            Step::Lost { fill } => memory.fill(*fill),
            Step::Mislent { .. } => {}
        }
    }
    memory
}

/// The same call with plainer numbers, plainest first.
fn plainer(call: Call) -> Vec<Call> {
    match call {
        Call::Open { weight } => (1..weight.min(5)).map(|weight| Call::Open { weight }).collect(),
        Call::Put { slot, ticket, length, reference } => {
            let put = |slot, length, reference| Call::Put { slot, ticket, length, reference };
            let long = LONGEST as u32;
            let plain = [put(0, long, 1), put(slot, long, 1), put(slot, length, 1), put(slot, long, reference)];
            plain.into_iter().take_while(|plain| *plain != call).collect()
        }
        Call::Park { room } if room > LONGEST_IMAGE => vec![Call::Park { room: LONGEST_IMAGE }],
        Call::Unpark { ref image } => {
            plainer_images(image).into_iter().map(|image| Call::Unpark { image }).take_while(|plain| *plain != call).collect()
        }
        Call::Sheet { ref weights, ref rows } => sheets::plainer(weights, rows),
        Call::Close { slot, ticket } | Call::Ask { slot, ticket } if slot > 0 => vec![moved(call, (0, ticket))],
        _ => Vec::new(),
    }
}

/// Images of fresh states, and of one channel alone.
fn plainer_images(image: &[u8]) -> Vec<Vec<u8>> {
    let mut images = vec![image_of(&Scheduler::fresh(1)), image_of(&Scheduler::fresh(2))];
    if let Some(state) = read(image) {
        let others = |kept: usize| (0..SLOTS).filter(move |&slot| slot != kept);
        images.extend((0..SLOTS).map(|kept| image_of(&others(kept).fold(state.clone(), without_channel))));
    }
    images
}

/// The sound state with this slot fresh.
fn without_channel(mut scheduler: Scheduler, slot: usize) -> Scheduler {
    scheduler.channels[slot] = Channel::fresh();
    scheduler.scan.to_visit.remove(&slot);
    if scheduler.scan.to_visit.is_empty() {
        scheduler.scan.column = 0;
    }
    if scheduler.scan.visit == Some(slot) {
        scheduler.scan.visit = None;
    }
    scheduler.row_leaves(slot);
    scheduler.end_round(&mut |_, _| {});
    scheduler
}

/// The history without the opening at a step and without the calls on its channel.
fn without_opening(history: &History, at: usize) -> History {
    let mut steps = Vec::new();
    let begin = layout::sound_from_bytes(&history.memory).unwrap_or_else(|| Scheduler::fresh(1));
    let (mut old, mut new) = (begin.clone(), begin);
    // Slot and ticket in the old history, and what they are in the new one.
    let mut now: HashMap<(u32, u32), Option<(u32, u32)>> = HashMap::new();
    for (number, step) in history.steps.iter().enumerate() {
        let Step::Call(call) = step else {
            steps.push(step.clone());
            continue;
        };
        let kept = match *call {
            Call::Open { .. } if number == at => None,
            Call::Put { slot, ticket, .. } | Call::Close { slot, ticket } | Call::Ask { slot, ticket } => {
                now.get(&(slot, ticket)).copied().unwrap_or(Some((slot, ticket))).map(|place| moved(call.clone(), place))
            }
            _ => Some(call.clone()),
        };
        let opened = state_call(&mut old, call);
        let opened_now = kept.as_ref().map(|call| state_call(&mut new, call));
        if let (Call::Open { .. }, Ok(place)) = (call, opened) {
            let place_now = opened_now.and_then(Result::ok).map(|place| (place[0], place[1]));
            now.insert((place[0], place[1]), place_now);
        }
        steps.extend(kept.map(Step::Call));
    }
    History { steps, ..history.clone() }
}

/// The call on another channel.
fn moved(call: Call, (slot, ticket): (u32, u32)) -> Call {
    match call {
        Call::Put { length, reference, .. } => Call::Put { slot, ticket, length, reference },
        Call::Close { .. } => Call::Close { slot, ticket },
        Call::Ask { .. } => Call::Ask { slot, ticket },
        _ => call,
    }
}
