//! The corners of room and shared cells (document 02, §4), in calls on sound states and on changed memories.

use host::engine::Engine;
use host::history::{History, Step};
use host::layout::{self, BYTES, WAITING};
use host::model::Model;
use host::scheduler::{Kind, Scheduler, KEPT, MOST_WAITING, SHARED};
use host::sound::Rule;

use super::fills::look_at_notes;

/// A record was taken, and so many wait now.
pub fn look_at_cells_taken(before: &Scheduler, after: &Scheduler, waiting: usize, met: &mut impl FnMut(&'static str, bool)) {
    let (was, is) = (before.shared_in_use(), after.shared_in_use());
    met("the 64th record is taken", waiting == 64);
    met("the sum goes from 382 to 383", (was, is) == (382, 383));
    met("the sum goes from 383 to 384", (was, is) == (383, 384));
    met("a channel of none is given one with the sum at 384", was == 384 && waiting == 1);
    met("a channel of one is given one with the sum at 384", was == 384 && waiting == 2);
    met("every cell is taken", after.channels.iter().map(|channel| channel.records.len()).sum::<usize>() == 512);
    assert_eq!(is - was, usize::from(waiting > KEPT), "a third record and each after it takes a shared cell");
}

/// A channel of so many records is refused one more.
pub fn look_at_limits(number: u32, waiting: usize, shared: usize, met: &mut impl FnMut(&'static str, bool)) {
    let none_left = waiting >= KEPT && shared == SHARED;
    met("5 with shared cells left", number == 5 && !none_left);
    met("5 where 13 would be given too", number == 5 && none_left);
    met("4 where 13 would be given too", number == 4 && none_left && waiting < MOST_WAITING);
    met("3 where 13 would be given too", number == 3 && none_left && waiting < MOST_WAITING);
    met("13 to a channel of two", number == 13 && waiting == 2);
    met("13 to a channel of 63", number == 13 && waiting == 63);
}

/// A record of the slot was sent.
pub fn look_at_cells_left(before: &Scheduler, after: &Scheduler, slot: usize, met: &mut impl FnMut(&'static str, bool)) {
    let (was, is) = (before.shared_in_use(), after.shared_in_use());
    met("the sum goes from 384 to 383", (was, is) == (384, 383));
    met("the sum stays at 384 with a send", (was, is) == (384, 384));
    met("a closing channel sends with the sum at 384", was == 384 && before.channels[slot].kind == Kind::Closing);
}

/// Each call right after a change is looked at.
pub fn look_at_damage(history: History, met: &mut impl FnMut(&'static str, bool)) {
    let mut memory = history.memory;
    let mut changed = Vec::new();
    for step in history.steps {
        match step {
            Step::Damage { place, flip } => {
                memory[place] ^= flip;
                changed.push(place);
            }
            Step::Call(call) => {
                if !changed.is_empty() {
                    look_at_memory(&memory, &changed, met);
                    look_at_notes(&memory, met);
                }
                changed.clear();
                Model.call(&call, &mut memory, &mut call.image(), &mut vec![0; call.answer_length()]);
            }
            Step::Lost { fill } => memory.fill(fill),
            Step::Mislent { .. } => {}
        }
    }
}

fn look_at_memory(memory: &[u8], changed: &[usize], met: &mut impl FnMut(&'static str, bool)) {
    let waiting = || memory[WAITING.places()].iter().map(|&count| usize::from(count));
    let (all, most, sum) = (waiting().sum::<usize>(), waiting().max(), waiting().map(|count| count.saturating_sub(2)).sum::<usize>());
    met("more than 512 records", all > 512);
    met("more than 512 records, and no channel of more than 64", all > 512 && most <= Some(64));
    let Some(state) = layout::from_bytes(memory).filter(|state| layout::to_bytes(state) == memory) else { return };
    // The notes go with the numbers.
    let elsewhere = changed.iter().all(|place| WAITING.places().contains(place) || *place >= BYTES.start);
    met("a sum of 384, with a record counted elsewhere", sum == 384 && elsewhere && state.sound());
    met("a sum of 385, and no other fault", sum == 385 && state.broken() == [Rule::Shared]);
    let alone = most == Some(65) && state.broken() == [Rule::Records];
    met("65 records in a channel, and no other fault", alone);
    met("65 records in a channel with the sum at 384, and no other fault", alone && sum == 384);
}
