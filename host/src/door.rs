//! The door beside the drive (document 02, §3: "A drive board that empties and refills makes the order jump between 12 and 1, and a door channel of weight 1
//! can wait without end"), on the independent scheduler.
//!
//! The drive is given its records in bursts: the next burst comes with the send that empties it, before the next one. The door always has records waiting.
//! Every record costs a grant, so every send is a visit.

use crate::scheduler::{Scheduler, LONGEST};

pub const DRIVE_WEIGHT: u32 = 4_095;
pub const DOOR_WEIGHT: u32 = 1;
const DRIVE: u32 = 0;
const DOOR: u32 = 1;

/// Which of so many sends are the door's, counted from 1.
pub fn turns(edition: u64, burst: usize, sends: usize) -> Vec<usize> {
    let mut scheduler = Scheduler::fresh(edition);
    let put = |scheduler: &mut Scheduler, slot: u32| {
        scheduler.put_sound(slot, 1, LONGEST as u32, 0).expect("there is room");
    };
    for weight in [DRIVE_WEIGHT, DOOR_WEIGHT] {
        scheduler.open_sound(weight).expect("a slot is free");
    }
    put(&mut scheduler, DOOR);
    put(&mut scheduler, DOOR);
    let mut turns = Vec::new();
    for send in 1..=sends {
        if scheduler.channels[DRIVE as usize].records.is_empty() {
            (0..burst).for_each(|_| put(&mut scheduler, DRIVE));
        }
        if scheduler.next_sound().expect("a record waits").slot == DOOR {
            turns.push(send);
            put(&mut scheduler, DOOR);
        }
    }
    turns
}

/// The most sends of the drive in a row: before the door's first turn, between two, or after its last.
pub fn longest_wait(turns: &[usize], sends: usize) -> usize {
    let ends = turns.iter().copied().chain([sends + 1]);
    let begins = [0].into_iter().chain(turns.iter().copied());
    begins.zip(ends).map(|(begin, end)| end - begin - 1).max().unwrap_or(0)
}
