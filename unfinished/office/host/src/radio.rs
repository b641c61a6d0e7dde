//! A radio between the scheduler and the office (document 02, §14): it may drop anything and mix slots at will. What the independent scheduler sends is put into
//! frames; a mark for each says whether it arrives; of each slot what arrives keeps its order.

use std::collections::{BTreeMap, VecDeque};

use crate::answers::Sent;
use crate::frame::Frame;
use crate::random::Random;
use crate::scheduler::{Scheduler, LONGEST, SLOTS};

/// A frame sent, and whether it arrives.
#[derive(Clone, Debug)]
pub struct Flight {
    pub frame: Frame,
    pub arrives: bool,
}

/// "the number lost before the last one received", by the marks of one ticket.
pub fn lost_before_last(marks: &[bool]) -> u64 {
    let behind_last = marks.iter().rposition(|&arrives| arrives).map_or(0, |last| last + 1);
    marks[..behind_last].iter().filter(|&&arrives| !arrives).count() as u64
}

/// The most that are lost in a row with one received behind them.
pub fn longest_row(marks: &[bool]) -> usize {
    let behind_last = marks.iter().rposition(|&arrives| arrives).map_or(0, |last| last + 1);
    marks[..behind_last].split(|&arrives| arrives).map(<[bool]>::len).max().unwrap_or(0)
}

/// The marks of each slot and ticket, in the order in which they were sent.
pub fn marks(flights: &[Flight]) -> BTreeMap<(u32, u32), Vec<bool>> {
    let mut found: BTreeMap<(u32, u32), Vec<bool>> = BTreeMap::new();
    for flight in flights {
        found.entry((flight.frame.slot, flight.frame.ticket)).or_default().push(flight.arrives);
    }
    found
}

/// The frame of a record sent; its bytes are any.
pub fn framed(random: &mut Random, sent: &Sent, longest: u32) -> Frame {
    let record = (0..sent.length.min(longest)).map(|_| random.number() as u8).collect();
    Frame { slot: sent.slot, ticket: sent.ticket, serial: sent.serial as u16, record }
}

/// So many frames that the independent scheduler sends, from a start: boards are plugged in, pulled and pushed back, so that tickets of a slot follow each other.
/// Records are short, so that many go.
pub fn sends(random: &mut Random, edition: u64, channels: u64, count: usize) -> Vec<Frame> {
    let mut scheduler = Scheduler::fresh(edition);
    let mut found = Vec::new();
    while found.len() < count {
        let slot = random.below(channels.min(SLOTS as u64)) as u32;
        let ticket = scheduler.channels[slot as usize].ticket as u32;
        match random.below(40) {
            0 => drop(scheduler.open_sound(random.from_to(1, 20) as u32)),
            1 if random.chance(1, 4) => drop(scheduler.close_sound(slot, ticket)),
            2..=19 => drop(scheduler.put_sound(slot, ticket, random.from_to(1, LONGEST) as u32, 0)),
            _ => found.extend(scheduler.next_sound().ok().map(|sent| framed(random, &sent, 3))),
        }
    }
    found
}

/// Which of them arrive: each is dropped `part` times out of `whole`, and now and then a burst of up to `burst` frames is.
pub fn dropping(random: &mut Random, frames: Vec<Frame>, part: u64, whole: u64, burst: u64) -> Vec<Flight> {
    let mut gone = 0;
    let arrives = |random: &mut Random| {
        if gone == 0 && burst > 0 && random.chance(1, 4 * burst) {
            gone = random.from_to(1, burst);
        }
        gone = u64::saturating_sub(gone, 1);
        gone == 0 && !random.chance(part, whole)
    };
    let mut arrives = arrives;
    frames.into_iter().map(|frame| Flight { arrives: arrives(random), frame }).collect()
}

/// What arrives, the slots mixed at will and each slot's in its order.
pub fn mixed(random: &mut Random, flights: &[Flight]) -> Vec<Frame> {
    let mut queues: BTreeMap<u32, VecDeque<&Frame>> = BTreeMap::new();
    for flight in flights.iter().filter(|flight| flight.arrives) {
        queues.entry(flight.frame.slot).or_default().push_back(&flight.frame);
    }
    let mut left: Vec<VecDeque<&Frame>> = queues.into_values().collect();
    let mut found = Vec::new();
    while !left.is_empty() {
        let at = random.below(left.len() as u64) as usize;
        for _ in 0..random.from_to(1, 3) {
            found.extend(left[at].pop_front().cloned());
        }
        if left[at].is_empty() {
            left.swap_remove(at);
        }
    }
    found
}
