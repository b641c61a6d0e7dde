//! Deficit round robin, the scheduler that smoothed round robin is measured against (document 000, section 1: it "will serve a flow for
//! a continuous period of time in proportion to the weight of the flow").
//!
//! The channels with records waiting stand in a list, in the order in which they joined. The first of them is visited: its deficit grows by its
//! quantum, weight x 1,024 bytes, and it sends for as long as its deficit pays for its head record, which costs what it costs the independent
//! scheduler. Then it goes to the end of the list and keeps the rest; a channel without records leaves the list and its deficit is 0.

use std::collections::VecDeque;

use crate::scheduler::{cost_of, GRANT};

/// A channel: what it is worth, what it may still send, and the lengths of its waiting records, oldest first.
#[derive(Clone, Debug, PartialEq, Eq)]
pub struct Channel {
    pub weight: u64,
    pub deficit: u64,
    pub lengths: VecDeque<u64>,
}

/// What one send answers: the channel, the record's length, and whether this send started a visit.
#[derive(Clone, Copy, Debug, PartialEq, Eq)]
pub struct Sent {
    pub slot: usize,
    pub length: u64,
    pub started: bool,
}

#[derive(Clone, Debug, Default, PartialEq, Eq)]
pub struct RoundRobin {
    /// By slot; none is ever closed.
    pub channels: Vec<Channel>,
    /// The slots with a record waiting. While a visit is open, its slot is the first.
    pub rows: VecDeque<usize>,
    /// The first of the rows is being visited.
    pub visit: bool,
}

impl RoundRobin {
    /// Opens a channel in the next slot.
    pub fn open(&mut self, weight: u64) -> usize {
        self.channels.push(Channel { weight, deficit: 0, lengths: VecDeque::new() });
        self.channels.len() - 1
    }

    /// Adds a record; the slot joins the rows at the end if it is the only one. It costs 1,024 at the most, so a visit sends at least one.
    pub fn put(&mut self, slot: usize, length: u64) {
        self.channels[slot].lengths.push_back(length);
        if self.channels[slot].lengths.len() == 1 {
            self.rows.push_back(slot);
        }
    }

    /// Sends the next record; none where no record waits.
    #[allow(clippy::should_implement_trait)]
    pub fn next(&mut self) -> Option<Sent> {
        let slot = *self.rows.front()?;
        let channel = &mut self.channels[slot];
        let started = !self.visit;
        if started {
            channel.deficit += channel.weight * GRANT;
        }
        let length = channel.lengths.pop_front()?;
        channel.deficit -= cost_of(length);
        self.visit = channel.lengths.front().is_some_and(|&head| cost_of(head) <= channel.deficit);
        if !self.visit {
            self.rows.pop_front();
            if channel.lengths.is_empty() {
                channel.deficit = 0;
            } else {
                self.rows.push_back(slot);
            }
        }
        Some(Sent { slot, length, started })
    }
}
