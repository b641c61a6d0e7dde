//! What pictures of sends are drawn from: the exported calls, and deficit round robin, on the same channels.

use uplink::{term, Edition, Memory};

use crate::deficit::RoundRobin;
use crate::layout;
use crate::scheduler::cost_of;

/// Channels of these weights in slots 0, 1, ..., each with so many records of one length before the first send.
#[derive(Clone, Copy)]
pub struct Load {
    pub weights: &'static [u32],
    pub records: u32,
    pub length: u32,
}

/// One send: the channel and the bytes that it takes on the link, which is what the record costs.
#[derive(Clone, Copy, Debug, PartialEq, Eq)]
pub struct Sending {
    pub slot: usize,
    pub cost: u64,
}

/// The scan that a send belongs to: the position of the term last taken, that term, and the column that it points to.
#[derive(Clone, Copy, Debug, PartialEq, Eq)]
pub struct Scan {
    pub position: u32,
    pub term: u32,
    pub column: u32,
}

impl Load {
    /// Visits of a round: each channel's as often as its weight.
    pub fn round(&self) -> usize {
        self.weights.iter().sum::<u32>() as usize
    }
}

/// So many sends of the exported calls, in edition 1. The load has to last for them: no row leaves before the last send.
pub fn smoothed(load: Load, sends: usize) -> Vec<(Sending, Scan)> {
    let mut memory = Memory::new(Edition::One);
    for &weight in load.weights {
        let opened = memory.open(weight).expect("a slot is free and the weight is in range");
        for reference in 0..load.records {
            memory.put(opened.slot, opened.ticket, load.length, reference).expect("there is room and the length is in range");
        }
    }
    (0..sends).map(|_| sent(&mut memory)).collect()
}

/// The next send. Its position is worked out from the order and position before it and the terms that it took: "P goes up by one, and 2^k
/// becomes 1".
fn sent(memory: &mut Memory) -> (Sending, Scan) {
    let before = layout::from_bytes(memory.bytes()).expect("the calls leave a sound state");
    let sent = memory.next().expect("a record waits");
    let (order, last) = (before.order as u32, (1 << before.order) - 1);
    let position = (0..sent.terms).fold(before.scan.position as u32, |position, _| position % last + 1);
    let term = term(order, position).expect("a visit has a term");
    (Sending { slot: sent.slot as usize, cost: cost_of(u64::from(sent.length)) }, Scan { position, term, column: order - term })
}

/// So many sends of deficit round robin.
pub fn in_one_go(load: Load, sends: usize) -> Vec<Sending> {
    let mut channels = RoundRobin::default();
    for &weight in load.weights {
        let slot = channels.open(u64::from(weight));
        for _ in 0..load.records {
            channels.put(slot, u64::from(load.length));
        }
    }
    let mut next = || channels.next().expect("a record waits");
    (0..sends).map(|_| next()).map(|sent| Sending { slot: sent.slot, cost: cost_of(sent.length) }).collect()
}
