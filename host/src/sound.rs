//! When a state is sound: document 01's list, one rule after the other, over the plain structure, and what document 02 says of editions (§3),
//! of the shared cells (§4) and of the mark of a parked state (§6). The two rules of §7 are about what a memory says twice and stand in [`crate::notes`];
//! document 01's last rule ("bytes that stand for nothing are 0") is about bytes and stands in [`crate::layout`].

use crate::scheduler::{
    Channel, Kind, Record, Scheduler, COLUMNS, EDITIONS, GOING, LARGEST_WEIGHT, LAST_TICKET, LONGEST, MOST_WAITING, PARKED, SERIALS,
    SHARED, SLOTS,
};

pub const LARGEST_DEFICIT: u64 = 1_023;
pub const LARGEST_IN_VISIT: u64 = 2_046;

/// The rules of the list, in its order, with that of the shared cells beside the room's, the edition's and the mark's.
#[derive(Clone, Copy, Debug, PartialEq, Eq)]
pub enum Rule {
    Free,
    Held,
    Records,
    Shared,
    Rows,
    Position,
    ToVisit,
    Visit,
    Deficit,
    Edition,
    Mark,
    /// Of a memory's notes: the bytes waiting, and the list of the fullest.
    Bytes,
    Fullest,
}

impl Scheduler {
    pub fn sound(&self) -> bool {
        self.broken().is_empty()
    }

    /// The rules that this state breaks. Any state can be asked, however wrong its numbers are.
    pub fn broken(&self) -> Vec<Rule> {
        let rules = [
            (Rule::Free, self.channels.len() == SLOTS && self.channels.iter().all(free_is_empty)),
            (Rule::Held, self.channels.iter().all(held_is_in_range)),
            (Rule::Records, self.channels.iter().all(records_are_in_range)),
            // "A sound state keeps both limits": a channel's is among the rules of its records.
            (Rule::Shared, self.shared_in_use() <= SHARED),
            (Rule::Rows, self.rows_are_those_waiting() && self.order_is_of_the_rows()),
            (Rule::Position, self.position_is_in_range()),
            (Rule::ToVisit, self.list_is_of_the_column()),
            (Rule::Visit, self.visit_is_of_a_row()),
            (Rule::Deficit, self.deficits_are_in_range()),
            (Rule::Edition, EDITIONS.contains(&self.edition)),
            (Rule::Mark, [GOING, PARKED].contains(&self.mark)),
        ];
        rules.into_iter().filter(|(_, kept)| !kept).map(|(rule, _)| rule).collect()
    }

    /// "the rows list each slot with records once and no other"
    fn rows_are_those_waiting(&self) -> bool {
        let mut times = vec![0; self.channels.len()];
        for &slot in &self.rows {
            match times.get_mut(slot) {
                Some(time) => *time += 1,
                None => return false,
            }
        }
        self.channels.iter().zip(times).all(|(channel, time)| time == usize::from(!channel.records.is_empty()))
    }

    /// "0 without rows, else one more than the place of the highest one bit in any row's weight". In edition 2, "with rows, a sound order may exceed theirs,
    /// up to 12".
    fn order_is_of_the_rows(&self) -> bool {
        let of_rows = self.order_of_rows();
        let held = self.edition == 2 && !self.rows.is_empty();
        if held {
            of_rows <= self.order && self.order <= COLUMNS
        } else {
            self.order == of_rows
        }
    }

    /// "P is at most 2^k - 1"; in edition 2, with rows, "a sound P is 2^k - 1 only while a visit is open or remains". An order that no weight has is
    /// another rule's matter.
    fn position_is_in_range(&self) -> bool {
        self.scan.position < 1 << self.order.min(63) && !self.round_is_over()
    }

    /// "slots still to visit are rows of the noted column, and the column is 0 when there are none"
    fn list_is_of_the_column(&self) -> bool {
        if self.scan.to_visit.is_empty() {
            return self.scan.column == 0;
        }
        self.scan.to_visit.iter().all(|&slot| {
            let weight = self.channels.get(slot).map_or(0, |channel| channel.weight);
            self.rows.contains(&slot) && self.scan.column < 64 && weight >> self.scan.column & 1 == 1
        })
    }

    /// "an open visit is of a row not still to visit, whose head length is at most its deficit, itself at most 2,046": the deficit is compared with
    /// what the head costs.
    fn visit_is_of_a_row(&self) -> bool {
        let Some(slot) = self.scan.visit else { return true };
        let Some(channel) = self.channels.get(slot) else { return false };
        let Some(head) = channel.records.front() else { return false };
        self.rows.contains(&slot)
            && !self.scan.to_visit.contains(&slot)
            && head.cost() <= channel.deficit
            && channel.deficit <= LARGEST_IN_VISIT
    }

    /// "every other deficit is at most 1,023, and 0 where no record waits"
    fn deficits_are_in_range(&self) -> bool {
        self.channels.iter().enumerate().all(|(slot, channel)| {
            self.scan.visit == Some(slot)
                || if channel.records.is_empty() { channel.deficit == 0 } else { channel.deficit <= LARGEST_DEFICIT }
        })
    }
}

/// "a free slot has weight 0, deficit 0, next serial 0 and no records"
fn free_is_empty(channel: &Channel) -> bool {
    let empty = channel.weight == 0 && channel.deficit == 0 && channel.next_serial == 0 && channel.records.is_empty();
    channel.kind != Kind::Free || (empty && channel.ticket <= LAST_TICKET)
}

/// "an open or closing slot has a ticket of at least 1 and a weight in range, and a closing one has a record"
fn held_is_in_range(channel: &Channel) -> bool {
    let in_range =
        (1..=LAST_TICKET).contains(&channel.ticket) && (1..=LARGEST_WEIGHT).contains(&channel.weight) && channel.next_serial < SERIALS;
    match channel.kind {
        Kind::Free => true,
        Kind::Open => in_range,
        Kind::Closing => in_range && !channel.records.is_empty(),
    }
}

/// "lengths are in range and at most 16 records wait per channel"; document 02, §4 has "up to 64 a channel" for it
fn records_are_in_range(channel: &Channel) -> bool {
    let in_range = |record: &Record| (1..=LONGEST).contains(&record.length) && record.reference <= u64::from(u32::MAX);
    channel.records.len() <= MOST_WAITING && channel.records.iter().all(in_range)
}
