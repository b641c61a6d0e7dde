//! The steps of Next, and what they look at (document 01, "Next does this"; document 02, §3). They are apart so that each can be read beside its
//! sentence. Terms are taken one by one in both editions, and a round's end is a step of its own.

use crate::scheduler::{Kind, Record, Scheduler, GRANT};
use crate::spread::term_of;

/// What a Next has just done.
#[derive(Clone, Copy, Debug, PartialEq, Eq)]
pub enum Moment {
    Term,
    RoundEnd,
    VisitStart { slot: usize },
    Sent { slot: usize, cost: u64 },
    Settled { slot: usize },
}

/// Who is told of each moment, with the state right after it.
pub type Tell<'a> = &'a mut dyn FnMut(&Scheduler, Moment);

impl Scheduler {
    /// "0 without rows, else one more than the place of the highest one bit in any row's weight": the most halvings that
    /// a row's weight takes to become 0.
    pub fn order_of_rows(&self) -> u64 {
        let mut order = 0;
        for channel in self.rows.iter().filter_map(|&slot| self.channels.get(slot)) {
            let (mut weight, mut halvings) = (channel.weight, 0);
            while weight > 0 {
                weight /= 2;
                halvings += 1;
            }
            order = order.max(halvings);
        }
        order
    }

    /// "Column c is the rows, in row order, whose weight has bit c."
    pub fn column(&self, column: u64) -> Vec<usize> {
        let has_bit = |slot: &usize| self.channels[*slot].weight >> column & 1 == 1;
        self.rows.iter().copied().filter(has_bit).collect()
    }

    /// Step 1, of a sound state with rows: the slot that sends, whether its visit starts now, and the terms taken.
    pub fn choose(&mut self, tell: Tell) -> (usize, bool, u32) {
        if let Some(slot) = self.scan.visit {
            return (slot, false, 0);
        }
        let terms = if self.scan.to_visit.is_empty() { self.take_terms(tell) } else { 0 };
        let listed = |slot: &usize| self.scan.to_visit.contains(slot);
        let first = self.rows.iter().copied().find(listed).expect("a slot to visit is a row");
        self.start_visit(first);
        tell(self, Moment::VisitStart { slot: first });
        (first, true, terms)
    }

    /// Terms until one has a row; all of them are counted, a finished round's too. Edition 1: "If that column is empty, one more term is taken". Edition 2: "A call
    /// goes on taking terms, through a round's end if need be, until it finds a row. Up to 2^k - 1 terms may be taken, k as before the call, not two." A sound
    /// state with rows has one within those (document 02, §8): a run in which there is none stops here.
    pub fn take_terms(&mut self, tell: Tell) -> u32 {
        let most = if self.edition == 2 { (1 << self.order) - 1 } else { 2 };
        for terms in 1..=most {
            self.take_term();
            tell(self, Moment::Term);
            if !self.scan.to_visit.is_empty() {
                return terms;
            }
            self.end_round(tell);
        }
        panic!("{most} terms find no row in edition {}", self.edition);
    }

    /// One term: "P goes up by one, and 2^k becomes 1; the column is k minus the term", and "All rows of the column found become the slots to visit".
    pub fn take_term(&mut self) {
        self.scan.position += 1;
        if self.scan.position == 1 << self.order {
            self.scan.position = 1;
        }
        let column = self.order - term_of(self.order, self.scan.position);
        self.scan.to_visit = self.column(column).into_iter().collect();
        self.scan.column = if self.scan.to_visit.is_empty() { 0 } else { column };
    }

    /// "a round's end (term 2^k - 1 taken, no visit open, none left to visit)". In edition 1, and without rows, there is none.
    pub fn round_is_over(&self) -> bool {
        self.edition == 2
            && !self.rows.is_empty()
            && self.scan.visit.is_none()
            && self.scan.to_visit.is_empty()
            && self.scan.position == (1 << self.order.min(63)) - 1
    }

    /// The step at a round's end, nothing elsewhere: "then the order is worked out afresh and P is 0".
    pub fn end_round(&mut self, tell: Tell) {
        if self.round_is_over() {
            self.order = self.order_of_rows();
            self.scan.position = 0;
            tell(self, Moment::RoundEnd);
        }
    }

    /// Step 2: the slot is taken off the list and granted 1,024.
    pub fn start_visit(&mut self, slot: usize) {
        self.scan.to_visit.remove(&slot);
        if self.scan.to_visit.is_empty() {
            self.scan.column = 0;
        }
        self.scan.visit = Some(slot);
        self.channels[slot].deficit += GRANT;
    }

    /// Step 3: the head record leaves and its cost is taken from the deficit.
    pub fn send(&mut self, slot: usize) -> Record {
        let channel = &mut self.channels[slot];
        let record = channel.records.pop_front().expect("a row has a record");
        channel.deficit -= record.cost();
        record
    }

    /// Step 4: the row leaves with its last record; otherwise the visit stays open or not, by the new head.
    pub fn settle(&mut self, slot: usize) {
        let channel = &mut self.channels[slot];
        let Some(head) = channel.records.front() else {
            channel.deficit = 0;
            if channel.kind == Kind::Closing {
                channel.free();
            }
            self.scan.visit = None;
            self.row_leaves(slot);
            return;
        };
        if head.cost() > channel.deficit {
            self.scan.visit = None;
        }
    }

    /// Edition 1: "the order is worked out again and P becomes P mod 2^k". Edition 2: "Without rows both become 0 at once. Otherwise P isn't reduced", and
    /// the order is held.
    pub fn row_leaves(&mut self, slot: usize) {
        self.rows.retain(|&row| row != slot);
        if self.edition == 1 || self.rows.is_empty() {
            self.order = self.order_of_rows();
            self.scan.position %= 1 << self.order;
        }
    }
}
