//! The slips of edition 2: when a row leaves, at a round's end, in the search for a row, and at Start.

use host::answers::Refusal;
use host::engine::Engine;
use host::layout::{self, MARK};
use host::model::Model;
use host::scheduler::Scheduler;
use host::spread::term_of;

use super::{Slip, Wrong, GIVEN_UP};

impl Wrong {
    /// A row has left; given are the order and P from before.
    pub fn leave_slips(&self, scheduler: &mut Scheduler, order: u64, position: u64) {
        if scheduler.edition != 2 {
            return;
        }
        match self.0 {
            Slip::KeptWhenEmpty if scheduler.rows.is_empty() => (scheduler.order, scheduler.scan.position) = (order, position),
            Slip::FallsAtOnce => scheduler.order = scheduler.order_of_rows(),
            Slip::PositionReduced => scheduler.scan.position %= 1 << scheduler.order_of_rows(),
            _ => {}
        }
    }

    /// The step at a round's end, or where the engine takes one for it.
    pub fn end_round(&self, scheduler: &mut Scheduler) {
        let scan = &mut scheduler.scan;
        let last = !scheduler.rows.is_empty() && scan.position + 1 == 1 << scheduler.order;
        let visited = scan.visit.is_none() || self.is(Slip::EndInVisit);
        let none_left = scan.to_visit.is_empty() || self.is(Slip::EndWithSlots);
        if !(last && visited && none_left && (scheduler.edition == 2 || self.is(Slip::FirstEnds))) {
            return;
        }
        if !self.is(Slip::EndKeepsOrder) {
            scheduler.order = scheduler.order_of_rows();
        }
        scheduler.scan.position = match self.0 {
            Slip::EndAtOne => 1,
            Slip::EndKeepsPosition => (1 << scheduler.order) - 1,
            _ => 0,
        };
    }

    /// Terms until one has a row, or the number of a search that is given up.
    pub fn take_terms(&self, scheduler: &mut Scheduler) -> Result<u32, u32> {
        let before = scheduler.scan.clone();
        let (mut terms, mut ended) = (0, false);
        while scheduler.edition == 2 && !self.is(Slip::TwoTermsAlone) || terms < 2 {
            scheduler.take_term();
            self.late(scheduler);
            terms += 1;
            if !scheduler.scan.to_visit.is_empty() {
                return Ok(if ended { terms } else { self.jump(scheduler, terms) });
            }
            if scheduler.round_is_over() && !self.is(Slip::EndNotInSearch) {
                self.end_round(scheduler);
                ended = true;
                terms = if self.is(Slip::EndUncounted) { 0 } else { terms };
            }
        }
        scheduler.scan = before;
        Err(GIVEN_UP)
    }

    /// The table is read one position late, but for the last: the column is that of the next term.
    fn late(&self, scheduler: &mut Scheduler) {
        let (order, last) = (scheduler.order, (1 << scheduler.order) - 1);
        if self.is(Slip::TermLate) && scheduler.scan.position < last {
            let column = order - term_of(order, scheduler.scan.position + 1);
            scheduler.scan.to_visit = scheduler.column(column).into_iter().collect();
            scheduler.scan.column = if scheduler.scan.to_visit.is_empty() { 0 } else { column };
        }
    }

    /// A jump over empty columns that is one multiple short or one too far: the rows' columns come at multiples of 2^(k - their order).
    fn jump(&self, scheduler: &mut Scheduler, terms: u32) -> u32 {
        let multiple = 1 << (scheduler.order - scheduler.order_of_rows());
        let position = &mut scheduler.scan.position;
        match self.0 {
            _ if scheduler.edition == 1 => terms,
            Slip::JumpShort if u64::from(terms) > multiple => {
                *position -= multiple;
                terms - multiple as u32
            }
            Slip::JumpFar if terms > 1 && *position + multiple < 1 << scheduler.order => {
                *position += multiple;
                terms + multiple as u32
            }
            _ => terms,
        }
    }

    pub fn start_call(&self, state: &mut [u8], edition: u32) -> u32 {
        let whole = state.len() == layout::LENGTH;
        match (self.0, edition) {
            (Slip::EditionZero, 0) | (Slip::EditionThree, 3) if whole => {
                layout::write(&Scheduler::fresh(u64::from(edition)), state);
                0
            }
            (Slip::EditionIgnored, _) => Model.start(state, 1),
            (Slip::StartKeepsParked, _) => {
                let mark = state.get(MARK.start).copied().filter(|&mark| mark == 1);
                let number = Model.start(state, edition);
                if let (Some(mark), 0) = (mark, number) {
                    state[MARK.start] = mark;
                }
                number
            }
            (Slip::EditionBeforeLength, edition) if !(1..=2).contains(&edition) => Refusal::BadEdition.number(),
            _ => Model.start(state, edition),
        }
    }
}
