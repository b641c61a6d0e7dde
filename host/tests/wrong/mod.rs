//! Wrong engines: the model engine with one slip each. The comparer must find every one.

mod held;
mod notes;
mod parked;
mod pool;
mod sheets;
mod slip;

use host::answers::{Opened, Refusal, Sent};
use host::engine::Engine;
use host::layout::{self, MARK};
use host::model::{answer_bytes, apart, on, on_by_number};
use host::scheduler::{Kind, Record, Scheduler, FRAMING, LAST_TICKET, LONGEST, MOST_WAITING};
use host::spread;
pub use slip::Slip;

pub struct Wrong(pub Slip);

/// What an engine tells that has searched in too few columns: a number of no refusal (9 is not used).
const GIVEN_UP: u32 = 9;

impl Wrong {
    fn is(&self, slip: Slip) -> bool {
        self.0 == slip
    }

    /// The slot is looked at and not the ticket.
    fn ticket(&self, scheduler: &Scheduler, slot: u32, ticket: u32) -> u32 {
        match scheduler.channels.get(slot as usize) {
            Some(channel) if self.is(Slip::SlotNotTicket) && channel.kind != Kind::Free => channel.ticket as u32,
            _ => ticket,
        }
    }

    /// A slip in what is around the rules' own call: the answer buffer and the check of the memory.
    fn around(&self, state: &mut [u8], answer: &mut [u8], length: usize, call: impl FnOnce(&mut [u8], &mut [u8]) -> u32) -> u32 {
        let before = answer.to_vec();
        if self.is(Slip::WrongAnswerWritten) && answer.len() != length {
            answer.fill(0);
            return Refusal::Unsound.number();
        }
        if self.is(Slip::FourteenBeforeTen) && answer.len() == length && state.get(MARK.start) == Some(&1) {
            answer.fill(0);
            return Refusal::Parked.number();
        }
        if self.is(Slip::NothingUnchecked) && answer.len() == length {
            let notes = layout::notes_from_bytes(state);
            let right = |scheduler: &Scheduler| scheduler.sound() && notes.as_ref().is_some_and(|notes| notes.broken(scheduler).is_empty());
            if let Some(scheduler) = layout::from_bytes(state).filter(right) {
                layout::write(&scheduler, state);
            }
        }
        if let Some(scheduler) = layout::from_bytes(state).filter(|_| answer.len() == length) {
            let in_visit = scheduler.scan.visit.map_or(0, |slot| scheduler.channels[slot].deficit);
            if self.is(Slip::VisitLimit) && in_visit > 2_045 || self.refused_within(&scheduler) {
                answer.fill(0);
                return Refusal::Unsound.number();
            }
        }
        if answer.len() == length {
            if let Some(passed) = self.passed(state) {
                layout::write(&passed, state);
            }
        }
        let state_before = state.to_vec();
        let number = call(state, answer);
        if number == 0 {
            self.noted(&state_before, state);
        }
        if self.is(Slip::AnswerKeptOnRefusal) && number != 0 {
            answer.copy_from_slice(&before);
        }
        number
    }

    /// What the engine goes on with where a wrong check passes an unsound memory: one with a record a byte longer than the longest, with an open visit
    /// whose deficit pays for the bare length of its head, at a round's end, beyond a limit of room and shared cells, or with notes that it trusts.
    fn passed(&self, state: &[u8]) -> Option<Scheduler> {
        if let Some(passed) = self.notes_passed(state) {
            return Some(passed);
        }
        let mut scheduler = layout::from_bytes(state).filter(|scheduler| layout::to_bytes(scheduler) == state)?;
        match self.0 {
            Slip::LongerChecked => {
                let records = scheduler.channels.iter_mut().flat_map(|channel| &mut channel.records);
                records.filter(|record| record.length == LONGEST + 1).for_each(|record| record.length = LONGEST);
            }
            Slip::LengthChecked => {
                let channel = &mut scheduler.channels[scheduler.scan.visit?];
                let head = channel.records.front().filter(|head| head.length <= channel.deficit)?;
                channel.deficit = channel.deficit.max(head.cost());
            }
            Slip::EndTakenAsSound => scheduler.end_round(&mut |_, _| {}),
            Slip::SumUnchecked | Slip::SumOneMoreChecked | Slip::RoomOneMoreChecked => self.within_limits(&mut scheduler),
            _ => return None,
        }
        // Any other fault is still found.
        Some(scheduler).filter(Scheduler::sound)
    }

    fn open_call(&self, scheduler: &mut Scheduler, weight: u32) -> Result<Opened, Refusal> {
        let can_open = scheduler.channels.iter().any(|channel| channel.kind == Kind::Free && channel.ticket != LAST_TICKET);
        if self.is(Slip::SevenBeforeSix) && !can_open {
            return Err(Refusal::NoneFree);
        }
        let opened = scheduler.open_sound(weight)?;
        if self.is(Slip::TicketReused) && opened.ticket > 1 {
            let channel = &mut scheduler.channels[opened.slot as usize];
            channel.ticket -= 1;
            return Ok(Opened { ticket: opened.ticket - 1, ..opened });
        }
        Ok(opened)
    }

    fn put_slips(&self, before: &Scheduler, after: &mut Scheduler, slot: usize, waiting: u32) {
        let scan = &mut after.scan;
        let of_the_column = !scan.to_visit.is_empty() && after.channels[slot].weight >> scan.column & 1 == 1;
        if self.is(Slip::JoinsTheScan) && waiting == 1 && of_the_column {
            scan.to_visit.insert(slot);
        }
        if self.is(Slip::RiseMovesPosition) && before.order > 0 {
            scan.position <<= after.order - before.order;
        }
        if self.is(Slip::PutLowersOrder) && waiting == 1 {
            after.order = after.order_of_rows();
        }
        if self.is(Slip::OrderBeforeJoin) {
            after.order = before.order;
        }
        if self.is(Slip::SerialStops) && before.channels[slot].next_serial == 65_535 {
            after.channels[slot].next_serial = 65_535;
        }
    }

    /// Next with its steps as in the scheduler, and the slips between them.
    fn next_call(&self, scheduler: &mut Scheduler) -> Result<Sent, u32> {
        if !self.is(Slip::NextUnparked) {
            scheduler.going().map_err(Refusal::number)?;
        }
        if scheduler.rows.is_empty() {
            return Err(Refusal::NoneWaits.number());
        }
        if self.is(Slip::EndAtNextCall) {
            self.end_round(scheduler);
        }
        let (slot, started, terms) = self.choose(scheduler)?;
        let channel = &scheduler.channels[slot];
        let ticket = channel.ticket as u32;
        let serial = (channel.next_serial + 65_536 - channel.records.len() as u64) as u32 % 65_536;
        let record = scheduler.send(slot);
        // The bare length is taken; on the visit, framing is taken once with its first record.
        if self.is(Slip::LengthTaken) || self.is(Slip::FramingOnTheVisit) && !started {
            scheduler.channels[slot].deficit += FRAMING;
        }
        self.settle(scheduler, slot);
        if !self.is(Slip::EndAtNextCall) {
            self.end_round(scheduler);
        }
        Ok(Sent { slot: slot as u32, ticket, length: record.length as u32, reference: record.reference as u32, serial, started, terms })
    }

    fn choose(&self, scheduler: &mut Scheduler) -> Result<(usize, bool, u32), u32> {
        if let Some(slot) = scheduler.scan.visit {
            return Ok((slot, false, 0));
        }
        let mut terms = 0;
        if scheduler.scan.to_visit.is_empty() {
            terms = self.take_terms(scheduler)?;
            if self.is(Slip::WrapToZero) && scheduler.scan.position + 1 == 1 << scheduler.order {
                scheduler.scan.position = 0;
            }
        }
        let listed = |slot: &usize| scheduler.scan.to_visit.contains(slot);
        let first =
            if self.is(Slip::SlotOrder) { scheduler.scan.to_visit.first().copied() } else { scheduler.rows.iter().copied().find(listed) };
        let first = first.ok_or(GIVEN_UP)?;
        let column = scheduler.scan.column;
        scheduler.start_visit(first);
        if self.is(Slip::ColumnKept) {
            scheduler.scan.column = column;
        }
        Ok((first, true, terms))
    }

    fn settle(&self, scheduler: &mut Scheduler, slot: usize) {
        let (order, position) = (scheduler.order, scheduler.scan.position);
        let deficit = scheduler.channels[slot].deficit;
        let closing = scheduler.channels[slot].kind == Kind::Closing;
        let kept = scheduler.channels[slot].clone();
        scheduler.settle(slot);
        let channel = &mut scheduler.channels[slot];
        let emptied = channel.records.is_empty();
        match self.0 {
            Slip::DeficitKept if emptied && !closing => channel.deficit = deficit,
            Slip::ClosingKept if emptied && closing => *channel = host::scheduler::Channel { kind: Kind::Open, deficit: 0, ..kept },
            Slip::VisitDecidedLate if !emptied => scheduler.scan.visit = Some(slot),
            Slip::LessForAtMost if !emptied && channel.records[0].cost() == deficit => scheduler.scan.visit = None,
            Slip::LengthCompared | Slip::FramingOnTheVisit if !emptied => {
                scheduler.scan.visit = (channel.records[0].length <= deficit).then_some(slot);
            }
            Slip::PositionOne if scheduler.order > 0 && scheduler.order < order && position > 0 => {
                scheduler.scan.position = scheduler.scan.position.max(1);
            }
            _ if emptied => self.leave_slips(scheduler, order, position),
            _ => {}
        }
    }
}

impl Engine for Wrong {
    fn start(&mut self, state: &mut [u8], edition: u32) -> u32 {
        let before = state.to_vec();
        let number = self.start_call(state, edition);
        if number == 0 && self.is(Slip::StartKeepsNotes) {
            self.notes_written(&before, state);
        }
        number
    }

    fn open(&mut self, state: &mut [u8], weight: u32, answer: &mut [u8]) -> u32 {
        self.around(state, answer, 8, |state, answer| on(state, answer, 8, |scheduler| self.open_call(scheduler, weight)))
    }

    fn put(&mut self, state: &mut [u8], slot: u32, ticket: u32, length: u32, reference: u32, answer: &mut [u8]) -> u32 {
        self.around(state, answer, 8, |state, answer| {
            on(state, answer, 8, |scheduler| {
                let ticket = self.ticket(scheduler, slot, ticket);
                let before = scheduler.clone();
                let longer = self.is(Slip::OneByteLonger) && u64::from(length) == LONGEST + 1;
                let taken = if longer { length - 1 } else { length };
                let record = Record { length: u64::from(taken), reference: u64::from(reference) };
                let result = self.put_within(scheduler, slot, ticket, record);
                match result {
                    Err(Refusal::BadLength)
                        if self.is(Slip::FiveBeforeFour) && before.channels[slot as usize].records.len() == MOST_WAITING =>
                    {
                        return Err(Refusal::Full);
                    }
                    Err(Refusal::AtClosing) if self.is(Slip::FourBeforeThree) && !(1..=LONGEST).contains(&u64::from(length)) => {
                        return Err(Refusal::BadLength);
                    }
                    _ => {}
                }
                let added = result?;
                if let (true, Some(last)) = (longer, scheduler.channels[slot as usize].records.back_mut()) {
                    last.length += 1;
                }
                self.put_slips(&before, scheduler, slot as usize, added.waiting);
                Ok(added)
            })
        })
    }

    fn close(&mut self, state: &mut [u8], slot: u32, ticket: u32, answer: &mut [u8]) -> u32 {
        self.around(state, answer, 4, |state, answer| {
            on(state, answer, 4, |scheduler| {
                let ticket = self.ticket(scheduler, slot, ticket);
                scheduler.close_sound(slot, ticket)
            })
        })
    }

    fn next(&mut self, state: &mut [u8], answer: &mut [u8]) -> u32 {
        self.around(state, answer, 28, |state, answer| on_by_number(state, answer, 28, |scheduler| self.next_call(scheduler)))
    }

    fn ask(&mut self, state: &mut [u8], slot: u32, ticket: u32, answer: &mut [u8]) -> u32 {
        self.around(state, answer, 20, |state, answer| {
            on(state, answer, 20, |scheduler| {
                let ticket = self.ticket(scheduler, slot, ticket);
                self.ask_call(scheduler, slot, ticket)
            })
        })
    }

    fn fullest(&mut self, state: &mut [u8], answer: &mut [u8]) -> u32 {
        self.around(state, answer, 44, |state, answer| on(state, answer, 44, |scheduler| self.fullest_call(scheduler)))
    }

    fn park(&mut self, state: &mut [u8], image: &mut [u8], answer: &mut [u8]) -> u32 {
        self.around(state, answer, 4, |state, answer| self.park_call(state, image, answer))
    }

    fn unpark(&mut self, state: &mut [u8], image: &mut [u8]) -> u32 {
        let before = state.to_vec();
        let number = self.unpark_call(state, image);
        if number == 0 && !self.is(Slip::StartKeepsNotes) {
            self.notes_written(&before, state);
        }
        number
    }

    fn lead(&mut self, w1: u32, v1: u32, w2: u32, v2: u32, answer: &mut [u8]) -> u32 {
        let mut result = spread::lead(w1, v1, w2, v2);
        if self.is(Slip::LeadNarrow) {
            result = result.map(|_| i64::from(w1.wrapping_mul(v2).wrapping_sub(w2.wrapping_mul(v1)) as i32));
        }
        apart(answer, result.map(i64::to_le_bytes))
    }

    fn term(&mut self, order: u32, position: u32, answer: &mut [u8]) -> u32 {
        if self.is(Slip::TermOneFurther) && answer.len() == 4 && (1..=12).contains(&order) && position == 1 << order {
            answer.copy_from_slice(&answer_bytes(&[order + 1]));
            return 0;
        }
        apart(answer, spread::term(order, position).map(u32::to_le_bytes))
    }

    fn sheet(&mut self, weights: &mut [u32], rows: &mut [u32], answer: &mut [u8]) -> u32 {
        self.sheet_call(weights, rows, answer)
    }
}
