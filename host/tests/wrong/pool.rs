//! The slips of the room and the shared cells: in Put's last two checks, and in the check of the memory.

use host::answers::{Added, Refusal};
use host::scheduler::{Record, Scheduler, KEPT, MOST_WAITING, SERIALS, SHARED};

use super::{Slip, Wrong};

impl Wrong {
    /// Why a channel of the state takes no more, as the slip has it.
    fn no_room(&self, scheduler: &Scheduler, slot: usize) -> Option<Refusal> {
        let waiting = scheduler.channels[slot].records.len();
        let kept = match self.0 {
            Slip::OneKept => 1,
            Slip::ThreeKept => 3,
            _ => KEPT,
        };
        let beyond = if self.is(Slip::SumOfRecords) { 0 } else { kept };
        let sum: usize = scheduler.channels.iter().map(|channel| channel.records.len().saturating_sub(beyond)).sum();
        let sum_limit = match self.0 {
            Slip::OneSharedMore => SHARED + 1,
            Slip::OneSharedFewer => SHARED - 1,
            _ => SHARED,
        };
        let room = match self.0 {
            Slip::RoomOneMore => MOST_WAITING + 1,
            Slip::RoomOneFewer => MOST_WAITING - 1,
            _ => MOST_WAITING,
        };
        let least = if self.is(Slip::ThirteenForOne) { 1 } else { kept };
        let full = (waiting >= room).then_some(Refusal::Full);
        let none_shared = (waiting >= least && sum >= sum_limit).then_some(Refusal::NoShared);
        if self.is(Slip::ThirteenBeforeFive) {
            none_shared.or(full)
        } else {
            full.or(none_shared)
        }
    }

    /// Put's result with the slip's limits in place of the rules': a refusal of the rules' may be none here, and the other way round.
    pub fn put_within(&self, scheduler: &mut Scheduler, slot: u32, ticket: u32, record: Record) -> Result<Added, Refusal> {
        let before = scheduler.clone();
        let result = scheduler.put_sound(slot, ticket, record.length as u32, record.reference as u32);
        if !matches!(result, Ok(_) | Err(Refusal::Full | Refusal::NoShared)) {
            return result;
        }
        if let Some(refusal) = self.no_room(&before, slot as usize) {
            return Err(refusal);
        }
        if result.is_err() {
            let channel = &mut scheduler.channels[slot as usize];
            channel.records.push_back(record);
            let serial = channel.next_serial as u32;
            channel.next_serial = (channel.next_serial + 1) % SERIALS;
            return Ok(Added { serial, waiting: channel.records.len() as u32 });
        }
        result
    }

    /// Whether the check refuses a state that is within the limits.
    pub fn refused_within(&self, scheduler: &Scheduler) -> bool {
        let waiting = scheduler.channels.iter().map(|channel| channel.records.len());
        match self.0 {
            Slip::SumOneFewerChecked => scheduler.shared_in_use() > SHARED - 1,
            Slip::SumOfRecordsChecked => waiting.sum::<usize>() > SHARED,
            Slip::RoomOneFewerChecked => waiting.max() > Some(MOST_WAITING - 1),
            _ => false,
        }
    }

    /// What the engine goes on with where its check forgets the sum, or takes one cell or one place more.
    pub fn within_limits(&self, scheduler: &mut Scheduler) {
        let channels = &mut scheduler.channels;
        if self.is(Slip::RoomOneMoreChecked) {
            channels
                .iter_mut()
                .filter(|channel| channel.records.len() == MOST_WAITING + 1)
                .for_each(|channel| channel.records.truncate(MOST_WAITING));
            return;
        }
        let mut over = scheduler.shared_in_use().saturating_sub(SHARED);
        if self.is(Slip::SumOneMoreChecked) && over > 1 {
            return;
        }
        for channel in &mut scheduler.channels {
            let fewer = over.min(channel.records.len().saturating_sub(KEPT));
            channel.records.truncate(channel.records.len() - fewer);
            over -= fewer;
        }
    }
}
