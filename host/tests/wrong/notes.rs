//! The slips of the notes: in the sums and the list that a call leaves, in their check, and in what is answered of them.

use std::cmp::Reverse;

use host::answers::{Filling, Fullest, Refusal, Told};
use host::layout::{self, LENGTH, LIST, LIST_COUNT};
use host::notes::Notes;
use host::scheduler::{Kind, Scheduler, FRAMING, GOING, LISTED};

use super::{Slip, Wrong};

impl Wrong {
    /// A call was accepted and has changed the memory: its notes as the slip has them.
    pub fn noted(&self, before: &[u8], state: &mut [u8]) {
        let (Some(was), Some(is), Some(old)) = (layout::from_bytes(before), layout::from_bytes(state), layout::notes_from_bytes(before))
        else {
            return;
        };
        if before == state {
            return;
        }
        let Notes { mut bytes, mut listed } = Notes::of(&is);
        let kept_up = self.kept_up(&old, &bytes, &listed);
        // A slot whose last record was sent, and whether it is free by then.
        let emptied = (0..bytes.len()).find(|&slot| bytes[slot] == 0 && old.bytes[slot] > 0);
        let drained = emptied.filter(|&slot| was.channels[slot].kind == Kind::Closing);
        match self.0 {
            Slip::TieByHigherSlot => listed = ranked(&bytes, |slot| (Reverse(bytes[slot]), bytes.len() - slot)),
            Slip::NoneListed => {
                let empty = (0..bytes.len()).filter(|&slot| is.channels[slot].kind == Kind::Open && bytes[slot] == 0);
                listed = listed.into_iter().chain(empty).take(LISTED).collect();
            }
            Slip::BytesWithFraming => {
                bytes.iter_mut().zip(&is.channels).for_each(|(bytes, channel)| *bytes += FRAMING * channel.records.len() as u64);
            }
            Slip::SignedBytes => listed = ranked(&bytes, |slot| (Reverse(i64::from(bytes[slot] as i16)), slot)),
            Slip::MostRecordsFirst => listed = ranked(&bytes, |slot| (Reverse(is.channels[slot].records.len()), slot)),
            Slip::ListOfFour => listed.truncate(LISTED - 1),
            Slip::CutBySlot => {
                let first: Vec<usize> = (0..bytes.len()).filter(|&slot| bytes[slot] > 0).take(LISTED).collect();
                listed = ranked(&bytes, |slot| (!first.contains(&slot), Reverse(bytes[slot]), slot));
            }
            Slip::ClosingLeftOut => listed.retain(|&slot| is.channels[slot].kind != Kind::Closing),
            Slip::BytesKeptAfterDrain => {
                if let Some(slot) = drained {
                    bytes[slot] = old.bytes[slot];
                }
            }
            Slip::ListKeptAfterLastSend if emptied.is_some() && drained.is_none() => listed = old.listed,
            Slip::ListKeptAfterDrain if drained.is_some() => listed = old.listed,
            Slip::LastNotReplaced | Slip::PutKeepsOrder | Slip::FallStaysListed | Slip::NoneMovesUp => listed = kept_up,
            _ => return,
        }
        state.copy_from_slice(&layout::with_notes(&is, &Notes { bytes, listed }));
    }

    /// The list as an engine keeps it up that moves one entry and forgets a case.
    fn kept_up(&self, Notes { bytes: was, listed: old }: &Notes, bytes: &[u64], right: &[usize]) -> Vec<usize> {
        let joins = right.iter().copied().find(|slot| !old.contains(slot));
        let leaves = old.iter().copied().find(|slot| !right.contains(slot));
        let emptied = old.iter().any(|&slot| bytes[slot] == 0);
        let own = || ranked(bytes, |slot| (!old.contains(&slot), Reverse(bytes[slot]), slot));
        match self.0 {
            // One that has grown beyond the last of five stays out.
            Slip::LastNotReplaced if leaves.is_some() && joins.is_some_and(|slot| bytes[slot] > was[slot]) => own(),
            // One that has grown stays where it stood.
            Slip::PutKeepsOrder if joins.or(leaves).is_none() => old.to_vec(),
            // One that has fallen below one that is not listed stays, where its bytes put it among the others.
            Slip::FallStaysListed if joins.is_some() && leaves.is_some_and(|slot| 0 < bytes[slot] && bytes[slot] < was[slot]) => own(),
            // The place of one that has nothing left stays empty.
            Slip::NoneMovesUp if emptied => old.iter().copied().filter(|&slot| bytes[slot] > 0).collect(),
            _ => right.to_vec(),
        }
    }

    /// What the engine goes on with where its check trusts some of the notes.
    pub fn notes_passed(&self, state: &[u8]) -> Option<Scheduler> {
        let scheduler = layout::from_bytes(state).filter(Scheduler::sound)?;
        let (notes, right) = (layout::notes_from_bytes(state)?, Notes::of(&scheduler));
        let mut again = layout::with_notes(&scheduler, &notes);
        if self.is(Slip::BehindTheListUnchecked) {
            again[LIST.places()].copy_from_slice(&state[LIST.places()]);
        }
        let by_sums = |slot: &usize| notes.bytes.get(*slot).copied();
        let passes = match self.0 {
            Slip::ListTrusted => notes.bytes == right.bytes,
            Slip::SumsTrusted => notes.listed == ranked(&notes.bytes, |slot| (Reverse(notes.bytes[slot]), slot)),
            Slip::TieUnchecked => notes.bytes == right.bytes && notes.listed.iter().map(by_sums).eq(right.listed.iter().map(by_sums)),
            Slip::BehindTheListUnchecked => notes == right,
            _ => false,
        };
        (passes && again == state).then_some(scheduler)
    }

    pub fn ask_call(&self, scheduler: &Scheduler, slot: u32, ticket: u32) -> Result<Told, Refusal> {
        if self.is(Slip::AskUnparked) {
            return Scheduler { mark: GOING, ..scheduler.clone() }.ask_sound(slot, ticket);
        }
        let told = scheduler.ask_sound(slot, ticket)?;
        let framing = if self.is(Slip::AskWithFraming) { FRAMING as u32 * told.waiting } else { 0 };
        Ok(Told { bytes: told.bytes + framing, ..told })
    }

    pub fn fullest_call(&self, scheduler: &Scheduler) -> Result<Fullest, Refusal> {
        if self.is(Slip::FullestUnparked) {
            return Scheduler { mark: GOING, ..scheduler.clone() }.fullest_sound();
        }
        let Fullest(mut list) = scheduler.fullest_sound()?;
        for filling in &mut list {
            let records = scheduler.channels[filling.slot as usize].records.len() as u32;
            *filling = match self.0 {
                Slip::FullestWithFraming => Filling { bytes: filling.bytes + FRAMING as u32 * records, ..*filling },
                Slip::FullestPairsTurned => Filling { slot: filling.bytes, bytes: filling.slot },
                _ => *filling,
            };
        }
        Ok(Fullest(list))
    }

    /// Start or the reader has written this memory over the one before.
    pub fn notes_written(&self, before: &[u8], state: &mut [u8]) {
        if state.len() != LENGTH {
            return;
        }
        match self.0 {
            Slip::UnparkListEmpty => state[LIST_COUNT.start..].fill(0),
            Slip::UnparkKeepsNotes | Slip::StartKeepsNotes => {
                let notes = layout::BYTES.start;
                state[notes..].copy_from_slice(&before[notes..]);
            }
            _ => {}
        }
    }
}

/// The slots with bytes, by a key, and the first five of them.
fn ranked<K: Ord>(bytes: &[u64], key: impl Fn(usize) -> K) -> Vec<usize> {
    let mut slots: Vec<usize> = (0..bytes.len()).filter(|&slot| bytes[slot] > 0).collect();
    slots.sort_by_key(|&slot| key(slot));
    slots.truncate(LISTED);
    slots
}
