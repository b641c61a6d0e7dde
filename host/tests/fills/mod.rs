//! The corners of who is filling up (document 02, §7): in calls on sound states and on changed memories.

use host::history::Call;
use host::layout;
use host::notes::Notes;
use host::scheduler::{Kind, Scheduler, LISTED};
use host::sound::Rule;

pub const CORNERS: [&str; 22] = [
    "two listed channels are equally full",
    "a tie decides who is listed",
    "more than five channels have bytes",
    "just five channels have bytes",
    "slot 0 is listed last",
    "a put brings a channel into the list for another",
    "a put brings a channel into a list with room",
    "a put moves a channel up the list",
    "a put makes a tie that the lower slot wins",
    "a put makes a tie that the lower slot loses",
    "a put of a channel that stays out",
    "a send lets a channel fall out of the list",
    "a send moves a channel down the list",
    "a send makes a tie that the higher slot loses",
    "five are left of six with a last send",
    "four are left of five with a last send",
    "a listed channel begins to drain",
    "a listed channel is freed with its last send",
    "64,896 bytes wait in a channel",
    "more than 32,767 bytes wait in a channel beside others",
    "an image is read, and five are listed",
    "Fullest answers none",
];

/// What a call on a changed memory meets.
pub const DAMAGED: [&str; 6] = [
    "a sum is off by framing, and no other fault",
    "a sum is off by a byte, and no other fault",
    "a tie is turned in the list, and no other fault",
    "a slot without bytes is listed, and no other fault",
    "one too few is listed, and no other fault",
    "the list goes by sums that are wrong, and no other fault",
];

/// An accepted call.
pub fn look_at_filling(before: &Scheduler, after: &Scheduler, call: &Call, fields: &[u32], met: &mut impl FnMut(&'static str, bool)) {
    let (was, is) = (Notes::of(before), Notes::of(after));
    let filled = |notes: &Notes| notes.bytes.iter().filter(|&&bytes| bytes > 0).count();
    let place = |notes: &Notes, slot: usize| notes.listed.iter().position(|&listed| listed == slot);
    let equal = |one: usize, other: usize| is.bytes[one] == is.bytes[other];
    match call {
        Call::Put { slot, .. } => {
            let slot = *slot as usize;
            let (old, new) = (place(&was, slot), place(&is, slot));
            met("a put brings a channel into the list for another", old.is_none() && new.is_some() && was.listed.len() == LISTED);
            met("a put brings a channel into a list with room", old.is_none() && new.is_some() && was.listed.len() < LISTED);
            met("a put moves a channel up the list", old.is_some() && new < old);
            met("a put of a channel that stays out", new.is_none());
            let ties = |other: &usize| *other != slot && equal(slot, *other);
            met("a put makes a tie that the lower slot wins", is.listed.iter().filter(|other| ties(other)).any(|&other| slot < other));
            met("a put makes a tie that the lower slot loses", is.listed.iter().filter(|other| ties(other)).any(|&other| slot > other));
            met("64,896 bytes wait in a channel", is.bytes[slot] == 64_896);
        }
        Call::Next => {
            let slot = fields[0] as usize;
            let (old, new) = (place(&was, slot), place(&is, slot));
            let emptied = is.bytes[slot] == 0;
            met("a send lets a channel fall out of the list", old.is_some() && new.is_none() && !emptied);
            met("a send moves a channel down the list", new.is_some() && new > old);
            met(
                "a send makes a tie that the higher slot loses",
                old.is_some() && is.listed.iter().any(|&other| other < slot && equal(slot, other)),
            );
            met("five are left of six with a last send", emptied && filled(&was) == 6 && old.is_some());
            met("four are left of five with a last send", emptied && filled(&was) == 5);
            met("a listed channel is freed with its last send", emptied && old.is_some() && after.channels[slot].kind == Kind::Free);
        }
        Call::Close { slot, .. } => {
            met("a listed channel begins to drain", fields[0] == 0 && place(&is, *slot as usize).is_some());
            assert_eq!(was, is, "a close changes no notes: a channel that is freed at once has no record");
        }
        Call::Fullest => met("Fullest answers none", fields[0] == 0),
        Call::Unpark { .. } => met("an image is read, and five are listed", is.listed.len() == LISTED),
        _ => {}
    }
    if !matches!(call, Call::Put { .. } | Call::Next) {
        return;
    }
    met("two listed channels are equally full", is.listed.windows(2).any(|two| equal(two[0], two[1])));
    let left_out = (0..is.bytes.len()).filter(|slot| !is.listed.contains(slot) && is.bytes[*slot] > 0);
    met("a tie decides who is listed", is.listed.last().is_some_and(|&last| { left_out }.any(|slot| equal(last, slot))));
    met("more than five channels have bytes", filled(&is) > LISTED);
    met("just five channels have bytes", filled(&is) == LISTED);
    met("slot 0 is listed last", is.listed.len() < LISTED && is.listed.last() == Some(&0));
    met("more than 32,767 bytes wait in a channel beside others", is.listed.len() > 1 && is.bytes[is.listed[0]] > 32_767);
}

/// A memory that has been changed, where the notes alone may be wrong.
pub fn look_at_notes(memory: &[u8], met: &mut impl FnMut(&'static str, bool)) {
    let Some((state, notes)) = layout::from_bytes(memory).zip(layout::notes_from_bytes(memory)) else { return };
    if !state.sound() || layout::with_notes(&state, &notes) != memory {
        return;
    }
    let (broken, right) = (notes.broken(&state), Notes::of(&state));
    let off: Vec<(u64, u64)> = notes.bytes.iter().copied().zip(right.bytes.iter().copied()).filter(|(is, should)| is != should).collect();
    let sums = broken == [Rule::Bytes] && off.len() == 1;
    met("a sum is off by framing, and no other fault", sums && off[0].0 == off[0].1 + 10);
    met("a sum is off by a byte, and no other fault", sums && off[0].0.abs_diff(off[0].1) == 1);
    let list = broken == [Rule::Fullest];
    let by_bytes = |list: &[usize]| list.iter().map(|&slot| right.bytes.get(slot).copied()).collect::<Vec<_>>();
    met("a tie is turned in the list, and no other fault", list && by_bytes(&notes.listed) == by_bytes(&right.listed));
    let empty = |&slot: &usize| right.bytes.get(slot) == Some(&0);
    met("a slot without bytes is listed, and no other fault", list && notes.listed.iter().any(empty));
    met("one too few is listed, and no other fault", list && notes.listed.len() + 1 == right.listed.len());
    let by_sums = |two: &[usize]| (notes.bytes[two[1]], two[0]) < (notes.bytes[two[0]], two[1]);
    let both = broken == [Rule::Bytes, Rule::Fullest] && notes.listed.iter().all(|&slot| slot < 64);
    met("the list goes by sums that are wrong, and no other fault", both && notes.listed.windows(2).all(by_sums));
}
