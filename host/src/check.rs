//! The check of a lent memory, written straight on the bytes, record by record, with a return at the first fault.
//! It answers as [`crate::layout::is_sound_memory`] does, by another way, and is what the benchmark measures against.

use crate::layout::{
    Field, BYTES, CELLS, COLUMN, DEFICIT, EDITION, KIND, LENGTH, LENGTHS, LIST, LIST_COUNT, MARK, NEXT_SERIAL, NOTHING, ORDER, POSITION,
    REFERENCES, ROWS, ROW_COUNT, TICKET, TO_VISIT, VISIT, WAITING, WEIGHT,
};
use crate::scheduler::{COLUMNS, FRAMING, KEPT, LARGEST_WEIGHT, LISTED, LONGEST, MOST_WAITING, SHARED, SLOTS};
use crate::sound::{LARGEST_DEFICIT, LARGEST_IN_VISIT};

/// What the check knows of one slot.
#[derive(Clone, Copy, Default)]
struct Slot {
    waiting: usize,
    weight: u64,
    deficit: u64,
    /// What its head record costs.
    cost: u64,
    /// The lengths of its records together.
    bytes: u64,
}

pub fn record_by_record(bytes: &[u8]) -> bool {
    if bytes.len() != LENGTH || small(bytes, &MARK, 0) > 1 || bytes[NOTHING.places()].iter().any(|&byte| byte != 0) {
        return false;
    }
    let mut slots = [Slot::default(); SLOTS];
    let (mut cell, mut shared) = (0, SHARED);
    for (slot, known) in slots.iter_mut().enumerate() {
        // A slot takes of the shared cells what it has beyond its own two. None is short, so no record stands beyond the last cell.
        match shared.checked_sub(small(bytes, &WAITING, slot).saturating_sub(KEPT)) {
            Some(left) => shared = left,
            None => return false,
        }
        match check_slot(bytes, slot, cell) {
            Some(found) => *known = found,
            None => return false,
        }
        cell += known.waiting;
    }
    for unused in cell..CELLS {
        if number(bytes, &LENGTHS, unused) != 0 || number(bytes, &REFERENCES, unused) != 0 {
            return false;
        }
    }
    rows_hold(bytes, &slots) && scan_holds(bytes, &slots) && list_holds(bytes, &slots)
}

/// The number in a lane of a field.
#[inline(always)]
fn number(bytes: &[u8], field: &Field, lane: usize) -> u64 {
    (0..field.width).fold(0, |number, j| number | u64::from(bytes[field.at(lane, j)]) << (8 * j))
}

/// One byte of a field with one byte a lane.
#[inline(always)]
fn small(bytes: &[u8], field: &Field, lane: usize) -> usize {
    usize::from(bytes[field.at(lane, 0)])
}

/// The slot's own rules, and its records'.
fn check_slot(bytes: &[u8], slot: usize, cell: usize) -> Option<Slot> {
    let waiting = small(bytes, &WAITING, slot);
    let (weight, deficit) = (number(bytes, &WEIGHT, slot), number(bytes, &DEFICIT, slot));
    let held = number(bytes, &TICKET, slot) != 0 && (1..=LARGEST_WEIGHT).contains(&weight);
    let holds = match bytes[KIND.at(slot, 0)] {
        0 => waiting == 0 && weight == 0 && deficit == 0 && number(bytes, &NEXT_SERIAL, slot) == 0,
        1 => held,
        2 => held && waiting > 0,
        _ => false,
    };
    if !holds || waiting > MOST_WAITING {
        return None;
    }
    let mut sum = 0;
    for at in cell..cell + waiting {
        let length = number(bytes, &LENGTHS, at);
        if !(1..=LONGEST).contains(&length) {
            return None;
        }
        sum += length;
    }
    if number(bytes, &BYTES, slot) != sum {
        return None;
    }
    let cost = if waiting > 0 { number(bytes, &LENGTHS, cell) + FRAMING } else { 0 };
    let in_visit = small(bytes, &VISIT, 0) == slot + 1;
    let most = match (waiting, in_visit) {
        (0, _) => 0,
        (_, true) => LARGEST_IN_VISIT,
        (_, false) => LARGEST_DEFICIT,
    };
    (deficit <= most).then_some(Slot { waiting, weight, deficit, cost, bytes: sum })
}

/// Each slot with records is a row once, no other is; zeros follow; the order is that of their weights, or in edition 2 at least that and at most 12.
fn rows_hold(bytes: &[u8], slots: &[Slot; SLOTS]) -> bool {
    let count = small(bytes, &ROW_COUNT, 0);
    if count > SLOTS || count != slots.iter().filter(|slot| slot.waiting > 0).count() {
        return false;
    }
    let (rows, behind) = bytes[ROWS.places()].split_at(count);
    let (mut seen, mut weights) = ([false; SLOTS], 0);
    for &row in rows {
        let row = usize::from(row);
        if row >= SLOTS || seen[row] || slots[row].waiting == 0 {
            return false;
        }
        seen[row] = true;
        weights |= slots[row].weight;
    }
    let (order, of_rows) = (number(bytes, &ORDER, 0), u64::from(u64::BITS - weights.leading_zeros()));
    let most = match small(bytes, &EDITION, 0) {
        1 => of_rows,
        2 if count > 0 => COLUMNS,
        2 => 0,
        _ => return false,
    };
    behind.iter().all(|&byte| byte == 0) && (of_rows..=most).contains(&order)
}

fn scan_holds(bytes: &[u8], slots: &[Slot; SLOTS]) -> bool {
    let (position, column) = (number(bytes, &POSITION, 0), number(bytes, &COLUMN, 0));
    let to_visit = number(bytes, &TO_VISIT, 0);
    let visit = small(bytes, &VISIT, 0);
    // rows_hold has bounded the order by 12.
    let last = (1 << number(bytes, &ORDER, 0)) - 1;
    if position > last || (to_visit == 0 && column != 0) || (to_visit != 0 && column >= COLUMNS) {
        return false;
    }
    let over = position == last && to_visit == 0 && visit == 0;
    if over && small(bytes, &EDITION, 0) == 2 && small(bytes, &ROW_COUNT, 0) > 0 {
        return false;
    }
    for (slot, known) in slots.iter().enumerate() {
        let listed = to_visit >> slot & 1 == 1;
        if listed && (known.waiting == 0 || known.weight >> column & 1 == 0) {
            return false;
        }
        if visit == slot + 1 && (listed || known.waiting == 0 || known.cost > known.deficit) {
            return false;
        }
    }
    visit <= SLOTS
}

/// Each listed slot has bytes and stands ahead of the next, as many are listed as can be, and no slot that is left out stands ahead of the last; zeros follow.
fn list_holds(bytes: &[u8], slots: &[Slot; SLOTS]) -> bool {
    let count = small(bytes, &LIST_COUNT, 0);
    let filled = slots.iter().filter(|slot| slot.bytes > 0).count();
    if count != filled.min(LISTED) {
        return false;
    }
    let (list, behind) = bytes[LIST.places()].split_at(count);
    if list.iter().any(|&slot| usize::from(slot) >= SLOTS) || behind.iter().any(|&byte| byte != 0) {
        return false;
    }
    let ahead = |one: usize, other: usize| {
        let (more, less) = (slots[one].bytes, slots[other].bytes);
        more > less || (more == less && one < other)
    };
    let in_turn = list.windows(2).all(|two| ahead(usize::from(two[0]), usize::from(two[1])));
    let Some(&last) = list.last() else { return true };
    let last = usize::from(last);
    let left_out = |slot: &usize| !list.contains(&(*slot as u8));
    in_turn && slots[last].bytes > 0 && (0..SLOTS).filter(left_out).all(|slot| ahead(last, slot))
}
