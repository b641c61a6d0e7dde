//! The generated histories meet the corners where schedulers go wrong, each of them many times.

mod fills;
mod limits;
mod makers;
mod parks;

use std::collections::BTreeMap;

use fills::look_at_filling;
use host::compare::state_call;
use host::generate::history;
use host::history::{Call, Step};
use host::layout;
use host::scheduler::{cost_of, Kind, Scheduler, GRANT, LAST_TICKET, LONGEST, MOST_WAITING, SHARED};
use host::steps::Moment;
use limits::{look_at_cells_left, look_at_cells_taken, look_at_damage, look_at_limits};
use makers::look_at_sheet;
use parks::look_at_parking;

type Count = BTreeMap<&'static str, u32>;

/// Every corner that is looked for.
const CORNERS: [&str; 65] = [
    "order falls with slots to visit",
    "P becomes 0 after a fall, with rows",
    "P is 2^k - 1 after a fall",
    "order rises with slots to visit",
    "order rises in a visit",
    "order rises at P = 2^k - 1",
    "a row of the noted column joins in the scan",
    "a wrap",
    "two terms taken",
    "no term taken for a new visit",
    "a visit goes on after the list is empty",
    "a visit stays open with a deficit that just pays for the head",
    "a visit stays open with one byte more than the head costs",
    "a visit ends with one byte less than the head costs",
    "a visit ends with a deficit of the head's bare length",
    "a visit ends with the last record",
    "a deficit is lost with the last record",
    "a deficit is kept for the next visit",
    "a closing slot is freed with slots to visit",
    "the first row to visit is not the lowest slot",
    "the last row leaves",
    "a serial wraps",
    "a head's serial is from before the wrap",
    "the last ticket is given",
    "no slot, though some are free",
    "no slot, all are held",
    "6 where 7 would be given too",
    "a length of 1,014 is taken",
    "a length of 1,015 is refused",
    "4 where 5 would be given too",
    "3 where 4 would be given too",
    "a channel is freed at once",
    "a channel begins to drain",
    // Of the shared cells.
    "the 64th record is taken",
    "5 with shared cells left",
    "5 where 13 would be given too",
    "4 where 13 would be given too",
    "3 where 13 would be given too",
    "13 to a channel of two",
    "13 to a channel of 63",
    "the sum goes from 382 to 383",
    "the sum goes from 383 to 384",
    "a channel of none is given one with the sum at 384",
    "a channel of one is given one with the sum at 384",
    "the sum goes from 384 to 383",
    "the sum stays at 384 with a send",
    "a closing channel sends with the sum at 384",
    "every cell is taken",
    "a channel closes with the sum at 384",
    // Of edition 2.
    "the order is held when a row leaves",
    "P is not reduced when a row leaves",
    "the rows empty below a held order",
    "the rows empty at P = 2^k - 1",
    "a row joins below a held order",
    "order rises at P = 2^k - 1 in a visit",
    "order rises at P = 2^k - 1 with slots to visit",
    "a visit stays open at P = 2^k - 1",
    "slots are left to visit at P = 2^k - 1",
    "a round ends with a visit",
    "a round ends in the search for a row",
    "two rounds end in one call",
    "the order falls at a round's end",
    "more than two terms taken",
    "a thousand terms taken",
    "as many terms taken as ever are",
];

#[test]
fn histories_meet_every_corner() {
    let mut count: Count = {
        let corners = CORNERS.into_iter().chain(parks::CORNERS).chain(fills::CORNERS).chain(makers::CORNERS);
        corners.map(|corner| (corner, 0)).collect()
    };
    let mut numbers = BTreeMap::new();
    for seed in 0..2_000 {
        let history = history(seed);
        let (mut now, mut changed) = (layout::sound_from_bytes(&history.memory).unwrap(), false);
        for step in &history.steps {
            match step {
                // What follows a change of the memory is left out, up to a start or a reading.
                Step::Damage { .. } | Step::Lost { .. } => changed = true,
                Step::Call(call) if changed => {
                    let mends = matches!(call, Call::Start { .. } | Call::Unpark { .. });
                    changed = !(mends && state_call(&mut now, call).is_ok());
                }
                Step::Call(call) => {
                    let before = now.clone();
                    let result = state_call(&mut now, call);
                    let number = result.as_ref().map_or_else(|refusal| refusal.number(), |_| 0);
                    *numbers.entry((name(call), number)).or_insert(0) += 1;
                    look(&before, &now, call, &result.map_err(|refusal| refusal.number()), &mut count);
                }
                Step::Mislent { .. } => {}
            }
        }
    }
    println!("{count:#?}\n{numbers:#?}");
    for (corner, times) in count {
        assert!(times >= 20, "{corner}: {times}");
    }
    let (start, open, put) = (("start", &[0, 12][..]), ("open", &[0, 6, 7][..]), ("put", &[0, 1, 2, 3, 4, 5, 13][..]));
    let (ask, fullest) = (("ask", &[0, 1, 2][..]), ("fullest", &[0][..]));
    let (park, unpark) = (("park", &[0, 16][..]), ("unpark", &[0, 15][..]));
    for (call, list) in [start, open, put, ("close", &[0, 1, 2, 3]), ("next", &[0, 8]), ask, fullest, park, unpark, ("apart", &[0])] {
        // A parked state refuses every call on it but Start and the reader.
        let parked = (!["start", "unpark", "apart"].contains(&call)).then_some(&14);
        for &number in list.iter().chain(parked) {
            assert!(numbers.remove(&(call, number)).is_some_and(|times| times >= 20), "{call} with number {number}");
        }
    }
    assert!(numbers.is_empty(), "numbers that the call does not give: {numbers:?}");
}

/// What calls meet where a memory has been changed.
const DAMAGED: [&str; 6] = [
    "a sum of 385, and no other fault",
    "a sum of 384, with a record counted elsewhere",
    "65 records in a channel, and no other fault",
    "65 records in a channel with the sum at 384, and no other fault",
    "more than 512 records",
    "more than 512 records, and no channel of more than 64",
];

#[test]
fn damage_meets_the_limits_and_the_notes() {
    let mut count: Count = DAMAGED.into_iter().chain(fills::DAMAGED).map(|corner| (corner, 0)).collect();
    for seed in 0..2_000 {
        look_at_damage(history(seed), &mut |corner, holds| *count.get_mut(corner).expect("a corner of the list") += u32::from(holds));
    }
    println!("{count:#?}");
    for (corner, times) in count {
        assert!(times >= 20, "{corner}: {times}");
    }
}

fn name(call: &Call) -> &'static str {
    match call {
        Call::Start { .. } => "start",
        Call::Open { .. } => "open",
        Call::Put { .. } => "put",
        Call::Close { .. } => "close",
        Call::Next => "next",
        Call::Ask { .. } => "ask",
        Call::Fullest => "fullest",
        Call::Park { .. } => "park",
        Call::Unpark { .. } => "unpark",
        _ => "apart",
    }
}

fn look(before: &Scheduler, after: &Scheduler, call: &Call, result: &Result<Vec<u32>, u32>, count: &mut Count) {
    let mut met = |corner: &'static str, holds: bool| *count.get_mut(corner).expect("a corner of the list") += u32::from(holds);
    look_at_sheet(call, &mut met);
    look_at_parking(before, after, call, *result.as_ref().err().unwrap_or(&0), &mut met);
    if let Ok(fields) = result {
        look_at_filling(before, after, call, fields, &mut met);
    }
    match (call, result) {
        (Call::Put { slot, length, .. }, Ok(fields)) => {
            met("a length of 1,014 is taken", *length == 1_014);
            look_at_put(before, after, *slot as usize, fields, &mut met);
            look_at_cells_taken(before, after, fields[1] as usize, &mut met);
        }
        (Call::Next, Ok(fields)) => {
            look_at_next(before, after, fields, &mut met);
            look_at_cells_left(before, after, fields[0] as usize, &mut met);
            if before.edition == 2 {
                look_at_the_round(before, after, fields[6], &mut met);
            }
        }
        (Call::Open { .. }, Ok(fields)) => met("the last ticket is given", u64::from(fields[1]) == LAST_TICKET),
        (Call::Open { .. }, Err(number)) => {
            let free = before.channels.iter().filter(|channel| channel.kind == Kind::Free).count();
            let can_open = before.channels.iter().any(|channel| channel.kind == Kind::Free && channel.ticket != LAST_TICKET);
            met("no slot, though some are free", *number == 7 && free > 0);
            met("no slot, all are held", *number == 7 && free == 0);
            met("6 where 7 would be given too", *number == 6 && !can_open);
        }
        (Call::Put { slot, length, .. }, Err(number)) if *slot < 64 => {
            met("a length of 1,015 is refused", *number == 4 && *length == 1_015);
            let waiting = before.channels[*slot as usize].records.len();
            met("4 where 5 would be given too", *number == 4 && waiting == MOST_WAITING);
            look_at_limits(*number, waiting, before.shared_in_use(), &mut met);
            met("3 where 4 would be given too", *number == 3 && !(1..=LONGEST).contains(&u64::from(*length)));
        }
        (Call::Close { .. }, Ok(fields)) => {
            met("a channel closes with the sum at 384", before.shared_in_use() == SHARED);
            met("a channel is freed at once", fields[0] == 1);
            met("a channel begins to drain", fields[0] == 0);
        }
        _ => {}
    }
}

fn look_at_put(before: &Scheduler, after: &Scheduler, slot: usize, fields: &[u32], met: &mut impl FnMut(&'static str, bool)) {
    let (scan, rises) = (&before.scan, after.order > before.order && before.order > 0);
    let joins = fields[1] == 1;
    met("order rises with slots to visit", rises && !scan.to_visit.is_empty());
    met("order rises in a visit", rises && scan.visit.is_some());
    let last = scan.position == (1 << before.order) - 1;
    met("order rises at P = 2^k - 1", rises && last);
    met("order rises at P = 2^k - 1 in a visit", rises && last && before.edition == 2 && scan.visit.is_some());
    met("order rises at P = 2^k - 1 with slots to visit", rises && last && before.edition == 2 && !scan.to_visit.is_empty());
    met("a row joins below a held order", joins && after.order > after.order_of_rows());
    let of_the_column = after.channels[slot].weight >> scan.column & 1 == 1;
    met("a row of the noted column joins in the scan", joins && !scan.to_visit.is_empty() && of_the_column);
    met("a serial wraps", fields[0] == 65_535);
}

fn look_at_next(before: &Scheduler, after: &Scheduler, fields: &[u32], met: &mut impl FnMut(&'static str, bool)) {
    let slot = fields[0] as usize;
    let (started, terms) = (fields[5] == 1, fields[6]);
    let (was, is) = (&before.channels[slot], &after.channels[slot]);
    let granted = was.deficit + if started { GRANT } else { 0 };
    let left = granted - cost_of(u64::from(fields[2]));
    let falls = before.edition == 1 && after.order < before.order && after.order > 0;
    let listed = !after.scan.to_visit.is_empty();
    met("order falls with slots to visit", falls && listed);
    met("P becomes 0 after a fall, with rows", falls && after.scan.position == 0 && (before.scan.position > 0 || terms > 0));
    met("P is 2^k - 1 after a fall", falls && after.scan.position == (1 << after.order) - 1);
    met("a wrap", terms > 0 && before.scan.position == (1 << before.order) - 1);
    met("two terms taken", terms == 2);
    met("no term taken for a new visit", started && terms == 0);
    met("a visit goes on after the list is empty", after.scan.visit.is_some() && !listed);
    met("the last row leaves", after.rows.is_empty());
    met("a closing slot is freed with slots to visit", was.kind == Kind::Closing && is.kind == Kind::Free && listed);
    met("a visit ends with the last record", is.records.is_empty());
    met("a deficit is lost with the last record", is.records.is_empty() && left > 0);
    met("a head's serial is from before the wrap", u64::from(fields[4]) > was.next_serial);
    if let Some(head) = is.records.front() {
        met("a visit stays open with a deficit that just pays for the head", head.cost() == left);
        met("a visit stays open with one byte more than the head costs", head.cost() + 1 == left);
        met("a visit ends with one byte less than the head costs", head.cost() == left + 1);
        met("a visit ends with a deficit of the head's bare length", head.length == left);
        met("a deficit is kept for the next visit", after.scan.visit.is_none() && left > 0);
    }
    let first_listed = before.scan.to_visit.first().copied();
    met("the first row to visit is not the lowest slot", started && terms == 0 && first_listed != Some(slot));
}

/// Edition 2's corners, by the moments of the call.
fn look_at_the_round(before: &Scheduler, after: &Scheduler, terms: u32, met: &mut impl FnMut(&'static str, bool)) {
    let mut moments = Vec::new();
    let mut falls = false;
    let mut order = before.order;
    let _ = before.clone().next_by_moments(&mut |state, moment| {
        moments.push(moment);
        falls |= moment == Moment::RoundEnd && state.order < order;
        order = state.order;
    });
    let ends: Vec<usize> = (0..moments.len()).filter(|&at| moments[at] == Moment::RoundEnd).collect();
    let ends_last = moments.last() == Some(&Moment::RoundEnd);
    let leaves = after.rows.len() < before.rows.len();
    let (rows, last) = (!after.rows.is_empty(), after.scan.position + 1 == 1 << after.order);
    met("the order is held when a row leaves", leaves && rows && after.order > after.order_of_rows());
    met("P is not reduced when a row leaves", leaves && rows && after.scan.position >= 1 << after.order_of_rows());
    met("the rows empty below a held order", !rows && before.order > before.order_of_rows());
    met("the rows empty at P = 2^k - 1", !rows && before.scan.position + u64::from(terms) + 1 == 1 << before.order);
    met("a visit stays open at P = 2^k - 1", last && after.scan.visit.is_some());
    met("slots are left to visit at P = 2^k - 1", last && !after.scan.to_visit.is_empty());
    met("a round ends with a visit", ends_last);
    met("a round ends in the search for a row", ends.len() > usize::from(ends_last));
    met("two rounds end in one call", ends.len() == 2);
    met("the order falls at a round's end", falls);
    met("more than two terms taken", terms > 2);
    met("a thousand terms taken", terms >= 1_000);
    met("as many terms taken as ever are", terms > 2 && u64::from(terms) == 1 << (before.order - 1));
    // "Up to 2^k - 1 terms may be taken": half of a round is met.
    assert!(u64::from(terms) <= 1 << (before.order - 1) && ends.len() <= 2, "{terms} terms at order {}", before.order);
}
