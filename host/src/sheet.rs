//! Round sheets of other makers (document 02, §9): whether a list of row numbers is the visits of one round with every row always waiting.
//!
//! The visits are had in two ways that share nothing: [`round_of`] writes them out as the sequence is defined, by halves; [`round_sent`] lets the independent
//! scheduler send for one round. The checker uses the first, and the tests hold it against the second, in both editions.

use crate::answers::{Refusal, Sheet};
use crate::scheduler::{Scheduler, KEPT};

/// "given up to 64 weights"
pub const MOST_ROWS: usize = 64;
/// "Round sheets stay at 4,095", whatever a channel's weight may be (§10).
pub const HEAVIEST_ON_SHEET: u32 = 4_095;
/// Visits of the longest round.
pub const LONGEST_ROUND: usize = MOST_ROWS * HEAVIEST_ON_SHEET as usize;

/// "Refusals: 6 for a weight out of range; 17 for more than 64 weights, before 6." Of two lists that differ the first wrong place is the first at which they do:
/// where one ends there, the list is too short or too long.
pub fn check(weights: &[u32], rows: &[u32]) -> Result<Sheet, Refusal> {
    if weights.len() > MOST_ROWS {
        return Err(Refusal::TooMany);
    }
    if weights.iter().any(|weight| !(1..=HEAVIEST_ON_SHEET).contains(weight)) {
        return Err(Refusal::BadWeight);
    }
    Ok(compared(rows, &round_of(weights)))
}

/// A list beside the visits of the round.
pub fn compared(rows: &[u32], round: &[u32]) -> Sheet {
    let differ = |&place: &usize| rows.get(place) != round.get(place);
    match (0..rows.len().max(round.len())).find(differ) {
        None => Sheet::Right,
        Some(place) => Sheet::WrongAt { place: place as u32 },
    }
}

/// The visits of one round, by row number. The weights are in range.
pub fn round_of(weights: &[u32]) -> Vec<u32> {
    // "0 without rows, else one more than the place of the highest one bit in any row's weight"
    let order = weights.iter().map(|weight| weight.checked_ilog2().map_or(0, |highest| highest + 1)).max().unwrap_or(0);
    visits(order, order, weights)
}

/// The visits of S(k), where the whole sequence is S(order): "S(k) is S(k-1), then k, then S(k-1)", "the column is k minus the term", and "Column c is the rows, in row
/// order, whose weight has bit c".
fn visits(k: u32, order: u32, weights: &[u32]) -> Vec<u32> {
    if k == 0 {
        return Vec::new();
    }
    let half = visits(k - 1, order, weights);
    let column = order - k;
    let rows = (0..).zip(weights).filter(|(_, weight)| *weight >> column & 1 == 1).map(|(row, _)| row);
    half.iter().copied().chain(rows).chain(half.iter().copied()).collect()
}

/// The same from a scheduler: from a start, channels of these weights join in this order and always wait, and the slots whose visits start are noted up to the next
/// round's start. Records have the lengths that are asked for, one after the other.
pub fn round_sent(edition: u64, weights: &[u32], mut length: impl FnMut() -> u32) -> Vec<u32> {
    let mut scheduler = Scheduler::fresh(edition);
    for &weight in weights {
        let opened = scheduler.open_sound(weight).expect("a weight in range and a free slot");
        for _ in 0..KEPT {
            scheduler.put_sound(opened.slot, opened.ticket, length(), 0).expect("room for two");
        }
    }
    let mut visits = Vec::new();
    while !weights.is_empty() {
        let sent = scheduler.next_sound().expect("every row waits");
        visits.extend(sent.started.then_some(sent.slot));
        scheduler.put_sound(sent.slot, sent.ticket, length(), 0).expect("room for the next");
        if starts_a_round(&scheduler) {
            break;
        }
    }
    visits
}

/// "A round starts where no visit is open, none remain to visit, and P is 0 or 2^k - 1, with rows present"; in edition 2 "where P is 0".
fn starts_a_round(state: &Scheduler) -> bool {
    let (scan, last) = (&state.scan, (1 << state.order) - 1);
    let at_start = scan.position == 0 || state.edition == 1 && scan.position == last;
    scan.visit.is_none() && scan.to_visit.is_empty() && at_start && !state.rows.is_empty()
}
