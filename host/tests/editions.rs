//! Corners of edition 2 (document 02, §3), each with the numbers that the document gives, worked out by hand, on the independent scheduler and on the
//! engine under test.
//!
//! Records are of 1,014 bytes where nothing else is said: each costs a whole grant, so each send is a visit. The columns of S(k) are, from position 1 on:
//! order 1: 0. Order 2: 1 0 1. Order 3: 2 1 2 0 2 1 2.

mod calls;

use calls::{on_both, Calls};
use host::answers::Refusal;
use host::engine::Engine;
use host::layout::{to_bytes, LENGTH};
use host::scheduler::Scheduler;
use host::states;

const LONG: u32 = 1_014;

/// A Next: the slot that sends, the terms taken, and the order and P that are left.
fn next(calls: &mut dyn Calls) -> (u32, u32, u64, u64) {
    let sent = calls.next().unwrap();
    let state = calls.state();
    (sent.slot, sent.terms, state.order, state.scan.position)
}

fn nexts<const N: usize>(calls: &mut dyn Calls) -> [(u32, u32, u64, u64); N] {
    [(); N].map(|_| next(calls))
}

/// The slots to visit.
fn listed(calls: &dyn Calls) -> Vec<usize> {
    calls.state().scan.to_visit.into_iter().collect()
}

/// Slot 0 leaves at P = 1. Edition 1: order 1, P = 1 mod 2. Edition 2: order 3 stays, columns 1 and 2 are empty, and slot 1 is at position 4 (column 0).
/// Then positions 5, 6 and 7 are empty, the round ends, the order is that of weight 1, and its term 1 is taken: 4 terms. That visit ends with its send, at
/// P = 1 = 2^1 - 1: the round that started inside the call ends inside it, and P is 0 again. The last record empties the rows.
#[test]
fn a_heavy_row_leaves_in_mid_round() {
    on_both(|calls| {
        calls.fill_each(1, &[(4, 1), (1, 3)], LONG);
        assert_eq!(nexts(calls), [(0, 1, 1, 1), (1, 1, 1, 1), (1, 1, 1, 1), (1, 1, 0, 0)]);
        calls.fill_each(2, &[(4, 1), (1, 3)], LONG);
        assert_eq!(nexts(calls), [(0, 1, 3, 1), (1, 3, 3, 4), (1, 4, 1, 0), (1, 1, 0, 0)]);
    });
}

/// Weights 5, 2 and 1. The fourth send is slot 0's last, at position 4 with slot 2 still listed: edition 1 makes P 4 mod 4 = 0, edition 2 leaves 4.
/// Slot 2 takes no term. Position 5 is empty (column 2), slot 1 is at 6 (column 1): 2 terms. Position 7 is empty: the round ends with order 2, and
/// its term 1 (column 1) is slot 1's: 2 terms, one of the finished round.
#[test]
fn a_row_leaves_with_slots_to_visit() {
    on_both(|calls| {
        calls.fill_each(2, &[(5, 3), (2, 5), (1, 5)], LONG);
        assert_eq!(nexts(calls), [(0, 1, 3, 1), (1, 1, 3, 2), (0, 1, 3, 3), (0, 1, 3, 4)]);
        assert_eq!(listed(calls), [2]);
        assert_eq!(nexts(calls), [(2, 0, 3, 4), (1, 2, 3, 6), (1, 2, 2, 1)]);
    });
}

/// Weight 4,095 has one record, weight 1 has three. Positions 2 to 2,048 of S(12): 2,047 terms, the last is term 12, column 0. From there 2,049 to 4,095 are
/// 2,047 empty terms, and the new round's first is one more.
#[test]
fn many_terms_in_one_call() {
    on_both(|calls| {
        calls.fill_each(2, &[(4_095, 1), (1, 3)], LONG);
        assert_eq!(nexts(calls), [(0, 1, 12, 1), (1, 2_047, 12, 2_048), (1, 2_048, 1, 0)]);
    });
}

/// Weights 6 and 2: both leave at position 2 (column 1). With the last row order and P are 0 at once, and a row that joins has its own order, from
/// position 0 on.
#[test]
fn the_rows_empty_in_mid_round() {
    on_both(|calls| {
        calls.fill_each(2, &[(6, 2), (2, 1)], LONG);
        assert_eq!(nexts(calls), [(0, 1, 3, 1), (0, 1, 3, 2)]);
        assert_eq!(listed(calls), [1]);
        assert_eq!(next(calls), (1, 0, 0, 0));
        calls.put(1, 1, LONG, 0).unwrap();
        assert_eq!((calls.state().order, calls.state().scan.position), (2, 0));
        assert_eq!(next(calls), (1, 1, 0, 0));
        assert_eq!(calls.next(), Err(Refusal::NoneWaits));
    });
}

/// Costs 310, 310 and 1,024: two in one visit of 1,024, at P = 1 = 2^1 - 1. The round goes on while the visit is open, and ends with it; 404 is kept.
#[test]
fn a_visit_is_open_at_the_last_position() {
    on_both(|calls| {
        calls.fill_each(2, &[(1, 2)], 300);
        calls.put(0, 1, LONG, 0).unwrap();
        assert_eq!(next(calls), (0, 1, 1, 1));
        assert_eq!(calls.state().scan.visit, Some(0));
        assert_eq!(next(calls), (0, 0, 1, 0));
        assert_eq!((calls.state().scan.visit, calls.state().channels[0].deficit), (None, 404));
        assert_eq!(next(calls), (0, 1, 0, 0));
    });
}

/// Two of weight 1: the first is visited at P = 1 = 2^1 - 1 with the second listed. The round ends with the second's visit.
#[test]
fn slots_are_listed_at_the_last_position() {
    on_both(|calls| {
        calls.fill(2, &[1, 1], 2, LONG);
        assert_eq!(next(calls), (0, 1, 1, 1));
        assert_eq!(listed(calls), [1]);
        assert_eq!(nexts(calls), [(1, 0, 1, 0), (0, 1, 1, 1), (1, 0, 0, 0)]);
    });
}

/// Two of weight 4: position 7 (column 2) has both, and the first leaves there. The order is held at 3 until the second's visit ends, and that is its own.
#[test]
fn a_row_leaves_at_the_last_position() {
    on_both(|calls| {
        calls.fill_each(2, &[(4, 4), (4, 5)], LONG);
        let first = [(0, 1, 3, 1), (1, 0, 3, 1), (0, 2, 3, 3), (1, 0, 3, 3), (0, 2, 3, 5), (1, 0, 3, 5), (0, 2, 3, 7)];
        assert_eq!(nexts(calls), first);
        assert_eq!((listed(calls), calls.state().rows), (vec![1], vec![1]));
        assert_eq!(nexts(calls), [(1, 0, 3, 0), (1, 1, 0, 0)]);
    });
}

/// In the visit at P = 1 = 2^1 - 1 a row of weight 4 joins: the order is 3 and the round is not at its end. The visit ends at P = 1, position 2 (column 1) is
/// empty, and the new row is at 3. Position 4 (column 0) is slot 0's, which leaves there.
#[test]
fn the_order_rises_in_a_visit_at_the_last_position() {
    on_both(|calls| {
        calls.fill_each(2, &[(1, 2), (4, 0)], 300);
        calls.put(0, 1, LONG, 0).unwrap();
        assert_eq!(next(calls), (0, 1, 1, 1));
        calls.put(1, 1, LONG, 0).unwrap();
        calls.put(1, 1, LONG, 1).unwrap();
        assert_eq!((calls.state().order, calls.state().scan.position), (3, 1));
        assert_eq!(nexts(calls), [(0, 0, 3, 1), (1, 2, 3, 3), (0, 1, 3, 4), (1, 1, 0, 0)]);
    });
}

/// With slot 1 listed at P = 1 = 2^1 - 1 a row of weight 2 joins: order 2. Position 2 is column 0, so both light rows are visited again before the new row,
/// at position 3 (column 1); with its send the round ends, and the rows' order is 2 again.
#[test]
fn the_order_rises_with_slots_listed_at_the_last_position() {
    on_both(|calls| {
        calls.fill_each(2, &[(1, 3), (1, 3), (2, 0)], LONG);
        assert_eq!(next(calls), (0, 1, 1, 1));
        calls.put(2, 1, LONG, 0).unwrap();
        calls.put(2, 1, LONG, 1).unwrap();
        assert_eq!((calls.state().order, calls.state().scan.position, listed(calls)), (2, 1, vec![1]));
        assert_eq!(nexts(calls), [(1, 0, 2, 1), (0, 1, 2, 2), (1, 0, 2, 2), (2, 1, 2, 0)]);
    });
}

/// A row that joins below a held order leaves it where it is: weight 2 joins at order 3, and is at position 2 (column 1).
#[test]
fn a_row_joins_below_a_held_order() {
    on_both(|calls| {
        calls.fill_each(2, &[(4, 1), (1, 2), (2, 0)], LONG);
        assert_eq!(next(calls), (0, 1, 3, 1));
        calls.put(2, 1, LONG, 0).unwrap();
        assert_eq!((calls.state().order, calls.state().scan.position), (3, 1));
        assert_eq!(nexts(calls), [(2, 1, 3, 2), (1, 2, 3, 4)]);
    });
}

/// Weights 3 and 1: columns 1 0 1. The last visit of the round is slot 0's at position 3, and the call that sends in it ends the round. Slot 0 leaves at the
/// next position: edition 2 holds order 2, edition 1 makes it 1 with P = 1 mod 2.
#[test]
fn a_round_ends_with_its_last_visit() {
    on_both(|calls| {
        calls.fill(2, &[3, 1], 4, LONG);
        assert_eq!(nexts(calls), [(0, 1, 2, 1), (0, 1, 2, 2), (1, 0, 2, 2), (0, 1, 2, 0), (0, 1, 2, 1)]);
        calls.fill(1, &[3, 1], 4, LONG);
        assert_eq!(nexts(calls), [(0, 1, 2, 1), (0, 1, 2, 2), (1, 0, 2, 2), (0, 1, 2, 3), (0, 1, 1, 1)]);
    });
}

/// "12, start only, edition not 1 or 2, after 10": the length comes first, and a refusal leaves every byte.
#[test]
fn start_is_refused() {
    let mut engine = calls::engine();
    for state in [to_bytes(&states::rich(1)), to_bytes(&states::rich(2)), vec![0; LENGTH], vec![0xa5; LENGTH]] {
        for edition in [0, 3, 4, 255, 256, 257, 258, 0x0001_0001, 0x0100_0002, 0x8000_0001, u32::MAX] {
            let mut lent = state.clone();
            assert_eq!(engine.start(&mut lent, edition), Refusal::BadEdition.number(), "{edition}");
            assert_eq!(lent, state);
        }
        for edition in [0, 1, 2, 3, u32::MAX] {
            for mut other in [state[1..].to_vec(), [&state[..], &[0]].concat(), Vec::new()] {
                let before = other.clone();
                assert_eq!(engine.start(&mut other, edition), Refusal::Unsound.number(), "{edition}");
                assert_eq!(other, before);
            }
        }
        for edition in [1, 2] {
            let mut lent = state.clone();
            assert_eq!(engine.start(&mut lent, edition), 0);
            assert_eq!(lent, to_bytes(&Scheduler::fresh(u64::from(edition))));
        }
    }
}
