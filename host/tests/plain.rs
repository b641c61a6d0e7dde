//! Support's engine beside the adapter's. Every compared run of the exported libraries has both; here are Nexts that take many terms, and wrong engines in the place
//! of support's, which the comparison has to find.

mod common;
mod wrong;

use host::beside::Beside;
use host::compare::{run, run_all, run_seeds};
use host::history::{Call, History, Step};
use host::layout::to_bytes;
use host::scheduler::{Kind, Scheduler, EDITIONS, LARGEST_WEIGHT, LONGEST, SLOTS};
use host::states::{channel, door, with_rows};
use wrong::{Slip, Wrong};

/// Rows read in slot order; the term one position late; a round's end without the order afresh; the order of the rows before the new one joined; the list of the fullest
/// as it was before a put, and before a last send.
const SLIPS: [Slip; 6] =
    [Slip::SlotOrder, Slip::TermLate, Slip::EndKeepsOrder, Slip::OrderBeforeJoin, Slip::PutKeepsOrder, Slip::ListKeptAfterLastSend];

/// Nexts from each of these states.
fn compare(states: impl IntoIterator<Item = Scheduler>, nexts: usize) -> u64 {
    let steps = vec![Step::Call(Call::Next); nexts];
    let history = |(seed, state): (usize, Scheduler)| {
        assert!(state.sound());
        History { seed: seed as u64, shape: "Nexts alone", memory: to_bytes(&state), steps: steps.clone() }
    };
    match run_all(&mut common::engine(), states.into_iter().enumerate().map(history)) {
        Ok(calls) => calls,
        Err(report) => panic!("{report}"),
    }
}

/// A row of weight 1 under every order and from every position: in edition 2 up to 2^k - 1 terms are taken one at a time.
#[test]
fn every_position_of_a_held_order() {
    let positions = |order: u64| (0..(1 << order) - 1).map(move |position| door(order, position, &[LONGEST; 3]));
    assert_eq!(compare((1..=12).flat_map(positions), 3), 3 * (8_190 - 12));
}

/// A channel in every slot, joined from the last slot to the first, all weights alike or each its own bit: a whole round of Nexts in both editions.
#[test]
fn every_row_of_the_matrix() {
    let weights: [fn(usize) -> u64; 4] = [|_| 1, |_| LARGEST_WEIGHT, |slot| 1 << (slot % 12), |slot| LARGEST_WEIGHT - slot as u64];
    let rows: Vec<usize> = (0..SLOTS).rev().collect();
    for edition in EDITIONS {
        for weight in weights {
            let open = |slot: usize| (slot, channel(Kind::Open, 1, weight(slot), 0, 8, &[LONGEST; 8]));
            let channels: Vec<_> = (0..SLOTS).map(open).collect();
            assert_eq!(compare([with_rows(edition, &channels, &rows)], 8 * SLOTS), 512);
        }
    }
}

/// Wrong engines in the place of support's. The first engine is right, so it is their difference from it that is found.
#[test]
fn a_wrong_engine_is_found() {
    for slip in SLIPS {
        let Err(report) = run_seeds(&mut Beside::new(common::adapter(), Wrong(slip)), 1, 200_000) else {
            panic!("{slip:?} was not found");
        };
        println!("# {slip:?}\n{report}");
        assert!(report.difference.what.starts_with("the second engine beside the first: "), "{slip:?}: {report}");
        assert!(report.history.steps.len() <= 20, "{slip:?}: the history is not short");
        assert!(report.to_string().contains(&format!("seed {}", report.history.seed)), "{slip:?}");
        assert!(run(&mut common::engine(), &report.history).is_ok(), "{slip:?}: the history blames a right engine");
    }
}

/// And where both are wrong alike, the independent scheduler finds it.
#[test]
fn two_wrong_engines_are_found() {
    for slip in SLIPS {
        let report = run_seeds(&mut Beside::new(Wrong(slip), Wrong(slip)), 1, 200_000).unwrap_err();
        assert!(!report.difference.what.contains("the second engine"), "{slip:?}: {report}");
    }
}
