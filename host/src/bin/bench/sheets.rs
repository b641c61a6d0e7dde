//! Checks of round sheets, each beside one pass over its list: all numbers of the list taken together by `or`.

use std::fmt::Write;
use std::hint::black_box;
use std::time::Instant;

use host::engine::Engine;
use host::linked::LINKED;
use host::sheet::{round_of, HEAVIEST_ON_SHEET, MOST_ROWS};

use super::{median, ratio, shown, BATCHES};

/// A batch takes each as often as it takes for about so many visits and positions.
const STEPS: usize = 200_000;

/// The weights, and what they are called.
fn sheets() -> Vec<(&'static str, Vec<u32>)> {
    let one_heavy = |heavy: u32| [vec![1; MOST_ROWS - 1], vec![heavy]].concat();
    vec![
        ("the longest: 64 rows of 4,095", vec![HEAVIEST_ON_SHEET; MOST_ROWS]),
        ("64 rows of 4,095 to 4,032", (0..MOST_ROWS as u32).map(|row| HEAVIEST_ON_SHEET - row).collect()),
        ("64 rows of 2,730: every second column empty", vec![2_730; MOST_ROWS]),
        ("63 rows of 1, one of 4,095", one_heavy(HEAVIEST_ON_SHEET)),
        ("the sparsest: 63 rows of 1, one of 2,048", one_heavy(2_048)),
        ("one row of 2,048", vec![2_048]),
        ("three boards: 1, 6, 3", vec![1, 6, 3]),
    ]
}

/// Nanoseconds of one repetition.
fn timed(times: usize, mut repetition: impl FnMut()) -> f64 {
    let begin = Instant::now();
    (0..times).for_each(|_| repetition());
    begin.elapsed().as_nanos() as f64 / times as f64
}

pub fn table() -> String {
    let heads = ["sheet", "visits", "positions", "check", "one pass", "check / one pass", "check, ns a visit or position"];
    let mut text = format!("| {} |\n{}|\n", heads.join(" | "), "|---".repeat(heads.len()));
    for (name, mut weights) in sheets() {
        let mut rows = round_of(&weights);
        let order = weights.iter().max().map_or(0, |heaviest| heaviest.ilog2() + 1);
        let positions = (1usize << order) - 1;
        let times = (STEPS / (rows.len() + positions)).max(1);
        let (mut entries, mut checks, mut passes) = (LINKED, Vec::new(), Vec::new());
        for _ in 0..BATCHES {
            checks.push(timed(times, || {
                let mut answer = [0; 8];
                assert_eq!(entries.sheet(black_box(&mut weights), black_box(&mut rows), &mut answer), 0);
                assert_eq!(black_box(answer), [1, 0, 0, 0, 0, 0, 0, 0]);
            }));
            passes.push(timed(times, || {
                black_box(black_box(&rows[..]).iter().fold(0, |all, &row| all | row));
            }));
        }
        let (check, pass) = (median(checks), median(passes));
        let step = check.map(|check| check / (rows.len() + positions) as f64);
        let cells = [shown(check, 0), shown(pass, 0), ratio(check, pass), shown(step, 2)];
        let _ = writeln!(text, "| {name} | {} | {positions} | {} |", rows.len(), cells.join(" | "));
    }
    text
}
