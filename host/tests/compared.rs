//! Compared runs of generated histories on the engine under test.

mod common;

use host::compare::{run_all, run_seeds};
use host::generate::{history, history_of};
use host::layout::{is_sound_memory, to_bytes, EDITION};
use host::scheduler::EDITIONS;
use host::shapes::SHAPES;

/// Two million calls; with the exported libraries, more than a million of them are Puts and Nexts that support's engine made beside the adapter's.
#[test]
fn all_shapes_in_turn() {
    let mut engine = common::engine();
    match run_seeds(&mut engine, 1, 2_000_000) {
        Ok(calls) => assert!(calls >= 2_000_000),
        Err(report) => panic!("{report}"),
    }
    #[cfg(feature = "linked")]
    assert!(engine.puts_and_nexts >= 1_000_000, "{}", engine.puts_and_nexts);
}

#[test]
fn each_shape() {
    for shape in SHAPES {
        for edition in EDITIONS {
            let histories = (1_000_000..1_000_060).map(|seed| history_of(shape, edition, seed));
            if let Err(report) = run_all(&mut common::engine(), histories) {
                panic!("{report}");
            }
        }
    }
}

/// Every shape comes in both editions, as often in one as in the other.
#[test]
fn both_editions_come_in_turn() {
    let count = SHAPES.len() as u64;
    for shape in 0..count {
        let editions: Vec<u8> = (0..4).map(|turn| history(shape + turn * count).memory[EDITION.start]).collect();
        assert_eq!(editions, [1, 2, 1, 2]);
    }
}

/// The same seed gives the same history.
#[test]
fn histories_are_the_seeds_own() {
    for seed in 0..64 {
        let (first, second) = (history(seed), history(seed));
        assert_eq!((first.memory, first.steps), (second.memory, second.steps));
    }
}

#[test]
fn beginnings_are_sound() {
    for shape in SHAPES {
        for seed in 0..200 {
            let edition = EDITIONS[seed as usize % 2];
            let memory = history_of(shape, edition, seed).memory;
            assert!(is_sound_memory(&memory), "{}, seed {seed}", shape.name);
            assert_eq!(u64::from(memory[EDITION.start]), edition);
        }
    }
    for (name, scheduler) in EDITIONS.into_iter().flat_map(host::states::unreached) {
        assert!(is_sound_memory(&to_bytes(&scheduler)), "{name}");
    }
}
