//! Other lengths of state and answer, for every entry.

mod common;

use host::compare::run_all;
use host::damage::breakages;
use host::history::{Call, History, Step};
use host::image::{image_of, LONGEST_IMAGE};
use host::layout::{self, to_bytes, LENGTH, LENGTHS};
use host::pool;
use host::scheduler::EDITIONS;
use host::states;

const CALLS: [Call; 16] = [
    Call::Start { edition: 1 },
    Call::Start { edition: 2 },
    // Another length is refused before another edition is.
    Call::Start { edition: 3 },
    Call::Open { weight: 3 },
    Call::Open { weight: 0 },
    Call::Put { slot: 1, ticket: 1, length: 5, reference: 6 },
    Call::Put { slot: 64, ticket: 1, length: 5, reference: 6 },
    Call::Close { slot: 1, ticket: 1 },
    Call::Next,
    Call::Ask { slot: 1, ticket: 1 },
    Call::Fullest,
    Call::Lead { w1: 1, v1: 2, w2: 3, v2: 4 },
    Call::Lead { w1: 0, v1: 2, w2: 3, v2: 4 },
    Call::Term { order: 3, position: 4 },
    Call::Term { order: 0, position: 4 },
    // No rows and an empty list; tests/sheet.rs has others.
    Call::Sheet { weights: Vec::new(), rows: Vec::new() },
];

/// Those of parked queues: buffers of just the length, longer and too short, an image and none.
fn of_parking(memory: &[u8]) -> Vec<Call> {
    let image = layout::sound_from_bytes(memory).map_or(vec![1; LONGEST_IMAGE], |state| image_of(&state));
    let rooms = [0, image.len() - 1, image.len(), LENGTH].map(|room| Call::Park { room });
    let images = [Vec::new(), image[..image.len() - 1].to_vec(), image].map(|image| Call::Unpark { image });
    rooms.into_iter().chain(images).collect()
}

/// 3,968 bytes are all but the notes, and 7,040 have cells for 16 records in each of 64 channels.
const STATE_LENGTHS: [usize; 16] =
    [0, 1, 44, 63, 64, LENGTHS.start, LENGTH / 2, 3_968, 4_096, LENGTH - 2, LENGTH - 1, LENGTH, LENGTH + 1, LENGTH + 64, 7_040, 2 * LENGTH];

fn compare(memory: Vec<u8>) -> u64 {
    let mut steps = Vec::new();
    for call in CALLS.into_iter().chain(of_parking(&memory)) {
        for state_length in STATE_LENGTHS {
            for answer_length in (0..=64).chain([LENGTH]) {
                let start_accepted = matches!(call, Call::Start { edition: 1 | 2 } | Call::Unpark { .. }) && state_length == LENGTH;
                let accepted = state_length == LENGTH && answer_length == call.answer_length();
                // Accepted calls would change the memory for the rest; they are compared elsewhere.
                if !start_accepted && !accepted {
                    steps.push(Step::Mislent { call: call.clone(), state_length, answer_length });
                }
            }
        }
    }
    let history = History { seed: 0, shape: "other lengths", memory, steps };
    match run_all(&mut common::engine(), [history]) {
        Ok(calls) => calls,
        Err(report) => panic!("{report}"),
    }
}

#[test]
fn of_a_sound_state() {
    for edition in EDITIONS {
        assert!(compare(to_bytes(&states::parked(states::rich(edition)))) > 10_000);
        assert!(compare(to_bytes(&states::rich(edition))) > 10_000);
        assert!(compare(to_bytes(&pool::full(edition))) > 10_000);
    }
}

#[test]
fn of_an_unsound_state() {
    let first = &breakages()[0];
    assert!(compare(to_bytes(&first.scheduler)) > 10_000);
}
