//! Damaged memories: number 10, a zeroed answer and unchanged bytes exactly where the memory is unsound.

mod common;

use host::check::record_by_record;
use host::compare::run_all;
use host::damage::{breakages, other_notes, wrong_bytes, wrong_notes};
use host::history::{Call, History, Step};
use host::image::{image_of, LONGEST_IMAGE};
use host::layout::{
    is_sound_memory, notes_from_bytes, sound_from_bytes, to_bytes, with_notes, BYTES, EDITION, KIND, LENGTH, LENGTHS, ROW_COUNT, TICKET,
};
use host::pool;
use host::random::Random;
use host::scheduler::{Scheduler, EDITIONS};
use host::states;

/// Each call that takes a state but Start and the reader, with numbers that rich() accepts, then with numbers that some rule refuses.
static CALLS: [Call; 13] = [
    Call::Next,
    Call::Open { weight: 9 },
    Call::Put { slot: 1, ticket: 1, length: 1_014, reference: 0xffff_fffe },
    Call::Close { slot: 1, ticket: 1 },
    Call::Ask { slot: 3, ticket: 9 },
    Call::Fullest,
    Call::Next,
    Call::Open { weight: 0 },
    Call::Put { slot: 64, ticket: 1, length: 0, reference: 0 },
    Call::Close { slot: 5, ticket: 1 },
    Call::Ask { slot: u32::MAX, ticket: 0 },
    // All others would be refused after it.
    Call::Park { room: LONGEST_IMAGE },
    Call::Park { room: 0 },
];

fn history(shape: &'static str, seed: u64, memory: Vec<u8>, calls: &[Call]) -> History {
    History { seed, shape, memory, steps: calls.iter().cloned().map(Step::Call).collect() }
}

fn compare(histories: impl IntoIterator<Item = History>) -> u64 {
    match run_all(&mut common::engine(), histories) {
        Ok(calls) => calls,
        Err(report) => panic!("{report}"),
    }
}

#[test]
fn each_rule_broken() {
    let mut histories = Vec::new();
    for breakage in breakages() {
        assert_eq!(breakage.scheduler.broken(), breakage.rules, "{}", breakage.name);
        let memory = to_bytes(&breakage.scheduler);
        assert!(!is_sound_memory(&memory) && !record_by_record(&memory), "{}", breakage.name);
        histories.push(history(breakage.name, 0, memory, &CALLS));
    }
    for (name, memory) in wrong_bytes() {
        assert!(!is_sound_memory(&memory) && !record_by_record(&memory), "{name}");
        histories.push(history(name, 0, memory, &CALLS));
    }
    let count = histories.len();
    assert_eq!(compare(histories), (count * CALLS.len()) as u64);
}

/// Sound states with wrong notes: which of the two rules they break, as far as the notes can be read, and nothing else does.
#[test]
fn notes_that_the_records_do_not_bear_out() {
    for (name, rules, memory) in wrong_notes() {
        let mut right = memory.clone();
        let state = host::layout::from_bytes(&memory).filter(Scheduler::sound).expect(name);
        right[BYTES.start..].copy_from_slice(&to_bytes(&state)[BYTES.start..]);
        assert_eq!(sound_from_bytes(&right), Some(state.clone()), "{name}");
        match notes_from_bytes(&memory) {
            Some(notes) => assert_eq!(notes.broken(&state), rules, "{name}"),
            None => assert!(["six are listed", "255 are listed"].contains(&name), "{name}"),
        }
    }
}

/// Wrong notes at random beside the right ones, on states of every kind.
#[test]
fn notes_at_random() {
    let mut random = Random::new(24);
    let (mut right, mut wrong) = (0, 0);
    for seed in 0..6_000 {
        let edition = EDITIONS[seed as usize % 2];
        let state = match seed / 2 % 6 {
            0 => pool::any_at_limit(&mut random, edition),
            1 => pool::any_longest(&mut random, edition),
            2 => states::filling(edition),
            3 => pool::full(edition),
            _ => {
                let most = random.pick(&[2, 5, 8, 64]);
                states::any_sound(&mut random, edition, most)
            }
        };
        let memory = with_notes(&state, &other_notes(&mut random, &state));
        let sound = is_sound_memory(&memory);
        assert_eq!((sound, record_by_record(&memory)), (memory == to_bytes(&state), sound));
        *if sound { &mut right } else { &mut wrong } += 1;
        let calls = [Call::Fullest, random.pick(&CALLS), random.pick(&CALLS)];
        compare([history("notes at random", seed, memory, &calls)]);
    }
    assert!(right > 100 && wrong > 4_000, "{right} {wrong}");
}

/// The nearest states that break nothing are served.
#[test]
fn unreached_states_are_served() {
    let mut histories = Vec::new();
    for (name, scheduler) in EDITIONS.into_iter().flat_map(states::unreached) {
        assert_eq!(scheduler.broken(), [], "{name}");
        let memory = to_bytes(&scheduler);
        assert!(is_sound_memory(&memory) && record_by_record(&memory), "{name}");
        for call in &CALLS {
            histories.push(history(name, 0, memory.clone(), std::slice::from_ref(call)));
        }
        histories.push(history(name, 0, memory, &vec![Call::Next; 2_000]));
    }
    compare(histories);
}

/// The reader looks at the length and the image alone.
#[test]
fn unpark_mends_any_memory() {
    let damaged = breakages().into_iter().map(|breakage| (breakage.name, to_bytes(&breakage.scheduler)));
    let image = image_of(&states::rich(2));
    let [none, some] = [image[1..].to_vec(), image].map(|image| Call::Unpark { image });
    let calls = [Call::Next, none, Call::Next, some, Call::Fullest, Call::Next, Call::Ask { slot: 3, ticket: 9 }];
    compare(damaged.chain(wrong_bytes()).map(|(name, memory)| history(name, 0, memory, &calls)));
}

/// Start looks at the length and the edition alone.
#[test]
fn start_mends_any_memory() {
    let damaged = breakages().into_iter().map(|breakage| (breakage.name, to_bytes(&breakage.scheduler)));
    let [first, second, none] = [1, 2, 3].map(|edition| Call::Start { edition });
    let calls = [
        Call::Next,
        none.clone(),
        Call::Next,
        first,
        Call::Open { weight: 1 },
        none,
        Call::Next,
        second,
        Call::Open { weight: 2 },
        Call::Next,
    ];
    compare(damaged.chain(wrong_bytes()).map(|(name, memory)| history(name, 0, memory, &calls)));
}

/// Each byte flipped in turn.
#[test]
fn each_byte_flipped() {
    let mut random = Random::new(21);
    let any = states::any_sound(&mut random, 2, 64);
    let door = states::door(12, 2_047, &[1_014; 3]);
    let mut calls = 0;
    for (name, scheduler) in [
        ("fresh", Scheduler::fresh(1)),
        ("rich", states::rich(1)),
        ("rich", states::rich(2)),
        ("full", pool::full(1)),
        ("at the limits", pool::any_at_limit(&mut random, 2)),
        ("any", any),
        ("door", door),
    ] {
        let bytes = to_bytes(&scheduler);
        for place in 0..LENGTH {
            let mut flips = vec![1, 1 << random.below(8), 0xff];
            if !(LENGTHS.start..BYTES.start).contains(&place) {
                flips = (0..8).map(|bit| 1 << bit).chain([0xff]).collect();
            }
            for flip in flips {
                let mut memory = bytes.clone();
                memory[place] ^= flip;
                assert_eq!(record_by_record(&memory), is_sound_memory(&memory), "{name}, byte {place}");
                calls += compare([history(name, place as u64, memory, &[random.pick(&CALLS)])]);
            }
        }
    }
    assert!(calls > 120_000);
}

#[test]
fn damage_at_random() {
    let mut random = Random::new(22);
    for seed in 0..4_000 {
        let most = random.pick(&[2, 8, 64]);
        let edition = EDITIONS[seed as usize % 2];
        let any =
            if random.chance(1, 4) { pool::any_at_limit(&mut random, edition) } else { states::any_sound(&mut random, edition, most) };
        let mut memory = to_bytes(&any);
        for _ in 0..random.from_to(1, 4) {
            let end = random.pick(&[KIND.start, TICKET.start, ROW_COUNT.start, LENGTHS.start, LENGTH]);
            let notes = random.chance(1, 6);
            let place = if notes { BYTES.start + random.below(134) as usize } else { random.below(end as u64) as usize };
            memory[place] = random.number() as u8;
        }
        compare([history("damage at random", seed, memory, &CALLS)]);
    }
}

#[test]
fn bytes_at_random() {
    let mut random = Random::new(23);
    for seed in 0..200 {
        let mut memory: Vec<u8> = (0..LENGTH).map(|_| random.number() as u8).collect();
        if seed % 2 == 0 {
            memory[EDITION.start] = random.pick(&[1, 2]);
        }
        compare([history("bytes at random", seed, memory, &CALLS)]);
    }
    compare([history("all ones", 0, vec![0xff; LENGTH], &CALLS)]);
}
