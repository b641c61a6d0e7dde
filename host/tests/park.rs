//! Parked queues (document 02, §6) on the engine under test: the two calls, the mark, and what comes out of a queue that was parked.

mod common;

use host::answers::Refusal;
use host::compare::run_all;
use host::damage::{breakages, no_image, wrong_bytes};
use host::engine::Engine;
use host::history::{Call, History, Step};
use host::image::{image_of, read, LONGEST_IMAGE};
use host::layout::{fresh, to_bytes, LENGTH, MARK};
use host::pool;
use host::random::Random;
use host::scheduler::{Scheduler, EDITIONS, PARKED};
use host::states;

/// Every call but Start, the reader, lead and term, with numbers that rich() accepts, and with some that it refuses.
fn others(length: usize) -> Vec<Call> {
    vec![
        Call::Open { weight: 9 },
        Call::Open { weight: 0 },
        Call::Put { slot: 1, ticket: 1, length: 1_014, reference: 7 },
        Call::Put { slot: 64, ticket: 1, length: 0, reference: 7 },
        Call::Close { slot: 1, ticket: 1 },
        Call::Close { slot: 64, ticket: 1 },
        Call::Next,
        Call::Ask { slot: 3, ticket: 9 },
        Call::Ask { slot: 64, ticket: 9 },
        Call::Fullest,
        Call::Park { room: length },
        Call::Park { room: 0 },
    ]
}

fn apart() -> [Call; 4] {
    [
        Call::Lead { w1: 1, v1: 1, w2: 1, v2: 0 },
        Call::Lead { w1: 0, v1: 1, w2: 1, v2: 0 },
        Call::Term { order: 4, position: 8 },
        Call::Term { order: 0, position: 8 },
    ]
}

fn history(shape: &'static str, seed: u64, memory: Vec<u8>, steps: Vec<Step>) -> History {
    History { seed, shape, memory, steps }
}

fn calls(calls: impl IntoIterator<Item = Call>) -> Vec<Step> {
    calls.into_iter().map(Step::Call).collect()
}

fn compare(histories: impl IntoIterator<Item = History>) -> u64 {
    match run_all(&mut common::engine(), histories) {
        Ok(calls) => calls,
        Err(report) => panic!("{report}"),
    }
}

/// Any sound state of each generator, in turn.
fn any(random: &mut Random, turn: u64) -> Scheduler {
    let (edition, most) = (1 + turn % 2, random.pick(&[1, 4, 30, 64]));
    match turn / 2 % 8 {
        0 => pool::any_at_limit(random, edition),
        1 => pool::any_full_channel(random, edition),
        2 => states::near_round_end(random, edition),
        3 => states::near_last_serial(random, edition),
        4 => states::near_last_ticket(random, edition),
        5 => Scheduler { mark: 0, ..states::unreached(edition).swap_remove(turn as usize % states::unreached(edition).len()).1 },
        _ => states::any_sound(random, edition, most),
    }
}

/// The engine's own numbers and bytes, without the comparer: the fresh state's image, its length in the answer, and the mark.
#[test]
fn the_fresh_state_is_parked_and_read() {
    let mut engine = common::engine();
    for edition in EDITIONS {
        let (mut memory, mut image, mut answer) = (fresh(edition), vec![0xa5; 800], [0xa5; 4]);
        assert_eq!(engine.park(&mut memory, &mut image[..787], &mut answer), Refusal::ShortBuffer.number());
        assert_eq!((&memory, answer, image.iter().all(|&byte| byte == 0xa5)), (&fresh(edition), [0; 4], true));
        assert_eq!(engine.park(&mut memory, &mut image, &mut answer), 0);
        assert_eq!((u32::from_le_bytes(answer), memory[847]), (788, 1));
        assert_eq!(image[..20], [1, 0, 0, 3, 15, edition as u8, 0, 0, 0, 0, 0, 0, 0, 0, 0, 0, 0, 0, 255, 0]);
        assert!(image[20..788].iter().all(|&byte| byte == 0) && image[788..].iter().all(|&byte| byte == 0xa5));
        memory[847] = 0;
        assert_eq!(memory, fresh(edition));
        memory.fill(0xff);
        assert_eq!(engine.unpark(&mut memory, &mut image[..789]), Refusal::BadImage.number());
        assert_eq!(memory, [0xff; LENGTH]);
        assert_eq!(engine.unpark(&mut memory, &mut image[..788]), 0);
        assert_eq!(memory, fresh(edition));
    }
}

/// "After writing, the state is parked and takes only start and the reader": every call on it, then both ways out.
#[test]
fn a_parked_state_takes_only_start_and_the_reader() {
    let mut histories = Vec::new();
    for state in [states::rich(1), states::rich(2), Scheduler::fresh(1), pool::full(2)] {
        let image = image_of(&state);
        let park = Call::Park { room: image.len() };
        let on_parked = || [park.clone()].into_iter().chain(others(image.len())).chain(apart());
        let ways = [Call::Start { edition: 1 }, Call::Start { edition: 2 }, Call::Unpark { image: image.clone() }];
        for way in ways {
            let refused = [Call::Start { edition: 3 }, Call::Unpark { image: Vec::new() }];
            let after = others(image.len());
            let all = on_parked().chain(refused).chain(others(image.len())).chain([way]).chain(after);
            histories.push(history("parked", 0, to_bytes(&state), calls(all)));
        }
    }
    assert_eq!(compare(histories), 4 * 3 * 44);
}

/// 10 comes before 14: a parked memory that breaks a rule, and any mark above 1.
#[test]
fn an_unsound_parked_state_is_unsound() {
    let broken = breakages().into_iter().map(|breakage| (breakage.name, to_bytes(&breakage.scheduler))).chain(wrong_bytes());
    compare(broken.flat_map(|(name, memory)| {
        let marked = |mark| {
            let mut memory = memory.clone();
            memory[MARK.start] = mark;
            history(name, 0, memory, calls(others(LONGEST_IMAGE)))
        };
        [marked(1), marked(2)]
    }));
}

/// Buffers shorter by one, of just the length and longer, on states of every generator; the memory is then thrown away, or stays, and the image is read.
#[test]
fn any_state_is_parked_and_read() {
    let mut random = Random::new(61);
    for turn in 0..3_000 {
        let state = any(&mut random, turn);
        let image = image_of(&state);
        let mut steps = calls([Call::Park { room: image.len() - 1 }]);
        let longer = random.from_to(1, 100) as usize;
        let room = random.pick(&[image.len(), image.len(), image.len() + longer, LONGEST_IMAGE.max(image.len())]);
        steps.extend(calls([Call::Park { room }, Call::Next, Call::Park { room }]));
        match random.below(3) {
            0 => steps.push(Step::Lost { fill: random.number() as u8 }),
            1 => steps.push(Step::Damage { place: random.below(LENGTH as u64) as usize, flip: 1 << random.below(8) }),
            _ => {}
        }
        let cut = image[..random.below(image.len() as u64) as usize].to_vec();
        let extended = [&image[..], &[0]].concat();
        steps.extend(calls([cut, extended, image].map(|image| Call::Unpark { image })));
        steps.extend(calls(vec![Call::Next; 5]));
        compare([history("any state is parked", turn, to_bytes(&state), steps)]);
    }
}

/// "A firmware change empties every queue today": what is sent after a reading is what would have been sent, record by record.
#[test]
fn every_record_comes_out_in_order() {
    let mut random = Random::new(62);
    let mut engine = common::engine();
    for turn in 0..200 {
        let state = any(&mut random, turn);
        let mut sent = |memory: &mut Vec<u8>| {
            let mut all = Vec::new();
            let mut answer = [0; 28];
            while engine.next(memory, &mut answer) == 0 {
                all.push(answer);
            }
            all
        };
        let (mut kept, mut memory) = (to_bytes(&state), to_bytes(&state));
        let expected = sent(&mut kept);
        assert_eq!(expected.len(), state.channels.iter().map(|channel| channel.records.len()).sum::<usize>());
        let (mut image, mut answer) = (vec![0; LONGEST_IMAGE], [0; 4]);
        let mut parking = common::engine();
        assert_eq!(parking.park(&mut memory, &mut image, &mut answer), 0);
        memory.fill(random.number() as u8);
        assert_eq!(parking.unpark(&mut memory, &mut image[..u32::from_le_bytes(answer) as usize]), 0);
        assert_eq!((sent(&mut memory), memory), (expected, kept));
    }
}

/// A hundred thousand images, most of them none, read into a parked, a damaged, a fresh and a lost memory in turn.
#[test]
fn images_at_random() {
    let mut random = Random::new(63);
    let (mut taken, mut refused) = (0, 0);
    for turn in 0..5_000 {
        let (state, other) = (any(&mut random, turn), any(&mut random, turn + 1));
        let image = image_of(&state);
        let mut memory = to_bytes(&Scheduler { mark: random.below(2) * PARKED, ..other });
        match turn % 4 {
            0 => memory.fill(random.number() as u8),
            1 => memory[random.below(LENGTH as u64) as usize] ^= 1 << random.below(8),
            2 => memory = fresh(1),
            _ => {}
        }
        let images: Vec<Vec<u8>> = (0..20).map(|_| no_image(&mut random, &image)).collect();
        for image in &images {
            match read(image) {
                Some(read) => {
                    assert_eq!(image_of(&read), *image);
                    taken += 1;
                }
                None => refused += 1,
            }
        }
        compare([history("images at random", turn, memory, calls(images.into_iter().map(|image| Call::Unpark { image })))]);
    }
    assert!(taken + refused == 100_000 && taken > 10_000 && refused > 50_000, "{taken} {refused}");
}

/// Every byte of an image changed in turn, every value for the small fields; every cut; bytes behind.
#[test]
fn every_byte_of_an_image() {
    let mut random = Random::new(64);
    let mut made = 0;
    for state in [Scheduler::fresh(1), states::rich(2), states::rich(1), pool::full(2)] {
        let image = image_of(&state);
        let mut images: Vec<Vec<u8>> = (0..image.len()).map(|end| image[..end].to_vec()).collect();
        images.extend((0..=255).map(|byte| [&image[..], &[byte]].concat()));
        for place in 0..image.len() {
            let small = place < 20 + state.rows.len();
            let was = image[place];
            let some = [was ^ 1, was ^ 128, was.wrapping_add(1), random.number() as u8];
            let some = if image.len() > 2_000 { &some[..1 + place % 2] } else { &some[..] };
            for byte in if small { (0..=255).collect::<Vec<u8>>() } else { some.to_vec() } {
                let mut changed = image.clone();
                changed[place] = byte;
                images.push(changed);
            }
        }
        // Some on a live state, so that what a refusal keeps is more than zeros.
        for (part, images) in images.chunks(500).enumerate() {
            let unparks = images.iter().map(|image| Call::Unpark { image: image.clone() });
            made += compare([history("every byte of an image", part as u64, to_bytes(&states::rich(1)), calls(unparks))]);
        }
    }
    assert!(made > 40_000, "{made}");
}
