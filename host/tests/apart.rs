//! Term and lead on the engine under test: every order and position, and leads at their ends.

mod common;

use host::compare::run_all;
use host::history::{Call, History, Step};
use host::layout::fresh;
use host::random::Random;

fn compare(shape: &'static str, calls: Vec<Call>) {
    let steps = calls.into_iter().map(Step::Call).collect();
    let history = History { seed: 0, shape, memory: fresh(1), steps };
    if let Err(report) = run_all(&mut common::engine(), [history]) {
        panic!("{report}");
    }
}

#[test]
fn every_term() {
    let mut calls = Vec::new();
    for order in 0..=14 {
        for position in 0..=(1 << order) + 2 {
            calls.push(Call::Term { order, position });
        }
    }
    for order in [15, 16, 31, 32, 33, 63, 64, 65, 256, 268, 0x8000_0000, 0x8000_000c, u32::MAX] {
        for position in [0, 1, 2, 4_095, 4_096, 0x8000_0000, u32::MAX] {
            calls.push(Call::Term { order, position });
        }
    }
    for order in 1..=12 {
        for position in [65_537, 0x8000_0000, 0x8000_0001, u32::MAX] {
            calls.push(Call::Term { order, position });
        }
    }
    compare("every term", calls);
}

#[test]
fn leads_at_the_ends() {
    let weights = [0, 1, 2, 4_094, 4_095, 4_096, 65_537, 0x8000_0001, u32::MAX];
    let counts = [0, 1, 2, 0x7fff_ffff, 0x8000_0000, 0xffff_fffe, u32::MAX];
    let mut calls = Vec::new();
    for w1 in weights {
        for v1 in counts {
            for w2 in weights {
                for v2 in counts {
                    calls.push(Call::Lead { w1, v1, w2, v2 });
                }
            }
        }
    }
    let mut random = Random::new(31);
    for _ in 0..20_000 {
        let (w1, w2) = (random.from_to(1, 4_095) as u32, random.from_to(1, 4_095) as u32);
        calls.push(Call::Lead { w1, v1: random.number() as u32, w2, v2: random.number() as u32 });
    }
    compare("leads", calls);
}
