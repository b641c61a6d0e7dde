//! The room and the shared cells (document 02, §4), with numbers worked out by hand, and a pool that fills and drains over long histories.

mod calls;

use calls::{engine, in_both_editions, Calls};
use host::answers::{Added, Closed, Opened, Refusal};
use host::compare::{run_all, state_call};
use host::history::{Call, History, Step};
use host::layout::fresh;
use host::pool;
use host::random::Random;
use host::scheduler::{Scheduler, EDITIONS, LONGEST, SHARED, SLOTS};
use host::states;

/// Open channels of weight 1 with so many records each, of 1,014 bytes, so that each is a visit.
fn filled(calls: &mut dyn Calls, edition: u64, records: &[usize]) {
    let channels: Vec<(u32, usize)> = records.iter().map(|&count| (1, count)).collect();
    calls.fill_each(edition, &channels, LONGEST as u32);
    assert_eq!(calls.state().shared_in_use(), records.iter().map(|count| count.saturating_sub(2)).sum());
}

/// Six channels of 64 have 6 x 62 = 372 of the shared cells, one of 14 the other 12.
#[test]
fn the_last_shared_cell() {
    in_both_editions(|calls, edition| {
        filled(calls, edition, &[64, 64, 64, 64, 64, 64, 13]);
        assert_eq!(calls.put(0, 1, 1, 7), Err(Refusal::Full));
        assert_eq!(calls.put(6, 1, 1, 7), Ok(Added { serial: 13, waiting: 14 }));
        assert_eq!(calls.put(6, 1, 1, 7), Err(Refusal::NoShared));
        assert_eq!(calls.put(0, 1, 1, 7), Err(Refusal::Full));
        assert_eq!(calls.state().shared_in_use(), 384);
    });
}

/// The order of Put's checks: 1, 2, 3, 4, 5, 13.
#[test]
fn thirteen_comes_last() {
    in_both_editions(|calls, edition| {
        filled(calls, edition, &[64, 64, 64, 64, 64, 64, 14]);
        assert_eq!(calls.put(64, 1, 0, 7), Err(Refusal::NoSlot));
        assert_eq!(calls.put(6, 2, 0, 7), Err(Refusal::NotPresent));
        assert_eq!([0, 6].map(|slot| calls.put(slot, 1, 1_015, 7)), [Err(Refusal::BadLength); 2]);
        assert_eq!(calls.put(0, 1, 1_014, 7), Err(Refusal::Full));
        assert_eq!(calls.put(6, 1, 1_014, 7), Err(Refusal::NoShared));
        assert_eq!(calls.close(6, 1), Ok(Closed::Draining));
        assert_eq!(calls.put(6, 1, 0, 7), Err(Refusal::AtClosing));
    });
}

/// "Two are kept for every slot": each other slot takes two, and no third. Then every cell is taken.
#[test]
fn two_are_kept_for_every_slot() {
    in_both_editions(|calls, edition| {
        filled(calls, edition, &[64, 64, 64, 64, 64, 64, 14]);
        for slot in 7..64 {
            assert_eq!(calls.open(4_095), Ok(Opened { slot, ticket: 1 }));
            assert_eq!(calls.put(slot, 1, 1, 7), Ok(Added { serial: 0, waiting: 1 }));
            assert_eq!(calls.put(slot, 1, 1, 7), Ok(Added { serial: 1, waiting: 2 }));
            assert_eq!(calls.put(slot, 1, 1, 7), Err(Refusal::NoShared));
        }
        let state = calls.state();
        assert_eq!((state.shared_in_use(), state.channels.iter().map(|channel| channel.records.len()).sum::<usize>()), (384, 512));
    });
}

/// "A cell whose record is sent is used again": a send of a channel with more than two frees a shared cell for any other, one of a channel with two does not.
#[test]
fn a_cell_is_used_again() {
    in_both_editions(|calls, edition| {
        filled(calls, edition, &[2, 50, 50, 50, 50, 50, 50, 50, 50]);
        assert_eq!(calls.put(0, 1, 1, 7), Err(Refusal::NoShared));
        // Weight 1 each: one round visits the rows in turn.
        assert_eq!(calls.next().unwrap().slot, 0);
        assert_eq!(calls.put(1, 1, 1, 7), Err(Refusal::NoShared));
        assert_eq!(calls.put(0, 1, 1, 7), Ok(Added { serial: 2, waiting: 2 }));
        assert_eq!(calls.put(0, 1, 1, 7), Err(Refusal::NoShared));
        assert_eq!(calls.next().unwrap().slot, 1);
        assert_eq!(calls.put(0, 1, 1, 7), Ok(Added { serial: 3, waiting: 3 }));
        assert_eq!([0, 1, 2].map(|slot| calls.put(slot, 1, 1, 7)), [Err(Refusal::NoShared); 3]);
    });
}

/// Closed channels keep their cells until their records are sent; then another has them.
#[test]
fn a_closed_channel_drains_the_pool() {
    in_both_editions(|calls, edition| {
        filled(calls, edition, &[64, 64, 64, 64, 64, 64, 14]);
        for slot in 0..7 {
            assert_eq!(calls.close(slot, 1), Ok(Closed::Draining));
        }
        assert_eq!(calls.open(1), Ok(Opened { slot: 7, ticket: 1 }));
        assert_eq!(calls.put(7, 1, 1_014, 7), Ok(Added { serial: 0, waiting: 1 }));
        assert_eq!(calls.put(7, 1, 1_014, 7), Ok(Added { serial: 1, waiting: 2 }));
        assert_eq!(calls.put(7, 1, 1_014, 7), Err(Refusal::NoShared));
        while !calls.state().rows.is_empty() {
            calls.next().unwrap();
        }
        for waiting in 1..=64 {
            assert_eq!(calls.put(7, 1, 1_014, 7), Ok(Added { serial: waiting + 1, waiting }));
        }
        assert_eq!(calls.put(7, 1, 1_014, 65), Err(Refusal::Full));
    });
}

/// The states at the limit are at it, or one or more cells below.
#[test]
fn states_at_the_limit() {
    for edition in EDITIONS {
        let sums: Vec<usize> = pool::at_the_limit(edition).iter().map(|(_, state)| state.shared_in_use()).collect();
        assert_eq!(sums, [384, 384, 384, 384, 384, 384, 383, 383, 311, 384, 384]);
        let cells = |state: &Scheduler| state.channels.iter().map(|channel| channel.records.len()).sum::<usize>();
        let all_taken = pool::at_the_limit(edition).iter().filter(|(_, state)| cells(state) == 512).count();
        assert_eq!(all_taken, 3);
    }
}

/// The sum, taken channel by channel.
#[test]
fn the_sum_both_ways() {
    let mut random = Random::new(61);
    for round in 0..2_000 {
        let edition = EDITIONS[round % 2];
        let state = if round % 3 == 0 { pool::any_at_limit(&mut random, edition) } else { states::any_sound(&mut random, edition, 64) };
        let by_channels: usize = state.channels.iter().map(|channel| channel.records.len().saturating_sub(2)).sum();
        assert_eq!(state.shared_in_use(), by_channels);
        assert!(state.sound() && by_channels <= SHARED);
    }
}

/// How often a history met the limit, and how often nothing was left.
#[derive(Clone, Copy, Debug, Default)]
struct Tides {
    high: u32,
    low: u32,
}

/// Calls that fill the pool until it has refused some records, then drain it until nothing waits, over and over.
fn tides(edition: u64, channels: usize, calls: usize) -> (History, Tides) {
    let mut random = Random::new(channels as u64);
    let mut now = Scheduler::fresh(edition);
    let (mut steps, mut met) = (Vec::new(), Tides::default());
    let mut make = |now: &mut Scheduler, call: Call| {
        let result = state_call(now, &call);
        steps.push(Step::Call(call));
        result
    };
    for _ in 0..channels {
        let weight = random.pick(&[1, 2, 3, 5, 100, 4_095]);
        make(&mut now, Call::Open { weight }).unwrap();
    }
    let (mut fills, mut refused) = (true, 0);
    for reference in 0..calls as u32 {
        if random.chance(if fills { 9 } else { 1 }, 10) {
            let (slot, length) = (random.below(channels as u64) as u32, random.from_to(1, LONGEST) as u32);
            let result = make(&mut now, Call::Put { slot, ticket: 1, length, reference });
            refused += u32::from(result == Err(Refusal::NoShared));
        } else {
            let _ = make(&mut now, Call::Next);
        }
        if fills && refused == 40 {
            (fills, refused, met.high) = (false, 0, met.high + 1);
        }
        if !fills && now.rows.is_empty() {
            (fills, refused, met.low) = (true, 0, met.low + 1);
        }
    }
    (History { seed: channels as u64, shape: "tides", memory: fresh(edition), steps }, met)
}

#[test]
fn the_pool_fills_and_drains() {
    for edition in EDITIONS {
        for channels in [7, 8, 20, SLOTS] {
            let (history, met) = tides(edition, channels, 40_000);
            assert!(met.high >= 15 && met.low >= 15, "{channels} channels: {met:?}");
            if let Err(report) = run_all(&mut engine(), [history]) {
                panic!("{report}");
            }
        }
    }
}
