//! Document 01's own checks, with document 02's lengths and room, on the independent scheduler and on the engine under test, in both editions: no check has a
//! round's end, or a row that leaves beside others.

mod calls;

use calls::{in_both_editions, on_both};
use host::answers::{Added, Closed, Opened, Refusal};
use host::scheduler::Scheduler;
use host::spread::{sequence, term};

#[test]
fn checks_1_to_4_terms() {
    on_both(|calls| {
        assert_eq!(calls.term(4, 8), Ok(4));
        assert_eq!(calls.term(12, 4_095), Ok(1));
        assert_eq!(calls.term(3, 8), Err(Refusal::NoTerm));
        assert_eq!(calls.term(3, 7), Ok(1));
        for position in [0, 1, 2, u32::MAX] {
            assert_eq!(calls.term(0, position), Err(Refusal::NoTerm));
        }
    });
}

#[test]
fn check_5_weights_1_4_8_3() {
    in_both_editions(|calls, edition| {
        calls.fill(edition, &[1, 4, 8, 3], 16, 1_014);
        let slots: Vec<u32> = (0..16).map(|_| calls.next().unwrap().slot).collect();
        assert_eq!(slots, [2, 1, 2, 3, 2, 1, 2, 0, 3, 2, 1, 2, 3, 2, 1, 2]);
    });
}

#[test]
fn check_6_terms_taken() {
    in_both_editions(|calls, edition| {
        calls.fill(edition, &[9], 3, 1_014);
        let terms: Vec<u32> = (0..3).map(|_| calls.next().unwrap().terms).collect();
        assert_eq!(terms, [1, 2, 2]);
    });
}

#[test]
fn check_7_one_visit() {
    in_both_editions(|calls, edition| {
        for weight in [1, 9, 4_095] {
            calls.fill(edition, &[weight], 3, 300);
            let starts: Vec<bool> = (0..3).map(|_| calls.next().unwrap().started).collect();
            assert_eq!(starts, [true, false, false]);
        }
    });
}

#[test]
fn check_8_weights() {
    in_both_editions(|calls, edition| {
        calls.start(edition as u32).unwrap();
        assert_eq!(calls.open(4_095), Ok(Opened { slot: 0, ticket: 1 }));
        assert_eq!(calls.open(4_096), Err(Refusal::BadWeight));
        assert_eq!(calls.open(0), Err(Refusal::BadWeight));
    });
}

#[test]
fn check_9_lengths() {
    in_both_editions(|calls, edition| {
        calls.fill(edition, &[1], 0, 0);
        assert_eq!(calls.put(0, 1, 1_014, 7), Ok(Added { serial: 0, waiting: 1 }));
        assert_eq!(calls.put(0, 1, 1_015, 7), Err(Refusal::BadLength));
        assert_eq!(calls.put(0, 1, 0, 7), Err(Refusal::BadLength));
    });
}

#[test]
fn check_10_the_65th_record() {
    in_both_editions(|calls, edition| {
        calls.fill(edition, &[1], 63, 1);
        assert_eq!(calls.put(0, 1, 1, 7), Ok(Added { serial: 63, waiting: 64 }));
        assert_eq!(calls.put(0, 1, 1, 7), Err(Refusal::Full));
    });
}

#[test]
fn check_11_leads() {
    on_both(|calls| {
        assert_eq!(calls.lead(1, 5, 4_095, 0), Ok(-20_475));
        assert_eq!(calls.lead(1, 1, 1, 0), Ok(-1));
        assert_eq!(calls.lead(4_095, 0, 4_095, u32::MAX), Ok(17_587_891_073_025));
        assert_eq!(calls.lead(4_095, u32::MAX, 4_095, 0), Ok(-17_587_891_073_025));
        assert_eq!(calls.lead(0, 1, 1, 1), Err(Refusal::BadWeight));
        assert_eq!(calls.lead(1, 1, 4_096, 1), Err(Refusal::BadWeight));
    });
}

#[test]
fn check_12_the_65th_open() {
    in_both_editions(|calls, edition| {
        calls.fill(edition, &[1; 64], 0, 0);
        assert_eq!(calls.open(1), Err(Refusal::NoneFree));
        assert_eq!(calls.open(0), Err(Refusal::BadWeight));
        assert_eq!(calls.close(17, 1), Ok(Closed::Freed));
        assert_eq!(calls.open(1), Ok(Opened { slot: 17, ticket: 2 }));
    });
}

#[test]
fn the_sequence() {
    assert_eq!(sequence(1), [1]);
    assert_eq!(sequence(3), [1, 2, 1, 3, 1, 2, 1]);
    let whole = sequence(12);
    assert_eq!(whole.len(), 4_095);
    for order in 1..=12u32 {
        for position in 1..1u32 << order {
            let found = term(order, position).unwrap();
            assert_eq!(found, position.trailing_zeros() + 1);
            assert_eq!(u64::from(found), whole[position as usize - 1]);
        }
        assert_eq!(term(order, 0), Err(Refusal::NoTerm));
        assert_eq!(term(order, 1 << order), Err(Refusal::NoTerm));
    }
    for order in [13, 31, 32, 33, 64, u32::MAX] {
        assert_eq!(term(order, 1), Err(Refusal::NoTerm));
    }
}

#[test]
fn an_unsound_state_is_refused_before_all_else() {
    let mut scheduler = Scheduler::fresh(1);
    scheduler.order = 1;
    assert_eq!(scheduler.open(0), Err(Refusal::Unsound));
    assert_eq!(scheduler.put(64, 0, 0, 0), Err(Refusal::Unsound));
    assert_eq!(scheduler.close(64, 0), Err(Refusal::Unsound));
    assert_eq!(scheduler.next(), Err(Refusal::Unsound));
    assert_eq!(scheduler.ask(64, 0), Err(Refusal::Unsound));
}

#[test]
fn the_order_falls_with_slots_still_to_visit() {
    // The first row leaves at the fourth send: order 3 becomes 2 and P 4 becomes 0, with slot 2 still listed.
    let mut scheduler = Scheduler::fresh(1);
    for (weight, records) in [(5, 3), (2, 5), (1, 5)] {
        let opened = scheduler.open(weight).unwrap();
        for reference in 0..records {
            scheduler.put(opened.slot, 1, 1_014, reference).unwrap();
        }
    }
    let first: Vec<u32> = (0..3).map(|_| scheduler.next().unwrap().slot).collect();
    assert_eq!(first, [0, 1, 0]);
    assert_eq!((scheduler.order, scheduler.scan.position), (3, 3));
    assert_eq!(scheduler.next().unwrap().slot, 0);
    assert_eq!((scheduler.order, scheduler.scan.position), (2, 0));
    assert_eq!(scheduler.scan.to_visit, [2].into());
    let sent = scheduler.next().unwrap();
    assert_eq!((sent.slot, sent.started, sent.terms), (2, true, 0));
    let sent = scheduler.next().unwrap();
    assert_eq!((sent.slot, sent.started, sent.terms, scheduler.scan.position), (1, true, 1, 1));
}
