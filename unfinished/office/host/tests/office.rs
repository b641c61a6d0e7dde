//! The office (document 02, §14): verdicts worked out by hand, the engine under test beside the independent office, and the promise itself over what the independent
//! scheduler sends and a radio that drops and mixes.

mod common;
mod misheard;

use std::collections::BTreeMap;

use host::answers::{Refusal, Taken};
use host::arrivals::{any_bytes, every_head_byte, history, offices, other_answers};
use host::counting::{compare, Call, Counting};
use host::frame::Frame;
use host::office::{Office, LENGTH};
use host::radio::{dropping, longest_row, lost_before_last, marks, mixed, sends, Flight};
use host::random::Random;
use host::scheduler::{EDITIONS, SLOTS};
use misheard::{fields, Slip, Wrong};

/// The engine under test with an office of its own.
struct Lent(Vec<u8>);

impl Lent {
    fn fresh() -> Lent {
        let mut office = vec![0xa5; LENGTH];
        assert_eq!(common::adapter().start_office(&mut office), 0);
        assert_eq!(office, [0; LENGTH]);
        Lent(office)
    }

    fn take(&mut self, frame: &[u8]) -> Result<Taken, Refusal> {
        let mut answer = [0xa5; 24];
        match common::adapter().take(&mut self.0, &mut frame.to_vec(), &mut answer) {
            0 => Ok(fields(&answer)),
            number => Err(Refusal::from_number(number).unwrap()),
        }
    }
}

fn frame(slot: u32, ticket: u32, serial: u16) -> Vec<u8> {
    Frame { slot, ticket, serial, record: vec![1] }.bytes()
}

/// What both offices say of a ticket and a serial of slot 9: how many were lost, or none for a late repeat.
fn verdicts(heard: &[(u32, u16)]) -> Vec<Option<u32>> {
    let (mut office, mut lent) = (Office::fresh(), Lent::fresh());
    let mut said = Vec::new();
    for &(ticket, serial) in heard {
        let taken = lent.take(&frame(9, ticket, serial)).unwrap();
        assert_eq!(Ok(taken), office.take(&frame(9, ticket, serial)));
        assert_eq!(lent.0, office.to_bytes());
        assert!(!taken.late || taken.lost == 0);
        said.push((!taken.late).then_some(taken.lost));
    }
    said
}

#[test]
fn verdicts_by_hand() {
    assert_eq!(verdicts(&[(1, 0), (1, 1), (1, 4), (1, 5)]), [Some(0), Some(0), Some(2), Some(0)]);
    // A late repeat changes nothing, however often it comes.
    assert_eq!(verdicts(&[(1, 3), (1, 0), (1, 3), (1, 2), (1, 4)]), [Some(3), None, None, None, Some(0)]);
    // 32,767 lost in a row are counted, of 32,768 none is.
    assert_eq!(verdicts(&[(1, 32_767), (1, 32_768)]), [Some(32_767), Some(0)]);
    assert_eq!(verdicts(&[(1, 32_768), (1, 0), (1, 32_768)]), [None, Some(0), Some(32_767)]);
    assert_eq!(verdicts(&[(1, 7), (1, 32_776), (1, 32_775), (1, 32_775)]), [Some(7), None, Some(32_767), None]);
    // Serials wrap.
    assert_eq!(
        verdicts(&[(1, 30_000), (1, 60_000), (1, 65_535), (1, 0), (1, 2)]),
        [Some(30_000), Some(29_999), Some(5_534), Some(0), Some(1)]
    );
    assert_eq!(verdicts(&[(1, 30_000), (1, 60_000), (1, 4), (1, 65_535)]), [Some(30_000), Some(29_999), Some(5_539), None]);
    // "A ticket above the one held replaces it with expected serial 0; a lower one is a late repeat."
    assert_eq!(verdicts(&[(1, 5), (2, 0), (1, 6), (2, 1)]), [Some(5), Some(0), None, Some(0)]);
    assert_eq!(verdicts(&[(1, 5), (4, 3), (3, 0), (4, 4), (u32::MAX, 0), (4, 5)]), [Some(5), Some(3), None, Some(0), Some(0), None]);
    // A higher ticket whose serial is 32,768 or more is a late repeat and changes nothing.
    assert_eq!(
        verdicts(&[(3, 4), (4, 32_768), (3, 5), (4, 65_535), (3, 6), (4, 32_767), (3, 7)]),
        [Some(4), None, Some(0), None, Some(0), Some(32_767), None]
    );
}

/// Slots know nothing of each other.
#[test]
fn slots_by_hand() {
    let mut lent = Lent::fresh();
    for slot in (0..SLOTS as u32).rev() {
        assert_eq!(lent.take(&frame(slot, slot + 1, slot as u16)).unwrap().lost, slot);
    }
    for slot in 0..SLOTS as u32 {
        assert_eq!(lent.take(&frame(slot, slot + 1, slot as u16 + 2)).unwrap().lost, 1);
    }
    assert_eq!(lent.take(&frame(64, 1, 0)), Err(Refusal::BadFrame));
}

/// The memory, byte by byte: docs/LAYOUT.md.
#[test]
fn the_memory_by_hand() {
    let mut lent = Lent::fresh();
    assert!(lent.take(&frame(3, 0x0102_0304, 0x0506)).is_ok());
    let mut right = [0; LENGTH];
    (right[3], right[67], right[131], right[195], right[259], right[323]) = (4, 3, 2, 1, 7, 5);
    assert_eq!(lent.0, right);
    assert_eq!(Office::from_bytes(&right).map(|office| office.to_bytes()), Some(right.to_vec()));
}

#[test]
fn answers_by_hand() {
    let (mut office, mut answer) = (vec![0; LENGTH], [0xa5; 24]);
    let mut sent = Frame { slot: 9, ticket: 0x0102_0304, serial: 0x0506, record: vec![0; 300] }.bytes();
    assert_eq!(common::adapter().take(&mut office, &mut sent, &mut answer), 0);
    assert_eq!(answer, [9, 0, 0, 0, 4, 3, 2, 1, 6, 5, 0, 0, 0x2c, 1, 0, 0, 6, 5, 0, 0, 0, 0, 0, 0]);
    assert_eq!(common::adapter().take(&mut office, &mut sent, &mut answer), 0);
    assert_eq!(answer, [9, 0, 0, 0, 4, 3, 2, 1, 6, 5, 0, 0, 0x2c, 1, 0, 0, 0, 0, 0, 0, 1, 0, 0, 0]);
    sent.push(0);
    assert_eq!((common::adapter().take(&mut office, &mut sent, &mut answer), answer), (20, [0; 24]));
    office[256] = 1;
    assert_eq!((common::adapter().take(&mut office, &mut sent, &mut answer), answer), (10, [0; 24]));
}

/// Histories of few slots and of all, from fresh offices and from others.
fn histories(seed: u64, times: usize) -> Vec<Call> {
    let mut random = Random::new(seed);
    let mut calls = Vec::new();
    for _ in 0..times {
        let slots = random.pick(&[1, 2, 5, SLOTS as u64]);
        calls.extend(history(&mut random, slots, 300));
    }
    calls
}

fn run(calls: &[Call]) -> usize {
    compare(&mut common::adapter(), calls).unwrap_or_else(|difference| panic!("{difference}"))
}

#[test]
fn histories_are_heard_alike() {
    let calls = histories(149, 500);
    assert_eq!(run(&calls), 150_000);
    // The corners that they are made for are met.
    let answers = |wanted: fn(&Taken) -> bool| {
        let taken = calls.iter().filter(|call| {
            let Call::Take { office, frame, .. } = call else { return false };
            Office::from_bytes(office).unwrap().take(frame).is_ok_and(|taken| wanted(&taken))
        });
        taken.count()
    };
    assert!(
        answers(|taken| taken.late) > 1_000
            && answers(|taken| taken.lost == 32_767) > 1_000
            && answers(|taken| taken.lost == 0 && !taken.late) > 1_000
    );
}

/// "a sound one has a byte pattern of its own definition, 10 otherwise": memories of every length, with a byte of each value at each place, and at random.
#[test]
fn memories_are_taken_alike() {
    let calls = offices(&mut Random::new(150));
    assert!(run(&calls) > 9_000);
    let [accepted, unsound, bad] = [0, 10, 20].map(|number| calls.iter().filter(|call| call.right().0 == number).count());
    assert!(accepted > 2_000 && unsound > 1_000 && bad > 300, "{accepted}, {unsound}, {bad}");
}

#[test]
fn refusals_keep_the_office() {
    let mut random = Random::new(151);
    for call in [every_head_byte(&mut random), any_bytes(&mut random, 5_000)].concat() {
        let Call::Take { frame, .. } = call else { continue };
        let mut lent = Lent(host::arrivals::any_office(&mut random).to_bytes());
        let before = lent.0.clone();
        if lent.take(&frame).is_err() {
            assert_eq!(lent.0, before);
        }
    }
}

#[test]
fn every_wrong_office_is_found() {
    let mut random = Random::new(152);
    let calls = [histories(153, 40), offices(&mut random), any_bytes(&mut random, 500), other_answers(&mut random)].concat();
    assert!(compare(&mut common::adapter(), &calls).is_ok());
    for slip in Slip::OF_THE_OFFICE {
        assert!(compare(&mut Wrong(slip), &calls).is_err(), "{slip:?} was not found");
    }
    assert!(compare(&mut Wrong(Slip::VersionWritten2), &calls).is_ok(), "an engine whose office is right is blamed");
}

// ---- The promise.

/// What an office tells of what arrives: the total of each slot's and ticket's gaps.
fn totals(arriving: &[Vec<u8>]) -> BTreeMap<(u32, u32), u64> {
    let mut lent = Lent::fresh();
    let mut found = BTreeMap::new();
    for bytes in arriving {
        if let Ok(Taken { contents, lost, .. }) = lent.take(bytes) {
            *found.entry((contents.slot, contents.ticket)).or_default() += u64::from(lost);
        }
    }
    found
}

/// "the total of that ticket's gaps is the number lost before the last one received", for each ticket under which fewer than 32,768 in a row are lost. So many are.
fn promised(flights: &[Flight], totals: &BTreeMap<(u32, u32), u64>) -> usize {
    let mut kept = 0;
    for (channel, marks) in marks(flights) {
        if longest_row(&marks) < 32_768 {
            assert_eq!(totals.get(&channel).copied().unwrap_or(0), lost_before_last(&marks), "slot and ticket {channel:?}");
            kept += 1;
        }
    }
    kept
}

fn bytes(frames: &[Frame]) -> Vec<Vec<u8>> {
    frames.iter().map(Frame::bytes).collect()
}

/// Boards come and go in up to 64 slots; a few frames, half of them or bursts are dropped; slots arrive mixed, with bytes between that are no frame.
#[test]
fn gaps_are_losses() {
    let mut random = Random::new(154);
    let (mut kept, mut lost, mut tickets) = (0, 0, 0);
    for turn in 0..200 {
        let channels = random.pick(&[1, 2, 3, 10, 64]);
        let frames = sends(&mut random, EDITIONS[turn % 2], channels, 2_000);
        tickets = tickets.max(frames.iter().map(|frame| frame.ticket).max().unwrap_or(0));
        let (part, whole, burst) = random.pick(&[(0, 1, 0), (1, 100, 0), (1, 2, 0), (99, 100, 0), (1, 20, 50), (0, 1, 300), (1, 1, 0)]);
        let flights = dropping(&mut random, frames, part, whole, burst);
        let mut arriving = bytes(&mixed(&mut random, &flights));
        for _ in 0..random.below(50) {
            let place = random.below(arriving.len() as u64 + 1) as usize;
            // The broken frame says what a true one of the slot would, and is not heard.
            let broken = [&frame(random.below(64) as u32, 1, random.number() as u16)[..], &[0]].concat();
            arriving.insert(place, broken);
        }
        let totals = totals(&arriving);
        kept += promised(&flights, &totals);
        lost += totals.values().sum::<u64>();
    }
    assert!(kept > 2_000 && lost > 50_000 && tickets > 10, "{kept} tickets, {lost} lost, up to ticket {tickets}");
}

/// Serials wrap many times over under one ticket, with rows of up to 32,767 lost.
#[test]
fn gaps_are_losses_over_many_wraps() {
    let mut random = Random::new(155);
    for edition in EDITIONS {
        let mut scheduler = host::scheduler::Scheduler::fresh(edition);
        scheduler.open_sound(3).unwrap();
        let mut frames = Vec::new();
        for _ in 0..700_000 {
            scheduler.put_sound(0, 1, 1, 0).unwrap();
            frames.push(host::radio::framed(&mut random, &scheduler.next_sound().unwrap(), 1));
        }
        let mut flights: Vec<Flight> = frames.into_iter().map(|frame| Flight { frame, arrives: false }).collect();
        let mut place = 0;
        while place < flights.len() {
            flights[place].arrives = true;
            let far = random.from_to(1, 32_768) as usize;
            place += random.pick(&[1, 2, 100, 32_768, 32_768, far]);
        }
        let totals = totals(&bytes(&mixed(&mut random, &flights)));
        assert_eq!(promised(&flights, &totals), 1);
        assert!(totals[&(0, 1)] > 10 * 65_536 - 100_000);
    }
}

/// Where the promise ends: with 32,768 lost in a row none of them is told, and with 65,536 the office does not notice.
#[test]
fn where_the_promise_ends() {
    for (row, told) in [(32_767, 32_767), (32_768, 0), (65_535, 0), (65_536, 0), (65_537, 1)] {
        let flight = |number: usize| Flight {
            frame: Frame { slot: 0, ticket: 1, serial: number as u16, record: vec![1] },
            arrives: number == 0 || number == row + 1,
        };
        let flights: Vec<Flight> = (0..=row + 1).map(flight).collect();
        let frames: Vec<Frame> = flights.iter().filter(|flight| flight.arrives).map(|flight| flight.frame.clone()).collect();
        let totals = totals(&bytes(&frames));
        assert_eq!(totals[&(0, 1)], told, "{row} in a row");
        assert_eq!(promised(&flights, &totals), usize::from(row < 32_768));
    }
}

/// "a late repeat never changes a total": frames that were heard come again, any number of times and in any order, and lower tickets' frames too.
#[test]
fn late_repeats_change_no_total() {
    let mut random = Random::new(156);
    for turn in 0..40 {
        let frames = sends(&mut random, EDITIONS[turn % 2], 5, 1_500);
        let flights = dropping(&mut random, frames, 1, 10, 0);
        let arriving = bytes(&mixed(&mut random, &flights));
        let right = totals(&arriving);
        let mut with_repeats: Vec<Vec<u8>> = Vec::new();
        for (place, bytes) in arriving.iter().enumerate() {
            with_repeats.push(bytes.clone());
            for _ in 0..random.below(3) {
                with_repeats.push(arriving[place - random.below(place as u64 + 1) as usize].clone());
            }
        }
        assert_eq!(totals(&with_repeats), right);
    }
}

/// Wrong offices break the promise too, those whose slip is in what is told and what is expected.
#[test]
fn a_wrong_office_breaks_the_promise() {
    let mut random = Random::new(157);
    let frames = sends(&mut random, 2, 4, 4_000);
    let flights = dropping(&mut random, frames, 1, 10, 0);
    let arriving = bytes(&mixed(&mut random, &flights));
    let slips =
        [Slip::GapTurned, Slip::ExpectedTheReceived, Slip::NewTicketKeepsTheSerial, Slip::NewTicketNotHeld, Slip::ReceivedCountedAsLost];
    for slip in slips {
        let (mut office, mut totals, mut answer) = (vec![0; LENGTH], BTreeMap::<(u32, u32), u64>::new(), [0; 24]);
        for bytes in &arriving {
            if Wrong(slip).take(&mut office, &mut bytes.clone(), &mut answer) == 0 {
                let taken: Taken = fields(&answer);
                *totals.entry((taken.contents.slot, taken.contents.ticket)).or_default() += u64::from(taken.lost);
            }
        }
        let right = marks(&flights).into_iter().map(|(channel, marks)| (channel, lost_before_last(&marks)));
        assert!(right.into_iter().any(|(channel, lost)| totals.get(&channel).copied().unwrap_or(0) != lost), "{slip:?}");
    }
}
