//! Who is filling up (document 02, §7): the list of the five fullest and the bytes that Ask answers, worked out by hand, on the independent scheduler and on the engine under
//! test.

mod calls;

use calls::{in_both_editions, on_both, Calls};
use host::answers::{Closed, Filling, Refusal, Standing, Told};

/// The list as pairs of slot and bytes.
fn listed(calls: &mut dyn Calls) -> Vec<(u32, u32)> {
    let state = calls.state();
    let list: Vec<(u32, u32)> = calls.fullest().unwrap().0.into_iter().map(|Filling { slot, bytes }| (slot, bytes)).collect();
    assert_eq!(calls.state(), state, "Fullest changes nothing");
    // What Ask says of each is the same.
    for &(slot, bytes) in &list {
        let ticket = state.channels[slot as usize].ticket as u32;
        assert_eq!(calls.ask(slot, ticket).map(|told| told.bytes), Ok(bytes));
    }
    list
}

/// A fresh state with a channel of weight 1 in each slot from 0 on, and a record of each of these lengths in it.
fn given(calls: &mut dyn Calls, edition: u64, lengths: &[&[u32]]) {
    calls.start(edition as u32).unwrap();
    for lengths in lengths {
        let opened = calls.open(1).unwrap();
        for (reference, &length) in lengths.iter().enumerate() {
            calls.put(opened.slot, opened.ticket, length, reference as u32).unwrap();
        }
    }
}

/// "most bytes first", "channels with none left out"
#[test]
fn most_bytes_first() {
    in_both_editions(|calls, edition| {
        calls.start(edition as u32).unwrap();
        assert_eq!(listed(calls), []);
        given(calls, edition, &[&[], &[10], &[7, 8], &[], &[1_014]]);
        assert_eq!(listed(calls), [(4, 1_014), (2, 15), (1, 10)]);
        calls.put(0, 1, 12, 1).unwrap();
        assert_eq!(listed(calls), [(4, 1_014), (2, 15), (0, 12), (1, 10)]);
        calls.put(1, 1, 3, 1).unwrap();
        assert_eq!(listed(calls), [(4, 1_014), (2, 15), (1, 13), (0, 12)]);
    });
}

/// "the lower slot first on a tie", among those listed and for the last place.
#[test]
fn the_lower_slot_first_on_a_tie() {
    in_both_editions(|calls, edition| {
        given(calls, edition, &[&[5], &[2, 3], &[5], &[1, 4], &[5], &[5], &[5]]);
        assert_eq!(listed(calls), [(0, 5), (1, 5), (2, 5), (3, 5), (4, 5)]);
        // One byte is enough to come first, and one more for the next to draw level.
        calls.put(6, 1, 1, 9).unwrap();
        assert_eq!(listed(calls), [(6, 6), (0, 5), (1, 5), (2, 5), (3, 5)]);
        calls.put(5, 1, 1, 9).unwrap();
        assert_eq!(listed(calls), [(5, 6), (6, 6), (0, 5), (1, 5), (2, 5)]);
        calls.put(5, 1, 1, 9).unwrap();
        assert_eq!(listed(calls), [(5, 7), (6, 6), (0, 5), (1, 5), (2, 5)]);
    });
}

/// Eight channels, of which three are left out; one of them grows into the list and pushes the last one out.
#[test]
fn more_than_five() {
    in_both_editions(|calls, edition| {
        given(calls, edition, &[&[10], &[20], &[30], &[40], &[50], &[60], &[70], &[80]]);
        assert_eq!(listed(calls), [(7, 80), (6, 70), (5, 60), (4, 50), (3, 40)]);
        // 30 and 10 are level with the last one, in a lower slot.
        calls.put(2, 1, 10, 9).unwrap();
        assert_eq!(listed(calls), [(7, 80), (6, 70), (5, 60), (4, 50), (2, 40)]);
        calls.put(3, 1, 100, 9).unwrap();
        assert_eq!(listed(calls), [(3, 140), (7, 80), (6, 70), (5, 60), (4, 50)]);
        // One that stays out.
        calls.put(0, 1, 39, 9).unwrap();
        assert_eq!(listed(calls), [(3, 140), (7, 80), (6, 70), (5, 60), (4, 50)]);
    });
}

/// Sends take a channel down the list and out of it, with bytes left; the sixth comes in.
#[test]
fn a_channel_falls_out_by_sends() {
    in_both_editions(|calls, edition| {
        // Slot 0 sends first, a record of 1,000 in a visit.
        given(calls, edition, &[&[1_000, 100], &[900], &[800], &[700], &[600], &[500]]);
        assert_eq!(listed(calls), [(0, 1_100), (1, 900), (2, 800), (3, 700), (4, 600)]);
        assert_eq!(calls.next().map(|sent| (sent.slot, sent.length)), Ok((0, 1_000)));
        assert_eq!(calls.ask(0, 1).map(|told| (told.waiting, told.bytes)), Ok((1, 100)));
        assert_eq!(listed(calls), [(1, 900), (2, 800), (3, 700), (4, 600), (5, 500)]);
        assert_eq!(calls.next().map(|sent| sent.slot), Ok(1));
        assert_eq!(listed(calls), [(2, 800), (3, 700), (4, 600), (5, 500), (0, 100)]);
        assert_eq!(calls.next().map(|sent| sent.slot), Ok(2));
        assert_eq!(listed(calls), [(3, 700), (4, 600), (5, 500), (0, 100)]);
    });
}

/// Of six channels one drains and is freed: five are left. Its slot, opened again, has none and is left out.
#[test]
fn five_are_left_of_six_when_one_is_freed() {
    in_both_editions(|calls, edition| {
        given(calls, edition, &[&[900], &[800], &[700], &[600], &[500], &[400]]);
        assert_eq!(calls.close(0, 1), Ok(Closed::Draining));
        // A closing channel is still listed.
        assert_eq!(listed(calls), [(0, 900), (1, 800), (2, 700), (3, 600), (4, 500)]);
        assert_eq!(calls.ask(0, 1), Ok(Told { standing: Standing::Closing, weight: 1, deficit: 0, waiting: 1, bytes: 900 }));
        assert_eq!(calls.next().map(|sent| sent.slot), Ok(0));
        assert_eq!(calls.ask(0, 1), Err(Refusal::NotPresent));
        let left = [(1, 800), (2, 700), (3, 600), (4, 500), (5, 400)];
        assert_eq!(listed(calls), left);
        assert_eq!(calls.open(3).map(|opened| (opened.slot, opened.ticket)), Ok((0, 2)));
        assert_eq!(listed(calls), left);
        assert_eq!(calls.ask(0, 2), Ok(Told { standing: Standing::Open, weight: 3, deficit: 0, waiting: 0, bytes: 0 }));
        // Closed without a record it is free at once, and nothing is listed otherwise.
        assert_eq!(calls.close(0, 2), Ok(Closed::Freed));
        assert_eq!(listed(calls), left);
    });
}

/// Reading 10: 64 x 1,014 = 64,896 bytes wait in one channel, and fit 16 bits. Framing is not counted.
#[test]
fn the_most_bytes_that_can_wait() {
    in_both_editions(|calls, edition| {
        calls.fill(edition, &[1, 9], 64, 1_014);
        assert_eq!(listed(calls), [(0, 64_896), (1, 64_896)]);
        assert_eq!(calls.put(1, 1, 1, 0), Err(Refusal::Full));
        assert_eq!(calls.ask(1, 1).map(|told| (told.waiting, told.bytes)), Ok((64, 64_896)));
        assert_eq!(calls.next().map(|sent| sent.slot), Ok(1));
        assert_eq!(listed(calls), [(0, 64_896), (1, 63_882)]);
        // Both empty: nobody is listed.
        while calls.next().is_ok() {}
        assert_eq!(listed(calls), []);
    });
}

/// "the image doesn't carry them": the reader works them out, over any memory.
#[test]
fn the_list_is_there_after_a_reading() {
    in_both_editions(|calls, edition| {
        given(calls, edition, &[&[5], &[], &[9, 1], &[5], &[12], &[5], &[5]]);
        let before = [(4, 12), (2, 10), (0, 5), (3, 5), (5, 5)];
        assert_eq!(listed(calls), before);
        calls.change_firmware();
        assert_eq!(listed(calls), before);
        calls.put(6, 1, 1, 1).unwrap();
        assert_eq!(listed(calls), [(4, 12), (2, 10), (6, 6), (0, 5), (3, 5)]);
        assert_eq!((calls.park(), calls.fullest(), calls.ask(0, 1)), (Ok(()), Err(Refusal::Parked), Err(Refusal::Parked)));
    });
}

/// Ask's fifth field: the bytes alone, without the 10 of framing that a record costs beside.
#[test]
fn ask_answers_the_bytes() {
    on_both(|calls| {
        calls.start(1).unwrap();
        calls.open(5).unwrap();
        let told = |deficit, waiting, bytes| Ok(Told { standing: Standing::Open, weight: 5, deficit, waiting, bytes });
        assert_eq!(calls.ask(0, 1), told(0, 0, 0));
        calls.put(0, 1, 600, 1).unwrap();
        calls.put(0, 1, 500, 2).unwrap();
        assert_eq!(calls.ask(0, 1), told(0, 2, 1_100));
        calls.next().unwrap();
        assert_eq!(calls.ask(0, 1), told(414, 1, 500));
        calls.next().unwrap();
        assert_eq!(calls.ask(0, 1), told(0, 0, 0));
    });
}
