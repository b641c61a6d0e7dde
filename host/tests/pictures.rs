//! The pictures of docs/ are those that the code draws, and the runs under them are those that document 01 lists.
#![cfg(feature = "linked")]

use host::pictures::runs::{in_one_go, smoothed, Load, Sending};
use host::pictures::share::farthest;
use host::pictures::{all, order, share, COMMAND, FOLDER};
use host::scheduler::cost_of;

/// The sends of the exported calls, without their scans.
fn spread(load: Load, sends: usize) -> Vec<Sending> {
    smoothed(load, sends).into_iter().map(|(sending, _)| sending).collect()
}

#[test]
fn docs_has_the_pictures_that_the_code_draws() {
    for (name, text) in all() {
        let kept = std::fs::read_to_string(format!("{FOLDER}/{name}")).unwrap_or_default();
        assert!(kept == text, "docs/{name} is not what the code draws. To renew it, in host/: {COMMAND}");
    }
}

#[test]
fn the_order_is_that_of_check_5() {
    let sends = smoothed(order::LOAD, 32);
    let slots: Vec<usize> = sends.iter().map(|(sending, _)| sending.slot).collect();
    let round = [2, 1, 2, 3, 2, 1, 2, 0, 3, 2, 1, 2, 3, 2, 1, 2];
    assert_eq!((&slots[..16], &slots[16..]), (&round[..], &round[..]));
    let terms: Vec<u32> = sends[..16].iter().map(|(_, scan)| scan.term).collect();
    assert_eq!(terms, [1, 2, 1, 3, 1, 2, 1, 4, 4, 1, 2, 1, 3, 1, 2, 1]);
    let (last, next) = (sends[15].1.position, sends[16].1.position);
    assert_eq!((last, next), (15, 1));
    assert!(sends.iter().all(|(_, scan)| scan.column == 4 - scan.term));
}

#[test]
fn the_longest_wait_is_between_two_of_its_own() {
    let sendings = [0, 1, 1, 0, 1, 0, 1].map(|slot| Sending { slot, cost: 1 });
    assert_eq!([0, 1, 2].map(|slot| order::longest_wait(slot, &sendings)), [2, 1, 0]);
}

/// Of two equal channels, one is ahead by 50 bytes and the other behind by as much: the first is named. With 3 shares of 4 it ends 50 behind.
#[test]
fn the_largest_distance_is_from_the_share() {
    let sendings = [(0, 100), (1, 100)].map(|(slot, cost)| Sending { slot, cost });
    let found = farthest(&[1, 1], &sendings);
    assert_eq!((found.slot, found.point, found.distance), (0, (100, 100), 100));
    let found = farthest(&[3, 1], &sendings);
    assert_eq!((found.slot, found.point, found.distance), (0, (200, 100), 200));
}

/// Neither scheduler runs a channel empty in the picture of shares, and both end a round on the ideal lines.
#[test]
fn both_end_a_round_on_the_ideal_lines() {
    let round = share::LOAD.round();
    for sendings in [spread(share::LOAD, round), in_one_go(share::LOAD, round)] {
        for (slot, &weight) in share::LOAD.weights.iter().enumerate() {
            assert!(2 * weight <= share::LOAD.records);
            assert_eq!(share::curve(slot, &sendings).last(), Some(&(13 * 1_024, u64::from(weight) * 1_024)));
        }
    }
}

/// What README.md says of the pictures, under "What smoothed buys".
#[test]
fn what_smoothed_buys() {
    let (smooth, other) = (spread(order::LOAD, 32), in_one_go(order::LOAD, 32));
    for (slot, &weight) in order::LOAD.weights.iter().enumerate() {
        let (wait, other_wait) = (order::longest_wait(slot, &smooth), order::longest_wait(slot, &other));
        assert!(if weight == 1 { wait == other_wait } else { 2 * wait < other_wait }, "slot {slot}: {wait}, {other_wait}");
    }
    // Distances are times the sum of the weights.
    let record = cost_of(u64::from(share::LOAD.length)) * share::LOAD.round() as u64;
    let [near, far] =
        [spread(share::LOAD, 26), in_one_go(share::LOAD, 26)].map(|sendings| farthest(share::LOAD.weights, &sendings).distance);
    assert!(near < record && far > 3 * record, "{near}, {far}, {record}");
}
