//! What the picture docs/door.svg shows: beside a drive that empties and refills, the door's turn never comes in edition 1, and once a round in edition 2.

use host::door::{longest_wait, turns, DOOR_WEIGHT, DRIVE_WEIGHT};
use host::scheduler::MOST_WAITING;

const SENDS: usize = 20_000;

/// One record at a time. Edition 1: positions 1 and 2 of S(12) are columns 11 and 10, the drive's; it leaves with each, and P mod 2 is 1 and then 0. So P is
/// never above 2, and the door is at 2,048.
#[test]
fn without_end_in_edition_1() {
    for burst in 1..=MOST_WAITING {
        let turns = turns(1, burst, SENDS);
        assert_eq!((&turns[..], longest_wait(&turns, SENDS)), (&[][..], SENDS), "bursts of {burst}");
    }
}

/// Edition 2: 2,047 positions with the drive alone, then both at 2,048, the door first, since the drive has joined again after it; 2,047 more end the round.
/// A round is 4,096 sends.
#[test]
fn once_a_round_in_edition_2() {
    assert_eq!(turns(2, 1, SENDS), [2_048, 6_144, 10_240, 14_336, 18_432]);
    for burst in 1..=MOST_WAITING {
        let turns = turns(2, burst, SENDS);
        assert!(longest_wait(&turns, SENDS) <= DRIVE_WEIGHT as usize, "bursts of {burst}");
        assert!(turns.len() >= SENDS * DOOR_WEIGHT as usize / (DOOR_WEIGHT + DRIVE_WEIGHT) as usize, "bursts of {burst}");
    }
}

#[test]
fn a_wait_is_counted_from_the_start_to_the_end() {
    assert_eq!([longest_wait(&[], 7), longest_wait(&[3], 7), longest_wait(&[1, 2], 7), longest_wait(&[2, 6], 7)], [7, 4, 5, 3]);
}
