//! States at the limits of document 02, §4 and beyond them: who holds the shared cells, and who waits beside.

use crate::layout::{self, WAITING};
use crate::random::Random;
use crate::scheduler::{Kind, Scheduler, KEPT, LONGEST, MOST_WAITING, SHARED, SLOTS};
use crate::sound::Rule;
use crate::states::{any_with, channel};

/// Open channels from slot 0 on with so many records each; the other slots are free. Rows do not stand in the order of their slots, and heads have serials
/// from before the wrap.
pub fn with_waiting(edition: u64, waiting: &[usize]) -> Scheduler {
    let mut scheduler = Scheduler::fresh(edition);
    for (slot, &count) in waiting.iter().enumerate() {
        let lengths: Vec<u64> = (0..count as u64).map(|place| 1 + (slot as u64 * 97 + place * 131) % LONGEST).collect();
        scheduler.channels[slot] = channel(Kind::Open, 1 + slot as u64, 1 + 64 * slot as u64, 0, 1, &lengths);
    }
    let waits = |slot: &usize| !scheduler.channels[*slot].records.is_empty();
    scheduler.rows = (0..SLOTS).map(|place| place * 37 % SLOTS).filter(waits).collect();
    scheduler.order = scheduler.order_of_rows();
    scheduler
}

/// Every cell is taken: 64 channels of 8 records each.
pub fn full(edition: u64) -> Scheduler {
    with_waiting(edition, &[8; SLOTS])
}

/// Sound states with 384 shared cells in use, or nearly, by name.
pub fn at_the_limit(edition: u64) -> Vec<(&'static str, Scheduler)> {
    let with = |waiting: &[&[usize]]| with_waiting(edition, &waiting.concat());
    let mut states = vec![
        ("every cell is taken, eight by each", full(edition)),
        ("every cell is taken, most by six channels", with(&[&[64; 6], &[14], &[2; 57]])),
        ("eight channels share all shared cells", with(&[&[50; 8]])),
        ("six full channels and one share them", with(&[&[64; 6], &[14]])),
        ("full channels beside ones of none, one and two", with(&[&[0, 1, 2], &[64; 6], &[14], &[2, 1, 0]])),
        ("every cell is taken, and each channel has three or more", with(&[&[3; 58], &[64; 5], &[18]])),
        ("one shared cell is left to a full channel's neighbour", with(&[&[64; 6], &[13], &[1, 2]])),
        ("one shared cell is left to channels of 50", with(&[&[49], &[50; 7], &[1]])),
        ("full channels, and shared cells for others", with(&[&[64; 5], &[3, 2]])),
    ];
    let mut draining = with(&[&[1, 2], &[50; 8]]);
    draining.channels[2..10].iter_mut().for_each(|channel| channel.kind = Kind::Closing);
    states.push(("closing channels have all shared cells", draining));
    let mut visited = with(&[&[2], &[64; 6], &[14]]);
    (visited.scan.visit, visited.channels[3].deficit, visited.scan.position) = (Some(3), 2_046, 5);
    states.push(("a full channel's visit at the limit", visited));
    states
}

/// States that break a limit of the pool and these rules alone, by name.
pub fn beyond_the_limit(edition: u64) -> Vec<(&'static str, &'static [Rule], Scheduler)> {
    let with = |waiting: &[&[usize]]| with_waiting(edition, &waiting.concat());
    vec![
        ("385 shared cells of seven channels", &[Rule::Shared], with(&[&[57; 7]])),
        ("385 shared cells beside channels of one", &[Rule::Shared], with(&[&[1; 20], &[57; 7]])),
        ("385 shared cells, the last by a third record", &[Rule::Shared], with(&[&[50; 8], &[3]])),
        ("385 shared cells, the first by a third record", &[Rule::Shared], with(&[&[3], &[50; 8]])),
        ("385 shared cells, and each cell is taken", &[Rule::Shared], with(&[&[1], &[2; 56], &[57; 7]])),
        ("every cell by eight full channels", &[Rule::Shared], with(&[&[64; 8]])),
        ("513 records", &[Rule::Shared], with(&[&[9], &[8; 63]])),
        ("513 records, the last slot's is too many", &[Rule::Shared], with(&[&[8; 63], &[9]])),
        ("nine full channels", &[Rule::Shared], with(&[&[64; 9]])),
        ("64 full channels", &[Rule::Shared], with(&[&[64; SLOTS]])),
        ("65 records in one channel alone", &[Rule::Records], with(&[&[65]])),
        ("65 records in one channel at the limit", &[Rule::Records], with(&[&[65], &[64; 5], &[13, 2, 1]])),
        ("65 records in the last row at the limit", &[Rule::Records], with(&[&[1, 13], &[64; 5], &[65]])),
        ("250 records in one channel", &[Rule::Records], with(&[&[250]])),
        ("both limits", &[Rule::Records, Rule::Shared], with(&[&[65], &[64; 5], &[14]])),
    ]
}

/// Any sound state with at most four shared cells left; who has them goes by chance. Seven channels can have them all.
pub fn any_at_limit(random: &mut Random, edition: u64) -> Scheduler {
    let mut slots: Vec<usize> = (0..SLOTS).collect();
    random.shuffle(&mut slots);
    let (holders, others) = slots.split_at(random.pick(&[7, 8, 30, 64, 64]));
    let mut waiting = [None; SLOTS];
    holders.iter().for_each(|&slot| waiting[slot] = Some(KEPT));
    // The first is often full, or nearly; what it leaves is not too much for six others.
    let first = random.pick(&[14, MOST_WAITING - 1, MOST_WAITING]);
    waiting[holders[0]] = Some(first);
    let mut left = SHARED - (first - KEPT) - random.pick(&[0, 0, 1, 4]);
    let piece = random.pick(&[1, 6, 62]);
    while left > 0 {
        let count = waiting[random.pick(&holders[1..])].get_or_insert(KEPT);
        let more = (random.from_to(1, piece) as usize).min(left).min(MOST_WAITING - *count);
        (*count, left) = (*count + more, left - more);
    }
    for &slot in others {
        waiting[slot] = random.pick(&[None, None, None, Some(0), Some(1), Some(2)]);
    }
    any_with(random, edition, &waiting)
}

/// Any sound state with a full channel, or nearly, and shared cells for others.
pub fn any_full_channel(random: &mut Random, edition: u64) -> Scheduler {
    let mut waiting = [None; SLOTS];
    for count in waiting.iter_mut().take(random.from_to(1, 4) as usize) {
        *count = Some(random.pick(&[0, 3, 60, 62, 63, 64, 64]));
    }
    any_with(random, edition, &waiting)
}

/// The memory with one record counted to another channel: the run stays as it is, one number of waiting records goes down, another up, and the notes go with them.
/// At the limits 385 shared cells may then be in use, or 65 records wait in a channel, and as many records as before. Half of the time it is counted to both channels:
/// where every cell is taken, the last record has none.
pub fn counted_elsewhere(random: &mut Random, state: &Scheduler) -> Vec<u8> {
    let mut bytes = layout::to_bytes(state);
    let count = |slot: &usize| state.channels[*slot].records.len();
    let several: Vec<usize> = state.rows.iter().copied().filter(|slot| count(slot) >= 2).collect();
    let (Some(&fewest), Some(&most)) = (several.iter().min_by_key(|slot| count(slot)), several.iter().max_by_key(|slot| count(slot)))
    else {
        return bytes;
    };
    let (from, to) = (random.pick(&several), random.pick(&state.rows));
    let (from, to) = (random.pick(&[from, fewest]), random.pick(&[to, most]));
    if from != to {
        bytes[WAITING.at(from, 0)] -= u8::from(random.chance(1, 2));
        bytes[WAITING.at(to, 0)] += 1;
    }
    layout::from_bytes(&bytes).map_or(bytes, |counted| layout::to_bytes(&counted))
}

/// Any sound state with a channel of 64 records of the longest length, or a record fewer, and few others beside it: 64,896 bytes wait there, and no channel can be
/// fuller.
pub fn any_longest(random: &mut Random, edition: u64) -> Scheduler {
    let mut waiting = [None; SLOTS];
    let (fullest, others) = (random.below(8) as usize, random.from_to(1, 7) as usize);
    waiting[..=others].fill_with(|| Some(random.pick(&[0, 1, 3, 20])));
    waiting[fullest] = Some(random.pick(&[MOST_WAITING - 1, MOST_WAITING, MOST_WAITING]));
    let mut scheduler = any_with(random, edition, &waiting);
    for (place, record) in scheduler.channels[fullest].records.iter_mut().enumerate() {
        // The first stays where a visit is open: its deficit pays for it.
        if place > 0 || scheduler.scan.visit != Some(fullest) {
            record.length = LONGEST;
        }
    }
    scheduler
}
