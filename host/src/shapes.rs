//! The shapes of generated histories: where one begins, what it is fed with, and how often each action comes.

use crate::pool;
use crate::random::Random;
use crate::scheduler::{Scheduler, LONGEST};
use crate::states;

/// What a history does next. Most are one call; some are a few calls that belong together.
#[derive(Clone, Copy, Debug, PartialEq, Eq)]
pub enum Action {
    Open,
    Put,
    Close,
    Next,
    Ask,
    Fullest,
    /// Close, drain, open again, then late calls with the old ticket.
    Replug,
    /// Next up to P = 2^k - 1, and a row that is heavier than all joins there and is closed.
    Rise,
    /// A call with a ticket that is not the present one.
    Stale,
    /// A call with numbers out of range.
    Bad,
    /// Lead, term or a sheet.
    Apart,
    /// A byte or a number of the memory is changed, some calls are made, and it is changed back if it made the memory unsound.
    Damage,
    /// A call with other lengths of state or answer.
    Mislent,
    /// Park, calls on the parked state, the memory thrown away or changed, images damaged and whole.
    Park,
    Start,
}

pub struct Shape {
    pub name: &'static str,
    /// In the edition that is asked for.
    pub begin: fn(&mut Random, u64) -> Scheduler,
    /// Channels are opened up to this number, and seldom beyond it.
    pub channels: u64,
    /// Records are added to channels with fewer than this number waiting, and seldom to others.
    pub deep: usize,
    pub weight: fn(&mut Random) -> u32,
    pub length: fn(&mut Random) -> u32,
    /// Actions in a stretch at the most: fill, drain, or neither.
    pub long: u64,
    /// How often each action comes, against the others.
    pub parts: &'static [(Action, u64)],
}

fn fresh(_: &mut Random, edition: u64) -> Scheduler {
    Scheduler::fresh(edition)
}

fn any_state(random: &mut Random, edition: u64) -> Scheduler {
    let most = random.pick(&[2, 5, 20, 64]);
    states::any_sound(random, edition, most)
}

fn any_parked(random: &mut Random, edition: u64) -> Scheduler {
    states::parked(any_state(random, edition))
}

fn unreached(random: &mut Random, edition: u64) -> Scheduler {
    let mut list = states::unreached(edition);
    let number = random.below(list.len() as u64) as usize;
    list.swap_remove(number).1
}

fn any_weight(random: &mut Random) -> u32 {
    match random.below(4) {
        0 => random.from_to(1, 8) as u32,
        1 => random.from_to(1, 4_095) as u32,
        _ => weight_at_edge(random),
    }
}

/// Powers of two and their neighbours.
fn weight_at_edge(random: &mut Random) -> u32 {
    let power = 1i64 << random.below(13);
    let near = power + random.from_to(0, 2) as i64 - 1;
    near.clamp(1, 4_095) as u32
}

fn small_weight(random: &mut Random) -> u32 {
    random.from_to(1, 7) as u32
}

/// Light and heavy, little between: the order moves far.
fn far_weight(random: &mut Random) -> u32 {
    random.pick(&[1, 1, 2, 3, 5, 64, 300, 2_048, 4_095])
}

/// Doors and drives: a drive that leaves in mid-round holds the order far up.
fn door_or_drive(random: &mut Random) -> u32 {
    random.pick(&[1, 1, 2, 3, 2_048, 4_095])
}

/// Mostly 1, so that P is 2^k - 1 in every visit, until a heavier row joins.
fn mostly_1(random: &mut Random) -> u32 {
    random.pick(&[1, 1, 1, 1, 2, 3])
}

fn any_length(random: &mut Random) -> u32 {
    match random.below(3) {
        0 => length_at_edge(random),
        _ => random.from_to(1, LONGEST) as u32,
    }
}

/// Some two of them cost a grant together, or a byte more or less; of some, one's cost and the other's bare length make a grant.
fn length_at_edge(random: &mut Random) -> u32 {
    random.pick(&[1, 2, 501, 502, 503, 511, 512, 1_002, 1_003, 1_004, 1_012, 1_013, 1_014])
}

fn long(_: &mut Random) -> u32 {
    LONGEST as u32
}

/// So short that channels are often equally full.
fn one_or_two(random: &mut Random) -> u32 {
    random.from_to(1, 2) as u32
}

/// Mostly short, so that visits stay open for some sends.
fn short(random: &mut Random) -> u32 {
    random.pick(&[1, 90, 190, 246, 331, 332, 502, 1_014])
}

const MIXED: &[(Action, u64)] = &[
    (Action::Open, 8),
    (Action::Put, 40),
    (Action::Close, 3),
    (Action::Next, 40),
    (Action::Ask, 4),
    (Action::Fullest, 2),
    (Action::Stale, 2),
    (Action::Bad, 2),
    (Action::Apart, 2),
];
const STORM: &[(Action, u64)] = &[
    (Action::Open, 10),
    (Action::Put, 20),
    (Action::Close, 10),
    (Action::Next, 20),
    (Action::Replug, 20),
    (Action::Stale, 20),
    (Action::Bad, 5),
];
const WRONG: &[(Action, u64)] = &[
    (Action::Open, 6),
    (Action::Put, 20),
    (Action::Close, 4),
    (Action::Next, 20),
    (Action::Bad, 40),
    (Action::Apart, 10),
    (Action::Start, 1),
];
const RISES: &[(Action, u64)] = &[(Action::Open, 6), (Action::Put, 40), (Action::Next, 40), (Action::Rise, 8)];
/// A channel is opened now and then; else records come and go.
const TRAFFIC: &[(Action, u64)] = &[(Action::Open, 6), (Action::Put, 40), (Action::Close, 1), (Action::Next, 40)];
/// Records come a little faster than they go, so that the limits are met.
const FILL: &[(Action, u64)] = &[(Action::Open, 4), (Action::Put, 40), (Action::Close, 1), (Action::Next, 24)];
const HARM: &[(Action, u64)] = &[(Action::Open, 6), (Action::Put, 20), (Action::Close, 3), (Action::Next, 20), (Action::Damage, 20)];
/// The same where the cells stay taken.
const HARM_FULL: &[(Action, u64)] = &[(Action::Open, 2), (Action::Put, 20), (Action::Close, 1), (Action::Next, 4), (Action::Damage, 30)];
/// The same where channels have records, so that some are listed.
const HARM_NOTES: &[(Action, u64)] =
    &[(Action::Open, 8), (Action::Put, 30), (Action::Close, 1), (Action::Next, 8), (Action::Fullest, 2), (Action::Damage, 20)];
const LENGTHS: &[(Action, u64)] = &[(Action::Open, 6), (Action::Put, 20), (Action::Close, 3), (Action::Next, 20), (Action::Mislent, 40)];
/// Queues are parked and read again, filled or nearly empty.
const PARKS: &[(Action, u64)] = &[
    (Action::Open, 6),
    (Action::Put, 40),
    (Action::Close, 3),
    (Action::Next, 40),
    (Action::Replug, 2),
    (Action::Stale, 2),
    (Action::Ask, 2),
    (Action::Fullest, 2),
    (Action::Park, 8),
];
const ALL: &[(Action, u64)] = &[
    (Action::Open, 10),
    (Action::Put, 40),
    (Action::Close, 5),
    (Action::Next, 40),
    (Action::Ask, 5),
    (Action::Fullest, 3),
    (Action::Replug, 3),
    (Action::Stale, 5),
    (Action::Bad, 5),
    (Action::Apart, 3),
    (Action::Damage, 2),
    (Action::Mislent, 3),
    (Action::Park, 2),
    (Action::Start, 1),
];

const fn shape(
    name: &'static str,
    begin: fn(&mut Random, u64) -> Scheduler,
    channels: u64,
    deep: usize,
    parts: &'static [(Action, u64)],
) -> Shape {
    Shape { name, begin, channels, deep, weight: any_weight, length: any_length, long: 80, parts }
}

pub const SHAPES: &[Shape] = &[
    shape("few channels", fresh, 3, 16, MIXED),
    shape("many channels", fresh, 64, 3, MIXED),
    Shape { weight: weight_at_edge, length: long, ..shape("weights at edges", fresh, 6, 8, MIXED) },
    Shape { weight: small_weight, length: length_at_edge, ..shape("lengths at edges", fresh, 5, 16, MIXED) },
    Shape { length: short, ..shape("fill and drain", fresh, 24, 16, MIXED) },
    Shape { weight: small_weight, ..shape("replug storm", fresh, 5, 3, STORM) },
    Shape { weight: far_weight, length: long, ..shape("orders rise and fall", fresh, 6, 2, MIXED) },
    Shape { weight: small_weight, length: long, ..shape("rows unlike slots", fresh, 12, 2, MIXED) },
    Shape { weight: door_or_drive, length: long, ..shape("heavy rows leave in mid-round", fresh, 5, 1, TRAFFIC) },
    Shape { weight: small_weight, length: long, ..shape("rounds end in a call", fresh, 4, 1, TRAFFIC) },
    Shape { weight: far_weight, length: short, ..shape("the last terms of a round", states::near_round_end, 8, 2, TRAFFIC) },
    Shape { weight: mostly_1, length: short, ..shape("order rises at the end of a round", fresh, 8, 3, RISES) },
    // Some of these have full channels, where two rules refuse.
    shape("bad numbers", unreached, 8, 16, WRONG),
    // More than there are slots: opening goes on when all are held.
    shape("no slot left", fresh, 150, 2, WRONG),
    // Room and shared cells (document 02, §4): near the limits from the beginning, and filled from nothing.
    shape("a channel is full", pool::any_full_channel, 4, 64, MIXED),
    shape("no shared cell left", pool::any_at_limit, 24, 64, MIXED),
    shape("bad numbers at the limits", pool::any_at_limit, 24, 64, WRONG),
    shape("damage at the limits", pool::any_at_limit, 12, 64, HARM_FULL),
    Shape { long: 200, ..shape("a channel fills and drains", fresh, 1, 64, FILL) },
    Shape { length: short, long: 1_200, ..shape("the pool fills and drains", fresh, 40, 64, FILL) },
    shape("serial wrap", states::near_last_serial, 4, 16, MIXED),
    shape("last ticket", states::near_last_ticket, 4, 4, STORM),
    shape("unreached states", unreached, 8, 16, MIXED),
    shape("any sound state", any_state, 24, 16, MIXED),
    shape("damage", any_state, 12, 8, HARM),
    shape("other lengths", fresh, 6, 8, LENGTHS),
    // Who is filling up (document 02, §7): ties, about as many channels as are listed, and the most bytes that can wait.
    Shape { length: one_or_two, ..shape("channels equally full", fresh, 12, 3, MIXED) },
    Shape { length: one_or_two, ..shape("as many channels as are listed", fresh, 7, 6, STORM) },
    Shape { length: long, ..shape("as many bytes as can wait", pool::any_longest, 8, 64, MIXED) },
    Shape { length: one_or_two, ..shape("damage to the notes", fresh, 8, 3, HARM_NOTES) },
    // Parked queues (document 02, §6).
    Shape { length: short, ..shape("parked queues", fresh, 12, 6, PARKS) },
    shape("parked from the beginning", any_parked, 24, 16, PARKS),
    shape("parked at the limits", pool::any_at_limit, 24, 64, PARKS),
    shape("parked near the last ticket", states::near_last_ticket, 4, 4, PARKS),
    Shape { length: short, ..shape("everything", fresh, 16, 6, ALL) },
];
