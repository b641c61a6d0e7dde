//! Sound states built directly: any sound state at random, serials and tickets near their ends, and states that no history reaches but that
//! must be served all the same. Each is of an edition, and not parked but where it says so.

use crate::pool;
use crate::random::Random;
use crate::scheduler::{Channel, Kind, Record, Scheduler, COLUMNS, FRAMING, GRANT, KEPT, LAST_TICKET, LONGEST, PARKED, SHARED, SLOTS};
use crate::sound::LARGEST_IN_VISIT;

/// A channel with records of these lengths.
pub fn channel(kind: Kind, ticket: u64, weight: u64, deficit: u64, next_serial: u64, lengths: &[u64]) -> Channel {
    let record = |(place, &length): (usize, &u64)| Record { length, reference: 0xfedc_ba98 + 0x0101 * place as u64 };
    Channel { kind, ticket, weight, deficit, next_serial, records: lengths.iter().enumerate().map(record).collect() }
}

/// The state with these channels and rows, the order that belongs to them, and nothing scanned.
pub fn with_rows(edition: u64, channels: &[(usize, Channel)], rows: &[usize]) -> Scheduler {
    let mut scheduler = Scheduler::fresh(edition);
    for (slot, channel) in channels {
        scheduler.channels[*slot] = channel.clone();
    }
    scheduler.rows = rows.to_vec();
    scheduler.order = scheduler.order_of_rows();
    scheduler
}

/// A state with something of everything: free slots used before, open ones with and without records, a full one, a closing one, rows in an order
/// unlike the slots', slots to visit, and a visit of a row without the noted bit.
pub fn rich(edition: u64) -> Scheduler {
    let open = |ticket, weight, deficit, serial, lengths: &[u64]| channel(Kind::Open, ticket, weight, deficit, serial, lengths);
    let channels = [
        (0, channel(Kind::Free, 5, 0, 0, 0, &[])),
        (1, open(1, 6, 0, 2, &[300, 1_014])),
        (2, open(3, 4_095, 0, 65_535, &[])),
        (3, channel(Kind::Closing, 9, 5, 1_023, 2, &[1, 1_013, 1_014])),
        (5, open(LAST_TICKET, 12, 10, 16, &[64; 64])),
        (9, open(70_000, 4, 0, 1, &[1_014])),
        (63, open(2, 2, 800, 300, &[500, 600])),
    ];
    let mut scheduler = with_rows(edition, &channels, &[9, 63, 3, 1, 5]);
    scheduler.scan.position = 4;
    scheduler.scan.column = 2;
    scheduler.scan.to_visit = [1, 3].into();
    scheduler.scan.visit = Some(63);
    scheduler
}

/// Eight channels with records, one too many of them equally full: by their bytes they are 9, then 2, 4, 7, 11 and 13 alike, then 20 and 30, so that 13 is left out for
/// its slot alone.
pub fn filling(edition: u64) -> Scheduler {
    let open = |slot: usize, lengths: &[u64]| (slot, channel(Kind::Open, 1, 1 + slot as u64, 0, 1, lengths));
    let channels = [
        open(1, &[]),
        open(2, &[500, 500]),
        open(4, &[1_000]),
        open(7, &[600, 400]),
        open(9, &[1_014, 986]),
        open(11, &[1_000]),
        open(13, &[999, 1]),
        open(20, &[999]),
        open(30, &[1]),
    ];
    with_rows(edition, &channels, &[13, 30, 4, 2, 20, 9, 11, 7])
}

/// The fullest channel that there can be, in slot 5, beside one of a byte.
pub fn fullest(edition: u64) -> Scheduler {
    let channels = [(0, channel(Kind::Open, 1, 1, 0, 1, &[1])), (5, channel(Kind::Open, 1, 9, 0, 64, &[LONGEST; 64]))];
    with_rows(edition, &channels, &[0, 5])
}

/// One row, of weight 1 with these records, after heavier ones have left in mid-round: the order is held above its own. The last one to leave is still open.
pub fn door(order: u64, position: u64, lengths: &[u64]) -> Scheduler {
    let door = channel(Kind::Open, 1, 1, 0, 16, lengths);
    let mut scheduler = with_rows(2, &[(0, channel(Kind::Open, 1, 4_095, 0, 1, &[])), (1, door)], &[1]);
    (scheduler.order, scheduler.scan.position) = (order, position);
    scheduler
}

/// Edition 2 holds an order above a row of weight 1 in every slot: each empty column is looked at row by row.
pub fn crowd(order: u64, position: u64) -> Scheduler {
    let channels: Vec<_> = (0..SLOTS).map(|slot| (slot, channel(Kind::Open, 1, 1, 0, 1, &[LONGEST]))).collect();
    let rows: Vec<usize> = (0..SLOTS).collect();
    let mut scheduler = with_rows(2, &channels, &rows);
    (scheduler.order, scheduler.scan.position) = (order, position);
    scheduler
}

/// The state, parked.
pub fn parked(scheduler: Scheduler) -> Scheduler {
    Scheduler { mark: PARKED, ..scheduler }
}

/// Sound states that no history reaches, or that take very long to reach, by name.
pub fn unreached(edition: u64) -> Vec<(&'static str, Scheduler)> {
    let mut states = vec![
        ("rich", rich(edition)),
        ("rich, parked", parked(rich(edition))),
        ("full, parked", parked(pool::full(edition))),
        ("a tie at the end of the list", filling(edition)),
        ("a tie at the end of the list, parked", parked(filling(edition))),
        ("as many bytes as can wait in a channel", fullest(edition)),
    ];
    states.extend(pool::at_the_limit(edition));
    if edition == 2 {
        states.extend(held());
    }
    let mut add = |name, change: fn(&mut Scheduler)| {
        let mut scheduler = rich(edition);
        change(&mut scheduler);
        states.push((name, scheduler));
    };
    add("a list that does not fit P", |scheduler| {
        scheduler.scan.position = 1;
        scheduler.scan.visit = None;
    });
    add("P is 0 with a list", |scheduler| scheduler.scan.position = 0);
    add("P is 2^k - 1 with a list and a visit", |scheduler| scheduler.scan.position = 15);
    add("P is 2^k - 1 with a list", |scheduler| {
        scheduler.scan.position = 15;
        scheduler.scan.visit = None;
    });
    add("P is 2^k - 1 in a visit", |scheduler| {
        scheduler.scan.position = 15;
        scheduler.scan.column = 0;
        scheduler.scan.to_visit.clear();
    });
    add("a visit's deficit of 2,046", |scheduler| scheduler.channels[63].deficit = 2_046);
    add("a visit whose head costs its whole deficit", |scheduler| scheduler.channels[63].deficit = 510);
    add("a list of every row of the column", |scheduler| scheduler.scan.to_visit = [1, 3, 5, 9].into());
    add("a list of column 0", |scheduler| {
        scheduler.scan.column = 0;
        scheduler.scan.to_visit = [3].into();
    });
    add("a visit of the last row with an empty list", |scheduler| {
        scheduler.scan.visit = Some(5);
        scheduler.channels[5].deficit = 2_046;
        scheduler.scan.to_visit.clear();
        scheduler.scan.column = 0;
    });
    add("every free slot has the last ticket", |scheduler| {
        for channel in scheduler.channels.iter_mut().filter(|channel| channel.kind == Kind::Free) {
            channel.ticket = LAST_TICKET;
        }
    });
    add("the top row leaves with slots to visit", |scheduler| {
        scheduler.scan.visit = Some(5);
        scheduler.channels[5].deficit = 2_046;
        scheduler.channels[5].records.truncate(1);
        scheduler.scan.position = 8;
    });
    states
}

/// Those of edition 2 alone, whose order is above that of the rows.
fn held() -> Vec<(&'static str, Scheduler)> {
    let long = [LONGEST; 3];
    let in_visit = |position: u64, lengths: &[u64]| {
        let mut scheduler = door(12, position, lengths);
        scheduler.scan.visit = Some(1);
        scheduler.channels[1].deficit = GRANT;
        scheduler
    };
    let above_rich = |position: u64| Scheduler { order: 12, ..with_position(rich(2), position) };
    vec![
        ("order 12 above weight 1, at the beginning", door(12, 0, &long)),
        ("order 12 above weight 1, whose term is next", door(12, 2_047, &long)),
        ("order 12 above weight 1, whose term is past", door(12, 2_048, &long)),
        ("order 12 above weight 1, with one term left", door(12, 4_094, &long)),
        ("order 2 above weight 1, with one term left", door(2, 2, &long)),
        ("order 12 above order 4", above_rich(2_000)),
        ("order 12 above order 4, with a list and a visit at its end", above_rich(4_095)),
        ("order 12 above weight 1, in a visit that ends the round", in_visit(4_095, &long)),
        ("order 12 above weight 1, in a visit that goes on at its end", in_visit(4_095, &[1, 1, LONGEST])),
        ("order 12 above weight 1, in a visit that empties the rows", in_visit(4_095, &[1])),
        ("order 12 above weight 1, in a visit that empties the rows in mid-round", in_visit(2_048, &[1])),
    ]
}

/// The state at another position.
fn with_position(mut scheduler: Scheduler, position: u64) -> Scheduler {
    scheduler.scan.position = position;
    scheduler
}

/// Any sound state: as many channels as asked at most, everything else at random.
pub fn any_sound(random: &mut Random, edition: u64, most: u64) -> Scheduler {
    let held = random.from_to(0, most) as usize;
    let deepest = random.pick(&[16, 16, 64]);
    let deep = random.from_to(1, deepest);
    let (mut waiting, mut shared) = ([None; SLOTS], SHARED);
    for place in 0..held {
        let slot = if most < 64 { place } else { place * 29 % SLOTS };
        let wanted = if random.chance(1, 4) { 0 } else { random.from_to(1, deep) as usize };
        let count = wanted.min(KEPT + shared);
        shared -= count.saturating_sub(KEPT);
        waiting[slot] = Some(count);
    }
    any_with(random, edition, &waiting)
}

/// Any state with so many records waiting in each held channel, sound where these are within the limits.
pub fn any_with(random: &mut Random, edition: u64, waiting: &[Option<usize>; SLOTS]) -> Scheduler {
    let mut scheduler = Scheduler::fresh(edition);
    for (free, count) in scheduler.channels.iter_mut().zip(waiting) {
        free.ticket = any_ticket(random);
        if let &Some(count) = count {
            *free = any_channel(random, free.ticket, count);
        }
    }
    let waits = |slot: &usize| !scheduler.channels[*slot].records.is_empty();
    scheduler.rows = (0..SLOTS).filter(waits).collect();
    random.shuffle(&mut scheduler.rows);
    scheduler.order = any_order(random, &scheduler);
    any_scan(random, &mut scheduler);
    scheduler
}

fn any_ticket(random: &mut Random) -> u64 {
    match random.below(4) {
        0 => random.from_to(0, 3),
        1 => LAST_TICKET - random.below(3),
        _ => random.below(LAST_TICKET + 1),
    }
}

fn any_channel(random: &mut Random, ticket: u64, waiting: usize) -> Channel {
    let weight = if random.chance(1, 2) { random.from_to(1, 4_095) } else { 1 << random.below(12) };
    let lengths: Vec<u64> = (0..waiting).map(|_| any_length(random)).collect();
    let kind = if waiting > 0 && random.chance(1, 4) { Kind::Closing } else { Kind::Open };
    let deficit = if waiting == 0 { 0 } else { random.pick(&[0, 1, 511, 1_022, 1_023]) };
    let next_serial = if random.chance(1, 2) { random.below(65_536) } else { random.pick(&[0, 1, 15, 65_534, 65_535]) };
    let mut channel = channel(kind, ticket.max(1), weight, deficit, next_serial, &lengths);
    for record in &mut channel.records {
        record.reference = random.pick(&[0, 1, 0x8000_0000, 0xffff_ffff, 0x0403_0201]) ^ random.below(256);
    }
    channel
}

fn any_length(random: &mut Random) -> u64 {
    if random.chance(1, 3) {
        random.pick(&[1, 2, 1_013, 1_014])
    } else {
        random.from_to(1, LONGEST)
    }
}

/// In edition 2, half of the orders may be held above that of the rows.
fn any_order(random: &mut Random, scheduler: &Scheduler) -> u64 {
    let of_rows = scheduler.order_of_rows();
    let held = scheduler.edition == 2 && of_rows > 0 && random.chance(1, 2);
    if held {
        random.from_to(of_rows, COLUMNS)
    } else {
        of_rows
    }
}

fn any_scan(random: &mut Random, scheduler: &mut Scheduler) {
    if scheduler.rows.is_empty() {
        return;
    }
    let end = 1 << scheduler.order;
    let any = random.below(end);
    scheduler.scan.position = random.pick(&[0, any, any, end - 1]);
    if random.chance(1, 2) {
        let column = random.below(scheduler.order);
        let listed: Vec<usize> = scheduler.column(column).into_iter().filter(|_| random.chance(2, 3)).collect();
        scheduler.scan.column = if listed.is_empty() { 0 } else { column };
        scheduler.scan.to_visit = listed.into_iter().collect();
    }
    let slot = random.pick(&scheduler.rows);
    if random.chance(1, 2) && !scheduler.scan.to_visit.contains(&slot) {
        scheduler.scan.visit = Some(slot);
        let channel = &mut scheduler.channels[slot];
        let cost = channel.records[0].cost();
        // What the new head costs is just left for it, a byte more or less, or its bare length.
        let next = channel.records.get(1).map_or(0, Record::cost);
        let left = random.pick(&[next, next + 1, next.saturating_sub(1), next.saturating_sub(FRAMING)]);
        channel.deficit = random.pick(&[cost, cost + 1, cost + left, GRANT.max(cost), LARGEST_IN_VISIT]).min(LARGEST_IN_VISIT);
    }
    // The end of a round is no state at rest: one term is left of it.
    if scheduler.round_is_over() {
        scheduler.scan.position -= 1;
    }
}

/// Few light channels, and P among the last terms of the round: at the very last one where a visit is open or slots are listed.
pub fn near_round_end(random: &mut Random, edition: u64) -> Scheduler {
    let mut scheduler = any_sound(random, edition, 4);
    for channel in scheduler.channels.iter_mut().filter(|channel| channel.kind != Kind::Free) {
        channel.weight = random.from_to(1, 7);
    }
    scheduler.order = if random.chance(1, 2) { scheduler.order_of_rows() } else { any_order(random, &scheduler) };
    let listed = if scheduler.rows.is_empty() { Vec::new() } else { scheduler.column(0) };
    let listed = listed.into_iter().filter(|&slot| scheduler.scan.visit != Some(slot) && random.chance(1, 2));
    scheduler.scan.to_visit = listed.collect();
    scheduler.scan.column = 0;
    let last = (1 << scheduler.order) - 1;
    scheduler.scan.position = random.pick(&[last, last, last.saturating_sub(1), last.saturating_sub(2)]);
    if scheduler.round_is_over() {
        scheduler.scan.position -= 1;
    }
    scheduler
}

/// Few channels whose next serials are about to wrap.
pub fn near_last_serial(random: &mut Random, edition: u64) -> Scheduler {
    let mut scheduler = any_sound(random, edition, 4);
    for channel in scheduler.channels.iter_mut().filter(|channel| channel.kind != Kind::Free) {
        channel.next_serial = 65_535 - random.below(6);
    }
    scheduler
}

/// Every slot's ticket is one of the last three.
pub fn near_last_ticket(random: &mut Random, edition: u64) -> Scheduler {
    let mut scheduler = any_sound(random, edition, 3);
    let only = random.from_to(1, 64) as usize;
    for (slot, channel) in scheduler.channels.iter_mut().enumerate() {
        let below = if slot < only { random.below(3) } else { 0 };
        channel.ticket = LAST_TICKET - below;
    }
    scheduler
}
