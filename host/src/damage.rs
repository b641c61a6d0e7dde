//! Memories that break a rule of soundness, by name: each rule alone where that can be, notes that the records do not bear out, and bytes that stand for nothing; and
//! images that are none.

use crate::image::{image_of, read, HEAD};
use crate::layout::{
    self, BYTES, CELLS, EDITION, KIND, LENGTHS, LIST, LIST_COUNT, MARK, NOTHING, REFERENCES, ROWS, ROW_COUNT, VISIT, WAITING,
};
use crate::notes::Notes;
use crate::pool::{beyond_the_limit, full};
use crate::random::Random;
use crate::scheduler::{fullest_of, Kind, Record, Scheduler, EDITIONS, FRAMING, SLOTS};
use crate::sound::Rule;
use crate::states::{door, filling, rich};

/// A sound state changed so that it breaks exactly these rules.
#[derive(Clone)]
pub struct Breakage {
    pub name: &'static str,
    pub rules: &'static [Rule],
    pub scheduler: Scheduler,
}

fn broken(name: &'static str, rules: &'static [Rule], from: Scheduler, change: fn(&mut Scheduler)) -> Breakage {
    let mut scheduler = from;
    change(&mut scheduler);
    Breakage { name, rules, scheduler }
}

/// The state with one number just beyond its limit, or at most a byte beyond; some are still within, and then the state may be sound.
pub fn beyond_a_limit(random: &mut Random, from: &Scheduler) -> Scheduler {
    let mut state = from.clone();
    let choice = if state.rows.is_empty() { random.below(3) } else { random.below(8) };
    match choice {
        2 if random.chance(1, 2) => state.mark = random.pick(&[0, 1, 2, 3, 255]),
        0 => state.scan.position = random.pick(&[(1 << state.order) - 1, 1 << state.order]),
        1 => state.order = random.pick(&[state.order + 1, state.order.saturating_sub(1), 12, 13]),
        2 => state.edition = random.pick(&[0, 1, 2, 3, 255]),
        3 | 4 => visit_just_paid_for(random, &mut state),
        _ => {
            let channel = &mut state.channels[random.pick(&from.rows)];
            let record = random.below(channel.records.len() as u64) as usize;
            match choice {
                5 => {
                    let near = random.from_to(1_014, 1_024);
                    channel.records[record].length = random.pick(&[0, 1_015, near, 1_279]);
                }
                6 => channel.deficit = random.pick(&[1_024, 1_279, 2_047]),
                _ => {
                    // The order follows, so that the weight alone is wrong.
                    channel.weight = random.pick(&[4_096, 4_351]);
                    state.order = 13;
                }
            }
        }
    }
    state
}

/// The image changed so that it is mostly none: a bit or a byte changed, two neighbours exchanged, cut short or made longer with or without another length in its
/// head, or the image of a state with a number beyond its limit.
pub fn no_image(random: &mut Random, image: &[u8]) -> Vec<u8> {
    let mut changed = image.to_vec();
    if image.len() <= HEAD + 1 {
        return changed;
    }
    let end = random.pick(&[HEAD, 32.min(image.len()), image.len(), image.len()]);
    let place = random.below(end as u64 - 1) as usize;
    match random.below(7) {
        0 => changed[place] ^= 1 << random.below(8),
        1 => changed[place] = random.number() as u8,
        2 => changed.swap(place, place + 1),
        3 => changed.truncate(random.pick(&[place, image.len() - 1, HEAD])),
        4 => changed.extend(&[0, 0, 0, 1, 255, 1][..random.from_to(1, 6) as usize]),
        5 => {
            let longer = random.chance(1, 2);
            changed.resize(if longer { image.len() + 1 } else { image.len() - 1 }, 0);
            let rest = (changed.len() - HEAD) as u32;
            changed[1..HEAD].copy_from_slice(&rest.to_be_bytes());
        }
        _ => changed = read(image).map_or(changed, |state| image_of(&beyond_a_limit(random, &state))),
    }
    changed
}

/// A row's visit is open, and its deficit just pays for what the head costs, or a byte more, or not: for its bare length alone, or for all but one byte.
fn visit_just_paid_for(random: &mut Random, state: &mut Scheduler) {
    let slot = state.scan.visit.unwrap_or_else(|| random.pick(&state.rows));
    state.scan.to_visit.remove(&slot);
    if state.scan.to_visit.is_empty() {
        state.scan.column = 0;
    }
    state.scan.visit = Some(slot);
    let channel = &mut state.channels[slot];
    channel.deficit = channel.records[0].length + random.pick(&[0, FRAMING - 1, FRAMING, FRAMING + 1]);
}

/// Each rule over the plain structure, broken in turn, in both editions.
pub fn breakages() -> Vec<Breakage> {
    let of_both = |edition: u64| [of_channels(edition), of_the_pool(edition), of_rows(edition), of_the_scan(edition)].concat();
    let mut list: Vec<Breakage> = EDITIONS.into_iter().flat_map(of_both).collect();
    list.extend(of_edition_1());
    list.extend(of_edition_2());
    list.extend(of_no_edition());
    list.extend(of_no_mark());
    list
}

fn of_channels(edition: u64) -> Vec<Breakage> {
    let rich = |name, rules, change: fn(&mut Scheduler)| broken(name, rules, rich(edition), change);
    vec![
        rich("a free slot has a weight", &[Rule::Free], |state| state.channels[0].weight = 1),
        rich("a free slot has a deficit", &[Rule::Free, Rule::Deficit], |state| state.channels[0].deficit = 1),
        rich("a free slot has a next serial", &[Rule::Free], |state| state.channels[0].next_serial = 1),
        rich("a free slot has a record and is a row", &[Rule::Free], |state| {
            state.channels[0].records.push_back(Record { length: 1, reference: 1 });
            state.rows.push(0);
        }),
        rich("an open slot has ticket 0", &[Rule::Held], |state| state.channels[2].ticket = 0),
        rich("a closing slot has ticket 0", &[Rule::Held], |state| state.channels[3].ticket = 0),
        rich("an open slot has weight 0", &[Rule::Held], |state| state.channels[2].weight = 0),
        rich("an open slot has weight 4,096", &[Rule::Held], |state| state.channels[2].weight = 4_096),
        rich("an open slot has weight 65,535", &[Rule::Held], |state| state.channels[2].weight = 65_535),
        rich("a closing slot has no record", &[Rule::Held], |state| state.channels[2].kind = Kind::Closing),
        rich("a length is 0", &[Rule::Records], |state| state.channels[1].records[1].length = 0),
        rich("a length is 1,015", &[Rule::Records], |state| state.channels[1].records[1].length = 1_015),
        rich("a length is 1,016", &[Rule::Records], |state| state.channels[3].records[2].length = 1_016),
        rich("a length is 1,024", &[Rule::Records], |state| state.channels[1].records[1].length = 1_024),
        rich("a length is 65,535", &[Rule::Records], |state| state.channels[5].records[63].length = 65_535),
        rich("a head's length is 0", &[Rule::Records], |state| state.channels[63].records[0].length = 0),
        rich("65 records wait", &[Rule::Records], |state| {
            state.channels[5].records.push_back(Record { length: 1, reference: 1 });
        }),
        rich("a row's deficit is 1,024", &[Rule::Deficit], |state| state.channels[1].deficit = 1_024),
        rich("a row's deficit is 65,535", &[Rule::Deficit], |state| state.channels[5].deficit = 65_535),
        rich("a deficit where no record waits", &[Rule::Deficit], |state| state.channels[2].deficit = 1),
    ]
}

fn of_the_pool(edition: u64) -> Vec<Breakage> {
    beyond_the_limit(edition).into_iter().map(|(name, rules, scheduler)| Breakage { name, rules, scheduler }).collect()
}

fn of_rows(edition: u64) -> Vec<Breakage> {
    let rich = |name, change: fn(&mut Scheduler)| broken(name, &[Rule::Rows], rich(edition), change);
    let fresh = |name, change: fn(&mut Scheduler)| broken(name, &[Rule::Rows], Scheduler::fresh(edition), change);
    vec![
        rich("a row is missing", |state| {
            state.rows.retain(|&row| row != 5);
            state.order = 3;
        }),
        rich("a row is listed twice", |state| state.rows.push(9)),
        rich("a row is listed in place of another", |state| state.rows[4] = 9),
        rich("a row without records", |state| {
            state.rows.push(2);
            state.order = 12;
        }),
        rich("a row that is free", |state| state.rows.push(0)),
        rich("a row above 63", |state| state.rows.push(64)),
        rich("a row above 63 in place of another", |state| state.rows[4] = 255),
        rich("the order is one too low", |state| state.order = 3),
        rich("the order is 13", |state| state.order = 13),
        rich("the order is 255", |state| state.order = 255),
        rich("the order is 0 with rows", |state| {
            state.order = 0;
            state.scan.position = 0;
        }),
        fresh("an order without rows", |state| state.order = 1),
    ]
}

fn of_the_scan(edition: u64) -> Vec<Breakage> {
    let rich = |name, rules, change: fn(&mut Scheduler)| broken(name, rules, rich(edition), change);
    let fresh = |name, rules, change: fn(&mut Scheduler)| broken(name, rules, Scheduler::fresh(edition), change);
    vec![
        rich("P is 2^k", &[Rule::Position], |state| state.scan.position = 16),
        rich("P is 65,535", &[Rule::Position], |state| state.scan.position = 65_535),
        fresh("P is 1 without rows", &[Rule::Position], |state| state.scan.position = 1),
        rich("a column without slots to visit", &[Rule::ToVisit], |state| state.scan.to_visit.clear()),
        fresh("a column without rows", &[Rule::ToVisit], |state| state.scan.column = 1),
        rich("a slot to visit without the noted bit", &[Rule::ToVisit], |state| {
            state.scan.visit = None;
            state.scan.to_visit.insert(63);
        }),
        rich("a slot to visit that has no record", &[Rule::ToVisit], |state| {
            state.scan.to_visit.insert(2);
        }),
        rich("a slot to visit that is free", &[Rule::ToVisit], |state| {
            state.scan.to_visit.insert(40);
        }),
        rich("slots to visit of another column", &[Rule::ToVisit], |state| state.scan.column = 3),
        rich("column 12", &[Rule::ToVisit], |state| state.scan.column = 12),
        rich("column 255", &[Rule::ToVisit], |state| state.scan.column = 255),
        fresh("slots to visit without rows", &[Rule::ToVisit], |state| {
            state.scan.to_visit.insert(0);
        }),
        rich("a visit of a slot without records", &[Rule::Visit], |state| state.scan.visit = Some(2)),
        rich("a visit of a free slot", &[Rule::Visit], |state| state.scan.visit = Some(0)),
        rich("a visit of a slot still to visit", &[Rule::Visit], |state| {
            state.scan.visit = Some(1);
            state.channels[1].deficit = 310;
        }),
        rich("a visit whose head is longer than its deficit", &[Rule::Visit], |state| state.channels[63].deficit = 499),
        rich("a visit whose deficit is its head's bare length", &[Rule::Visit], |state| state.channels[63].deficit = 500),
        rich("a visit whose head costs a byte more than its deficit", &[Rule::Visit], |state| state.channels[63].deficit = 509),
        rich("a visit with deficit 0", &[Rule::Visit], |state| state.channels[63].deficit = 0),
        rich("a visit with deficit 2,047", &[Rule::Visit], |state| state.channels[63].deficit = 2_047),
        rich("a visit with deficit 65,535", &[Rule::Visit], |state| state.channels[63].deficit = 65_535),
        fresh("a visit without rows", &[Rule::Visit], |state| state.scan.visit = Some(0)),
        rich("a deficit above 1,023 after its visit", &[Rule::Deficit], |state| {
            state.scan.visit = None;
            state.channels[63].deficit = 1_024;
        }),
    ]
}

/// What edition 2 takes for sound.
fn of_edition_1() -> Vec<Breakage> {
    let rich = |name, rules, change: fn(&mut Scheduler)| broken(name, rules, rich(1), change);
    vec![
        rich("a row has weight 4,096", &[Rule::Held], |state| {
            state.channels[5].weight = 4_096;
            state.order = 13;
        }),
        rich("the order is one too high", &[Rule::Rows], |state| state.order = 5),
        rich("the order counts a channel that is no row", &[Rule::Rows], |state| state.order = 12),
        broken("a row without channels", &[Rule::Rows], Scheduler::fresh(1), |state| state.rows.push(0)),
        broken("the order is held in edition 1", &[Rule::Rows], door(12, 2_047, &[1_014]), |state| state.edition = 1),
    ]
}

/// What edition 1 takes for sound, and limits of an order that is held.
fn of_edition_2() -> Vec<Breakage> {
    let rich = |name, rules, change: fn(&mut Scheduler)| broken(name, rules, rich(2), change);
    let door = |name, rules, change: fn(&mut Scheduler)| broken(name, rules, door(12, 2_047, &[1_014; 3]), change);
    vec![
        rich("a row has weight 4,096 and the order is 12", &[Rule::Held, Rule::Rows], |state| {
            state.channels[5].weight = 4_096;
            state.order = 12;
        }),
        rich("P is 2^k - 1 with nothing open nor to visit", &[Rule::Position], |state| {
            state.scan.position = 15;
            state.scan.visit = None;
            state.scan.column = 0;
            state.scan.to_visit.clear();
        }),
        door("P is 2^k - 1 of a held order with nothing open nor to visit", &[Rule::Position], |state| state.scan.position = 4_095),
        door("P is 1 at order 1 with nothing open nor to visit", &[Rule::Position], |state| {
            state.order = 1;
            state.scan.position = 1;
        }),
        broken("a row without channels", &[Rule::Rows, Rule::Position], Scheduler::fresh(2), |state| state.rows.push(0)),
        door("P is 2^k of a held order", &[Rule::Position], |state| state.scan.position = 4_096),
        door("a held order of 13", &[Rule::Rows], |state| state.order = 13),
        door("the order is 0 with a row of weight 1", &[Rule::Rows, Rule::Position], |state| {
            state.order = 0;
            state.scan.position = 0;
        }),
        door("a held order without rows", &[Rule::Rows], |state| {
            state.channels[1].records.clear();
            state.rows.clear();
        }),
        door("a held P without rows", &[Rule::Position], |state| {
            state.channels[1].records.clear();
            state.rows.clear();
            state.order = 0;
        }),
    ]
}

/// "a state whose edition isn't 1 or 2 is unsound"
fn of_no_edition() -> Vec<Breakage> {
    let rich = |name, change: fn(&mut Scheduler)| broken(name, &[Rule::Edition], rich(1), change);
    vec![
        broken("all zeros", &[Rule::Edition], Scheduler::fresh(0), |_| {}),
        rich("edition 0", |state| state.edition = 0),
        rich("edition 3", |state| state.edition = 3),
        rich("edition 4", |state| state.edition = 4),
        rich("edition 129", |state| state.edition = 129),
        rich("edition 255", |state| state.edition = 255),
    ]
}

/// A mark other than 0 or 1 is none, and nothing else is made good by a mark.
fn of_no_mark() -> Vec<Breakage> {
    let rich = |name, rules, change: fn(&mut Scheduler)| broken(name, rules, rich(2), change);
    vec![
        broken("mark 2, fresh", &[Rule::Mark], Scheduler::fresh(1), |state| state.mark = 2),
        rich("mark 2", &[Rule::Mark], |state| state.mark = 2),
        rich("mark 3", &[Rule::Mark], |state| state.mark = 3),
        rich("mark 128", &[Rule::Mark], |state| state.mark = 128),
        rich("mark 255", &[Rule::Mark], |state| state.mark = 255),
        rich("edition 3, parked", &[Rule::Edition], |state| (state.edition, state.mark) = (3, 1)),
        rich("parked in place of its edition", &[Rule::Edition], |state| (state.edition, state.mark) = (0, 1)),
    ]
}

/// The notes of a state, wrong in one thing, or in two that agree: a sum off by a byte, by framing or by a whole record; two places of the list exchanged, in a tie
/// where there is one; one listed too many or too few; a slot listed that has no bytes, or fewer than one that is left out; sums that are another's, with the list
/// that goes with them. Some that cannot be made wrong so stay right.
pub fn other_notes(random: &mut Random, state: &Scheduler) -> Notes {
    let mut notes = Notes::of(state);
    let rows: Vec<usize> = if state.rows.is_empty() { vec![0] } else { state.rows.clone() };
    let (slot, other, any) = (random.pick(&rows), random.pick(&rows), random.below(SLOTS as u64) as usize);
    let bytes = notes.bytes.clone();
    let listed = notes.listed.len();
    // Places of the list that are level with the next.
    let ties: Vec<usize> = (1..listed).filter(|&at| bytes[notes.listed[at - 1]] == bytes[notes.listed[at]]).map(|at| at - 1).collect();
    match random.below(9) {
        0 => {
            let (records, framing) = (state.channels[slot].records.len() as u64, FRAMING);
            let more =
                random.pick(&[1, 256, framing, framing * records, state.channels[slot].records.front().map_or(1, |head| head.length)]);
            let less = bytes[slot].saturating_sub(more);
            notes.bytes[slot] = random.pick(&[bytes[slot] + more, less]);
        }
        1 => notes.bytes[any] = random.pick(&[bytes[any] ^ 1, bytes[slot], 0]),
        2 => {
            notes.bytes.swap(slot, other);
            notes.listed = fullest_of(&notes.bytes);
        }
        3 => {
            notes.bytes[slot] += random.pick(&[1, FRAMING]);
            notes.listed = fullest_of(&notes.bytes);
        }
        4 if listed > 1 => {
            let place = random.below(listed as u64 - 1) as usize;
            notes.listed.swap(place, place + 1);
        }
        8 if !ties.is_empty() => {
            let place = random.pick(&ties);
            notes.listed.swap(place, place + 1);
        }
        5 if listed > 0 => {
            notes.listed.pop();
        }
        6 => notes.listed.push(random.pick(&[0, slot, any])),
        _ if listed > 0 => {
            let place = random.pick(&[0, listed - 1, listed - 1]);
            notes.listed[place] = random.pick(&[slot, any, SLOTS, 255]);
        }
        _ => notes.listed.push(any),
    }
    notes
}

/// Sound states whose notes are not what the records say, in both editions: which of the two rules each breaks, as far as its notes can be read.
pub fn wrong_notes() -> Vec<(&'static str, &'static [Rule], Vec<u8>)> {
    EDITIONS.into_iter().flat_map(wrong_notes_of).collect()
}

fn wrong_notes_of(edition: u64) -> Vec<(&'static str, &'static [Rule], Vec<u8>)> {
    // Its fullest are 5, 3, 1, 63 and 9; no other has records.
    let of_rich = |name, rules, change: fn(&mut Notes)| noted(name, rules, rich(edition), change);
    // Its fullest are 9, 2, 4, 7 and 11, the last four alike and like 13; then 20 and 30.
    let of_filling = |name, rules, change: fn(&mut Notes)| noted(name, rules, filling(edition), change);
    let of_few = |name, rules, change: fn(&mut Notes)| {
        let one = Scheduler { edition, order: 1, ..door(1, 0, &[7, 8]) };
        noted(name, rules, one, change)
    };
    let fresh = |name, rules, change: fn(&mut Notes)| noted(name, rules, Scheduler::fresh(edition), change);
    let (sums, list, both) = (&[Rule::Bytes][..], &[Rule::Fullest][..], &[Rule::Bytes, Rule::Fullest][..]);
    vec![
        of_rich("a sum is a byte too high", sums, |notes| notes.bytes[1] += 1),
        of_rich("a sum is a byte too low", sums, |notes| notes.bytes[63] -= 1),
        of_rich("a sum is 256 bytes too high", sums, |notes| notes.bytes[5] += 256),
        of_rich("a sum has the framing of its head", sums, |notes| notes.bytes[1] += 10),
        of_rich("a sum has framing", sums, |notes| notes.bytes[5] += 640),
        of_rich("every sum has framing", sums, |notes| {
            for (slot, records) in [(1, 2), (3, 3), (5, 64), (9, 1), (63, 2)] {
                notes.bytes[slot] += 10 * records;
            }
        }),
        of_rich("a sum without its head", sums, |notes| notes.bytes[3] -= 1),
        of_rich("a sum without its last record", sums, |notes| notes.bytes[5] -= 64),
        of_rich("a sum where no record waits", sums, |notes| notes.bytes[2] = 1),
        of_rich("a sum in a free slot", sums, |notes| notes.bytes[0] = 1),
        of_rich("a sum in the last free slot", sums, |notes| notes.bytes[62] = 65_535),
        of_rich("a byte more in one sum, and one less in another", sums, |notes| {
            notes.bytes[1] += 1;
            notes.bytes[3] -= 1;
        }),
        of_rich("sums exchanged", sums, |notes| notes.bytes.swap(1, 3)),
        of_rich("sums of the neighbours", sums, |notes| notes.bytes.rotate_left(1)),
        of_rich("no sums", sums, |notes| notes.bytes.fill(0)),
        fresh("a sum without channels", sums, |notes| notes.bytes[63] = 256),
        of_rich("the list is empty", list, |notes| notes.listed.clear()),
        of_rich("four are listed", list, |notes| notes.listed.truncate(4)),
        of_rich("six are listed", list, |notes| notes.listed.push(0)),
        of_rich("255 are listed", list, |notes| notes.listed.resize(255, 0)),
        of_rich("two of the list exchanged", list, |notes| notes.listed.swap(0, 1)),
        of_rich("the last two of the list exchanged", list, |notes| notes.listed.swap(3, 4)),
        of_rich("the list from its end", list, |notes| notes.listed.reverse()),
        of_rich("the list by slots", list, |notes| notes.listed.sort_unstable()),
        of_rich("a listed slot without bytes", list, |notes| notes.listed[4] = 2),
        of_rich("a listed slot that is free", list, |notes| notes.listed[4] = 0),
        of_rich("a slot is listed twice", list, |notes| notes.listed[4] = 63),
        of_rich("slot 64 is listed", list, |notes| notes.listed[4] = 64),
        of_rich("slot 255 is listed", list, |notes| notes.listed[0] = 255),
        of_filling("a tie by the higher slot", list, |notes| notes.listed.swap(1, 2)),
        of_filling("the last tie by the higher slot", list, |notes| notes.listed.swap(3, 4)),
        of_filling("a tie cut by the higher slot", list, |notes| notes.listed[4] = 13),
        of_filling("a tie from its end", list, |notes| notes.listed[1..].reverse()),
        of_filling("one listed for a fuller one", list, |notes| notes.listed[4] = 20),
        of_filling("the first is missing", list, |notes| {
            notes.listed.remove(0);
            notes.listed.push(13);
        }),
        of_filling("four of eight are listed", list, |notes| notes.listed.truncate(4)),
        of_few("an empty channel is listed behind the last", list, |notes| notes.listed.push(0)),
        of_few("a free slot is listed behind the last", list, |notes| notes.listed.push(63)),
        of_few("an empty channel is listed first", list, |notes| notes.listed.insert(0, 0)),
        of_few("the only one is not listed", list, |notes| notes.listed.clear()),
        fresh("a slot is listed where nothing waits", list, |notes| notes.listed.push(0)),
        of_filling("the list goes by sums that are wrong", both, |notes| {
            notes.bytes[13] += 1;
            notes.listed = vec![9, 13, 2, 4, 7];
        }),
        of_rich("sums and list are another's", both, |notes| *notes = Notes::of(&filling(1))),
        of_rich("no notes", both, |notes| {
            notes.bytes.fill(0);
            notes.listed.clear();
        }),
        fresh("notes of records that are not there", both, |notes| *notes = Notes::of(&rich(1))),
    ]
}

fn noted(name: &'static str, rules: &'static [Rule], state: Scheduler, change: fn(&mut Notes)) -> (&'static str, &'static [Rule], Vec<u8>) {
    let mut notes = Notes::of(&state);
    change(&mut notes);
    (name, rules, layout::with_notes(&state, &notes))
}

/// Memories that are wrong in their bytes alone, in both editions: in a single byte, where that stands for nothing or has a value that no state has, or in their notes.
pub fn wrong_bytes() -> Vec<(&'static str, Vec<u8>)> {
    let notes = wrong_notes().into_iter().map(|(name, _, memory)| (name, memory));
    EDITIONS.into_iter().flat_map(wrong_bytes_of).chain(notes).collect()
}

fn wrong_bytes_of(edition: u64) -> Vec<(&'static str, Vec<u8>)> {
    let fresh = layout::fresh(edition);
    let (rich, full) = (layout::to_bytes(&rich(edition)), layout::to_bytes(&full(edition)));
    let set = |bytes: &[u8], place: usize, value: u8| {
        let mut bytes = bytes.to_vec();
        assert!(bytes[place] != value);
        bytes[place] = value;
        bytes
    };
    // Rich has 5 rows and 72 records.
    let (run, last) = (72, CELLS - 1);
    vec![
        ("a row after the rows", set(&rich, ROWS.at(5, 0), 1)),
        ("a row in the last place", set(&rich, ROWS.at(63, 0), 63)),
        ("kind 3", set(&rich, KIND.at(40, 0), 3)),
        ("kind 255", set(&rich, KIND.at(1, 0), 255)),
        ("a free slot is open", set(&fresh, KIND.at(7, 0), 1)),
        ("one record more than there are", set(&rich, WAITING.at(63, 0), 3)),
        ("one record fewer than there are", set(&rich, WAITING.at(63, 0), 1)),
        ("255 records of one channel", set(&rich, WAITING.at(1, 0), 255)),
        ("more records than cells", set(&full, WAITING.at(63, 0), 9)),
        ("more records than cells, at the first slot", set(&full, WAITING.at(0, 0), 64)),
        ("more records than cells and room", set(&full, WAITING.at(0, 0), 255)),
        ("one row fewer", set(&rich, ROW_COUNT.start, 4)),
        ("one row more", set(&rich, ROW_COUNT.start, 6)),
        ("65 rows", set(&full, ROW_COUNT.start, 65)),
        ("255 rows", set(&fresh, ROW_COUNT.start, 255)),
        ("visit 65", set(&rich, VISIT.start, 65)),
        ("visit 255", set(&rich, VISIT.start, 255)),
        ("edition 0, fresh", set(&fresh, EDITION.start, 0)),
        ("edition 0", set(&full, EDITION.start, 0)),
        ("edition 3, fresh", set(&fresh, EDITION.start, 3)),
        ("edition 255", set(&full, EDITION.start, 255)),
        ("mark 2, fresh", set(&fresh, MARK.start, 2)),
        ("mark 255", set(&full, MARK.start, 255)),
        ("the first byte after the mark", set(&rich, NOTHING.start, 1)),
        ("the last byte of the scan point's line", set(&rich, NOTHING.end() - 1, 128)),
        ("a length after the run", set(&rich, LENGTHS.at(run, 0), 1)),
        ("a length after the run, high byte", set(&rich, LENGTHS.at(run, 1), 1)),
        ("a length in the last cell", set(&rich, LENGTHS.at(last, 0), 255)),
        ("a length in the last cell, high byte", set(&fresh, LENGTHS.at(last, 1), 4)),
        ("a reference after the run, byte 0", set(&rich, REFERENCES.at(run, 0), 1)),
        ("a reference after the run, byte 1", set(&rich, REFERENCES.at(run, 1), 1)),
        ("a reference after the run, byte 2", set(&rich, REFERENCES.at(run, 2), 1)),
        ("a reference after the run, byte 3", set(&rich, REFERENCES.at(run, 3), 1)),
        ("a reference in the last cell", set(&fresh, REFERENCES.at(last, 3), 128)),
        ("a length that its sum has not", set(&rich, LENGTHS.at(0, 0), 43)),
        ("the low byte of a sum", set(&full, BYTES.at(63, 0), 0)),
        ("the high byte of a sum", set(&full, BYTES.at(0, 1), 255)),
        ("a number listed, fresh", set(&fresh, LIST_COUNT.start, 1)),
        ("four listed of five", set(&rich, LIST_COUNT.start, 4)),
        ("a slot behind an empty list", set(&fresh, LIST.at(0, 0), 1)),
        ("a slot in the list's last place", set(&fresh, LIST.at(4, 0), 63)),
        ("the last listed is another", set(&rich, LIST.at(4, 0), 137)),
    ]
}
