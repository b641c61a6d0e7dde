//! An independent scheduler, written from document 01 and from §1, §3, §4, §6 and §7 of document 02 over plain structures: no byte layout, no code shared
//! with the engine under test.
//!
//! The numbers are wider than the rules allow, so that a state that breaks a rule can be held too; [`Scheduler::sound`] tells them apart.

use std::cmp::Reverse;
use std::collections::{BTreeSet, VecDeque};

use crate::answers::{Added, Closed, Filling, Fullest, Opened, Refusal, Sent, Standing, Told};
use crate::image;
use crate::steps::{Moment, Tell};

pub const SLOTS: usize = 64;
pub const LAST_TICKET: u64 = 4_294_967_295;
pub const LARGEST_WEIGHT: u64 = 4_095;
pub const COLUMNS: u64 = 12;
pub const LONGEST: u64 = 1_014;
/// What a record takes on the link beside its own bytes.
pub const FRAMING: u64 = 10;
/// "up to 64 a channel"
pub const MOST_WAITING: usize = 64;
/// "Two are kept for every slot and 384 shared"
pub const KEPT: usize = 2;
pub const SHARED: usize = 384;
pub const GRANT: u64 = 1_024;
/// "a list of the five fullest"
pub const LISTED: usize = 5;
/// Serials are counted modulo this: 65,535 is followed by 0.
pub const SERIALS: u64 = 65_536;
/// The rules that a state can be started with: 1 is "today's rule", 2 holds the order for the round.
pub const EDITIONS: [u64; 2] = [1, 2];
/// The mark of a state that goes on, and of one that is parked.
pub const GOING: u64 = 0;
pub const PARKED: u64 = 1;

#[derive(Clone, Copy, Debug, PartialEq, Eq)]
pub enum Kind {
    Free,
    Open,
    Closing,
}

#[derive(Clone, Copy, Debug, PartialEq, Eq)]
pub struct Record {
    pub length: u64,
    pub reference: u64,
}

/// "A record now costs its length plus 10, which is taken from the deficit and compared with it."
pub fn cost_of(length: u64) -> u64 {
    length + FRAMING
}

impl Record {
    pub fn cost(&self) -> u64 {
        cost_of(self.length)
    }
}

/// "a list of the five fullest: most bytes first, the lower slot first on a tie, channels with none left out", by the bytes that wait in each slot: all slots sorted,
/// afresh each time.
pub fn fullest_of(bytes: &[u64]) -> Vec<usize> {
    let mut slots: Vec<usize> = (0..bytes.len()).filter(|&slot| bytes[slot] > 0).collect();
    slots.sort_by_key(|&slot| (Reverse(bytes[slot]), slot));
    slots.truncate(LISTED);
    slots
}

/// What the state holds for one slot.
#[derive(Clone, Debug, PartialEq, Eq)]
pub struct Channel {
    pub kind: Kind,
    pub ticket: u64,
    pub weight: u64,
    pub deficit: u64,
    pub next_serial: u64,
    /// Oldest first.
    pub records: VecDeque<Record>,
}

/// "The scan point".
#[derive(Clone, Debug, PartialEq, Eq)]
pub struct Scan {
    /// P, the position of the last term taken.
    pub position: u64,
    /// The noted column.
    pub column: u64,
    pub to_visit: BTreeSet<usize>,
    pub visit: Option<usize>,
}

#[derive(Clone, Debug, PartialEq, Eq)]
pub struct Scheduler {
    /// One for each slot.
    pub channels: Vec<Channel>,
    /// The slots with a record waiting, in the order in which they joined.
    pub rows: Vec<usize>,
    pub order: u64,
    pub scan: Scan,
    /// "Start takes and keeps the edition"
    pub edition: u64,
    /// "After writing, the state is parked": 1, else 0.
    pub mark: u64,
}

impl Channel {
    pub fn fresh() -> Channel {
        Channel { kind: Kind::Free, ticket: 0, weight: 0, deficit: 0, next_serial: 0, records: VecDeque::new() }
    }

    /// The slot is free again; its last ticket stays.
    pub fn free(&mut self) {
        *self = Channel { ticket: self.ticket, ..Channel::fresh() };
    }

    /// "its bytes waiting (without framing)"
    pub fn bytes_waiting(&self) -> u64 {
        self.records.iter().map(|record| record.length).sum()
    }

    /// Serials of waiting records are not held: the head's lies the number waiting below the next one.
    fn head_serial(&self) -> u64 {
        (self.next_serial + SERIALS - self.records.len() as u64) % SERIALS
    }
}

/// The calls. The first check of each is 10; those ending in `_sound` are the same calls on a state already known to be sound.
impl Scheduler {
    /// "Refusals: 12, start only, edition not 1 or 2, after 10"; the 10 is for the memory's length, which a scheduler does not have.
    pub fn start(edition: u32) -> Result<Scheduler, Refusal> {
        let edition = u64::from(edition);
        if !EDITIONS.contains(&edition) {
            return Err(Refusal::BadEdition);
        }
        Ok(Scheduler::fresh(edition))
    }

    /// "the fresh state: all free, all zeros", with the edition beside them.
    pub fn fresh(edition: u64) -> Scheduler {
        Scheduler {
            channels: vec![Channel::fresh(); SLOTS],
            rows: Vec::new(),
            order: 0,
            scan: Scan { position: 0, column: 0, to_visit: BTreeSet::new(), visit: None },
            edition,
            mark: GOING,
        }
    }

    pub fn open(&mut self, weight: u32) -> Result<Opened, Refusal> {
        self.check()?;
        self.open_sound(weight)
    }

    pub fn put(&mut self, slot: u32, ticket: u32, length: u32, reference: u32) -> Result<Added, Refusal> {
        self.check()?;
        self.put_sound(slot, ticket, length, reference)
    }

    pub fn close(&mut self, slot: u32, ticket: u32) -> Result<Closed, Refusal> {
        self.check()?;
        self.close_sound(slot, ticket)
    }

    #[allow(clippy::should_implement_trait)]
    pub fn next(&mut self) -> Result<Sent, Refusal> {
        self.check()?;
        self.next_sound()
    }

    pub fn ask(&self, slot: u32, ticket: u32) -> Result<Told, Refusal> {
        self.check()?;
        self.ask_sound(slot, ticket)
    }

    pub fn fullest(&self) -> Result<Fullest, Refusal> {
        self.check()?;
        self.fullest_sound()
    }

    pub fn park(&mut self, room: usize) -> Result<Vec<u8>, Refusal> {
        self.check()?;
        self.park_sound(room)
    }

    fn check(&self) -> Result<(), Refusal> {
        if self.sound() {
            Ok(())
        } else {
            Err(Refusal::Unsound)
        }
    }

    /// "the state is parked and takes only start and the reader": "14 parked, after 10 in every other call".
    pub fn going(&self) -> Result<(), Refusal> {
        if self.mark == GOING {
            Ok(())
        } else {
            Err(Refusal::Parked)
        }
    }

    pub fn open_sound(&mut self, weight: u32) -> Result<Opened, Refusal> {
        self.going()?;
        let weight = u64::from(weight);
        if weight == 0 || weight > LARGEST_WEIGHT {
            return Err(Refusal::BadWeight);
        }
        let can_open = |channel: &Channel| channel.kind == Kind::Free && channel.ticket != LAST_TICKET;
        let slot = self.channels.iter().position(can_open).ok_or(Refusal::NoneFree)?;
        let channel = &mut self.channels[slot];
        channel.kind = Kind::Open;
        channel.ticket += 1;
        channel.weight = weight;
        channel.deficit = 0;
        channel.next_serial = 0;
        Ok(Opened { slot: slot as u32, ticket: channel.ticket as u32 })
    }

    pub fn put_sound(&mut self, slot: u32, ticket: u32, length: u32, reference: u32) -> Result<Added, Refusal> {
        self.going()?;
        let slot = self.look_up(slot, ticket)?;
        let channel = &self.channels[slot];
        if channel.kind == Kind::Closing {
            return Err(Refusal::AtClosing);
        }
        let length = u64::from(length);
        if length == 0 || length > LONGEST {
            return Err(Refusal::BadLength);
        }
        // "5 at 64 waiting; 13 exactly when the channel has two or more and the sum is 384, after 5"
        if channel.records.len() >= MOST_WAITING {
            return Err(Refusal::Full);
        }
        if channel.records.len() >= KEPT && self.shared_in_use() == SHARED {
            return Err(Refusal::NoShared);
        }
        let channel = &mut self.channels[slot];
        let serial = channel.next_serial;
        channel.next_serial = (serial + 1) % SERIALS;
        channel.records.push_back(Record { length, reference: u64::from(reference) });
        let waiting = channel.records.len();
        if waiting == 1 {
            channel.deficit = 0;
            self.rows.push(slot);
            // "the order rises at once": it may stand above that of the rows, and a row that joins never lowers it.
            self.order = self.order.max(self.order_of_rows());
        }
        Ok(Added { serial: serial as u32, waiting: waiting as u32 })
    }

    pub fn close_sound(&mut self, slot: u32, ticket: u32) -> Result<Closed, Refusal> {
        self.going()?;
        let slot = self.look_up(slot, ticket)?;
        let channel = &mut self.channels[slot];
        if channel.kind == Kind::Closing {
            return Err(Refusal::AtClosing);
        }
        if channel.records.is_empty() {
            channel.free();
            Ok(Closed::Freed)
        } else {
            channel.kind = Kind::Closing;
            Ok(Closed::Draining)
        }
    }

    pub fn next_sound(&mut self) -> Result<Sent, Refusal> {
        self.next_by_moments(&mut |_, _| {})
    }

    /// Next, moment by moment: each is told with the state right after it.
    pub fn next_by_moments(&mut self, tell: Tell) -> Result<Sent, Refusal> {
        self.going()?;
        if self.rows.is_empty() {
            return Err(Refusal::NoneWaits);
        }
        let (slot, started, terms) = self.choose(tell);
        let ticket = self.channels[slot].ticket as u32;
        let serial = self.channels[slot].head_serial() as u32;
        let record = self.send(slot);
        tell(self, Moment::Sent { slot, cost: record.cost() });
        self.settle(slot);
        tell(self, Moment::Settled { slot });
        self.end_round(tell);
        let (length, reference) = (record.length as u32, record.reference as u32);
        Ok(Sent { slot: slot as u32, ticket, length, reference, serial, started, terms })
    }

    pub fn ask_sound(&self, slot: u32, ticket: u32) -> Result<Told, Refusal> {
        self.going()?;
        let channel = &self.channels[self.look_up(slot, ticket)?];
        Ok(Told {
            standing: if channel.kind == Kind::Closing { Standing::Closing } else { Standing::Open },
            weight: channel.weight as u32,
            deficit: channel.deficit as u32,
            waiting: channel.records.len() as u32,
            bytes: channel.bytes_waiting() as u32,
        })
    }

    /// The list of the five fullest, with the bytes that wait in each.
    pub fn fullest_sound(&self) -> Result<Fullest, Refusal> {
        self.going()?;
        let bytes = self.bytes_waiting();
        let filling = |slot: usize| Filling { slot: slot as u32, bytes: bytes[slot] as u32 };
        Ok(Fullest(fullest_of(&bytes).into_iter().map(filling).collect()))
    }

    /// The writer, for a buffer of this length: the image, which the buffer begins with afterwards. "After writing, the state is parked"; a refusal parks nothing.
    pub fn park_sound(&mut self, room: usize) -> Result<Vec<u8>, Refusal> {
        self.going()?;
        let image = image::image_of(self);
        if room < image.len() {
            return Err(Refusal::ShortBuffer);
        }
        self.mark = PARKED;
        Ok(image)
    }

    /// The reader: the state of an image, whatever was before. "15 for an image that isn't exactly one sound state's"; the 10 is for the memory's length.
    pub fn unpark(image: &[u8]) -> Result<Scheduler, Refusal> {
        image::read(image).ok_or(Refusal::BadImage)
    }

    /// "their use is the sum, over all channels, of records waiting beyond two": counted over all channels at once, as all records that wait, less each first
    /// one and each second one.
    pub fn shared_in_use(&self) -> usize {
        let waiting = || self.channels.iter().map(|channel| channel.records.len());
        let have_one_at = |place: usize| waiting().filter(|&count| count > place).count();
        waiting().sum::<usize>() - (0..KEPT).map(have_one_at).sum::<usize>()
    }

    /// Each channel's bytes waiting.
    pub fn bytes_waiting(&self) -> Vec<u64> {
        self.channels.iter().map(Channel::bytes_waiting).collect()
    }

    /// The slot of a held channel whose present ticket this is.
    fn look_up(&self, slot: u32, ticket: u32) -> Result<usize, Refusal> {
        let slot = slot as usize;
        if slot >= SLOTS {
            return Err(Refusal::NoSlot);
        }
        let channel = &self.channels[slot];
        if channel.kind == Kind::Free || channel.ticket != u64::from(ticket) {
            return Err(Refusal::NotPresent);
        }
        Ok(slot)
    }
}
