//! A memory and the calls on it, and the three calls that take none.
//!
//! The fields of an answer come back in a buffer, 4 bytes each, lowest first; lead's one field has 8, two's complement.

use std::fmt;

use crate::answers::{Added, Closed, Filling, Opened, Sent, Sheet, Standing, Told};
use crate::entries::{
    uplink_ask, uplink_close, uplink_fullest, uplink_lead, uplink_next, uplink_open, uplink_park, uplink_put, uplink_sheet, uplink_start,
    uplink_term, uplink_unpark,
};
use crate::refusal::Refusal;

/// The rule that the order follows when a row leaves. A memory keeps it from one start to the next.
#[derive(Clone, Copy, Debug, PartialEq, Eq, Hash)]
pub enum Edition {
    /// The order falls at once, and the position with it.
    One = 1,
    /// The order is held until the round ends, so that a light channel's turn comes however often a heavy one empties and refills.
    Two = 2,
}

/// The memory of one scheduler. Any bytes may stand in it: what is unsound is refused.
#[derive(Clone, PartialEq, Eq)]
pub struct Memory([u8; Memory::LENGTH]);

/// Each call below lends an entry slices of its own, a memory and an answer that cannot overlap, with their true lengths.
impl Memory {
    /// How many bytes it has.
    pub const LENGTH: usize = 4_102;

    /// How many bytes the longest image has.
    pub const IMAGE_LENGTH: usize = 3_924;

    /// How many channels are in the list of the fullest at the most.
    pub const LISTED: usize = 5;

    /// The fresh state of an edition.
    pub fn new(edition: Edition) -> Memory {
        let mut memory = Memory([0; Memory::LENGTH]);
        memory.start(edition);
        memory
    }

    /// Bytes kept from before, sound or not.
    pub fn from_bytes(bytes: [u8; Memory::LENGTH]) -> Memory {
        Memory(bytes)
    }

    pub fn bytes(&self) -> &[u8; Memory::LENGTH] {
        &self.0
    }

    /// Whether the memory is sound, parked or not. Any other is refused with [`Refusal::Unsound`] until it is started or an image is read into it.
    pub fn is_sound(&self) -> bool {
        // No slot is that high: a sound memory refuses it for that, after the check.
        self.ask(u32::MAX, 0) != Err(Refusal::Unsound)
    }

    /// Whether the memory is a parked state. It takes only [`Memory::start`] and [`Memory::unpark`].
    pub fn is_parked(&self) -> bool {
        self.ask(u32::MAX, 0) == Err(Refusal::Parked)
    }

    /// Writes the fresh state of an edition over whatever stands here.
    pub fn start(&mut self, edition: Edition) {
        // Only another length and another edition are refused.
        unsafe { uplink_start(self.0.as_mut_ptr(), Memory::LENGTH, edition as u32) };
    }

    /// Opens a channel of this weight in the lowest slot that can be opened.
    pub fn open(&mut self, weight: u32) -> Result<Opened, Refusal> {
        let mut answer = [0; 8];
        let number = unsafe { uplink_open(self.0.as_mut_ptr(), Memory::LENGTH, weight, answer.as_mut_ptr(), answer.len()) };
        accepted(number, Opened { slot: field(&answer, 0), ticket: field(&answer, 1) })
    }

    /// Adds a record at the end of the channel's waiting ones. Its length does not count the 10 bytes of framing that it costs the channel beside.
    pub fn put(&mut self, slot: u32, ticket: u32, length: u32, reference: u32) -> Result<Added, Refusal> {
        let mut answer = [0; 8];
        let state = self.0.as_mut_ptr();
        let number = unsafe { uplink_put(state, Memory::LENGTH, slot, ticket, length, reference, answer.as_mut_ptr(), answer.len()) };
        accepted(number, Added { serial: field(&answer, 0), waiting: field(&answer, 1) })
    }

    /// Frees the channel, at once or with its last record.
    pub fn close(&mut self, slot: u32, ticket: u32) -> Result<Closed, Refusal> {
        let mut answer = [0; 4];
        let number = unsafe { uplink_close(self.0.as_mut_ptr(), Memory::LENGTH, slot, ticket, answer.as_mut_ptr(), answer.len()) };
        accepted(number, if field(&answer, 0) == 1 { Closed::Freed } else { Closed::Draining })
    }

    /// Sends the next record: its length and reference are answered, and it waits no longer.
    #[allow(clippy::should_implement_trait)]
    pub fn next(&mut self) -> Result<Sent, Refusal> {
        let mut answer = [0; 28];
        let number = unsafe { uplink_next(self.0.as_mut_ptr(), Memory::LENGTH, answer.as_mut_ptr(), answer.len()) };
        let sent = Sent {
            slot: field(&answer, 0),
            ticket: field(&answer, 1),
            length: field(&answer, 2),
            reference: field(&answer, 3),
            serial: field(&answer, 4),
            started: field(&answer, 5) == 1,
            terms: field(&answer, 6),
        };
        accepted(number, sent)
    }

    /// What the state holds for a channel.
    pub fn ask(&self, slot: u32, ticket: u32) -> Result<Told, Refusal> {
        let mut answer = [0; 20];
        let number = unsafe { uplink_ask(self.0.as_ptr(), Memory::LENGTH, slot, ticket, answer.as_mut_ptr(), answer.len()) };
        let standing = if field(&answer, 0) == 2 { Standing::Closing } else { Standing::Open };
        let told =
            Told { standing, weight: field(&answer, 1), deficit: field(&answer, 2), waiting: field(&answer, 3), bytes: field(&answer, 4) };
        accepted(number, told)
    }

    /// The fullest channels, [`Memory::LISTED`] at the most: most bytes first, the lower slot first where two have as many, and none without a record.
    pub fn fullest(&self) -> Result<Vec<Filling>, Refusal> {
        let mut answer = [0; 44];
        let number = unsafe { uplink_fullest(self.0.as_ptr(), Memory::LENGTH, answer.as_mut_ptr(), answer.len()) };
        let filling = |place: usize| Filling { slot: field(&answer, 1 + 2 * place), bytes: field(&answer, 2 + 2 * place) };
        accepted(number, (0..Memory::LISTED).take(field(&answer, 0) as usize).map(filling).collect())
    }

    /// Parks the state: its image stands at the beginning of the buffer, whose other bytes stay, and its length is answered. No image is longer than
    /// [`Memory::IMAGE_LENGTH`].
    pub fn park(&mut self, image: &mut [u8]) -> Result<usize, Refusal> {
        let mut answer = [0; 4];
        let state = self.0.as_mut_ptr();
        let number = unsafe { uplink_park(state, Memory::LENGTH, image.as_mut_ptr(), image.len(), answer.as_mut_ptr(), answer.len()) };
        accepted(number, field(&answer, 0) as usize)
    }

    /// Reads an image, all of these bytes, over whatever stands here. A refusal keeps every byte.
    pub fn unpark(&mut self, image: &[u8]) -> Result<(), Refusal> {
        let number = unsafe { uplink_unpark(self.0.as_mut_ptr(), Memory::LENGTH, image.as_ptr(), image.len()) };
        accepted(number, ())
    }
}

/// Its length and whether it is sound, not its bytes.
impl fmt::Debug for Memory {
    fn fmt(&self, out: &mut fmt::Formatter) -> fmt::Result {
        out.debug_struct("Memory").field("length", &Memory::LENGTH).field("sound", &self.is_sound()).finish_non_exhaustive()
    }
}

/// The signed lead w1·v2 - w2·v1 of two weights and visit counts: positive where the second has had more visits for its weight than the first, negative
/// where it has had fewer.
pub fn lead(w1: u32, v1: u32, w2: u32, v2: u32) -> Result<i64, Refusal> {
    let mut answer = [0; 8];
    let number = unsafe { uplink_lead(w1, v1, w2, v2, answer.as_mut_ptr(), answer.len()) };
    accepted(number, i64::from_le_bytes(answer))
}

/// The term of the spread sequence of this order at this position.
pub fn term(order: u32, position: u32) -> Result<u32, Refusal> {
    let mut answer = [0; 4];
    let number = unsafe { uplink_term(order, position, answer.as_mut_ptr(), answer.len()) };
    accepted(number, field(&answer, 0))
}

/// Whether a list of rows is the visits of one round with every row always waiting, for rows of these weights in joining order. Rows are counted from 0; up to 64
/// weights of 1 to 4,095 are taken.
pub fn sheet(weights: &[u32], rows: &[u32]) -> Result<Sheet, Refusal> {
    let mut answer = [0; 8];
    let (ws, rs) = (weights.as_ptr(), rows.as_ptr());
    let number = unsafe { uplink_sheet(ws, weights.len(), rs, rows.len(), answer.as_mut_ptr(), answer.len()) };
    accepted(number, if field(&answer, 0) == 1 { Sheet::Right } else { Sheet::WrongAt(field(&answer, 1)) })
}

/// The answer of an accepted call. The entries give no number outside the table; one that did could not be trusted, so it reads as 10.
fn accepted<A>(number: u32, answer: A) -> Result<A, Refusal> {
    match number {
        0 => Ok(answer),
        _ => Err(Refusal::from_number(number).unwrap_or(Refusal::Unsound)),
    }
}

/// A field of an answer buffer: 4 bytes, lowest first.
fn field(answer: &[u8], number: usize) -> u32 {
    answer.iter().skip(4 * number).take(4).rev().fold(0, |value, &byte| value << 8 | u32::from(byte))
}
