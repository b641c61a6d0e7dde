//! Frames on their way to the office, and the office that takes them.

use std::fmt;

use crate::answers::{Contents, Taken};
use crate::entries::{office_start, office_take, uplink_frame, uplink_unframe};
use crate::memory::{accepted, field};
use crate::refusal::Refusal;

/// How many bytes of a frame stand before its record.
pub const FRAMING: usize = 10;

/// How many bytes the longest frame has.
pub const LONGEST_FRAME: usize = 1_024;

/// Writes the frame of a record to the beginning of the buffer, whose other bytes stay, and answers its length. No frame is longer than [`LONGEST_FRAME`].
pub fn frame(slot: u32, ticket: u32, serial: u16, record: &[u8], frame: &mut [u8]) -> Result<usize, Refusal> {
    let mut answer = [0; 4];
    let (bytes, length) = (record.as_ptr(), record.len());
    let (buffer, room) = (frame.as_mut_ptr(), frame.len());
    let number = unsafe { uplink_frame(slot, ticket, serial, bytes, length, buffer, room, answer.as_mut_ptr(), answer.len()) };
    accepted(number, field(&answer, 0) as usize)
}

/// What a frame, all of these bytes, says.
pub fn unframe(frame: &[u8]) -> Result<Contents<'_>, Refusal> {
    let mut answer = [0; 16];
    let number = unsafe { uplink_unframe(frame.as_ptr(), frame.len(), answer.as_mut_ptr(), answer.len()) };
    accepted(number, contents(frame, &answer))
}

/// The first four fields of an answer, with the record where it stands in the frame.
fn contents<'a>(frame: &'a [u8], answer: &[u8]) -> Contents<'a> {
    let record = frame.get(FRAMING..).unwrap_or_default();
    Contents { slot: field(answer, 0), ticket: field(answer, 1), serial: field(answer, 2) as u16, record }
}

/// The memory of one office: which frames it expects. Any bytes may stand in it: what is unsound is refused.
#[derive(Clone, PartialEq, Eq)]
pub struct Office([u8; Office::LENGTH]);

/// Each call below lends an entry slices of its own that cannot overlap, with their true lengths.
impl Office {
    /// How many bytes it has.
    pub const LENGTH: usize = 384;

    /// One that has heard nothing.
    pub fn new() -> Office {
        let mut office = Office([0; Office::LENGTH]);
        office.start();
        office
    }

    /// Bytes kept from before, sound or not.
    pub fn from_bytes(bytes: [u8; Office::LENGTH]) -> Office {
        Office(bytes)
    }

    pub fn bytes(&self) -> &[u8; Office::LENGTH] {
        &self.0
    }

    /// Forgets whatever stands here.
    pub fn start(&mut self) {
        // Only another length is refused.
        unsafe { office_start(self.0.as_mut_ptr(), Office::LENGTH) };
    }

    /// Takes a frame, all of these bytes: what it says, and how many were lost before it. A refusal and a late repeat keep every byte.
    pub fn take<'a>(&mut self, frame: &'a [u8]) -> Result<Taken<'a>, Refusal> {
        let mut answer = [0; 24];
        let (office, length) = (self.0.as_mut_ptr(), Office::LENGTH);
        let number = unsafe { office_take(office, length, frame.as_ptr(), frame.len(), answer.as_mut_ptr(), answer.len()) };
        let lost = if field(&answer, 5) == 1 { None } else { Some(field(&answer, 4)) };
        accepted(number, Taken { contents: contents(frame, &answer), lost })
    }
}

impl Default for Office {
    fn default() -> Office {
        Office::new()
    }
}

/// Its length, not its bytes.
impl fmt::Debug for Office {
    fn fmt(&self, out: &mut fmt::Formatter) -> fmt::Result {
        out.debug_struct("Office").field("length", &Office::LENGTH).finish_non_exhaustive()
    }
}
