//! The office (document 02, §14), written from the document over a map: "Per slot and ticket the office keeps the serial it expects, 0 at first." Its lent memory
//! (docs/LAYOUT.md) is written from and read into it.

use std::collections::BTreeMap;

use crate::answers::{Refusal, Taken};
use crate::frame;
use crate::scheduler::{SERIALS, SLOTS};

/// The bytes of its memory: four lines of a byte for each slot for the tickets and two for the serials.
pub const LENGTH: usize = 6 * SLOTS;
/// "Below 32,768 it is that many lost"
pub const LATE_FROM: u64 = 32_768;

/// What is held of a slot that was heard: its highest ticket and the serial expected under it.
#[derive(Clone, Copy, Debug, PartialEq, Eq)]
pub struct Held {
    pub ticket: u32,
    pub expected: u16,
}

/// The slots that were heard.
#[derive(Clone, Debug, Default, PartialEq, Eq)]
pub struct Office(pub BTreeMap<u32, Held>);

/// "The serial received minus the expected one, modulo 65,536, is the gap."
pub fn gap(received: u16, expected: u16) -> u64 {
    (u64::from(received) + SERIALS - u64::from(expected)) % SERIALS
}

impl Office {
    /// One that has heard nothing.
    pub fn fresh() -> Office {
        Office::default()
    }

    /// A frame arrives: "20 for a frame that ..", and then nothing is changed.
    pub fn take(&mut self, bytes: &[u8]) -> Result<Taken, Refusal> {
        let contents = frame::read(bytes)?.contents();
        let lost = self.hear(contents.slot, contents.ticket, contents.serial);
        Ok(Taken { contents, lost: lost.unwrap_or(0), late: lost.is_none() })
    }

    /// How many were lost before this serial, or none for a late repeat, which changes nothing.
    pub fn hear(&mut self, slot: u32, ticket: u32, serial: u16) -> Option<u32> {
        let expected = match self.0.get(&slot) {
            // "A ticket above the one held replaces it with expected serial 0; a lower one is a late repeat."
            Some(held) if ticket < held.ticket => return None,
            Some(held) if ticket == held.ticket => held.expected,
            _ => 0,
        };
        let gap = gap(serial, expected);
        if gap >= LATE_FROM {
            return None;
        }
        // "and the next expected is one after the received"
        self.0.insert(slot, Held { ticket, expected: ((u64::from(serial) + 1) % SERIALS) as u16 });
        Some(gap as u32)
    }

    /// Its memory: byte j of slot s's ticket at 64 j + s, of its serial at 256 + 64 j + s, the lowest byte first; zeros for a slot that was not heard.
    pub fn to_bytes(&self) -> Vec<u8> {
        let mut bytes = vec![0; LENGTH];
        for (&slot, held) in &self.0 {
            let numbers = held.ticket.to_le_bytes().into_iter().chain(held.expected.to_le_bytes());
            for (line, byte) in numbers.enumerate() {
                bytes[SLOTS * line + slot as usize] = byte;
            }
        }
        bytes
    }

    /// The office of a memory; none where it is no sound one's: another length, or a serial expected of a slot that was not heard.
    pub fn from_bytes(bytes: &[u8]) -> Option<Office> {
        if bytes.len() != LENGTH {
            return None;
        }
        let mut office = Office::fresh();
        for slot in 0..SLOTS {
            let byte = |line: usize| bytes[SLOTS * line + slot];
            let ticket = u32::from_le_bytes([byte(0), byte(1), byte(2), byte(3)]);
            let expected = u16::from_le_bytes([byte(4), byte(5)]);
            if ticket != 0 {
                office.0.insert(slot as u32, Held { ticket, expected });
            } else if expected != 0 {
                return None;
            }
        }
        Some(office)
    }
}
