//! The uplink frame (document 02, §14), written from the document: "version byte 1, two bytes for the length of what follows, slot, ticket, serial (1, 4 and 2
//! bytes), then the record, big-endian".

use crate::answers::{Contents, Refusal};
use crate::scheduler::{LONGEST, SLOTS};

/// "version byte 1"
pub const VERSION: u8 = 1;
/// The bytes before the record: 1, 2, 1, 4 and 2.
pub const HEAD: usize = 10;
/// The bytes that the length counts before the record: slot, ticket, serial.
pub const COUNTED: usize = 7;
pub const LONGEST_FRAME: usize = HEAD + LONGEST as usize;

/// A record with what its frame says of it.
#[derive(Clone, Debug, PartialEq, Eq)]
pub struct Frame {
    pub slot: u32,
    pub ticket: u32,
    pub serial: u16,
    pub record: Vec<u8>,
}

impl Frame {
    /// "slot above 63, ticket 0 or a record of length outside 1 to 1,014"
    fn is_good(&self) -> bool {
        (self.slot as usize) < SLOTS && self.ticket != 0 && (1..=LONGEST as usize).contains(&self.record.len())
    }

    /// The frame's bytes. They say what the frame says where the slot fits its byte and the length its two.
    pub fn bytes(&self) -> Vec<u8> {
        let mut bytes = vec![VERSION];
        bytes.extend(((COUNTED + self.record.len()) as u16).to_be_bytes());
        bytes.push(self.slot as u8);
        bytes.extend(self.ticket.to_be_bytes());
        bytes.extend(self.serial.to_be_bytes());
        bytes.extend(&self.record);
        bytes
    }

    /// What the reader answers of it.
    pub fn contents(&self) -> Contents {
        Contents { slot: self.slot, ticket: self.ticket, serial: self.serial, length: self.record.len() as u32 }
    }
}

/// The writer, for a buffer of this length: the bytes that it begins with afterwards. "the writer gives [20] for the last three, then 16 for a buffer too short".
pub fn write(frame: &Frame, room: usize) -> Result<Vec<u8>, Refusal> {
    if !frame.is_good() {
        return Err(Refusal::BadFrame);
    }
    let bytes = frame.bytes();
    if room < bytes.len() {
        return Err(Refusal::ShortBuffer);
    }
    Ok(bytes)
}

/// The reader: "20 for a frame that is cut short or has bytes left over, of another version, or with slot above 63, ticket 0 or a record of length outside 1 to
/// 1,014".
pub fn read(bytes: &[u8]) -> Result<Frame, Refusal> {
    parsed(bytes).filter(Frame::is_good).ok_or(Refusal::BadFrame)
}

/// What the bytes say, part by part, if they are of this version and the length is theirs.
fn parsed(bytes: &[u8]) -> Option<Frame> {
    let (version, rest) = part::<1>(bytes)?;
    let (length, rest) = part::<2>(rest)?;
    if version != [VERSION] || usize::from(u16::from_be_bytes(length)) != rest.len() {
        return None;
    }
    let (slot, rest) = part::<1>(rest)?;
    let (ticket, rest) = part::<4>(rest)?;
    let (serial, record) = part::<2>(rest)?;
    let (ticket, serial) = (u32::from_be_bytes(ticket), u16::from_be_bytes(serial));
    Some(Frame { slot: u32::from(slot[0]), ticket, serial, record: record.to_vec() })
}

/// The first N bytes, and the rest.
fn part<const N: usize>(bytes: &[u8]) -> Option<([u8; N], &[u8])> {
    let (first, rest) = bytes.split_first_chunk::<N>()?;
    Some((*first, rest))
}
