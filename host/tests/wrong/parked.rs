//! The slips of parked queues: in the writer and the reader, in the mark, and in the image that both take for the right one.

use host::answers::Refusal;
use host::engine::Engine;
use host::image::{image_of, read, HEAD, NO_VISIT, VERSION};
use host::layout::{self, LENGTH, MARK};
use host::model::{on, Model};
use host::scheduler::{Scheduler, GOING, PARKED};

use super::{Slip, Wrong};

/// Where fields stand in an image.
const MASK: std::ops::Range<usize> = 10..18;
const VISIT: usize = 18;
const ROW_COUNT: usize = 19;
/// Bytes of a slot's entry ahead of its records, and of a record.
const ENTRY: usize = 12;
const RECORD: usize = 6;

impl Wrong {
    pub fn park_call(&self, state: &mut [u8], image: &mut [u8], answer: &mut [u8]) -> u32 {
        let Some(before) = layout::sound_from_bytes(state).filter(|_| answer.len() == 4) else {
            return Model.park(state, image, answer);
        };
        let (room, right) = (image.len(), image_of(&before));
        let needed = match self.0 {
            Slip::OneByteFewerRefused => right.len() + 1,
            Slip::OneByteMoreTaken => right.len() - 1,
            _ => right.len(),
        };
        if self.is(Slip::OtherBytesCleared) && before.mark == GOING && room >= right.len() {
            image.fill(0);
        }
        let mut written = Vec::new();
        let number = on(state, answer, 4, |scheduler| {
            let checks =
                [(scheduler.mark == PARKED && !self.is(Slip::ParkedTwice), Refusal::Parked), (room < needed, Refusal::ShortBuffer)];
            let first = checks.into_iter().filter(|(refused, _)| *refused).map(|(_, refusal)| refusal);
            let refusal = if self.is(Slip::SixteenBeforeFourteen) { first.last() } else { { first }.next() };
            if let Some(refusal) = refusal {
                return Err(refusal);
            }
            written = self.another(right.clone());
            scheduler.mark = if self.is(Slip::ParkedNotSet) { GOING } else { PARKED };
            Ok(host::answers::Written { length: if self.is(Slip::RoomAnswered) { room } else { written.len() } as u32 })
        });
        if number == Refusal::ShortBuffer.number() {
            match self.0 {
                Slip::ParkedOnTooShort => state[MARK.start] = 1,
                Slip::WrittenOnTooShort => image.copy_from_slice(&right[..room]),
                _ => {}
            }
        }
        let end = written.len().min(room);
        image[..end].copy_from_slice(&written[..end]);
        number
    }

    pub fn unpark_call(&self, state: &mut [u8], image: &mut [u8]) -> u32 {
        let found = self.found(image);
        if state.len() != LENGTH {
            let first = self.is(Slip::FifteenBeforeTen) && found.is_none();
            return if first { Refusal::BadImage } else { Refusal::Unsound }.number();
        }
        match self.0 {
            Slip::ReadIntoUnsoundRefused if !layout::is_sound_memory(state) => return Refusal::Unsound.number(),
            Slip::ReadIntoParkedRefused if state[MARK.start] == 1 => return Refusal::Parked.number(),
            _ => {}
        }
        let mark = if self.is(Slip::ParkedCarriedOver) && state[MARK.start] == 1 { PARKED } else { GOING };
        match found {
            Some(scheduler) => {
                layout::write(&Scheduler { mark, ..scheduler }, state);
                0
            }
            None => {
                if self.is(Slip::WrittenBeforeRefusal) && image.first() == Some(&VERSION) {
                    layout::write(&Scheduler::fresh(1), state);
                }
                Refusal::BadImage.number()
            }
        }
    }

    /// The state that the reader finds in these bytes.
    fn found(&self, image: &[u8]) -> Option<Scheduler> {
        let mut bytes = self.another(image.to_vec());
        if bytes.len() < HEAD {
            return None;
        }
        match self.0 {
            // The length of what follows is right, and a byte stands behind.
            Slip::TrailingByteTaken => {
                let length = HEAD + u32::from_be_bytes(bytes[1..HEAD].try_into().unwrap()) as usize;
                if length + 1 == bytes.len() {
                    bytes.truncate(length);
                }
            }
            Slip::VersionIgnored => bytes[0] = VERSION,
            Slip::LengthIgnored => {
                let length = (bytes.len() - HEAD) as u32;
                bytes[1..HEAD].copy_from_slice(&length.to_be_bytes());
            }
            Slip::NoVisitZero if bytes.get(VISIT) == Some(&0) => bytes[VISIT] = NO_VISIT,
            // The order is not held against the rows': the right one is put in its place.
            Slip::UnsoundRead => {
                return read(&bytes).or_else(|| {
                    (0..=12).find_map(|order| {
                        let mut mended = bytes.clone();
                        *mended.get_mut(HEAD + 1)? = order;
                        let state = read(&mended)?;
                        Some(Scheduler { order: u64::from(bytes[HEAD + 1]), ..state })
                    })
                });
            }
            _ => {}
        }
        read(&bytes)
    }

    /// The right image as the slip has it, and the other way round.
    fn another(&self, mut image: Vec<u8>) -> Vec<u8> {
        if image.len() <= ROW_COUNT {
            return image;
        }
        match self.0 {
            Slip::MaskTurned => image[MASK].reverse(),
            Slip::NoVisitZero if image[VISIT] == NO_VISIT => image[VISIT] = 0,
            Slip::LengthOfAll => {
                let length = u32::from_be_bytes(image[1..HEAD].try_into().unwrap());
                let turned = (2 * image.len() as u32).wrapping_sub(HEAD as u32).wrapping_sub(length);
                image[1..HEAD].copy_from_slice(&turned.to_be_bytes());
            }
            Slip::RowsSorted => {
                let end = (ROW_COUNT + 1 + usize::from(image[ROW_COUNT])).min(image.len());
                image[ROW_COUNT + 1..end].sort_unstable();
            }
            Slip::TicketLittleEndian => each_entry(&mut image, |entry| entry[1..5].reverse()),
            Slip::SerialLeftOut => each_entry(&mut image, |entry| entry[9..11].fill(0)),
            _ => {}
        }
        image
    }
}

/// Every slot's entry that is there.
fn each_entry(image: &mut [u8], change: impl Fn(&mut [u8])) {
    let mut at = ROW_COUNT + 1 + usize::from(image[ROW_COUNT]);
    while at + ENTRY <= image.len() {
        change(&mut image[at..at + ENTRY]);
        at += ENTRY + RECORD * usize::from(image[at + ENTRY - 1]);
    }
}
