//! The parked image (document 02, §6), written from and read into the independent scheduler: big-endian, the fields in the document's order.
//!
//! The reader goes field by field and refuses at the first that no image has. What it has read must be sound, and the writer must give the same bytes for it.

use std::collections::BTreeSet;

use crate::scheduler::{Channel, Kind, Record, Scan, Scheduler, GOING, SLOTS};

/// "version byte 1"
pub const VERSION: u8 = 1;
/// "the slot in visit or 255"
pub const NO_VISIT: u8 = 255;
/// The longest image: 512 records, and every slot a row.
pub const LONGEST_IMAGE: usize = 3_924;
/// The version and the length of what follows.
pub const HEAD: usize = 5;

/// The image of a sound state; the mark is not in it.
pub fn image_of(scheduler: &Scheduler) -> Vec<u8> {
    let scan = &scheduler.scan;
    let mut rest = vec![scheduler.edition as u8, scheduler.order as u8];
    rest.extend((scan.position as u16).to_be_bytes());
    rest.push(scan.column as u8);
    let to_visit: u64 = scan.to_visit.iter().map(|&slot| 1 << slot).sum();
    rest.extend(to_visit.to_be_bytes());
    rest.push(scan.visit.map_or(NO_VISIT, |slot| slot as u8));
    rest.push(scheduler.rows.len() as u8);
    rest.extend(scheduler.rows.iter().map(|&slot| slot as u8));
    for channel in &scheduler.channels {
        write_channel(channel, &mut rest);
    }
    let mut image = vec![VERSION];
    image.extend((rest.len() as u32).to_be_bytes());
    image.extend(rest);
    image
}

/// "kind (0 free, 1 open, 2 closing), ticket (4 bytes), weight, deficit, next serial (2 each), number of records, and each record's length (2) and reference (4)"
fn write_channel(channel: &Channel, out: &mut Vec<u8>) {
    out.push(match channel.kind {
        Kind::Free => 0,
        Kind::Open => 1,
        Kind::Closing => 2,
    });
    out.extend((channel.ticket as u32).to_be_bytes());
    for number in [channel.weight, channel.deficit, channel.next_serial] {
        out.extend((number as u16).to_be_bytes());
    }
    out.push(channel.records.len() as u8);
    for record in &channel.records {
        out.extend((record.length as u16).to_be_bytes());
        out.extend((record.reference as u32).to_be_bytes());
    }
}

/// The state of an image, if these bytes are exactly one sound state's. It is not parked.
pub fn read(image: &[u8]) -> Option<Scheduler> {
    let mut bytes = Bytes(image);
    if bytes.number(1)? != u64::from(VERSION) || bytes.number(4)? != bytes.0.len() as u64 {
        return None;
    }
    let (edition, order, position, column) = (bytes.number(1)?, bytes.number(1)?, bytes.number(2)?, bytes.number(1)?);
    let mask = bytes.number(8)?;
    let to_visit: BTreeSet<usize> = (0..SLOTS).filter(|slot| mask >> slot & 1 == 1).collect();
    let visit = match bytes.number(1)? {
        255 => None,
        slot => Some(slot as usize),
    };
    let count = bytes.number(1)?;
    let rows = (0..count).map(|_| bytes.number(1).map(|slot| slot as usize)).collect::<Option<Vec<_>>>()?;
    let channels = (0..SLOTS).map(|_| bytes.channel()).collect::<Option<Vec<_>>>()?;
    let scheduler = Scheduler { channels, rows, order, scan: Scan { position, column, to_visit, visit }, edition, mark: GOING };
    (bytes.0.is_empty() && scheduler.sound() && image_of(&scheduler) == image).then_some(scheduler)
}

/// What is left to read.
struct Bytes<'a>(&'a [u8]);

impl Bytes<'_> {
    /// The number in so many bytes, highest first; none where fewer are left.
    fn number(&mut self, width: usize) -> Option<u64> {
        let (now, rest) = self.0.split_at_checked(width)?;
        self.0 = rest;
        Some(now.iter().fold(0, |number, &byte| number << 8 | u64::from(byte)))
    }

    fn channel(&mut self) -> Option<Channel> {
        let kind = match self.number(1)? {
            0 => Kind::Free,
            1 => Kind::Open,
            2 => Kind::Closing,
            _ => return None,
        };
        let (ticket, weight, deficit, next_serial) = (self.number(4)?, self.number(2)?, self.number(2)?, self.number(2)?);
        let count = self.number(1)?;
        let records = (0..count).map(|_| self.record()).collect::<Option<_>>()?;
        Some(Channel { kind, ticket, weight, deficit, next_serial, records })
    }

    fn record(&mut self) -> Option<Record> {
        Some(Record { length: self.number(2)?, reference: self.number(4)? })
    }
}
