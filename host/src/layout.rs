//! The lent memory: 4,102 bytes, as docs/LAYOUT.md gives them. Cells are the places of one run of records, slot after slot and oldest first, so that
//! a sound state has one memory. Behind the records stand the notes of how full the channels are.
//!
//! The writer goes by the table of fields, the reader by lines of 64 bytes, so that a slip in one shows against the other.

use crate::notes::Notes;
use crate::scheduler::{Channel, Kind, Record, Scan, Scheduler, LISTED, SLOTS};

/// "byte j of lane i of a field" stands at start + lanes * j + i.
pub struct Field {
    pub name: &'static str,
    pub start: usize,
    pub lanes: usize,
    /// Bytes a lane, so many lines of bytes too.
    pub width: usize,
}

/// A slot's fields and the rows take whole lines.
const LINE: usize = SLOTS;

pub const ROWS: Field = Field { name: "rows", start: 0, lanes: SLOTS, width: 1 };
pub const KIND: Field = ROWS.then("kind", SLOTS, 1);
pub const WAITING: Field = KIND.then("waiting", SLOTS, 1);
pub const TICKET: Field = WAITING.then("ticket", SLOTS, 4);
pub const WEIGHT: Field = TICKET.then("weight", SLOTS, 2);
pub const DEFICIT: Field = WEIGHT.then("deficit", SLOTS, 2);
pub const NEXT_SERIAL: Field = DEFICIT.then("next serial", SLOTS, 2);
pub const ROW_COUNT: Field = NEXT_SERIAL.then("number of rows", 1, 1);
pub const ORDER: Field = ROW_COUNT.then("order", 1, 1);
pub const POSITION: Field = ORDER.then("position", 1, 2);
pub const COLUMN: Field = POSITION.then("column", 1, 1);
pub const TO_VISIT: Field = COLUMN.then("slots to visit", 1, 8);
pub const VISIT: Field = TO_VISIT.then("visit", 1, 1);
pub const EDITION: Field = VISIT.then("edition", 1, 1);
pub const MARK: Field = EDITION.then("parked", 1, 1);
/// What is left of the scan point's line.
pub const NOTHING: Field = MARK.then("nothing", LINE - MARK.end() % LINE, 1);
pub const LENGTHS: Field = NOTHING.then("length", CELLS, 2);
pub const REFERENCES: Field = LENGTHS.then("reference", CELLS, 4);
pub const BYTES: Field = REFERENCES.then("bytes waiting", SLOTS, 2);
pub const LIST_COUNT: Field = BYTES.then("number listed", 1, 1);
pub const LIST: Field = LIST_COUNT.then("fullest", LISTED, 1);

/// "Hold all records in 512 shared cells"
pub const CELLS: usize = 512;
pub const LENGTH: usize = LIST.end();

/// Every field, in the order of their places: together they are the whole memory.
pub const FIELDS: [&Field; 21] = [
    &ROWS,
    &KIND,
    &WAITING,
    &TICKET,
    &WEIGHT,
    &DEFICIT,
    &NEXT_SERIAL,
    &ROW_COUNT,
    &ORDER,
    &POSITION,
    &COLUMN,
    &TO_VISIT,
    &VISIT,
    &EDITION,
    &MARK,
    &NOTHING,
    &LENGTHS,
    &REFERENCES,
    &BYTES,
    &LIST_COUNT,
    &LIST,
];

impl Field {
    /// The field that stands behind this one.
    const fn then(&self, name: &'static str, lanes: usize, width: usize) -> Field {
        Field { name, start: self.end(), lanes, width }
    }

    /// How many bytes of the memory it takes.
    pub const fn length(&self) -> usize {
        self.lanes * self.width
    }

    /// The first place behind it.
    pub const fn end(&self) -> usize {
        self.start + self.length()
    }

    /// Where a byte of a lane stands.
    pub const fn at(&self, lane: usize, byte: usize) -> usize {
        self.start + self.lanes * byte + lane
    }

    /// All its places.
    pub const fn places(&self) -> std::ops::Range<usize> {
        self.start..self.end()
    }

    /// Writes the number's lowest bytes; a lane that the field does not have is left out.
    fn write(&self, bytes: &mut [u8], lane: usize, number: u64) {
        if lane < self.lanes {
            for j in 0..self.width {
                bytes[self.at(lane, j)] = (number >> (8 * j)) as u8;
            }
        }
    }
}

/// What stands at a place of the memory, in words.
pub fn name_of(place: usize) -> String {
    for field in FIELDS {
        if field.places().contains(&place) {
            let (byte, lane) = ((place - field.start) / field.lanes, (place - field.start) % field.lanes);
            return format!("{}, lane {lane}, byte {byte}", field.name);
        }
    }
    "outside the memory".to_string()
}

/// The memory that Start leaves in this edition.
pub fn fresh(edition: u64) -> Vec<u8> {
    to_bytes(&Scheduler::fresh(edition))
}

/// The memory of a state.
pub fn to_bytes(scheduler: &Scheduler) -> Vec<u8> {
    let mut bytes = vec![0; LENGTH];
    write(scheduler, &mut bytes);
    bytes
}

/// Writes the memory of a state over as many bytes of any content.
pub fn write(scheduler: &Scheduler, bytes: &mut [u8]) {
    write_with(scheduler, &Notes::of(scheduler), bytes);
}

/// The memory of a state with these notes, right or not.
pub fn with_notes(scheduler: &Scheduler, notes: &Notes) -> Vec<u8> {
    let mut bytes = vec![0; LENGTH];
    write_with(scheduler, notes, &mut bytes);
    bytes
}

fn write_with(scheduler: &Scheduler, notes: &Notes, bytes: &mut [u8]) {
    bytes.fill(0);
    let mut cell = 0;
    for (slot, channel) in scheduler.channels.iter().enumerate() {
        write_channel(channel, slot, bytes);
        for record in &channel.records {
            LENGTHS.write(bytes, cell, record.length);
            REFERENCES.write(bytes, cell, record.reference);
            cell += 1;
        }
    }
    for (lane, &slot) in scheduler.rows.iter().enumerate() {
        ROWS.write(bytes, lane, slot as u64);
    }
    ROW_COUNT.write(bytes, 0, scheduler.rows.len() as u64);
    ORDER.write(bytes, 0, scheduler.order);
    let scan = &scheduler.scan;
    POSITION.write(bytes, 0, scan.position);
    COLUMN.write(bytes, 0, scan.column);
    TO_VISIT.write(bytes, 0, scan.to_visit.iter().fold(0, |mask, &slot| mask | 1 << (slot % SLOTS)));
    VISIT.write(bytes, 0, scan.visit.map_or(0, |slot| slot as u64 + 1));
    EDITION.write(bytes, 0, scheduler.edition);
    MARK.write(bytes, 0, scheduler.mark);
    for (slot, &waiting) in notes.bytes.iter().enumerate() {
        BYTES.write(bytes, slot, waiting);
    }
    LIST_COUNT.write(bytes, 0, notes.listed.len() as u64);
    for (lane, &slot) in notes.listed.iter().enumerate() {
        LIST.write(bytes, lane, slot as u64);
    }
}

fn write_channel(channel: &Channel, slot: usize, bytes: &mut [u8]) {
    let kind = match channel.kind {
        Kind::Free => 0,
        Kind::Open => 1,
        Kind::Closing => 2,
    };
    KIND.write(bytes, slot, kind);
    WAITING.write(bytes, slot, channel.records.len() as u64);
    TICKET.write(bytes, slot, channel.ticket);
    WEIGHT.write(bytes, slot, channel.weight);
    DEFICIT.write(bytes, slot, channel.deficit);
    NEXT_SERIAL.write(bytes, slot, channel.next_serial);
}

/// The state that a memory stands for, sound or not, by what stands ahead of the notes. None for another length and where no state can be meant: a kind above 2,
/// more than 64 rows, a visit above 64, more records than cells.
pub fn from_bytes(bytes: &[u8]) -> Option<Scheduler> {
    if bytes.len() != LENGTH {
        return None;
    }
    let line = |number: usize| &bytes[64 * number..64 * (number + 1)];
    let of_slot =
        |first: usize, lines: usize, slot: usize| (0..lines).rev().fold(0u64, |number, j| number * 256 + u64::from(line(first + j)[slot]));
    let mut channels = Vec::with_capacity(SLOTS);
    let mut cell = 0;
    for slot in 0..SLOTS {
        let kind = match line(1)[slot] {
            0 => Kind::Free,
            1 => Kind::Open,
            2 => Kind::Closing,
            _ => return None,
        };
        let waiting = usize::from(line(2)[slot]);
        let (ticket, weight) = (of_slot(3, 4, slot), of_slot(7, 2, slot));
        let (deficit, next_serial) = (of_slot(9, 2, slot), of_slot(11, 2, slot));
        let records = (cell..cell + waiting).map(|at| record(bytes, at)).collect::<Option<_>>()?;
        cell += waiting;
        channels.push(Channel { kind, ticket, weight, deficit, next_serial, records });
    }
    let rows = line(0).get(..usize::from(line(13)[0]))?.iter().map(|&slot| usize::from(slot)).collect();
    let (order, edition, mark) = (u64::from(line(13)[1]), u64::from(line(13)[14]), u64::from(line(13)[15]));
    Some(Scheduler { channels, rows, order, scan: scan(line(13))?, edition, mark })
}

/// The record in a cell of the run: a byte in each of six planes of 512.
fn record(bytes: &[u8], cell: usize) -> Option<Record> {
    if cell >= CELLS {
        return None;
    }
    let planes = &bytes[14 * 64..];
    let plane = |number: usize| u64::from(planes[512 * number + cell]);
    let length = plane(0) + 256 * plane(1);
    let reference = plane(2) + 256 * (plane(3) + 256 * (plane(4) + 256 * plane(5)));
    Some(Record { length, reference })
}

/// The scan point in its line: position at 2 and 3, column at 4, the list at 5 to 12, the visit at 13. The edition and the mark stand behind it.
fn scan(line: &[u8]) -> Option<Scan> {
    let position = u64::from(line[2]) + 256 * u64::from(line[3]);
    let to_visit = (0..SLOTS).filter(|slot| line[5 + slot / 8] >> (slot % 8) & 1 == 1).collect();
    let visit = match usize::from(line[13]) {
        0 => None,
        number if number <= SLOTS => Some(number - 1),
        _ => return None,
    };
    Some(Scan { position, column: u64::from(line[4]), to_visit, visit })
}

/// The notes of a memory, right or not: two lines of bytes waiting, low and high, then the number listed and their slots. None for another length and for a number
/// above five.
pub fn notes_from_bytes(bytes: &[u8]) -> Option<Notes> {
    if bytes.len() != LENGTH {
        return None;
    }
    let (_, notes) = bytes.split_at(14 * 64 + 6 * 512);
    let (low, high, list) = (&notes[..64], &notes[64..128], &notes[129..]);
    let waiting = low.iter().zip(high).map(|(&low, &high)| u64::from(low) + 256 * u64::from(high)).collect();
    let listed = list.get(..usize::from(notes[128]))?.iter().map(|&slot| usize::from(slot)).collect();
    Some(Notes { bytes: waiting, listed })
}

/// The sound state whose memory this is, if it is one's: the length is right, it decodes, the state is sound, its notes are what its records say, and writing it
/// again gives the same bytes ("bytes that stand for nothing are 0").
pub fn sound_from_bytes(bytes: &[u8]) -> Option<Scheduler> {
    let (scheduler, notes) = (from_bytes(bytes)?, notes_from_bytes(bytes)?);
    let right = Notes::of(&scheduler);
    (scheduler.sound() && notes == right && with_notes(&scheduler, &right) == bytes).then_some(scheduler)
}

pub fn is_sound_memory(bytes: &[u8]) -> bool {
    sound_from_bytes(bytes).is_some()
}
