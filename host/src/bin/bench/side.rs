//! One engine under measurement, on memories of its own.

use std::hint::black_box;
use std::time::Instant;

use host::answers::{Fields, Sent};
use host::engine::Engine;
use host::image::LONGEST_IMAGE;
use host::layout::{BYTES, CELLS, EDITION, LENGTH, LENGTHS, MARK};
use host::linked::{Entries, LINKED, PLAIN};
use host::model::answer_fields;

use super::{batch, TIMES};

/// The entries of an archive, the length of the memory that they take, and that of Ask's answer.
#[derive(Clone, Copy)]
pub struct Archive {
    entries: Entries,
    length: usize,
    asked: usize,
}

/// The linked one.
pub const OWN: Archive = Archive { entries: LINKED, length: LENGTH, asked: ASKED };
/// The same with Put and Next of support's engine.
pub const SUPPORT: Archive = Archive { entries: PLAIN, length: LENGTH, asked: ASKED };
/// The bytes of Ask's answer, and before document 02, §7.
const ASKED: usize = 20;
const ASKED_BEFORE: usize = 16;
/// Another archive's memory is looked for up to this length.
const LONGEST_MEMORY: usize = 16_384;

impl Archive {
    /// Another archive: its Start takes one length alone.
    pub fn of(mut entries: Entries) -> Option<Archive> {
        let length = (LENGTHS.start..=LONGEST_MEMORY).find(|&length| entries.start(&mut vec![0; length], 1) == 0)?;
        let mut fresh = vec![0; length];
        entries.start(&mut fresh, 1);
        let asked = [ASKED, ASKED_BEFORE].into_iter().find(|&asked| entries.ask(&mut fresh, 64, 1, &mut [0; ASKED][..asked]) == 1)?;
        Some(Archive { entries, length, asked })
    }

    /// The same state in planes of this archive's cells. One with another number of them is from before the notes.
    fn memory(&self, bytes: &[u8]) -> Vec<u8> {
        if self.length == bytes.len() {
            return bytes.to_vec();
        }
        let (heads, planes) = bytes[..BYTES.start].split_at(LENGTHS.start);
        let cells = CELLS * (self.length - heads.len()) / planes.len();
        let plane = |plane: &[u8]| plane.iter().copied().chain(std::iter::repeat(0)).take(cells).collect();
        [heads.to_vec()].into_iter().chain(planes.chunks(CELLS).map(plane)).flatten().collect()
    }

    /// Whether it takes a memory for sound: it then refuses slot 64 for itself.
    fn takes(mut self, memory: &mut [u8]) -> bool {
        self.entries.ask(memory, 64, 1, &mut [0; ASKED][..self.asked]) == 1
    }
}

pub struct Side {
    entries: Entries,
    asked: usize,
    /// The memory that is sent from and put into, and one that only a refused call is lent.
    pub memory: Vec<u8>,
    lent: Vec<u8>,
    /// Nanoseconds of call, next, check and put, batch by batch.
    pub times: [Vec<f64>; 4],
}

impl Side {
    /// The archive with a memory of its own. One that knows no edition is lent edition 1's without that byte; none where it takes neither.
    pub fn lent(archive: Archive, bytes: &[u8]) -> Option<Side> {
        let mut memory = archive.memory(bytes);
        if !archive.takes(&mut memory) && memory[EDITION.start] == 1 {
            memory[EDITION.start] = 0;
        }
        let Archive { entries, asked, .. } = archive;
        archive.takes(&mut memory).then(|| Side { entries, asked, lent: memory.clone(), memory, times: Default::default() })
    }

    pub fn measure(&mut self, sends: bool) {
        if sends {
            let pairs = batch(2, || self.pair());
            self.times[0].push(pairs);
            self.measure_alone();
        }
        let checks = batch(1, || self.refused());
        self.times[2].push(checks);
    }

    pub fn next(&mut self) -> Sent {
        let mut answer = [0; 28];
        assert_eq!(self.entries.next(&mut self.memory, &mut answer), 0);
        let mut fields = answer_fields(&answer);
        Sent::of(&[(); 7].map(|_| fields.next().unwrap_or(0))).expect("an answer of Next")
    }

    fn put(&mut self, sent: Sent) {
        let mut answer = [0; 8];
        assert_eq!(self.entries.put(&mut self.memory, sent.slot, sent.ticket, sent.length, sent.reference, &mut answer), 0);
        black_box(answer);
    }

    fn pair(&mut self) {
        let sent = self.next();
        self.put(sent);
    }

    /// Next alone, four in a row, and Put alone, which puts back what they sent.
    pub fn measure_alone(&mut self) {
        let (mut nexts, mut puts) = (0, 0);
        for _ in 0..TIMES / 4 {
            let begin = Instant::now();
            let sent: [Sent; 4] = std::array::from_fn(|_| self.next());
            nexts += begin.elapsed().as_nanos();
            let begin = Instant::now();
            sent.into_iter().for_each(|sent| self.put(sent));
            puts += begin.elapsed().as_nanos();
        }
        self.times[1].push(nexts as f64 / TIMES as f64);
        self.times[3].push(puts as f64 / TIMES as f64);
    }

    /// Nanoseconds of a park, and of the reading of its image over the parked memory.
    pub fn parking(&mut self) -> [f64; 2] {
        let (mut image, mut answer) = ([0; LONGEST_IMAGE], [0; 4]);
        let park = batch(1, || {
            // The mark alone was changed.
            self.memory[MARK.start] = 0;
            assert_eq!(black_box(self.entries.park(&mut self.memory, &mut image, &mut answer)), 0);
        });
        let length = u32::from_le_bytes(answer) as usize;
        let unpark = batch(1, || assert_eq!(black_box(self.entries.unpark(&mut self.memory, &mut image[..length])), 0));
        [park, unpark]
    }

    /// Nanoseconds of a refused call, of an Ask of this channel, and of a Fullest.
    pub fn asking(&mut self, slot: u32, ticket: u32) -> [f64; 3] {
        let (mut told, mut list) = ([0; ASKED], [0; 44]);
        let check = batch(1, || self.refused());
        let ask = batch(1, || assert_eq!(black_box(self.entries.ask(&mut self.lent, slot, ticket, &mut told)), 0));
        let fullest = batch(1, || assert_eq!(black_box(self.entries.fullest(&mut self.lent, &mut list)), 0));
        black_box((told, list));
        [check, ask, fullest]
    }

    fn refused(&mut self) {
        let mut answer = [0; ASKED];
        assert_eq!(black_box(self.entries.ask(&mut self.lent, 64, 1, &mut answer[..self.asked])), 1);
    }
}
