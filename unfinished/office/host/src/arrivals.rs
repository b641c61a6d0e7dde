//! What frames and offices are compared on: frames of every length and with every value of every head byte, buffers of every room, and histories of an office.

use crate::counting::{Call, FRAME_ANSWER, TAKE_ANSWER, UNFRAME_ANSWER};
use crate::frame::{Frame, COUNTED, HEAD, LONGEST_FRAME};
use crate::lent::UNWRITTEN;
use crate::office::{Held, Office, LENGTH};
use crate::random::Random;
use crate::scheduler::{LONGEST, SLOTS};

/// Up to so many bytes a frame is tried at every length.
pub const LONGEST_TRIED: usize = 1_030;

/// The reader and the office, which has heard nothing, are given the same bytes.
fn given(bytes: Vec<u8>) -> [Call; 2] {
    let office = Office::fresh().to_bytes();
    [Call::Take { office, frame: bytes.clone(), answer: TAKE_ANSWER }, Call::Unframe { frame: bytes, answer: UNFRAME_ANSWER }]
}

/// A frame of a record of this length, which need not be one that is taken.
pub fn any_frame(random: &mut Random, length: usize) -> Frame {
    let any = random.number() as u32 | 1;
    Frame {
        slot: random.below(SLOTS as u64) as u32,
        ticket: random.pick(&[1, 2, 255, 256, 65_536, u32::MAX - 1, u32::MAX, any]),
        serial: random.number() as u16,
        record: (0..length).map(|_| random.number() as u8).collect(),
    }
}

/// A frame's bytes of each length from 0 on: cut from a longer one and with the length that they have; the length bytes right, one too small, one too large, 0, the
/// record's alone, the whole's, and turned round.
pub fn every_length(random: &mut Random) -> Vec<Call> {
    let mut calls = Vec::new();
    for length in 0..=LONGEST_TRIED {
        let frame = any_frame(random, LONGEST_TRIED);
        let told = (length as u64).wrapping_sub(3);
        let turned = u64::from((told as u16).swap_bytes());
        let lengths = [told, told.wrapping_sub(1), told.wrapping_add(1), 0, told.wrapping_sub(COUNTED as u64), length as u64, turned];
        for told in lengths {
            let mut bytes = frame.bytes();
            bytes[1..3].copy_from_slice(&(told as u16).to_be_bytes());
            bytes.truncate(length);
            calls.extend(given(bytes));
        }
    }
    calls
}

/// Every value of every head byte of some frames, with nothing else changed.
pub fn every_head_byte(random: &mut Random) -> Vec<Call> {
    let mut calls = Vec::new();
    for length in [1, 2, 249, 250, 1_013, 1_014] {
        let mut frame = any_frame(random, length);
        for ticket in [1, frame.ticket, 1 << 24] {
            frame.ticket = ticket;
            for place in 0..HEAD {
                for value in 0..=255 {
                    let mut bytes = frame.bytes();
                    bytes[place] = value;
                    calls.extend(given(bytes));
                }
            }
        }
    }
    calls
}

/// True frames, frames with bytes changed, cut or added, and bytes that are none.
pub fn any_bytes(random: &mut Random, count: usize) -> Vec<Call> {
    let mut calls = Vec::new();
    for _ in 0..count {
        let short = random.from_to(1, 40) as usize;
        let length = random.pick(&[short, short, LONGEST as usize, LONGEST as usize + 1, 0]);
        let mut bytes = any_frame(random, length).bytes();
        match random.below(6) {
            0 => bytes.truncate(random.below(bytes.len() as u64) as usize),
            1 => bytes.extend((0..random.from_to(1, 3)).map(|_| 0)),
            2 => {
                let place = random.below(HEAD as u64) as usize;
                bytes[place] ^= 1 << random.below(8);
            }
            3 => bytes = (0..random.below(60)).map(|_| random.number() as u8).collect(),
            _ => {}
        }
        calls.extend(given(bytes));
    }
    calls
}

/// The writer: records of each length about the limits in buffers of every room about the frame's; slots, tickets and serials at their limits and beyond; answers of
/// every length.
pub fn writings(random: &mut Random) -> Vec<Call> {
    let buffer = |room: usize| (0..room).map(|place| (place * 7) as u8 ^ UNWRITTEN).collect::<Vec<u8>>();
    let mut calls = Vec::new();
    for length in [0, 1, 2, 10, 11, 255, 256, 1_013, 1_014, 1_015, 1_016, 1_024, 1_030, 65_529, 65_536] {
        for room in (0..24).chain((HEAD + length).saturating_sub(3)..HEAD + length + 30).chain([LONGEST_FRAME]) {
            let Frame { slot, ticket, serial, record } = any_frame(random, length);
            calls.push(Call::Frame { slot, ticket, serial, record, buffer: buffer(room), answer: FRAME_ANSWER });
        }
    }
    for slot in (0..70).chain([127, 128, 255, 256, 256 + 5, 1 << 16, u32::MAX]) {
        for ticket in [0, 1, 255, 256, 0x0102_0304, u32::MAX] {
            for serial in [0, 1, 255, 256, 0x0102, 32_767, 32_768, 65_535] {
                for (length, room) in [(0, 30), (3, 30), (3, 13), (3, 12), (3, 0), (1_015, 2_000)] {
                    let record = any_frame(random, length).record;
                    calls.push(Call::Frame { slot, ticket, serial, record, buffer: buffer(room), answer: FRAME_ANSWER });
                }
            }
        }
    }
    for answer in 0..=64 {
        for (slot, length, room) in [(5, 3, 30), (64, 3, 30), (5, 3, 12)] {
            let record = any_frame(random, length).record;
            calls.push(Call::Frame { slot, ticket: 1, serial: 7, record, buffer: buffer(room), answer });
        }
    }
    calls
}

/// The reader and the office with answers of every length.
pub fn other_answers(random: &mut Random) -> Vec<Call> {
    let mut calls = Vec::new();
    for answer in 0..=64 {
        for length in [0, 5] {
            let bytes = any_frame(random, length).bytes();
            calls.push(Call::Unframe { frame: bytes.clone(), answer });
            for office in [Office::fresh().to_bytes(), vec![1; LENGTH], vec![0; LENGTH - 1]] {
                calls.push(Call::Take { office, frame: bytes.clone(), answer });
            }
        }
    }
    calls
}

/// Memories that are no office's, and some that are: a serial without a ticket at each slot and byte, every other length about the right one.
pub fn offices(random: &mut Random) -> Vec<Call> {
    let mut memories = Vec::new();
    for length in (0..=LENGTH + 70).chain([768, 4_102]) {
        memories.push(vec![0; length]);
    }
    for place in 0..LENGTH {
        for value in [1, 128, 255] {
            let mut memory = vec![0; LENGTH];
            memory[place] = value;
            memories.push(memory);
        }
    }
    for _ in 0..3_000 {
        let mut memory = any_office(random).to_bytes();
        for _ in 0..random.below(4) {
            let place = random.below(LENGTH as u64) as usize;
            let any = random.number() as u8;
            memory[place] = random.pick(&[0, 0, 1, any]);
        }
        memories.push(memory);
    }
    let mut calls = Vec::new();
    for office in memories {
        let bad = random.chance(1, 4);
        let mut frame = any_frame(random, 3).bytes();
        frame[0] += u8::from(bad);
        calls.push(Call::Take { office: office.clone(), frame, answer: TAKE_ANSWER });
        calls.push(Call::Start { office });
    }
    calls
}

/// Any slots heard, with tickets and serials at their limits among others.
pub fn any_office(random: &mut Random) -> Office {
    let mut office = Office::fresh();
    for slot in 0..SLOTS as u32 {
        if random.chance(1, 2) {
            let ticket = random.pick(&[1, 2, 3, 255, 256, 65_535, 65_536, u32::MAX - 1, u32::MAX]);
            let expected = random.pick(&[0, 1, 255, 256, 32_767, 32_768, 65_535, 7]);
            office.0.insert(slot, Held { ticket, expected });
        }
    }
    office
}

/// Gaps from the serial expected, at the limits and across the wrap.
const GAPS: [u16; 12] = [0, 0, 1, 2, 255, 256, 32_766, 32_767, 32_768, 32_769, 65_534, 65_535];

/// A history of an office over so many frames: each slot's tickets follow each other, with gaps of each kind, late repeats, lower tickets, higher ones with serials
/// about 32,768, and bytes that are no frame.
pub fn history(random: &mut Random, slots: u64, frames: usize) -> Vec<Call> {
    let mut office = if random.chance(1, 2) { Office::fresh() } else { any_office(random) };
    let mut calls = Vec::new();
    for _ in 0..frames {
        let slot = random.below(slots) as u32;
        let held = office.0.get(&slot).copied().unwrap_or(Held { ticket: 0, expected: 0 });
        let step = random.pick(&[1, 1, 2, 256, 65_536]);
        let (ticket, expected) = match random.below(10) {
            0 => (held.ticket.saturating_add(step), 0),
            1 => (held.ticket.saturating_sub(step).max(1), held.expected),
            _ => (held.ticket.max(1), held.expected),
        };
        let near = random.pick(&[0, 0, 0, 1, 3]);
        let gap = if random.chance(1, 2) { random.pick(&GAPS) } else { near };
        let serial = if random.chance(1, 20) { random.number() as u16 } else { expected.wrapping_add(gap) };
        let record = vec![random.number() as u8; random.from_to(1, 4) as usize];
        let mut frame = Frame { slot, ticket, serial, record }.bytes();
        if random.chance(1, 12) {
            frame.pop();
        }
        let before = office.to_bytes();
        let _ = office.take(&frame);
        calls.push(Call::Take { office: before, frame, answer: TAKE_ANSWER });
    }
    calls
}

/// Some of each kind, other ones for each seed.
pub fn some(random: &mut Random) -> Vec<Call> {
    let mut calls = [writings(random), every_length(random), offices(random), other_answers(random)].concat();
    random.shuffle(&mut calls);
    calls.truncate(2_000);
    calls.extend(any_bytes(random, 500));
    for slots in [1, 5, SLOTS as u64] {
        calls.extend(history(random, slots, 300));
    }
    calls
}
