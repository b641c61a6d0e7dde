//! The uplink frame (document 02, §14): frames worked out by hand, and the writer and the reader of the engine under test beside the independent codec, on frames of
//! every length and with every value of every head byte.

mod common;
mod misheard;

use host::answers::{Contents, Written};
use host::arrivals::{any_bytes, every_head_byte, every_length, other_answers, writings};
use host::counting::{compare, Call, Counting};
use host::frame::{read, write, Frame, LONGEST_FRAME};
use host::random::Random;
use misheard::{fields, Slip, Wrong};

/// Slot 5, ticket 0x01020304, serial 0x0506, the record 17, 18, 19: the length counts 1, 4, 2 and 3 bytes.
const BY_HAND: [u8; 13] = [1, 0, 10, 5, 1, 2, 3, 4, 5, 6, 17, 18, 19];

fn run(calls: &[Call]) -> usize {
    compare(&mut common::adapter(), calls).unwrap_or_else(|difference| panic!("{difference}"))
}

#[test]
fn a_frame_by_hand() {
    let frame = Frame { slot: 5, ticket: 0x0102_0304, serial: 0x0506, record: vec![17, 18, 19] };
    assert_eq!(frame.bytes(), BY_HAND);
    assert_eq!(read(&BY_HAND), Ok(frame));
    let (mut buffer, mut answer) = ([0xa5; 20], [0xa5; 4]);
    assert_eq!(common::adapter().frame(5, 0x0102_0304, 0x0506, &mut [17, 18, 19], &mut buffer, &mut answer), 0);
    assert_eq!((&buffer[..13], &buffer[13..], answer), (&BY_HAND[..], &[0xa5; 7][..], [13, 0, 0, 0]));
    let mut answer = [0xa5; 16];
    assert_eq!(common::adapter().unframe(&mut buffer[..13], &mut answer), 0);
    assert_eq!(answer, [5, 0, 0, 0, 4, 3, 2, 1, 6, 5, 0, 0, 3, 0, 0, 0]);
    assert_eq!(fields::<Contents>(&answer), Contents { slot: 5, ticket: 0x0102_0304, serial: 0x0506, length: 3 });
}

/// "20 for a frame that is cut short or has bytes left over, of another version, or with slot above 63, ticket 0 or a record of length outside 1 to 1,014; the writer
/// gives it for the last three, then 16 for a buffer too short."
#[test]
fn refusals_by_hand() {
    let unframed = |bytes: &[u8]| {
        let mut answer = [0xa5; 16];
        let number = common::adapter().unframe(&mut bytes.to_vec(), &mut answer);
        assert!(number == 0 || answer == [0; 16]);
        number
    };
    let changed = |place: usize, byte: u8| {
        let mut bytes = BY_HAND;
        bytes[place] = byte;
        bytes
    };
    assert_eq!(unframed(&BY_HAND), 0);
    assert_eq!([unframed(&BY_HAND[..12]), unframed(&[&BY_HAND[..], &[0]].concat()), unframed(&[])], [20; 3]);
    assert_eq!(
        [changed(0, 0), changed(0, 2), changed(2, 9), changed(2, 11), changed(1, 1), changed(3, 64)].map(|bytes| unframed(&bytes)),
        [20; 6]
    );
    assert_eq!(
        [unframed(&changed(3, 63)), unframed(&[1, 0, 8, 0, 0, 0, 0, 1, 0, 0, 9]), unframed(&[1, 0, 8, 0, 0, 0, 0, 0, 0, 0, 9])],
        [0, 0, 20]
    );
    assert_eq!(unframed(&[1, 0, 7, 0, 0, 0, 0, 1, 0, 0]), 20);
    let framed = |slot: u32, ticket: u32, length: usize, room: usize| {
        let (mut buffer, mut answer) = (vec![0xa5; room], [0xa5; 4]);
        let number = common::adapter().frame(slot, ticket, 0, &mut vec![1; length], &mut buffer, &mut answer);
        assert!(number == 0 || (buffer == vec![0xa5; room] && answer == [0; 4]));
        (number, fields::<Written>(&answer).length)
    };
    assert_eq!([framed(63, u32::MAX, 1_014, 1_024), framed(0, 1, 1, 11), framed(0, 1, 1, 5_000)], [(0, 1_024), (0, 11), (0, 11)]);
    assert_eq!([framed(64, 1, 1, 11), framed(0, 0, 1, 11), framed(0, 1, 0, 11), framed(0, 1, 1_015, 2_000)], [(20, 0); 4]);
    assert_eq!([framed(0, 1, 1, 10), framed(0, 1, 1_014, 1_023), framed(0, 1, 1, 0)], [(16, 0); 3]);
    assert_eq!([framed(64, 1, 1, 0), framed(0, 0, 1, 10), framed(0, 1, 0, 0), framed(0, 1, 1_015, 0)], [(20, 0); 4]);
}

/// "Reading what was written gives the same": in the independent codec, and between it and the engine under test both ways.
#[test]
fn there_and_back() {
    let mut random = Random::new(141);
    for turn in 0..20_000 {
        let length = if turn < 1_014 { turn + 1 } else { random.from_to(1, 1_014) as usize };
        let frame = host::arrivals::any_frame(&mut random, length);
        let bytes = write(&frame, LONGEST_FRAME).unwrap();
        assert_eq!(read(&bytes).as_ref(), Ok(&frame));
        let (mut buffer, mut answer, mut contents) = ([0; LONGEST_FRAME], [0; 4], [0; 16]);
        let mut record = frame.record.clone();
        assert_eq!(common::adapter().frame(frame.slot, frame.ticket, frame.serial, &mut record, &mut buffer, &mut answer), 0);
        let written = fields::<Written>(&answer).length as usize;
        assert_eq!(buffer[..written], bytes);
        assert_eq!(common::adapter().unframe(&mut buffer[..written], &mut contents), 0);
        assert_eq!((fields::<Contents>(&contents), &buffer[10..written]), (frame.contents(), &frame.record[..]));
    }
}

/// "a frame that reads is exactly what the writer writes": of any bytes.
#[test]
fn what_reads_is_what_is_written() {
    let mut random = Random::new(142);
    let mut reads = 0;
    for call in [every_length(&mut random), every_head_byte(&mut random), any_bytes(&mut random, 20_000)].concat() {
        let Call::Unframe { mut frame, .. } = call else { continue };
        let mut contents = [0; 16];
        if common::adapter().unframe(&mut frame, &mut contents) == 0 {
            let Contents { slot, ticket, serial, length } = fields(&contents);
            let (mut buffer, mut answer) = (vec![0; frame.len()], [0; 4]);
            assert_eq!(common::adapter().frame(slot, ticket, serial, &mut frame[10..].to_vec(), &mut buffer, &mut answer), 0);
            assert_eq!((buffer, length as usize + 10), (frame.clone(), frame.len()));
            reads += 1;
        }
    }
    assert!(reads > 10_000, "only {reads} read");
}

#[test]
fn frames_of_every_length() {
    assert_eq!(run(&every_length(&mut Random::new(143))), 2 * 7 * 1_031);
}

#[test]
fn every_value_of_every_head_byte() {
    assert_eq!(run(&every_head_byte(&mut Random::new(144))), 2 * 18 * 10 * 256);
}

#[test]
fn any_bytes_are_read_alike() {
    assert_eq!(run(&any_bytes(&mut Random::new(145), 100_000)), 200_000);
}

#[test]
fn every_room_and_every_limit_of_the_writer() {
    assert!(run(&writings(&mut Random::new(146))) > 20_000);
}

#[test]
fn answers_of_other_lengths() {
    assert_eq!(run(&other_answers(&mut Random::new(147))), 65 * 2 * 4);
}

#[test]
fn every_wrong_codec_is_found() {
    let mut random = Random::new(148);
    let calls = [
        writings(&mut random),
        every_length(&mut random),
        every_head_byte(&mut random),
        any_bytes(&mut random, 2_000),
        other_answers(&mut random),
    ]
    .concat();
    assert!(compare(&mut common::adapter(), &calls).is_ok());
    for slip in Slip::OF_FRAMES {
        let found = compare(&mut Wrong(slip), &calls);
        assert!(found.is_err(), "{slip:?} was not found");
    }
    assert!(compare(
        &mut Wrong(Slip::ExpectedNotWrapped),
        calls.iter().filter(|call| matches!(call, Call::Frame { .. } | Call::Unframe { .. }))
    )
    .is_ok());
}
