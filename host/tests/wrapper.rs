//! The safe wrapper on the exported library: document 01's checks, and any bytes and numbers without a panic.
#![cfg(feature = "linked")]

use std::error::Error;

use host::layout::{fresh, is_sound_memory, to_bytes, LENGTH};
use host::random::Random;
use host::states;
use uplink::entries::uplink_start;
use uplink::{lead, sheet, term, Added, Closed, Edition, Filling, Memory, Opened, Refusal, Sent, Sheet, Standing, Told};

const EDITIONS: [Edition; 2] = [Edition::One, Edition::Two];

#[test]
fn checks_1_to_4_and_11() {
    assert_eq!(term(4, 8), Ok(4));
    assert_eq!(term(12, 4_095), Ok(1));
    assert_eq!(term(3, 8), Err(Refusal::NoTerm));
    assert_eq!(term(3, 7), Ok(1));
    assert_eq!(term(0, 1), Err(Refusal::NoTerm));
    assert_eq!(lead(1, 5, 4_095, 0), Ok(-20_475));
    assert_eq!(lead(1, 1, 1, 0), Ok(-1));
    assert_eq!(lead(0, 1, 1, 0), Err(Refusal::BadWeight));
}

#[test]
fn check_5() {
    for edition in EDITIONS {
        let mut memory = Memory::new(edition);
        for weight in [1, 4, 8, 3] {
            let opened = memory.open(weight).unwrap();
            for reference in 0..16 {
                memory.put(opened.slot, opened.ticket, 1_014, reference).unwrap();
            }
        }
        let slots: Vec<u32> = (0..16).map(|_| memory.next().unwrap().slot).collect();
        assert_eq!(slots, [2, 1, 2, 3, 2, 1, 2, 0, 3, 2, 1, 2, 3, 2, 1, 2]);
    }
}

/// The drive's last record is sent at position 1. Edition 1 falls to order 1 and serves the door at once; edition 2 holds order 12, and the door is at
/// position 2,048.
#[test]
fn the_edition_is_kept() {
    for (edition, terms) in [(Edition::One, [1, 1]), (Edition::Two, [1, 2_047])] {
        let mut memory = Memory::new(edition);
        for weight in [4_095, 1] {
            let opened = memory.open(weight).unwrap();
            memory.put(opened.slot, opened.ticket, 100, 7).unwrap();
        }
        assert_eq!([0, 1].map(|_| memory.next().unwrap().terms), terms);
        for edition in EDITIONS {
            memory.start(edition);
            assert_eq!(memory.bytes()[..], fresh(edition as u64));
        }
    }
}

/// The C entry is given any number.
#[test]
fn another_edition_is_refused() {
    let mut bytes: [u8; LENGTH] = to_bytes(&states::rich(2)).try_into().unwrap();
    let before = bytes;
    for edition in [0, 3, 257, u32::MAX] {
        let number = unsafe { uplink_start(bytes.as_mut_ptr(), LENGTH, edition) };
        assert_eq!((Refusal::from_number(number), bytes == before), (Some(Refusal::BadEdition), true));
        let number = unsafe { uplink_start(bytes.as_mut_ptr(), LENGTH - 1, edition) };
        assert_eq!((Refusal::from_number(number), bytes == before), (Some(Refusal::Unsound), true));
    }
}

#[test]
fn checks_6_to_10_and_12() {
    for (length, terms, starts) in [(1_014, [1, 2, 2], [true; 3]), (300, [1, 0, 0], [true, false, false])] {
        let mut memory = Memory::new(Edition::One);
        memory.open(9).unwrap();
        for reference in 0..3 {
            memory.put(0, 1, length, reference).unwrap();
        }
        let sent: Vec<Sent> = (0..3).map(|_| memory.next().unwrap()).collect();
        assert_eq!(sent.iter().map(|sent| sent.terms).collect::<Vec<_>>(), terms);
        assert_eq!(sent.iter().map(|sent| sent.started).collect::<Vec<_>>(), starts);
        assert_eq!(sent.iter().map(|sent| sent.serial).collect::<Vec<_>>(), [0, 1, 2]);
    }
    let mut memory = Memory::new(Edition::Two);
    assert_eq!(memory.open(4_095), Ok(Opened { slot: 0, ticket: 1 }));
    assert_eq!(memory.open(4_096), Err(Refusal::BadWeight));
    assert_eq!(memory.open(0), Err(Refusal::BadWeight));
    assert_eq!(memory.put(0, 1, 1_015, 7), Err(Refusal::BadLength));
    for waiting in 1..=64 {
        assert_eq!(memory.put(0, 1, 1_014, 7), Ok(Added { serial: waiting - 1, waiting }));
    }
    assert_eq!(memory.put(0, 1, 1_014, 7), Err(Refusal::Full));
    for slot in 1..64 {
        assert_eq!(memory.open(1), Ok(Opened { slot, ticket: 1 }));
    }
    assert_eq!(memory.open(1), Err(Refusal::NoneFree));
}

/// Document 02, §4: six channels of 64 and one of 14 share 384 cells. A full channel is refused for its room, one of two for the cells.
#[test]
fn shared_cells() {
    let mut memory = Memory::new(Edition::Two);
    for (slot, records) in [64, 64, 64, 64, 64, 64, 14, 2].into_iter().enumerate() {
        memory.open(1).unwrap();
        for waiting in 1..=records {
            assert_eq!(memory.put(slot as u32, 1, 1_014, waiting), Ok(Added { serial: waiting - 1, waiting }));
        }
    }
    assert_eq!([0, 6, 7].map(|slot| memory.put(slot, 1, 1, 0)), [Refusal::Full, Refusal::NoShared, Refusal::NoShared].map(Err));
    assert_eq!(Refusal::NoShared.number(), 13);
    assert_eq!(memory.next().map(|sent| sent.slot), Ok(0));
    assert_eq!(memory.put(7, 1, 1, 0), Ok(Added { serial: 2, waiting: 3 }));
    assert_eq!(memory.put(0, 1, 1, 0), Err(Refusal::NoShared));
    assert!(memory.is_sound());
}

#[test]
fn a_channel_drains() {
    let mut memory = Memory::new(Edition::One);
    assert_eq!(memory.next(), Err(Refusal::NoneWaits));
    memory.open(5).unwrap();
    memory.put(0, 1, 600, 77).unwrap();
    memory.put(0, 1, 404, 78).unwrap();
    assert_eq!(memory.close(0, 1), Ok(Closed::Draining));
    assert_eq!(memory.close(0, 1), Err(Refusal::AtClosing));
    assert_eq!(memory.next(), Ok(Sent { slot: 0, ticket: 1, length: 600, reference: 77, serial: 0, started: true, terms: 1 }));
    assert_eq!(memory.ask(0, 1), Ok(Told { standing: Standing::Closing, weight: 5, deficit: 414, waiting: 1, bytes: 404 }));
    assert_eq!(memory.next(), Ok(Sent { slot: 0, ticket: 1, length: 404, reference: 78, serial: 1, started: false, terms: 0 }));
    assert_eq!(memory.ask(0, 1), Err(Refusal::NotPresent));
    assert_eq!(memory.open(6), Ok(Opened { slot: 0, ticket: 2 }));
    assert_eq!(memory.close(0, 1), Err(Refusal::NotPresent));
    assert_eq!(memory.ask(0, 2), Ok(Told { standing: Standing::Open, weight: 6, deficit: 0, waiting: 0, bytes: 0 }));
    assert_eq!(memory.close(0, 2), Ok(Closed::Freed));
    assert_eq!(memory.ask(64, 1), Err(Refusal::NoSlot));
}

#[test]
fn any_bytes_and_numbers() {
    let mut random = Random::new(41);
    for turn in 0..500 {
        let edition = EDITIONS[turn % 2];
        let mut bytes: [u8; LENGTH] = fresh(edition as u64).try_into().unwrap();
        for _ in 0..random.below(20) {
            bytes[random.below(LENGTH as u64) as usize] = random.number() as u8;
        }
        let mut memory = Memory::from_bytes(bytes);
        assert_eq!(memory.is_sound(), is_sound_memory(&bytes));
        let mut number = || random.number() as u32;
        let _ = memory.open(number());
        let _ = memory.put(number(), number(), number(), number());
        let _ = memory.close(number() % 65, number());
        let _ = memory.next();
        let _ = (memory.ask(number() % 65, number()), memory.fullest());
        let _ = (lead(number(), number(), number(), number()), term(number(), number()));
        let _ = sheet(&[number() % 4_097, number()], &[number() % 3, number()]);
        memory.start(edition);
        assert_eq!(memory.bytes()[..], fresh(edition as u64));
    }
}

/// Document 02, §6: a parked memory takes nothing but a start and an image, and goes on where it was.
#[test]
fn queues_are_parked() {
    let mut memory = Memory::new(Edition::Two);
    memory.open(5).unwrap();
    memory.put(0, 1, 600, 77).unwrap();
    let before = memory.clone();
    let mut image = [0xa5; Memory::IMAGE_LENGTH];
    assert_eq!(memory.park(&mut image[..794]), Err(Refusal::ShortBuffer));
    assert_eq!((memory == before, image), (true, [0xa5; Memory::IMAGE_LENGTH]));
    // 20 bytes ahead of the rows, one row, 64 entries of 12 bytes, one record.
    assert_eq!(memory.park(&mut image), Ok(795));
    assert!(memory.is_parked() && memory.is_sound() && !before.is_parked());
    assert!(image[795..].iter().all(|&byte| byte == 0xa5));
    assert_eq!(memory.next(), Err(Refusal::Parked));
    assert_eq!(memory.park(&mut image), Err(Refusal::Parked));
    for none in [&image[..794], &image[..796], &[]] {
        assert_eq!(memory.unpark(none), Err(Refusal::BadImage));
    }
    let mut lost = Memory::from_bytes([0xff; LENGTH]);
    assert!(!lost.is_sound() && !lost.is_parked());
    for memory in [&mut memory, &mut lost] {
        assert_eq!(memory.unpark(&image[..795]), Ok(()));
        assert!(*memory == before && !memory.is_parked());
    }
    memory.park(&mut image).unwrap();
    memory.start(Edition::One);
    assert_eq!(memory.bytes()[..], fresh(1));
}

/// Document 02, §7: the five fullest, ties by the lower slot, and none without a record.
#[test]
fn the_fullest_are_listed() {
    let mut memory = Memory::new(Edition::Two);
    assert_eq!(memory.fullest(), Ok(Vec::new()));
    for lengths in [&[5][..], &[], &[1_014, 6], &[5], &[7], &[2, 3], &[5]] {
        let opened = memory.open(1).unwrap();
        lengths.iter().for_each(|&length| assert!(memory.put(opened.slot, opened.ticket, length, 0).is_ok()));
    }
    let list = |memory: &Memory| memory.fullest().map(|list| list.into_iter().map(|Filling { slot, bytes }| (slot, bytes)).collect());
    assert_eq!(list(&memory), Ok(vec![(2, 1_020), (4, 7), (0, 5), (3, 5), (5, 5)]));
    assert_eq!(memory.ask(2, 1).map(|told| (told.waiting, told.bytes)), Ok((2, 1_020)));
    memory.put(6, 1, 1, 0).unwrap();
    assert_eq!(list(&memory), Ok(vec![(2, 1_020), (4, 7), (6, 6), (0, 5), (3, 5)]));
    let mut image = [0; Memory::IMAGE_LENGTH];
    let length = memory.park(&mut image).unwrap();
    assert_eq!(memory.fullest(), Err(Refusal::Parked));
    let mut lost = Memory::from_bytes([0xff; LENGTH]);
    assert_eq!(lost.fullest(), Err(Refusal::Unsound));
    lost.unpark(&image[..length]).unwrap();
    assert_eq!(list(&lost), Ok(vec![(2, 1_020), (4, 7), (6, 6), (0, 5), (3, 5)]));
}

/// Document 02, §9: document 01's check 5 as a sheet, wrong ones, and those refused for their weights.
#[test]
fn sheets_are_checked() {
    let (weights, round) = ([1, 4, 8, 3], [2, 1, 2, 3, 2, 1, 2, 0, 3, 2, 1, 2, 3, 2, 1, 2]);
    assert_eq!(sheet(&weights, &round), Ok(Sheet::Right));
    assert_eq!(sheet(&weights, &round[..15]), Ok(Sheet::WrongAt(15)));
    assert_eq!(sheet(&weights, &[&round[..], &[2]].concat()), Ok(Sheet::WrongAt(16)));
    assert_eq!(sheet(&weights, &round.map(|row| if row == 3 { 64 } else { row })), Ok(Sheet::WrongAt(3)));
    assert_eq!(sheet(&[], &[]), Ok(Sheet::Right));
    assert_eq!(sheet(&[4_095], &[0; 4_095]), Ok(Sheet::Right));
    assert_eq!(sheet(&[4_096], &[0; 4_096]), Err(Refusal::BadWeight));
    assert_eq!(sheet(&[0; 65], &[]), Err(Refusal::TooMany));
    assert_eq!((Refusal::TooMany.number(), Refusal::TooMany.to_string()), (17, "more than 64 weights".to_string()));
    // What a memory sends, started visits alone, every channel always waiting.
    for edition in EDITIONS {
        let mut memory = Memory::new(edition);
        for weight in weights {
            let opened = memory.open(weight).unwrap();
            (0..2).for_each(|_| assert!(memory.put(opened.slot, opened.ticket, 700, 0).is_ok()));
        }
        let mut visits = Vec::new();
        while visits.len() < 16 {
            let sent = memory.next().unwrap();
            visits.extend(sent.started.then_some(sent.slot));
            memory.put(sent.slot, sent.ticket, 700, 0).unwrap();
        }
        assert_eq!(sheet(&weights, &visits), Ok(Sheet::Right));
    }
}

/// Ask and Fullest take a memory that is only lent to be read.
#[test]
fn ask_and_fullest_read_alone() {
    let bytes: [u8; LENGTH] = to_bytes(&states::rich(1)).try_into().unwrap();
    let memory = Memory::from_bytes(bytes);
    assert!(memory.is_sound());
    assert!((0..64).any(|slot| memory.ask(slot, 1).is_ok()));
    assert_eq!(memory.fullest().map(|list| list.len()), Ok(Memory::LISTED));
    assert_eq!(memory.bytes(), &bytes);
}

#[test]
fn a_refusal_is_an_error_with_a_text_of_its_own() {
    let texts: Vec<String> = Refusal::ALL.iter().map(|refusal| (refusal as &dyn Error).to_string()).collect();
    assert!(texts.iter().enumerate().all(|(place, text)| !text.is_empty() && !texts[..place].contains(text)), "{texts:?}");
    for number in 0..20 {
        let used = (1..=8).contains(&number) || (10..=17).contains(&number);
        assert_eq!(Refusal::from_number(number).map(Refusal::number), used.then_some(number));
    }
}

#[test]
fn a_memory_is_shown_in_a_few_words() {
    let mut bytes: [u8; LENGTH] = fresh(1).try_into().unwrap();
    assert_eq!(format!("{:?}", Memory::from_bytes(bytes)), format!("Memory {{ length: {LENGTH}, sound: true, .. }}"));
    bytes[LENGTH - 1] = 1;
    assert_eq!(format!("{:?}", Memory::from_bytes(bytes)), format!("Memory {{ length: {LENGTH}, sound: false, .. }}"));
}
