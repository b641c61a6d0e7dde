//! The lent memory: where each byte stands, writer against reader, and the two checks against each other.

use host::check::record_by_record;
use host::layout::{
    fresh, from_bytes, is_sound_memory, name_of, notes_from_bytes, to_bytes, with_notes, BYTES, CELLS, EDITION, LENGTH, LENGTHS, LIST,
    LIST_COUNT, MARK, NOTHING, TICKET, TO_VISIT,
};
use host::notes::Notes;
use host::pool;
use host::random::Random;
use host::scheduler::{Scheduler, EDITIONS, KEPT, SHARED, SLOTS};
use host::states;

#[test]
fn the_fresh_state_is_all_zeros_beside_the_edition() {
    assert_eq!(EDITION.places(), 846..847);
    for edition in 0..=255 {
        let mut zeros = vec![0; LENGTH];
        zeros[846] = edition;
        assert_eq!(fresh(u64::from(edition)), zeros);
        assert_eq!(is_sound_memory(&zeros), [1, 2].contains(&edition), "{edition}");
        assert!(!is_sound_memory(&zeros[..LENGTH - 1]));
        assert!(!is_sound_memory(&[&zeros[..], &[0]].concat()));
    }
    assert!(!is_sound_memory(&[]));
}

/// The mark stands behind the edition: 0 or 1, and another value is unsound.
#[test]
fn the_mark_is_0_or_1() {
    assert_eq!((MARK.places(), NOTHING.places()), (847..848, 848..896));
    for state in [Scheduler::fresh(1), states::rich(2), pool::full(1)] {
        for mark in 0..=255 {
            let bytes = to_bytes(&Scheduler { mark: u64::from(mark), ..state.clone() });
            assert_eq!(bytes[847], mark);
            assert_eq!(from_bytes(&bytes).map(|read| read.mark), Some(u64::from(mark)));
            assert_eq!(is_sound_memory(&bytes), mark <= 1, "{mark}");
            assert_eq!(record_by_record(&bytes), is_sound_memory(&bytes), "{mark}");
        }
    }
}

/// "Hold all records in 512 shared cells ... Two are kept for every slot and 384 shared"
#[test]
fn there_is_a_cell_for_each_record_within_the_limits() {
    assert_eq!((CELLS, SLOTS * KEPT + SHARED), (512, 512));
    assert_eq!((BYTES.start, 896 + 6 * CELLS), (3_968, 3_968));
    let full = pool::full(1);
    assert_eq!((full.shared_in_use(), full.channels.iter().map(|channel| channel.records.len()).sum::<usize>()), (SHARED, CELLS));
}

/// "Each channel's record gains its bytes waiting (without framing), and the state a list of the five fullest": two lines of 64, a number and five slots.
#[test]
fn the_notes_stand_behind_the_records() {
    assert_eq!((BYTES.places(), LIST_COUNT.places(), LIST.places(), LENGTH), (3_968..4_096, 4_096..4_097, 4_097..4_102, 4_102));
    let bytes = to_bytes(&states::filling(1));
    // 2,000 bytes are 7 * 256 + 208, and 1,000 are 3 * 256 + 232.
    assert_eq!((bytes[3_968 + 9], bytes[4_032 + 9], bytes[3_968 + 13], bytes[4_032 + 13]), (208, 7, 232, 3));
    assert_eq!(bytes[4_096..], [5, 9, 2, 4, 7, 11]);
    let bytes = to_bytes(&states::fullest(2));
    // 64,896 bytes are 253 * 256 + 128. Slot 0 is listed, and zeros behind it.
    assert_eq!((bytes[3_968], bytes[4_032], bytes[3_968 + 5], bytes[4_032 + 5]), (1, 0, 128, 253));
    assert_eq!(bytes[4_096..], [2, 5, 0, 0, 0, 0]);
    assert_eq!(notes_from_bytes(&bytes).map(|notes| notes.listed), Some(vec![5, 0]));
    assert_eq!(to_bytes(&Scheduler::fresh(1))[3_968..], [0; 134]);
}

/// A memory without its notes, with another's, or with a number above five is none's.
#[test]
fn notes_are_what_the_records_say() {
    let (one, other) = (states::rich(1), states::filling(1));
    assert!(!is_sound_memory(&with_notes(&one, &Notes::of(&other))) && is_sound_memory(&with_notes(&one, &Notes::of(&one))));
    assert!(!is_sound_memory(&to_bytes(&one)[..BYTES.start]));
    for count in 0..=255 {
        let mut bytes = to_bytes(&one);
        bytes[LIST_COUNT.start] = count;
        assert_eq!(notes_from_bytes(&bytes).is_some(), count <= 5);
        assert_eq!((is_sound_memory(&bytes), record_by_record(&bytes)), (count == 5, count == 5));
    }
}

/// Every byte of a small state, written down by hand from the layout page.
#[test]
fn a_state_by_hand() {
    let mut scheduler = Scheduler::fresh(2);
    scheduler.channels[2] = states::channel(host::scheduler::Kind::Closing, 0x0102_0304, 0x0a0b, 0x0102, 0xfffe, &[0x0102, 0x0304]);
    scheduler.channels[5] = states::channel(host::scheduler::Kind::Open, 7, 0x0001, 0x0203, 9, &[0x0005]);
    scheduler.channels[2].records[0].reference = 0x1122_3344;
    scheduler.channels[2].records[1].reference = 0x5566_7788;
    scheduler.channels[5].records[0].reference = 0x99aa_bbcc;
    scheduler.rows = vec![5, 2];
    scheduler.order = 12;
    scheduler.scan.position = 0x0789;
    scheduler.scan.column = 0;
    scheduler.scan.to_visit = [2].into();
    scheduler.scan.visit = Some(5);
    assert!(scheduler.sound());
    let mut expected = vec![0; LENGTH];
    #[rustfmt::skip]
    let places: &[(usize, u8)] = &[
        (0, 5), (1, 2),
        (66, 2), (69, 1),
        (130, 2), (133, 1),
        (194, 4), (258, 3), (322, 2), (386, 1), (197, 7),
        (450, 0x0b), (514, 0x0a), (453, 1),
        (578, 2), (642, 1), (581, 3), (645, 2),
        (706, 0xfe), (770, 0xff), (709, 9),
        (832, 2), (833, 12), (834, 0x89), (835, 0x07), (837, 4), (845, 6), (846, 2),
        (896, 2), (897, 4), (898, 5), (1_408, 1), (1_409, 3),
        (1_920, 0x44), (1_921, 0x88), (1_922, 0xcc),
        (2_432, 0x33), (2_433, 0x77), (2_434, 0xbb),
        (2_944, 0x22), (2_945, 0x66), (2_946, 0xaa),
        (3_456, 0x11), (3_457, 0x55), (3_458, 0x99),
        // 0x0102 + 0x0304 = 0x0406.
        (3_970, 0x06), (4_034, 0x04), (3_973, 5),
        (4_096, 2), (4_097, 2), (4_098, 5),
    ];
    for &(place, byte) in places {
        expected[place] = byte;
    }
    assert_eq!(to_bytes(&scheduler), expected);
    assert_eq!(from_bytes(&expected), Some(scheduler));
}

#[test]
fn slots_to_visit_are_bits_of_one_number() {
    let mut scheduler = Scheduler::fresh(1);
    scheduler.scan.to_visit = [0, 9, 63].into();
    let bytes = to_bytes(&scheduler);
    assert_eq!(&bytes[TO_VISIT.places()], [1, 2, 0, 0, 0, 0, 0, 128]);
}

#[test]
fn each_byte_has_a_name() {
    assert_eq!(name_of(0), "rows, lane 0, byte 0");
    assert_eq!(name_of(192 + 64 + 3), "ticket, lane 3, byte 1");
    assert_eq!((name_of(846), name_of(847)), ("edition, lane 0, byte 0".to_string(), "parked, lane 0, byte 0".to_string()));
    assert_eq!((name_of(848), name_of(895)), ("nothing, lane 0, byte 0".to_string(), "nothing, lane 47, byte 0".to_string()));
    assert_eq!(name_of(3_967), "reference, lane 511, byte 3");
    assert_eq!(
        (name_of(3_968), name_of(4_033)),
        ("bytes waiting, lane 0, byte 0".to_string(), "bytes waiting, lane 1, byte 1".to_string())
    );
    assert_eq!((name_of(4_096), name_of(4_101)), ("number listed, lane 0, byte 0".to_string(), "fullest, lane 4, byte 0".to_string()));
    assert!((0..LENGTH).all(|place| name_of(place) != name_of(LENGTH)));
}

#[test]
fn sound_states_round_trip() {
    let mut random = Random::new(11);
    for round in 0..2_000 {
        let most = random.pick(&[1, 4, 30, 64]);
        let edition = 1 + round % 2;
        let scheduler = match round % 5 {
            3 => pool::any_at_limit(&mut random, edition),
            4 => pool::any_full_channel(&mut random, edition),
            _ => states::any_sound(&mut random, edition, most),
        };
        assert_eq!(scheduler.broken(), [], "round {round}");
        let bytes = to_bytes(&scheduler);
        assert_eq!((from_bytes(&bytes).as_ref(), notes_from_bytes(&bytes)), (Some(&scheduler), Some(Notes::of(&scheduler))));
        assert!(is_sound_memory(&bytes) && record_by_record(&bytes));
    }
}

/// Bytes changed at random: what decodes is written as it was read, and the two checks agree.
#[test]
fn damaged_memories_decode_or_not() {
    let mut random = Random::new(12);
    let (mut sound, mut unsound, mut nothing) = (0, 0, 0);
    for _ in 0..30_000 {
        let (most, edition) = (random.pick(&[1, 4, 64]), random.pick(&EDITIONS));
        let mut bytes = to_bytes(&states::any_sound(&mut random, edition, most));
        for _ in 0..random.from_to(1, 3) {
            let (start, end) =
                random.pick(&[(0, TICKET.start), (0, LENGTHS.start), (0, LENGTHS.start), (0, LENGTH), (BYTES.start, LENGTH)]);
            let place = start + random.below((end - start) as u64) as usize;
            bytes[place] = random.pick(&[0, 1, 2, 255, bytes[place] ^ 1, bytes[place].wrapping_add(1)]);
        }
        assert_eq!(record_by_record(&bytes), is_sound_memory(&bytes));
        match from_bytes(&bytes) {
            Some(scheduler) => {
                assert_eq!(from_bytes(&to_bytes(&scheduler)), Some(scheduler));
                if is_sound_memory(&bytes) {
                    sound += 1
                } else {
                    unsound += 1
                }
            }
            None => nothing += 1,
        }
    }
    assert!(sound > 1_000 && unsound > 1_000 && nothing > 100, "{sound} {unsound} {nothing}");
}

#[test]
fn random_bytes_do_not_stop_the_reader() {
    let mut random = Random::new(13);
    for _ in 0..2_000 {
        let mut bytes: Vec<u8> = (0..LENGTH).map(|_| if random.chance(1, 40) { random.number() as u8 } else { 0 }).collect();
        bytes[EDITION.start] = random.pick(&[0, 1, 2]);
        assert_eq!(record_by_record(&bytes), is_sound_memory(&bytes));
    }
}
