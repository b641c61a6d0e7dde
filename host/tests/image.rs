//! The parked image (document 02, §6) of the independent scheduler: where each byte stands, worked out by hand, the reader against the writer, and bytes that are no
//! image.

use host::image::{image_of, read, HEAD, LONGEST_IMAGE};
use host::pool;
use host::random::Random;
use host::scheduler::{Kind, Scheduler, EDITIONS, PARKED, SLOTS};
use host::states;

/// "version byte 1; four bytes, the length of what follows; edition; order; P in two bytes; column; eight bytes ...; the slot in visit or 255; the number of
/// rows": 15 bytes of what follows, and 64 entries of 12 bytes.
#[test]
fn the_fresh_state_by_hand() {
    for edition in [1, 2] {
        let head = [1, 0, 0, 3, 15, edition, 0, 0, 0, 0, 0, 0, 0, 0, 0, 0, 0, 0, 255, 0];
        let expected = [&head[..], &[0; 768]].concat();
        assert_eq!((head.len(), expected.len()), (20, 788));
        let fresh = Scheduler::fresh(u64::from(edition));
        assert_eq!(image_of(&fresh), expected);
        assert_eq!(read(&expected), Some(fresh));
    }
}

/// Two rows, a list, a visit and three records: every byte, written down by hand from the document.
#[test]
fn a_state_by_hand() {
    let mut scheduler = Scheduler::fresh(2);
    scheduler.channels[1].ticket = 0xfffe_fdfc;
    scheduler.channels[2] = states::channel(Kind::Closing, 0x0102_0304, 0x0a0b, 0x0102, 0xfffe, &[0x0102, 0x0304]);
    scheduler.channels[5] = states::channel(Kind::Open, 7, 0x0001, 0x0203, 9, &[0x0005]);
    scheduler.channels[2].records[0].reference = 0x1122_3344;
    scheduler.channels[2].records[1].reference = 0x5566_7788;
    scheduler.channels[5].records[0].reference = 0x99aa_bbcc;
    scheduler.channels[63] = states::channel(Kind::Open, 0x8000_0001, 0x0fff, 0, 0x00ff, &[]);
    scheduler.rows = vec![5, 2];
    scheduler.order = 12;
    scheduler.scan.position = 0x0789;
    scheduler.scan.to_visit = [2].into();
    scheduler.scan.visit = Some(5);
    assert!(scheduler.sound());
    #[rustfmt::skip]
    let expected = [
        // 15 + 2 rows + 64 entries of 12 + 3 records of 6 = 803 = 0x0323.
        &[1, 0, 0, 0x03, 0x23, 2, 12, 0x07, 0x89, 0, 0, 0, 0, 0, 0, 0, 0, 0x04, 5, 2, 5, 2][..],
        &[0; 12],
        &[0, 0xff, 0xfe, 0xfd, 0xfc, 0, 0, 0, 0, 0, 0, 0],
        &[2, 0x01, 0x02, 0x03, 0x04, 0x0a, 0x0b, 0x01, 0x02, 0xff, 0xfe, 2],
        &[0x01, 0x02, 0x11, 0x22, 0x33, 0x44, 0x03, 0x04, 0x55, 0x66, 0x77, 0x88],
        &[0; 24],
        &[1, 0, 0, 0, 7, 0, 1, 0x02, 0x03, 0, 9, 1],
        &[0x00, 0x05, 0x99, 0xaa, 0xbb, 0xcc],
        &[0; 57 * 12],
        &[1, 0x80, 0, 0, 0x01, 0x0f, 0xff, 0, 0, 0, 0xff, 0],
    ].concat();
    assert_eq!(image_of(&scheduler), expected);
    assert_eq!(read(&expected), Some(scheduler.clone()));
    // The mark is not in it, and a state that is read is not parked.
    assert_eq!(image_of(&Scheduler { mark: PARKED, ..scheduler }), expected);
}

/// "eight bytes with bit s set for each slot s still to visit": one big-endian number, so that slot 0 is the lowest bit of the last byte.
#[test]
fn slots_to_visit_are_bits_of_one_number() {
    let mut scheduler = Scheduler::fresh(1);
    scheduler.scan.to_visit = [0, 9, 63].into();
    assert_eq!(image_of(&scheduler)[10..18], [128, 0, 0, 0, 0, 0, 2, 1]);
}

/// A visit of slot 0 is 0, and no visit is 255.
#[test]
fn the_first_slot_in_visit_is_no_255() {
    let mut scheduler = states::with_rows(1, &[(0, states::channel(Kind::Open, 1, 1, 1_024, 1, &[1_014]))], &[0]);
    scheduler.scan.visit = Some(0);
    assert!(scheduler.sound());
    assert_eq!(image_of(&scheduler)[18], 0);
    assert_eq!(read(&image_of(&scheduler)), Some(scheduler.clone()));
    scheduler.scan.visit = None;
    scheduler.channels[0].deficit = 0;
    assert_eq!(image_of(&scheduler)[18], 255);
}

/// 5 + 15 + 64 rows + 64 entries of 12 + 512 records of 6.
#[test]
fn the_longest_image() {
    for edition in EDITIONS {
        assert_eq!(image_of(&pool::full(edition)).len(), 3_924);
        assert_eq!(LONGEST_IMAGE, 5 + 15 + 64 + 64 * 12 + 512 * 6);
        for (name, state) in states::unreached(edition) {
            assert!(image_of(&state).len() <= LONGEST_IMAGE, "{name}");
        }
    }
}

/// Any sound state of each generator, in turn.
fn any(random: &mut Random, turn: u64) -> Scheduler {
    let (edition, most) = (1 + turn % 2, random.pick(&[1, 4, 30, 64]));
    match turn / 2 % 7 {
        0 => pool::any_at_limit(random, edition),
        1 => pool::any_full_channel(random, edition),
        2 => states::near_round_end(random, edition),
        3 => states::near_last_serial(random, edition),
        4 => states::near_last_ticket(random, edition),
        _ => states::any_sound(random, edition, most),
    }
}

/// "Reading what was written gives the same state; each sound state has one image."
#[test]
fn sound_states_round_trip() {
    let mut random = Random::new(51);
    let named = EDITIONS.into_iter().flat_map(states::unreached).map(|(_, state)| Scheduler { mark: 0, ..state });
    let states: Vec<Scheduler> = (0..4_000).map(|turn| any(&mut random, turn)).chain(named).collect();
    for state in states {
        assert!(state.sound());
        let image = image_of(&state);
        let records: usize = state.channels.iter().map(|channel| channel.records.len()).sum();
        assert_eq!(image.len(), HEAD + 15 + state.rows.len() + SLOTS * 12 + records * 6);
        assert_eq!(read(&image), Some(state));
    }
}

/// No image: cut at any place, with bytes behind, of another version, with another length in its head.
#[test]
fn an_image_is_whole() {
    for state in [Scheduler::fresh(1), states::rich(2), pool::full(1)] {
        let image = image_of(&state);
        assert!((0..image.len()).all(|end| read(&image[..end]).is_none()));
        for more in [&[0][..], &[1], &[255], &[0; 12]] {
            let longer = [&image[..], more].concat();
            assert_eq!(read(&longer), None);
            assert_eq!(read(&with_length(longer)), None);
        }
        assert_eq!(read(&with_length(image[..image.len() - 1].to_vec())), None);
        assert_eq!(read(&with_length(image[..image.len() - 12].to_vec())), None);
        for version in [0, 2, 3, 255] {
            assert_eq!(read(&set(&image, 0, version)), None);
        }
        for place in 1..HEAD {
            assert!((0..=255).filter(|&byte| byte != image[place]).all(|byte| read(&set(&image, place, byte)).is_none()));
        }
    }
}

/// The bytes with the length of what follows in their head.
fn with_length(mut image: Vec<u8>) -> Vec<u8> {
    let length = (image.len() - HEAD) as u32;
    image[1..HEAD].copy_from_slice(&length.to_be_bytes());
    image
}

fn set(image: &[u8], place: usize, byte: u8) -> Vec<u8> {
    let mut changed = image.to_vec();
    changed[place] = byte;
    changed
}

/// Single bytes that make rich() unsound, or that no image has. Its 5 rows stand from byte 20 on, the entries from byte 25 on: slot 0's, then slot 1's with two
/// records, slot 2's, slot 3's with three.
#[test]
fn wrong_fields_by_hand() {
    let image = image_of(&states::rich(1));
    assert_eq!((image[5..25].to_vec(), image[25]), (vec![1, 4, 0, 4, 2, 0, 0, 0, 0, 0, 0, 0, 10, 63, 5, 9, 63, 3, 1, 5], 0));
    let entries = [25, 37, 61, 73];
    assert_eq!(entries.map(|at| (image[at], image[at + 4], image[at + 11])), [(0, 5, 0), (1, 1, 2), (1, 3, 0), (2, 9, 3)]);
    let wrong = [
        ("edition 0", 5, 0),
        ("edition 3", 5, 3),
        ("the order is one too high in edition 1", 6, 5),
        ("the order is one too low", 6, 3),
        ("P is 2^k", 8, 16),
        ("P is above 255", 7, 1),
        ("another column", 9, 3),
        ("a slot to visit that is no row", 17, 14),
        ("the visit's slot is listed", 10, 128),
        ("no visit, and its deficit stays in range: sound", 18, 255),
        ("a visit of a free slot", 18, 0),
        ("a visit of slot 64", 18, 64),
        ("a visit of slot 254", 18, 254),
        ("one row fewer", 19, 4),
        ("one row more", 19, 6),
        ("a row above 63", 20, 64),
        ("a row twice", 20, 63),
        ("kind 3", 25, 3),
        ("a free slot is open", 25, 1),
        ("an open slot is closing without records", 61, 2),
        ("ticket 0", 41, 0),
        ("weight 0", 43, 0),
        ("a deficit above 1,023", 44, 4),
        ("a free slot has a next serial", 35, 1),
        ("a free slot has a record", 36, 1),
        ("one record fewer", 48, 1),
        ("a length above 1,014", 49, 4),
        ("a length of 0", 86, 0),
    ];
    for (name, place, byte) in wrong {
        let changed = set(&image, place, byte);
        let sound = name.ends_with("sound");
        assert_eq!(read(&changed).is_some(), sound, "{name}");
    }
}

/// A read image is exactly what the writer writes for the state that was read: every byte changed, to every value in the head and the rows and to some elsewhere.
#[test]
fn what_is_read_is_what_is_written() {
    let mut random = Random::new(52);
    let (mut taken, mut refused) = (0, 0);
    for state in [Scheduler::fresh(1), states::rich(1), states::rich(2), states::door(12, 2_047, &[1_014; 3]), any(&mut random, 0)] {
        let image = image_of(&state);
        for place in 0..image.len() {
            let all = place < 20 + state.rows.len();
            let (any, was) = (random.number() as u8, image[place]);
            let some = [0, 1, 2, 3, 4, 63, 64, 128, 255, was ^ 1, was ^ 128, was.wrapping_add(1), was.wrapping_sub(1), any];
            for byte in if all { (0..=255).collect::<Vec<u8>>() } else { some.to_vec() } {
                let changed = set(&image, place, byte);
                match read(&changed) {
                    Some(state) => {
                        assert!(state.sound() && state.mark == 0 && image_of(&state) == changed);
                        taken += 1;
                    }
                    None => refused += 1,
                }
            }
        }
    }
    assert!(taken > 20_000 && refused > 20_000, "{taken} {refused}");
}
