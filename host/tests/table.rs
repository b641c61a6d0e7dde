//! The table of terms stays out of what adapters and the command program carry: it is crates/terms, and neither their crates nor their bytes have it. The archive of
//! support's engine has it.

mod rattle;

use std::collections::{BTreeMap, BTreeSet};
use std::fs;
use std::path::Path;

use host::spread::sequence;
use rattle::source;

const TABLE_ORDER: u64 = 12;

fn read(path: &str) -> Vec<u8> {
    fs::read(Path::new(env!("CARGO_MANIFEST_DIR")).join("..").join(path)).unwrap_or_else(|error| panic!("{path}: {error}"))
}

/// The terms of an order, a byte each.
fn terms(order: u64) -> Vec<u8> {
    sequence(order).iter().map(|&term| u8::try_from(term).unwrap()).collect()
}

/// Whether bytes hold a part of the table. Compiled code need not keep it whole: it kept the different stretches of 16 bytes alone, and copied these to the
/// stack as often as they come. So what is looked for is S(3), the first 7 terms of every stretch of 8.
fn holds_terms(bytes: &[u8]) -> bool {
    let start = terms(3);
    bytes.windows(start.len()).any(|found| found == start)
}

/// The crates that a crate is made of, itself among them, by crates.txt.
fn linked_by(name: &str) -> BTreeSet<String> {
    let listed = String::from_utf8(read("crates.txt")).unwrap();
    let lines = listed.lines().filter_map(|line| line.split_once(':'));
    // A static library has that word behind its name.
    let uses: BTreeMap<&str, &str> = lines.map(|(head, uses)| (head.split_whitespace().next().unwrap_or_default(), uses)).collect();
    let (mut found, mut left) = (BTreeSet::new(), vec![name]);
    while let Some(name) = left.pop() {
        if found.insert(name.to_string()) {
            left.extend(uses.get(name).into_iter().flat_map(|uses| uses.split_whitespace()));
        }
    }
    found
}

/// The numbers of the table as they are written in the code.
fn written() -> Vec<u8> {
    let text = source("terms/src/table.rt");
    let (_, inside) = text.split_once("= [").expect("the table opens");
    let (inside, _) = inside.split_once(']').expect("the table closes");
    inside.split(',').map(str::trim).filter(|number| !number.is_empty()).map(|number| number.parse().unwrap()).collect()
}

#[test]
fn neither_entries_nor_program_are_made_of_it() {
    for name in ["driver_c", "lift"] {
        let crates = linked_by(name);
        assert!(crates.contains("spread") && crates.contains("bits"), "{name} is made of {crates:?}");
        assert!(!crates.contains("terms"), "{name} links the table of terms");
    }
    assert!(linked_by("support_c").contains("terms"));
}

#[test]
#[cfg(feature = "linked")]
fn neither_archive_nor_program_has_its_bytes() {
    for path in ["target/staticlib/libdriver.a", "target/bin/lift"] {
        let bytes = read(path);
        assert!(bytes.len() > 10_000, "{path} has {} bytes", bytes.len());
        assert!(!holds_terms(&bytes), "{path} has terms of the table in it");
    }
}

/// Support's engine takes its terms from the table: the same search finds it there.
#[test]
#[cfg(feature = "linked")]
fn the_archive_of_support_has_its_bytes() {
    assert!(holds_terms(&read("target/staticlib/libsupport.a")));
}

/// The search finds the table whole, and cut into the stretches that compiled code may keep of it: any of them, between other bytes.
#[test]
fn a_table_is_found() {
    let table = written();
    assert_eq!(table, terms(TABLE_ORDER));
    assert!(holds_terms(&table));
    for stretch in [8, 16, 32] {
        for part in table.chunks(stretch) {
            assert!(holds_terms(&[&[0; 5], part, &[0xff; 5]].concat()), "{part:?}");
        }
    }
}

/// And it finds nothing in numbers that only begin like it.
#[test]
fn other_numbers_are_not() {
    assert!(!holds_terms(&terms(2).repeat(100)));
    assert!(!holds_terms(&(0..=255).collect::<Vec<u8>>()));
}
