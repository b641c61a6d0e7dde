//! include/uplink.h against what it declares: the numbers of the proved code, the limits of the specs, the lengths that the entries take, and their parameters. It
//! is typed by hand and nothing proves it, so each name of it is looked up, and one that is not known here is a mistake. include/plain.h is held against it.

mod common;
mod rattle;

use std::collections::BTreeMap;
use std::fs;
use std::path::Path;

use host::answers::Refusal;
use host::engine::Engine;
use host::history::Call;
use host::layout::{fresh, to_bytes, LENGTH};
use host::pool::full;
use rattle::{functions, source, without_comments};

type Numbers = BTreeMap<String, u64>;

fn read(path: &str) -> String {
    fs::read_to_string(Path::new(env!("CARGO_MANIFEST_DIR")).join(path)).unwrap_or_else(|error| panic!("{path}: {error}"))
}

/// The header of the adapter's entries.
fn header() -> String {
    header_of("uplink")
}

/// A header without its comments.
fn header_of(name: &str) -> String {
    let text = read(&format!("../include/{name}.h"));
    text.split("/*").map(|part| part.split_once("*/").map_or(part, |(_, after)| after)).collect()
}

/// A C number: digits, perhaps with a suffix or in UINT32_C.
fn number(text: &str) -> Option<u64> {
    let text = text.trim();
    let inside = text.strip_prefix("UINT32_C(").or(text.strip_prefix("UINT64_C(")).and_then(|rest| rest.strip_suffix(')'));
    inside.unwrap_or(text).trim_end_matches(['u', 'U', 'l', 'L']).parse().ok()
}

/// Entries whose names have to differ.
fn once(pairs: impl IntoIterator<Item = (String, u64)>) -> Numbers {
    let mut numbers = Numbers::new();
    for (name, number) in pairs {
        assert_eq!(numbers.insert(name.clone(), number), None, "{name} is there twice");
    }
    numbers
}

/// `NAME = number` of enum uplink_refusal, without the prefix.
fn refusals(header: &str) -> Numbers {
    let (_, rest) = header.split_once("enum uplink_refusal {").expect("the header has the enum of refusals");
    let (inside, _) = rest.split_once('}').expect("the enum ends");
    once(inside.split(',').map(str::trim).filter(|entry| !entry.is_empty()).map(|entry| {
        let (name, value) = entry.split_once('=').unwrap_or_else(|| panic!("{entry}: no number"));
        let name = name.trim().strip_prefix("UPLINK_").unwrap_or_else(|| panic!("{entry}: another prefix"));
        (name.to_string(), number(value).unwrap_or_else(|| panic!("{entry}: no number")))
    }))
}

/// `#define UPLINK_NAME number`, without the prefix. Only the guard has no number.
fn macros(header: &str) -> Numbers {
    once(header.lines().filter_map(|line| {
        let (name, value) = line.strip_prefix("#define ")?.split_once(' ').unwrap_or((&line[8..], ""));
        let name = name.strip_prefix("UPLINK_").unwrap_or_else(|| panic!("{line}: another prefix"));
        let found = number(value).map(|number| (name.to_string(), number));
        assert!(found.is_some() || (name, value) == ("H", ""), "{line}: no number");
        found
    }))
}

/// no_slot and NoSlot as NO_SLOT.
fn capitals(name: &str) -> String {
    let mut found = String::new();
    for (at, letter) in name.char_indices() {
        if letter.is_uppercase() && at > 0 {
            found.push('_');
        }
        found.extend(letter.to_uppercase());
    }
    found
}

/// The numbers of refusals in the proved code: the cases of the enum, each with its number, and the driver's constants of the header's names.
fn proved_refusals(declared: &Numbers) -> Numbers {
    let text = without_comments(&source("answers/src/lib.rt"));
    let (_, rest) = text.split_once("pub enum Refusal {\n").expect("the enum stands in answers");
    let (cases, rest) = rest.split_once("\n}\n").expect("the enum ends");
    let found = cases.lines().map(|case| {
        let (name, value) = case.trim().trim_end_matches(',').split_once(" = ").unwrap_or_else(|| panic!("{case}: no number"));
        (capitals(name), number(value).unwrap_or_else(|| panic!("{case}: no number")))
    });
    let found: Vec<(String, u64)> = found.collect();
    // What comes back is that number: a case is turned into it, and into no other.
    let (_, from) = rest.split_once("fn from(why: Refusal) -> u32 {\n").expect("a refusal is turned into a number");
    assert_eq!(from.lines().next().map(str::trim), Some("why as u32"));
    let mut numbers = once(found);
    for line in source("driver/src/lib.rt").lines().filter(|line| line.starts_with("const ")) {
        let Some((name, value)) = line["const ".len()..].split_once(": u32 = ") else { continue };
        if declared.contains_key(name) {
            let value = number(value.trim_end_matches(';')).unwrap_or_else(|| panic!("{line}: no number"));
            assert_eq!(*numbers.entry(name.to_string()).or_insert(value), value, "{line}: the enum says otherwise");
        }
    }
    numbers
}

#[test]
fn refusals_have_the_numbers_of_the_code() {
    let mut declared = refusals(&header());
    assert_eq!(declared.remove("ACCEPTED"), Some(0));
    assert_eq!(declared, proved_refusals(&declared));
}

/// The independent scheduler and the wrapper use the header's names, each with numbers of its own.
#[test]
fn refusals_have_the_same_names_in_rust() {
    let mut declared = refusals(&header());
    declared.remove("ACCEPTED");
    let named = |refusal: &Refusal| (capitals(&format!("{refusal:?}")), u64::from(refusal.number()));
    assert_eq!(declared, once(Refusal::ALL.iter().map(named)));
    #[cfg(feature = "linked")]
    {
        let named = |refusal: &uplink::Refusal| (capitals(&format!("{refusal:?}")), u64::from(refusal.number()));
        assert_eq!(declared, once(uplink::Refusal::ALL.iter().map(named)));
    }
}

/// The wrapper says of a refusal what `uplink_text` says in C.
#[test]
#[cfg(feature = "linked")]
fn refusals_have_the_same_texts_in_rust() {
    let header = header();
    for refusal in uplink::Refusal::ALL {
        let case = format!("case UPLINK_{}: return \"{refusal}\";", capitals(&format!("{refusal:?}")));
        assert!(header.contains(&case), "uplink_text has no: {case}");
    }
}

/// `name = number` of the specs that hold the documents' limits.
fn limits() -> Numbers {
    let texts = source("rules/specs/Numbers.antt") + &source("spread/specs/Limits.antt") + &source("sheet/specs/Sheet.antt");
    once(texts.lines().filter_map(|line| {
        let (name, value) = line.split_once(" = ")?;
        Some((capitals(name), number(value)?))
    }))
}

/// The lengths, of those up to 64 bytes, of the answer buffers that the engine under test takes for a call.
fn taken(call: Call) -> Vec<u64> {
    let takes =
        |length: &usize| common::engine().call(&call, &mut fresh(1), &mut call.image(), &mut vec![0; *length]) != Refusal::Unsound.number();
    (0..=64).filter(takes).map(|length| length as u64).collect()
}

/// The one length that is taken of those up to 10,000 bytes of state.
fn state_length() -> u64 {
    let taken: Vec<usize> = (0..10_000).filter(|&length| common::engine().start(&mut vec![1; length], 1) == 0).collect();
    assert_eq!(taken.len(), 1);
    taken[0] as u64
}

/// The length of the image where every cell is taken.
fn image_length() -> u64 {
    let mut answer = [0; 4];
    assert_eq!(common::engine().park(&mut to_bytes(&full(1)), &mut [0; LENGTH], &mut answer), 0);
    u64::from(u32::from_le_bytes(answer))
}

/// major * 10000 + minor * 100 + patch of the wrapper's crate.
fn version() -> u64 {
    let manifest = read("uplink/Cargo.toml");
    let version = manifest.lines().find_map(|line| line.strip_prefix("version = \"")?.strip_suffix('"')).expect("a version");
    version.split('.').fold(0, |all, part| 100 * all + part.parse::<u64>().expect("a number"))
}

#[test]
fn macros_have_the_numbers_of_code_and_specs() {
    let calls = [
        ("OPEN", Call::Open { weight: 1 }),
        ("PUT", Call::Put { slot: 0, ticket: 1, length: 1, reference: 1 }),
        ("CLOSE", Call::Close { slot: 0, ticket: 1 }),
        ("NEXT", Call::Next),
        ("ASK", Call::Ask { slot: 0, ticket: 1 }),
        ("FULLEST", Call::Fullest),
        ("PARK", Call::Park { room: LENGTH }),
        ("LEAD", Call::Lead { w1: 1, v1: 1, w2: 1, v2: 1 }),
        ("TERM", Call::Term { order: 1, position: 1 }),
        ("SHEET", Call::Sheet { weights: Vec::new(), rows: Vec::new() }),
    ];
    let mut expected = limits();
    for (name, call) in calls {
        let lengths = taken(call);
        assert_eq!(lengths.len(), 1, "{name}: {lengths:?}");
        expected.insert(format!("{name}_LENGTH"), lengths[0]);
    }
    expected.insert("STATE_LENGTH".to_string(), state_length());
    expected.insert("IMAGE_LENGTH".to_string(), image_length());
    expected.insert("VERSION".to_string(), version());
    let declared = macros(&header());
    for (name, number) in &declared {
        assert_eq!(expected.get(name), Some(number), "UPLINK_{name}, beside what the code or the specs have of that name");
    }
    for name in expected.keys().filter(|name| name.ends_with("_LENGTH") || *name == "VERSION") {
        assert!(declared.contains_key(name), "the header has no UPLINK_{name}");
    }
}

/// Types and names of an entry's parameters, as C has them.
type Parameters = Vec<(String, String)>;

/// The declarations of a text by the entry's name; given are what stands before each, and how a parameter is read.
fn declared(text: &str, before: &str, parameter: impl Fn(&str) -> (String, String)) -> BTreeMap<String, Parameters> {
    let mut found = BTreeMap::new();
    for rest in text.split(before).skip(1) {
        let (name, rest) = rest.split_once('(').expect("a declaration has parameters");
        let (parameters, _) = rest.split_once(')').expect("the parameters end");
        let parameters = parameters.split(',').map(|one| one.split_whitespace().collect::<Vec<_>>().join(" "));
        let parameters = parameters.filter(|one| !one.is_empty()).map(|one| parameter(&one)).collect();
        assert_eq!(found.insert(name.to_string(), parameters), None, "{name} is declared twice");
    }
    found
}

/// The entries of a header.
fn in_c(header: &str) -> BTreeMap<String, Parameters> {
    declared(&header_of(header), "\nuint32_t ", |parameter| {
        let name = parameter.rfind([' ', '*']).expect("a type and a name") + 1;
        (parameter[..name].trim().to_string(), parameter[name..].to_string())
    })
}

/// The entries that a crate of the proved code exports. A slice is a pointer and a length in C, and one that is only read points to const.
fn in_rattle(name: &str) -> BTreeMap<String, Parameters> {
    let mut entries = BTreeMap::new();
    for entry in functions(&source(&format!("{name}/src/lib.rt"))).into_iter().filter(|function| function.exported) {
        assert_eq!(entry.result, "u32", "{}", entry.name);
        let mut parameters = Vec::new();
        for (name, kind) in entry.parameters {
            let pointer = match &kind[..] {
                "u32" => "uint32_t",
                "&[u32]" => "const uint32_t *",
                "&[u8]" => "const uint8_t *",
                "&mut [u8]" => "uint8_t *",
                _ => panic!("{}: a parameter of type {kind}", entry.name),
            };
            parameters.push((pointer.to_string(), name.clone()));
            if kind != "u32" {
                parameters.push(("size_t".to_string(), name + "_length"));
            }
        }
        entries.insert(entry.name, parameters);
    }
    entries
}

/// The entries as a file of Rust declares them.
fn in_rust(file: &str) -> BTreeMap<String, Parameters> {
    declared(&read(file), "\n    pub fn ", |parameter| {
        let (name, kind) = parameter.split_once(": ").expect("a name and a type");
        let kind = match kind {
            "u32" => "uint32_t",
            "usize" => "size_t",
            "*const u8" => "const uint8_t *",
            "*const u32" => "const uint32_t *",
            "*mut u8" => "uint8_t *",
            _ => panic!("{parameter}: another type"),
        };
        (kind.to_string(), name.to_string())
    })
}

/// The same entries with the same parameters, in the order of their places.
fn compare(declared: BTreeMap<String, Parameters>) {
    let entries = in_rattle("driver_c");
    assert_eq!(declared.keys().collect::<Vec<_>>(), entries.keys().collect::<Vec<_>>());
    for (name, parameters) in declared {
        assert_eq!(parameters, entries[&name], "{name}, beside crates/driver_c/src/lib.rt");
    }
}

#[test]
fn entries_have_the_parameters_of_the_code() {
    compare(in_c("uplink"));
}

#[test]
fn entries_have_the_parameters_of_the_code_in_rust() {
    compare(in_rust("uplink/src/entries.rs"));
}

/// include/plain.h has Put and Next under names of its own, with the uplink's parameters, and no number that could differ from the uplink's.
#[test]
fn plain_declares_the_calls_of_the_uplink() {
    let (uplink, header) = (in_c("uplink"), header_of("plain"));
    assert!(header.contains("#include \"uplink.h\""));
    assert_eq!(header.lines().filter(|line| line.starts_with("#define")).collect::<Vec<_>>(), ["#define PLAIN_H"]);
    for entries in [in_c("plain"), in_rust("src/entries.rs"), in_rattle("support_c")] {
        assert_eq!(entries.keys().collect::<Vec<_>>(), ["plain_next", "plain_put"]);
        for (name, parameters) in entries {
            assert_eq!(parameters, uplink[&name.replace("plain_", "uplink_")], "{name}");
        }
    }
}
