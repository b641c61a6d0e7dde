//! "No public call has a requires": the signatures of the public calls in the Rattle sources. A `requires` there would narrow what the call promises, and stay
//! proved; an `ensures` that is missing would promise nothing.

mod rattle;

use rattle::{functions, source, Function};

/// Where the public calls stand, and which they are.
const CALLS: [(&str, &[&str]); 14] = [
    ("uplink/src/open.rt", &["start", "open"]),
    ("uplink/src/put.rt", &["put"]),
    ("uplink/src/close.rt", &["close"]),
    ("uplink/src/next.rt", &["next"]),
    ("uplink/src/ask.rt", &["ask"]),
    ("uplink/src/filling.rt", &["fullest"]),
    ("spread/src/lib.rt", &["term", "lead"]),
    ("image/src/writer.rt", &["park"]),
    ("reader/src/reader.rt", &["unpark"]),
    ("sheet/src/lib.rt", &["check"]),
    ("support/src/lib.rt", &SUPPORT),
    ("support_c/src/lib.rt", &SUPPORT),
    ("driver/src/lib.rt", &DRIVER),
    ("driver_c/src/lib.rt", &DRIVER),
];

/// The entries for C, of the adapter and of support's engine.
const DRIVER: [&str; 12] = [
    "uplink_start",
    "uplink_open",
    "uplink_put",
    "uplink_close",
    "uplink_next",
    "uplink_ask",
    "uplink_fullest",
    "uplink_park",
    "uplink_unpark",
    "uplink_term",
    "uplink_lead",
    "uplink_sheet",
];
const SUPPORT: [&str; 2] = ["plain_put", "plain_next"];

/// What is wrong with the contract of a public call.
fn wrong(function: &Function) -> Option<String> {
    let has = |clause: &str| function.clauses.iter().any(|found| found == clause);
    match () {
        () if !function.public => Some(format!("{} is not public", function.name)),
        () if has("requires") => Some(format!("{} has a requires", function.name)),
        () if !has("ensures") => Some(format!("{} has no ensures", function.name)),
        () => None,
    }
}

#[test]
fn no_public_call_has_a_requires() {
    let mut found = Vec::new();
    for (file, calls) in CALLS {
        let functions = functions(&source(file));
        for &call in calls {
            match functions.iter().filter(|function| function.name == call).collect::<Vec<_>>()[..] {
                [function] => found.extend(wrong(function).map(|what| format!("{file}: {what}"))),
                ref several => found.push(format!("{file}: {} functions named {call}", several.len())),
            }
        }
    }
    assert!(found.is_empty(), "{}", found.join("\n"));
}

/// An entry that this list does not have would be a public call that nobody looks at.
#[test]
fn every_exported_entry_is_listed() {
    for (file, calls) in &CALLS[10..] {
        let exported: Vec<String> = functions(&source(file)).into_iter().filter(|f| f.exported).map(|f| f.name).collect();
        assert_eq!(exported, *calls);
    }
}

/// What an archive exports has the parameters and the contract of the library's function, word for word. (That it calls that function is proved.)
#[test]
fn exported_entries_say_what_the_library_says() {
    for library in ["driver", "support"] {
        let entries = |name: &str| functions(&source(&format!("{name}/src/lib.rt"))).into_iter().filter(|function| function.exported);
        let signatures: Vec<String> = entries(library).map(|entry| entry.signature).collect();
        assert_eq!(entries(&format!("{library}_c")).map(|entry| entry.signature).collect::<Vec<_>>(), signatures);
        assert!(signatures.iter().all(|signature| signature.contains(") -> u32 ensures { ") && signature.ends_with('}')), "{signatures:?}");
    }
}

#[test]
fn clauses_are_seen() {
    let text = "// fn none() requires { no }\n#[unsafe(no_mangle)]\npub extern \"C\" fn one(a: &mut [u8], b: u32) -> u32\n    requires { b ≡ 1 }\n    \
                ensures { result ≡ { b } }\n{\n    two(b)\n}\nfn two(b: u32) -> Found<u32> { b }\npub fn three()\n    ensures { x }\n{}\n\
                pub fn five()\n    requires low { b ≡ 1 }\n    requires* place { x }\n    ensures high { x }\n{}\n";
    let found = functions(text);
    assert_eq!(
        found.iter().map(|f| (&f.name[..], f.public, f.exported, f.clauses.join(" "))).collect::<Vec<_>>(),
        [
            ("one", true, true, "requires ensures".to_string()),
            ("two", false, false, String::new()),
            ("three", true, false, "ensures".to_string()),
            ("five", true, false, "requires requires ensures".to_string()),
        ]
    );
    assert_eq!(found[0].parameters, [("a".to_string(), "&mut [u8]".to_string()), ("b".to_string(), "u32".to_string())]);
    assert_eq!((&found[0].result[..], &found[1].result[..], &found[2].result[..]), ("u32", "Found<u32>", ""));
    assert_eq!(found[0].signature, "one(a: &mut [u8], b: u32) -> u32 requires { b ≡ 1 } ensures { result ≡ { b } }");
    assert_eq!((&found[1].signature[..], &found[2].signature[..]), ("two(b: u32) -> Found<u32>", "three() ensures { x }"));
    assert_eq!(wrong(&found[0]), Some("one has a requires".to_string()));
    assert_eq!(wrong(&found[1]), Some("two is not public".to_string()));
    assert_eq!(wrong(&found[2]), None);
    assert_eq!(wrong(&found[3]), Some("five has a requires".to_string()));
    assert_eq!(wrong(&functions("pub fn four() {}")[0]), Some("four has no ensures".to_string()));
    assert_eq!(wrong(&functions("pub fn six()\n    requires* { x }\n    ensures { x }\n{}\n")[0]), Some("six has a requires".to_string()));
}
