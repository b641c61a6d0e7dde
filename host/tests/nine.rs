//! 9 is not used (document 02, §8). Where a record waits Next sends one, within the terms that it may take; and no text of the project speaks of 9 as an answer but
//! docs/requests and docs/DECISIONS.md, which tell how it went.

mod common;

use std::fs;
use std::path::{Path, PathBuf};

use host::engine::Engine;
use host::layout;
use host::model::answer_fields;
use host::random::Random;
use host::states;

/// Sound states of both editions, reached or not, with a record waiting: each is sent one, after at most two terms in edition 1 and 2^k - 1 in edition 2.
#[test]
fn a_row_is_found_in_every_sound_state() {
    let mut engine = common::engine();
    let mut random = Random::new(8);
    let (mut count, mut most_taken) = (0, [0, 0]);
    for turn in 0..20_000 {
        let edition = 1 + turn % 2;
        let before = match turn % 3 {
            0 => states::near_round_end(&mut random, edition),
            1 if edition == 2 => states::door(12, random.from_to(0, 4_094), &[1_014, 1_014]),
            _ => states::any_sound(&mut random, edition, 4),
        };
        if before.rows.is_empty() || before.mark != host::scheduler::GOING {
            continue;
        }
        let (mut state, mut answer) = (layout::to_bytes(&before), [0; 28]);
        let number = engine.next(&mut state, &mut answer);
        let terms = u64::from(answer_fields(&answer).last().unwrap());
        let most = if edition == 1 { 2 } else { (1 << before.order) - 1 };
        assert!(number == 0 && terms <= most, "{before:?}: number {number}, {terms} terms");
        count += 1;
        most_taken[turn as usize % 2] = terms.max(most_taken[turn as usize % 2]);
    }
    assert!(count > 10_000 && most_taken[0] == 2 && most_taken[1] > 1_000, "{count} states, at most {most_taken:?} terms");
}

fn root() -> PathBuf {
    Path::new(env!("CARGO_MANIFEST_DIR")).join("..")
}

/// Every text of the project but the two that may speak of it. What must-fail edits and host/slips put in is left out, since it has to be wrong, and so are this
/// file, which has the words that are looked for, the mailbox of what lies unfinished, and what the checker writes beside a crate's sources.
fn texts() -> Vec<(PathBuf, String)> {
    let left_out = [
        ".git",
        "target",
        "docs/requests",
        "docs/DECISIONS.md",
        "host/target",
        "host/slips",
        "host/tests/nine.rs",
        "unfinished/office.mbox",
    ]
    .map(|path| root().join(path));
    let made = |path: &Path| path.ends_with("out") && path.parent().and_then(Path::parent).is_some_and(|above| above.ends_with("crates"));
    let (mut folders, mut found) = (vec![root()], Vec::new());
    while let Some(folder) = folders.pop() {
        for entry in fs::read_dir(folder).unwrap() {
            let path = entry.unwrap().path();
            if left_out.contains(&path) || path.ends_with("must-fail") || made(&path) {
                continue;
            }
            if path.is_dir() {
                folders.push(path);
            } else if let Ok(text) = fs::read_to_string(&path) {
                found.push((path, text));
            }
        }
    }
    found
}

/// Names and words that there were only for it.
const NAMES: [&str; 7] = ["NO_ROW", "NoRow", "noRow", "no-nine", "no_nine", "both columns empty", "columns of two terms"];

/// How words begin that make the 9 behind them an answer.
const BEFORE: [&str; 7] = ["giv", "answer", "refus", "return", "number", "error", "code"];

/// Whether a line holds these words and no digit goes on where they end or stand before where they begin.
fn holds(line: &str, words: &str) -> bool {
    line.match_indices(words).any(|(at, _)| {
        let digit = |letter: Option<char>| letter.is_some_and(|letter| letter.is_ascii_digit());
        !digit(line[..at].chars().next_back()) && !digit(line[at + words.len()..].trim_start_matches(',').chars().next())
    })
}

/// Whether a line speaks of 9 as an answer: by a name, in a table of numbers, in a list of checks, in code that gives numbers, as a line of `lift`, or in words.
/// That it is not used may be said.
fn speaks(line: &str) -> bool {
    let code = line.trim();
    let entry = |entry: &str| entry.starts_with(|letter: char| letter.is_ascii_uppercase()) && !entry.contains([' ', ':', '.']);
    if NAMES.iter().any(|name| line.contains(name))
        || code.starts_with("| 9 |")
        || ["8, 9", "9, 10", "R 9", "case 9:"].iter().any(|words| holds(line, words))
        || ["=> 9", "=> 9,"].iter().any(|end| code.ends_with(end))
        || code.strip_prefix("number_of ").is_some_and(|rest| rest.ends_with(" = 9"))
        || code.split("/*").next().is_some_and(|code| code.trim().trim_end_matches(',').strip_suffix(" = 9").is_some_and(entry))
    {
        return true;
    }
    let words: Vec<String> = line
        .split_whitespace()
        .map(|word| word.trim_matches(|letter: char| !letter.is_alphanumeric() && letter != '-').to_lowercase())
        .collect();
    let at = |place: Option<usize>| place.and_then(|place| words.get(place)).map_or("", String::as_str);
    (0..words.len()).filter(|&place| words[place] == "9").any(|place| {
        let (before, first) = (at(place.checked_sub(1)), at(place.checked_sub(2)));
        let (next, then, last) = (at(Some(place + 1)), at(Some(place + 2)), at(Some(place + 3)));
        let answers = |word: &str| BEFORE.iter().any(|stem| word.starts_with(stem));
        let linked = ["with", "is", "by"].contains(&before) && answers(first);
        let told = next == "means" || next == "is" && ["given", "never", "not", "for", "answered"].contains(&then);
        let unused = (next, then, last) == ("is", "not", "used");
        !unused && (answers(before) || linked || told)
    })
}

#[test]
fn no_text_speaks_of_nine_as_an_answer() {
    let texts = texts();
    let found: Vec<String> = texts
        .iter()
        .flat_map(|(path, text)| {
            text.lines()
                .enumerate()
                .filter(|(_, line)| speaks(line))
                .map(move |(at, line)| format!("{}:{}: {line}", path.display(), at + 1))
        })
        .collect();
    assert!(found.is_empty(), "{}", found.join("\n"));
    let read = |name: &str| texts.iter().any(|(path, _)| path.ends_with(name));
    let looked_for = [
        "README.md",
        "docs/ANSWERS.md",
        "include/uplink.h",
        "examples/firmware.c",
        "answers/src/lib.rt",
        "answers/specs/Answer.antt",
        "src/steps.rs",
        "wrong/mod.rs",
    ];
    assert!(texts.len() > 500 && looked_for.into_iter().all(read), "only {} texts were read", texts.len());
}

/// Lines in which it was an answer, and lines in which a 9 is something else.
#[test]
fn nine_as_an_answer_is_told_from_other_nines() {
    let answers = [
        "| 9 | `NO_ROW` | two terms taken and both columns empty |",
        "| 9 | no row |",
        "| next | 10, 14, 8, 9 |",
        "next 10, 8, 9; ask 10, 1, 2",
        "    UPLINK_NO_SUCH = 9, /* no row */",
        "    case 9: return \"no row\";",
        "    NoSuch = 9,",
        "        Refusal::NoneWaits => 9,",
        "number_of no_such = 9",
        "-- `no-nine`",
        "R 9",
        "    let output = \"O 0 1\\nR 9\\n\";",
        "a Next that refuses with 9",
        "// No sound state gives 9.",
        "\"9 is never given\"",
        "9 is for \"two terms taken\"",
        "translators keep asking what 9 means",
        "An engine whose answer is 9, or the number 9.",
    ];
    for line in answers {
        assert!(speaks(line), "not found: {line}");
    }
    let others = [
        "9 is not used: no call has it.",
        "The numbers sent back. 9 is not used.",
        "| visits | 19 | 9 | 168 |",
        "    printf 'P 1 1 1014 9\\nN\\n' | bin/matrix",
        "-- slots 9 and 0 are still to visit",
        "the lead is level, or gives -9",
        "uplink_unpark, for which 9,216 are",
        "gives 9,216 bytes, number 90, R 99, 8, 90, 18, 9 and 9, 100",
        "in case 9, 1,014 is taken and 1,015 refused",
        "      order = 9;",
        "at_wrap = slotted 0 (record { kind = opened; ticket = 9; weight = 1; deficit = 0 })",
        "code position = 9",
        "`soundness/mask_with_no_row`",
        "    9,",
        "pub nine_unused : {A : Type 0} (a : Answer A) → number a ≡ 9 → ⊥",
    ];
    for line in others {
        assert!(!speaks(line), "found: {line}");
    }
}
