//! What the documents cite is there: every link leads to a file of the repository, every name that a link shows is defined in that file, so is a name beside
//! a link in docs/PROMISES.md's tables, and every must-fail edit that they name exists.

use std::fs;
use std::path::{Path, PathBuf};

fn root() -> PathBuf {
    Path::new(env!("CARGO_MANIFEST_DIR")).join("..")
}

/// README.md and all of docs/.
fn documents() -> Vec<PathBuf> {
    let mut found = vec![root().join("README.md"), root().join("host/README.md"), root().join("host/uplink/README.md")];
    for folder in ["docs", "docs/requests"] {
        for entry in fs::read_dir(root().join(folder)).unwrap() {
            found.push(entry.unwrap().path());
        }
    }
    found.retain(|path| path.extension().is_some_and(|kind| kind == "md"));
    found
}

/// The links of a text, what each shows and where it leads.
fn links(text: &str) -> Vec<(&str, &str)> {
    let mut found = Vec::new();
    for (middle, _) in text.match_indices("](") {
        let shown = text[..middle].rfind('[').map(|open| &text[open + 1..middle]);
        let target = text[middle + 2..].find(')').map(|end| &text[middle + 2..middle + 2 + end]);
        if let (Some(shown), Some(target)) = (shown, target) {
            found.push((shown, target));
        }
    }
    found
}

/// The words between backquotes.
fn names(shown: &str) -> impl Iterator<Item = &str> {
    shown.split('`').skip(1).step_by(2).flat_map(|name| name.split([' ', ',', '.'])).filter(|name| !name.is_empty())
}

/// The text without its links.
fn without_links(text: &str) -> String {
    text.split('[').map(|part| part.split_once("](").and_then(|(_, rest)| rest.split_once(')')).map_or(part, |(_, after)| after)).collect()
}

/// Whether a source is Rattle or a proof.
fn is_source(path: &Path) -> bool {
    path.extension().is_some_and(|kind| kind == "antt" || kind == "rt")
}

/// The sources at a place: the file itself, or those of the folder.
fn sources(place: &Path) -> Vec<PathBuf> {
    if place.is_dir() {
        let mut found: Vec<PathBuf> = fs::read_dir(place).unwrap().map(|entry| entry.unwrap().path()).collect();
        found.retain(|path| is_source(path));
        return found;
    }
    [place.to_path_buf()].into_iter().filter(|path| is_source(path)).collect()
}

/// Whether Rattle code defines this very name, behind `fn`, `struct`, `enum` or `const`.
fn code_defines(text: &str, name: &str) -> bool {
    let lines = text.lines().filter_map(|line| line.split("//").next());
    let words: Vec<&str> = lines.flat_map(|line| line.split([' ', '(', '{', '<', ':', ';'])).collect();
    words.windows(2).any(|pair| ["fn", "struct", "enum", "const"].contains(&pair[0]) && pair[1] == name)
}

/// Whether specs or proofs define this very name, before a colon or behind `record` or `data`.
fn proof_defines(text: &str, name: &str) -> bool {
    text.lines().filter(|line| !line.trim_start().starts_with("--")).any(|line| {
        let words: Vec<&str> = line.split_whitespace().take_while(|word| !word.starts_with(['(', '{', '='])).collect();
        let declared = words.iter().position(|&word| word == ":").unwrap_or(0);
        words[..declared].contains(&name) || words.windows(2).any(|pair| ["record", "data"].contains(&pair[0]) && pair[1] == name)
    })
}

fn defines(path: &Path, name: &str) -> bool {
    let text = fs::read_to_string(path).unwrap();
    let defines = if path.extension().is_some_and(|kind| kind == "rt") { code_defines } else { proof_defines };
    defines(&text, name)
}

/// Which of the names no source at these places defines.
fn undefined<'a>(names: impl Iterator<Item = &'a str>, places: &[PathBuf]) -> Vec<&'a str> {
    let files: Vec<PathBuf> = places.iter().flat_map(|place| sources(place)).collect();
    names.filter(|name| !files.is_empty() && !files.iter().any(|file| defines(file, name))).collect()
}

#[test]
fn links_lead_to_what_they_name() {
    let mut wrong = Vec::new();
    let (mut count, mut named) = (0, 0);
    for document in documents() {
        let text = fs::read_to_string(&document).unwrap();
        for (shown, target) in links(&text) {
            let place = document.parent().unwrap().join(target);
            count += 1;
            named += names(shown).count();
            if !place.exists() {
                wrong.push(format!("{}: no file {target}", document.display()));
            } else {
                wrong
                    .extend(undefined(names(shown), &[place]).iter().map(|name| format!("{}: {target} has no {name}", document.display())));
            }
        }
    }
    assert!(wrong.is_empty(), "{}", wrong.join("\n"));
    assert!(count > 60 && named > 40, "only {count} links and {named} names were found");
}

/// In the tables of docs/PROMISES.md a name in backquotes that shares its cell with a link is defined where one of the row's links leads. What is no single
/// name, as a command or a part of a formula, is left out.
#[test]
fn names_beside_links_are_defined_there() {
    let docs = root().join("docs");
    let text = fs::read_to_string(docs.join("PROMISES.md")).unwrap();
    let (mut wrong, mut count) = (Vec::new(), 0);
    for row in text.lines().filter(|line| line.starts_with('|')) {
        let places: Vec<PathBuf> = links(row).iter().map(|(_, target)| docs.join(target)).filter(|place| place.exists()).collect();
        for cell in row.split('|').filter(|cell| !links(cell).is_empty()) {
            let outside = without_links(cell);
            let single = outside.split('`').skip(1).step_by(2).filter(|name| !name.contains([' ', '/', '<', '?']));
            let single: Vec<&str> = single.collect();
            count += single.len();
            wrong.extend(undefined(single.into_iter(), &places).iter().map(|name| format!("no {name} where this leads: {}", cell.trim())));
        }
    }
    assert!(wrong.is_empty(), "{}", wrong.join("\n"));
    assert!(count > 3, "only {count} names were found");
}

#[test]
fn a_part_of_a_name_is_none() {
    let code = "use a::none;\npub fn start_over(state: &mut [u8]) -> Found {\n    start(state)\n}\nconst MOST: u32 = 1; // fn most\n";
    assert!(["start_over", "MOST"].iter().all(|name| code_defines(code, name)));
    assert!(["start", "over", "state", "Found", "none", "most"].iter().all(|name| !code_defines(code, name)));
    let proof = "-- kept : none\nuse A.{none}\npub records-kept : (s : State) → kept s ≡ none\nrecords-kept s = all s : Type 0\npub record Starts (s : State) : Type 0 where\n  pub at-end : none\n";
    assert!(["records-kept", "Starts", "at-end"].iter().all(|name| proof_defines(proof, name)));
    assert!(["records", "kept", "Start", "State", "none", "all", "at"].iter().all(|name| !proof_defines(proof, name)));
}

/// In the last column of a table whose head ends in "Tried by", each word in backquotes is an edit: `crate/edit`, or `slips/edit` in host/slips.
#[test]
fn edits_that_are_named_exist() {
    let text = fs::read_to_string(root().join("docs/PROMISES.md")).unwrap();
    let (mut tried, mut count) = (false, 0);
    for line in text.lines() {
        let cells: Vec<&str> = line.trim().trim_matches('|').split('|').collect();
        if !line.starts_with('|') {
            tried = false;
        } else if cells.last().is_some_and(|head| head.trim().starts_with("Tried by")) {
            tried = true;
        } else if tried {
            for name in cells.last().into_iter().flat_map(|cell| cell.split('`').skip(1).step_by(2)) {
                let (krate, edit) = name.split_once('/').unwrap_or_else(|| panic!("{name}: write it as crate/edit"));
                let folder = if krate == "slips" { root().join("host/slips") } else { root().join("crates").join(krate).join("must-fail") };
                let file = folder.join(format!("{edit}.edit"));
                assert!(file.is_file(), "{name}: no file {}", file.display());
                count += 1;
            }
        }
    }
    assert!(count > 30, "only {count} edits were found");
}

/// docs/EDITS.md says of each must-fail edit where it is refused.
#[test]
fn every_edit_is_said_to_be_refused_somewhere() {
    let page = fs::read_to_string(root().join("docs/EDITS.md")).unwrap();
    let mut missing = Vec::new();
    let mut count = 0;
    for krate in fs::read_dir(root().join("crates")).unwrap() {
        let krate = krate.unwrap();
        let Ok(edits) = fs::read_dir(krate.path().join("must-fail")) else { continue };
        for edit in edits {
            let edit = edit.unwrap().path();
            let name = format!("{}/{}", krate.file_name().to_str().unwrap(), edit.file_stem().unwrap().to_str().unwrap());
            let rows: Vec<&str> = page.lines().filter(|line| line.starts_with(&format!("| [{name}]("))).collect();
            if rows.is_empty() || rows.iter().any(|row| row.contains("only the proof's shape")) {
                missing.push(name);
            }
            count += 1;
        }
    }
    assert!(missing.is_empty(), "run the gate, then host/edits.py >docs/EDITS.md: {}", missing.join(", "));
    assert!(count > 80, "only {count} edits were found");
}
