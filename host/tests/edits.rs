//! Edits and slips name lines of the code: each old text stands exactly once in the file that is named, and the new one is another.

use std::fs;
use std::path::{Path, PathBuf};

fn root() -> PathBuf {
    Path::new(env!("CARGO_MANIFEST_DIR")).join("..")
}

/// The files of a folder that are edits.
fn edits_in(folder: &Path) -> Vec<PathBuf> {
    let Ok(entries) = fs::read_dir(folder) else { return Vec::new() };
    let mut found: Vec<PathBuf> = entries.map(|entry| entry.unwrap().path()).collect();
    found.retain(|path| path.extension().is_some_and(|kind| kind == "edit"));
    found.sort();
    found
}

/// The changes of an edit: the file, the old text and the new one.
fn changes(text: &str) -> Vec<(&str, &str, &str)> {
    let (mut file, mut old, mut found) = ("", None, Vec::new());
    for line in text.lines() {
        if let Some(name) = line.strip_prefix("file: ") {
            file = name.trim();
        } else if let Some(text) = line.strip_prefix("old: ") {
            old = Some(text);
        } else if let Some(text) = line.strip_prefix("new:") {
            found.push((file, old.take().expect("an old text stands before each new one"), text.strip_prefix(' ').unwrap_or(text)));
        }
    }
    assert!(old.is_none(), "the last old text has no new one");
    found
}

/// What is wrong with the changes of an edit whose files stand in a folder.
fn wrong(text: &str, read: impl Fn(&str) -> Option<String>) -> Vec<String> {
    let (mut found, changes) = (Vec::new(), changes(text));
    if changes.is_empty() {
        found.push("no change".to_string());
    }
    for (file, old, new) in changes {
        match read(file).map(|text| text.matches(old).count()) {
            None => found.push(format!("no file {file}")),
            Some(1) if old != new => {}
            Some(1) => found.push(format!("{file}: old and new are the same: {old}")),
            Some(times) => found.push(format!("{file} has {times} times: {old}")),
        }
    }
    found
}

#[test]
fn every_edit_and_every_slip_fits_the_code() {
    let (mut found, mut count) = (Vec::new(), 0);
    let mut places = vec![(root().join("host/slips"), root())];
    for krate in fs::read_dir(root().join("crates")).unwrap() {
        let krate = krate.unwrap().path();
        places.push((krate.join("must-fail"), krate));
    }
    for (folder, inside) in places {
        for edit in edits_in(&folder) {
            count += 1;
            let text = fs::read_to_string(&edit).unwrap();
            let read = |file: &str| fs::read_to_string(inside.join(file)).ok();
            found.extend(wrong(&text, read).iter().map(|what| format!("{}: {what}", edit.display())));
        }
    }
    assert!(found.is_empty(), "{}", found.join("\n"));
    assert!(count > 150, "only {count} edits and slips were found");
}

#[test]
fn a_text_that_stands_twice_or_not_at_all_is_found() {
    let read = |file: &str| (file == "src/lib.rt").then(|| "one\ntwo\ntwo\n".to_string());
    let told = |text: &str| wrong(text, read).join("; ");
    assert_eq!(told("file: src/lib.rt\nold: one\nnew: three\n"), "");
    assert_eq!(told("file: src/lib.rt\nold: one\nnew:\n"), "");
    assert_eq!(told("file: src/lib.rt\nold: two\nnew: three\n"), "src/lib.rt has 2 times: two");
    assert_eq!(told("file: src/lib.rt\nold: one\nnew: 1\nold: four\nnew: 4\n"), "src/lib.rt has 0 times: four");
    assert_eq!(told("file: src/lib.rt\nold: one\nnew: one\n"), "src/lib.rt: old and new are the same: one");
    assert_eq!(told("file: src/main.rt\nold: one\nnew: three\n"), "no file src/main.rt");
    assert_eq!(told("file: src/lib.rt\n"), "no change");
}
