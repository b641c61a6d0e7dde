//! The Rattle sources as text: which functions a file has, with their parameters and the clauses of their contracts.
#![allow(dead_code)]

use std::fs;
use std::path::{Path, PathBuf};

/// The folder of the crates.
pub fn crates() -> PathBuf {
    Path::new(env!("CARGO_MANIFEST_DIR")).join("../crates")
}

/// A file of the crates.
pub fn source(file: &str) -> String {
    let path = crates().join(file);
    fs::read_to_string(&path).unwrap_or_else(|error| panic!("{}: {error}", path.display()))
}

pub struct Function {
    pub name: String,
    pub public: bool,
    /// `extern "C"`.
    pub exported: bool,
    /// Name and type of each.
    pub parameters: Vec<(String, String)>,
    /// Empty where it has none.
    pub result: String,
    /// The kinds of the clauses of its contract, in order: `requires`, `ensures`. A clause's own name, and the star of one about memory, are left out.
    pub clauses: Vec<String>,
    /// All that stands from its name to its body, with single spaces.
    pub signature: String,
}

/// The functions of a text, in order.
pub fn functions(text: &str) -> Vec<Function> {
    let text = without_comments(text);
    let mut found = Vec::new();
    for line_start in text.match_indices('\n').map(|(at, _)| at + 1).chain([0]) {
        let line = &text[line_start..];
        let head = ["pub extern \"C\" fn ", "extern \"C\" fn ", "pub fn ", "fn "].into_iter().find(|head| line.starts_with(head));
        if let Some(head) = head {
            found.push((line_start, function(head, &line[head.len()..])));
        }
    }
    found.sort_by_key(|(at, _)| *at);
    found.into_iter().map(|(_, function)| function).collect()
}

/// A function from its name on.
fn function(head: &str, text: &str) -> Function {
    let (name, rest) = text.split_once('(').expect("a function has parameters");
    let (parameters, rest) = rest.split_once(')').expect("the parameters end");
    let parameters = parameters.split(',').filter_map(|one| one.split_once(':'));
    let parameters = parameters.map(|(name, kind)| (name.trim().to_string(), kind.trim().to_string())).collect();
    // The result and the words before braces; the first braces without a word before them are the body.
    let (mut clauses, mut rest, mut result) = (Vec::new(), rest.trim_start(), String::new());
    if let Some(after) = rest.strip_prefix("->") {
        let end = after.find(['\n', '{']).expect("a function has a body");
        result = after[..end].trim().to_string();
        rest = after[end..].trim_start();
    }
    while !rest.starts_with('{') {
        let (clause, after) = rest.split_once('{').expect("a function has a body");
        let kind = clause.split_whitespace().next().expect("a clause says of which kind it is");
        clauses.push(kind.trim_end_matches('*').to_string());
        rest = behind(after).trim_start();
    }
    let signature = text[..text.len() - rest.len()].split_whitespace().collect::<Vec<_>>().join(" ");
    let (public, exported) = (head.starts_with("pub"), head.contains("extern"));
    Function { name: name.to_string(), public, exported, parameters, result, clauses, signature }
}

/// What stands behind the brace that closes one already opened.
fn behind(text: &str) -> &str {
    let mut open = 1;
    for (at, sign) in text.char_indices() {
        open += i32::from(sign == '{') - i32::from(sign == '}');
        if open == 0 {
            return &text[at + 1..];
        }
    }
    panic!("a brace is not closed: {}", text.lines().next().unwrap_or_default());
}

/// The text without `//` comments.
pub fn without_comments(text: &str) -> String {
    text.lines().map(|line| line.split("//").next().unwrap_or_default().to_string() + "\n").collect()
}
