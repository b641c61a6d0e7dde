//! Writes the pictures of docs/ from runs of the exported calls: `pictures`. It takes no argument and writes the same bytes at each run.

use std::fs;
use std::path::Path;
use std::process::ExitCode;

use host::pictures::{all, FOLDER};

fn main() -> ExitCode {
    for (name, text) in all() {
        if let Err(error) = fs::write(Path::new(FOLDER).join(name), text) {
            eprintln!("docs/{name}: {error}");
            return ExitCode::FAILURE;
        }
        println!("docs/{name}");
    }
    ExitCode::SUCCESS
}
