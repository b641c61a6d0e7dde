//! `lift_compare program [texts] [seed] [lines]`: the real `lift` beside the one on the independent scheduler, byte by byte.
//!
//! With a number of lines, each text has just so many commands; without it the texts are of all kinds.

use std::env;
use std::path::Path;
use std::process::ExitCode;

use host::lift::lift;
use host::texts::{printed, report};

fn main() -> ExitCode {
    let words: Vec<String> = env::args().skip(1).collect();
    let number = |place: usize, otherwise: u64| words.get(place).map_or(Some(otherwise), |word| word.parse().ok());
    let (Some(program), Some(count), Some(seed), Some(lines)) = (words.first(), number(1, 1_000), number(2, 1), number(3, 0)) else {
        eprintln!("lift_compare program [texts] [seed] [lines]");
        return ExitCode::from(2);
    };
    let is = |input: &[u8]| printed(Path::new(program), input);
    report("", &is, &|input| Ok(lift(input)), seed..seed.saturating_add(count), lines as usize)
}
