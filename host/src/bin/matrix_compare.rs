//! `matrix_compare program lift [texts] [seed] [lines]`: the real `matrix` beside the one on the independent scheduler, byte by byte, and then its lines without
//! pages beside those of the real `lift`.
//!
//! With a number of lines, each text has just so many commands; without it the texts are of all kinds.

use std::env;
use std::path::Path;
use std::process::ExitCode;

use host::page::{matrix, without_pages};
use host::texts::{printed, report};

fn main() -> ExitCode {
    let words: Vec<String> = env::args().skip(1).collect();
    let number = |place: usize, otherwise: u64| words.get(place).map_or(Some(otherwise), |word| word.parse().ok());
    let ([program, lift, ..], Some(count), Some(seed), Some(lines)) = (&words[..], number(2, 1_000), number(3, 1), number(4, 0)) else {
        eprintln!("matrix_compare program lift [texts] [seed] [lines]");
        return ExitCode::from(2);
    };
    let seeds = seed..seed.saturating_add(count);
    let is = |input: &[u8]| printed(Path::new(program), input);
    let whole = report("with pages: ", &is, &|input| Ok(matrix(input)), seeds.clone(), lines as usize);
    if whole != ExitCode::SUCCESS {
        return whole;
    }
    let should = |input: &[u8]| printed(Path::new(lift), input);
    report("without pages, beside lift: ", &|input| Ok(without_pages(&is(input)?)), &should, seeds, lines as usize)
}
