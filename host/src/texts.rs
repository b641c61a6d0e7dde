//! Texts for the command programs, and the comparison of what one prints with what it should: a real `lift` with [`crate::lift`], a real `matrix` with [`crate::page`]
//! and with a real `lift`.

use std::io::{self, Write};
use std::ops::Range;
use std::path::Path;
use std::process::{Command, ExitCode, Stdio};
use std::thread;

use crate::generate::{commands, history_of};
use crate::history::Step;
use crate::lift::LARGEST_INPUT;
use crate::random::Random;
use crate::shapes::SHAPES;

/// The text of a seed: the commands of a history that begins fresh, most of them untouched, some lines of another form between them.
pub fn text(seed: u64) -> Vec<u8> {
    let mut random = Random::new(seed ^ 0x7465_7874);
    let shape = &SHAPES[random.below(SHAPES.len() as u64) as usize];
    let spoilt = random.pick(&[0, 0, 5, 100]);
    let mut text = Vec::new();
    for call in history_of(shape, 1, seed).steps.into_iter().filter_map(Step::command) {
        let mut line = call.to_string().into_bytes();
        if random.chance(spoilt, 1_000) {
            spoil(&mut random, &mut line);
        }
        text.extend(line);
        text.push(b'\n');
    }
    match random.below(16) {
        0 => text.truncate(text.len().saturating_sub(1)),
        1 => fill_up(&mut text, LARGEST_INPUT),
        2 => fill_up(&mut text, LARGEST_INPUT + 1),
        3 => text.clear(),
        _ => {}
    }
    text
}

/// A text of the seed with just so many command lines. A line has 46 bytes at the most, so 1,000 lines are always within the largest input.
pub fn of_lines(seed: u64, count: usize) -> Vec<u8> {
    command_lines(seed).take(count).collect::<Vec<String>>().concat().into_bytes()
}

/// A text of the seed with as many command lines as the largest input holds.
pub fn of_most_lines(seed: u64) -> Vec<u8> {
    let mut text = Vec::new();
    for line in command_lines(seed) {
        if text.len() + line.len() > LARGEST_INPUT {
            break;
        }
        text.extend(line.bytes());
    }
    text
}

/// Command lines without end; the shape goes by the seed.
fn command_lines(seed: u64) -> impl Iterator<Item = String> {
    let shape = &SHAPES[(seed % SHAPES.len() as u64) as usize];
    commands(shape, seed).map(|call| format!("{call}\n"))
}

/// Lengthens the text by commands and empty lines to just this length.
fn fill_up(text: &mut Vec<u8>, length: usize) {
    while text.len() + 6 <= length {
        text.extend(b"O 1\nN\n");
    }
    text.resize(length, b'\n');
}

/// Makes a line one of another form, most of the time.
fn spoil(random: &mut Random, line: &mut Vec<u8>) {
    let place = random.below(line.len() as u64 + 1) as usize;
    match random.below(8) {
        0 => line.clear(),
        1 => line.insert(place, random.pick(b" \t\r\0+-0")),
        2 => line.insert(place, random.number() as u8),
        3 => line.truncate(place),
        4 => line.push(random.pick(b" \r0\0")),
        5 => line.extend(b" 4294967296"),
        6 => *line = random.pick(&["O 4294967296", "O 4294967295", "C 4294967295 1", "N N", "X", "O 0", "P 0 1 1015 0", "n"]).into(),
        _ => line.extend(b" 0"),
    }
}

/// What the program prints for this input.
pub fn printed(program: &Path, input: &[u8]) -> io::Result<Vec<u8>> {
    let named = |error: io::Error| io::Error::new(error.kind(), format!("{}: {error}", program.display()));
    let mut child = Command::new(program).stdin(Stdio::piped()).stdout(Stdio::piped()).spawn().map_err(named)?;
    let mut stdin = child.stdin.take().ok_or(io::ErrorKind::BrokenPipe)?;
    let input = input.to_vec();
    // A program that stops reading early closes the pipe: what it printed decides.
    let writer = thread::spawn(move || drop(stdin.write_all(&input)));
    let output = child.wait_with_output()?;
    let _ = writer.join();
    Ok(output.stdout)
}

/// What was compared.
#[derive(Clone, Copy, Debug, Default, PartialEq, Eq)]
pub struct Compared {
    pub texts: u64,
    /// Lines printed, one for each line read.
    pub lines: u64,
}

/// What is printed for an input.
pub type Prints<'a> = &'a dyn Fn(&[u8]) -> io::Result<Vec<u8>>;

/// Compares what is printed with what should be, on the texts of these seeds. What was compared, or how many lines were printed up to the first that differs,
/// and the shortest text found that is answered otherwise.
pub fn compare(
    is: Prints,
    should: Prints,
    text: impl Fn(u64) -> Vec<u8>,
    seeds: impl IntoIterator<Item = u64>,
) -> io::Result<Result<Compared, String>> {
    let mut compared = Compared::default();
    for seed in seeds {
        let input = text(seed);
        let (found, expected) = (is(&input)?, should(&input)?);
        if found != expected {
            let same = found.iter().zip(&expected).take_while(|(one, other)| one == other).count();
            let lines = compared.lines + count_lines(&expected[..same]) + 1;
            let input = shortest(is, should, input)?;
            let show = |bytes: &[u8]| bytes.escape_ascii().to_string().replace("\\n", "\\n\n");
            let texts = format!("input:\n{}\nprinted:\n{}\nshould be:\n{}", show(&input), show(&is(&input)?), show(&should(&input)?));
            return Ok(Err(format!("difference after {lines} lines, seed {seed}\n{texts}")));
        }
        compared.texts += 1;
        compared.lines += count_lines(&expected);
    }
    Ok(Ok(compared))
}

/// What a program that compares prints and ends with, on texts of all kinds, or of just so many lines each where that is not 0.
pub fn report(what: &str, is: Prints, should: Prints, seeds: Range<u64>, lines: usize) -> ExitCode {
    let text = |seed| if lines == 0 { text(seed) } else { of_lines(seed, lines) };
    match compare(is, should, text, seeds) {
        Ok(Ok(compared)) => {
            println!("{what}{} texts, {} lines, no difference", compared.texts, compared.lines);
            ExitCode::SUCCESS
        }
        Ok(Err(difference)) => {
            println!("{what}{difference}");
            ExitCode::FAILURE
        }
        Err(error) => {
            eprintln!("{what}{error}");
            ExitCode::from(2)
        }
    }
}

fn count_lines(printed: &[u8]) -> u64 {
    printed.iter().filter(|&&byte| byte == b'\n').count() as u64
}

/// Runs of the program while a text is made shorter, so that a long one does not hold up the report.
const RUNS: usize = 500;

/// Removes runs of lines, long runs first, as long as the outputs differ.
fn shortest(is: Prints, should: Prints, input: Vec<u8>) -> io::Result<Vec<u8>> {
    let mut left = RUNS;
    let mut lines: Vec<Vec<u8>> = input.split_inclusive(|&byte| byte == b'\n').map(<[u8]>::to_vec).collect();
    let mut size = lines.len().div_ceil(2);
    while size > 0 {
        let mut at = 0;
        while at < lines.len() && left > 0 {
            left -= 1;
            let mut fewer = lines.clone();
            fewer.drain(at..(at + size).min(fewer.len()));
            let candidate = fewer.concat();
            if is(&candidate)? != should(&candidate)? {
                lines = fewer;
            } else {
                at += size;
            }
        }
        size /= 2;
    }
    Ok(lines.concat())
}
