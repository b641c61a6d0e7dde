//! The command program's text on the independent scheduler: from input bytes to output bytes (document 01, "The command program"; document 02, §3:
//! "`lift` uses 1").
//!
//! Readings: an empty line is a line of another form and prints `?`; `? input` ends in a line feed; a number above 4,294,967,295 makes the
//! line `?`, a smaller one that a rule refuses prints `R` and the number.

use crate::answers::{Fields, Refusal};
use crate::history::Call;
use crate::scheduler::Scheduler;

pub const LARGEST_INPUT: usize = 65_536;

/// What `lift` prints for this input.
pub fn lift(input: &[u8]) -> Vec<u8> {
    with_pages(input, |_| String::new())
}

/// The same with the lines that a Next has under its own, by the state before it.
pub fn with_pages(input: &[u8], page: impl Fn(&Scheduler) -> String) -> Vec<u8> {
    if input.len() > LARGEST_INPUT {
        return b"? input\n".to_vec();
    }
    let mut scheduler = Scheduler::fresh(1);
    let mut output = Vec::new();
    for line in lines(input) {
        let call = command(line);
        let under = if call == Some(Call::Next) { page(&scheduler) } else { String::new() };
        let printed = call.map_or("?".to_string(), |call| run(&mut scheduler, call));
        output.extend(format!("{printed}\n{under}").bytes());
    }
    output
}

/// "A last line without a line feed counts if it isn't empty."
fn lines(input: &[u8]) -> Vec<&[u8]> {
    let mut lines: Vec<&[u8]> = input.split(|&byte| byte == b'\n').collect();
    if lines.last().is_some_and(|last| last.is_empty()) {
        lines.pop();
    }
    lines
}

/// The call that a line asks for; none for a line of any other form.
fn command(line: &[u8]) -> Option<Call> {
    let words: Vec<&[u8]> = line.split(|&byte| byte == b' ').collect();
    let numbers = words[1..].iter().map(|word| decimal(word)).collect::<Option<Vec<u32>>>()?;
    match (words[0], &numbers[..]) {
        (b"O", &[weight]) => Some(Call::Open { weight }),
        (b"P", &[slot, ticket, length, reference]) => Some(Call::Put { slot, ticket, length, reference }),
        (b"C", &[slot, ticket]) => Some(Call::Close { slot, ticket }),
        (b"N", &[]) => Some(Call::Next),
        _ => None,
    }
}

/// "plain decimals up to 4,294,967,295 without leading zeros"
fn decimal(word: &[u8]) -> Option<u32> {
    if word.is_empty() || (word[0] == b'0' && word.len() > 1) {
        return None;
    }
    let mut number: u32 = 0;
    for &byte in word {
        if !byte.is_ascii_digit() {
            return None;
        }
        number = number.checked_mul(10)?.checked_add(u32::from(byte - b'0'))?;
    }
    Some(number)
}

fn run(scheduler: &mut Scheduler, call: Call) -> String {
    match call {
        Call::Open { weight } => printed("O", scheduler.open(weight)),
        Call::Put { slot, ticket, length, reference } => printed("P", scheduler.put(slot, ticket, length, reference)),
        Call::Close { slot, ticket } => printed("C", scheduler.close(slot, ticket)),
        _ => printed("N", scheduler.next()),
    }
}

/// "the letter and the answer's fields as listed above, or `R` and the number"
fn printed<A: Fields>(letter: &str, result: Result<A, Refusal>) -> String {
    match result {
        Ok(answer) => answer.fields().iter().fold(letter.to_string(), |line, field| format!("{line} {field}")),
        Err(refusal) => format!("R {}", refusal.number()),
    }
}
