//! Compared runs for as long as asked.
//!
//! `soak [calls N | seconds N] [seed N]`: the exported libraries with feature `linked`, support's engine beside the adapter's, else the model engine. Prints the calls
//! compared and calls per second; a difference is printed with the shortest history found, and the result is 1.

use std::env;
use std::process::ExitCode;
use std::time::{Duration, Instant};

use host::compare::run_seeds;

#[cfg(feature = "linked")]
const NAME: &str = "the exported libraries";
#[cfg(not(feature = "linked"))]
const NAME: &str = "the model engine";

/// Calls compared between two looks at the clock.
const STRETCH: u64 = 5_000;

struct Wanted {
    calls: u64,
    time: Duration,
    seed: u64,
}

fn main() -> ExitCode {
    let Some(wanted) = wanted(env::args().skip(1).collect()) else {
        eprintln!("soak [calls N | seconds N] [seed N]");
        return ExitCode::from(2);
    };
    #[cfg(feature = "linked")]
    let mut engine = host::linked::both();
    #[cfg(not(feature = "linked"))]
    let mut engine = host::model::Model;
    let begin = Instant::now();
    // Each stretch has its own range of seeds.
    let (mut compared, mut seed) = (0, wanted.seed);
    while compared < wanted.calls && begin.elapsed() < wanted.time {
        match run_seeds(&mut engine, seed, STRETCH.min(wanted.calls - compared)) {
            Ok(calls) => compared += calls,
            Err(report) => {
                print!("{report}");
                return ExitCode::FAILURE;
            }
        }
        seed = seed.wrapping_add(STRETCH);
    }
    let seconds = begin.elapsed().as_secs_f64();
    println!("{NAME}, seed {}: {compared} calls compared, no difference; {:.0} calls per second", wanted.seed, compared as f64 / seconds);
    ExitCode::SUCCESS
}

/// Without a count and a time, a million calls.
fn wanted(words: Vec<String>) -> Option<Wanted> {
    let mut wanted = Wanted { calls: 1_000_000, time: Duration::MAX, seed: 1 };
    for pair in words.chunks(2) {
        let number: u64 = pair.get(1)?.parse().ok()?;
        match pair[0].as_str() {
            "calls" => wanted.calls = number,
            "seconds" => (wanted.calls, wanted.time) = (u64::MAX, Duration::from_secs(number)),
            "seed" => wanted.seed = number,
            _ => return None,
        }
    }
    Some(wanted)
}
