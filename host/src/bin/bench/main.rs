//! How long the exported calls take: `bench [--sheets | --beside path/to/another/libdriver.a]`. Prints tables; docs/SPEED.md has the first, of edition 1, and its picture
//! is drawn from there. The second is the same of edition 2, the third has single Nexts where edition 2 holds the order. The fourth has Next and Put of support's
//! engine (include/plain.h) beside the adapter's, the fifth the two calls of parked queues beside a Next, the sixth Ask and Fullest beside the check,
//! the last checks of round sheets, each beside one pass over its list (`--sheets`: that one alone).
//!
//! All columns are measured in turn in the same run and are medians over many batches, so that their ratios mean something on any machine:
//! - call: Next and Put in pairs, so that the fill stays the same, per call;
//! - next: Next alone, four in a row (what they sent is put back in a time of its own);
//! - check: a refused call (Ask of slot 64), which is the check of the memory alone;
//! - read: the bytes of the memory taken together by `or`, once;
//! - plain check: the memory checked record by record, straight on the bytes;
//! - plain call: the independent scheduler's Next and Put with that check before each. It writes no bytes, which favours it.
//!
//! With another archive its call, next, check and put are measured between those of the linked one, and one more table has both and their ratios. One from
//! before document 02, §3, which knows no edition, is measured in edition 1. One from before §4 is lent the same records in planes of its own 1,024 cells; a
//! fill of more than 16 a channel is not held by it. One from before §7 is lent the memory without its notes.

mod sheets;
mod side;

use std::env;
use std::fmt::Write;
use std::hint::black_box;
use std::path::Path;
use std::process::ExitCode;
use std::time::Instant;

use host::check::record_by_record;
use host::image::image_of;
use host::layout;
use host::linked::Entries;
use host::pictures::speed::NAMES;
use host::scheduler::{Scheduler, EDITIONS, LONGEST};
use host::states::{crowd, door};
use side::{Archive, Side, OWN, SUPPORT};

const BATCHES: usize = 301;
/// Repetitions in a batch.
const TIMES: usize = 200;
const FILLS: [(u32, u32); 5] = [(0, 0), (4, 8), (16, 8), (64, 8), (8, 50)];

/// Nanoseconds of three of the columns; none where there is nothing to send.
type Three = [Option<f64>; 3];

/// What is measured of one fill: call, next, check and put of each archive that holds it, and read, plain check and plain call.
struct Line {
    exported: Vec<Option<[Option<f64>; 4]>>,
    plain: Three,
}

fn main() -> ExitCode {
    let words: Vec<String> = env::args().skip(1).collect();
    let mut archives = vec![OWN];
    match &words.iter().map(String::as_str).collect::<Vec<_>>()[..] {
        [] => {}
        ["--sheets"] => {
            print!("{}", sheets::table());
            return ExitCode::SUCCESS;
        }
        ["--beside", archive] => match other(Path::new(archive)) {
            Ok(other) => archives.push(other),
            Err(error) => {
                eprintln!("{error}");
                return ExitCode::FAILURE;
            }
        },
        _ => {
            eprintln!("bench [--sheets | --beside path/to/another/libdriver.a]");
            return ExitCode::from(2);
        }
    }
    let of_editions = EDITIONS.map(|edition| {
        let lines = FILLS.iter().map(|&(channels, records)| measured(edition, channels, records, &archives));
        (edition, lines.collect::<Vec<Line>>())
    });
    println!("nanoseconds, medians; a call is half of a Next and Put pair");
    for (edition, lines) in &of_editions {
        print!("\n{}", table(*edition, lines));
    }
    print!("\n{}", held());
    print!("\n{}", by_hand());
    print!("\n{}", parked());
    print!("\n{}", asked());
    print!("\n{}", sheets::table());
    if archives.len() > 1 {
        println!("\nthe linked archive and the one beside it, and the linked one's time divided by the other's");
        for (edition, lines) in &of_editions {
            print!("\n{}", beside(*edition, lines));
        }
    }
    ExitCode::SUCCESS
}

fn other(archive: &Path) -> Result<Archive, String> {
    let entries = Entries::of_archive(archive)?;
    Archive::of(entries).ok_or_else(|| format!("{}: its Start takes no length", archive.display()))
}

/// Channels of many weights, each with so many records of many lengths.
fn filled(edition: u64, channels: u32, records: u32) -> Scheduler {
    let mut scheduler = Scheduler::fresh(edition);
    for channel in 0..channels {
        let opened = scheduler.open(1 + channel * 61 % 4_095).expect("a slot is free");
        for record in 0..records {
            let length = 1 + (channel * 389 + record * 241) % LONGEST as u32;
            scheduler.put(opened.slot, opened.ticket, length, record).expect("there is room");
        }
    }
    scheduler
}

fn measured(edition: u64, channels: u32, records: u32, archives: &[Archive]) -> Line {
    let mut scheduler = filled(edition, channels, records);
    let bytes = layout::to_bytes(&scheduler);
    let mut sides: Vec<Option<Side>> = archives.iter().map(|&archive| Side::lent(archive, &bytes)).collect();
    let mut plain: [Vec<f64>; 3] = Default::default();
    for _ in 0..BATCHES {
        for side in sides.iter_mut().flatten() {
            side.measure(channels > 0);
        }
        plain[0].push(batch(1, || read(&bytes)));
        plain[1].push(batch(1, || assert!(record_by_record(black_box(&bytes)))));
        if channels > 0 {
            plain[2].push(batch(2, || plain_pair(&mut scheduler, &bytes)));
        }
    }
    let times = |side: Option<Side>| side.map(|side| side.times.map(median));
    Line { exported: sides.into_iter().map(times).collect(), plain: plain.map(median) }
}

/// Nanoseconds for each of the calls that one repetition makes.
fn batch(calls: usize, mut repetition: impl FnMut()) -> f64 {
    let begin = Instant::now();
    for _ in 0..TIMES {
        repetition();
    }
    begin.elapsed().as_nanos() as f64 / (TIMES * calls) as f64
}

fn median(mut times: Vec<f64>) -> Option<f64> {
    times.sort_by(f64::total_cmp);
    times.get(times.len() / 2).copied()
}

fn plain_pair(scheduler: &mut Scheduler, bytes: &[u8]) {
    assert!(record_by_record(black_box(bytes)));
    let sent = scheduler.next_sound().expect("a record waits");
    assert!(record_by_record(black_box(bytes)));
    black_box(scheduler.put_sound(sent.slot, sent.ticket, sent.length, sent.reference).expect("there is room"));
}

fn read(bytes: &[u8]) {
    black_box(black_box(bytes).iter().fold(0, |all, &byte| all | byte));
}

/// Records that wait in the channel of weight 1, and Nexts in a row.
const WAITING: usize = 8;
const ROW: usize = 4;

/// A Next of one row of weight 1, from the same memory each time: at its own order, and where a heavy row that has gone holds order 12 up. Each with the terms
/// that it takes, and beside the ordinary one in edition 2.
fn held() -> String {
    let lengths = [LONGEST; WAITING];
    let kept = [
        ("edition 1, order 1", 1, Scheduler { edition: 1, ..door(1, 0, &lengths) }),
        ("edition 2, order 1: an ordinary Next", 1, door(1, 0, &lengths)),
        ("edition 2, order 12 after a heavy row has gone", 2_047, door(12, 1, &lengths)),
        ("edition 2, order 12, through a round's end", 2_048, door(12, 2_048, &lengths)),
    ];
    let mut times: [Vec<f64>; 4] = Default::default();
    for _ in 0..BATCHES {
        for ((_, terms, scheduler), times) in kept.iter().zip(&mut times) {
            times.push(next_from(OWN, &layout::to_bytes(scheduler), *terms));
        }
    }
    let times = times.map(median);
    let mut text = "| one row of weight 1 | terms | next | next / ordinary |\n|---|---|---|---|\n".to_string();
    for ((name, terms, _), time) in kept.iter().zip(times) {
        let _ = writeln!(text, "| {name} | {terms} | {} | {} |", shown(time, 0), ratio(time, times[1]));
    }
    text
}

/// Nanoseconds of an engine's Next from this memory, which takes so many terms.
fn next_from(engine: Archive, bytes: &[u8], terms: u32) -> f64 {
    let mut sides = [(); ROW].map(|_| Side::lent(engine, bytes).expect("the linked archives take a sound memory"));
    let mut nanoseconds = 0;
    for _ in 0..TIMES / ROW {
        sides.iter_mut().for_each(|side| side.memory.copy_from_slice(bytes));
        let begin = Instant::now();
        let sent = sides.each_mut().map(Side::next);
        nanoseconds += begin.elapsed().as_nanos();
        assert!(sent.iter().all(|sent| sent.terms == terms));
    }
    nanoseconds as f64 / (TIMES / ROW * ROW) as f64
}

/// Next and Put of support's engine beside the adapter's, in each fill and edition, and the longest Nexts. No row is named by its fill alone, so docs/SPEED.md can have
/// this table beside the one that its picture is drawn from.
fn by_hand() -> String {
    let mut text = "| channels x records | uplink_next | plain_next | ratio | uplink_put | plain_put | ratio |\n".to_string()
        + &"|---".repeat(7)
        + "|\n";
    let mut line = |name: String, [own, support]: [[Option<f64>; 2]; 2]| {
        let cells = [0, 1].map(|call| [shown(own[call], 0), shown(support[call], 0), ratio(support[call], own[call])].join(" | "));
        let _ = writeln!(text, "| {name} | {} |", cells.join(" | "));
    };
    for (edition, &(channels, records)) in EDITIONS.into_iter().flat_map(|edition| FILLS[1..].iter().map(move |fill| (edition, fill))) {
        let bytes = layout::to_bytes(&filled(edition, channels, records));
        let mut sides = [OWN, SUPPORT].map(|engine| Side::lent(engine, &bytes).expect("the linked archives take a sound memory"));
        for _ in 0..BATCHES {
            sides.iter_mut().for_each(Side::measure_alone);
        }
        let times = sides.map(|side| {
            let [_, next, _, put] = side.times.map(median);
            [next, put]
        });
        line(format!("edition {edition}: {channels} x {records}"), times);
    }
    let light = |position| door(12, position, &[LONGEST; WAITING]);
    let longest = [
        ("one row of weight 1 under order 12", light(1), 2_047),
        ("the same, through a round's end", light(2_048), 2_048),
        ("64 rows of weight 1 under order 12", crowd(12, 1), 2_047),
    ];
    for (name, state, terms) in longest {
        let bytes = layout::to_bytes(&state);
        let mut times: [Vec<f64>; 2] = Default::default();
        for _ in 0..BATCHES {
            for (engine, times) in [OWN, SUPPORT].into_iter().zip(&mut times) {
                times.push(next_from(engine, &bytes, terms));
            }
        }
        line(format!("edition 2: {name}, {terms} terms"), times.map(|times| [median(times), None]));
    }
    text
}

/// A park, and the reading of its image, beside a Next of the same fill. On a full memory they have to take at most 6 and 12 times as long.
fn parked() -> String {
    let heads = ["channels x records", "image, bytes", "next", "park", "unpark", "park / next", "unpark / next"];
    let mut text = format!("| {} |\n{}|\n", heads.join(" | "), "|---".repeat(heads.len()));
    for (edition, &(channels, records)) in EDITIONS.into_iter().flat_map(|edition| FILLS[1..].iter().map(move |fill| (edition, fill))) {
        let state = filled(edition, channels, records);
        let bytes = layout::to_bytes(&state);
        let mut sides = [(); 2].map(|_| Side::lent(OWN, &bytes).expect("the linked archive takes a sound memory"));
        let mut times: [Vec<f64>; 2] = Default::default();
        for _ in 0..BATCHES {
            sides[0].measure_alone();
            sides[1].parking().into_iter().zip(&mut times).for_each(|(time, times)| times.push(time));
        }
        let [sending, _] = sides;
        let [_, next, _, _] = sending.times.map(median);
        let [park, unpark] = times.map(median);
        let cells = [shown(next, 0), shown(park, 0), shown(unpark, 0), ratio(park, next), ratio(unpark, next)];
        let _ = writeln!(text, "| edition {edition}: {channels} x {records} | {} | {} |", image_of(&state).len(), cells.join(" | "));
    }
    text
}

/// An Ask and a Fullest beside the check alone, which both begin with, of the same fill.
fn asked() -> String {
    let heads = ["channels x records", "check", "ask", "fullest", "ask / check", "fullest / check"];
    let mut text = format!("| {} |\n{}|\n", heads.join(" | "), "|---".repeat(heads.len()));
    for (edition, &(channels, records)) in EDITIONS.into_iter().flat_map(|edition| FILLS[1..].iter().map(move |fill| (edition, fill))) {
        let bytes = layout::to_bytes(&filled(edition, channels, records));
        let mut side = Side::lent(OWN, &bytes).expect("the linked archive takes a sound memory");
        let mut times: [Vec<f64>; 3] = Default::default();
        for _ in 0..BATCHES {
            side.asking(channels - 1, 1).into_iter().zip(&mut times).for_each(|(time, times)| times.push(time));
        }
        let [check, ask, fullest] = times.map(median);
        let cells = [shown(check, 0), shown(ask, 0), shown(fullest, 0), ratio(ask, check), ratio(fullest, check)];
        let _ = writeln!(text, "| edition {edition}: {channels} x {records} | {} |", cells.join(" | "));
    }
    text
}

/// A row of a table for each fill. Those of edition 1 are named by their fill alone.
fn rows(edition: u64, heads: &[&str], cells: impl Fn(&Line) -> Vec<String>, lines: &[Line]) -> String {
    let mut text = format!("| channels x records | {} |\n{}|\n", heads.join(" | "), "|---".repeat(heads.len() + 1));
    let name = if edition == 1 { String::new() } else { format!("edition {edition}: ") };
    for (&(channels, records), line) in FILLS.iter().zip(lines) {
        let _ = writeln!(text, "| {name}{channels} x {records} | {} |", cells(line).join(" | "));
    }
    text
}

/// What is measured of the linked archive, which holds every fill.
fn own(line: &Line) -> [Option<f64>; 4] {
    line.exported[0].unwrap_or_default()
}

fn table(edition: u64, lines: &[Line]) -> String {
    let ratios = ["call / read", "next / read", "check / read", "check / plain check", "call / plain call"];
    let cells = |line: &Line| {
        let times: Vec<Option<f64>> = own(line).into_iter().take(3).chain(line.plain).collect();
        let ratios = [(0, 3), (1, 3), (2, 3), (2, 4), (0, 5)].map(|(over, under)| ratio(times[over], times[under]));
        times.into_iter().map(|time| shown(time, 0)).chain(ratios).collect()
    };
    rows(edition, &NAMES.into_iter().chain(ratios).collect::<Vec<_>>(), cells, lines)
}

/// The linked archive and the other, column by column.
fn beside(edition: u64, lines: &[Line]) -> String {
    let names = NAMES[..3].iter().chain(&["put"]);
    let heads = names.flat_map(|name| [name.to_string(), format!("{name} beside"), "ratio".to_string()]).collect::<Vec<_>>();
    let cells = |line: &Line| {
        let Some(others) = line.exported[1] else {
            return own(line).into_iter().flat_map(|own| [shown(own, 0), "not held".to_string(), shown(None, 2)]).collect();
        };
        own(line).into_iter().zip(others).flat_map(|(own, other)| [shown(own, 0), shown(other, 0), ratio(own, other)]).collect()
    };
    rows(edition, &heads.iter().map(String::as_str).collect::<Vec<_>>(), cells, lines)
}

fn ratio(over: Option<f64>, under: Option<f64>) -> String {
    shown(over.zip(under).map(|(over, under)| over / under), 2)
}

fn shown(number: Option<f64>, places: usize) -> String {
    number.map_or("-".to_string(), |number| format!("{number:.places$}"))
}
