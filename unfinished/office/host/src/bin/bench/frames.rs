//! A frame written, read and taken by the office, each beside one pass over the frame's bytes.

use std::fmt::Write;
use std::hint::black_box;

use host::counting::Counting;
use host::linked::LINKED;
use host::office;

use super::sheets::timed;
use super::{median, ratio, shown, BATCHES};

const TIMES: usize = 20_000;

pub fn table() -> String {
    let heads = ["record, bytes", "write", "read", "take", "one pass over the frame", "write / pass", "take / pass"];
    let mut text = format!("| {} |\n{}|\n", heads.join(" | "), "|---".repeat(heads.len()));
    for length in [1, 100, 1_014] {
        let (mut record, mut frame, mut memory) = (vec![7; length], vec![0; 10 + length], [0; office::LENGTH]);
        let (mut entries, mut serial) = (LINKED, 0u16);
        let mut times = [(); 4].map(|_| Vec::new());
        for _ in 0..BATCHES {
            times[0].push(timed(TIMES, || {
                let mut answer = [0; 4];
                assert_eq!(entries.frame(63, 1, 0, black_box(&mut record), black_box(&mut frame), &mut answer), 0);
                black_box(answer);
            }));
            times[1].push(timed(TIMES, || {
                let mut answer = [0; 16];
                assert_eq!(entries.unframe(black_box(&mut frame), &mut answer), 0);
                black_box(answer);
            }));
            times[2].push(timed(TIMES, || {
                let mut answer = [0; 24];
                frame[8..10].copy_from_slice(&serial.to_be_bytes());
                serial = serial.wrapping_add(1);
                assert_eq!(entries.take(black_box(&mut memory), black_box(&mut frame), &mut answer), 0);
                black_box(answer);
            }));
            times[3].push(timed(TIMES, || {
                black_box(black_box(&frame[..]).iter().fold(0, |all, &byte| all | byte));
            }));
        }
        let [write, read, take, pass] = times.map(median);
        let cells = [shown(write, 1), shown(read, 1), shown(take, 1), shown(pass, 1), ratio(write, pass), ratio(take, pass)];
        let _ = writeln!(text, "| {length} | {} |", cells.join(" | "));
    }
    text
}
