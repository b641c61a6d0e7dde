//! The comparer itself: it passes the model engine and finds every wrong engine, with a short history for each.

mod wrong;

use host::compare::{run, run_seeds, Report};
use host::engine::Engine;
use host::history::Step;
use host::model::Model;
use wrong::{Slip, Wrong};

const SEED: u64 = 1;

fn report_on(slip: Slip) -> Report {
    match run_seeds(&mut Wrong(slip), SEED, 200_000) {
        Ok(calls) => panic!("{slip:?} was not found in {calls} calls"),
        Err(report) => *report,
    }
}

#[test]
fn the_model_engine_passes() {
    match run_seeds(&mut Model, SEED, 50_000) {
        Ok(calls) => assert!(calls >= 50_000),
        Err(report) => panic!("{report}"),
    }
}

/// Run with `--nocapture` to read the reports.
#[test]
fn every_slip_is_found() {
    for slip in Slip::ALL {
        let report = report_on(slip);
        println!("# {slip:?}: found after {} calls, shortest history {} steps\n{report}", report.calls, report.history.steps.len());
        assert!(report.history.steps.len() <= 20, "{slip:?}: the history is not short");
        assert_eq!(report.difference.step, report.history.steps.len() - 1, "{slip:?}");
        assert!(run(&mut Model, &report.history).is_ok(), "{slip:?}: the history blames a right engine");
    }
}

/// The report is text for `lift`, apart from its comments.
#[test]
fn a_report_reads_as_commands() {
    let report = report_on(Slip::SlotOrder);
    let text = report.to_string();
    let commands: Vec<&str> = text.lines().filter(|line| !line.starts_with('#')).collect();
    let calls = report.history.steps.iter().filter(|step| matches!(step, Step::Call(_)));
    assert_eq!(commands.len(), calls.count());
    let printed = host::lift::lift((commands.join("\n") + "\n").as_bytes());
    assert!(!printed.contains(&b'?'), "{text}");
    assert!(text.contains(&format!("seed {}", report.history.seed)) && text.contains("should be"), "{text}");
}

/// An engine that accepts everything and does nothing.
#[test]
fn a_silent_engine_is_found() {
    struct Silent;
    impl Engine for Silent {
        fn start(&mut self, _: &mut [u8], _: u32) -> u32 {
            0
        }
        fn open(&mut self, _: &mut [u8], _: u32, _: &mut [u8]) -> u32 {
            0
        }
        fn put(&mut self, _: &mut [u8], _: u32, _: u32, _: u32, _: u32, _: &mut [u8]) -> u32 {
            0
        }
        fn close(&mut self, _: &mut [u8], _: u32, _: u32, _: &mut [u8]) -> u32 {
            0
        }
        fn next(&mut self, _: &mut [u8], _: &mut [u8]) -> u32 {
            0
        }
        fn ask(&mut self, _: &mut [u8], _: u32, _: u32, _: &mut [u8]) -> u32 {
            0
        }
        fn fullest(&mut self, _: &mut [u8], _: &mut [u8]) -> u32 {
            0
        }
        fn park(&mut self, _: &mut [u8], _: &mut [u8], _: &mut [u8]) -> u32 {
            0
        }
        fn unpark(&mut self, _: &mut [u8], _: &mut [u8]) -> u32 {
            0
        }
        fn lead(&mut self, _: u32, _: u32, _: u32, _: u32, _: &mut [u8]) -> u32 {
            0
        }
        fn term(&mut self, _: u32, _: u32, _: &mut [u8]) -> u32 {
            0
        }
        fn sheet(&mut self, _: &mut [u32], _: &mut [u32], _: &mut [u8]) -> u32 {
            0
        }
    }
    let report = run_seeds(&mut Silent, SEED, 100).unwrap_err();
    assert_eq!(report.history.steps.len(), 1);
}
