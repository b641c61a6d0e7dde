//! Round sheets of other makers (document 02, §9): rounds worked out by hand, the two ways in which they are had here held against each other, and the checker of
//! the engine under test beside the independent one, on true sheets and on wrong ones of each kind.

mod calls;
mod wrong;

use calls::{engine, in_both_editions, on_both, Calls};
use host::answers::{Refusal, Sheet};
use host::compare::{run, run_all};
use host::engine::Engine;
use host::history::{Call, History, Step};
use host::layout::fresh;
use host::random::Random;
use host::scheduler::{EDITIONS, LONGEST};
use host::sheet::{round_of, round_sent, HEAVIEST_ON_SHEET, LONGEST_ROUND, MOST_ROWS};
use host::sheets::{self, refused, sheet, Fault, BAD_WEIGHTS};
use wrong::{Slip, Wrong};

/// Weights of document 01's check 5, and its sends.
const WEIGHTS: [u32; 4] = [1, 4, 8, 3];
const ROUND: [u32; 16] = [2, 1, 2, 3, 2, 1, 2, 0, 3, 2, 1, 2, 3, 2, 1, 2];

/// The longest round, and the one with fewest visits for its positions: every second one has a visit, and all rows but one share the middle.
fn longest() -> Vec<u32> {
    vec![HEAVIEST_ON_SHEET; MOST_ROWS]
}

fn sparsest() -> Vec<u32> {
    [vec![1; MOST_ROWS - 1], vec![2_048]].concat()
}

fn history(shape: &'static str, calls: impl IntoIterator<Item = Call>) -> History {
    History { seed: 0, shape, memory: fresh(1), steps: calls.into_iter().map(Step::Call).collect() }
}

fn compare(shape: &'static str, calls: impl IntoIterator<Item = Call>) -> u64 {
    match run_all(&mut engine(), calls.into_iter().map(|call| history(shape, [call]))) {
        Ok(calls) => calls,
        Err(report) => panic!("{report}"),
    }
}

#[test]
fn rounds_by_hand() {
    on_both(|calls| {
        let rounds: [(&[u32], &[u32]); 9] = [
            (&WEIGHTS, &ROUND),
            (&[], &[]),
            (&[1], &[0]),
            (&[9], &[0; 9]),
            (&[1, 1], &[0, 1]),
            (&[2, 1], &[0, 1, 0]),
            (&[1, 2], &[1, 0, 1]),
            (&[3, 3], &[0, 1, 0, 1, 0, 1]),
            // Columns 2, 1, 2, 0, 2, 1, 2: the page of the README.
            (&[5, 4, 3], &[0, 1, 2, 0, 1, 0, 2, 0, 1, 2, 0, 1]),
        ];
        for (weights, rows) in rounds {
            assert_eq!(calls.sheet(weights, rows), Ok(Sheet::Right), "{weights:?}");
        }
    });
}

/// "rows and places counted from 0"; "the first wrong place, or the place after the last if the list is too short".
#[test]
fn wrong_places_by_hand() {
    on_both(|calls| {
        let mut says = |rows: &[u32]| match calls.sheet(&WEIGHTS, rows) {
            Ok(Sheet::WrongAt { place }) => Some(place as usize),
            other => {
                assert_eq!(other, Ok(Sheet::Right));
                None
            }
        };
        let changed = |place: usize, row: u32| {
            let mut rows = ROUND;
            rows[place] = row;
            rows
        };
        for place in 0..ROUND.len() {
            assert_eq!(says(&ROUND[..place]), Some(place));
            for row in [0, 1, 2, 3, 4, 63, 64, 65, 256, u32::MAX].into_iter().filter(|&row| row != ROUND[place]) {
                assert_eq!(says(&changed(place, row)), Some(place));
            }
        }
        // Wrong at two places, and at the first and too short.
        let mut twice = changed(4, 0);
        twice[9] = 0;
        assert_eq!(says(&twice), Some(4));
        assert_eq!(says(&changed(0, 0)[..3]), Some(0));
        // Too long: the first place too many, whatever stands there, and all the more where the next round begins.
        for more in [0, 2, 64, u32::MAX] {
            assert_eq!(says(&[&ROUND[..], &[more]].concat()), Some(16));
        }
        assert_eq!(says(&[ROUND, ROUND].concat()), Some(16));
        assert_eq!(says(&ROUND.map(|row| row + 1)), Some(0));
        // Where two rows share a column the one that joined first comes first.
        assert_eq!(calls.sheet(&[3, 3], &[1, 0, 1, 0, 1, 0]), Ok(Sheet::WrongAt { place: 0 }));
        assert_eq!(calls.sheet(&[3, 3], &[0, 1, 1, 0, 0, 1]), Ok(Sheet::WrongAt { place: 2 }));
        // "No rows and an empty list is accepted."
        assert_eq!(calls.sheet(&[], &[]), Ok(Sheet::Right));
        assert_eq!(calls.sheet(&[], &[0]), Ok(Sheet::WrongAt { place: 0 }));
        assert_eq!(calls.sheet(&[1], &[]), Ok(Sheet::WrongAt { place: 0 }));
    });
}

/// "6 for a weight out of range; 17 for more than 64 weights, before 6."
#[test]
fn refusals_by_hand() {
    on_both(|calls| {
        let all = round_of(&[1; MOST_ROWS]);
        assert_eq!(calls.sheet(&[1; MOST_ROWS], &all), Ok(Sheet::Right));
        assert_eq!(calls.sheet(&[1; MOST_ROWS + 1], &all), Err(Refusal::TooMany));
        assert_eq!(calls.sheet(&[0; MOST_ROWS + 1], &[]), Err(Refusal::TooMany));
        assert_eq!(calls.sheet(&[u32::MAX; 100], &[]), Err(Refusal::TooMany));
        assert_eq!(calls.sheet(&[HEAVIEST_ON_SHEET], &[0; HEAVIEST_ON_SHEET as usize]), Ok(Sheet::Right));
        for bad in BAD_WEIGHTS {
            assert_eq!(calls.sheet(&[bad], &[0; 4]), Err(Refusal::BadWeight), "{bad}");
            for place in 0..MOST_ROWS {
                let mut weights = [1; MOST_ROWS];
                weights[place] = bad;
                assert_eq!(calls.sheet(&weights, &all), Err(Refusal::BadWeight), "{bad} at {place}");
            }
        }
        assert_eq!([Refusal::TooMany.number(), Refusal::BadWeight.number()], [17, 6]);
    });
}

/// The sequence written out, and the independent scheduler from a start: the same visits in both editions, whatever lengths the records have.
#[test]
fn rounds_are_the_schedulers() {
    let mut random = Random::new(91);
    for turn in 0..300 {
        let count = random.pick(&[1, 2, 3, 5, 9, 30, MOST_ROWS]);
        let heaviest = random.pick(&[1, 2, 7, 40, if count < 10 { HEAVIEST_ON_SHEET } else { 200 }]);
        let weights = sheets::weights(&mut random, count, heaviest);
        let round = round_of(&weights);
        // Where a visit sends several records only the first has the start mark.
        let longest = if turn % 3 == 0 { LONGEST as u32 } else { random.pick(&[400, LONGEST as u32]) };
        for edition in EDITIONS {
            let length = || random.from_to(u64::from(longest) / 2, u64::from(longest)) as u32;
            assert_eq!(round_sent(edition, &weights, length), round, "edition {edition}: {weights:?}");
        }
        assert_eq!(round.len(), weights.iter().sum::<u32>() as usize);
        for (row, weight) in (0..).zip(weights) {
            assert_eq!(round.iter().filter(|&&visited| visited == row).count(), weight as usize);
        }
    }
    for edition in EDITIONS {
        assert_eq!(round_sent(edition, &[], || 1), round_of(&[]));
        for weights in [longest(), sparsest()] {
            assert_eq!(round_sent(edition, &weights, || LONGEST as u32), round_of(&weights));
        }
    }
    assert_eq!((round_of(&longest()).len(), round_of(&sparsest()).len()), (LONGEST_ROUND, 2_048 + 63));
    assert_eq!(LONGEST_ROUND, 262_080);
}

/// A sheet that is accepted is what this very product does: the start marks of a round that the engine under test sends, with every row always waiting.
#[test]
fn what_the_engine_sends_is_accepted() {
    in_both_editions(|calls, edition| {
        let mut random = Random::new(92);
        for turn in 0..20 {
            let count = random.pick(&[1, 2, 4, 20, MOST_ROWS]);
            let heaviest = random.pick(&[2, 9, if count < 20 { 300 } else { 20 }]);
            let weights = sheets::weights(&mut random, count, heaviest);
            let visits = sent_by(calls, edition, &weights, if turn % 2 == 0 { LONGEST as u32 } else { 600 });
            assert_eq!(calls.sheet(&weights, &visits), Ok(Sheet::Right), "{weights:?}");
            // The next round is the same one again; a visit more is one too many.
            let more = [&visits[..], &visits[..1]].concat();
            assert_eq!(calls.sheet(&weights, &more), Ok(Sheet::WrongAt { place: visits.len() as u32 }));
        }
    });
}

/// The rows of a round by their start marks: as many visits as the weights add up to.
fn sent_by(calls: &mut dyn Calls, edition: u64, weights: &[u32], length: u32) -> Vec<u32> {
    calls.fill(edition, weights, 2, length);
    let mut visits = Vec::new();
    let whole = weights.iter().sum::<u32>() as usize;
    loop {
        let sent = calls.next().unwrap();
        if sent.started && visits.len() == whole {
            return visits;
        }
        visits.extend(sent.started.then_some(sent.slot));
        calls.put(sent.slot, sent.ticket, length, 0).unwrap();
    }
}

/// True sheets and wrong ones of each kind, of few rows and of many, of small weights and of large.
fn random_sheets(seed: u64, times: usize) -> Vec<Call> {
    let mut random = Random::new(seed);
    let mut calls = Vec::new();
    for fault in Fault::ALL {
        for _ in 0..times {
            let (count, heaviest) =
                random.pick(&[(0, 1), (1, 1), (1, 9), (2, 3), (3, 20), (5, 100), (8, 500), (20, 9), (63, 4), (64, 1), (64, 30)]);
            let weights = sheets::weights(&mut random, count, heaviest);
            calls.push(sheet(&mut random, weights, fault));
        }
    }
    calls.extend((0..times * 4).map(|_| refused(&mut random)));
    calls
}

#[test]
fn sheets_of_each_kind() {
    assert!(compare("sheets of each kind", random_sheets(93, 4_000)) >= 60_000);
}

/// Some with weights up to the heaviest, in up to 64 rows.
#[test]
fn large_sheets_of_each_kind() {
    let mut random = Random::new(94);
    for fault in Fault::ALL {
        let of = [(1, 1), (2, 1), (7, 1), (64, 40)].map(|(count, part)| sheets::weights(&mut random, count, HEAVIEST_ON_SHEET / part));
        let calls: Vec<Call> = of.into_iter().map(|weights| sheet(&mut random, weights, fault)).collect();
        compare("large sheets", calls);
    }
}

/// Every place of a sheet changed, every cut, every place with one more, every two neighbours exchanged.
#[test]
fn every_place() {
    let mut random = Random::new(95);
    for weights in
        [WEIGHTS.to_vec(), vec![7], vec![3, 3, 3], vec![1; 9], vec![5, 4, 3], vec![1, 2, 4, 8, 16], sheets::weights(&mut random, 20, 12)]
    {
        let round = round_of(&weights);
        let mut calls = Vec::new();
        let mut push = |rows: Vec<u32>| calls.push(Call::Sheet { weights: weights.clone(), rows });
        for place in 0..=round.len() {
            push(round[..place].to_vec());
            for row in (0..=weights.len() as u32).chain([63, 64, 256, u32::MAX]) {
                push([&round[..place], &[row], &round[place..]].concat());
                if place < round.len() {
                    push([&round[..place], &[row], &round[place + 1..]].concat());
                }
            }
            if place + 1 < round.len() {
                let mut exchanged = round.clone();
                exchanged.swap(place, place + 1);
                push(exchanged);
            }
        }
        compare("every place", calls);
    }
}

/// The longest, the sparsest and others with gaps: true, and wrong at the first, the last and any place.
#[test]
fn the_longest_and_the_sparsest() {
    let mut random = Random::new(96);
    let lone = |place: usize, heavy: u32| {
        let mut weights = vec![1; MOST_ROWS];
        weights[place] = heavy;
        weights
    };
    for weights in
        [longest(), sparsest(), lone(0, 2_048), lone(30, 4_095), vec![2_048], vec![1, 2_048], vec![4_095], vec![4_095, 1], vec![2_047; 64]]
    {
        let round = round_of(&weights);
        let last = round.len() - 1;
        let mut calls = vec![Call::Sheet { weights: weights.clone(), rows: round.clone() }];
        for place in [0, last, random.below(round.len() as u64) as usize] {
            let mut rows = round.clone();
            rows[place] = random.pick(&[64, u32::MAX, round[place] + 1, round[place] ^ 1]);
            calls.push(Call::Sheet { weights: weights.clone(), rows });
        }
        for rows in [round[..last].to_vec(), [&round[..], &[0]].concat(), [&round[..], &round[..]].concat()] {
            calls.push(Call::Sheet { weights: weights.clone(), rows });
        }
        compare("the longest and the sparsest", calls);
    }
}

/// An answer buffer of another length gets 10 before all else, whatever the lists are, and neither it nor they are touched.
#[test]
fn other_lengths_of_the_answer() {
    let too_many = Call::Sheet { weights: vec![0; 65], rows: vec![0] };
    let bad = Call::Sheet { weights: vec![4_096], rows: vec![0] };
    let of = |rows: &[u32]| Call::Sheet { weights: WEIGHTS.to_vec(), rows: rows.to_vec() };
    let sheets = [of(&ROUND), of(&ROUND[1..]), of(&[]), Call::Sheet { weights: Vec::new(), rows: Vec::new() }, too_many, bad];
    let mislent =
        |call: Call| (0..=64).chain([4_102]).map(move |answer_length| Step::Mislent { call: call.clone(), state_length: 0, answer_length });
    let steps: Vec<Step> = sheets.into_iter().flat_map(mislent).collect();
    let history = History { seed: 0, shape: "other lengths", memory: fresh(1), steps };
    if let Err(report) = run_all(&mut engine(), [history]) {
        panic!("{report}");
    }
}

/// A sheet takes no state: it may be checked between any calls, and on a parked or lost memory.
#[test]
fn a_sheet_leaves_the_state() {
    on_both(|calls| {
        calls.fill(2, &WEIGHTS, 3, 1_014);
        let before = calls.state();
        assert_eq!(calls.sheet(&WEIGHTS, &ROUND), Ok(Sheet::Right));
        assert_eq!(calls.state(), before);
        calls.park().unwrap();
        assert_eq!(calls.sheet(&WEIGHTS, &ROUND), Ok(Sheet::Right));
        assert_eq!(calls.next(), Err(Refusal::Parked));
    });
}

/// The sheets of these tests find every wrong checker, those by themselves and those in histories (tests/slips.rs) alike.
#[test]
fn every_wrong_checker_is_found() {
    let sheets = random_sheets(93, 100);
    let at_edges = [longest(), vec![HEAVIEST_ON_SHEET]].map(|weights| Call::Sheet { rows: round_of(&weights), weights });
    let mislent = Step::Mislent { call: Call::Sheet { weights: vec![1], rows: vec![0] }, state_length: 0, answer_length: 7 };
    let mut history = history("sheets of each kind", sheets.into_iter().chain(at_edges));
    history.steps.push(mislent);
    assert!(run(&mut engine(), &history).is_ok());
    for &slip in Slip::of_sheets() {
        let found = run(&mut Wrong(slip), &history);
        assert!(found.is_err(), "{slip:?} was not found");
        println!("{slip:?}: sheet {}", found.unwrap_err().step);
    }
    assert_eq!(Slip::of_sheets().len(), 33);
    assert!(run(&mut Wrong(Slip::TermOneFurther), &history).is_ok(), "an engine that checks sheets rightly is blamed");
}

/// The numbers of an answer, byte by byte.
#[test]
fn the_answers_bytes() {
    let mut answer = [0xa5; 8];
    assert_eq!(engine().sheet(&mut [1, 2], &mut [1, 0, 1], &mut answer), 0);
    assert_eq!(answer, [1, 0, 0, 0, 0, 0, 0, 0]);
    let (mut weights, mut rows) = (longest(), round_of(&longest()));
    rows.pop();
    assert_eq!(engine().sheet(&mut weights, &mut rows, &mut answer), 0);
    // 262,079 is 0x3ffbf.
    assert_eq!(answer, [0, 0, 0, 0, 0xbf, 0xff, 0x03, 0]);
    assert_eq!(engine().sheet(&mut [0; 65], &mut [], &mut answer), 17);
    assert_eq!(answer, [0; 8]);
}
