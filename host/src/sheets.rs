//! Sheets to check: true ones of many weights, and wrong ones of each kind.

use crate::history::Call;
use crate::random::Random;
use crate::sheet::{round_of, HEAVIEST_ON_SHEET, MOST_ROWS};

/// What is wrong with a list of row numbers, beside the visits of the round.
#[derive(Clone, Copy, Debug, PartialEq, Eq)]
pub enum Fault {
    None,
    /// One number is another row's, at any place.
    AnotherRow,
    /// One number is no row's.
    OutOfRange,
    /// Two neighbours that differ are exchanged.
    Exchanged,
    /// It ends at any place before its end.
    Cut,
    /// A visit is left out.
    LeftOut,
    /// One number more, at the end or anywhere.
    OneMore,
    /// It goes on into the next round.
    GoesOn,
    Empty,
    /// Rows are counted from 1.
    FromOne,
    /// Any numbers at all.
    Any,
}

impl Fault {
    pub const ALL: [Fault; 11] = [
        Fault::None,
        Fault::AnotherRow,
        Fault::OutOfRange,
        Fault::Exchanged,
        Fault::Cut,
        Fault::LeftOut,
        Fault::OneMore,
        Fault::GoesOn,
        Fault::Empty,
        Fault::FromOne,
        Fault::Any,
    ];

    /// The list of a round with this fault. A round that is too short for it is left as it is.
    pub fn put_into(self, random: &mut Random, round: &[u32], rows: usize) -> Vec<u32> {
        let mut list = round.to_vec();
        let (any, row) = (random.pick(&NUMBERS), random.below(rows.max(1) as u64) as u32);
        let place = random.below(list.len().max(1) as u64) as usize;
        match self {
            Fault::None => {}
            Fault::Empty => list.clear(),
            Fault::Any => list = (0..random.below(20)).map(|_| random.pick(&NUMBERS)).collect(),
            Fault::FromOne => list.iter_mut().for_each(|row| *row += 1),
            Fault::OneMore => {
                let at = random.pick(&[list.len(), list.len(), place]);
                list.insert(at, random.pick(&[0, row, any]));
            }
            Fault::GoesOn => list.extend_from_slice(&round[..place.max(1).min(round.len())]),
            _ if list.is_empty() => {}
            Fault::AnotherRow => list[place] = row,
            // Some that the row's own low bits stand in.
            Fault::OutOfRange => {
                list[place] = random.pick(&[rows as u32, 64, u32::MAX, list[place] + 64, list[place] + 256, list[place] | 0x8000_0000])
            }
            Fault::Exchanged => {
                if let Some(at) = (place..list.len() - 1).chain(0..place).find(|&at| list[at] != list[at + 1]) {
                    list.swap(at, at + 1);
                }
            }
            Fault::Cut => list.truncate(place),
            Fault::LeftOut => {
                list.remove(place);
            }
        }
        list
    }
}

/// Row numbers at their edges, and beyond.
const NUMBERS: [u32; 12] = [0, 1, 62, 63, 64, 65, 127, 255, 256, 65_536, 0x8000_0000, u32::MAX];

/// Weights out of range.
pub const BAD_WEIGHTS: [u32; 9] = [0, 4_096, 4_097, 8_191, 65_536, 65_537, 0x8000_0000, 0x8000_0001, u32::MAX];

/// So many weights up to a heaviest one, some of them at the edges of their columns.
pub fn weights(random: &mut Random, count: usize, heaviest: u32) -> Vec<u32> {
    let mut weight = || {
        let any = random.from_to(1, u64::from(heaviest)) as u32;
        let column = random.below(u64::from(heaviest.ilog2()) + 1);
        let edge = (1 << column) - random.below(2) as u32;
        random.pick(&[any, any, any, edge, heaviest]).clamp(1, heaviest)
    };
    (0..count).map(|_| weight()).collect()
}

/// The sheet with a fault.
pub fn sheet(random: &mut Random, weights: Vec<u32>, fault: Fault) -> Call {
    let rows = fault.put_into(random, &round_of(&weights), weights.len());
    Call::Sheet { weights, rows }
}

/// Weights that are refused: too many, one out of range at any place, or both. They are not heavy, so that their list stays short.
pub fn refused(random: &mut Random) -> Call {
    let (many, bad) = random.pick(&[(true, false), (false, true), (true, true)]);
    let count = if many { random.pick(&[65, 65, 66, 100, 128, 320]) } else { random.from_to(1, MOST_ROWS as u64) as usize };
    let mut weights = weights(random, count, 3);
    let rows = round_of(&weights);
    if bad {
        let place = random.below(count as u64) as usize;
        let place = random.pick(&[0, place, count - 1]);
        weights[place] = random.pick(&BAD_WEIGHTS);
    }
    Call::Sheet { weights, rows }
}

/// A sheet as the generated histories have them: most of a few rows, some of 64, some with a weight at the limit; a third or so of them true.
pub fn any(random: &mut Random) -> Call {
    if random.chance(1, 4) {
        return refused(random);
    }
    let few = random.below(6) as usize;
    let count = random.pick(&[few, few, few, 63, MOST_ROWS]);
    let heaviest = random.pick(&[1, 2, 3, 5, 8, 13]);
    let mut weights = weights(random, count, heaviest);
    if count > 0 && count < 6 && random.chance(1, 4) {
        weights[count - 1] = random.pick(&[HEAVIEST_ON_SHEET, HEAVIEST_ON_SHEET, HEAVIEST_ON_SHEET - 1, 2_048, 2_047]);
    }
    let fault = if random.chance(1, 3) { Fault::None } else { random.pick(&Fault::ALL) };
    sheet(random, weights, fault)
}

/// The sheet of some of its rows, the others left out of both lists: a round of fewer rows is the same round without the visits of the rest.
fn of_some(weights: &[u32], rows: &[u32], kept: &[usize]) -> Call {
    let number = |row: &u32| match kept.iter().position(|&kept| kept == *row as usize) {
        Some(number) => Some(number as u32),
        // One that no row has stays one that no row has.
        None => (*row as usize >= weights.len()).then_some(*row),
    };
    Call::Sheet { weights: kept.iter().map(|&row| weights[row]).collect(), rows: rows.iter().filter_map(number).collect() }
}

/// Plainer sheets, plainest first: of no row, of one alone, of two.
pub fn plainer(weights: &[u32], rows: &[u32]) -> Vec<Call> {
    const TRIED: usize = 12;
    let count = weights.len().min(TRIED);
    let kept = [Vec::new()].into_iter().chain((0..count).map(|row| vec![row]));
    let kept = kept.chain((0..count).flat_map(|second| (0..second).map(move |first| vec![first, second])));
    kept.filter(|kept| kept.len() < weights.len()).map(|kept| of_some(weights, rows, &kept)).collect()
}
