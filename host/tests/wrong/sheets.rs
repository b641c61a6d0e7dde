//! The slips of round sheets: in what is refused, in the visits of the round, and in what is said of a list.

use host::answers::{Refusal, Sheet};
use host::model::{answer_bytes, on_lists};
use host::sheet::{check, compared, round_of, HEAVIEST_ON_SHEET, MOST_ROWS};

use super::{Slip, Wrong};

impl Wrong {
    pub fn sheet_call(&self, weights: &mut [u32], rows: &mut [u32], answer: &mut [u8]) -> u32 {
        let (before, right) = (answer.to_vec(), check(weights, rows));
        let number = on_lists(answer, self.sheet_told(weights, rows));
        let (answered, accepted) = (answer.len() == 8, right == Ok(Sheet::Right));
        match self.0 {
            Slip::SheetWrongAnswerWritten if !answered => answer.fill(0),
            Slip::SheetAnswerKeptOnRefusal if right.is_err() => answer.copy_from_slice(&before),
            Slip::PlaceOfTheBadWeight if answered && right == Err(Refusal::BadWeight) => {
                let place = weights.iter().position(|weight| !(1..=HEAVIEST_ON_SHEET).contains(weight)).unwrap_or(0);
                answer.copy_from_slice(&answer_bytes(&[0, place as u32]));
            }
            Slip::LengthOnAcceptance if answered && accepted => answer.copy_from_slice(&answer_bytes(&[1, rows.len() as u32])),
            Slip::FieldsTurned if answered && number == 0 => answer.rotate_left(4),
            // The round is worked out where the weights stand.
            Slip::WeightsUsedUp if right.is_ok() => weights.fill(0),
            Slip::ListMended => {
                if let Ok(Sheet::WrongAt { place }) = right {
                    rows.iter_mut().skip(place as usize).take(1).for_each(|row| *row = 0);
                }
            }
            _ => {}
        }
        number
    }

    fn sheet_told(&self, weights: &[u32], rows: &[u32]) -> Result<Sheet, Refusal> {
        let most = match self.0 {
            Slip::SixtyFiveWeights => MOST_ROWS + 1,
            Slip::SixtyThreeWeights => MOST_ROWS - 1,
            _ => MOST_ROWS,
        };
        let lightest = if self.is(Slip::WeightZeroTaken) { 0 } else { 1 };
        let heaviest = match self.0 {
            Slip::SheetWeightOneMore => HEAVIEST_ON_SHEET + 1,
            Slip::SheetWeightOneFewer => HEAVIEST_ON_SHEET - 1,
            _ => HEAVIEST_ON_SHEET,
        };
        let looked_at = if self.is(Slip::FirstWeightLookedAt) { 1 } else { weights.len() };
        let bad = |weight: &u32| {
            let weight = if self.is(Slip::SixteenBitsOfAWeight) { weight & 0xffff } else { *weight };
            !(lightest..=heaviest).contains(&weight)
        };
        let bad = weights.iter().take(looked_at).any(bad);
        if self.is(Slip::SixBeforeSeventeen) && bad {
            return Err(Refusal::BadWeight);
        }
        if weights.len() > most {
            return Err(Refusal::TooMany);
        }
        if bad {
            return Err(Refusal::BadWeight);
        }
        // Weights that only a slip let in make no long round.
        let within: Vec<u32> = weights.iter().map(|weight| (*weight).min(HEAVIEST_ON_SHEET + 1)).collect();
        Ok(self.sheet_compared(rows, &self.round(&within)))
    }

    /// The visits as the slip has them.
    fn round(&self, weights: &[u32]) -> Vec<u32> {
        let last = weights.len() as u32;
        let mirrored =
            |weights: &[u32], order: u32| weights.iter().map(|weight| weight.reverse_bits() >> (32 - order)).collect::<Vec<u32>>();
        match self.0 {
            Slip::RowsFromOne => round_of(weights).into_iter().map(|row| row + 1).collect(),
            // Where two rows share a column the later comes first: the rows are counted from the last.
            Slip::LaterRowFirst => {
                let turned: Vec<u32> = weights.iter().rev().copied().collect();
                round_of(&turned).into_iter().map(|row| last - 1 - row).collect()
            }
            Slip::LightestColumnFirst => {
                let order = weights.iter().max().map_or(0, |weight| weight.checked_ilog2().map_or(0, |highest| highest + 1));
                round_of(&mirrored(weights, order.max(1)))
            }
            Slip::LastTermLeftOut => {
                let mut round = round_of(weights);
                let highest = weights.iter().max().and_then(|weight| weight.checked_ilog2()).unwrap_or(0);
                round.truncate(round.len() - weights.iter().filter(|weight| *weight >> highest & 1 == 1).count());
                round
            }
            // Each row all its visits in one go.
            Slip::RowByRow => (0..last).zip(weights).flat_map(|(row, weight)| vec![row; *weight as usize]).collect(),
            // "every row always waiting": one that leaves after its visits is another round.
            Slip::OneVisitEach => {
                let mut seen = Vec::new();
                round_of(weights).into_iter().for_each(|row| {
                    if !seen.contains(&row) {
                        seen.push(row)
                    }
                });
                seen
            }
            _ => round_of(weights),
        }
    }

    fn sheet_compared(&self, rows: &[u32], round: &[u32]) -> Sheet {
        let low: Vec<u32> = rows
            .iter()
            .map(|row| match self.0 {
                Slip::RowByItsByte => row & 0xff,
                Slip::RowBySixBits => row & 0x3f,
                _ => *row,
            })
            .collect();
        let right = compared(&low, round);
        let Sheet::WrongAt { place } = right else {
            return if self.is(Slip::EmptyWrong) && rows.is_empty() { Sheet::WrongAt { place: 0 } } else { right };
        };
        let ends = place as usize == rows.len();
        let too_long = place as usize == round.len();
        match self.0 {
            Slip::ShortAccepted if ends => Sheet::Right,
            Slip::EmptyAccepted if rows.is_empty() => Sheet::Right,
            Slip::LongAccepted if too_long => Sheet::Right,
            Slip::PlacesFromOne => Sheet::WrongAt { place: place + 1 },
            Slip::PlaceAfter if !ends => Sheet::WrongAt { place: place + 1 },
            Slip::LastWhereTooShort if ends => Sheet::WrongAt { place: place.saturating_sub(1) },
            Slip::LastWhereTooLong if too_long => Sheet::WrongAt { place: rows.len() as u32 - 1 },
            Slip::LastWrongPlace if !ends => {
                let wrong = |at: &usize| rows.get(*at) != round.get(*at);
                Sheet::WrongAt { place: (0..rows.len()).rev().find(wrong).unwrap_or(0) as u32 }
            }
            // Lengths are looked at before rows.
            Slip::LengthFirst if rows.len() != round.len() => Sheet::WrongAt { place: rows.len().min(round.len()) as u32 },
            _ => right,
        }
    }
}
