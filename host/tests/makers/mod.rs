//! The corners of round sheets (document 02, §9).

use host::answers::{Refusal, Sheet};
use host::history::Call;
use host::sheet::{check, round_of, HEAVIEST_ON_SHEET, MOST_ROWS};

pub const CORNERS: [&str; 14] = [
    "a sheet is accepted",
    "no rows and an empty list",
    "a sheet of 64 rows is accepted",
    "a sheet with a weight of 4,095 is accepted",
    "two rows share a column on an accepted sheet",
    "a sheet is wrong at place 0",
    "a sheet is wrong in the middle",
    "a sheet is too short",
    "an empty sheet of rows",
    "a sheet is too long",
    "a sheet is wrong where a number is no row's",
    "6 for a weight",
    "17 for 65 weights",
    "17 where 6 would be given too",
];

pub fn look_at_sheet(call: &Call, met: &mut impl FnMut(&'static str, bool)) {
    let Call::Sheet { weights, rows } = call else { return };
    let bad = weights.iter().any(|weight| !(1..=HEAVIEST_ON_SHEET).contains(weight));
    match check(weights, rows) {
        Ok(Sheet::Right) => {
            met("a sheet is accepted", true);
            met("no rows and an empty list", weights.is_empty());
            met("a sheet of 64 rows is accepted", weights.len() == MOST_ROWS);
            met("a sheet with a weight of 4,095 is accepted", weights.contains(&HEAVIEST_ON_SHEET));
            let shared = (0..12).any(|column| weights.iter().filter(|weight| *weight >> column & 1 == 1).count() > 1);
            met("two rows share a column on an accepted sheet", shared);
        }
        Ok(Sheet::WrongAt { place }) => {
            let (place, whole) = (place as usize, round_of(weights).len());
            met("a sheet is wrong at place 0", place == 0 && !rows.is_empty());
            met("a sheet is wrong in the middle", 0 < place && place < rows.len().min(whole));
            met("a sheet is too short", 0 < place && place == rows.len());
            met("an empty sheet of rows", rows.is_empty());
            met("a sheet is too long", 0 < place && place == whole);
            met(
                "a sheet is wrong where a number is no row's",
                rows.get(place).is_some_and(|&row| row as usize >= weights.len()) && place < whole,
            );
        }
        Err(Refusal::BadWeight) => met("6 for a weight", true),
        Err(_) => {
            met("17 for 65 weights", weights.len() == MOST_ROWS + 1);
            met("17 where 6 would be given too", bad);
        }
    }
}
