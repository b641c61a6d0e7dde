//! docs/speed.svg: the times of docs/SPEED.md's table as bars, one group a fill.

use super::svg::{grouped, solid, Picture, GREY, LEFT, MIDDLE, PALE, RIGHT, SMALL};

/// The columns of times, in the order of the table, and their colours.
pub const NAMES: [&str; 6] = ["call", "next", "check", "read", "plain check", "plain call"];
const COLOURS: [&str; 6] = ["#0072b2", "#56b4e9", "#009e73", "#999999", "#e69f00", "#d55e00"];

/// The plot: its left, upper and lower edge, its width, the width of a bar, and the nanoseconds between two lines of its axis.
const EDGE: f64 = 80.0;
const TOP: f64 = 110.0;
const FOOT: f64 = 430.0;
const WIDE: f64 = 800.0;
const BAR: f64 = 24.0;
const STEP: u32 = 250;

/// A row of the table: its fill, and nanoseconds by the names above; none where there is nothing to send.
pub struct Row {
    pub fill: String,
    pub times: [Option<u32>; 6],
}

/// The rows of the table of a text: those whose first cell is so many channels x so many records.
pub fn rows(text: &str) -> Vec<Row> {
    let row = |line: &str| {
        let mut cells = line.strip_prefix('|')?.split('|').map(str::trim);
        let fill = cells.next()?.to_string();
        let (channels, records) = fill.split_once(" x ")?;
        let _: (u32, u32) = (channels.parse().ok()?, records.parse().ok()?);
        Some(Row { fill, times: [(); 6].map(|_| cells.next().and_then(|cell| cell.parse().ok())) })
    };
    text.lines().filter_map(row).collect()
}

/// The file, by the rows of the table.
pub fn picture(rows: &[Row]) -> String {
    let ratios = |column: usize| rows.iter().filter_map(move |row| Some(f64::from(row.times[column]?) / f64::from(row.times[3]?)));
    let (most_next, least_plain) = (ratios(1).fold(0.0, f64::max), ratios(4).fold(f64::INFINITY, f64::min));
    let shows = format!(
        "A group of bars for each number of channels and records: {}. A next takes at most {most_next:.1} times as long as reading the memory, a plain check at least \
         {least_plain:.1} times.",
        NAMES.join(", ")
    );
    let mut picture = Picture::new("What a call costs beside reading the memory once", &shows, 500.0);
    picture.words(
        LEFT,
        (20.0, 50.0),
        "Medians of many batches, all measured in turn in one run; lower is faster. What each is: docs/SPEED.md.",
    );
    for (number, (name, colour)) in NAMES.into_iter().zip(COLOURS).enumerate() {
        let x = 20.0 + 120.0 * number as f64;
        picture.area((x, 66.0), (14.0, 13.0), colour);
        picture.words(LEFT, (x + 20.0, 77.0), name);
    }
    let most = rows.iter().flat_map(|row| row.times).flatten().max().unwrap_or(0).next_multiple_of(STEP).max(STEP);
    let height = |time: u32| FOOT - (FOOT - TOP) * f64::from(time) / f64::from(most);
    axis(&mut picture, most, height);
    let group = WIDE / rows.len() as f64;
    for (place, row) in rows.iter().enumerate() {
        let middle = EDGE + group * (place as f64 + 0.5);
        picture.words(MIDDLE, (middle, FOOT + 20.0), &row.fill);
        for (number, time) in row.times.into_iter().enumerate() {
            let Some(time) = time else { continue };
            let x = middle + BAR * (number as f64 - 3.0);
            picture.area((x + 1.0, height(time)), (BAR - 2.0, FOOT - height(time)), COLOURS[number]);
            picture.words(SMALL, (x + BAR / 2.0, height(time) - 4.0), &time.to_string());
        }
    }
    picture.words(MIDDLE, (EDGE + WIDE / 2.0, FOOT + 44.0), "channels x records that wait on each");
    picture.finish()
}

/// The axis of times, from 0.
fn axis(picture: &mut Picture, most: u32, height: impl Fn(u32) -> f64) {
    picture.words(LEFT, (20.0, TOP - 10.0), "nanoseconds");
    for time in (0..=most).step_by(STEP as usize) {
        let y = height(time);
        picture.line(solid(if time == 0 { GREY } else { PALE }, 1.0), &[(EDGE, y), (EDGE + WIDE, y)]);
        picture.words(RIGHT, (EDGE - 8.0, y + 4.0), &grouped(u64::from(time)));
    }
    picture.line(solid(GREY, 1.0), &[(EDGE, TOP), (EDGE, FOOT)]);
}
