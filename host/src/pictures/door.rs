//! docs/door.svg: how long the door of weight 1 waits beside a drive of weight 4,095 that empties and refills, in edition 1 and in edition 2.

use super::svg::{dashed, grouped, solid, Pair, Picture, Stroke, CHANNELS, GREY, LEFT, MIDDLE, PALE, RIGHT};
use crate::door::{longest_wait, turns, DOOR_WEIGHT, DRIVE_WEIGHT};

/// One record of the drive at a time, and so many sends.
const BURST: usize = 1;
const SENDS: usize = 20_000;

/// The plot: its left and upper edge, its size, and the sends between two lines of its axes.
const EDGE: f64 = 100.0;
const TOP: f64 = 110.0;
const SIZE: Pair = (660.0, 330.0);
const STEP: usize = 5_000;

/// Edition 1 and edition 2.
const STROKES: [Stroke; 2] = [solid(CHANNELS[1], 2.5), solid(CHANNELS[0], 2.5)];

/// The file: both editions in one plot.
pub fn picture() -> String {
    let drive = grouped(u64::from(DRIVE_WEIGHT));
    let of_editions = [1, 2].map(|edition| turns(edition, BURST, SENDS));
    let [never, bounded] = [0, 1].map(|edition| longest_wait(&of_editions[edition], SENDS) as u64);
    let title = format!("A door of weight {DOOR_WEIGHT} beside a drive of weight {drive} that empties and refills");
    let shows = format!(
        "The records that the drive has sent since the door's last one, against all records sent. In edition 1 the line rises without end: {} of {} sends are \
         the door's. In edition 2 it falls to 0 at each of the door's {} sends and is never above {}.",
        of_editions[0].len(),
        grouped(never),
        of_editions[1].len(),
        grouped(bounded)
    );
    let mut picture = Picture::new(&title, &shows, 540.0);
    let subtitle =
        "The drive has one record at a time: the next one comes with the send that empties it. The door always has a record waiting.";
    picture.words(LEFT, (20.0, 50.0), subtitle);
    picture.words(LEFT, (20.0, TOP - 18.0), "sent by the drive since the door's last record");
    axes(&mut picture);
    let words = [
        format!("edition 1: the door has sent {} records", of_editions[0].len()),
        format!("edition 2: the door has sent {}", of_editions[1].len()),
    ];
    for (number, turns) in of_editions.iter().enumerate() {
        picture.line(STROKES[number], &curve(turns));
        let y = TOP + SIZE.1 + 76.0;
        let x = 20.0 + 330.0 * number as f64;
        picture.line(STROKES[number], &[(x, y - 4.0), (x + 34.0, y - 4.0)]);
        picture.words(LEFT, (x + 42.0, y), &words[number]);
    }
    let (left, right) = (place(0, bounded as usize), place(SENDS, bounded as usize));
    picture.line(dashed(GREY, 1.0), &[left, right]);
    picture.words(LEFT, (right.0 + 8.0, right.1 + 4.0), &format!("longest wait: {}", grouped(bounded)));
    let (x, y) = place(SENDS, SENDS);
    picture.words(LEFT, (x + 8.0, y + 4.0), "and so on");
    picture.finish()
}

/// Where so many sends and so long a wait stand.
fn place(sends: usize, wait: usize) -> Pair {
    let share = |number: usize| number as f64 / SENDS as f64;
    (EDGE + SIZE.0 * share(sends), TOP + SIZE.1 * (1.0 - share(wait)))
}

/// The wait from send to send: it rises by one with each of the drive's and is 0 after the door's.
fn curve(turns: &[usize]) -> Vec<Pair> {
    let (mut points, mut last) = (vec![place(0, 0)], 0);
    for &turn in turns {
        points.extend([place(turn - 1, turn - 1 - last), place(turn, 0)]);
        last = turn;
    }
    points.push(place(SENDS, SENDS - last));
    points
}

fn axes(picture: &mut Picture) {
    for number in (0..=SENDS).step_by(STEP) {
        let ((x, y), end) = (place(0, number), place(SENDS, number));
        picture.line(solid(if number == 0 { GREY } else { PALE }, 1.0), &[(x, y), end]);
        picture.words(RIGHT, (x - 8.0, y + 4.0), &grouped(number as u64));
        let (x, y) = place(number, 0);
        picture.line(solid(GREY, 1.0), &[(x, y), (x, y + 4.0)]);
        picture.words(MIDDLE, (x, y + 18.0), &grouped(number as u64));
    }
    picture.line(solid(GREY, 1.0), &[place(0, SENDS), place(0, 0)]);
    let (x, y) = place(SENDS / 2, 0);
    picture.words(MIDDLE, (x, y + 38.0), "records sent, of both");
}
