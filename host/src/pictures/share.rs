//! docs/share.svg: the bytes that each channel has sent, its records' framing included, against its ideal line, smoothed beside deficit round robin (document 000,
//! figure 1, draws such curves).

use super::runs::{in_one_go, smoothed, Load, Sending};
use super::svg::{dashed, grouped, listed, solid, Pair, Picture, Stroke, BLACK, CHANNELS, GREY, HEAD, LEFT, MIDDLE, PALE, RIGHT};
use crate::scheduler::{cost_of, GRANT};

/// Two rounds of these weights take no more records than may wait, so no channel runs empty.
pub const LOAD: Load = Load { weights: &[7, 4, 2], records: 16, length: 1_014 };
const ROUNDS: usize = 2;

/// The plots: their size, the unit of their axes (what a visit grants), the bytes at their upper end, and where that stands.
const SIZE: Pair = (320.0, 300.0);
const UNIT: u64 = GRANT;
const MOST: u64 = 16 * UNIT;
const TOP: f64 = 140.0;

/// The bytes of all channels and of one of them after some send.
type Point = (u64, u64);

/// Where a channel was farthest from its ideal line.
#[derive(Clone, Copy, Debug, PartialEq, Eq)]
pub struct Farthest {
    pub slot: usize,
    pub point: Point,
    /// The distance in bytes, times the sum of the weights.
    pub distance: u64,
}

/// The file: two plots with the same axes.
pub fn picture() -> String {
    let title = format!("Bytes sent, framing included, against the ideal share: weights {}", listed(LOAD.weights));
    let shows = "Two plots of the bytes sent by each channel over those sent by all, with a straight ideal line for each. Smoothed, the curves stay close to \
                 the lines. Plain, they leave them by several records and meet them at the end of a round.";
    let mut picture = Picture::new(&title, shows, 530.0);
    let length = u64::from(LOAD.length);
    let subtitle = format!(
        "{ROUNDS} rounds of {} sends. At the start {} records of {} bytes, {} with framing, wait on each channel, so that none runs empty.",
        LOAD.round(),
        LOAD.records,
        grouped(length),
        grouped(cost_of(length))
    );
    picture.words(LEFT, (20.0, 50.0), &subtitle);
    let sends = ROUNDS * LOAD.round();
    let sendings: Vec<Sending> = smoothed(LOAD, sends).into_iter().map(|(sending, _)| sending).collect();
    panel(&mut picture, 50.0, "Smoothed: the exported calls", &sendings);
    panel(&mut picture, 500.0, "Plain deficit round robin", &in_one_go(LOAD, sends));
    legend(&mut picture, 506.0);
    picture.finish()
}

/// What one channel has sent, after each send and before the first.
pub fn curve(slot: usize, sendings: &[Sending]) -> Vec<Point> {
    let mut points = vec![(0, 0)];
    let (mut all, mut own) = (0, 0);
    for sending in sendings {
        all += sending.cost;
        own += if sending.slot == slot { sending.cost } else { 0 };
        points.push((all, own));
    }
    points
}

/// The largest distance of any channel from its ideal line, which has its weight's share of all bytes sent; the first such place.
/// Between two sends a curve is straight, so it is farthest from a line after one of them.
pub fn farthest(weights: &[u32], sendings: &[Sending]) -> Farthest {
    let sum: u64 = weights.iter().map(|&weight| u64::from(weight)).sum();
    let mut found = Farthest { slot: 0, point: (0, 0), distance: 0 };
    for (slot, &weight) in weights.iter().enumerate() {
        for point in curve(slot, sendings) {
            let distance = (point.1 * sum).abs_diff(u64::from(weight) * point.0);
            if distance > found.distance {
                found = Farthest { slot, point, distance };
            }
        }
    }
    found
}

/// The ideal line at so many bytes of all channels.
fn ideal(slot: usize, all: u64) -> f64 {
    all as f64 * f64::from(LOAD.weights[slot]) / LOAD.round() as f64
}

/// One plot with its axes, lines and largest distance.
fn panel(picture: &mut Picture, left: f64, head: &str, sendings: &[Sending]) {
    let end = sendings.iter().map(|sending| sending.cost).sum::<u64>();
    let place = |all: u64, own: f64| (left + SIZE.0 * all as f64 / end as f64, TOP + SIZE.1 * (1.0 - own / MOST as f64));
    picture.words(HEAD, (left, 82.0), head);
    let farthest = farthest(LOAD.weights, sendings);
    let sum = LOAD.round() as u64;
    let bytes = grouped((farthest.distance + sum / 2) / sum);
    picture.words(LEFT, (left, 102.0), &format!("largest distance from an ideal line: {bytes} bytes"));
    axes(picture, end, place);
    for (slot, weight) in LOAD.weights.iter().enumerate() {
        let points: Vec<Pair> = curve(slot, sendings).iter().map(|&(all, own)| place(all, own as f64)).collect();
        picture.line(dashed(CHANNELS[slot], 1.5), &[place(0, 0.0), place(end, ideal(slot, end))]);
        picture.line(solid(CHANNELS[slot], 2.5), &points);
        let (x, y) = place(end, ideal(slot, end));
        picture.words(LEFT, (x + 6.0, y + 4.0), &format!("weight {weight}"));
    }
    let (all, own) = farthest.point;
    picture.line(solid(BLACK, 4.0), &[place(all, own as f64), place(all, ideal(farthest.slot, all))]);
}

/// Axes in units of a grant, with the end of the first round.
fn axes(picture: &mut Picture, end: u64, place: impl Fn(u64, f64) -> Pair) {
    for own in (0..=MOST).step_by(2 * UNIT as usize) {
        let (x, y) = place(0, own as f64);
        picture.line(solid(PALE, 1.0), &[(x, y), (x + SIZE.0, y)]);
        picture.words(RIGHT, (x - 6.0, y + 4.0), &(own / UNIT).to_string());
    }
    for all in (0..=end).step_by(5 * UNIT as usize) {
        let (x, y) = place(all, 0.0);
        picture.line(solid(GREY, 1.0), &[(x, y), (x, y + 4.0)]);
        picture.words(MIDDLE, (x, y + 18.0), &(all / UNIT).to_string());
    }
    picture.line(solid(GREY, 1.0), &[place(0, MOST as f64), place(0, 0.0), place(end, 0.0)]);
    let middle = end / ROUNDS as u64;
    picture.line(dashed(GREY, 1.0), &[place(middle, MOST as f64), place(middle, 0.0)]);
    for round in 0..ROUNDS as u64 {
        let (x, y) = place(end * (2 * round + 1) / (2 * ROUNDS as u64), MOST as f64);
        picture.words(MIDDLE, (x, y + 14.0), &format!("round {}", round + 1));
    }
    let (x, y) = place(0, MOST as f64);
    picture.words(LEFT, (x - 20.0, y - 12.0), &format!("sent by the channel, x {} bytes", grouped(UNIT)));
    let (x, y) = place(middle, 0.0);
    picture.words(MIDDLE, (x, y + 36.0), &format!("sent by all channels, x {} bytes", grouped(UNIT)));
}

/// What the lines mean.
fn legend(picture: &mut Picture, top: f64) {
    let shares: Vec<String> = LOAD.weights.iter().map(|weight| format!("{weight}/{}", LOAD.round())).collect();
    let ideal_means = format!("its ideal line: {} of all bytes sent", shares.join(", "));
    let entries: [(f64, Stroke, &str); 3] = [
        (20.0, solid(CHANNELS[0], 2.5), "sent by a channel"),
        (220.0, dashed(CHANNELS[0], 1.5), &ideal_means),
        (590.0, solid(BLACK, 4.0), "largest distance from an ideal line"),
    ];
    for (x, stroke, means) in entries {
        picture.line(stroke, &[(x, top - 4.0), (x + 34.0, top - 4.0)]);
        picture.words(LEFT, (x + 42.0, top), means);
    }
}
