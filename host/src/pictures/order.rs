//! docs/order.svg: the first round of document 01's check 5, send by send, and the same channels under deficit round robin.

use super::runs::{in_one_go, smoothed, Load, Scan, Sending};
use super::svg::{grouped, listed, solid, Pair, Picture, CHANNELS, GREY, HEAD, LEFT, MIDDLE, PALE, RIGHT, WHITE};
use crate::scheduler::GRANT;

/// Document 01, check 5: "Weights 1, 4, 8, 3 in slots 0 to 3, joined so", 16 records of 1,014 each (document 02, §1).
pub const LOAD: Load = Load { weights: &[1, 4, 8, 3], records: 16, length: 1_014 };

/// Where the first send begins, how wide a send is, how high a row is.
const EDGE: f64 = 236.0;
const SEND: f64 = 34.0;
const ROW: f64 = 28.0;
/// Where the longest waits are written.
const WAITS: f64 = 886.0;

/// The file: both panels over one axis of sends.
pub fn picture() -> String {
    let round = LOAD.round();
    let bytes = grouped(u64::from(LOAD.length));
    let title = format!("Which channel sends when: weights {}, records of {bytes} bytes", listed(LOAD.weights));
    let shows = "Two charts, one row a channel, one box a send. Smoothed, the channels take turns over the round. Plain, each sends all its records of the round in one go.";
    let mut picture = Picture::new(&title, shows, 530.0);
    let subtitle =
        format!("The first round, {round} sends, of document 01's check 5: {} records wait on each channel at the start.", LOAD.records);
    picture.words(LEFT, (20.0, 50.0), &subtitle);

    let sends = smoothed(LOAD, 2 * round);
    let sendings: Vec<Sending> = sends.iter().map(|&(sending, _)| sending).collect();
    picture.words(HEAD, (20.0, 84.0), "Smoothed round robin: the exported calls");
    let scans: Vec<Scan> = sends[..round].iter().map(|&(_, scan)| scan).collect();
    strip(&mut picture, 94.0, &scans);
    panel(&mut picture, 140.0, &sendings);

    picture.words(HEAD, (20.0, 316.0), &format!("Plain deficit round robin: weight x {} bytes in one go", grouped(GRANT)));
    panel(&mut picture, 328.0, &in_one_go(LOAD, 2 * round));

    legend(&mut picture, 492.0);
    picture.finish()
}

/// The left upper corner of a send's place.
fn place(top: f64, row: usize, send: usize) -> Pair {
    (EDGE + SEND * send as f64, top + ROW * row as f64)
}

/// The terms taken and the columns that they point to, each as wide as the sends of its scan; a pale line under each scan's end.
fn strip(picture: &mut Picture, top: f64, scans: &[Scan]) {
    picture.words(RIGHT, (EDGE - 10.0, top + 14.0), "term taken");
    picture.words(RIGHT, (EDGE - 10.0, top + 34.0), "column scanned");
    let mut send = 0;
    for scan in scans.chunk_by(|scan, next| scan.position == next.position) {
        let ((x, _), width) = (place(top, 0, send), SEND * scan.len() as f64);
        for (line, number) in [scan[0].term, scan[0].column].into_iter().enumerate() {
            let y = top + 20.0 * line as f64;
            picture.area((x, y), (width, 20.0), WHITE);
            picture.words(MIDDLE, (x + width / 2.0, y + 14.0), &number.to_string());
        }
        send += scan.len();
        picture.line(solid(PALE, 1.0), &[(x + width, top + 40.0), (x + width, top + 46.0 + ROW * LOAD.weights.len() as f64)]);
    }
}

/// One row a channel with a box for each send of the first round, its longest wait over both rounds, and the axis.
fn panel(picture: &mut Picture, top: f64, sendings: &[Sending]) {
    let (round, rows) = (LOAD.round(), LOAD.weights.len());
    let order = LOAD.weights.iter().map(|weight| weight.ilog2() as usize + 1).max().unwrap_or(0);
    picture.words(RIGHT, (WAITS, top - 8.0), "longest wait");
    for (slot, weight) in LOAD.weights.iter().enumerate() {
        let (x, y) = place(top, slot, 0);
        picture.words(RIGHT, (x - 10.0, y + 18.0), &format!("slot {slot}, weight {weight} (binary {weight:0order$b})"));
        picture.line(solid(GREY, 0.5), &[(x, y + ROW / 2.0), (x + SEND * round as f64, y + ROW / 2.0)]);
        picture.words(RIGHT, (WAITS, y + 18.0), &format!("{} sends", longest_wait(slot, sendings)));
    }
    for (send, sending) in sendings[..round].iter().enumerate() {
        let (x, y) = place(top, sending.slot, send);
        picture.area((x + 1.0, y + 3.0), (SEND - 2.0, ROW - 6.0), CHANNELS[sending.slot]);
        picture.words(MIDDLE, (x + SEND / 2.0, top + ROW * rows as f64 + 16.0), &(send + 1).to_string());
    }
    picture.words(RIGHT, (EDGE - 10.0, top + ROW * rows as f64 + 16.0), "send, in order of time");
}

/// The most sends of other channels between two of this one's.
pub fn longest_wait(slot: usize, sendings: &[Sending]) -> usize {
    let own: Vec<usize> = (0..sendings.len()).filter(|&send| sendings[send].slot == slot).collect();
    own.windows(2).map(|pair| pair[1] - pair[0] - 1).max().unwrap_or(0)
}

/// What boxes, terms and waits mean.
fn legend(picture: &mut Picture, top: f64) {
    for (slot, colour) in CHANNELS.iter().enumerate().take(LOAD.weights.len()) {
        picture.area((20.0 + 16.0 * slot as f64, top - 11.0), (14.0, 13.0), colour);
    }
    let box_means = "one record sent. A term points to a column: every row whose weight has that bit is visited, from the top down.";
    picture.words(LEFT, (92.0, top), box_means);
    let wait_means = "Longest wait: the most sends of other channels between two of its own, counted over this round and the next.";
    picture.words(LEFT, (20.0, top + 20.0), wait_means);
}
