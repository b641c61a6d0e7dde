//! The corners of parked queues (document 02, §6): what is parked, and what an image is read over.

use host::history::Call;
use host::image::image_of;
use host::scheduler::{Kind, Scheduler, GOING, PARKED, SHARED};

pub const CORNERS: [&str; 13] = [
    "a state without rows is parked",
    "a state is parked with slots to visit",
    "a state is parked in a visit",
    "a state is parked in a visit of slot 0",
    "a state is parked below a held order",
    "a state is parked with the sum at 384",
    "a closing channel is parked",
    "a buffer of just the image's length",
    "a buffer one byte too short",
    "14 where 16 would be given too",
    "an image is read over a parked state",
    "an image is read over a state that goes on",
    "an image of another state than before is read",
];

/// A park or an unpark with its number.
pub fn look_at_parking(before: &Scheduler, after: &Scheduler, call: &Call, number: u32, met: &mut impl FnMut(&'static str, bool)) {
    match (call, number) {
        (Call::Park { room }, 0) => {
            met("a state without rows is parked", before.rows.is_empty());
            met("a state is parked with slots to visit", !before.scan.to_visit.is_empty());
            met("a state is parked in a visit", before.scan.visit.is_some());
            met("a state is parked in a visit of slot 0", before.scan.visit == Some(0));
            met("a state is parked below a held order", before.order > before.order_of_rows());
            met("a state is parked with the sum at 384", before.shared_in_use() == SHARED);
            met("a closing channel is parked", before.channels.iter().any(|channel| channel.kind == Kind::Closing));
            met("a buffer of just the image's length", image_of(before).len() == *room);
            assert_eq!(Scheduler { mark: GOING, ..after.clone() }, *before, "parking changes the mark alone");
        }
        (Call::Park { room }, 16) => met("a buffer one byte too short", image_of(before).len() == room + 1),
        (Call::Park { room }, 14) => met("14 where 16 would be given too", image_of(before).len() > *room),
        (Call::Unpark { .. }, 0) => {
            met("an image is read over a parked state", before.mark == PARKED);
            met("an image is read over a state that goes on", before.mark == GOING);
            met("an image of another state than before is read", image_of(before) != image_of(after));
            assert_eq!(after.mark, GOING, "a state that is read is not parked");
        }
        _ => {}
    }
}
