//! The pictures in docs/: drawn from runs of the exported calls and of the independent scheduler, from the layout's table of fields and from the table that
//! `bench` printed.
//!
//! - [`order`]: which channel sends when, smoothed and in one go;
//! - [`share`]: the bytes of each channel against its share, smoothed and in one go;
//! - [`door`]: how long a light channel waits beside a heavy one that empties and refills, in both editions;
//! - [`memory`]: every field of the lent memory to scale;
//! - [`speed`]: the times of docs/SPEED.md;
//! - [`runs`]: what the first two are drawn from; [`svg`]: how all are written.

pub mod door;
pub mod memory;
pub mod order;
pub mod runs;
pub mod share;
pub mod speed;
pub mod svg;

/// Where the pictures are kept.
pub const FOLDER: &str = concat!(env!("CARGO_MANIFEST_DIR"), "/../docs");

/// The command that writes them again, from host/.
pub const COMMAND: &str = "cargo run --release --offline --features linked --bin pictures";

/// Each picture's file in docs/ and its bytes, the same at each run. No times are drawn where docs/SPEED.md cannot be read.
pub fn all() -> [(&'static str, String); 5] {
    let times = speed::rows(&std::fs::read_to_string(format!("{FOLDER}/SPEED.md")).unwrap_or_default());
    [
        ("order.svg", order::picture()),
        ("share.svg", share::picture()),
        ("door.svg", door::picture()),
        ("memory.svg", memory::picture()),
        ("speed.svg", speed::picture(&times)),
    ]
}
