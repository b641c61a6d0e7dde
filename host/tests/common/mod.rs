//! The engine under test: with feature `linked` the exported libraries, support's engine beside the adapter's, else the model engine.
#![allow(dead_code)]

#[cfg(feature = "linked")]
pub fn engine() -> host::beside::Beside<host::linked::Entries, host::linked::Entries> {
    host::linked::both()
}

/// The adapter's engine by itself, and support's.
#[cfg(feature = "linked")]
pub fn adapter() -> host::linked::Entries {
    host::linked::LINKED
}

#[cfg(feature = "linked")]
pub fn plain() -> host::linked::Entries {
    host::linked::PLAIN
}

#[cfg(not(feature = "linked"))]
pub fn engine() -> host::model::Model {
    host::model::Model
}

#[cfg(not(feature = "linked"))]
pub fn adapter() -> host::model::Model {
    host::model::Model
}

#[cfg(not(feature = "linked"))]
pub fn plain() -> host::model::Model {
    host::model::Model
}
