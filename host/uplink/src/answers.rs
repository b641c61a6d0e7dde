//! What accepted calls answer.

/// What Open answers: the channel's slot, and the ticket that names it until it is closed.
#[derive(Clone, Copy, Debug, PartialEq, Eq, Hash)]
pub struct Opened {
    pub slot: u32,
    pub ticket: u32,
}

/// What Put answers: the record's serial, and how many wait now.
#[derive(Clone, Copy, Debug, PartialEq, Eq, Hash)]
pub struct Added {
    pub serial: u32,
    pub waiting: u32,
}

/// What Close answers.
#[derive(Clone, Copy, Debug, PartialEq, Eq, Hash)]
pub enum Closed {
    /// Records wait: they are still sent, and the slot is free with the last one.
    Draining,
    /// The slot is free at once.
    Freed,
}

/// What Next answers.
#[derive(Clone, Copy, Debug, PartialEq, Eq, Hash)]
pub struct Sent {
    pub slot: u32,
    pub ticket: u32,
    pub length: u32,
    pub reference: u32,
    pub serial: u32,
    /// Whether this send started a visit.
    pub started: bool,
    /// Terms taken: 0, 1 or 2; in edition 2 up to 2^k - 1, with k the order before the call.
    pub terms: u32,
}

/// Whether a held channel takes records.
#[derive(Clone, Copy, Debug, PartialEq, Eq, Hash)]
pub enum Standing {
    Open,
    Closing,
}

/// What Ask answers.
#[derive(Clone, Copy, Debug, PartialEq, Eq, Hash)]
pub struct Told {
    pub standing: Standing,
    pub weight: u32,
    pub deficit: u32,
    pub waiting: u32,
    /// The bytes that wait, without framing.
    pub bytes: u32,
}

/// What a round sheet is found to be.
#[derive(Clone, Copy, Debug, PartialEq, Eq, Hash)]
pub enum Sheet {
    /// Exactly the visits of one round.
    Right,
    /// The first wrong place, counted from 0; where the sheet is too short, the place after its last, and where it is too long, the first one too many.
    WrongAt(u32),
}

/// A channel in the list of the fullest: its slot, and the bytes that wait there, without framing.
#[derive(Clone, Copy, Debug, PartialEq, Eq, Hash)]
pub struct Filling {
    pub slot: u32,
    pub bytes: u32,
}
