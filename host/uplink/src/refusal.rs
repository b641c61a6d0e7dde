//! Why a call is refused, by the names and numbers of include/uplink.h.

use std::error::Error;
use std::fmt;

/// Why a call is refused. The discriminant is the number; 9 is not used.
#[derive(Clone, Copy, Debug, PartialEq, Eq, Hash)]
pub enum Refusal {
    /// Slot above 63.
    NoSlot = 1,
    /// Slot free, or ticket not its present one.
    NotPresent = 2,
    /// Channel is closing.
    AtClosing = 3,
    /// Length 0 or above 1,014.
    BadLength = 4,
    /// 64 records wait already.
    Full = 5,
    /// Weight 0 or above 4,095.
    BadWeight = 6,
    /// No slot can be opened.
    NoneFree = 7,
    /// No record waits.
    NoneWaits = 8,
    /// Lent state unsound.
    Unsound = 10,
    /// Order not 1 to 12, or position not 1 to 2^order - 1.
    NoTerm = 11,
    /// Edition not 1 or 2. An [`Edition`](crate::Edition) is one of them, so only the C entry gives it.
    BadEdition = 12,
    /// Two records or more wait in the channel, and the 384 shared cells are taken: each channel has two of its own, and all share the rest.
    NoShared = 13,
    /// The state is parked: it takes only a start and the reading of an image.
    Parked = 14,
    /// Not exactly the image of one sound state.
    BadImage = 15,
    /// The buffer is too short for the image.
    ShortBuffer = 16,
    /// More than 64 weights on a round sheet.
    TooMany = 17,
}

impl Refusal {
    /// Every refusal, by its number.
    pub const ALL: [Refusal; 16] = [
        Refusal::NoSlot,
        Refusal::NotPresent,
        Refusal::AtClosing,
        Refusal::BadLength,
        Refusal::Full,
        Refusal::BadWeight,
        Refusal::NoneFree,
        Refusal::NoneWaits,
        Refusal::Unsound,
        Refusal::NoTerm,
        Refusal::BadEdition,
        Refusal::NoShared,
        Refusal::Parked,
        Refusal::BadImage,
        Refusal::ShortBuffer,
        Refusal::TooMany,
    ];

    /// The number that the call gave.
    pub fn number(self) -> u32 {
        self as u32
    }

    /// The refusal with this number; none for 0 and for numbers that no call gives.
    pub fn from_number(number: u32) -> Option<Refusal> {
        Refusal::ALL.into_iter().find(|refusal| refusal.number() == number)
    }
}

/// The header's text for the number.
impl fmt::Display for Refusal {
    fn fmt(&self, out: &mut fmt::Formatter) -> fmt::Result {
        out.write_str(match self {
            Refusal::NoSlot => "no such slot",
            Refusal::NotPresent => "slot free, or ticket not its present one",
            Refusal::AtClosing => "channel is closing",
            Refusal::BadLength => "length out of range",
            Refusal::Full => "no room for one more record",
            Refusal::BadWeight => "weight out of range",
            Refusal::NoneFree => "no slot can be opened",
            Refusal::NoneWaits => "no record waits",
            Refusal::Unsound => "state unsound, or state or answer of wrong length",
            Refusal::NoTerm => "no such term",
            Refusal::BadEdition => "no such edition",
            Refusal::NoShared => "no shared cell left",
            Refusal::Parked => "state is parked",
            Refusal::BadImage => "not the image of a state",
            Refusal::ShortBuffer => "buffer too short for the image",
            Refusal::TooMany => "more than 64 weights",
        })
    }
}

impl Error for Refusal {}
