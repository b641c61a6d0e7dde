//! The answers of the calls and the numbers sent back (document 01, "The calls" and "Numbers sent back"; the longest length, the room and the
//! numbers from 12 on are document 02's), for the independent scheduler: written from the documents, not taken from the wrapper.

use crate::scheduler::LISTED;

/// Why a call is refused: the documents' number, under the header's name. "Show that no sound state gives it .., then remove it": 9 is not used (document 02, §8).
#[derive(Clone, Copy, Debug, PartialEq, Eq)]
pub enum Refusal {
    /// "slot above 63"
    NoSlot = 1,
    /// "slot free, or ticket not its present one"
    NotPresent = 2,
    /// "channel is closing"
    AtClosing = 3,
    /// "length 0 or above 1,014"
    BadLength = 4,
    /// "at 64 waiting"
    Full = 5,
    /// "weight 0 or above 4,095"
    BadWeight = 6,
    /// "no slot can be opened"
    NoneFree = 7,
    /// "no record waits"
    NoneWaits = 8,
    /// "lent state unsound or of wrong length"
    Unsound = 10,
    /// "order not 1 to 12, or position not 1 to 2^order - 1"
    NoTerm = 11,
    /// "edition not 1 or 2"
    BadEdition = 12,
    /// "exactly when the channel has two or more and the sum is 384"
    NoShared = 13,
    /// "14 parked, after 10 in every other call"
    Parked = 14,
    /// "15 for an image that isn't exactly one sound state's"
    BadImage = 15,
    /// "16 from the writer for a buffer too short"
    ShortBuffer = 16,
    /// "17 for more than 64 weights"
    TooMany = 17,
}

impl Refusal {
    pub const ALL: [Refusal; 16] = [
        Refusal::NoSlot,
        Refusal::NotPresent,
        Refusal::AtClosing,
        Refusal::BadLength,
        Refusal::Full,
        Refusal::BadWeight,
        Refusal::NoneFree,
        Refusal::NoneWaits,
        Refusal::Unsound,
        Refusal::NoTerm,
        Refusal::BadEdition,
        Refusal::NoShared,
        Refusal::Parked,
        Refusal::BadImage,
        Refusal::ShortBuffer,
        Refusal::TooMany,
    ];

    /// The documents' number.
    pub fn number(self) -> u32 {
        self as u32
    }

    /// The refusal with this number; none for 0 and for numbers that are not in the table.
    pub fn from_number(number: u32) -> Option<Refusal> {
        Refusal::ALL.into_iter().find(|refusal| refusal.number() == number)
    }
}

/// What Open answers.
#[derive(Clone, Copy, Debug, PartialEq, Eq)]
pub struct Opened {
    pub slot: u32,
    pub ticket: u32,
}

/// What Put answers.
#[derive(Clone, Copy, Debug, PartialEq, Eq)]
pub struct Added {
    pub serial: u32,
    pub waiting: u32,
}

/// What Close answers: 1 for a channel freed at once, 0 for one that drains.
#[derive(Clone, Copy, Debug, PartialEq, Eq)]
pub enum Closed {
    Draining,
    Freed,
}

/// What Next answers.
#[derive(Clone, Copy, Debug, PartialEq, Eq)]
pub struct Sent {
    pub slot: u32,
    pub ticket: u32,
    pub length: u32,
    pub reference: u32,
    pub serial: u32,
    /// This send started the visit.
    pub started: bool,
    /// Terms taken: 0, 1 or 2; in edition 2 up to 2^k - 1, k as before the call.
    pub terms: u32,
}

/// Whether a held channel takes records: 1 for open, 2 for closing.
#[derive(Clone, Copy, Debug, PartialEq, Eq)]
pub enum Standing {
    Open,
    Closing,
}

/// What Ask answers.
#[derive(Clone, Copy, Debug, PartialEq, Eq)]
pub struct Told {
    pub standing: Standing,
    pub weight: u32,
    pub deficit: u32,
    pub waiting: u32,
    /// The bytes that wait, without framing.
    pub bytes: u32,
}

/// One of the fullest channels: its slot and the bytes that wait there.
#[derive(Clone, Copy, Debug, PartialEq, Eq)]
pub struct Filling {
    pub slot: u32,
    pub bytes: u32,
}

/// What Fullest answers: the fullest channels, most bytes first.
#[derive(Clone, Debug, PartialEq, Eq)]
pub struct Fullest(pub Vec<Filling>);

/// What the writer of the parked image answers: its length.
#[derive(Clone, Copy, Debug, PartialEq, Eq)]
pub struct Written {
    pub length: u32,
}

/// What the checker of round sheets answers: "it accepts .. Otherwise it names the first wrong place".
#[derive(Clone, Copy, Debug, PartialEq, Eq)]
pub enum Sheet {
    Right,
    WrongAt { place: u32 },
}

/// An answer as document 01 lists it: its fields in order.
pub trait Fields: Sized {
    fn fields(&self) -> Vec<u32>;
    /// The answer with these fields; none where no answer has them.
    fn of(fields: &[u32]) -> Option<Self>;
}

impl Fields for () {
    fn fields(&self) -> Vec<u32> {
        Vec::new()
    }

    fn of(fields: &[u32]) -> Option<()> {
        fields.is_empty().then_some(())
    }
}

impl Fields for Opened {
    fn fields(&self) -> Vec<u32> {
        vec![self.slot, self.ticket]
    }

    fn of(fields: &[u32]) -> Option<Opened> {
        let &[slot, ticket] = fields else { return None };
        Some(Opened { slot, ticket })
    }
}

impl Fields for Added {
    fn fields(&self) -> Vec<u32> {
        vec![self.serial, self.waiting]
    }

    fn of(fields: &[u32]) -> Option<Added> {
        let &[serial, waiting] = fields else { return None };
        Some(Added { serial, waiting })
    }
}

impl Fields for Closed {
    fn fields(&self) -> Vec<u32> {
        vec![match self {
            Closed::Draining => 0,
            Closed::Freed => 1,
        }]
    }

    fn of(fields: &[u32]) -> Option<Closed> {
        match fields {
            [0] => Some(Closed::Draining),
            [1] => Some(Closed::Freed),
            _ => None,
        }
    }
}

impl Fields for Sent {
    fn fields(&self) -> Vec<u32> {
        let started = u32::from(self.started);
        vec![self.slot, self.ticket, self.length, self.reference, self.serial, started, self.terms]
    }

    fn of(fields: &[u32]) -> Option<Sent> {
        let &[slot, ticket, length, reference, serial, started @ (0 | 1), terms] = fields else { return None };
        Some(Sent { slot, ticket, length, reference, serial, started: started == 1, terms })
    }
}

impl Fields for Written {
    fn fields(&self) -> Vec<u32> {
        vec![self.length]
    }

    fn of(fields: &[u32]) -> Option<Written> {
        let &[length] = fields else { return None };
        Some(Written { length })
    }
}

/// 1 if accepted, else 0; the first wrong place, 0 if accepted.
impl Fields for Sheet {
    fn fields(&self) -> Vec<u32> {
        match *self {
            Sheet::Right => vec![1, 0],
            Sheet::WrongAt { place } => vec![0, place],
        }
    }

    fn of(fields: &[u32]) -> Option<Sheet> {
        match *fields {
            [1, 0] => Some(Sheet::Right),
            [0, place] => Some(Sheet::WrongAt { place }),
            _ => None,
        }
    }
}

impl Fields for Told {
    fn fields(&self) -> Vec<u32> {
        let standing = match self.standing {
            Standing::Open => 1,
            Standing::Closing => 2,
        };
        vec![standing, self.weight, self.deficit, self.waiting, self.bytes]
    }

    fn of(fields: &[u32]) -> Option<Told> {
        let &[standing, weight, deficit, waiting, bytes] = fields else { return None };
        let standing = match standing {
            1 => Standing::Open,
            2 => Standing::Closing,
            _ => return None,
        };
        Some(Told { standing, weight, deficit, waiting, bytes })
    }
}

/// How many are listed, then five times slot and bytes waiting, zeros behind the last.
impl Fields for Fullest {
    fn fields(&self) -> Vec<u32> {
        let mut fields = vec![self.0.len() as u32];
        fields.extend(self.0.iter().flat_map(|filling| [filling.slot, filling.bytes]));
        fields.resize(1 + 2 * LISTED, 0);
        fields
    }

    fn of(fields: &[u32]) -> Option<Fullest> {
        let (&count, pairs) = fields.split_first()?;
        let fillings = pairs.chunks_exact(2).take(count as usize).map(|pair| Filling { slot: pair[0], bytes: pair[1] });
        Some(Fullest(fillings.collect())).filter(|fullest| fullest.fields() == fields)
    }
}
