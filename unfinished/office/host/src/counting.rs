//! The entries for frames and of the office as an engine under test: the C entries' shape, on lent slices; and the independent codec and office in that shape.

use crate::answers::{Contents, Fields, Refusal, Taken, Written};
use crate::frame::{self, Frame};
use crate::lent::{Lent, UNWRITTEN};
use crate::model::{answer_bytes, Model};
use crate::office::{self, Office};

/// The lengths of the answers.
pub const FRAME_ANSWER: usize = 4;
pub const UNFRAME_ANSWER: usize = 16;
pub const TAKE_ANSWER: usize = 24;

/// Each call answers the number; the fields go to the answer buffer. Records and frames that are only read are lent so that they could be written, and the comparer
/// would see it.
pub trait Counting {
    fn frame(&mut self, slot: u32, ticket: u32, serial: u16, record: &mut [u8], frame: &mut [u8], answer: &mut [u8]) -> u32;
    fn unframe(&mut self, frame: &mut [u8], answer: &mut [u8]) -> u32;
    fn start_office(&mut self, office: &mut [u8]) -> u32;
    fn take(&mut self, office: &mut [u8], frame: &mut [u8], answer: &mut [u8]) -> u32;
}

/// The number of a result, with its fields in the answer; an answer of another length gives 10 before the call is made.
pub fn answered<A: Fields>(answer: &mut [u8], length: usize, result: impl FnOnce() -> Result<A, Refusal>) -> u32 {
    if answer.len() != length {
        return Refusal::Unsound.number();
    }
    answer.fill(0);
    match result() {
        Ok(given) => {
            answer.copy_from_slice(&answer_bytes(&given.fields()));
            0
        }
        Err(refusal) => refusal.number(),
    }
}

impl Counting for Model {
    fn frame(&mut self, slot: u32, ticket: u32, serial: u16, record: &mut [u8], frame: &mut [u8], answer: &mut [u8]) -> u32 {
        answered(answer, FRAME_ANSWER, || {
            let bytes = frame::write(&Frame { slot, ticket, serial, record: record.to_vec() }, frame.len())?;
            frame[..bytes.len()].copy_from_slice(&bytes);
            Ok(Written { length: bytes.len() as u32 })
        })
    }

    fn unframe(&mut self, frame: &mut [u8], answer: &mut [u8]) -> u32 {
        answered::<Contents>(answer, UNFRAME_ANSWER, || Ok(frame::read(frame)?.contents()))
    }

    fn start_office(&mut self, office: &mut [u8]) -> u32 {
        if office.len() != office::LENGTH {
            return Refusal::Unsound.number();
        }
        office.copy_from_slice(&Office::fresh().to_bytes());
        0
    }

    fn take(&mut self, office: &mut [u8], frame: &mut [u8], answer: &mut [u8]) -> u32 {
        answered::<Taken>(answer, TAKE_ANSWER, || {
            let mut held = Office::from_bytes(office).ok_or(Refusal::Unsound)?;
            let taken = held.take(frame)?;
            office.copy_from_slice(&held.to_bytes());
            Ok(taken)
        })
    }
}

/// A call with everything that is lent to it; of an answer only its length.
#[derive(Clone, Debug)]
pub enum Call {
    Frame { slot: u32, ticket: u32, serial: u16, record: Vec<u8>, buffer: Vec<u8>, answer: usize },
    Unframe { frame: Vec<u8>, answer: usize },
    Start { office: Vec<u8> },
    Take { office: Vec<u8>, frame: Vec<u8>, answer: usize },
}

/// What a call leaves: its number, the answer, the office or the written frame, and what was lent to be read alone.
struct Left {
    number: u32,
    answer: Lent,
    written: Lent,
    read: Lent,
}

impl Call {
    /// The bytes of the buffer that the call writes beside its answer, and of the one that it only reads, before it is made.
    fn lends(&self) -> (&[u8], &[u8], usize) {
        match self {
            Call::Frame { record, buffer, answer, .. } => (buffer, record, *answer),
            Call::Unframe { frame, answer } => (&[], frame, *answer),
            Call::Start { office } => (office, &[], 0),
            Call::Take { office, frame, answer } => (office, frame, *answer),
        }
    }

    fn made(&self, engine: &mut impl Counting) -> Left {
        let (written, read, answer) = self.lends();
        let (mut written, mut read, mut answer) = (Lent::new(written), Lent::new(read), Lent::new(&vec![UNWRITTEN; answer]));
        let (w, r, a) = (written.content(), read.content(), answer.content());
        let number = match *self {
            Call::Frame { slot, ticket, serial, .. } => engine.frame(slot, ticket, serial, r, w, a),
            Call::Unframe { .. } => engine.unframe(r, a),
            Call::Start { .. } => engine.start_office(w),
            Call::Take { .. } => engine.take(w, r, a),
        };
        Left { number, answer, written, read }
    }

    /// The number and the bytes written beside the answer that the documents give.
    pub fn right(&self) -> (u32, Vec<u8>) {
        let mut left = self.made(&mut Model);
        (left.number, left.written.content().to_vec())
    }

    /// How an engine differs from the independent codec and office, if it does.
    pub fn differs(&self, engine: &mut impl Counting) -> Option<String> {
        let (is, mut should) = (self.made(engine), self.made(&mut Model));
        if is.number != should.number {
            return Some(format!("number {}, should be {}", is.number, should.number));
        }
        let in_answer = is.answer.differs(should.answer.content(), |_| "the answer".to_string());
        let in_written = || is.written.differs(should.written.content(), |_| "the office or the frame written".to_string());
        in_answer.or_else(in_written).or_else(|| is.read.differs(self.lends().1, |_| "what is only read".to_string()))
    }
}

/// Makes each call on an engine and beside it; the first call that differs is told with its place.
pub fn compare<'a>(engine: &mut impl Counting, calls: impl IntoIterator<Item = &'a Call>) -> Result<usize, String> {
    let mut count = 0;
    for call in calls {
        if let Some(how) = call.differs(engine) {
            return Err(format!("call {count}: {how}: {call:?}"));
        }
        count += 1;
    }
    Ok(count)
}
