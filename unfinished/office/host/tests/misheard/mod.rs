//! Wrong engines for frames and the office, each with one slip, that the compared runs have to find.
#![allow(dead_code)]

use host::answers::{Contents, Fields, Refusal, Taken, Written};
use host::counting::{answered, Counting, FRAME_ANSWER, TAKE_ANSWER, UNFRAME_ANSWER};
use host::frame::{Frame, COUNTED, HEAD, VERSION};
use host::model::Model;
use host::office::{Held, Office, LENGTH};

#[derive(Clone, Copy, Debug, PartialEq, Eq)]
pub enum Slip {
    // The writer.
    SlotWritten64,
    TicketWritten0,
    RecordWrittenOf1015,
    RecordWrittenOf1024,
    EmptyRecordWritten,
    SixteenBeforeTwenty,
    ExactFitRefused,
    BufferCleared,
    BufferClearedOnRefusal,
    LengthOfTheRecord,
    LengthOfTheWhole,
    LittleEndianLengthWritten,
    LittleEndianTicketWritten,
    LittleEndianSerialWritten,
    VersionWritten2,
    SlotAndTicketExchanged,
    FrameAndAnswerExchanged,
    RecordOneByteOn,
    LastByteNotWritten,
    RecordUsedUp,
    FrameAnswerOfTheRecord,
    // The reader, which the office uses too.
    OneByteLeftOverTaken,
    CutShortTaken,
    LengthNotLookedAt,
    HighLengthByteNotLookedAt,
    OtherVersionTaken,
    SlotRead64,
    SlotReadBySixBits,
    TicketRead0,
    RecordReadOf1015,
    EmptyRecordRead,
    LongestRefused,
    LastTicketRefused,
    LittleEndianTicketRead,
    LittleEndianSerialRead,
    FrameWritten,
    // The office.
    GapTurned,
    FarGapCounted,
    NearGapLate,
    GapNotWrapped,
    ExpectedTheReceived,
    ExpectedNotWrapped,
    LowerTicketTaken,
    TicketByItsLowHalf,
    LateMovesOn,
    LateMovesTheTicket,
    HigherTicketAlwaysTaken,
    NewTicketKeepsTheSerial,
    NewTicketNotHeld,
    ReceivedCountedAsLost,
    LateAnswersItsGap,
    LateNotMarked,
    FieldsTurned,
    RefusedFrameHeard,
    RefusedFrameStarts,
    SerialWithoutATicketTaken,
    LastSlotNotLookedAt,
    LongerOfficeTaken,
    TwentyBeforeTen,
    StartLeavesTheLastByte,
    LongerOfficeStarted,
    OfficeStartedAtTen,
    OfficeAndAnswerExchanged,
    // Answers.
    WrongAnswerWritten,
    WrongAnswerTakesTheFrame,
    AnswerKeptOnRefusal,
}

impl Slip {
    pub const OF_FRAMES: [Slip; 37] = [
        Slip::SlotWritten64,
        Slip::TicketWritten0,
        Slip::RecordWrittenOf1015,
        Slip::RecordWrittenOf1024,
        Slip::EmptyRecordWritten,
        Slip::SixteenBeforeTwenty,
        Slip::ExactFitRefused,
        Slip::BufferCleared,
        Slip::BufferClearedOnRefusal,
        Slip::LengthOfTheRecord,
        Slip::LengthOfTheWhole,
        Slip::LittleEndianLengthWritten,
        Slip::LittleEndianTicketWritten,
        Slip::LittleEndianSerialWritten,
        Slip::VersionWritten2,
        Slip::SlotAndTicketExchanged,
        Slip::FrameAndAnswerExchanged,
        Slip::RecordOneByteOn,
        Slip::LastByteNotWritten,
        Slip::RecordUsedUp,
        Slip::FrameAnswerOfTheRecord,
        Slip::OneByteLeftOverTaken,
        Slip::CutShortTaken,
        Slip::LengthNotLookedAt,
        Slip::HighLengthByteNotLookedAt,
        Slip::OtherVersionTaken,
        Slip::SlotRead64,
        Slip::SlotReadBySixBits,
        Slip::TicketRead0,
        Slip::RecordReadOf1015,
        Slip::EmptyRecordRead,
        Slip::LongestRefused,
        Slip::LastTicketRefused,
        Slip::LittleEndianTicketRead,
        Slip::LittleEndianSerialRead,
        Slip::FrameWritten,
        Slip::WrongAnswerWritten,
    ];

    pub const OF_THE_OFFICE: [Slip; 29] = [
        Slip::GapTurned,
        Slip::FarGapCounted,
        Slip::NearGapLate,
        Slip::GapNotWrapped,
        Slip::ExpectedTheReceived,
        Slip::ExpectedNotWrapped,
        Slip::LowerTicketTaken,
        Slip::TicketByItsLowHalf,
        Slip::LateMovesOn,
        Slip::LateMovesTheTicket,
        Slip::HigherTicketAlwaysTaken,
        Slip::NewTicketKeepsTheSerial,
        Slip::NewTicketNotHeld,
        Slip::ReceivedCountedAsLost,
        Slip::LateAnswersItsGap,
        Slip::LateNotMarked,
        Slip::FieldsTurned,
        Slip::RefusedFrameHeard,
        Slip::RefusedFrameStarts,
        Slip::SerialWithoutATicketTaken,
        Slip::LastSlotNotLookedAt,
        Slip::LongerOfficeTaken,
        Slip::TwentyBeforeTen,
        Slip::StartLeavesTheLastByte,
        Slip::LongerOfficeStarted,
        Slip::OfficeStartedAtTen,
        Slip::OfficeAndAnswerExchanged,
        Slip::WrongAnswerTakesTheFrame,
        Slip::AnswerKeptOnRefusal,
    ];
}

pub struct Wrong(pub Slip);

/// The bytes of an answer of another length are not the call's.
fn kept(answer: &mut [u8], before: &[u8], keeps: bool) {
    if keeps {
        answer.copy_from_slice(before);
    }
}

impl Wrong {
    fn is(&self, slip: Slip) -> bool {
        self.0 == slip
    }

    fn write(&self, mut frame: Frame, buffer: &mut [u8]) -> Result<Written, Refusal> {
        if self.is(Slip::SlotAndTicketExchanged) {
            (frame.slot, frame.ticket) = (frame.ticket, frame.slot);
        }
        let size = frame.record.len();
        let longest = match self.0 {
            Slip::RecordWrittenOf1015 => 1_015,
            Slip::RecordWrittenOf1024 => 1_024,
            _ => 1_014,
        };
        let bad = frame.slot > if self.is(Slip::SlotWritten64) { 64 } else { 63 }
            || frame.ticket == 0 && !self.is(Slip::TicketWritten0)
            || size == 0 && !self.is(Slip::EmptyRecordWritten)
            || size > longest;
        let needed = HEAD + size + usize::from(self.is(Slip::ExactFitRefused));
        let checks = [(bad, Refusal::BadFrame), (buffer.len() < needed, Refusal::ShortBuffer)];
        let first =
            if self.is(Slip::SixteenBeforeTwenty) { checks.iter().rev().find(|(no, _)| *no) } else { checks.iter().find(|(no, _)| *no) };
        if let Some((_, refusal)) = first {
            if self.is(Slip::BufferClearedOnRefusal) {
                buffer.fill(0);
            }
            return Err(*refusal);
        }
        if self.is(Slip::BufferCleared) {
            buffer.fill(0);
        }
        let bytes = self.bytes(&frame);
        let written = bytes.len() - usize::from(self.is(Slip::LastByteNotWritten));
        buffer[..written].copy_from_slice(&bytes[..written]);
        let length = if self.is(Slip::FrameAnswerOfTheRecord) { size } else { bytes.len() };
        Ok(Written { length: length as u32 })
    }

    fn bytes(&self, frame: &Frame) -> Vec<u8> {
        let mut bytes = frame.bytes();
        let size = frame.record.len() as u16;
        match self.0 {
            Slip::LengthOfTheRecord => bytes[1..3].copy_from_slice(&size.to_be_bytes()),
            Slip::LengthOfTheWhole => bytes[1..3].copy_from_slice(&(HEAD as u16 + size).to_be_bytes()),
            Slip::LittleEndianLengthWritten => bytes[1..3].reverse(),
            Slip::LittleEndianTicketWritten => bytes[4..8].reverse(),
            Slip::LittleEndianSerialWritten => bytes[8..10].reverse(),
            Slip::VersionWritten2 => bytes[0] = 2,
            Slip::RecordOneByteOn => bytes[HEAD..].rotate_right(1),
            _ => {}
        }
        bytes
    }

    fn read(&self, bytes: &[u8]) -> Result<Contents, Refusal> {
        self.parsed(bytes).ok_or(Refusal::BadFrame)
    }

    fn parsed(&self, bytes: &[u8]) -> Option<Contents> {
        let (head, record) = bytes.split_first_chunk::<HEAD>()?;
        let told = usize::from(u16::from_be_bytes([head[1], head[2]]));
        let follows = COUNTED + record.len();
        let agrees = match self.0 {
            Slip::OneByteLeftOverTaken => told == follows || told + 1 == follows,
            Slip::CutShortTaken => told >= follows,
            Slip::LengthNotLookedAt => true,
            Slip::HighLengthByteNotLookedAt => told & 0xff == follows & 0xff,
            _ => told == follows,
        };
        let most = match self.0 {
            Slip::RecordReadOf1015 => 1_015,
            Slip::LongestRefused => 1_013,
            _ => 1_014,
        };
        let least = usize::from(!self.is(Slip::EmptyRecordRead));
        let slot = match self.0 {
            Slip::SlotReadBySixBits => head[3] & 63,
            _ => head[3],
        };
        let mut ticket = u32::from_be_bytes([head[4], head[5], head[6], head[7]]);
        let mut serial = u16::from_be_bytes([head[8], head[9]]);
        let good = (head[0] == VERSION || self.is(Slip::OtherVersionTaken))
            && agrees
            && slot <= if self.is(Slip::SlotRead64) { 64 } else { 63 }
            && (ticket != 0 || self.is(Slip::TicketRead0))
            && !(ticket == u32::MAX && self.is(Slip::LastTicketRefused))
            && (least..=most).contains(&record.len());
        match self.0 {
            Slip::LittleEndianTicketRead => ticket = ticket.swap_bytes(),
            Slip::LittleEndianSerialRead => serial = serial.swap_bytes(),
            _ => {}
        }
        good.then_some(Contents { slot: u32::from(slot), ticket, serial, length: record.len() as u32 })
    }

    /// The office of a memory, if it is taken for one.
    fn office(&self, memory: &[u8]) -> Option<Office> {
        let mut memory = memory.to_vec();
        if self.is(Slip::LongerOfficeTaken) && memory.len() > LENGTH {
            memory.truncate(LENGTH);
        }
        let loose = if self.is(Slip::SerialWithoutATicketTaken) { 0 } else { 63 };
        if memory.len() == LENGTH && (self.is(Slip::SerialWithoutATicketTaken) || self.is(Slip::LastSlotNotLookedAt)) {
            for slot in loose..64 {
                if (0..4).all(|line| memory[64 * line + slot] == 0) {
                    (memory[256 + slot], memory[320 + slot]) = (0, 0);
                }
            }
        }
        Office::from_bytes(&memory)
    }

    fn hear(&self, office: &mut Office, contents: &Contents) -> (u32, bool) {
        let &Contents { slot, ticket, serial, .. } = contents;
        let held = office.0.get(&slot).copied().unwrap_or(Held { ticket: 0, expected: 0 });
        let low = |ticket: u32| if self.is(Slip::TicketByItsLowHalf) { ticket & 0xffff } else { ticket };
        let (higher, lower) = (low(ticket) > low(held.ticket), low(ticket) < low(held.ticket) && !self.is(Slip::LowerTicketTaken));
        let expected = if higher && !self.is(Slip::NewTicketKeepsTheSerial) { 0 } else { held.expected };
        let gap = match self.0 {
            Slip::GapTurned => expected.wrapping_sub(serial),
            Slip::GapNotWrapped => serial.checked_sub(expected).unwrap_or(32_768),
            _ => serial.wrapping_sub(expected),
        };
        let far = match self.0 {
            Slip::FarGapCounted => gap > 32_768,
            Slip::NearGapLate => gap >= 32_767,
            Slip::HigherTicketAlwaysTaken if higher => false,
            _ => gap >= 32_768,
        };
        if lower || far {
            let lost = if self.is(Slip::LateAnswersItsGap) { u32::from(gap) } else { 0 };
            match self.0 {
                Slip::LateMovesOn => drop(office.0.insert(slot, Held { ticket: held.ticket.max(1), expected: serial.wrapping_add(1) })),
                Slip::LateMovesTheTicket if higher => drop(office.0.insert(slot, Held { ticket, expected: 0 })),
                _ => {}
            }
            return (lost, !self.is(Slip::LateNotMarked));
        }
        let next = match self.0 {
            Slip::ExpectedTheReceived => serial,
            Slip::ExpectedNotWrapped => serial.saturating_add(1),
            _ => serial.wrapping_add(1),
        };
        let ticket = if self.is(Slip::NewTicketNotHeld) && held.ticket != 0 { held.ticket } else { ticket };
        office.0.insert(slot, Held { ticket, expected: next });
        (u32::from(gap) + u32::from(self.is(Slip::ReceivedCountedAsLost)), false)
    }

    fn taken(&self, memory: &mut [u8], frame: &[u8]) -> Result<Taken, Refusal> {
        if self.is(Slip::TwentyBeforeTen) {
            self.read(frame)?;
        }
        let Some(mut office) = self.office(memory) else {
            if self.is(Slip::OfficeStartedAtTen) {
                memory.fill(0);
            }
            return Err(Refusal::Unsound);
        };
        let read = self.read(frame);
        match (self.0, frame) {
            (Slip::RefusedFrameStarts, _) if read.is_err() => memory.fill(0),
            // Slot and ticket are noted before the length is looked at.
            (Slip::RefusedFrameHeard, &[_, _, _, slot @ 0..=63, a, b, c, d, ..]) if read.is_err() => {
                for (line, byte) in [d, c, b, a].into_iter().enumerate() {
                    memory[64 * line + usize::from(slot)] = byte;
                }
            }
            _ => {}
        }
        let contents = read?;
        // A slot that only a slip let in has no line of its own.
        let (lost, late) = self.hear(&mut office, &Contents { slot: contents.slot % 64, ..contents });
        memory[..LENGTH].copy_from_slice(&office.to_bytes());
        Ok(Taken { contents, lost, late })
    }
}

impl Counting for Wrong {
    fn frame(&mut self, slot: u32, ticket: u32, serial: u16, record: &mut [u8], frame: &mut [u8], answer: &mut [u8]) -> u32 {
        if self.is(Slip::FrameAndAnswerExchanged) {
            return Model.frame(slot, ticket, serial, record, answer, frame);
        }
        let before = answer.to_vec();
        let number = answered(answer, FRAME_ANSWER, || self.write(Frame { slot, ticket, serial, record: record.to_vec() }, frame));
        if self.is(Slip::RecordUsedUp) && number == 0 {
            record.fill(0);
        }
        if self.is(Slip::WrongAnswerWritten) && answer.len() != FRAME_ANSWER {
            answer.fill(0);
        }
        kept(answer, &before, self.is(Slip::AnswerKeptOnRefusal) && number != 0);
        number
    }

    fn unframe(&mut self, frame: &mut [u8], answer: &mut [u8]) -> u32 {
        let before = answer.to_vec();
        let number = answered(answer, UNFRAME_ANSWER, || self.read(frame));
        if self.is(Slip::FrameWritten) && number == 0 {
            frame[0] = 0;
        }
        if self.is(Slip::WrongAnswerWritten) && answer.len() != UNFRAME_ANSWER {
            answer.fill(0);
        }
        kept(answer, &before, self.is(Slip::AnswerKeptOnRefusal) && number != 0);
        number
    }

    fn start_office(&mut self, office: &mut [u8]) -> u32 {
        let (last, longer) = (office.last().copied(), self.is(Slip::LongerOfficeStarted) && office.len() > LENGTH);
        let number = if longer { Model.start_office(&mut office[..LENGTH]) } else { Model.start_office(office) };
        if let (Slip::StartLeavesTheLastByte, 0, Some(last)) = (self.0, number, last) {
            office[LENGTH - 1] = last;
        }
        number
    }

    fn take(&mut self, office: &mut [u8], frame: &mut [u8], answer: &mut [u8]) -> u32 {
        if self.is(Slip::OfficeAndAnswerExchanged) {
            return Model.take(answer, frame, office);
        }
        let before = answer.to_vec();
        if self.is(Slip::WrongAnswerTakesTheFrame) && answer.len() != TAKE_ANSWER {
            let _ = self.taken(office, frame);
        }
        let number = answered(answer, TAKE_ANSWER, || self.taken(office, frame));
        if self.is(Slip::FieldsTurned) && number == 0 {
            answer[16..].rotate_left(4);
        }
        kept(answer, &before, self.is(Slip::AnswerKeptOnRefusal) && number != 0);
        number
    }
}

/// The fields of an answer.
pub fn fields<A: Fields>(bytes: &[u8]) -> A {
    let fields: Vec<u32> = host::model::answer_fields(bytes).collect();
    A::of(&fields).expect("fields of an answer")
}
