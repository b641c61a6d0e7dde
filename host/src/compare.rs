//! The comparer: each call is made on the engine under test, on lent bytes, and on the independent scheduler, on its own state.
//! The number, every byte of the answer, of a lent image or lists and of the memory must agree after each call.

use std::fmt;

use crate::answers::{Fields, Refusal};
use crate::engine::Engine;
use crate::generate;
use crate::history::{Call, History, Step};
use crate::layout;
use crate::lent::{Lent, UNWRITTEN};
use crate::model::answer_bytes;
use crate::scheduler::Scheduler;
use crate::sheet;
use crate::shrink::shrink;
use crate::spread;

/// Where engine and scheduler part.
#[derive(Clone, Debug)]
pub struct Difference {
    /// The step of the history, from 0.
    pub step: usize,
    pub what: String,
}

/// A difference with the shortest history found for it.
#[derive(Clone, Debug)]
pub struct Report {
    /// Calls compared until the difference showed, over all histories of the run.
    pub calls: u64,
    pub history: History,
    pub difference: Difference,
}

impl fmt::Display for Report {
    fn fmt(&self, out: &mut fmt::Formatter) -> fmt::Result {
        writeln!(out, "# difference after {} calls, seed {}, shape: {}", self.calls, self.history.seed, self.history.shape)?;
        for line in self.difference.what.lines() {
            writeln!(out, "# {line}")?;
        }
        writeln!(out, "# shortest history found, {} steps; the last one differs:", self.history.steps.len())?;
        write!(out, "{}", self.history)
    }
}

/// The engine's memory beside the independent scheduler's state.
struct Pair {
    lent: Lent,
    /// The bytes that the memory should hold.
    expected: Vec<u8>,
    /// None while the memory is unsound.
    scheduler: Option<Scheduler>,
}

/// Runs a history. The number of calls compared, or the first difference.
pub fn run<E: Engine + ?Sized>(engine: &mut E, history: &History) -> Result<u64, Difference> {
    let mut pair =
        Pair { lent: Lent::new(&history.memory), expected: history.memory.clone(), scheduler: layout::sound_from_bytes(&history.memory) };
    let mut calls = 0;
    for (number, step) in history.steps.iter().enumerate() {
        let outcome = match step {
            Step::Call(call) => pair.call(engine, call),
            Step::Mislent { call, state_length, answer_length } => pair.mislent(engine, call, *state_length, *answer_length),
            Step::Damage { place, flip } => pair.changed(|bytes| bytes[*place] ^= flip),
            Step::Lost { fill } => pair.changed(|bytes| bytes.fill(*fill)),
        };
        outcome.map_err(|what| Difference { step: number, what })?;
        calls += u64::from(step.is_call());
    }
    Ok(calls)
}

impl Pair {
    fn call<E: Engine + ?Sized>(&mut self, engine: &mut E, call: &Call) -> Result<(), String> {
        let mut image = Lent::new(&call.image());
        let (number, expected_answer, expected_image) = self.expect(call);
        let mut answer = Lent::new(&vec![UNWRITTEN; call.answer_length()]);
        let given = engine.call(call, self.lent.content(), image.content(), answer.content());
        parted(engine)?;
        if given != number {
            return Err(format!("number {given}, should be {number}"));
        }
        if let Some(what) = answer.differs(&expected_answer, |_| "the answer".to_string()) {
            return Err(what);
        }
        if let Some(what) = image.differs(&expected_image, |_| call.lends().to_string()) {
            return Err(what);
        }
        if let Some(what) = self.lent.differs(&self.expected, |place| format!("the memory ({})", layout::name_of(place))) {
            return Err(what);
        }
        Ok(())
    }

    /// The number, the answer's bytes and those of the lent image that the documents give the call; the expected memory follows.
    fn expect(&mut self, call: &Call) -> (u32, Vec<u8>, Vec<u8>) {
        let mut image = call.image();
        let reply = match *call {
            Call::Start { edition } => Scheduler::start(edition).map(|fresh| {
                self.scheduler = Some(fresh);
                Vec::new()
            }),
            // "The reader overwrites any lent state of the right length."
            Call::Unpark { ref image } => Scheduler::unpark(image).map(|read| {
                self.scheduler = Some(read);
                Vec::new()
            }),
            // "The writer answers the image's length and keeps the buffer's other bytes."
            Call::Park { room } => match &mut self.scheduler {
                Some(scheduler) => scheduler.park_sound(room).map(|written| {
                    image[..written.len()].copy_from_slice(&written);
                    answer_bytes(&[written.len() as u32])
                }),
                None => Err(Refusal::Unsound),
            },
            Call::Lead { w1, v1, w2, v2 } => spread::lead(w1, v1, w2, v2).map(|lead| lead.to_le_bytes().to_vec()),
            Call::Term { order, position } => spread::term(order, position).map(|term| answer_bytes(&[term])),
            Call::Sheet { ref weights, ref rows } => sheet::check(weights, rows).map(|sheet| answer_bytes(&sheet.fields())),
            _ => match &mut self.scheduler {
                Some(scheduler) => state_call(scheduler, call).map(|fields| answer_bytes(&fields)),
                None => Err(Refusal::Unsound),
            },
        };
        match reply {
            Ok(answer) => {
                if let (Some(scheduler), true) = (&self.scheduler, call.takes_state()) {
                    assert!(scheduler.sound(), "the independent scheduler left an unsound state: {scheduler:?}");
                    layout::write(scheduler, &mut self.expected);
                }
                (0, answer, image)
            }
            Err(refusal) => (refusal.number(), vec![0; call.answer_length()], image),
        }
    }

    /// "One of another length gets 10 before all else and keeps its bytes; any other refusal writes 0 to its fields."
    fn mislent<E: Engine + ?Sized>(
        &mut self,
        engine: &mut E,
        call: &Call,
        state_length: usize,
        answer_length: usize,
    ) -> Result<(), String> {
        let right_answer = !call.takes_answer() || answer_length == call.answer_length();
        let right_state = !call.takes_state() || state_length == layout::LENGTH;
        if right_answer && right_state {
            return self.call(engine, call);
        }
        let before: Vec<u8> = self.expected.iter().copied().chain(std::iter::repeat(0)).take(state_length).collect();
        let mut state = Lent::new(&before);
        let unwritten = vec![UNWRITTEN; answer_length];
        let mut answer = Lent::new(&unwritten);
        let mut image = Lent::new(&call.image());
        let given = engine.call(call, state.content(), image.content(), answer.content());
        parted(engine)?;
        if given != Refusal::Unsound.number() {
            return Err(format!("number {given}, should be 10"));
        }
        let kept = if call.takes_answer() && right_answer { vec![0; answer_length] } else { unwritten };
        let differs = answer.differs(&kept, |_| "the answer".to_string());
        let differs = differs.or_else(|| image.differs(&call.image(), |_| call.lends().to_string()));
        match differs.or_else(|| state.differs(&before, |_| "the mislent memory".to_string())) {
            Some(what) => Err(what),
            None => Ok(()),
        }
    }

    /// The memory is changed from outside.
    fn changed(&mut self, change: impl Fn(&mut [u8])) -> Result<(), String> {
        change(self.lent.content());
        change(&mut self.expected);
        self.scheduler = layout::sound_from_bytes(&self.expected);
        Ok(())
    }
}

/// An engine that is two says where they differ.
fn parted<E: Engine + ?Sized>(engine: &mut E) -> Result<(), String> {
    engine.parted().map_or(Ok(()), Err)
}

/// A call on a sound state of the independent scheduler.
pub fn state_call(scheduler: &mut Scheduler, call: &Call) -> Result<Vec<u32>, Refusal> {
    match *call {
        Call::Open { weight } => scheduler.open_sound(weight).map(|done| done.fields()),
        Call::Put { slot, ticket, length, reference } => scheduler.put_sound(slot, ticket, length, reference).map(|done| done.fields()),
        Call::Close { slot, ticket } => scheduler.close_sound(slot, ticket).map(|done| done.fields()),
        Call::Next => scheduler.next_sound().map(|done| done.fields()),
        Call::Ask { slot, ticket } => scheduler.ask_sound(slot, ticket).map(|done| done.fields()),
        Call::Fullest => scheduler.fullest_sound().map(|done| done.fields()),
        Call::Start { edition } => Scheduler::start(edition).map(|fresh| {
            *scheduler = fresh;
            Vec::new()
        }),
        Call::Park { room } => scheduler.park_sound(room).map(|image| vec![image.len() as u32]),
        Call::Unpark { ref image } => Scheduler::unpark(image).map(|read| {
            *scheduler = read;
            Vec::new()
        }),
        Call::Lead { .. } | Call::Term { .. } | Call::Sheet { .. } => Ok(Vec::new()),
    }
}

/// Runs given histories one after the other. The number of calls compared, or a report of the first difference.
pub fn run_all<E, H>(engine: &mut E, histories: H) -> Result<u64, Box<Report>>
where
    E: Engine + ?Sized,
    H: IntoIterator<Item = History>,
{
    let mut calls = 0;
    for history in histories {
        match run(engine, &history) {
            Ok(more) => calls += more,
            Err(difference) => {
                calls += history.steps[..=difference.step].iter().filter(|step| step.is_call()).count() as u64;
                let (history, difference) = shrink(engine, history, difference);
                return Err(Box::new(Report { calls, history, difference }));
            }
        }
    }
    Ok(calls)
}

/// Runs the generated histories of the seeds from `seed` on, until so many calls have been compared.
pub fn run_seeds<E: Engine + ?Sized>(engine: &mut E, seed: u64, calls: u64) -> Result<u64, Box<Report>> {
    let mut compared = 0;
    for seed in seed.. {
        if compared >= calls {
            break;
        }
        match run_all(engine, [generate::history(seed)]) {
            Ok(more) => compared += more,
            Err(mut report) => {
                report.calls += compared;
                return Err(report);
            }
        }
    }
    Ok(compared)
}
