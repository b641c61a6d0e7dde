//! Histories from seeds. A history is built beside a scheduler of its own, so that most calls are ones that can be accepted.

use crate::compare::state_call;
use crate::damage::{beyond_a_limit, no_image, other_notes};
use crate::history::{Call, History, Step};
use crate::image::{image_of, LONGEST_IMAGE};
use crate::layout;
use crate::pool::counted_elsewhere;
use crate::random::Random;
use crate::scheduler::{
    Channel, Kind, Record, Scheduler, COLUMNS, EDITIONS, FRAMING, GOING, GRANT, LAST_TICKET, LONGEST, MOST_WAITING, SLOTS,
};
use crate::shapes::{Action, Shape, SHAPES};
use crate::sheets;

const BAD_SLOTS: [u32; 7] = [64, 65, 128, 256, 320, 0x8000_0000, u32::MAX];
const BAD_WEIGHTS: [u32; 7] = [0, 4_096, 4_097, 8_191, 65_537, 0x8000_0001, u32::MAX];
const BAD_LENGTHS: [u32; 10] = [0, 1_015, 1_016, 1_023, 1_024, 1_025, 2_048, 65_537, 0x8000_0001, u32::MAX];
const BAD_EDITIONS: [u32; 12] = [0, 0, 3, 3, 4, 255, 257, 258, 0x0001_0001, 0x0100_0002, 0x8000_0001, u32::MAX];
const EDGES: [u32; 8] = [0, 1, 2, 0x7fff_ffff, 0x8000_0000, 0xffff_fffe, 0xffff_ffff, 0x0001_0000];

/// The history of a seed; its shape and the edition that it begins in go by the seed too.
pub fn history(seed: u64) -> History {
    let count = SHAPES.len() as u64;
    history_of(&SHAPES[(seed % count) as usize], EDITIONS[(seed / count % 2) as usize], seed)
}

/// The history of this shape and seed that begins in this edition.
pub fn history_of(shape: &'static Shape, edition: u64, seed: u64) -> History {
    let mut random = Random::new(seed);
    let now = (shape.begin)(&mut random, edition);
    assert!(now.sound(), "a history begins in a sound state: {}, seed {seed}", shape.name);
    let memory = layout::to_bytes(&now);
    let image = image_of(&now);
    let mut builder = Builder { random, shape, now, sound: true, old: Vec::new(), image, steps: Vec::new() };
    builder.build();
    History { seed, shape: shape.name, memory, steps: builder.steps }
}

/// Calls that `lift` has, of this shape and seed, without end. They begin on the fresh state, as `lift` does.
pub fn commands(shape: &'static Shape, seed: u64) -> impl Iterator<Item = Call> {
    let (now, image) = (Scheduler::fresh(1), Vec::new());
    let mut builder = Builder { random: Random::new(seed), shape, now, sound: true, old: Vec::new(), image, steps: Vec::new() };
    let of_lift = |action| {
        !matches!(action, Action::Ask | Action::Fullest | Action::Apart | Action::Damage | Action::Mislent | Action::Park | Action::Start)
    };
    let stretches = std::iter::from_fn(move || {
        builder.stretch(of_lift);
        Some(std::mem::take(&mut builder.steps))
    });
    stretches.flatten().filter_map(|step| step.command())
}

struct Builder {
    random: Random,
    shape: &'static Shape,
    now: Scheduler,
    /// False while the memory is damaged: then every call is refused.
    sound: bool,
    /// Slots and tickets of channels that were closed.
    old: Vec<(u32, u32)>,
    /// The image that was written last; at first that of the beginning.
    image: Vec<u8>,
    steps: Vec<Step>,
}

impl Builder {
    fn build(&mut self) {
        if self.shape.channels > 20 {
            for _ in 0..self.random.from_to(1, self.shape.channels) {
                self.act(Action::Open);
            }
        }
        for _ in 0..self.random.from_to(1, 6) {
            self.stretch(|_| true);
        }
    }

    /// Some actions of one kind, those that are wanted: fill, drain, or neither.
    fn stretch(&mut self, wanted: impl Fn(Action) -> bool) {
        // The part that Put and Next have beside what the shape gives them.
        let (fill, drain) = self.random.pick(&[(4, 1), (1, 4), (1, 1)]);
        for _ in 0..self.random.from_to(1, self.shape.long) {
            let action = self.choose(fill, drain);
            if wanted(action) {
                self.act(action);
            }
        }
    }

    fn choose(&mut self, fill: u64, drain: u64) -> Action {
        let part = |&(action, part): &(Action, u64)| match action {
            Action::Put => part * fill,
            Action::Next => part * drain,
            _ => part,
        };
        let mut left = self.random.below(self.shape.parts.iter().map(part).sum());
        for entry in self.shape.parts {
            if left < part(entry) {
                return entry.0;
            }
            left -= part(entry);
        }
        Action::Next
    }

    fn act(&mut self, action: Action) {
        match action {
            Action::Open => self.open(),
            Action::Put => self.put(),
            Action::Replug => self.replug(),
            Action::Rise => self.rise(),
            Action::Damage => self.damage(),
            Action::Mislent => self.mislent(),
            Action::Park => self.park(),
            Action::Close | Action::Next | Action::Ask | Action::Fullest | Action::Stale | Action::Bad | Action::Apart | Action::Start => {
                let call = self.single(action);
                self.push(call);
            }
        }
    }

    /// Adds the call and makes it on the history's own scheduler.
    fn push(&mut self, call: Call) {
        self.steps.push(Step::Call(call.clone()));
        if self.sound || matches!(call, Call::Start { .. } | Call::Unpark { .. }) {
            let accepted = state_call(&mut self.now, &call).is_ok();
            self.sound |= accepted;
            if let (Call::Close { slot, ticket }, true) = (call, accepted) {
                self.old.push((slot, ticket));
            }
        }
    }

    /// A held channel's slot and present ticket; slot 0 with its last ticket where none is held.
    fn held(&mut self, wanted: impl Fn(usize) -> bool) -> (u32, u32) {
        let is_held = |slot: &usize| self.now.channels[*slot].kind != Kind::Free;
        let mut slots: Vec<usize> = (0..SLOTS).filter(is_held).collect();
        if slots.iter().any(|&slot| wanted(self.now.channels[slot].records.len())) && !self.random.chance(1, 16) {
            slots.retain(|&slot| wanted(self.now.channels[slot].records.len()));
        }
        let slot = if slots.is_empty() { 0 } else { self.random.pick(&slots) };
        (slot as u32, self.now.channels[slot].ticket as u32)
    }

    fn open(&mut self) {
        let held = self.now.channels.iter().filter(|channel| channel.kind != Kind::Free).count() as u64;
        if held < self.shape.channels || self.random.chance(1, 20) {
            let weight = (self.shape.weight)(&mut self.random);
            self.push(Call::Open { weight });
        }
    }

    fn put(&mut self) {
        let deep = self.shape.deep;
        // Where channels may fill up, some are given to full ones or nearly.
        let least = if deep == MOST_WAITING && self.random.chance(1, 8) { MOST_WAITING - 2 } else { 0 };
        let (slot, ticket) = self.held(|waiting| if least > 0 { waiting >= least } else { waiting < deep });
        let length = self.length(slot as usize);
        let reference = self.reference();
        self.push(Call::Put { slot, ticket, length, reference });
    }

    /// A length for one more record of a slot. Some are fitted to what the visit that gets to the record will have left: just enough for its cost, a byte
    /// more or less, or enough for its bare length alone.
    fn length(&mut self, slot: usize) -> u32 {
        let channel = &self.now.channels[slot];
        let granted = if self.now.scan.visit == Some(slot) { 0 } else { GRANT };
        let before: u64 = channel.records.iter().map(Record::cost).sum();
        match (channel.deficit + granted).checked_sub(before + FRAMING) {
            Some(fits @ 2..=LONGEST) if self.random.chance(1, 6) => self.random.pick(&[fits - 1, fits, fits + 1, fits + FRAMING]) as u32,
            _ => (self.shape.length)(&mut self.random),
        }
    }

    fn reference(&mut self) -> u32 {
        if self.random.chance(1, 8) {
            self.random.pick(&EDGES)
        } else {
            self.random.number() as u32
        }
    }

    /// A call as the shape's calls are.
    fn single(&mut self, action: Action) -> Call {
        let (slot, ticket) = self.held(|_| true);
        match action {
            Action::Open => Call::Open { weight: (self.shape.weight)(&mut self.random) },
            Action::Put => Call::Put { slot, ticket, length: (self.shape.length)(&mut self.random), reference: self.reference() },
            Action::Close => Call::Close { slot, ticket },
            Action::Ask => Call::Ask { slot, ticket },
            Action::Fullest => Call::Fullest,
            Action::Stale => self.stale(),
            Action::Bad => self.bad(),
            Action::Apart => self.apart(),
            Action::Start => Call::Start { edition: self.edition() },
            Action::Park => Call::Park { room: self.room() },
            _ => Call::Next,
        }
    }

    /// Mostly 1 or 2.
    fn edition(&mut self) -> u32 {
        let bad = self.random.pick(&BAD_EDITIONS);
        self.random.pick(&[1, 1, 2, 2, bad])
    }

    fn on_channel(&mut self, slot: u32, ticket: u32) -> Call {
        match self.random.below(3) {
            0 => Call::Put { slot, ticket, length: (self.shape.length)(&mut self.random), reference: self.reference() },
            1 => Call::Close { slot, ticket },
            _ => Call::Ask { slot, ticket },
        }
    }

    fn stale(&mut self) -> Call {
        let slot = self.random.below(SLOTS as u64) as u32;
        let ticket = self.now.channels[slot as usize].ticket as u32;
        let (slot, ticket) = match self.random.below(4) {
            0 | 1 if !self.old.is_empty() => self.random.pick(&self.old),
            2 => (
                slot,
                self.random.pick(&[ticket.wrapping_sub(1), ticket.wrapping_add(1), ticket, 0, ticket ^ 0x0100, ticket ^ 0x8000_0000]),
            ),
            _ => {
                let (slot, ticket) = self.held(|_| true);
                (slot, self.random.pick(&[ticket.wrapping_sub(1), ticket.wrapping_add(1), 0, u32::MAX, ticket ^ 0x0001_0000]))
            }
        };
        self.on_channel(slot, ticket)
    }

    fn bad(&mut self) -> Call {
        // Half of them on the fullest channels, where another rule refuses too.
        let fullest = self.now.channels.iter().map(|channel| channel.records.len()).max().unwrap_or(0);
        let least = self.random.pick(&[0, fullest]);
        let (slot, ticket) = self.held(|waiting| waiting >= least);
        let reference = self.reference();
        match self.random.below(6) {
            0 => Call::Open { weight: self.random.pick(&BAD_WEIGHTS) },
            5 => Call::Start { edition: self.random.pick(&BAD_EDITIONS) },
            1 => Call::Put { slot, ticket, length: self.random.pick(&BAD_LENGTHS), reference },
            // Two things wrong at once: the order of checks shows.
            2 => {
                let (slot, ticket) = (self.random.pick(&[slot, 64, 63]), self.random.pick(&[ticket, 0, u32::MAX]));
                Call::Put { slot, ticket, length: self.random.pick(&BAD_LENGTHS), reference }
            }
            _ => {
                let (slot, ticket) = (self.random.pick(&BAD_SLOTS), self.random.pick(&[ticket, 0, 1, u32::MAX]));
                self.on_channel(slot, ticket)
            }
        }
    }

    fn apart(&mut self) -> Call {
        if self.random.chance(1, 2) {
            return sheets::any(&mut self.random);
        }
        if self.random.chance(1, 2) {
            let order = self.random.pick(&[0, 1, 2, 3, 4, 8, 11, 12, 12, 13, 31, 32, 64, u32::MAX]);
            let end = 1u64 << order.min(12);
            let random_position = self.random.below(end);
            let position = self.random.pick(&[0, 1, end - 1, end, end / 2, end + 1, u64::from(u32::MAX), random_position]);
            return Call::Term { order, position: position as u32 };
        }
        let mut number = |weight: bool| match self.random.below(3) {
            0 if weight => self.random.pick(&[0, 4_096, 1, 4_095, u32::MAX]),
            1 if !weight => self.random.pick(&EDGES),
            _ => self.random.from_to(1, 4_095) as u32,
        };
        Call::Lead { w1: number(true), v1: number(false), w2: number(true), v2: number(false) }
    }

    fn replug(&mut self) {
        let (slot, ticket) = self.held(|_| true);
        self.push(Call::Close { slot, ticket });
        let drain = self.random.chance(2, 3);
        for _ in 0..40 {
            if drain && self.now.channels[slot as usize].kind == Kind::Closing {
                self.push(Call::Next);
            }
        }
        let weight = (self.shape.weight)(&mut self.random);
        self.push(Call::Open { weight });
        for _ in 0..self.random.from_to(1, 3) {
            let call = self.on_channel(slot, ticket);
            self.push(call);
        }
    }

    fn rise(&mut self) {
        let before_last = |now: &Scheduler| now.scan.position + 1 < 1 << now.order;
        for _ in 0..6 {
            if before_last(&self.now) {
                self.push(Call::Next);
            }
        }
        let can_open = |channel: &Channel| channel.kind == Kind::Free && channel.ticket != LAST_TICKET;
        let Some(slot) = self.now.channels.iter().position(can_open) else { return };
        let order = self.now.order.min(COLUMNS - 1);
        let weight = 1 << self.random.pick(&[order, order, COLUMNS - 1]);
        self.push(Call::Open { weight });
        let (slot, ticket) = (slot as u32, self.now.channels[slot].ticket as u32);
        let (length, reference) = ((self.shape.length)(&mut self.random), self.reference());
        self.push(Call::Put { slot, ticket, length, reference });
        self.push(Call::Close { slot, ticket });
    }

    /// Any call of the shape's kind that takes a state.
    fn any_call(&mut self) -> Call {
        let actions = [
            Action::Open,
            Action::Put,
            Action::Close,
            Action::Next,
            Action::Ask,
            Action::Fullest,
            Action::Stale,
            Action::Bad,
            Action::Park,
        ];
        let action = self.random.pick(&actions);
        self.single(action)
    }

    /// The length of a buffer for the image: just enough, one byte less or more, enough for any, or far too short.
    fn room(&mut self) -> usize {
        let length = image_of(&self.now).len();
        self.random.pick(&[length, length, length - 1, length + 1, length + 64, LONGEST_IMAGE, LONGEST_IMAGE + 1, 0, 1])
    }

    /// The firmware changes: the state is parked and refuses calls, its memory is thrown away or damaged, images that are none are refused, and the image is
    /// read. Now and then the state stays parked, until the next time.
    fn park(&mut self) {
        if self.now.mark == GOING {
            let image = image_of(&self.now);
            let room = self.room();
            self.push(Call::Park { room });
            if self.now.mark == GOING {
                self.push(Call::Park { room: image.len() });
            }
            // Most go on with the new image, some with the one before.
            if !self.random.chance(1, 8) {
                self.image = image;
            }
        }
        for _ in 0..self.random.below(5) {
            let call = if self.random.chance(1, 8) { self.apart() } else { self.any_call() };
            self.push(call);
        }
        if !self.random.chance(1, 8) {
            self.unpark();
        }
    }

    /// A byte of the memory is changed, and stays so.
    fn change_a_byte(&mut self) {
        let (place, flip) = (self.any_place(), 1 << self.random.below(8));
        self.steps.push(Step::Damage { place, flip });
        let mut bytes = layout::to_bytes(&self.now);
        bytes[place] ^= flip;
        match layout::sound_from_bytes(&bytes) {
            Some(scheduler) => self.now = scheduler,
            None => self.sound = false,
        }
    }

    fn unpark(&mut self) {
        if self.random.chance(1, 2) {
            let any = self.random.below(256) as u8;
            self.steps.push(Step::Lost { fill: self.random.pick(&[0, 1, 0xff, any]) });
            self.sound = false;
        } else if self.random.chance(1, 2) {
            self.change_a_byte();
        }
        for _ in 0..self.random.below(4) {
            let image = no_image(&mut self.random, &self.image);
            self.push(Call::Unpark { image });
            let call = self.any_call();
            // One that is an image after all may have been read, so the call is not always refused.
            self.push(call);
        }
        if self.random.chance(1, 8) {
            let edition = self.edition();
            self.push(Call::Start { edition });
        }
        let image = self.image.clone();
        self.push(Call::Unpark { image });
    }

    fn damage(&mut self) {
        let bytes = layout::to_bytes(&self.now);
        let mut damaged = bytes.clone();
        match self.random.below(11) {
            0 | 1 => damaged = layout::to_bytes(&beyond_a_limit(&mut self.random, &self.now)),
            2 | 3 => damaged = counted_elsewhere(&mut self.random, &self.now),
            4..=6 => damaged = layout::with_notes(&self.now, &other_notes(&mut self.random, &self.now)),
            _ => {
                let place = self.any_place();
                damaged[place] ^= if self.random.chance(1, 2) { 1 << self.random.below(8) } else { self.random.from_to(1, 255) as u8 };
            }
        }
        let changed = (0..layout::LENGTH).filter(|&place| damaged[place] != bytes[place]);
        let changes: Vec<Step> = changed.map(|place| Step::Damage { place, flip: damaged[place] ^ bytes[place] }).collect();
        self.steps.extend_from_slice(&changes);
        match layout::sound_from_bytes(&damaged) {
            Some(scheduler) => self.now = scheduler,
            None => {
                self.sound = false;
                for _ in 0..self.random.from_to(1, 3) {
                    let call = self.any_call();
                    self.push(call);
                }
                self.steps.extend(changes);
                self.sound = true;
            }
        }
    }

    fn any_place(&mut self) -> usize {
        match self.random.below(5) {
            0 => self.place_in(0..layout::LENGTHS.start),
            1 => self.place_in(layout::ROW_COUNT.start..layout::NOTHING.start),
            2 => self.place_in(layout::NOTHING.places()),
            3 => self.place_in(layout::BYTES.start..layout::LENGTH),
            _ => self.place_in(0..layout::LENGTH),
        }
    }

    fn place_in(&mut self, places: std::ops::Range<usize>) -> usize {
        places.start + self.random.below(places.len() as u64) as usize
    }

    fn mislent(&mut self) {
        let call = match self.random.below(9) {
            0 => Call::Start { edition: self.edition() },
            1 => self.apart(),
            8 => {
                let none = no_image(&mut self.random, &self.image);
                Call::Unpark { image: if self.random.chance(1, 2) { none } else { image_of(&self.now) } }
            }
            _ => self.any_call(),
        };
        let right = call.answer_length();
        let whole = layout::LENGTH;
        let state_lengths = [whole, 0, 1, 64, layout::REFERENCES.end(), whole - 1, whole + 1, whole + 64, 2 * whole];
        let answer_lengths = [right, 0, 1, right.saturating_sub(1), right + 1, right + 4, 2 * right, 64];
        // One of the two is often right, and never both.
        let (mut state_length, mut answer_length) = (self.random.pick(&state_lengths), self.random.pick(&answer_lengths));
        match self.random.below(3) {
            0 if call.takes_answer() => (state_length, answer_length) = (layout::LENGTH, self.random.pick(&answer_lengths[1..])),
            1 if call.takes_state() => (state_length, answer_length) = (self.random.pick(&state_lengths[1..]), right),
            _ => {}
        }
        let answer_is_wrong = call.takes_answer() && answer_length != right;
        let state_is_wrong = call.takes_state() && state_length != layout::LENGTH;
        if answer_is_wrong || state_is_wrong {
            self.steps.push(Step::Mislent { call, state_length, answer_length });
        } else {
            self.push(call);
        }
    }
}
