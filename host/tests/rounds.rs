//! Demand 3 on the independent scheduler in both editions, with its bytes read as cost (document 02, §1): what a channel that always waits takes of the
//! link in a round goes by its weight, however short its records are and whatever other channels do.
//!
//! Rounds are over moments, the single steps that a call is made of, since in edition 2 a round may start and end inside a call.

use host::random::Random;
use host::scheduler::{Kind, Scheduler, EDITIONS, GRANT, LONGEST, MOST_WAITING};
use host::sound::LARGEST_DEFICIT;
use host::steps::Moment;

/// What a channel did in a round.
#[derive(Clone, Copy, Default)]
struct Done {
    visits: u64,
    cost: u64,
    sends: u64,
}

/// Edition 1: "A round starts where no visit is open, none remain to visit, and P is 0 or 2^k - 1, with rows present". Edition 2: "where P is 0, rows are
/// present, no visit is open and none remain".
fn starts(state: &Scheduler) -> bool {
    let (scan, last) = (&state.scan, (1 << state.order) - 1);
    let at_start = scan.position == 0 || (state.edition == 1 && scan.position == last);
    scan.visit.is_none() && scan.to_visit.is_empty() && at_start && !state.rows.is_empty()
}

/// A round that has ended: its channels that waited at every moment, by slot, with their weights.
struct Round {
    order: u64,
    channels: Vec<(usize, u64, Done)>,
    /// It started inside a call, and it ended inside one.
    inside: (bool, bool),
}

/// The round under way.
struct Watch {
    order: u64,
    /// The order has been the same at every moment.
    steady: bool,
    /// The weight of each channel that has waited at every moment, by slot.
    waits: Vec<Option<u64>>,
    done: Vec<Done>,
    began_inside: bool,
}

impl Watch {
    fn at(state: &Scheduler, inside: bool) -> Watch {
        let weight = |slot: usize| state.rows.contains(&slot).then(|| state.channels[slot].weight);
        let waits = (0..state.channels.len()).map(weight).collect();
        Watch { order: state.order, steady: true, waits, done: vec![Default::default(); state.channels.len()], began_inside: inside }
    }

    /// One more moment, and the state that it leaves. "the next start is the first one after at least one send": the round that ends there.
    fn see(&mut self, state: &Scheduler, moment: Option<Moment>) -> Option<Round> {
        match moment {
            Some(Moment::VisitStart { slot }) => self.done[slot].visits += 1,
            Some(Moment::Sent { slot, cost }) => {
                self.done[slot].cost += cost;
                self.done[slot].sends += 1;
            }
            _ => {}
        }
        for (slot, waits) in self.waits.iter_mut().enumerate() {
            *waits = waits.filter(|_| !state.channels[slot].records.is_empty());
        }
        let inside = moment.is_some();
        let ends = starts(state) && self.done.iter().any(|done| done.sends > 0);
        // "the order found there still counts for the round that ends"; in edition 2 it "belongs only to the next round".
        if !(ends && state.edition == 2) {
            self.steady &= state.order == self.order;
        }
        self.two_are_near();
        if !starts(state) {
            return None;
        }
        let ended = std::mem::replace(self, Watch::at(state, inside));
        let channels =
            ended.waits.iter().zip(&ended.done).enumerate().filter_map(|(slot, (weight, &done))| weight.map(|weight| (slot, weight, done)));
        (ends && ended.steady).then(|| Round { order: ended.order, channels: channels.collect(), inside: (ended.began_inside, inside) })
    }

    /// "twice the distance between w1 times the second's visits and w2 times the first's is at most the larger weight times the larger of 2 and the order"
    fn two_are_near(&self) {
        let held: Vec<(u64, u64)> =
            self.waits.iter().zip(&self.done).filter_map(|(weight, done)| weight.map(|weight| (weight, done.visits))).collect();
        for &(w1, v1) in held.iter().filter(|_| self.steady) {
            for &(w2, v2) in &held {
                assert!(2 * (w1 * v2).abs_diff(w2 * v1) <= w1.max(w2) * self.order.max(2), "{w1} {v1} {w2} {v2}, order {}", self.order);
            }
        }
    }
}

/// The calls of a run, each watched moment by moment.
struct Run {
    scheduler: Scheduler,
    watch: Watch,
    rounds: Vec<Round>,
}

impl Run {
    fn new(edition: u64) -> Run {
        let scheduler = Scheduler::fresh(edition);
        Run { watch: Watch::at(&scheduler, false), scheduler, rounds: Vec::new() }
    }

    /// Opens a channel; its slot.
    fn open(&mut self, weight: u64) -> usize {
        self.scheduler.open_sound(weight as u32).unwrap().slot as usize
    }

    fn put(&mut self, slot: usize, length: u64) {
        let ticket = self.scheduler.channels[slot].ticket as u32;
        self.scheduler.put_sound(slot as u32, ticket, length as u32, 0).unwrap();
        self.rounds.extend(self.watch.see(&self.scheduler, None));
    }

    /// Sends; the slot that did.
    fn next(&mut self) -> usize {
        let (watch, rounds) = (&mut self.watch, &mut self.rounds);
        let sent = self.scheduler.next_by_moments(&mut |state, moment| rounds.extend(watch.see(state, Some(moment)))).unwrap();
        assert!(self.scheduler.sound());
        sent.slot as usize
    }
}

/// "That channel is visited exactly as often as its weight w and sends at least 1,024w - 1,023 and at most 1,024w + 1,023 bytes"
fn by_weight(rounds: &[Round]) {
    for round in rounds {
        for &(slot, weight, done) in &round.channels {
            assert_eq!(done.visits, weight, "slot {slot}, order {}", round.order);
            assert!(done.cost.abs_diff(GRANT * weight) <= LARGEST_DEFICIT, "{} for weight {weight}", done.cost);
        }
    }
}

/// So many sends of channels that are given a record for each that they send. Each is of a weight, and of records up to a length.
fn always_waiting(random: &mut Random, edition: u64, channels: &[(u64, u64)], sends: usize) -> Vec<Round> {
    let mut run = Run::new(edition);
    let mut length = |slot: usize| random.from_to(1, channels[slot].1);
    for (slot, &(weight, _)) in channels.iter().enumerate() {
        run.open(weight);
        (0..MOST_WAITING).for_each(|_| run.put(slot, length(slot)));
    }
    for _ in 0..sends {
        let slot = run.next();
        run.put(slot, length(slot));
    }
    run.rounds
}

#[test]
fn costs_by_weight() {
    let mut random = Random::new(61);
    for turn in 0..40 {
        let mut channel = || (random.from_to(1, 40), random.pick(&[1, 5, 40, 300, LONGEST]));
        let channels: Vec<(u64, u64)> = (0..6).map(|_| channel()).collect();
        let rounds = always_waiting(&mut random, EDITIONS[turn % 2], &channels, 20_000);
        assert!(!rounds.is_empty() && rounds.iter().all(|round| round.channels.len() == 6));
        by_weight(&rounds);
    }
}

/// Some channels always wait; beside them others of any weight empty and refill, close and open, so that the order rises, is held and falls.
#[test]
fn costs_by_weight_beside_others() {
    let mut random = Random::new(63);
    let (mut measured, mut inside, mut within) = ([0; 2], 0, 0);
    for turn in 0..60 {
        let edition = EDITIONS[turn % 2];
        let (mut run, heaviest) = (Run::new(edition), random.pick(&[3, 20, 4_095]));
        let steady = random.from_to(1, 4) as usize;
        for slot in 0..steady {
            let most = random.pick(&[2, 9]);
            run.open(random.from_to(1, most));
            (0..MOST_WAITING).for_each(|_| run.put(slot, LONGEST));
        }
        for _ in 0..4_000 {
            if random.chance(1, 8) {
                beside(&mut random, &mut run, steady, heaviest);
            }
            let slot = run.next();
            if slot < steady {
                run.put(slot, random.from_to(1, LONGEST));
            }
        }
        by_weight(&run.rounds);
        measured[turn % 2] += run.rounds.iter().map(|round| round.channels.len()).sum::<usize>();
        inside += run.rounds.iter().filter(|round| edition == 2 && round.inside.0 && !round.channels.is_empty()).count();
        within += run
            .rounds
            .iter()
            .filter(|round| round.inside == (true, true) && round.channels.iter().any(|channel| channel.2.sends == 1))
            .count();
    }
    assert!(measured.iter().all(|&count| count > 5_000) && inside > 1_000 && within > 100, "{measured:?} {inside} {within}");
}

/// A channel behind the steady ones is opened, given a record or closed.
fn beside(random: &mut Random, run: &mut Run, steady: usize, heaviest: u64) {
    let slot = random.from_to(steady as u64, steady as u64 + 3) as usize;
    let channel = &run.scheduler.channels[slot];
    match (channel.kind, channel.records.len()) {
        (Kind::Open, _) if random.chance(1, 8) => {
            let ticket = channel.ticket as u32;
            run.scheduler.close_sound(slot as u32, ticket).unwrap();
        }
        (Kind::Open, waiting) if waiting < 3 => run.put(slot, random.from_to(1, LONGEST)),
        (Kind::Free, _) => {
            run.open(random.from_to(1, heaviest));
        }
        _ => {}
    }
}

/// A landing board's records of one byte each: as much of the link as another of its weight, and ten elevenths of it is framing.
#[test]
fn short_records_take_no_more() {
    for edition in EDITIONS {
        let rounds = always_waiting(&mut Random::new(62), edition, &[(3, 1), (3, LONGEST)], 60_000);
        assert!(rounds.len() >= 200);
        let total = |slot: usize| {
            let add = |all: (u64, u64), round: &Round| (all.0 + round.channels[slot].2.cost, all.1 + round.channels[slot].2.sends);
            rounds.iter().fold((0, 0), add)
        };
        let ((short_cost, short_records), (cost, _)) = (total(0), total(1));
        assert!(short_cost.abs_diff(cost) <= 2 * LARGEST_DEFICIT, "{short_cost}, {cost}");
        // A byte and ten of framing.
        assert_eq!(short_cost, 11 * short_records);
    }
}
