//! Deficit round robin is what the literature says: a quantum by weight, a deficit that is kept, a list in the order of joining.

use host::deficit::{RoundRobin, Sent};
use host::random::Random;
use host::scheduler::{cost_of, Scheduler, GRANT, LONGEST, MOST_WAITING};

/// Channels of these weights, each with records of these lengths.
fn filled(weights: &[u64], lengths: &[u64]) -> RoundRobin {
    let mut deficit = RoundRobin::default();
    for &weight in weights {
        let slot = deficit.open(weight);
        lengths.iter().for_each(|&length| deficit.put(slot, length));
    }
    deficit
}

fn slots(deficit: &mut RoundRobin, sends: usize) -> Vec<usize> {
    (0..sends).map(|_| deficit.next().unwrap().slot).collect()
}

/// Document 000, section 1: "a continuous period of time in proportion to the weight of the flow".
#[test]
fn a_quantum_by_weight_in_one_go() {
    let mut deficit = filled(&[1, 4, 8, 3], &[1_014; 16]);
    let round = [0, 1, 1, 1, 1, 2, 2, 2, 2, 2, 2, 2, 2, 3, 3, 3];
    assert_eq!(slots(&mut deficit, 16), round);
    assert_eq!(slots(&mut deficit, 16), round);
}

/// What a visit leaves is added to the next quantum: 1,024 - 610 = 414, and 414 + 1,024 is enough for two records of 600.
#[test]
fn the_rest_is_kept_while_records_wait() {
    let mut deficit = filled(&[1, 1], &[600, 600, 600, 600]);
    assert_eq!(deficit.next(), Some(Sent { slot: 0, length: 600, started: true }));
    assert_eq!(deficit.channels[0].deficit, 414);
    assert_eq!(slots(&mut deficit, 6), [1, 0, 0, 1, 1, 0]);
    assert_eq!(deficit.channels[1].deficit, 218);
}

#[test]
fn an_emptied_channel_leaves_without_its_rest_and_joins_at_the_end() {
    let mut deficit = filled(&[2, 1, 1], &[100]);
    deficit.put(1, 1_000);
    assert_eq!(deficit.next(), Some(Sent { slot: 0, length: 100, started: true }));
    assert_eq!((deficit.channels[0].deficit, deficit.visit), (0, false));
    deficit.put(0, 1);
    assert_eq!(deficit.rows, [1, 2, 0]);
    assert_eq!(slots(&mut deficit, 4), [1, 2, 0, 1]);
    assert_eq!(deficit.next(), None);
    assert_eq!(deficit, filled(&[2, 1, 1], &[]));
}

/// Over any number of visits the records of a channel that always has some cost its quanta less the rest, and the rest is below the longest one's cost.
#[test]
fn costs_by_quantum_for_any_lengths() {
    let mut random = Random::new(51);
    let weights = [5, 1, 3];
    let mut deficit = filled(&weights, &[]);
    let mut length = || random.from_to(1, LONGEST);
    for slot in 0..weights.len() {
        (0..MOST_WAITING).for_each(|_| deficit.put(slot, length()));
    }
    let (mut visits, mut costs) = ([0; 3], [0; 3]);
    for _ in 0..20_000 {
        let sent = deficit.next().unwrap();
        visits[sent.slot] += u64::from(sent.started);
        costs[sent.slot] += cost_of(sent.length);
        deficit.put(sent.slot, length());
        let rest = deficit.channels[sent.slot].deficit;
        assert_eq!(costs[sent.slot] + rest, visits[sent.slot] * weights[sent.slot] * GRANT);
        assert!(deficit.visit || rest < cost_of(LONGEST));
        // A round visits each channel once.
        assert!(visits[0] - visits[2] <= 1 && visits[0] >= visits[1] && visits[1] >= visits[2]);
    }
}

/// With weights of 1 there is nothing to smooth: the independent scheduler and this one send alike.
#[test]
fn weights_of_1_are_served_alike() {
    let mut random = Random::new(52);
    let (mut scheduler, mut deficit) = (Scheduler::fresh(1), filled(&[1; 7], &[]));
    for slot in 0..7 {
        scheduler.open(1).unwrap();
        for reference in 0..8 {
            let length = random.from_to(1, LONGEST);
            scheduler.put(slot, 1, length as u32, reference).unwrap();
            deficit.put(slot as usize, length);
        }
    }
    for _ in 0..2_000 {
        let (sent, expected) = (scheduler.next().unwrap(), deficit.next().unwrap());
        assert_eq!((sent.slot as usize, u64::from(sent.length), sent.started), (expected.slot, expected.length, expected.started));
        let length = random.from_to(1, LONGEST);
        scheduler.put(sent.slot, 1, length as u32, 0).unwrap();
        deficit.put(expected.slot, length);
    }
}
