//! The notes that the state keeps beside its channels (document 02, §7): each channel's bytes waiting, and the list of the five fullest. They say again what the records
//! say, so the independent scheduler does not hold them: they are worked out from the records each time, and a memory is held against that.

use crate::scheduler::{fullest_of, Scheduler};
use crate::sound::Rule;

#[derive(Clone, Debug, PartialEq, Eq)]
pub struct Notes {
    /// The bytes waiting in each slot.
    pub bytes: Vec<u64>,
    /// The slots of the fullest, with their number: slot 0 is one like the others.
    pub listed: Vec<usize>,
}

impl Notes {
    /// Those of a state, worked out afresh.
    pub fn of(scheduler: &Scheduler) -> Notes {
        let bytes = scheduler.bytes_waiting();
        let listed = fullest_of(&bytes);
        Notes { bytes, listed }
    }

    /// "Soundness now includes both": the rules that these notes break beside the channels of a state. The list is held against the records, not against the sums.
    pub fn broken(&self, scheduler: &Scheduler) -> Vec<Rule> {
        let right = Notes::of(scheduler);
        let rules = [(Rule::Bytes, self.bytes == right.bytes), (Rule::Fullest, self.listed == right.listed)];
        rules.into_iter().filter(|(_, kept)| !kept).map(|(rule, _)| rule).collect()
    }
}
