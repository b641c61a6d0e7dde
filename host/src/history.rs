//! Calls, and histories of calls on one lent memory.

use std::fmt;

use crate::layout;
use crate::lent::UNWRITTEN;
use crate::model::answer_bytes;
use crate::scheduler::EDITIONS;

#[derive(Clone, Debug, PartialEq, Eq)]
pub enum Call {
    Start {
        edition: u32,
    },
    Open {
        weight: u32,
    },
    Put {
        slot: u32,
        ticket: u32,
        length: u32,
        reference: u32,
    },
    Close {
        slot: u32,
        ticket: u32,
    },
    Next,
    Ask {
        slot: u32,
        ticket: u32,
    },
    Fullest,
    /// With a buffer of this length.
    Park {
        room: usize,
    },
    Unpark {
        image: Vec<u8>,
    },
    Lead {
        w1: u32,
        v1: u32,
        w2: u32,
        v2: u32,
    },
    Term {
        order: u32,
        position: u32,
    },
    Sheet {
        weights: Vec<u32>,
        rows: Vec<u32>,
    },
}

impl Call {
    /// The length of the call's answer buffer; Start and Unpark have none.
    pub fn answer_length(&self) -> usize {
        match self {
            Call::Start { .. } | Call::Unpark { .. } => 0,
            Call::Close { .. } | Call::Park { .. } | Call::Term { .. } => 4,
            Call::Open { .. } | Call::Put { .. } | Call::Lead { .. } | Call::Sheet { .. } => 8,
            Call::Ask { .. } => 20,
            Call::Next => 28,
            Call::Fullest => 44,
        }
    }

    /// Its numbers, in the order of the C entry's parameters. What it is lent is not among them.
    pub fn numbers(&mut self) -> Vec<&mut u32> {
        match self {
            Call::Next | Call::Fullest | Call::Park { .. } | Call::Unpark { .. } | Call::Sheet { .. } => Vec::new(),
            Call::Start { edition } => vec![edition],
            Call::Open { weight } => vec![weight],
            Call::Put { slot, ticket, length, reference } => vec![slot, ticket, length, reference],
            Call::Close { slot, ticket } | Call::Ask { slot, ticket } => vec![slot, ticket],
            Call::Lead { w1, v1, w2, v2 } => vec![w1, v1, w2, v2],
            Call::Term { order, position } => vec![order, position],
        }
    }

    pub fn takes_state(&self) -> bool {
        !matches!(self, Call::Lead { .. } | Call::Term { .. } | Call::Sheet { .. })
    }

    pub fn takes_answer(&self) -> bool {
        !matches!(self, Call::Start { .. } | Call::Unpark { .. })
    }

    /// What is lent as the image: a buffer for Park, the bytes to be read for Unpark, those of both lists for Sheet, nothing for the others.
    pub fn image(&self) -> Vec<u8> {
        match self {
            Call::Park { room } => vec![UNWRITTEN; *room],
            Call::Unpark { image } => image.clone(),
            Call::Sheet { weights, rows } => answer_bytes(&[&weights[..], &rows[..]].concat()),
            _ => Vec::new(),
        }
    }

    /// What that is.
    pub fn lends(&self) -> &'static str {
        match self {
            Call::Sheet { .. } => "the lists",
            _ => "the image",
        }
    }
}

/// As a line of the command program `lift`; the calls that it does not have are comments.
impl fmt::Display for Call {
    fn fmt(&self, out: &mut fmt::Formatter) -> fmt::Result {
        match self {
            Call::Start { edition } => write!(out, "# start {edition}"),
            Call::Open { weight } => write!(out, "O {weight}"),
            Call::Put { slot, ticket, length, reference } => write!(out, "P {slot} {ticket} {length} {reference}"),
            Call::Close { slot, ticket } => write!(out, "C {slot} {ticket}"),
            Call::Next => write!(out, "N"),
            Call::Ask { slot, ticket } => write!(out, "# ask {slot} {ticket}"),
            Call::Fullest => write!(out, "# fullest"),
            Call::Park { room } => write!(out, "# park with a buffer of {room} bytes"),
            Call::Unpark { image } => write!(out, "# unpark {} bytes: {}", image.len(), hexadecimal(image)),
            Call::Lead { w1, v1, w2, v2 } => write!(out, "# lead {w1} {v1} {w2} {v2}"),
            Call::Term { order, position } => write!(out, "# term {order} {position}"),
            Call::Sheet { weights, rows } => write!(out, "# sheet of weights {}: {}", listed(weights), listed(rows)),
        }
    }
}

fn hexadecimal(bytes: &[u8]) -> String {
    bytes.iter().map(|byte| format!("{byte:02x}")).collect()
}

/// The numbers of a list, of a long one its beginning.
fn listed(numbers: &[u32]) -> String {
    const SHOWN: usize = 100;
    let mut words: Vec<String> = numbers.iter().take(SHOWN).map(u32::to_string).collect();
    if numbers.len() > SHOWN {
        words.push(format!(".. ({} in all)", numbers.len()));
    }
    format!("[{}]", words.join(" "))
}

/// One step of a history.
#[derive(Clone, Debug, PartialEq, Eq)]
pub enum Step {
    Call(Call),
    /// The call with other lengths of state and answer.
    Mislent {
        call: Call,
        state_length: usize,
        answer_length: usize,
    },
    /// No call: a byte of the lent memory is changed from outside.
    Damage {
        place: usize,
        flip: u8,
    },
    /// No call: the memory is thrown away, and each byte of it is this one.
    Lost {
        fill: u8,
    },
}

impl Step {
    pub fn is_call(&self) -> bool {
        matches!(self, Step::Call(_) | Step::Mislent { .. })
    }

    /// The call, where it is one that the command program has.
    pub fn command(self) -> Option<Call> {
        match self {
            Step::Call(call @ (Call::Open { .. } | Call::Put { .. } | Call::Close { .. } | Call::Next)) => Some(call),
            _ => None,
        }
    }
}

impl fmt::Display for Step {
    fn fmt(&self, out: &mut fmt::Formatter) -> fmt::Result {
        match self {
            Step::Call(call) => write!(out, "{call}"),
            Step::Mislent { call, state_length, answer_length } => {
                write!(out, "# with {state_length} bytes of state and {answer_length} of answer: {call}")
            }
            Step::Damage { place, flip } => write!(out, "# byte {place} of the memory is changed by exclusive or with {flip}"),
            Step::Lost { fill } => write!(out, "# each byte of the memory becomes {fill}"),
        }
    }
}

/// Steps on one lent memory, each given the bytes that the step before it left.
#[derive(Clone, Debug)]
pub struct History {
    pub seed: u64,
    pub shape: &'static str,
    /// The bytes at the beginning, sound or not.
    pub memory: Vec<u8>,
    pub steps: Vec<Step>,
}

impl fmt::Display for History {
    fn fmt(&self, out: &mut fmt::Formatter) -> fmt::Result {
        let fresh = EDITIONS.into_iter().find(|&edition| self.memory == layout::fresh(edition));
        if let Some(edition) = fresh {
            writeln!(out, "# start {edition}")?;
        }
        for (line, bytes) in self.memory.chunks(64).enumerate().filter(|_| fresh.is_none()) {
            if bytes.iter().any(|&byte| byte != 0) {
                writeln!(out, "# memory from byte {}: {}", 64 * line, hexadecimal(bytes))?;
            }
        }
        for step in &self.steps {
            writeln!(out, "{step}")?;
        }
        Ok(())
    }
}
