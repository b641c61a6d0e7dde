#![doc = include_str!("../README.md")]
//!
//! - [`Memory`]: the calls on a state, of one [`Edition`] or the other; [`lead`], [`term`] and [`sheet`] take none.
//! - What they answer: [`Opened`], [`Added`], [`Closed`], [`Sent`], [`Told`], a list of [`Filling`], a [`Sheet`], or a [`Refusal`].
//! - [`entries`]: the C entries themselves, for bytes that are kept elsewhere.

mod answers;
pub mod entries;
mod memory;
mod refusal;

pub use answers::{Added, Closed, Filling, Opened, Sent, Sheet, Standing, Told};
pub use memory::{lead, sheet, term, Edition, Memory};
pub use refusal::Refusal;
