//! The scheduler's C entries compared with an independent scheduler.
//!
//! - [`scheduler`], [`steps`], [`sound`], [`notes`], [`spread`], [`sheet`], [`answers`]: an independent scheduler, written from documents 01 and 02 over plain
//!   structures, and a checker of round sheets.
//! - [`layout`]: the lent memory, written from and read into that scheduler; [`check`]: the same question asked record by record; [`image`]: the parked image.
//! - [`engine`], `linked` and `entries` (feature `linked`), [`model`], [`beside`], [`history`], [`lent`], [`compare`], [`shrink`]: an engine under test, or two that
//!   must agree, is run beside the independent scheduler, call by call, and every byte is compared.
//! - [`random`], [`states`], [`pool`], [`damage`], [`sheets`], [`shapes`], [`generate`]: what the compared runs are fed with.
//! - [`deficit`]: deficit round robin, to measure against; [`door`]: how long a door waits beside a drive; `pictures` (feature `linked`): the pictures in
//!   docs/.
//! - [`lift`], [`page`], [`texts`]: the command programs' text, from input bytes to output bytes, `matrix` with its pages, and texts to compare a real `lift` and
//!   `matrix` with.

pub mod answers;
pub mod beside;
pub mod check;
pub mod compare;
pub mod damage;
pub mod deficit;
pub mod door;
pub mod engine;
#[cfg(feature = "linked")]
pub mod entries;
pub mod generate;
pub mod history;
pub mod image;
pub mod layout;
pub mod lent;
pub mod lift;
#[cfg(feature = "linked")]
pub mod linked;
pub mod model;
pub mod notes;
pub mod page;
#[cfg(feature = "linked")]
pub mod pictures;
pub mod pool;
pub mod random;
pub mod scheduler;
pub mod shapes;
pub mod sheet;
pub mod sheets;
pub mod shrink;
pub mod sound;
pub mod spread;
pub mod states;
pub mod steps;
pub mod texts;

/// The example of the safe wrapper, run with the tests here.
#[cfg(all(doctest, feature = "linked"))]
#[doc = include_str!("../uplink/README.md")]
pub struct Wrapper;
