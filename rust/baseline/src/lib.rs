//! A plain fast interpreter of document 01's words, to compare the proved one
//! with. Nothing here is proved; it is what one writes first: a word is
//! decoded by masks, and its operation is a loop over elements.
//!
//! - [`setting`]: allowed vector lengths and feature numbers
//! - [`word`]: from a word to an instruction
//! - [`predicates`], [`vectors`], [`narrow`]: the operations on lent registers
//! - [`run`](mod@run): one word, and a stretch of them
//!
//! Answers are document 01's numbers. The binary `fastlist` beside it has its
//! own pages and shares nothing with it.

#![forbid(unsafe_code)]

pub mod narrow;
pub mod predicates;
pub mod run;
pub mod setting;
pub mod vectors;
pub mod word;

pub use run::{Files, Outcome, Scalars, run, step};
pub use setting::Setting;
