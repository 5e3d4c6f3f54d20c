//! What is behind the command `gighull`.
//!
//! A lesson goes one way: [`lesson`] reads its text, [`run`](mod@run) lets the
//! proved library (crate `gighull`) do its words, and [`report`] says what came
//! of it; [`plot`] (by the pieces in [`svg`]) and [`save`] make files of it,
//! which [`files`] puts down whole or not at all. The other commands are in [`words`](mod@words).
//!
//! Nothing here decides what a word does: every answer is the library's. What
//! is told beside it ([`touch`], [`view`], [`counter`], [`index_unit`]) is tested
//! against the reference.

pub mod command;
pub mod counter;
pub mod failure;
pub mod files;
pub mod index_unit;
pub mod lesson;
pub mod paint;
pub mod plot;
pub mod register;
pub mod report;
pub mod run;
pub mod save;
pub mod svg;
pub mod table;
pub mod touch;
pub mod view;
pub mod words;
