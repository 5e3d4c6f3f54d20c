//! The proved library against the independent reference.
//!
//! - [`case`]: one question to both, as data and as a line of text
//! - [`check`]: puts it to both and says where they differ
//! - [`draw`]: seeded cases, random and structured, sound and damaged
//! - [`shrink`](mod@shrink): a smaller case that still differs
//! - [`campaign`](mod@campaign): many cases on some threads
//! - [`sweep`]: all words, and all fields
//! - [`names`]: the words by their names, to count them by
//! - [`threads`]: what these share, work in chunks; [`progress`]: a line on stderr

pub mod campaign;
pub mod case;
pub mod check;
pub mod draw;
pub mod names;
pub mod progress;
pub mod shrink;
pub mod sweep;
pub mod threads;
