//! This interpreter against the reference, by the tests that it shares with the
//! proved library.

use baseline as interpreter;

#[path = "../../against-reference/mod.rs"]
mod against_reference;
