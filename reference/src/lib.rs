//! # Reference program
//!
//! An independent second program for the words of document 01 (`01-scope.md`),
//! with requests 1 to 3, 5 and 8 of document 02 (`02-change-requests.md`): the
//! whole narrowing family, PSEL, no answer is 7, PSEL's index unit, and one
//! PEXT.
//! It was written from the documents alone (01, 02, the source documents 000
//! to 004 and the list of readings of doubtful points), by a hand that had not
//! seen the proved library, so that the two can be compared. Nothing here is
//! proved; it is meant to be plain enough to be read against the documents.
//!
//! Reading and writing words:
//!
//! - [`setting`]: which vector lengths and feature numbers are allowed
//! - [`refusal`]: the numbers the bench answers with
//! - [`instruction`]: the five forms, the last of them a family, and their
//!   fields as document 01 reads them
//! - [`layout`]: the six rows of document 01's table, with one mask and value
//!   for each, and the conditions
//! - [`decode`], [`encode`]: word to instruction and back
//! - [`lister`]: four bytes in, one line of text out
//!
//! Executing them, meaning first, bit by bit:
//!
//! - [`machine`]: the lent files and scalars
//! - [`bits`]: registers as rows of bits
//! - [`counter`]: the predicate-as-counter and its expansion
//! - [`operations`]: what the words compute
//! - [`narrow`](mod@narrow): the same for the sixteen narrowing words
//! - [`index_unit`](mod@index_unit): PSEL's index, with the adder's sum and the
//!   mask that the hardware lab makes it from
//! - [`access`]: which access flags a word needs
//! - [`step`], [`run`](mod@run): one word, and a stretch of them
//! - [`touch`](mod@touch): what a word reads and writes, and which words conflict
//! - [`rearrangement`]: which rearrangements of a stretch are permitted
//!
//! and what is needed to compare:
//!
//! - [`question`], [`step_question`], [`run_question`],
//!   [`permission_question`]: one question and its answer
//! - [`start`], [`expand`](mod@expand): what a step or a run starts from, and
//!   how its machine is made from a few numbers
//! - [`text`]: questions and answers as lines of fixed width
//! - [`questions`], [`step_questions`], [`conflict_questions`],
//!   [`run_questions`], [`permission_questions`]: the lists of questions put
//!   to both programs
//! - [`cases`]: stretches with orders for them, from which the last two are
//!   made
//! - [`samples`], [`roles`], [`stretches`], [`values`], [`random`]: seeded
//!   words, fields, machines and stretches
//! - [`once`]: lists without duplicates
//!
//! The binary `reference` gives all of this on the command line:
//!
//! ```text
//! reference list                        words on stdin, lines on stdout
//! reference questions [SEED]            prints questions of kinds 0 to 6, 11, 12
//! reference step-questions [SEED]       prints questions of kind 7
//! reference conflict-questions [SEED]   prints questions of kind 8
//! reference run-questions [SEED]        prints questions of kind 9
//! reference permitted-questions [SEED]  prints questions of kind 10
//! reference answers                     questions on stdin, answers on stdout
//! reference listing-words SEED COUNT    prints raw words for the lister
//! ```

pub mod access;
pub mod bits;
pub mod cases;
pub mod conflict_questions;
pub mod counter;
pub mod decode;
pub mod encode;
pub mod expand;
pub mod index_unit;
pub mod instruction;
pub mod layout;
pub mod lister;
pub mod machine;
pub mod narrow;
pub mod once;
pub mod operations;
pub mod permission_question;
pub mod permission_questions;
pub mod question;
pub mod questions;
pub mod random;
pub mod rearrangement;
pub mod refusal;
pub mod roles;
pub mod run;
pub mod run_question;
pub mod run_questions;
pub mod samples;
pub mod setting;
pub mod start;
pub mod step;
pub mod step_question;
pub mod step_questions;
pub mod stretches;
pub mod text;
pub mod touch;
pub mod values;
