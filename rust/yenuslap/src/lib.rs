//! Safe calls into the proved engine of a line setter's casebook; nothing is computed here that the engine can answer.
//!
//! Two machines, left and right, are tables; a log is a joint run of both; a question is a formula about a run. A
//! splitting of the log says what each machine did: two half runs. The quotient of the question by one half, the known
//! one, is what the question demands of the other.
//!
//! Everything is bytes as in document 01: a table is n and its rows, a joint run two start states and its steps, a half
//! run its state and its steps, a formula its nodes. A run stopped at a point has its first so many steps. Each call
//! takes any bytes at all, and either answers or gives a [`Refusal`], which is a number of document 01 or 02. Answers
//! are written to the front of an output that the caller lends; bytes past an answer keep their values, and when
//! refused all do. [`MOST_QUOTIENT`] and its like say how long an output need be.
//!
//! Case A of document 01: its two splittings, the quotient by each right half, and the left half's verdict under it,
//! which is the log's verdict.
//!
//! ```
//! use yenuslap::{count_splittings, half_verdict, joint_verdict, quotient, read_casebook, split};
//! use yenuslap::{Refusal, Side, MOST_HALF, MOST_QUOTIENT};
//!
//! fn main() -> Result<(), Refusal> {
//!     let bytes = [
//!         3, 0, 1, 0, 2, // k: two handshake pairs
//!         9, 0, 2, 0, 2, 0, 1, 1, 0, 3, 1, // left table
//!         9, 0, 3, 0, 2, 0, 2, 1, 0, 4, 1, // right table
//!         7, 0, 4, 0, 0, 0, 0, 1, 1, // joint run: one silent step
//!         6, 0, 5, 0, 6, 0, 0, 0, // question: back by 0 over true
//!     ];
//!     let case = read_casebook(&bytes)?;
//!     let (k, left, right) = (case.k, case.left, case.right);
//!     let point = 1;
//!     let log_holds = joint_verdict(k, left, right, case.run, case.question, point)?;
//!     assert!(log_holds);
//!
//!     let count = count_splittings(k, left, right, case.run)?;
//!     assert_eq!(count, 2);
//!     let expected = [[6, 1, 0, 0], [6, 3, 0, 0]];
//!     for number in 0..count {
//!         let (mut left_out, mut right_out) = ([0; MOST_HALF], [0; MOST_HALF]);
//!         let length = split(k, left, right, case.run, number, &mut left_out, &mut right_out)?;
//!         let (left_half, right_half) = (&left_out[..length], &right_out[..length]);
//!
//!         let mut out = [0; MOST_QUOTIENT];
//!         let question = case.question;
//!         let length = quotient(
//!             k, left, right, left_half, right_half, question, Side::Right, point, &mut out,
//!         )?;
//!         let demanded = &out[..length];
//!         assert_eq!(demanded, expected[number]);
//!
//!         let half_holds = half_verdict(k, left, left_half, demanded, point)?;
//!         assert_eq!(half_holds, log_holds);
//!     }
//!     Ok(())
//! }
//! ```
//!
//! The calls by what they do:
//!
//! | for | calls |
//! |---|---|
//! | casebooks | [`read_casebook`], [`write_casebook`] |
//! | verdicts | [`joint_verdict`], [`half_verdict`] |
//! | splittings | [`count_splittings`], [`split`], [`join`] |
//! | quotients | [`quotient`], [`quotient_of_splitting`], [`line_office`], [`cut`] |
//! | sheets | [`sheet_lines`] |
//! | tables from and for other tools | [`read_aldebaran`], [`write_aldebaran`] |
//!
//! [`bare`] has the same calls with the engine's numbers as they come.
//!
//! A call works on the stack of its thread. The most that was measured, on x86-64, is 1.1 MiB for [`sheet_lines`] and
//! 0.6 MiB for a verdict on a formula of 4,096 nodes; [`read_aldebaran`] takes under 200 KiB.

#![warn(missing_docs)]

mod aldebaran;
pub mod bare;
mod casebook;
mod cut;
mod lengths;
mod quotient;
mod refusal;
mod sheet;
mod splitting;
mod verdict;

pub use aldebaran::{read_aldebaran, write_aldebaran, TableOfText};
pub use casebook::{read_casebook, write_casebook, Casebook};
pub use cut::{cut, Side};
pub use lengths::{
    MOST_CASEBOOK, MOST_HALF, MOST_LINE, MOST_QUOTIENT, MOST_RUN, MOST_TABLE, MOST_TEXT,
};
pub use quotient::{line_office, quotient, quotient_of_splitting, Verdicts};
pub use refusal::Refusal;
pub use sheet::{sheet_lines, Lines};
pub use splitting::{count_splittings, join, split};
pub use verdict::{half_verdict, joint_verdict};
