//! Gauge-invariant states on a triangle complex and the Kogut-Susskind Hamiltonian on them, by the proved library of Zibrotka.
//!
//! ```
//! let sheet = zibrotka::Sheet::from_edges(3, &[[0, 1], [0, 2], [1, 2]], &[[0, 1, 2]], 1)?;
//! assert_eq!(sheet.states()?.state(2), [1, -1, 1]);
//! assert_eq!(sheet.hamiltonian(1.0, None)?.row(0), [1.5, -0.5, 0.0]);
//! assert_eq!(sheet.wilson(&sheet.loops()[0], &[1.0, 2.0, 3.0])?, 8.0);
//! # Ok::<(), zibrotka::Error>(())
//! ```
//!
//! A [`Sheet`] is a complex with a truncation that the library accepts. Its methods are the calls: those of U(1), and those of Z2, the
//! two-valued truncation of SU(2), whose names begin with `su2`. Lists are sized by the counting calls, so none is too short or too long.
//! What a call refuses, it refuses by one of 17 numbers ([`Refusal`]). Counts, places and the numbers of vertices, edges and triangles are
//! `usize`, values of a configuration `i32`, masks `u64`.
//!
//! [`calls`] has each exported call as it is, over lent slices. `unsafe` stands there alone. Nothing that safe Rust can write passes a
//! wrong length or lists that overlap: a slice carries its length, and what is written to is borrowed exclusively.
//!
//! A call that answers what the library's contract rules out panics. No input makes it do so. A library of another version than this
//! crate's is not called: the first call but `release` panics.

#![deny(unsafe_code)]
#![deny(missing_docs)]

#[allow(unsafe_code)]
pub mod calls;
mod error;
mod matrix;
mod mode;
mod refusal;
mod room;
mod sheet;
mod states;
mod su2;
mod told;
mod u1;

pub use error::{BreaksLaw, Error, Finding, ReadError, Unplaced};
pub use matrix::{Matrix, RowLists};
pub use refusal::Refusal;
pub use sheet::{Sheet, SpanningTree, Step};
pub use states::States;

use told::told_as;

/// The example of README.md is a test.
#[cfg(doctest)]
#[doc = include_str!("../README.md")]
struct Readme;

/// The library's sentence for the refusal with a number. Refuses 13 where none has it.
pub fn refusal_text(number: u64) -> Result<String, Refusal> {
    refusal::text(number)
}

/// The version of the library: 10000 times its first part, plus 100 times the second, plus the third.
pub fn release() -> u64 {
    calls::release()
}

/// The coupling of U(1) with its electric and its magnetic factor: g², g² / 2 and -1 / g². Refuses 14.
pub fn u1_params(g_squared: f64) -> Result<[f64; 3], Refusal> {
    let mut params = [0.0; 3];
    told_as(calls::u1_params(g_squared, &mut params), 0, &[14])?;
    Ok(params)
}

/// The same for Z2: g², (3 × g²) / 8 and -0.5 / g². Refuses 14.
pub fn su2_params(g_squared: f64) -> Result<[f64; 3], Refusal> {
    let mut params = [0.0; 3];
    told_as(calls::su2_params(g_squared, &mut params), 0, &[14])?;
    Ok(params)
}
