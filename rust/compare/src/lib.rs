//! A second annotator of half-motif clauses, written by hand from the papers
//! `01-scope.md` ("01") and `02-change-requests.md` ("02"), requests 1 to 5, and apart from the
//! proved one. It is the reference of the differential test and the yardstick of the benchmark,
//! so it is fast: goal sets are `u32`, variable sets `u64`, nothing is allocated, a record is
//! decoded once a call.
//! With the feature `proved` the proved one can be asked the same questions.
//!
//! ```
//! // 01's whole case, 67 bytes.
//! let mut record = b"LFJ\x00\x01\x03\x03\x02\0\0\0\0\0\0\0\x03\0\0\0\0\0\0\0\0".to_vec();
//! for (variables, text) in [(1u64, "half"), (6, "edge"), (5, "join")] {
//!     record.extend(variables.to_be_bytes());
//!     record.push(text.len() as u8);
//!     record.extend(text.bytes());
//! }
//! record.extend([0, 1, 0, 2]);
//! let mut out = [0; 160];
//! let length = compare::form(&record, &mut out).unwrap();
//! assert_eq!(&out[..length as usize], b"(1&2),3");
//! ```
#![forbid(unsafe_code)]

pub mod about;
#[cfg(feature = "proved")]
pub mod arrays;
pub mod build;
pub mod cases;
mod dispatch;
mod expression;
mod form;
pub mod generate;
pub mod kit;
mod mel;
mod numbers;
mod order;
#[cfg(feature = "proved")]
pub mod proved;
mod record;
pub mod serve;
mod sheet;
pub mod states;

pub use dispatch::{HEAD_LIMIT, Head, heaviest};
pub use expression::{TEXT_LIMIT, Verdict};
pub use form::FORM_LIMIT;
pub use order::{Closed, Order};
pub use record::{GOAL_LIMIT, GOAL_TEXT_LIMIT, TICK_LIMIT};
pub use sheet::{INPUT_LIMIT, MEL_LIMIT, sheet};

use record::Clause;

/// An operation turned its input down: the papers' number and place; 13 also has its four goals.
#[derive(Clone, Copy, PartialEq, Eq, Debug)]
pub struct Refusal {
    pub number: u8,
    pub place: u32,
    pub goals: [u8; 4],
}

impl Refusal {
    pub(crate) fn at(number: u8, place: usize) -> Refusal {
        Refusal { number, place: place as u32, goals: [0; 4] }
    }
}

/// Reads the record: its goal count, or one of the refusals 1 to 11, 18 and 19.
#[inline(never)]
pub fn read(bytes: &[u8]) -> Result<u32, Refusal> {
    record::scan(bytes, |_| (), |_, _| ()).map(|header| header.goals as u32)
}

/// Who waits for whom, before closure: row i - 1 has the goals that wait for goal i.
#[inline(never)]
pub fn waits(bytes: &[u8]) -> Result<Order, Refusal> {
    Clause::read(bytes).map(|clause| order::waits(&clause))
}

/// The record's order, row i - 1 has the goals that goal i is before, and the passes to it.
#[inline(never)]
pub fn order(bytes: &[u8]) -> Result<Closed, Refusal> {
    Clause::read(bytes).map(|clause| order::after(&clause))
}

/// How many passes close the waits, the one that adds none counted: 1 to 6.
#[inline(never)]
pub fn passes(bytes: &[u8]) -> Result<u32, Refusal> {
    Clause::read(bytes).map(|clause| order::after(&clause).passes)
}

/// The goals that `goal` is before, goal g at bit g - 1; 14 for a goal outside the record.
#[inline(never)]
pub fn after(bytes: &[u8], goal: u32) -> Result<u32, Refusal> {
    let clause = Clause::read(bytes)?;
    if goal == 0 || goal as usize > clause.goals {
        return Err(Refusal::at(14, 0));
    }
    Ok(order::after_goal(&clause, goal as usize - 1))
}

/// Writes the fork-join expression into the first bytes of `out`: its length, or 13, 12.
#[inline(never)]
pub fn form(bytes: &[u8], out: &mut [u8]) -> Result<u32, Refusal> {
    form::write(&order::after(&Clause::read(bytes)?).order, out)
}

/// The length of the fork-join expression, or 13.
#[inline(never)]
pub fn form_length(bytes: &[u8]) -> Result<u32, Refusal> {
    form::length(&order::after(&Clause::read(bytes)?).order)
}

/// Writes the MEL annotation into the first bytes of `out`: its length, or 12.
#[inline(never)]
pub fn mel(bytes: &[u8], out: &mut [u8]) -> Result<u32, Refusal> {
    mel::write(&Clause::read(bytes)?, out)
}

/// Where a goal's text stands in the record: its place and length, or 14.
#[inline(never)]
pub fn goal_text(bytes: &[u8], goal: u32) -> Result<(u32, u32), Refusal> {
    let mut found = (0, 0);
    let header = record::scan(
        bytes,
        |met| {
            if met.number as u32 + 1 == goal {
                found = (met.text as u32, met.length as u32);
            }
        },
        |_, _| (),
    )?;
    if goal == 0 || goal as usize > header.goals {
        return Err(Refusal::at(14, 0));
    }
    Ok(found)
}

/// Holds an expression against the record's order, or turns its text down by 15 to 17.
#[inline(never)]
pub fn check(bytes: &[u8], text: &[u8]) -> Result<Verdict, Refusal> {
    let clause = Clause::read(bytes)?;
    let stated = expression::read(text, clause.goals)?;
    Ok(expression::compare(&stated, &order::before(&clause)))
}

/// Makes all heads of the row idle, and answers the empty set of ended goals; or 20.
#[inline(never)]
pub fn start(bytes: &[u8], heads: &mut [Head]) -> Result<u32, Refusal> {
    dispatch::start(bytes, heads)
}

/// One tick: idle heads take goals, then busy heads work. Answers the ended goals, goal g at bit
/// g - 1, or 20.
#[inline(never)]
pub fn tick(bytes: &[u8], heads: &mut [Head], ended: u32) -> Result<u32, Refusal> {
    dispatch::tick(bytes, heads, ended)
}

/// The ticks of each goal; places behind the last one have 0.
pub fn ticks(bytes: &[u8]) -> Result<[u32; GOAL_LIMIT], Refusal> {
    dispatch::ticks(bytes)
}
