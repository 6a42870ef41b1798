//! The proved annotator of half-motif clauses, for Rust.
//!
//! A record, the bytes that describe a clause, goes in; out come the goals' order, the
//! fork-join expression without loss of parallelism, the MEL annotation, a goal's text, or
//! the verdict on an expression. What is turned down comes back as a [`Refusal`], which
//! says in words what was refused and where. The code behind these functions is proved;
//! this crate only lends it slices, which is all that the proof asks of a caller.
//!
//! ```
//! use lfj::{Clause, Verdict};
//!
//! # fn main() -> Result<(), lfj::ClauseError> {
//! // Three goals: `half` over v0, `edge` over v1 and v2, `join` over v0 and v2.
//! // v0 and v1, v0 and v2 are known to be independent.
//! let clause = Clause::new(3).head([0, 1]);
//! let clause = clause.goal("half", [0]).goal("edge", [1, 2]).goal("join", [0, 2]);
//! let record = clause.independent(0, 1).independent(0, 2).record()?;
//!
//! assert_eq!(lfj::read(&record)?, 3);
//! assert_eq!(lfj::form_text(&record)?, "(1&2),3");
//! assert_eq!(lfj::mel_text(&record)?, "(1&2),3");
//! assert_eq!(lfj::goal_text(&record, 2)?, b"edge");
//! assert_eq!(lfj::check(&record, b"(2&1),3")?, Verdict::Same);
//! # Ok(())
//! # }
//! ```
//!
//! [`Clause`] puts records together and takes them apart, [`Expr`] is an expression as a tree.
//! Errors have the words of `Display` for `Debug` too, so that a program prints them well from
//! `main`:
//!
//! ```should_panic
//! fn main() -> Result<(), lfj::Refusal> {
//!     let form = lfj::form_text(b"LFJ")?;
//!     println!("{form}"); // Error: the record has 3 bytes, fewer than the 24 of its header (refusal 1)
//!     Ok(())
//! }
//! ```
//!
//! A record of version 2 says for each goal which variables are ground just left of it, and its
//! ticks. Two goals are judged by the ground set at the earlier one.
//!
//! [`dispatch`] runs a clause on several heads, tick by tick.

pub mod c;
mod clause;
pub mod dispatch;
mod expr;
mod facts;
mod refusal;

pub use clause::{Clause, ClauseError, Goal};
pub use expr::{Expr, ExprError, TEXT_LIMIT};
pub use facts::{Facts, Order};
pub use refusal::{Kind, Refusal};

/// No record that is accepted is longer, in bytes.
pub const RECORD_LIMIT: usize = 1910;

/// The most goals of a clause.
pub const GOAL_LIMIT: usize = 32;

/// The most variables of a clause.
pub const VARIABLE_LIMIT: usize = 64;

/// The longest text of a goal, in bytes.
pub const GOAL_TEXT_LIMIT: usize = 24;

/// The most ticks of a goal; the least is 1.
pub const TICK_LIMIT: u16 = 60_000;

/// The most passes that close the waits of a clause; the least is 1.
pub const PASS_LIMIT: u32 = 6;

/// The longest fork-join expression in house form, in bytes.
pub const FORM_LIMIT: usize = 146;

/// No MEL annotation is longer, in bytes.
pub const MEL_LIMIT: usize = 197_162;

/// What [`check`] says of an expression.
#[derive(Clone, Copy, PartialEq, Eq, Hash, Debug)]
pub enum Verdict {
    /// It has the record's order.
    Same,
    /// The first i, then j, for which just one of the two orders has goal i before goal j.
    Differs(u8, u8),
}

/// An answer word: accepted, or the refusal in it.
#[inline(always)]
fn accepted(word: u64) -> Result<u64, Refusal> {
    if word >> 56 == 0 { Ok(word) } else { Err(Refusal::of(word)) }
}

/// Reads a record: its goal count.
///
/// Of version 1 or 2. Refusals 1 to 11, and 18 and 19 for the facts at a version 2 goal; every
/// other operation has them too.
///
/// ```
/// let refusal = lfj::read(b"no record at all, 31 bytes long").unwrap_err();
/// assert_eq!(refusal.to_string(), "the record does not start with the letters LFJ (refusal 2)");
/// ```
#[inline]
pub fn read(record: &[u8]) -> Result<u32, Refusal> {
    // SAFETY: a slice's pointer is not null and its bytes may be read.
    let word = unsafe { c::lfj_read(record.as_ptr(), record.len()) };
    Ok(accepted(word)? as u32)
}

/// The set of goals that `goal` is before: goal g at bit g - 1.
///
/// Refusal 14 for a goal outside the record. [`members`] lists a set.
///
/// ```
/// # let record = b"LFJ\0\x01\x03\x01\0\0\0\0\0\0\0\0\x01\0\0\0\0\0\0\0\0\
/// #     \0\0\0\0\0\0\0\x01\x01a\0\0\0\0\0\0\0\0\x01b\0\0\0\0\0\0\0\x01\x01c";
/// // Goals `a` over v0, `b` over nothing, `c` over v0.
/// assert_eq!(lfj::after(record, 1), Ok(0b100));
/// assert!(lfj::members(0b100).eq([3]));
/// assert_eq!(lfj::after(record, 4).unwrap_err().number, 14);
/// ```
#[inline]
pub fn after(record: &[u8], goal: u32) -> Result<u32, Refusal> {
    // SAFETY: a slice's pointer is not null and its bytes may be read.
    let word = unsafe { c::lfj_after(record.as_ptr(), record.len(), goal) };
    Ok(accepted(word)? as u32)
}

/// The whole order in one answer.
///
/// ```
/// # let record = b"LFJ\0\x01\x03\x01\0\0\0\0\0\0\0\0\x01\0\0\0\0\0\0\0\0\
/// #     \0\0\0\0\0\0\0\x01\x01a\0\0\0\0\0\0\0\0\x01b\0\0\0\0\0\0\0\x01\x01c";
/// // Goals `a` over v0, `b` over nothing, `c` over v0.
/// let order = lfj::order(record)?;
/// assert_eq!(order.goals, 3);
/// assert!(order.before(1, 3) && !order.before(1, 2) && !order.before(3, 1));
/// # Ok::<(), lfj::Refusal>(())
/// ```
#[inline]
pub fn order(record: &[u8]) -> Result<Order, Refusal> {
    let mut rows = [0; GOAL_LIMIT];
    // SAFETY: a slice's pointer is not null and its bytes may be read; `rows` is ours.
    let word = unsafe { c::lfj_order(record.as_ptr(), record.len(), &mut rows) };
    Ok(Order { goals: accepted(word)? as u32, rows })
}

/// How many passes close the waits to the [`order`]: 1 to [`PASS_LIMIT`].
///
/// A pass adds exactly those waits that a chain of two waits standing at its start gives. The last
/// one adds none, and counts; so the number is 1 exactly if the waits were closed already.
///
/// ```
/// // Each goal waits for the one before it: by v0, by v1, by v2.
/// let clause = lfj::Clause::new(3).goal("a", [0]).goal("b", [0, 1]).goal("c", [1, 2]);
/// let clause = clause.goal("d", [2]).independent(0, 1).independent(0, 2).independent(1, 2);
/// // The first pass adds 1-3 and 2-4, the second 1-4, the third nothing.
/// assert_eq!(lfj::passes(&clause.record()?)?, 3);
/// # Ok::<(), lfj::ClauseError>(())
/// ```
#[inline]
pub fn passes(record: &[u8]) -> Result<u32, Refusal> {
    // SAFETY: a slice's pointer is not null and its bytes may be read.
    let word = unsafe { c::lfj_passes(record.as_ptr(), record.len()) };
    Ok(accepted(word)? as u32)
}

/// The facts of a record in one answer.
///
/// ```
/// let clause = lfj::Clause::new(2).head([0, 1]).goal_with_facts("half", [0], [], 40);
/// let record = clause.goal_with_facts("join", [0, 1], [0], 900).independent(0, 1).record()?;
/// let facts = lfj::facts(&record)?;
/// assert_eq!((facts.goals, facts.variables, facts.head), (2, 2, 0b11));
/// assert_eq!(facts.sets[..2], [0b01, 0b11]);
/// assert_eq!(facts.ground[..2], [0b00, 0b01]);
/// assert_eq!(facts.ticks[..2], [40, 900]);
/// assert_eq!(facts.listed[..2], [0b10, 0b01]);
/// # Ok::<(), lfj::ClauseError>(())
/// ```
pub fn facts(record: &[u8]) -> Result<Facts, Refusal> {
    let mut facts = Facts::NONE;
    let (place, length) = (record.as_ptr(), record.len());
    // SAFETY: a slice's pointer is not null and its bytes may be read; `facts` is ours.
    unsafe {
        facts.variables = accepted(c::lfj_head(place, length, &mut facts.head))? as u32;
        facts.goals = accepted(c::lfj_goal_sets(place, length, &mut facts.sets))? as u32;
        accepted(c::lfj_ground_sets(place, length, &mut facts.ground))?;
        accepted(c::lfj_ticks(place, length, &mut facts.ticks))?;
        accepted(c::lfj_listed(place, length, &mut facts.listed))?;
    }
    Ok(facts)
}

/// The version of the library that is linked: 10500 for 1.5.0.
pub fn version() -> u32 {
    // SAFETY: it takes nothing and only answers.
    unsafe { c::lfj_version() }
}

/// The goals of a set, lowest first.
pub fn members(set: u32) -> impl Iterator<Item = u32> {
    (1..=32).filter(move |goal| set >> (goal - 1) & 1 == 1)
}

/// The variables of a set, lowest first.
///
/// ```
/// assert!(lfj::variables(0b1010).eq([1, 3]));
/// ```
pub fn variables(set: u64) -> impl Iterator<Item = u8> {
    (0..64).filter(move |variable| set >> variable & 1 == 1)
}

/// The set of these variables, variable x at bit x.
///
/// ```
/// assert_eq!(lfj::variable_set([1, 3]), 0b1010);
/// ```
///
/// # Panics
///
/// If a variable is above 63: no set can hold it.
pub fn variable_set(variables: impl IntoIterator<Item = u8>) -> u64 {
    variables.into_iter().fold(0, |set, variable| {
        assert!(variable < 64, "a set has the variables 0 to 63, and {variable} is none of them");
        set | 1 << variable
    })
}

/// Writes the fork-join expression into the first bytes of `out`: its length. The other
/// bytes stay. [`FORM_LIMIT`] bytes are always enough.
///
/// Refusal 13 if no expression has the clause's order, then 12 if `out` is too short.
///
/// ```
/// # let record = b"LFJ\0\x01\x03\x01\0\0\0\0\0\0\0\0\x01\0\0\0\0\0\0\0\0\
/// #     \0\0\0\0\0\0\0\x01\x01a\0\0\0\0\0\0\0\0\x01b\0\0\0\0\0\0\0\x01\x01c";
/// // Goals `a` over v0, `b` over nothing, `c` over v0.
/// let mut out = [b'.'; 10];
/// assert_eq!(lfj::form(record, &mut out), Ok(7));
/// assert_eq!(&out, b"(1,3)&2...");
/// let refusal = lfj::form(record, &mut out[..5]).unwrap_err();
/// assert_eq!((refusal.number, refusal.place), (12, 7));
/// ```
#[inline]
pub fn form(record: &[u8], out: &mut [u8]) -> Result<usize, Refusal> {
    // SAFETY: neither pointer is null, the bytes may be read and those of `out` written,
    // and a `&mut` overlaps nothing.
    let word = unsafe { c::lfj_form(record.as_ptr(), record.len(), out.as_mut_ptr(), out.len()) };
    Ok(accepted(word)? as u32 as usize)
}

/// The fork-join expression as a `String`. Refusal 13, as with [`form`].
pub fn form_text(record: &[u8]) -> Result<String, Refusal> {
    let mut out = [0; FORM_LIMIT];
    let length = form(record, &mut out)?;
    Ok(out[..length].iter().map(|byte| *byte as char).collect())
}

/// The fork-join expression as a tree. Refusal 13, as with [`form`].
///
/// ```
/// # let record = b"LFJ\0\x01\x03\x01\0\0\0\0\0\0\0\0\x01\0\0\0\0\0\0\0\0\
/// #     \0\0\0\0\0\0\0\x01\x01a\0\0\0\0\0\0\0\0\x01b\0\0\0\0\0\0\0\x01\x01c";
/// use lfj::Expr::{Goal, Parallel, Sequence};
/// // Goals `a` over v0, `b` over nothing, `c` over v0: the form is (1,3)&2.
/// let tree = lfj::form_tree(record)?;
/// assert_eq!(tree, Parallel(vec![Sequence(vec![Goal(1), Goal(3)]), Goal(2)]));
/// # Ok::<(), lfj::Refusal>(())
/// ```
pub fn form_tree(record: &[u8]) -> Result<Expr, Refusal> {
    Ok(form_text(record)?.parse().expect("a form is in the grammar"))
}

/// The length of the fork-join expression: a buffer of so many bytes suffices for [`form`], and
/// one byte less never does.
///
/// Refusal 13, as with [`form`].
///
/// ```
/// # let record = b"LFJ\0\x01\x03\x01\0\0\0\0\0\0\0\0\x01\0\0\0\0\0\0\0\0\
/// #     \0\0\0\0\0\0\0\x01\x01a\0\0\0\0\0\0\0\0\x01b\0\0\0\0\0\0\0\x01\x01c";
/// let mut out = vec![0; lfj::form_length(record)?];
/// lfj::form(record, &mut out)?;
/// assert_eq!(out, b"(1,3)&2");
/// # Ok::<(), lfj::Refusal>(())
/// ```
#[inline]
pub fn form_length(record: &[u8]) -> Result<usize, Refusal> {
    // SAFETY: a slice's pointer is not null and its bytes may be read.
    let word = unsafe { c::lfj_form_length(record.as_ptr(), record.len()) };
    Ok(accepted(word)? as u32 as usize)
}

/// Writes the MEL annotation into the first bytes of `out`: its length. The other bytes
/// stay.
///
/// Refusal 12 if `out` is too short; its place is the length needed.
///
/// ```
/// # let record = b"LFJ\0\x01\x02\x01\0\0\0\0\0\0\0\0\x01\0\0\0\0\0\0\0\0\
/// #     \0\0\0\0\0\0\0\x01\x01a\0\0\0\0\0\0\0\x01\x01b";
/// // Goals `a` and `b`, both over v0, which is in the head.
/// let needed = lfj::mel(record, &mut []).unwrap_err().place;
/// let mut out = vec![0; needed as usize];
/// assert_eq!(lfj::mel(record, &mut out), Ok(17));
/// assert_eq!(out, b"(ground(v0)=>1&2)");
/// ```
#[inline]
pub fn mel(record: &[u8], out: &mut [u8]) -> Result<usize, Refusal> {
    // SAFETY: neither pointer is null, the bytes may be read and those of `out` written,
    // and a `&mut` overlaps nothing.
    let word = unsafe { c::lfj_mel(record.as_ptr(), record.len(), out.as_mut_ptr(), out.len()) };
    Ok(accepted(word)? as u32 as usize)
}

/// The MEL annotation as a `String`, however long it is.
pub fn mel_text(record: &[u8]) -> Result<String, Refusal> {
    let mut out = vec![0; 512];
    let length = match mel(record, &mut out) {
        Err(refusal) if refusal.number == 12 => {
            out = vec![0; refusal.place as usize];
            mel(record, &mut out)?
        }
        answer => answer?,
    };
    Ok(out[..length].iter().map(|byte| *byte as char).collect())
}

/// A goal's text: the part of the lent record that holds it.
///
/// Refusal 14 for a goal outside the record.
///
/// ```
/// # let record = b"LFJ\0\x01\x02\x01\0\0\0\0\0\0\0\0\x01\0\0\0\0\0\0\0\0\
/// #     \0\0\0\0\0\0\0\x01\x04half\0\0\0\0\0\0\0\x01\x04edge";
/// assert_eq!(lfj::goal_text(record, 2), Ok(&b"edge"[..]));
/// assert_eq!(lfj::goal_text(record, 0).unwrap_err().number, 14);
/// ```
#[inline]
pub fn goal_text(record: &[u8], goal: u32) -> Result<&[u8], Refusal> {
    // SAFETY: a slice's pointer is not null and its bytes may be read.
    let word = unsafe { c::lfj_goal_text(record.as_ptr(), record.len(), goal) };
    let word = accepted(word)?;
    let (place, length) = (word as u32 as usize, (word >> 32 & 0xffff) as usize);
    Ok(&record[place..place + length])
}

/// Holds an expression against the record's order.
///
/// Refusal 15 for a text that is empty or above 512 bytes, 16 if it is not in the grammar,
/// 17 if it does not use each goal exactly once.
///
/// ```
/// use lfj::Verdict;
/// # let record = b"LFJ\0\x01\x02\x01\0\0\0\0\0\0\0\0\x01\0\0\0\0\0\0\0\0\
/// #     \0\0\0\0\0\0\0\x01\x01a\0\0\0\0\0\0\0\x01\x01b";
/// // Goal 1 is before goal 2.
/// assert_eq!(lfj::check(record, b"((1)),2"), Ok(Verdict::Same));
/// assert_eq!(lfj::check(record, b"2&1"), Ok(Verdict::Differs(1, 2)));
/// let refusal = lfj::check(record, b"1,,2").unwrap_err();
/// assert_eq!((refusal.number, refusal.place), (16, 2));
/// ```
#[inline]
pub fn check(record: &[u8], text: &[u8]) -> Result<Verdict, Refusal> {
    // SAFETY: neither slice's pointer is null, and their bytes may be read.
    let word = unsafe { c::lfj_check(record.as_ptr(), record.len(), text.as_ptr(), text.len()) };
    Ok(match accepted(word)? {
        0 => Verdict::Same,
        word => Verdict::Differs(word as u8, (word >> 8) as u8),
    })
}
