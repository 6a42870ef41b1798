//! The dispatcher: a clause run on 1 to 8 heads, one tick a call.
//!
//! The caller lends a row of heads, passes the set of ended goals (goal g at bit g - 1) and gets
//! it back. In a tick every idle head, lowest first, takes the lowest goal, neither ended nor on
//! a head, whose predecessors have all ended; then every busy head works one tick, and at 0 left
//! its goal has ended and the head is idle. Clauses without a form are dispatched too.
//!
//! [`start`] and [`tick`] are proved; they are a library of their own, `liblfj_dispatch.a`.
//! [`Run`] keeps the row and the set from a start to the end.
//!
//! ```
//! use lfj::dispatch::{Head, start, tick};
//! # use lfj::Clause;
//! # let clause = Clause::new(2).head([0, 1]).goal_with_facts("half", [0], [], 2);
//! # let clause = clause.goal_with_facts("edge", [1], [], 1).goal_with_facts("join", [0, 1], [], 1);
//! # let record = clause.independent(0, 1).record()?;
//! // Goals 1 and 2, of 2 ticks and 1, then goal 3.
//! let mut heads = [Head::IDLE; 2];
//! let mut ended = start(&record, &mut heads)?;
//! ended = tick(&record, &mut heads, ended)?;
//! assert_eq!((heads, ended), ([Head { goal: 1, left: 1 }, Head::IDLE], 0b010));
//! ended = tick(&record, &mut heads, ended)?;
//! assert_eq!((heads, ended), ([Head::IDLE; 2], 0b011));
//! # Ok::<(), lfj::ClauseError>(())
//! ```

use crate::{Kind, Order, Refusal, accepted, c, members};

/// The most heads of a row; the least is 1.
pub const HEADS_LIMIT: usize = 8;

/// A head: its goal, and the ticks that the goal still has. An idle head has zeros.
#[repr(C)]
#[derive(Clone, Copy, PartialEq, Eq, Debug, Default)]
pub struct Head {
    /// From 1; 0 on an idle head.
    pub goal: u32,
    /// The ticks left, 1 to the goal's; 0 on an idle head.
    pub left: u32,
}

// The layout that the library has.
const _: () = assert!(size_of::<Head>() == 8 && align_of::<Head>() == 4);
const _: () = assert!(std::mem::offset_of!(Head, goal) == 0);
const _: () = assert!(std::mem::offset_of!(Head, left) == 4);

impl Head {
    /// An idle head.
    pub const IDLE: Head = Head { goal: 0, left: 0 };

    /// Has the head no goal?
    pub fn is_idle(&self) -> bool {
        self.goal == 0
    }
}

/// A start: makes all heads idle, whatever they held. The set of ended goals, which is empty.
///
/// Refusal 20 for a row of 0 or more than [`HEADS_LIMIT`] heads. A refused call leaves the row as
/// it was.
///
/// ```
/// use lfj::dispatch::{Head, start};
/// # let record = lfj::Clause::new(0).goal("a", []).record()?;
/// let mut heads = [Head { goal: 7, left: 9 }; 3];
/// assert_eq!(start(&record, &mut heads), Ok(0));
/// assert_eq!(heads, [Head::IDLE; 3]);
/// assert_eq!(start(&record, &mut []).unwrap_err().number, 20);
/// # Ok::<(), lfj::ClauseError>(())
/// ```
pub fn start(record: &[u8], heads: &mut [Head]) -> Result<u32, Refusal> {
    let (row, count) = (heads.as_mut_ptr(), heads.len());
    // SAFETY: neither slice's pointer is null; the record's bytes may be read, and the heads, which
    // are borrowed alone, written.
    let word = unsafe { c::lfj_start(record.as_ptr(), record.len(), row, count) };
    Ok(accepted(word)? as u32)
}

/// One tick, given the row and the set of ended goals that the start or the tick before left: the
/// set of ended goals after it. Once all goals have ended a tick changes nothing.
///
/// Refusal 20 for a row of 0 or more than [`HEADS_LIMIT`] heads; a head's goal above the goal
/// count, on two heads or ended; ticks left of 0 or above the goal's on a busy head, or not 0 on
/// an idle one; an ended goal above the goal count; or a busy or ended goal with a predecessor
/// that has not ended. A refused call leaves the row as it was, and has no set: the caller's still holds.
///
/// ```
/// use lfj::dispatch::{Head, tick};
/// # let record = lfj::Clause::new(0).goal("a", []).record()?;
/// // A clause of one goal, which has 1 tick.
/// let mut heads = [Head::IDLE];
/// assert_eq!(tick(&record, &mut heads, 0b0), Ok(0b1));
/// assert_eq!(tick(&record, &mut heads, 0b1), Ok(0b1));
/// let refusal = tick(&record, &mut heads, 0b10).unwrap_err();
/// assert_eq!((refusal.number, refusal.place), (20, 0));
/// # Ok::<(), lfj::ClauseError>(())
/// ```
pub fn tick(record: &[u8], heads: &mut [Head], ended: u32) -> Result<u32, Refusal> {
    let (row, count) = (heads.as_mut_ptr(), heads.len());
    // SAFETY: neither slice's pointer is null; the record's bytes may be read, and the heads, which
    // are borrowed alone, written.
    let word = unsafe { c::lfj_tick(record.as_ptr(), record.len(), row, count, ended) };
    Ok(accepted(word)? as u32)
}

/// A refusal of [`start`] or [`tick`] in words, with what was lent: which head or goal 20 is about.
/// The other refusals have the words of [`Refusal::words`].
///
/// ```
/// use lfj::dispatch::{Head, tick, words};
/// # let record = lfj::Clause::new(0).goal("a", []).record()?;
/// // A clause of one goal, which has 1 tick.
/// let mut heads = [Head::IDLE, Head { goal: 1, left: 2 }];
/// let refusal = tick(&record, &mut heads, 0).unwrap_err();
/// let said = "head 2 has 2 ticks left of goal 1; 1 to 1 is right (refusal 20)";
/// assert_eq!(words(&refusal, &record, &heads, 0), said);
/// # Ok::<(), lfj::ClauseError>(())
/// ```
pub fn words(refusal: &Refusal, record: &[u8], heads: &[Head], ended: u32) -> String {
    let fault = match (refusal.kind(), crate::order(record), crate::facts(record)) {
        (Kind::BadHeads, Ok(order), Ok(facts)) => fault(&order, &facts.ticks, heads, ended),
        _ => None,
    };
    fault.map_or_else(|| refusal.words(record), |fault| format!("{fault} (refusal 20)"))
}

/// The first thing of a row and a set that 20 turns down.
fn fault(order: &Order, ticks: &[u32], heads: &[Head], ended: u32) -> Option<String> {
    let goals = order.goals;
    if heads.is_empty() || heads.len() > HEADS_LIMIT {
        return Some(format!("the row has {} heads; 1 to {HEADS_LIMIT} is right", heads.len()));
    }
    let waits_for = |goal| (1..goal).find(|i| order.before(*i, goal) && ended >> (i - 1) & 1 == 0);
    for (Head { goal, left }, head) in heads.iter().zip(1..) {
        let other = (1..).zip(&heads[..head - 1]).find(|(_, other)| other.goal == *goal);
        let fault = match (*goal, other) {
            (0, _) if *left == 0 => continue,
            (0, _) => format!("is idle and has {left} ticks left; 0 is right"),
            (_, _) if *goal > goals => format!("has goal {goal}; the clause has {goals}"),
            (_, Some((other, _))) => format!("has goal {goal}, and so has head {other}"),
            (_, None) if ended >> (goal - 1) & 1 == 1 => {
                format!("has goal {goal}, which has ended")
            }
            (_, None) => match (ticks[*goal as usize - 1], waits_for(*goal)) {
                (most, _) if !(1..=most).contains(left) => {
                    format!("has {left} ticks left of goal {goal}; 1 to {most} is right")
                }
                (_, Some(before)) => {
                    format!("has goal {goal}, which waits for goal {before}, which has not ended")
                }
                _ => continue,
            },
        };
        return Some(format!("head {head} {fault}"));
    }
    members(ended).find_map(|goal| match waits_for(goal) {
        _ if goal > goals => Some(format!("goal {goal} has ended; the clause has {goals}")),
        Some(before) => {
            Some(format!("goal {goal} has ended, and goal {before}, for which it waits, has not"))
        }
        None => None,
    })
}

/// What the heads did in some ticks in a row, the same in each of them.
#[derive(Clone, PartialEq, Eq, Debug)]
pub struct Span {
    /// The first of the ticks; that after the start is 1.
    pub from: u32,
    /// How many ticks they are.
    pub ticks: u32,
    /// Of each head the goal that it worked at, 0 if it was idle.
    pub goals: Vec<u32>,
}

/// A run of a clause from a start, with the row of heads and the set of ended goals.
///
/// It is an iterator over the ticks, until all goals have ended: of each head the goal that it
/// worked at, 0 if it was idle.
///
/// ```
/// use lfj::dispatch::Run;
/// # use lfj::Clause;
/// # let clause = Clause::new(2).head([0, 1]).goal_with_facts("half", [0], [], 2);
/// # let clause = clause.goal_with_facts("edge", [1], [], 1).goal_with_facts("join", [0, 1], [], 1);
/// # let record = clause.independent(0, 1).record()?;
/// // Goals 1 and 2, of 2 ticks and 1, then goal 3 of 1 tick.
/// let mut run = Run::start(&record, 2)?;
/// assert_eq!(run.next(), Some(vec![1, 2]));
/// assert_eq!(run.next(), Some(vec![1, 0]));
/// assert_eq!(run.next(), Some(vec![3, 0]));
/// assert_eq!((run.next(), run.is_over(), run.ticks()), (None, true, 3));
/// assert_eq!((run.total_ticks(), run.chain_ticks(), run.bound()), (4, 3, 3));
/// # Ok::<(), lfj::ClauseError>(())
/// ```
#[derive(Clone, Debug)]
pub struct Run {
    record: Vec<u8>,
    heads: Vec<Head>,
    ended: u32,
    ticks: u32,
    /// The set of all goals.
    all: u32,
    total_ticks: u32,
    chain_ticks: u32,
    chain_goals: Vec<u32>,
}

impl Run {
    /// A start on so many heads.
    ///
    /// Refusal 20 if they are 0 or more than [`HEADS_LIMIT`].
    pub fn start(record: &[u8], heads: usize) -> Result<Run, Refusal> {
        // One head too many is refused like any number of them, and takes no room.
        let mut heads = vec![Head::IDLE; heads.min(HEADS_LIMIT + 1)];
        let ended = start(record, &mut heads)?;
        let (order, facts) = (crate::order(record)?, crate::facts(record)?);
        let (chain_goals, chain_ticks) = heaviest_chain(&order, &facts.ticks);
        Ok(Run {
            record: record.to_vec(),
            heads,
            ended,
            ticks: 0,
            all: u32::MAX >> (32 - order.goals),
            total_ticks: facts.ticks.iter().sum(),
            chain_ticks,
            chain_goals,
        })
    }

    /// The row of heads.
    pub fn heads(&self) -> &[Head] {
        &self.heads
    }

    /// The set of ended goals.
    pub fn ended(&self) -> u32 {
        self.ended
    }

    /// Have all goals ended?
    pub fn is_over(&self) -> bool {
        self.ended == self.all
    }

    /// The ticks since the start; of a run that is over T, the last working tick.
    pub fn ticks(&self) -> u32 {
        self.ticks
    }

    /// W, the ticks of all goals.
    pub fn total_ticks(&self) -> u32 {
        self.total_ticks
    }

    /// C, the ticks of the heaviest chain of goals, each waiting for the one before.
    pub fn chain_ticks(&self) -> u32 {
        self.chain_ticks
    }

    /// The goals of a heaviest chain, each before the next.
    pub fn chain_goals(&self) -> &[u32] {
        &self.chain_goals
    }

    /// T is at most this: with k heads k * T is at most W + (k - 1) * C.
    pub fn bound(&self) -> u32 {
        let heads = self.heads.len() as u32;
        (self.total_ticks + (heads - 1) * self.chain_ticks) / heads
    }

    /// Ticks until what a head does changes or the run is over: what the heads did in these ticks.
    ///
    /// The library is asked for two ticks of them at most. As long as no goal ends, a tick does no
    /// more than take one off the ticks left of every busy head, and the ticks between are passed
    /// over by taking them off at once.
    pub fn span(&mut self) -> Option<Span> {
        let from = self.ticks + 1;
        let ended = self.ended;
        let goals = self.next()?;
        if self.ended == ended {
            let busy = self.heads.iter_mut().filter(|head| !head.is_idle());
            let busy: Vec<&mut Head> = busy.collect();
            let least = busy.iter().map(|head| head.left).min().unwrap_or(1);
            busy.into_iter().for_each(|head| head.left -= least - 1);
            self.ticks += least - 1;
            self.next();
        }
        Some(Span { from, ticks: self.ticks + 1 - from, goals })
    }
}

impl Iterator for Run {
    type Item = Vec<u32>;

    fn next(&mut self) -> Option<Vec<u32>> {
        if self.is_over() {
            return None;
        }
        let before = self.heads.clone();
        let ended = tick(&self.record, &mut self.heads, self.ended);
        let ended = ended.expect("no tick of a run is refused");
        let goals = worked(&before, &self.heads, ended & !self.ended);
        self.ended = ended;
        self.ticks += 1;
        Some(goals)
    }
}

/// The goals of a row of heads as a set.
fn on_heads(heads: &[Head]) -> u32 {
    let busy = heads.iter().filter(|head| !head.is_idle());
    busy.fold(0, |set, head| set | 1 << (head.goal - 1))
}

/// What each head worked at in a tick, by the rows before and after it and the goals that ended in
/// it. The idle heads took the goals that are new, lowest to lowest.
fn worked(before: &[Head], after: &[Head], ended: u32) -> Vec<u32> {
    let mut taken = members((on_heads(after) | ended) & !on_heads(before));
    let goal = |head: &Head| if head.is_idle() { taken.next().unwrap_or(0) } else { head.goal };
    before.iter().map(goal).collect()
}

/// A heaviest chain of goals, the lowest from its end on, and its ticks.
fn heaviest_chain(order: &Order, ticks: &[u32]) -> (Vec<u32>, u32) {
    // Of each goal the heaviest chain that ends with it. A goal waits for lower numbers alone.
    let mut chains: Vec<(Vec<u32>, u32)> = Vec::new();
    for (goal, ticks) in (1..=order.goals).zip(ticks) {
        let before = (1..goal).rev().filter(|before| order.before(*before, goal));
        let before = before.map(|before| &chains[before as usize - 1]);
        let (mut chain, weight) =
            before.max_by_key(|(_, weight)| *weight).cloned().unwrap_or_default();
        chain.push(goal);
        chains.push((chain, weight + ticks));
    }
    chains.into_iter().rev().max_by_key(|(_, weight)| *weight).expect("a clause has a goal")
}
