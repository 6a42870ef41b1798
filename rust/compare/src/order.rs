//! The waiting order.
//!
//! Two goals are judged by the ground set at the earlier one, i. With a the variables of goal i
//! that are not ground there, a later goal j is independent of it exactly if its variables that
//! are not ground there lie in the meet, over all x in a, of the variables listed with x: no
//! variable is listed with itself, so a shared one that is not ground falls out too. So goal i
//! has one set of variables that tie a later goal to it, found once for all of them.

use crate::numbers::Members;
use crate::record::{Clause, GOAL_LIMIT};

/// An order on goals 1 to `goals`: row i - 1 holds goal j at bit j - 1. Later rows are 0.
#[derive(Clone, PartialEq, Eq, Debug)]
pub struct Order {
    pub goals: usize,
    pub rows: [u32; GOAL_LIMIT],
}

/// An order, and how many passes close the waits to it (02, 5).
#[derive(Clone, PartialEq, Eq, Debug)]
pub struct Closed {
    pub order: Order,
    pub passes: u32,
}

/// The variables whose presence makes a later goal wait for this one.
#[inline(always)]
fn ties_of(clause: &Clause, goal: usize) -> u64 {
    let (set, ground) = (clause.sets[goal & 31], clause.grounds[goal & 31]);
    let mut independent = u64::MAX;
    for variable in Members(set & !ground) {
        independent &= clause.listed[variable];
        if independent == 0 {
            break;
        }
    }
    !(independent | ground)
}

/// The goals that wait for one of the set `left`, by a wait of their own: what ties a later goal
/// to one of several is in the union of their ties.
#[inline(always)]
pub fn waiting_for(clause: &Clause, left: u32) -> u32 {
    let (mut ties, mut found) = (0, 0);
    for goal in left.trailing_zeros() as usize..clause.goals {
        found |= ((clause.sets[goal & 31] & ties != 0) as u32) << goal;
        if left >> goal & 1 == 1 {
            ties |= ties_of(clause, goal);
        }
    }
    found
}

/// Each goal as a set.
const SINGLE: [u32; GOAL_LIMIT] = {
    let mut sets = [1; GOAL_LIMIT];
    let mut goal = 1;
    while goal < GOAL_LIMIT {
        sets[goal] = 2 * sets[goal - 1];
        goal += 1;
    }
    sets
};

/// For each goal from `from` on, numbered from 0, the goals that wait for it.
#[inline(always)]
fn waits_from(clause: &Clause, from: usize) -> [u32; GOAL_LIMIT] {
    let mut rows = [0; GOAL_LIMIT];
    // The goals that hold a variable of `ties`; often the next goal's ties are the same.
    let (mut ties, mut tied) = (0, 0);
    for goal in from..clause.goals {
        let own = ties_of(clause, goal);
        if own != ties {
            (ties, tied) = (own, 0);
            let later = goal + 1..clause.goals;
            for (set, single) in clause.sets[later.clone()].iter().zip(&SINGLE[later]) {
                tied |= if set & ties != 0 { *single } else { 0 };
            }
        }
        rows[goal & 31] = tied & (u32::MAX << goal << 1);
    }
    rows
}

pub fn waits(clause: &Clause) -> Order {
    Order { goals: clause.goals, rows: waits_from(clause, 0) }
}

/// For each goal the goals that it waits for.
#[inline(always)]
fn waited_for(clause: &Clause) -> [u32; GOAL_LIMIT] {
    // Neighbours with the same ties are asked as one.
    let (mut ties, mut tying, mut groups) = ([0; GOAL_LIMIT], [0; GOAL_LIMIT], 0);
    let mut rows = [0; GOAL_LIMIT];
    for goal in 0..clause.goals {
        let set = clause.sets[goal & 31];
        let mut row = 0;
        for group in 0..groups {
            row |= if ties[group & 31] & set != 0 { tying[group & 31] } else { 0 };
        }
        rows[goal & 31] = row;
        let own = ties_of(clause, goal);
        if groups == 0 || ties[(groups - 1) & 31] != own {
            ties[groups & 31] = own;
            groups += 1;
        }
        tying[(groups - 1) & 31] |= 1 << goal;
    }
    rows
}

/// Closes the rows of so many goals in passes, each adding what a chain of two standing at its
/// start gives, up to the first that adds nothing; gives their number. The rows lead to higher
/// goals if `UP`, else to lower ones.
///
/// Three laws of graphs spare work. What is added to a row stands in that of a goal on its side.
/// A row to which a pass adds nothing holds all that chains of any length lead to: no later pass
/// adds to it, and whoever has its goal need not ask those in it. And what a pass adds, but for the
/// first, is behind a goal that the pass before added: the one half-way on a shortest chain.
#[inline(always)]
fn close<const UP: bool>(rows: &mut [u32; GOAL_LIMIT], goals: usize) -> u32 {
    let (leading, mut open) = open_rows::<UP>(rows, goals);
    let mut added = [0; GOAL_LIMIT];
    let mut passes = 1;
    loop {
        let mut asked = open;
        while asked != 0 {
            let goal = end::<UP>(asked);
            asked ^= 1 << goal;
            let through = if passes == 1 { rows[goal] } else { added[goal] };
            added[goal] = behind::<UP>(rows, through & leading, open) & !rows[goal];
            open ^= ((added[goal] == 0) as u32) << goal;
        }
        if open == 0 {
            return passes;
        }
        for goal in Members(open as u64) {
            rows[goal] |= added[goal];
        }
        passes += 1;
    }
}

/// The goals that lead to another one, and those of them to whose row something may be added.
#[inline(always)]
fn open_rows<const UP: bool>(rows: &[u32; GOAL_LIMIT], goals: usize) -> (u32, u32) {
    let (mut leading, mut open, mut reached) = (0, 0, 0);
    for step in 0..goals {
        let goal = if UP { goals - 1 - step } else { step };
        let row = rows[goal & 31];
        leading |= ((row != 0) as u32) << goal;
        open |= ((row != 0 && reached & !row != 0) as u32) << goal;
        reached |= row;
    }
    (leading, open)
}

/// What the rows of these goals hold; a row that is not open holds those of the goals in it.
#[inline(always)]
fn behind<const UP: bool>(rows: &[u32; GOAL_LIMIT], mut goals: u32, open: u32) -> u32 {
    let mut sum = 0;
    while goals != 0 {
        let goal = start::<UP>(goals);
        let closed = (open >> goal & 1).wrapping_sub(1);
        goals &= !(1 << goal | rows[goal] & closed);
        sum |= rows[goal];
    }
    sum
}

/// Of a set of goals that is not empty the one where rows that lead `UP`, or down, begin.
#[inline(always)]
fn start<const UP: bool>(set: u32) -> usize {
    if UP { set.trailing_zeros() as usize } else { 31 - set.leading_zeros() as usize }
}

#[inline(always)]
fn end<const UP: bool>(set: u32) -> usize {
    if UP { start::<false>(set) } else { start::<true>(set) }
}

/// For each goal the goals that it is before.
#[inline(always)]
pub fn after(clause: &Clause) -> Closed {
    let mut rows = waits_from(clause, 0);
    let passes = close::<true>(&mut rows, clause.goals);
    Closed { order: Order { goals: clause.goals, rows }, passes }
}

/// The goals that one goal is before: goals left of it do not matter.
#[inline(always)]
pub fn after_goal(clause: &Clause, goal: usize) -> u32 {
    let mut rows = waits_from(clause, goal);
    close::<true>(&mut rows, clause.goals);
    rows[goal & 31]
}

/// For each goal the goals before it.
#[inline(always)]
pub fn before(clause: &Clause) -> [u32; GOAL_LIMIT] {
    let mut rows = waited_for(clause);
    close::<false>(&mut rows, clause.goals);
    rows
}
