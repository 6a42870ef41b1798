//! The whole order, and the facts of a record, each in one answer.

use crate::{GOAL_LIMIT, VARIABLE_LIMIT};

/// The order of a clause's goals.
#[derive(Clone, Copy, PartialEq, Eq, Hash, Debug)]
pub struct Order {
    /// The goal count.
    pub goals: u32,
    /// Row g - 1: the goals that wait for goal g, directly or through others, goal h at bit
    /// h - 1. Rows above the goal count are 0.
    pub rows: [u32; GOAL_LIMIT],
}

impl Order {
    /// Is goal i before goal j? Goals are numbered from 1; a number that is no goal is before and
    /// behind nothing.
    pub fn before(&self, i: u32, j: u32) -> bool {
        let goals = 1..=GOAL_LIMIT as u32;
        goals.contains(&i) && goals.contains(&j) && self.rows[i as usize - 1] >> (j - 1) & 1 == 1
    }
}

/// What a record says, for planners: sets and numbers without the goals' texts.
#[derive(Clone, Copy, PartialEq, Eq, Hash, Debug)]
pub struct Facts {
    /// The goal count.
    pub goals: u32,
    /// The variable count.
    pub variables: u32,
    /// The variables of the clause head, variable x at bit x.
    pub head: u64,
    /// Place g - 1: the variables of goal g.
    pub sets: [u64; GOAL_LIMIT],
    /// Place g - 1: the variables known ground just left of goal g.
    pub ground: [u64; GOAL_LIMIT],
    /// Place g - 1: the ticks of goal g.
    pub ticks: [u32; GOAL_LIMIT],
    /// Place x: the variables listed as independent of variable x.
    pub listed: [u64; VARIABLE_LIMIT],
}

impl Facts {
    /// No goals and no variables.
    pub(crate) const NONE: Facts = Facts {
        goals: 0,
        variables: 0,
        head: 0,
        sets: [0; GOAL_LIMIT],
        ground: [0; GOAL_LIMIT],
        ticks: [0; GOAL_LIMIT],
        listed: [0; VARIABLE_LIMIT],
    };
}
