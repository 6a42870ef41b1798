//! What is lent to the library to be filled whole, the order's rows and the facts of a clause, as
//! the hand-written annotator has it.

use crate::GOAL_LIMIT;
use crate::build::Parts;
use crate::proved::refusal_word;
use crate::record::VARIABLE_LIMIT;

/// One array, or number, for each function.
#[derive(Clone, PartialEq, Eq, Debug)]
pub struct Arrays {
    pub rows: [u32; GOAL_LIMIT],
    pub head: u64,
    pub sets: [u64; GOAL_LIMIT],
    pub grounds: [u64; GOAL_LIMIT],
    pub ticks: [u32; GOAL_LIMIT],
    pub listed: [u64; VARIABLE_LIMIT],
}

impl Arrays {
    /// Every element the same.
    pub fn of(value: u64) -> Arrays {
        let (small, goals) = ([value as u32; GOAL_LIMIT], [value; GOAL_LIMIT]);
        let listed = [value; VARIABLE_LIMIT];
        Arrays { rows: small, head: value, sets: goals, grounds: goals, ticks: small, listed }
    }

    /// What the library has to leave here, and its answer words: all elements fixed, or with a
    /// refusal as they were.
    pub fn by_hand(&mut self, record: &[u8]) -> [u64; 6] {
        match Parts::of(record) {
            Err(refusal) => [refusal_word(refusal); 6],
            Ok(parts) => {
                self.fill(record, &parts);
                let (goals, variables) = (parts.goals.len() as u64, parts.variables as u64);
                [goals, variables, goals, goals, goals, variables]
            }
        }
    }

    fn fill(&mut self, record: &[u8], parts: &Parts) {
        *self = Arrays::of(0);
        if let Ok(closed) = crate::order(record) {
            self.rows = closed.order.rows;
        }
        self.head = parts.head;
        for (at, (set, _)) in parts.goals.iter().enumerate() {
            let facts = parts.facts.get(at);
            self.sets[at] = *set;
            self.grounds[at] = facts.map_or(parts.ground, |facts| facts.ground);
            self.ticks[at] = facts.map_or(1, |facts| facts.ticks as u32);
        }
        for (lower, higher) in &parts.pairs {
            self.listed[*lower as usize] |= 1 << higher;
            self.listed[*higher as usize] |= 1 << lower;
        }
    }
}
