//! The MEL annotation.

use crate::Refusal;
use crate::numbers::{DIGITS, Members, above, digits};
use crate::record::{Clause, GOAL_LIMIT};

/// Goals `from` to `to - 1`, numbered from 0, with their checks.
#[derive(Clone, Copy)]
struct Stage {
    from: u32,
    to: u32,
    /// The ground checks.
    grounds: u64,
    /// The variables that the independence checks are made of.
    candidates: u64,
}

impl Stage {
    const NONE: Stage = Stage { from: 0, to: 0, grounds: 0, candidates: 0 };

    #[inline(always)]
    fn goals(&self) -> std::ops::Range<usize> {
        self.from as usize..self.to as usize
    }

    /// For each candidate the other candidates of its own goal.
    #[inline(always)]
    fn beside(&self, clause: &Clause, beside: &mut [u64; 64]) {
        for goal in self.goals() {
            let own = clause.sets[goal & 31] & self.candidates;
            for variable in Members(own) {
                beside[variable] = own;
            }
        }
    }

    /// The higher variables of the checks `indep(v,..)`.
    #[inline(always)]
    fn partners(&self, clause: &Clause, beside: &[u64; 64], variable: usize) -> u64 {
        above(self.candidates, variable) & !beside[variable] & !clause.listed[variable]
    }

    /// At least as many bytes as the stage's text and a comma take.
    #[inline(always)]
    fn at_most(&self) -> usize {
        let candidates = self.candidates.count_ones() as usize;
        let pairs = candidates * candidates.saturating_sub(1) / 2;
        3 * self.goals().len() + 4 + 12 * self.grounds.count_ones() as usize + 15 * pairs
    }

    fn length(&self, clause: &Clause, beside: &mut [u64; 64]) -> usize {
        let goals: usize = self.goals().map(|goal| digits(goal + 1) + 1).sum();
        if self.to - self.from == 1 {
            return goals - 1;
        }
        let two_digits = |set: u64| (set >> 10).count_ones() as usize;
        let mut checks = 0;
        checks += 11 * self.grounds.count_ones() as usize + two_digits(self.grounds);
        if self.candidates != 0 {
            self.beside(clause, beside);
            for variable in Members(self.candidates) {
                let partners = self.partners(clause, beside, variable);
                let each = 12 + digits(variable);
                checks += each * partners.count_ones() as usize + two_digits(partners);
            }
        }
        // Each check has a comma behind it, the last one the two signs `=>`.
        goals + 1 + checks + (checks != 0) as usize
    }
}

/// All stages, the last one first.
#[inline(always)]
fn stages(clause: &Clause) -> ([Stage; GOAL_LIMIT], usize) {
    // The variables of the goals left of each goal.
    let mut left_of = [0; GOAL_LIMIT];
    let mut met = 0;
    for goal in 0..clause.goals {
        left_of[goal & 31] = met;
        met |= clause.sets[goal & 31];
    }
    let mut stages = [Stage::NONE; GOAL_LIMIT];
    let mut count = 0;
    let mut to = clause.goals as u32;
    let (mut once, mut twice) = (0, 0);
    for goal in (0..clause.goals).rev() {
        let set = clause.sets[goal & 31];
        twice |= once & set;
        once |= set;
        // The goal left of this one ends the stage if a variable outside the head first
        // occurs there and occurs again in the stage.
        let ends = goal == 0 || {
            let left = goal - 1;
            let first = clause.sets[left & 31] & !left_of[left & 31] & !clause.head;
            first & once != 0
        };
        if ends {
            // The stage is judged by the ground set at its first goal, this one.
            let ground = clause.grounds[goal & 31];
            let known = (clause.head | left_of[goal & 31]) & !ground;
            let grounds = twice & !ground;
            let candidates = once & !twice & known;
            let from = goal as u32;
            stages[count & 31] = Stage { from, to, grounds, candidates };
            count += 1;
            to = from;
            (once, twice) = (0, 0);
        }
    }
    (stages, count)
}

struct Writer<'a> {
    out: &'a mut [u8],
    at: usize,
}

impl Writer<'_> {
    #[inline(always)]
    fn byte(&mut self, byte: u8) {
        self.out[self.at] = byte;
        self.at += 1;
    }

    #[inline(always)]
    fn goal(&mut self, goal: usize) {
        let [first, second] = DIGITS[(goal & 31) + 1];
        self.byte(first);
        if second != 0 {
            self.byte(second);
        }
    }

    /// Stores 16 bytes of which `length` stay.
    #[inline(always)]
    fn sixteen(&mut self, bytes: u128, length: usize) {
        self.out[self.at..self.at + 16].copy_from_slice(&bytes.to_le_bytes());
        self.at += length;
    }

    /// One stage. A check takes 11 or more bytes with its comma, and behind the last one
    /// stand at least 5 more, so what `sixteen` stores too much is always written over.
    #[inline(always)]
    fn stage(&mut self, stage: &Stage, clause: &Clause, beside: &mut [u64; 64]) {
        if stage.to - stage.from == 1 {
            return self.goal(stage.from as usize);
        }
        self.byte(b'(');
        let start = self.at;
        for variable in Members(stage.grounds) {
            const GROUND: u128 = u128::from_le_bytes(*b"ground(v\0\0\0\0\0\0\0\0");
            let word = GROUND | (ENDING[variable] as u128) << 64;
            self.sixteen(word, 10 + digits(variable));
        }
        if stage.candidates != 0 {
            stage.beside(clause, beside);
        }
        for variable in Members(stage.candidates) {
            const INDEP: u128 = u128::from_le_bytes(*b"indep(v\0\0\0\0\0\0\0\0\0");
            let number = u16::from_le_bytes(DIGITS[variable]) as u128;
            let width = digits(variable);
            let comma = u16::from_le_bytes(*b",v") as u128;
            let word = INDEP | number << 56 | comma << (56 + 8 * width);
            let start = 9 + width;
            for partner in Members(stage.partners(clause, beside, variable)) {
                let word = word | (ENDING[partner] as u128) << (8 * start);
                self.sixteen(word, start + 2 + digits(partner));
            }
        }
        if self.at > start {
            self.at -= 1;
            self.byte(b'=');
            self.byte(b'>');
        }
        for goal in stage.goals() {
            self.goal(goal);
            self.byte(b'&');
        }
        self.out[self.at - 1] = b')';
    }
}

/// For each variable its number, `)` and `,`.
const ENDING: [u32; 64] = {
    let mut table = [0; 64];
    let mut number = 0;
    while number < 64 {
        let [first, second] = DIGITS[number];
        table[number] = u32::from_le_bytes(match second {
            0 => [first, b')', b',', 0],
            _ => [first, second, b')', b','],
        });
        number += 1;
    }
    table
};

#[inline(always)]
pub fn write(clause: &Clause, out: &mut [u8]) -> Result<u32, Refusal> {
    let (stages, count) = stages(clause);
    let stages = &stages[..count];
    let mut beside = [0; 64];
    // The exact length is needed only where the room may be short.
    let at_most: usize = stages.iter().map(Stage::at_most).sum();
    if at_most > out.len() {
        let commas = count - 1;
        let length = commas + stages.iter().map(|s| s.length(clause, &mut beside)).sum::<usize>();
        if length > out.len() {
            return Err(Refusal::at(12, length));
        }
    }
    let mut writer = Writer { out, at: 0 };
    for (number, stage) in stages.iter().rev().enumerate() {
        if number > 0 {
            writer.byte(b',');
        }
        writer.stage(stage, clause, &mut beside);
    }
    Ok(writer.at as u32)
}
