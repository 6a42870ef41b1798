//! States of a dispatch, a row of heads and the ended goals: those of runs, any that a tick
//! accepts, damaged ones, and what is wrong with one.

use crate::generate::Random;
use crate::{GOAL_LIMIT, HEAD_LIMIT, Head, Order, Refusal};

#[derive(Clone, PartialEq, Eq, Debug)]
pub struct State {
    pub heads: Vec<Head>,
    pub ended: u32,
}

/// Why a tick is refused by 20.
pub const REASONS: [&str; 11] = [
    "no head",
    "more than 8 heads",
    "a goal above n",
    "a goal on two heads",
    "a goal that has ended",
    "busy, 0 left",
    "busy, too many left",
    "idle, some left",
    "ended above n",
    "busy too early",
    "ended too early",
];

/// A clause to be dispatched.
pub struct Course {
    record: Vec<u8>,
    pub order: Order,
    pub ticks: [u32; GOAL_LIMIT],
}

impl Course {
    pub fn of(record: &[u8]) -> Result<Course, Refusal> {
        let (order, ticks) = (crate::order(record)?.order, crate::ticks(record)?);
        Ok(Course { record: record.to_vec(), order, ticks })
    }

    fn ticks_of(&self, goal: usize) -> usize {
        self.ticks[goal - 1] as usize
    }

    /// Is a goal before this one missing in the set?
    fn is_held(&self, goal: usize, ended: u32) -> bool {
        (1..goal)
            .any(|i| ended >> (i - 1) & 1 == 0 && self.order.rows[i - 1] >> (goal - 1) & 1 == 1)
    }

    /// The reasons, numbered as in `REASONS`, for which a tick is refused by 20.
    pub fn reasons(&self, state: &State) -> Vec<usize> {
        let State { heads, ended } = state;
        let n = self.order.goals;
        let has_ended = |goal: usize| goal <= GOAL_LIMIT && ended >> (goal - 1) & 1 == 1;
        let mut found = [false; REASONS.len()];
        found[0] = heads.is_empty();
        found[1] = heads.len() > HEAD_LIMIT;
        for (at, head) in heads.iter().enumerate() {
            let (goal, left) = (head.goal as usize, head.left as usize);
            if goal == 0 {
                found[7] |= left != 0;
                continue;
            }
            found[2] |= goal > n;
            found[3] |= heads[..at].iter().any(|other| other.goal == head.goal);
            found[4] |= has_ended(goal);
            found[5] |= left == 0;
            found[6] |= goal <= n && left > self.ticks_of(goal);
            found[9] |= goal <= n && self.is_held(goal, *ended);
        }
        found[8] = (n + 1..=GOAL_LIMIT).any(has_ended);
        found[10] = (1..=n).any(|goal| has_ended(goal) && self.is_held(goal, *ended));
        (0..REASONS.len()).filter(|reason| found[*reason]).collect()
    }

    /// The state of a start.
    pub fn start(&self, heads: usize) -> State {
        State { heads: vec![Head::default(); heads], ended: 0 }
    }

    /// The state after a tick, and how many ticks may follow it in which busy heads work and
    /// nothing else happens. If a goal has just ended there is none, since an idle head may take
    /// a goal in the next tick.
    pub fn ticked(&self, state: &State) -> Result<(State, u32), Refusal> {
        let mut next = state.clone();
        next.ended = crate::tick(&self.record, &mut next.heads, state.ended)?;
        let least = next.heads.iter().filter(|head| head.goal > 0).map(|head| head.left).min();
        let quiet = if next.ended == state.ended { least.map_or(0, |left| left - 1) } else { 0 };
        Ok((next, quiet))
    }

    /// The same run so many ticks later, in which nothing but work happens.
    pub fn later(state: &mut State, ticks: u32) {
        for head in state.heads.iter_mut().filter(|head| head.goal > 0) {
            head.left -= ticks;
        }
    }

    /// A state of the run of so many heads, 1 to 8.
    pub fn on_a_run(&self, random: &mut Random, heads: usize) -> State {
        let mut state = self.start(heads);
        for _ in 0..random.below(2 * self.order.goals + 2) {
            let Ok((next, quiet)) = self.ticked(&state) else { break };
            state = next;
            let ticks =
                random.pick(&[0, quiet, quiet, random.clone().below(quiet as usize + 1) as u32]);
            Course::later(&mut state, ticks);
        }
        state
    }

    /// Any state of so many heads that a tick accepts, of a run or not.
    pub fn accepted(&self, random: &mut Random, heads: usize) -> State {
        let mut state = self.start(heads);
        let often = random.between(0, 16);
        for goal in 1..=self.order.goals {
            if random.chance(often, 16) && !self.is_held(goal, state.ended) {
                state.ended |= 1 << (goal - 1);
            }
        }
        let often = random.between(0, 16);
        for at in 0..heads {
            if random.chance(often, 16) {
                let goal = random.between(1, self.order.goals);
                let left = random.pick(&[
                    1,
                    self.ticks_of(goal),
                    random.clone().between(1, self.ticks_of(goal)),
                ]);
                let mut with = state.clone();
                with.heads[at] = Head { goal: goal as u32, left: left as u32 };
                if self.reasons(&with).is_empty() {
                    state = with;
                }
            }
        }
        state
    }

    /// Spoils an accepted state, for the one reason drawn where that is possible.
    pub fn damage(&self, random: &mut Random, state: &mut State) {
        let n = self.order.goals;
        let goal = random.between(1, n) as u32;
        let left = random.between(1, self.ticks_of(goal as usize)) as u32;
        let heads = &mut state.heads;
        let (any, other) = (random.below(heads.len()), random.below(heads.len()));
        // A busy head, if there is one.
        let busy = (any..heads.len()).chain(0..any).find(|at| heads[*at].goal > 0).unwrap_or(any);
        match random.below(REASONS.len()) {
            0 => heads.clear(),
            1 => heads.resize(random.between(HEAD_LIMIT + 1, HEAD_LIMIT + 4), Head::default()),
            2 => {
                let goal = random.pick(&[n as u32 + 1, 33, 32 + goal, 256 + goal, u32::MAX]);
                heads[any] = Head { goal, left };
            }
            3 => heads[other] = heads[busy],
            // Ended or not, with a predecessor missing or not, as it falls.
            4 | 9 => heads[any] = Head { goal, left },
            5 => heads[busy].left = 0,
            6 => {
                let over =
                    heads[busy].goal.checked_sub(1).map_or(0, |goal| self.ticks[goal as usize]);
                heads[busy].left = random.pick(&[over + 1, over + 256, over + 65_536, u32::MAX]);
            }
            7 => heads[any] = Head { goal: 0, left: random.pick(&[1, left, 65_536, u32::MAX]) },
            8 => state.ended |= 1u32.checked_shl(random.between(n, GOAL_LIMIT) as u32).unwrap_or(0),
            _ => state.ended |= 1 << (goal - 1),
        }
    }
}
