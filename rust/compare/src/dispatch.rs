//! The dispatcher of a clause's goals over several heads (02, 4).

use crate::Refusal;
use crate::numbers::{Members, first_goals};
use crate::order::{self, Order};
use crate::record::{Clause, GOAL_LIMIT};

/// At most this many heads; at least 1.
pub const HEAD_LIMIT: usize = 8;

/// A head: the goal that it works on and the ticks that this goal still takes; zeros if it is idle.
#[derive(Clone, Copy, PartialEq, Eq, Debug, Default)]
pub struct Head {
    pub goal: u32,
    pub left: u32,
}

/// A clause and the ticks of its goals; those of later ones are 0.
#[inline(always)]
fn read(bytes: &[u8]) -> Result<(Clause, [u32; GOAL_LIMIT]), Refusal> {
    let mut ticks = [0; GOAL_LIMIT];
    let clause = Clause::read_each(bytes, |goal| ticks[goal.number & 31] = goal.ticks as u32)?;
    Ok((clause, ticks))
}

pub fn ticks(bytes: &[u8]) -> Result<[u32; GOAL_LIMIT], Refusal> {
    read(bytes).map(|(_, ticks)| ticks)
}

fn count_is_good(heads: &[Head]) -> bool {
    !heads.is_empty() && heads.len() <= HEAD_LIMIT
}

pub fn start(bytes: &[u8], heads: &mut [Head]) -> Result<u32, Refusal> {
    crate::read(bytes)?;
    if !count_is_good(heads) {
        return Err(Refusal::at(20, 0));
    }
    heads.fill(Head::default());
    Ok(0)
}

/// The goals on the heads. `None` if a head alone, two of them or the ended set rule that out.
#[inline(always)]
fn busy(clause: &Clause, ticks: &[u32; GOAL_LIMIT], heads: &[Head], ended: u32) -> Option<u32> {
    // A goal that has ended counts as taken, so that it is on no head.
    let mut taken = ended;
    for head in heads {
        if head.goal == 0 {
            if head.left != 0 {
                return None;
            }
            continue;
        }
        if head.goal as usize > clause.goals {
            return None;
        }
        let goal = (head.goal as usize - 1) & 31;
        if taken >> goal & 1 == 1 || head.left == 0 || head.left > ticks[goal] {
            return None;
        }
        taken |= 1 << goal;
    }
    Some(taken & !ended)
}

pub fn tick(bytes: &[u8], heads: &mut [Head], ended: u32) -> Result<u32, Refusal> {
    let (clause, ticks) = read(bytes)?;
    let all = first_goals(clause.goals);
    if !count_is_good(heads) || ended & !all != 0 {
        return Err(Refusal::at(20, 0));
    }
    let Some(busy) = busy(&clause, &ticks, heads, ended) else {
        return Err(Refusal::at(20, 0));
    };
    // The goals that wait for one that has not ended. Direct waits are enough: where no ended goal
    // has one, a chain from a goal that has not ended to another has one at its end.
    let left = all & !ended;
    let held = order::waiting_for(&clause, left);
    if held & (ended | busy) != 0 {
        return Err(Refusal::at(20, 0));
    }
    // Goals that end in this tick free none before the next.
    let mut ready = left & !busy & !held;
    let mut done = ended;
    for head in heads {
        if head.goal == 0 {
            if ready == 0 {
                continue;
            }
            let goal = ready.trailing_zeros();
            ready &= ready - 1;
            *head = Head { goal: goal + 1, left: ticks[goal as usize] };
        }
        head.left -= 1;
        if head.left == 0 {
            done |= 1 << (head.goal - 1);
            *head = Head::default();
        }
    }
    Ok(done)
}

/// The ticks of the heaviest chain of goals.
pub fn heaviest(order: &Order, ticks: &[u32; GOAL_LIMIT]) -> u32 {
    let mut weights = [0; GOAL_LIMIT];
    for goal in (0..order.goals).rev() {
        let behind = Members(order.rows[goal] as u64).map(|later| weights[later]).max();
        weights[goal] = ticks[goal] + behind.unwrap_or(0);
    }
    weights.into_iter().max().unwrap_or(0)
}
