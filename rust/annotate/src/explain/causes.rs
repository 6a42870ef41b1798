//! Why a goal waits for another one: what makes the two not independent.

use lfj::{Clause, members, variables};

/// Why a later goal waits directly for an earlier one. At least one of the lists has a member.
#[derive(Clone, PartialEq, Eq, Debug)]
pub struct Causes {
    /// Variables of both goals that are not ground at the earlier one.
    pub shared: Vec<u8>,
    /// A variable of the earlier goal alone and one of the later goal alone that are not known
    /// to be independent.
    pub pairs: Vec<(u8, u8)>,
}

/// Lower, then higher, as a record lists them.
pub fn ascending(one: u8, other: u8) -> (u8, u8) {
    (one.min(other), one.max(other))
}

/// What makes goal `later` wait for goal `earlier`. None if the two are independent.
pub fn causes(clause: &Clause, earlier: u32, later: u32) -> Option<Causes> {
    let [first, second] = [earlier, later].map(|goal| &clause.goals[goal as usize - 1]);
    // Two goals are judged by the ground set at the earlier one.
    let open = |set: u64| set & !first.ground;
    let both = first.variables & second.variables;
    let shared = variables(open(both)).collect();
    let mut pairs = Vec::new();
    for one in variables(open(first.variables & !both)) {
        for other in variables(open(second.variables & !both)) {
            if clause.independent.binary_search(&ascending(one, other)).is_err() {
                pairs.push((one, other));
            }
        }
    }
    let causes = Causes { shared, pairs };
    (!causes.shared.is_empty() || !causes.pairs.is_empty()).then_some(causes)
}

/// The direct waits: row g - 1 has the goals that wait for goal g, not through others.
pub fn direct_waits(clause: &Clause) -> Vec<u32> {
    let goals = clause.goals.len() as u32;
    let waits = |earlier, later| causes(clause, earlier, later).is_some();
    (1..=goals)
        .map(|earlier| {
            (earlier + 1..=goals)
                .filter(|later| waits(earlier, *later))
                .fold(0, |row, later| row | 1 << (later - 1))
        })
        .collect()
}

/// Whether a row of goals has this one.
pub fn has(row: u32, goal: u32) -> bool {
    row >> (goal - 1) & 1 == 1
}

/// The goals of which the row has this one: those that it waits for.
pub fn waited_for(rows: &[u32], goal: u32) -> Vec<u32> {
    (1..=rows.len() as u32).filter(|earlier| has(rows[*earlier as usize - 1], goal)).collect()
}

/// The goals between two, on a shortest chain of direct waits from one to the other. Empty if
/// the wait is direct or there is none.
pub fn between(direct: &[u32], from: u32, to: u32) -> Vec<u32> {
    let mut before = vec![0; direct.len() + 1];
    let mut reached = vec![from];
    let mut at = 0;
    while at < reached.len() && before[to as usize] == 0 {
        let goal = reached[at];
        for next in members(direct[goal as usize - 1]) {
            if before[next as usize] == 0 {
                before[next as usize] = goal;
                reached.push(next);
            }
        }
        at += 1;
    }
    let mut chain = Vec::new();
    let mut goal = before[to as usize];
    while goal != 0 && goal != from {
        chain.insert(0, goal);
        goal = before[goal as usize];
    }
    chain
}
