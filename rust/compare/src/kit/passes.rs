//! How many passes close the waits.

use super::record::faulty_records;
use super::{Lines, all_pairs, among, chain, every_graph, every_order, waiting};
use crate::build::Parts;
use crate::cases::{LANDED, hex, refused};
use crate::generate::{self, Random};

/// The longest chain of goals that a record can say: all other pairs are listed.
const LONGEST: usize = 24;

/// The passes of a chain of so many goals: p of them close chains of up to 2 to the p waits, and
/// one more adds nothing.
fn of_chain(goals: usize) -> u32 {
    match goals {
        0..=2 => 1,
        3 => 2,
        4..=5 => 3,
        6..=9 => 4,
        10..=17 => 5,
        _ => 6,
    }
}

impl Lines {
    fn expect_passes(&mut self, parts: &Parts, passes: u32) {
        assert_eq!(self.passes(parts), format!("ok {passes}"));
    }
}

pub(super) fn passes() -> Lines {
    let mut lines = Lines::new("passes", "How many passes close the waits: 1 to 6.");
    lines.note("up-to-four", "all waits of up to four goals");
    for goals in 1..=4 {
        every_graph(goals).for_each(|parts| {
            lines.passes(&parts);
        });
    }
    lines.note("example", "waits 1-2, 2-3, 3-4, 4-5: the first pass adds 1-3, 2-4, 3-5, the second 1-4, 1-5, 2-5, the third nothing");
    lines.expect_passes(&waiting(5, &chain(5)), 3);
    lines.order(&waiting(5, &chain(5)));
    chains(&mut lines);
    closed_already(&mut lines);
    wrong_readings(&mut lines);
    version_2(&mut lines);
    lines.note("refused", "refused records: the refusal of reading, each first in its turn");
    for record in faulty_records() {
        let refusal = crate::read(&record).expect_err("it has a fault");
        lines.expect(format!("passes {LANDED} {}", hex(&record)), &refused(refusal));
    }
    seeded(&mut lines);
    lines
}

fn chains(lines: &mut Lines) {
    lines.note("chains", "chains of 1 to 24 goals");
    for goals in 1..=LONGEST {
        lines.expect_passes(&waiting(goals, &chain(goals)), of_chain(goals));
    }
    lines.note("chains-beside", "chains of goals among 32: the first, the last, every other one");
    for length in 2..=LONGEST {
        for (first, step) in [(1, 1), (33 - length, 1), (2, 2)] {
            let goals: Vec<usize> = (0..length).map(|at| first + at * step).collect();
            if goals[length - 1] <= 32 {
                let waits: Vec<_> = goals.windows(2).map(|two| (two[0], two[1])).collect();
                lines.expect_passes(&among(&goals, &waits), of_chain(length));
            }
        }
    }
    lines.note(
        "two-chains",
        "two chains side by side, and one of every other goal: the longer one counts",
    );
    for (one, other) in
        [(2, 3), (3, 2), (3, 4), (5, 6), (6, 5), (9, 10), (10, 9), (11, 11), (4, 18), (18, 4)]
    {
        let second = chain(other).into_iter().map(|(i, j)| (one + i, one + j));
        let waits: Vec<_> = chain(one).into_iter().chain(second).collect();
        lines.expect_passes(&waiting(one + other, &waits), of_chain(one.max(other)));
    }
    for goals in [5, 8, 11, 20, 22] {
        let waits: Vec<_> = (1..goals - 1).map(|i| (i, i + 2)).collect();
        lines.expect_passes(&waiting(goals, &waits), of_chain(goals.div_ceil(2)));
    }
    lines.note(
        "behind-each",
        "a chain of three goals of 32, the one in the middle each in its turn",
    );
    for goal in 2..=31 {
        lines.expect_passes(&among(&[1, goal, 32], &[(1, goal), (goal, 32)]), 2);
        lines.expect_passes(&among(&[1, goal, 32], &[(1, goal), (1, 32), (goal, 32)]), 1);
    }
}

fn closed_already(lines: &mut Lines) {
    lines.note("closed-already", "waits that are closed already, up to 32 goals in sequence: 1");
    for goals in 1..=32 {
        lines.expect_passes(&Parts::over(1, &vec![1; goals]), 1);
        lines.expect_passes(&Parts::over(1, &vec![0; goals]), 1);
    }
    for goals in [4, 5] {
        for parts in every_order(goals) {
            let order = crate::order(&parts.record()).expect("well formed").order;
            let before = |i: &usize, j: &usize| order.rows[i - 1] >> (j - 1) & 1 == 1;
            let waits = all_pairs(goals).into_iter().filter(|(i, j)| before(i, j));
            lines.expect_passes(&waiting(goals, &waits.collect::<Vec<_>>()), 1);
        }
    }
    let shared: Vec<u64> = (0..32).map(|goal| 3 << goal).collect();
    for parts in [
        Parts::over(64, &shared),
        Parts::longest_form(),
        Parts::longest_record(),
        Parts::longest_wide_record(),
        Parts::without_form(4),
        Parts::without_form(32),
    ] {
        lines.expect_passes(&parts, 1);
    }
}

/// Each wrong reading of the request that we know of.
fn wrong_readings(lines: &mut Lines) {
    let up_to = |goals: usize| waiting(goals, &chain(goals));
    lines.note("one-not-none", "waits closed already take the pass that finds this (wrong: 0)");
    lines.expect_passes(&up_to(1), 1);
    lines.expect_passes(&up_to(2), 1);
    lines.expect_passes(&waiting(3, &all_pairs(3)), 1);
    lines.note("last-counted", "the pass that adds nothing counts (wrong: 1 less)");
    for (goals, passes) in [(3, 2), (4, 3), (6, 4), (10, 5), (18, 6)] {
        lines.expect_passes(&up_to(goals), passes);
    }
    lines.note(
        "from-its-start",
        "a pass takes chains of waits standing at its start (wrong: of rows that it has changed, from the last goal down 2 passes for any chain of three goals on)",
    );
    for (goals, passes) in [(4, 3), (5, 3), (6, 4), (12, 5), (20, 6)] {
        lines.expect_passes(&up_to(goals), passes);
    }
    lines.note(
        "two-at-a-time",
        "a pass takes chains of two waits (wrong: of three, 1-2-3-4 takes 2)",
    );
    for (goals, passes) in [(4, 3), (6, 4), (7, 4), (10, 5), (14, 5)] {
        lines.expect_passes(&up_to(goals), passes);
    }
    lines
        .note("doubling", "what a pass adds stands in the next (wrong: one wait longer each pass)");
    for (goals, passes) in [(5, 3), (9, 4), (17, 5), (24, 6)] {
        lines.expect_passes(&up_to(goals), passes);
    }
    lines.note("six", "up to six (wrong: at most five); 17 goals take five, 18 six");
    lines.expect_passes(&up_to(17), 5);
    lines.expect_passes(&up_to(18), 6);
    lines.note("shortest", "the shortest chain between two goals counts (wrong: the longest)");
    for goals in [3, 4, 5, 9, 17, 22, 32] {
        if let Some(parts) = Parts::with_waits(goals, &all_pairs(goals)) {
            lines.expect_passes(&parts, 1);
        }
    }
    let shortcut =
        |goals: usize, more: &[(usize, usize)]| waiting(goals, &[&chain(goals), more].concat());
    lines.expect_passes(&shortcut(4, &[(1, 3)]), 2);
    lines.expect_passes(&shortcut(4, &[(1, 4)]), 2);
    lines.expect_passes(&shortcut(6, &[(1, 3)]), 3);
    lines.expect_passes(&shortcut(6, &[(3, 5)]), 3);
    lines.expect_passes(&shortcut(18, &[(1, 3)]), 5);
    lines.expect_passes(&shortcut(18, &[(8, 10)]), 5);
    lines.expect_passes(&shortcut(18, &[(1, 18)]), 5);
    lines.note("any-goal", "the last row to close counts, of whichever goal (wrong: goal 1's)");
    for (goals, passes) in [(3, 2), (4, 3), (10, 5)] {
        for before in [1, 5] {
            let waits: Vec<_> =
                chain(goals).iter().map(|(i, j)| (before + i, before + j)).collect();
            lines.expect_passes(&waiting(before + goals, &waits), passes);
        }
    }
    lines.note("form-or-not", "clauses without a form too (wrong: 13)");
    lines.expect_passes(&waiting(4, &[(1, 3), (2, 3), (2, 4)]), 1);
    lines.expect_passes(&waiting(5, &[(1, 3), (2, 3), (2, 4), (3, 5)]), 2);
}

/// Chains of waits that a record of version 2 says, and facts on the way that take waits away.
fn version_2(lines: &mut Lines) {
    lines.note("version-2", "the chains in version 2, with the header's facts at each goal");
    for goals in (2..=LONGEST).step_by(4) {
        lines.expect_passes(&waiting(goals, &chain(goals)).knowing(&[]), of_chain(goals));
    }
    lines.note("ground-on-the-way", "a variable that is ground from a goal on takes waits away");
    // Nobody waits for a goal whose variable is ground there, nor waits it for an earlier one.
    for (goals, passes) in [(3, 2), (6, 4), (10, 5), (18, 6)] {
        for from in 1..=goals {
            let parts = waiting(goals, &chain(goals));
            let grounds: Vec<u64> =
                (1..=goals).map(|goal| if goal < from { 0 } else { 1 }).collect();
            lines.expect_passes(
                &parts.clone().knowing(&grounds),
                if from == 1 { of_chain(goals - 1) } else { passes },
            );
            let last = 1 << (goals - 1);
            let grounds: Vec<u64> =
                (1..=goals).map(|goal| if goal < from { 0 } else { last }).collect();
            lines.passes(&parts.knowing(&grounds));
        }
    }
    // The variable that all goals share is ground behind a goal: from there on the chain is left.
    for goals in [4, 6, 10, 18] {
        for from in [1, 2, goals / 2, goals - 1] {
            let mut parts = waiting(goals, &chain(goals));
            parts.variables += 1;
            parts.head |= 1 << goals;
            parts.goals.iter_mut().for_each(|goal| goal.0 |= 1 << goals);
            let grounds: Vec<u64> =
                (1..=goals).map(|goal| if goal < from { 0 } else { 1 << goals }).collect();
            lines.passes(&parts.knowing(&grounds));
        }
    }
}

/// Seeded graphs, as many of each number of passes.
fn seeded(lines: &mut Lines) {
    lines.note("seeded", "seeded clauses of both versions, up to 20 of each number of passes");
    let mut random = Random::new(51);
    let mut met = [0; 7];
    for case in 0..4000 {
        let parts = match case % 4 {
            0 => generate::clause(&mut random),
            _ => generate::chained(&mut random),
        };
        let record = parts.record();
        let passes = crate::passes(&record).expect("well formed") as usize;
        if record.len() < 900 && met[passes] < 20 {
            met[passes] += 1;
            lines.passes(&parts);
        }
    }
    assert_eq!(met, [0, 20, 20, 20, 20, 20, 20]);
}
