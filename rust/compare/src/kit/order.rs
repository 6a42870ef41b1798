//! The waiting order, the form and its length.

use super::{Lines, among, chain, every_graph, every_order, waiting};
use crate::build::Parts;
use crate::generate::Random;

pub(super) fn two_goals() -> Lines {
    let mut lines =
        Lines::new("waits", "Who waits for whom, before closure: variables, ground facts, pairs.");
    lines
        .note("two-goals", "two goals over two variables, all ground sets, the pair listed or not");
    for sets in 0..16u64 {
        for ground in 0..4 {
            for listed in [false, true] {
                let mut parts = Parts::over(2, &[sets & 3, sets >> 2]);
                parts.ground = ground;
                parts.pairs = if listed { vec![(0, 1)] } else { Vec::new() };
                lines.waits(&parts);
            }
        }
    }
    lines.note("three-goals", "three goals over four variables, seeded facts");
    let mut random = Random::new(11);
    for _ in 0..150 {
        let sets: Vec<u64> = (0..3).map(|_| random.word() & 15).collect();
        let mut parts = Parts::over(4, &sets);
        parts.head = random.word() & 15;
        parts.ground = parts.head & random.word();
        for x in 0..4 {
            parts.pairs.extend((x + 1..4).filter(|_| random.chance(1, 2)).map(|y| (x, y)));
        }
        lines.waits(&parts);
        lines.order(&parts);
    }
    lines.note("variables", "variables 0 and 63, 31 and 32");
    for (x, y) in [(0, 63), (31, 32)] {
        let mut parts = Parts::over(64, &[1 << x, 1 << y, 1 << x | 1 << y, 0]);
        lines.waits(&parts);
        lines.order(&parts);
        parts.pairs = vec![(x, y)];
        lines.waits(&parts);
        lines.order(&parts);
        parts.ground = 1 << x;
        lines.waits(&parts);
        lines.order(&parts);
    }
    each_variable(&mut lines);
    lines
        .note("listed-with-all", "a variable that is listed with all 63 others ties its own goals");
    for x in [0, 1, 31, 32, 62, 63] {
        let mut parts = Parts::over(64, &[1 << x, 1 << x, u64::MAX ^ 1 << x]);
        parts.pairs = (0..64).filter(|y| *y != x).map(|y| (x.min(y), x.max(y))).collect();
        lines.order(&parts);
        lines.check(&parts, b"(1,2)&3");
    }
    lines
}

/// Each of 64 variables.
fn each_variable(lines: &mut Lines) {
    lines.note("each-variable", "a variable of goals 1 and 3, and a listed pair with the next one");
    for x in 0..64 {
        lines.order(&Parts::over(64, &[1 << x, 0, 1 << x]));
        let mut parts = Parts::over(64, &[1 << x, 1 << ((x + 1) % 64), 1 << x]);
        let (lower, higher) = if x < 63 { (x, x + 1) } else { (0, 63) };
        parts.pairs = vec![(lower, higher)];
        lines.order(&parts);
    }
}

pub(super) fn closure() -> Lines {
    let mut lines = Lines::new("order", "The record's order: chains of waits.");
    lines.note("up-to-four", "all waits of up to four goals");
    for goals in 1..=4usize {
        every_graph(goals).for_each(|parts| lines.order(&parts));
    }
    lines.note("chains", "long chains");
    for goals in [5, 8, 16, 22] {
        lines.order(&waiting(goals, &chain(goals)));
        let two: Vec<_> = (1..goals - 1).map(|i| (i, i + 2)).collect();
        lines.order(&waiting(goals, &two));
    }
    lines.order(&Parts::over(64, &(0..32).map(|goal| 3 << goal).collect::<Vec<u64>>()));
    lines.order(&Parts::longest_form());
    lines.order(&Parts::without_form(32));
    lines.note("each-goal", "two of 32 goals wait: 1 and each other, each and 32");
    for goal in 2..=32 {
        lines.order(&among(&[1, goal], &[(1, goal)]));
        if goal < 32 {
            lines.order(&among(&[goal, 32], &[(goal, 32)]));
        }
    }
    lines
}

pub(super) fn forms() -> Lines {
    let mut lines = Lines::new("form", "The fork-join expression in house form.");
    for goals in 1..=5 {
        lines.note(
            &format!("orders-of-{goals}"),
            &format!("every order of {goals} goals that has a form"),
        );
        for parts in every_order(goals) {
            if crate::form_length(&parts.record()).is_ok() {
                lines.form(&parts, 146);
            }
        }
    }
    lines.note("orders-of-6", "every seventh order of 6 goals that has a form");
    for parts in every_order(6).iter().step_by(7) {
        if crate::form_length(&parts.record()).is_ok() {
            lines.form(parts, 146);
        }
    }
    lines.note("two-digits", "10 goals and more: two digits");
    for goals in [9, 10, 11, 22] {
        lines.form(&waiting(goals, &[]), 146);
        lines.form(&waiting(goals, &chain(goals)), 146);
        lines.form(&waiting(goals, &[(1, goals)]), 146);
        lines.form(&waiting(goals, &[(goals - 1, goals)]), 146);
    }
    lines.form(&Parts::over(1, &[1; 32]), 146);
    lines.form(&Parts::over(1, &[0; 32]), 146);
    lines.form(&Parts::longest_form(), 146);
    lines.note("each-goal", "two neighbours of 32 goals wait, and goals 1, g, 32");
    for goal in 1..=31 {
        lines.form(&among(&[goal, goal + 1], &[(goal, goal + 1)]), 146);
    }
    for goal in 2..=31 {
        lines.form(&among(&[1, goal, 32], &[(1, goal), (goal, 32)]), 146);
    }
    lines
}

pub(super) fn no_form() -> Lines {
    let mut lines = Lines::new("no-form", "Clauses without a form: refusal 13 and its four goals.");
    for (goals, step) in [(4, 1), (5, 1), (6, 9)] {
        lines.note(
            &format!("orders-of-{goals}"),
            &format!("orders of {goals} goals without a form, 1 in {step}"),
        );
        let without = every_order(goals);
        let without = without.iter().filter(|parts| crate::form_length(&parts.record()).is_err());
        for (at, parts) in without.step_by(step).enumerate() {
            lines.form(parts, 146);
            if at % 4 == 0 {
                lines.length(parts);
            }
        }
    }
    lines.note("last-four", "the last four of n goals, behind a chain");
    for goals in 4..=32 {
        lines.form(&Parts::without_form(goals), 146);
    }
    lines.note("several", "several: the first by a, then b, c, d");
    let mut random = Random::new(13);
    for _ in 0..40 {
        let goals = random.between(7, 20);
        let all = super::all_pairs(goals);
        let waits: Vec<_> = all.into_iter().filter(|_| random.chance(1, 5)).collect();
        lines.form(&waiting(goals, &waits), 146);
    }
    lines.note("before-12", "13 comes before 12");
    for room in [0, 1, 145] {
        lines.form(&waiting(4, &[(1, 3), (2, 3), (2, 4)]), room);
    }
    high_goals(&mut lines);
    lines
}

/// The four goals of refusal 13 among the highest of 32: b is at most 30, since c and d are
/// above it.
fn high_goals(lines: &mut Lines) {
    lines.note("a-is-31", "a is goal 31, c goal 32");
    for (b, d) in [(1, 2), (1, 30), (2, 15), (15, 16), (28, 30), (29, 30)] {
        let waits = [(b, d), (b, 32), (31, 32)];
        let four = format!("refused 13 0 31 {b} 32 {d}");
        assert_eq!(lines.form(&among(&[b, d, 31, 32], &waits), 146), four);
        lines.length(&among(&[b, d, 31, 32], &waits));
    }
    lines.note("b-is-30", "b is goal 30, the highest that it can be");
    for (a, c, d) in [(1, 31, 32), (1, 32, 31), (29, 31, 32), (29, 32, 31)] {
        let waits = [(a, c), (30, c), (30, d)];
        assert_eq!(
            lines.form(&among(&[a, 30, 31, 32], &waits), 146),
            format!("refused 13 0 {a} 30 {c} {d}")
        );
    }
    lines.note("32-after-both", "goal 32 alone is after a and b, which have goals of their own");
    for (a, b, own, d) in [(1, 2, 3, 4), (1, 2, 30, 31), (2, 1, 31, 30), (15, 16, 17, 31)] {
        let mut goals = [a, b, own, d, 32];
        goals.sort();
        lines.form(&among(&goals, &[(a, own), (a, 32), (b, d), (b, 32)]), 146);
    }
    lines.note("32-is-d", "goal 32 is d, or after c as well");
    for waits in [
        &[(1, 31), (2, 31), (2, 32)][..],
        &[(1, 31), (2, 31), (2, 32), (31, 32)],
        &[(1, 2), (1, 31), (2, 32)],
        &[(1, 31), (1, 32), (2, 32)],
    ] {
        lines.form(&among(&[1, 2, 31, 32], waits), 146);
    }
    high_seeded(lines);
}

fn high_seeded(lines: &mut Lines) {
    lines.note("high-seeded", "seeded waits among 31, 32 and four other goals");
    let mut random = Random::new(31);
    for _ in 0..80 {
        let mut goals = vec![31, 32];
        while goals.len() < 6 {
            let goal = random.between(1, 30);
            if !goals.contains(&goal) {
                goals.push(goal);
            }
        }
        goals.sort();
        let all = super::all_pairs(6).into_iter().filter(|_| random.chance(2, 5));
        let waits: Vec<_> = all.map(|(x, y)| (goals[x - 1], goals[y - 1])).collect();
        lines.form(&among(&goals, &waits), 146);
    }
}

pub(super) fn length() -> Lines {
    let mut lines = Lines::new("length", "The length estimate: exactly the form's length.");
    lines.note("up-to-four", "every order of up to four goals");
    for goals in 1..=4 {
        every_order(goals).iter().for_each(|parts| lines.length(parts));
    }
    lines.note("many", "up to 32 goals, one after the other and side by side");
    for goals in 5..=32 {
        lines.length(&Parts::over(1, &vec![1; goals]));
        lines.length(&Parts::over(1, &vec![0; goals]));
    }
    lines.length(&Parts::longest_form());
    lines.length(&Parts::without_form(32));
    lines
}
