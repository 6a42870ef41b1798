//! The facts at the goals of a description: ticks and ground sets, and the record's version.

use super::Fault;
use lfj::{Clause, TICK_LIMIT};

/// What a line `goal` says of its facts.
pub struct Stated {
    pub line: usize,
    pub ticks: Option<u16>,
    pub ground: Option<u64>,
}

/// The number behind `ticks`.
pub fn ticks(words: &[&str]) -> Result<u16, String> {
    let [number] = words else {
        return Err("one number stands behind `ticks`; variables come before it".to_string());
    };
    match number.parse::<u64>() {
        Ok(ticks) if (1..=TICK_LIMIT as u64).contains(&ticks) => Ok(ticks as u16),
        Ok(ticks) => Err(format!("{ticks} ticks; a goal has 1 to {TICK_LIMIT}")),
        Err(_) => Err(format!("`{number}` is no number of ticks")),
    }
}

/// Gives the clause its version and its goals their facts: what is stated, else the ground set
/// of the goal before and 1 tick. What is wrong with them comes back.
pub fn resolve(
    clause: &mut Clause,
    version: Option<u16>,
    stated: &[Stated],
    names: &[String],
) -> Vec<Fault> {
    let first = stated.iter().find(|goal| goal.ticks.is_some() || goal.ground.is_some());
    clause.version = version.unwrap_or(if first.is_some() { 2 } else { 1 });
    if let (1, Some(goal)) = (clause.version, first) {
        return vec![(goal.line, "ticks and ground sets at goals need `version 2`".to_string())];
    }
    let mut faults = Vec::new();
    let (mut ground, mut met) = (clause.ground, clause.head | clause.ground);
    for (goal, stated) in clause.goals.iter_mut().zip(stated) {
        let here = stated.ground.unwrap_or(ground);
        if let Some(name) = first_name(names, ground & !here) {
            let words = format!(
                "{name} is ground already before this goal, so `ground` has to name it too"
            );
            faults.push((stated.line, words));
        }
        if let Some(name) = first_name(names, here & !met) {
            let words = format!(
                "{name} cannot be ground here: it is in neither the head nor an earlier goal"
            );
            faults.push((stated.line, words));
        }
        (goal.ground, goal.ticks) = (here, stated.ticks.unwrap_or(1));
        ground |= here;
        met |= goal.variables;
    }
    faults
}

/// The name of a set's first variable.
fn first_name(names: &[String], set: u64) -> Option<&String> {
    names.get(set.trailing_zeros() as usize)
}
