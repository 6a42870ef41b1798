//! Writing a description.

use lfj::Clause;
use std::fmt::Write;

/// The variables of a set, three or more in a row as `v0..v2`.
fn listed(set: u64) -> String {
    let has = |x: u32| set >> x & 1 == 1;
    let mut text = String::new();
    let mut x = 0;
    while x < 64 {
        let row = (x..64).take_while(|y| has(*y)).count() as u32;
        if row >= 3 {
            let _ = write!(text, " v{x}..v{}", x + row - 1);
        } else {
            (x..x + row).for_each(|y| text += &format!(" v{y}"));
        }
        x += row + 1;
    }
    text
}

/// A line of this keyword and set; none if the set is empty.
fn line(keyword: &str, set: u64) -> String {
    if set == 0 { String::new() } else { format!("{keyword}{}\n", listed(set)) }
}

/// A clause's description, variables being called v0, v1 and so on.
pub fn write(clause: &Clause) -> String {
    let mut text = String::new();
    if clause.version == 2 {
        text += "version 2\n";
    }
    text += &line("variables", lfj::variable_set(0..clause.variables));
    text += &line("head", clause.head);
    text += &line("ground", clause.ground);
    let mut ground = clause.ground;
    for goal in &clause.goals {
        let _ = write!(text, "goal {}{}", goal.text, listed(goal.variables));
        if goal.ticks != 1 {
            let _ = write!(text, " ticks {}", goal.ticks);
        }
        if goal.ground != ground {
            let _ = write!(text, " ground{}", listed(goal.ground));
        }
        ground = goal.ground;
        text.push('\n');
    }
    for lower in 0..64 {
        let pairs = clause.independent.iter().filter(|pair| pair.0 == lower);
        let higher = lfj::variable_set(pairs.map(|pair| pair.1));
        text += &line(&format!("independent v{lower} |"), higher);
    }
    text
}
