//! Who waits for whom, and why, in words.

use super::causes::{Causes, between, causes, direct_waits, has, waited_for};
use super::words::{Named, Page, count, first_few, is_or_are, list};

/// So many direct waits of a goal have a line each; the others are told in brief.
const FEW: usize = 5;

/// So many shared variables are told; of the others the number is.
const FEW_SHARED: usize = 4;

/// Pairs that are not known to be independent: the first, and the number of the others.
fn pairs_in_words(named: &Named, pairs: &[(u8, u8)]) -> String {
    let more = match pairs.len() - 1 {
        0 => String::new(),
        more => format!(", nor {} {} more", is_or_are(more), count(more, "pair")),
    };
    format!("{} are not known to be independent{more}", named.pair(pairs[0]))
}

/// Why a goal waits for an earlier one.
fn cause_in_words(named: &Named, earlier: u32, causes: &Causes) -> String {
    let Causes { shared, pairs } = causes;
    if shared.is_empty() {
        return pairs_in_words(named, pairs);
    }
    let variables = first_few(&named.variables(shared.iter().copied()), FEW_SHARED);
    let (are, earlier) = (is_or_are(shared.len()), named.goal(earlier));
    let besides = match pairs.is_empty() {
        true => String::new(),
        false => format!("; besides, {}", pairs_in_words(named, pairs)),
    };
    format!("both have {variables}, which {are} not ground at {earlier}{besides}")
}

/// An earlier goal with what ties the two: a shared variable, or a variable of each.
fn cause_in_brief(named: &Named, earlier: u32, later: u32) -> Option<String> {
    let Causes { shared, pairs } = causes(named.clause, earlier, later)?;
    let tie = match (shared.first(), pairs.first()) {
        (Some(variable), _) => named.variable(*variable),
        (None, Some((one, other))) => {
            format!("{} with {}", named.variable(*one), named.variable(*other))
        }
        (None, None) => return None,
    };
    Some(format!("{} ({tie})", named.goal(earlier)))
}

/// Why goal `to` waits for goal `from`: the cause, or the goals between them.
pub fn reason(named: &Named, direct: &[u32], from: u32, to: u32) -> String {
    match causes(named.clause, from, to) {
        Some(causes) => cause_in_words(named, from, &causes),
        None => format!("through {}", list(&named.goals(between(direct, from, to)))),
    }
}

/// Whom each goal waits for.
pub fn in_words(page: &mut Page, named: &Named, order: &[u32]) {
    let direct = direct_waits(named.clause);
    for goal in 1..=order.len() as u32 {
        one_goal(page, named, order, &direct, goal);
    }
}

/// The direct waits of a goal to tell in full, and the others. Those that no chain of
/// waits gives anyway come first.
fn told_first(order: &[u32], goal: u32, directly: &[u32]) -> (Vec<u32>, Vec<u32>) {
    let before = |one: u32, other: u32| has(order[one as usize - 1], other);
    let by_a_chain = |earlier: u32| (1..goal).any(|k| before(earlier, k) && before(k, goal));
    let mut told = directly.to_vec();
    told.sort_by_key(|earlier| by_a_chain(*earlier));
    let mut others = told.split_off(told.len().min(FEW));
    told.sort();
    others.sort();
    (told, others)
}

fn one_goal(page: &mut Page, named: &Named, order: &[u32], direct: &[u32], goal: u32) {
    let directly = waited_for(direct, goal);
    let all = waited_for(order, goal);
    if all.is_empty() {
        return page.paragraph(2, "", &format!("{} waits for no goal.", named.goal(goal)));
    }
    page.paragraph(2, "", &format!("{} waits for", named.goal(goal)));
    let (told, others) = told_first(order, goal, &directly);
    for earlier in told {
        let reason = reason(named, direct, earlier, goal);
        page.paragraph(4, "- ", &format!("{}: {reason}", named.goal(earlier)));
    }
    if !others.is_empty() {
        let brief = |earlier: u32| cause_in_brief(named, earlier, goal);
        let goals: Vec<String> = others.into_iter().filter_map(brief).collect();
        page.paragraph(4, "- ", &format!("for like reasons {}", list(&goals)));
    }
    let through: Vec<u32> = all.into_iter().filter(|one| !directly.contains(one)).collect();
    if !through.is_empty() {
        let goals = list(&named.goals(through));
        page.paragraph(4, "- ", &format!("{goals}, through others alone"));
    }
}
