//! Where a clause without a form can be split into clauses that have one.

use super::stricter::renumbered;
use super::words::{Named, Page, count};
use lfj::{Clause, Expr};

/// Goals `from` to `to` as a clause of their own, with the facts of the whole clause. What it
/// meets in the goals left of it comes in through its head.
pub fn part(clause: &Clause, from: usize, to: usize) -> Clause {
    let left = &clause.goals[..from - 1];
    Clause {
        head: left.iter().fold(clause.head, |met, goal| met | goal.variables),
        goals: clause.goals[from - 1..to].to_vec(),
        ..clause.clone()
    }
}

/// The form of goals `from` to `to`, by the numbers of the whole clause. None if there is none.
pub fn form_of(clause: &Clause, from: usize, to: usize) -> Option<Expr> {
    let record = part(clause, from, to).record().ok()?;
    Some(renumbered(lfj::form_tree(&record).ok()?, &|goal| goal + from as u32 - 1))
}

/// A part of a clause: its first and last goal, and its form.
pub type Part = (usize, usize, Expr);

/// All splits into two parts that both have a form.
pub fn in_two(clause: &Clause) -> Vec<[Part; 2]> {
    let goals = clause.goals.len();
    let split = |k: usize| {
        let (left, right) = (form_of(clause, 1, k)?, form_of(clause, k + 1, goals)?);
        Some([(1, k, left), (k + 1, goals, right)])
    };
    (1..goals).filter_map(split).collect()
}

/// As few parts as suffice: from left to right, each as long as it has a form. A clause with a
/// form has one for its first goals and for its last goals too, so no split has fewer parts.
pub fn in_few(clause: &Clause) -> Vec<Part> {
    let goals = clause.goals.len();
    let mut parts: Vec<Part> = Vec::new();
    let mut from = 1;
    while from <= goals {
        let longest =
            (from..=goals).map_while(|to| Some((from, to, form_of(clause, from, to)?))).last();
        let Some(part) = longest else { break };
        from = part.1 + 1;
        parts.push(part);
    }
    parts
}

/// Where to split, with the forms of the parts.
pub fn in_words(page: &mut Page, named: &Named) {
    let splits = in_two(named.clause);
    for [(_, last, left), (_, _, right)] in &splits {
        let last = named.goal(*last as u32);
        page.paragraph(4, "- ", &format!("behind {last}: {left:#} and then {right:#}"));
    }
    if splits.is_empty() {
        let parts = in_few(named.clause);
        let forms: Vec<String> = parts.iter().map(|(_, _, form)| format!("{form:#}")).collect();
        let words = format!("two parts do not suffice, {} do: ", count(parts.len(), "part"));
        page.paragraph(4, "- ", &(words + &forms.join(" and then ")));
    }
}
