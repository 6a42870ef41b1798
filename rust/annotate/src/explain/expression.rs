//! A fork-join expression in words.

use super::words::{Named, Page, capital, list};
use lfj::Expr;

/// The expression with the goals' texts in place of their numbers.
pub fn with_texts(named: &Named, expression: &Expr) -> String {
    let inner = |member: &Expr| match member {
        Expr::Goal(goal) => named.text(*goal).to_string(),
        other => format!("({})", with_texts(named, other)),
    };
    let members = |members: &[Expr]| members.iter().map(inner).collect::<Vec<_>>();
    match expression {
        Expr::Goal(goal) => named.text(*goal).to_string(),
        Expr::Sequence(parts) => members(parts).join(", "),
        Expr::Parallel(parts) => members(parts).join(" & "),
    }
}

/// The goals, if the members are goals all of them.
fn all_goals(members: &[Expr]) -> Option<Vec<u32>> {
    let goal = |member: &Expr| match member {
        Expr::Goal(goal) => Some(*goal),
        _ => None,
    };
    members.iter().map(goal).collect()
}

/// A sequence or group of goals alone, or a goal.
fn simple(named: &Named, expression: &Expr) -> Option<String> {
    Some(match expression {
        Expr::Goal(goal) => named.goal(*goal),
        Expr::Sequence(members) => named.goals(all_goals(members)?).join(", then "),
        Expr::Parallel(members) => {
            format!("{} side by side", list(&named.goals(all_goals(members)?)))
        }
    })
}

/// One sentence, if the expression is no deeper than a group of sequences or a sequence of
/// groups.
fn sentence(named: &Named, expression: &Expr) -> Option<String> {
    let all = |members: &[Expr]| -> Option<Vec<String>> {
        members.iter().map(|member| simple(named, member)).collect()
    };
    Some(match expression {
        Expr::Goal(goal) => format!("{} alone.", named.goal(*goal)),
        Expr::Sequence(members) => format!("First {}.", all(members)?.join(", then ")),
        Expr::Parallel(members) if all_goals(members).is_some() => {
            format!("{}.", simple(named, expression)?)
        }
        Expr::Parallel(members) => format!("Side by side: {}.", all(members)?.join("; ")),
    })
}

/// The expression as a list, one goal a line, from a column on. Left of the column stands the
/// bullet of the first line, and behind it the word, if any.
fn outline(page: &mut Page, named: &Named, part: &Expr, column: usize, bullet: &str, word: &str) {
    let line = |words: &str| format!("{bullet}{word}{words}");
    match part {
        Expr::Goal(goal) => page.line(column - bullet.len(), &line(&named.goal(*goal))),
        Expr::Sequence(members) => {
            for (at, member) in members.iter().enumerate() {
                let (bullet, word) = if at == 0 { (bullet, "first ") } else { ("", "then ") };
                outline(page, named, member, column, bullet, word);
            }
        }
        Expr::Parallel(members) => {
            page.line(column - bullet.len(), &line("side by side:"));
            for member in members {
                outline(page, named, member, column + 4, "- ", "");
            }
        }
    }
}

/// The expression in words: a sentence, or a list where it is deeper.
pub fn in_words(page: &mut Page, named: &Named, expression: &Expr) {
    match sentence(named, expression) {
        Some(words) => page.paragraph(2, "", &capital(&words)),
        None => outline(page, named, expression, 2, "", ""),
    }
}
