//! The picture of a clause for a terminal: plain ASCII, at most 100 columns wide.

use super::{NO_FORM, form_line, letter, lines, waits};
use crate::scene::Scene;
use lfj::Expr;

pub const COLUMNS: usize = 100;

/// The picture of a clause as text: for each goal the goals that it waits for directly, and the
/// fork-join form from top to bottom.
///
/// ```
/// use annotate::{draw, scene::Scene};
///
/// let scene = Scene {
///     title: "half-motif".to_string(),
///     goals: ["half", "edge", "join"].map(String::from).to_vec(),
///     order: vec![0b100, 0b100, 0],
///     form: Some("(1&2),3".parse()?),
///     form_text: "(1&2),3".to_string(),
///     four: None,
/// };
/// let text = draw::text(&scene);
/// assert!(text.contains("  3 join  1 2\n"));
/// assert!(text.contains("  fork\n  +- 1 half\n  +- 2 edge\n  join\n  3 join\n"));
/// # Ok::<(), lfj::ExprError>(())
/// ```
pub fn text(scene: &Scene) -> String {
    let mut out = String::new();
    put(&mut out, &title(&scene.title), "");
    out.push('\n');
    table(scene, &mut out);
    out.push('\n');
    put(&mut out, &form_line(scene), "     ");
    out.push('\n');
    match &scene.form {
        Some(form) => {
            out.push_str(
                "From top to bottom; branches between fork and join run side by side:\n\n",
            );
            tree(scene, form, "  ", "  ", &mut out);
        }
        None => no_form(scene, &mut out),
    }
    out
}

/// A title without what a terminal would not print.
pub fn title(text: &str) -> String {
    text.chars().map(|sign| if sign.is_control() { '?' } else { sign }).collect()
}

/// A text in lines, those after the first with this indent.
pub fn put(out: &mut String, text: &str, indent: &str) {
    let ends = |sign| matches!(sign, ' ' | ',' | '&');
    for (row, line) in lines(text, COLUMNS - indent.len(), ends).iter().enumerate() {
        *out += &format!("{}{line}\n", if row == 0 { "" } else { indent });
    }
}

/// A goal's number and text.
fn goal(scene: &Scene, goal: u32) -> String {
    let digits = scene.goals.len().to_string().len();
    format!("{goal:>digits$} {}", scene.goals[goal as usize - 1])
}

/// Who waits directly for whom.
fn table(scene: &Scene, out: &mut String) {
    let count = scene.goals.len() as u32;
    let order = &scene.order[..scene.goals.len()];
    let direct = waits::direct(order);
    let longest = (1..=count).map(|number| goal(scene, number).len()).max().unwrap_or(0).max(4);
    *out += &format!("  {:longest$}  waits directly for\n", "goal");
    for number in 1..=count {
        let before = direct.iter().filter(|(_, next)| *next == number);
        let before: Vec<String> = before.map(|(goal, _)| goal.to_string()).collect();
        let before = if before.is_empty() { "-".to_string() } else { before.join(" ") };
        let name = goal(scene, number);
        let letter = letter(scene, number).unwrap_or(' ');
        let line = format!("{letter} {name:longest$}  {before}");
        put(out, &line, &" ".repeat(longest + 4));
    }
}

/// An expression as a tree: parts of a sequence one below the other, the branches of a group
/// between a line `fork` and a line `join`. The first line starts with `first`, others with `rest`.
fn tree(scene: &Scene, form: &Expr, first: &str, rest: &str, out: &mut String) {
    match form {
        Expr::Goal(number) => *out += &format!("{first}{}\n", goal(scene, *number)),
        Expr::Sequence(parts) => {
            for (place, part) in parts.iter().enumerate() {
                tree(scene, part, if place == 0 { first } else { rest }, rest, out);
            }
        }
        Expr::Parallel(parts) => {
            *out += &format!("{first}fork\n");
            for part in parts {
                tree(scene, part, &format!("{rest}+- "), &format!("{rest}|  "), out);
            }
            *out += &format!("{rest}join\n");
        }
    }
}

/// Why there is no form: the four goals, c behind a and b, d behind b.
fn no_form(scene: &Scene, out: &mut String) {
    put(out, NO_FORM, "");
    let Some(four) = scene.four else { return };
    let [a, b, c, d] = four.map(|one| goal(scene, one));
    let left = a.len().max(b.len());
    *out += &format!("\n  a {a:left$}  --------->  c {c}\n");
    *out += &format!("    {:left$}        __/\n    {:left$}     __/\n", "", "");
    *out += &format!("  b {b:left$}  --------->  d {d}\n");
}
