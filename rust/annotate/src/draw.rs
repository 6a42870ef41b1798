//! The picture of a clause: its dependency graph beside its fork-join form, for a page or a
//! terminal. A clause without a form has the four goals that show it in place of the form.
//! And the chart of a run on several heads.

pub mod chart;
mod fork_join;
mod graph;
mod halves;
mod layers;
mod page;
mod places;
mod svg;
mod terminal;
mod texts;
mod waits;

pub use page::svg;
pub use terminal::text;

use crate::scene::Scene;

/// Why a clause has no form.
const NO_FORM: &str = "No fork-join expression has this order. Goals a, b, c and d show it: c waits \
                       for a and b, d waits for b but not for a, and there is no other wait among \
                       the four.";

/// The sheet's line for the form.
fn form_line(scene: &Scene) -> String {
    match scene.four {
        Some([a, b, c, d]) => format!("form none {a} {b} {c} {d}"),
        None => format!("form {}", scene.form_text),
    }
}

/// The letter of a goal among the four of a clause without a form.
fn letter(scene: &Scene, goal: u32) -> Option<char> {
    "abcd".chars().zip(scene.four?).find(|(_, one)| *one == goal).map(|(letter, _)| letter)
}

/// A place of a picture, in px from its upper left corner, or from that of a part.
#[derive(Clone, Copy)]
struct Point {
    x: f64,
    y: f64,
}

impl Point {
    fn shift(&mut self, x: f64, y: f64) {
        self.x += x;
        self.y += y;
    }
}

#[derive(Clone, Copy)]
struct Size {
    width: f64,
    height: f64,
}

impl Size {
    fn larger(self) -> f64 {
        self.width.max(self.height)
    }
}

#[derive(Clone, Copy)]
struct Rect {
    corner: Point,
    size: Size,
}

/// A text in lines of at most so many characters, cut behind one for which `ends` holds, or where
/// the line is full.
fn lines(text: &str, most: usize, ends: fn(char) -> bool) -> Vec<String> {
    let mut rest: Vec<char> = text.chars().collect();
    let mut lines = Vec::new();
    while rest.len() > most {
        let end = rest[..most].iter().rposition(|sign| ends(*sign)).map_or(most, |last| last + 1);
        lines.push(rest.drain(..end).collect::<String>().trim_end().to_string());
    }
    lines.push(rest.into_iter().collect());
    lines
}
