//! The page: the dependency graph at the left, the fork-join form at the right.

use super::svg::{Font, INK, MARK, PALE, PALE_MARK, Pen, Svg};
use super::texts::{GOAL, NUMBER, below_title, titled};
use super::{Point, Rect, Size, letter};
use crate::scene::Scene;

/// Between the two halves.
const GUTTER: f64 = 56.0;
/// The width of a box's cell for the goal's number, and of that for a mark.
pub const CELL: f64 = 26.0;
pub const BOX_HEIGHT: f64 = 28.0;

const LETTER: Font = Font { size: 13.0, mono: true, bold: true, colour: "white" };

pub const BORDER: Pen = Pen { colour: INK, width: 1.2, dashed: false, head: false };
const BETWEEN: Pen = Pen { colour: "#bbbbbb", width: 1.0, dashed: false, head: false };
/// Of what is marked: the four goals of a clause without a form, a heaviest chain.
pub const MARKED: Pen = Pen { colour: MARK, width: 2.6, dashed: false, head: true };

/// The picture of a clause as an SVG document: its dependency graph beside its fork-join form.
///
/// ```
/// use annotate::{draw, scene::Scene};
///
/// let scene = Scene {
///     title: "half-motif".to_string(),
///     goals: ["half", "edge", "join"].map(String::from).to_vec(),
///     order: vec![0b100, 0b100, 0],
///     form: Some("(1&2),3".parse()?),
///     form_text: "(1&2),3".to_string(),
///     four: None,
/// };
/// let svg = draw::svg(&scene);
/// assert!(svg.contains("<path class=\"line\" id=\"line-1-3\""));
/// assert!(svg.contains(">form (1&amp;2),3</text>"));
/// # Ok::<(), lfj::ExprError>(())
/// ```
pub fn svg(scene: &Scene) -> String {
    let mut page = Page { svg: Svg::new(), scene, size: box_size(scene) };
    page.svg.origin = below_title(&scene.title);
    let left = page.graph_half();
    page.svg.origin.x += left.width + GUTTER;
    let right = page.form_half();
    let height = left.height.max(right.height);
    let between = [0.0, height].map(|y| Point { x: -GUTTER / 2.0, y });
    page.svg.line("class=\"between\"", &between, BETWEEN);
    let width = left.width + GUTTER + right.width;
    titled(page.svg, &scene.title, Size { width, height })
}

/// The size of every box: the longest goal text fits.
fn box_size(scene: &Scene) -> Size {
    let longest = scene.goals.iter().map(|text| text.chars().count()).max().unwrap_or(0).max(3);
    let cells = if scene.four.is_some() { 2.0 * CELL } else { CELL };
    Size { width: cells + 16.0 + longest as f64 * GOAL.advance(), height: BOX_HEIGHT }
}

/// A page in the making.
pub struct Page<'a> {
    pub svg: Svg,
    pub scene: &'a Scene,
    /// Of each box.
    pub size: Size,
}

impl Page<'_> {
    /// The box of a goal, with a letter if it is one of the four.
    pub fn goal(&mut self, half: &str, goal: u32, rect: Rect) {
        let letter = letter(self.scene, goal);
        let (fill, pen, cell) = match letter {
            Some(_) => (PALE_MARK, Pen { head: false, ..MARKED }, PALE_MARK),
            None => ("white", BORDER, PALE),
        };
        let names = format!("class=\"box\" id=\"{half}-{goal}\"");
        let Rect { corner, size } = rect;
        let base = corner.y + size.height / 2.0 + 4.5;
        self.svg.rect(&names, rect, fill, pen);
        let number = Rect { size: Size { width: CELL, ..size }, ..rect };
        self.svg.rect("class=\"number\"", number, cell, pen);
        self.svg.text(corner.x + CELL / 2.0, base, &goal.to_string(), NUMBER, true);
        let text = &self.scene.goals[goal as usize - 1];
        self.svg.text(corner.x + CELL + 8.0, base, text, GOAL, false);
        if let Some(letter) = letter {
            let x = corner.x + size.width - CELL;
            let cell = Rect { corner: Point { x, ..corner }, ..number };
            self.svg.rect("class=\"letter\"", cell, MARK, pen);
            self.svg.text(x + CELL / 2.0, base, &letter.to_string(), LETTER, true);
        }
    }
}
