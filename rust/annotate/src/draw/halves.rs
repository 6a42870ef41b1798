//! The two halves of a page.

use super::fork_join::{self, Block, Shape};
use super::graph::{self, Graph};
use super::page::{MARKED, Page};
use super::svg::{GREY, HEAD, INK, Pen};
use super::texts::{GOAL, HEADING, WORDS};
use super::{NO_FORM, Point, Rect, Size, form_line, waits};

/// From the top of a half to its picture.
const TOP: f64 = 32.0;
/// From a picture to the text below it.
const BELOW: f64 = 14.0;
/// From the start of the fork-join picture to its first part, and from the last to the end.
const END: f64 = 26.0;
/// Between the four goals of a clause without a form, across and down.
const FOUR_ACROSS: f64 = 110.0;
const FOUR_DOWN: f64 = 48.0;

const LINE: Pen = Pen { colour: GREY, width: 1.2, dashed: false, head: true };
const FLOW: Pen = Pen { colour: GREY, width: 1.5, dashed: false, head: false };
const BAR: Pen = Pen { colour: INK, width: 5.0, dashed: false, head: false };

const POINTS: &str =
    "A line points to the goal that waits. Lines that follow from others are left out.";
const THICK: &str = "Thick lines: who waits for whom among goals a, b, c and d; dashed where other \
                     goals stand between.";

impl Page<'_> {
    /// The dependency graph: the size that it takes.
    pub fn graph_half(&mut self) -> Size {
        let order = &self.scene.order[..self.scene.goals.len()];
        let extra = waits::through_others(order, self.scene.four);
        let graph = graph::graph(order, &extra, self.size);
        let words = match (graph.lines.is_empty(), self.scene.four) {
            (true, _) => "No goal waits for another.".to_string(),
            (false, None) => POINTS.to_string(),
            (false, Some(_)) => format!("{POINTS} {THICK}"),
        };
        self.svg.text(0.0, 12.0, "Dependency graph", HEADING, false);
        self.svg.origin.y += TOP;
        self.graph(&graph);
        let below = self.svg.write(graph.size.height + BELOW, &words, WORDS, graph.size.width);
        self.svg.origin.y -= TOP;
        Size { width: below.width.max(graph.size.width), height: TOP + below.height }
    }

    /// Lines that mark lie over the others.
    fn graph(&mut self, graph: &Graph) {
        let marked = self.scene.four.map_or(Vec::new(), waits::relations);
        let is_marked = |line: &&graph::Line| marked.contains(&(line.from, line.to));
        let plain = graph.lines.iter().filter(|line| !is_marked(line));
        for line in plain.chain(graph.lines.iter().filter(is_marked)) {
            let mut points = line.points.clone();
            if let Some(end) = points.last_mut() {
                let (x, y) = if graph.rightwards { (-HEAD, 0.0) } else { (0.0, -HEAD) };
                end.shift(x, y);
            }
            let kind = if line.direct { "line" } else { "through" };
            let names = format!("class=\"{kind}\" id=\"{kind}-{}-{}\"", line.from, line.to);
            let pen = if is_marked(&line) { Pen { dashed: !line.direct, ..MARKED } } else { LINE };
            self.svg.bends(&names, &points, graph.rightwards, pen);
        }
        for (goal, rect) in (1..).zip(&graph.boxes) {
            self.goal("graph", goal, *rect);
        }
    }

    /// The fork-join picture, or why there is none: the size that it takes.
    pub fn form_half(&mut self) -> Size {
        let heading =
            if self.scene.form.is_some() { "Fork-join form" } else { "No fork-join form" };
        self.svg.text(0.0, 12.0, heading, HEADING, false);
        self.svg.origin.y += TOP;
        let picture = match &self.scene.form {
            Some(form) => self.fork_join(&fork_join::block(form, self.size)),
            None => self.no_form(),
        };
        let form = form_line(self.scene);
        let below = self.svg.write(picture.height + BELOW, &form, GOAL, picture.width);
        self.svg.origin.y -= TOP;
        Size { width: picture.width.max(below.width), height: TOP + below.height }
    }

    /// The blocks of the form between a start and an end.
    fn fork_join(&mut self, block: &Block) -> Size {
        let enter = Point { x: END, y: block.enter };
        let leave = Point { x: END + block.leave.x, ..block.leave };
        let (start, stop) = (Point { x: 0.0, ..enter }, Point { x: leave.x + END, ..leave });
        self.svg.line("class=\"flow\"", &[start, enter], FLOW);
        self.svg.line("class=\"flow\"", &[leave, stop], FLOW);
        self.svg.dot(start.x + 5.0, start.y, INK);
        self.svg.dot(stop.x - 5.0, stop.y, "white");
        self.svg.origin.x += END;
        for shape in &block.shapes {
            match shape {
                Shape::Line(points) => self.svg.line("class=\"flow\"", points, FLOW),
                Shape::Bar(top, bottom) => self.svg.line("class=\"bar\"", &[*top, *bottom], BAR),
                Shape::Goal(goal, rect) => {
                    let middle = rect.corner.y + rect.size.height / 2.0;
                    self.svg.head(Point { y: middle, ..rect.corner });
                    self.goal("form", *goal, *rect);
                }
            }
        }
        self.svg.origin.x -= END;
        Size { width: stop.x.max(END + block.size.width), height: block.size.height }
    }

    /// Why there is no form: the four goals, c behind a and b, d behind b.
    fn no_form(&mut self) -> Size {
        let right = self.size.width + FOUR_ACROSS;
        let width = right + self.size.width;
        let words = self.svg.write(-4.0, NO_FORM, WORDS, width);
        let Some([a, b, c, d]) = self.scene.four else { return words };
        let upper = words.height + BELOW;
        let lower = upper + self.size.height + FOUR_DOWN;
        let middle = self.size.height / 2.0;
        for (from, to) in [(upper, upper - 5.0), (lower - 5.0, upper + 5.0), (lower + 5.0, lower)] {
            let start = Point { x: self.size.width, y: from + middle };
            let end = Point { x: right - HEAD, y: to + middle };
            self.svg.bends("class=\"relation\"", &[start, end], true, MARKED);
        }
        let corners = [(0.0, upper), (0.0, lower), (right, upper), (right, lower)];
        for (goal, (x, y)) in [a, b, c, d].into_iter().zip(corners) {
            self.goal("four", goal, Rect { corner: Point { x, y }, size: self.size });
        }
        Size { width: width.max(words.width), height: lower + self.size.height }
    }
}
