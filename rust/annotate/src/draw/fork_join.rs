//! Where the boxes, bars and lines of the fork-join picture stand.

use super::{Point, Rect, Size};
use lfj::Expr;

pub enum Shape {
    Goal(u32, Rect),
    /// A fork or a join: from the upper point to the lower one.
    Bar(Point, Point),
    /// A line through these points.
    Line(Vec<Point>),
}

/// A part of the picture, with its upper left corner at 0, 0.
pub struct Block {
    pub size: Size,
    /// How far down the line enters at the left edge.
    pub enter: f64,
    /// Where the line leaves to the right.
    pub leave: Point,
    pub shapes: Vec<Shape>,
}

/// Between two parts of a sequence.
const LINK: f64 = 26.0;
/// Between a bar and a branch.
const STUB: f64 = 20.0;
/// Between two branches.
const BRANCHES: f64 = 14.0;
/// How far a bar goes past its outer branches.
const BAR_END: f64 = 12.0;
/// Between two rows of a long sequence, and beside them for the line from one to the next.
const ROWS: f64 = 36.0;
const TURN: f64 = 18.0;
/// A longer sequence goes on in a next row.
const WIDE: f64 = 1000.0;

impl Shape {
    fn shift(&mut self, x: f64, y: f64) {
        match self {
            Shape::Goal(_, rect) => rect.corner.shift(x, y),
            Shape::Bar(top, bottom) => [top, bottom].into_iter().for_each(|end| end.shift(x, y)),
            Shape::Line(points) => points.iter_mut().for_each(|point| point.shift(x, y)),
        }
    }
}

/// The block of an expression, with goals as boxes of this size.
pub fn block(form: &Expr, size: Size) -> Block {
    match form {
        Expr::Goal(goal) => {
            let rect = Rect { corner: Point { x: 0.0, y: 0.0 }, size };
            let leave = Point { x: size.width, y: size.height / 2.0 };
            Block { size, enter: leave.y, leave, shapes: vec![Shape::Goal(*goal, rect)] }
        }
        Expr::Sequence(parts) => rows(cut(parts.iter().map(|part| block(part, size)).collect())),
        Expr::Parallel(parts) => branches(parts.iter().map(|part| block(part, size)).collect()),
    }
}

impl Block {
    fn empty() -> Block {
        let size = Size { width: 0.0, height: 0.0 };
        Block { size, enter: 0.0, leave: Point { x: 0.0, y: 0.0 }, shapes: Vec::new() }
    }

    /// Takes in the shapes of a part whose corner is at x, y.
    fn put(&mut self, part: Block, x: f64, y: f64) {
        for mut shape in part.shapes {
            shape.shift(x, y);
            self.shapes.push(shape);
        }
    }

    fn line(&mut self, points: &[(f64, f64)]) {
        let points = points.iter().map(|(x, y)| Point { x: *x, y: *y }).collect();
        self.shapes.push(Shape::Line(points));
    }

    /// A bar at x over lines at these heights, first to last: its middle.
    fn bar(&mut self, x: f64, heights: &[f64]) -> f64 {
        let (top, bottom) = (heights[0], heights[heights.len() - 1]);
        let [upper, lower] = [top - BAR_END, bottom + BAR_END].map(|y| Point { x, y });
        self.shapes.push(Shape::Bar(upper, lower));
        (top + bottom) / 2.0
    }
}

/// The parts of a sequence, cut into rows.
fn cut(parts: Vec<Block>) -> Vec<Block> {
    let widest = parts.iter().map(|part| part.size.width).fold(0.0, f64::max);
    let limit = WIDE.max(1.3 * widest);
    let mut rows: Vec<Vec<Block>> = vec![Vec::new()];
    let mut width = 0.0;
    for part in parts {
        if width > 0.0 && width + LINK + part.size.width > limit {
            rows.push(Vec::new());
            width = 0.0;
        }
        width += part.size.width + if width > 0.0 { LINK } else { 0.0 };
        rows.last_mut().expect("there is a first row").push(part);
    }
    rows.into_iter().map(row).collect()
}

/// Parts one behind the other, each entered at the height at which the one before is left.
fn row(parts: Vec<Block>) -> Block {
    let tops = parts.iter().scan(0.0, |height, part| {
        let top = *height - part.enter;
        *height = top + part.leave.y;
        Some(top)
    });
    let tops: Vec<f64> = tops.collect();
    let top = tops.iter().copied().fold(0.0, f64::min);
    let mut whole = Block { enter: -top, ..Block::empty() };
    for (part, part_top) in parts.into_iter().zip(tops) {
        let (mut x, y) = (whole.size.width, part_top - top);
        if x > 0.0 {
            x += LINK;
            whole.line(&[(whole.leave.x, whole.leave.y), (x, whole.leave.y)]);
        }
        whole.leave = Point { x: x + part.leave.x, y: y + part.leave.y };
        whole.size.width = x + part.size.width;
        whole.size.height = whole.size.height.max(y + part.size.height);
        whole.put(part, x, y);
    }
    whole
}

/// The rows of a sequence one below the other, the end of each led to the start of the next.
fn rows(mut rows: Vec<Block>) -> Block {
    if rows.len() == 1 {
        return rows.remove(0);
    }
    let widest = rows.iter().map(|row| row.size.width).fold(0.0, f64::max);
    let end = widest + 2.0 * TURN;
    let mut whole = Block { enter: rows[0].enter, ..Block::empty() };
    let mut line = Vec::new();
    let mut top = 0.0;
    for row in rows {
        let enter = top + row.enter;
        line.extend([(0.0, enter), (TURN, enter)]);
        whole.line(&line);
        let below = top + row.size.height + ROWS / 2.0;
        let leave = Point { x: TURN + row.leave.x, y: top + row.leave.y };
        line = vec![(leave.x, leave.y), (end, leave.y), (end, below), (0.0, below)];
        whole.leave = leave;
        whole.size = Size { width: end, height: top + row.size.height };
        whole.put(row, TURN, top);
        top = below + ROWS / 2.0;
    }
    whole
}

/// Parts one below the other between a fork and a join.
fn branches(parts: Vec<Block>) -> Block {
    let widest = parts.iter().map(|part| part.size.width).fold(0.0, f64::max);
    let mut whole = Block::empty();
    whole.size.width = widest + 2.0 * STUB;
    let (mut enters, mut leaves) = (Vec::new(), Vec::new());
    for part in parts {
        let gap = if enters.is_empty() { 0.0 } else { BRANCHES };
        let (x, y) = (STUB, whole.size.height + gap);
        enters.push(y + part.enter);
        let leave = y + part.leave.y;
        leaves.push(leave);
        whole.line(&[(0.0, y + part.enter), (x, y + part.enter)]);
        whole.line(&[(x + part.leave.x, leave), (whole.size.width, leave)]);
        whole.size.height = y + part.size.height;
        whole.put(part, x, y);
    }
    whole.enter = whole.bar(0.0, &enters);
    whole.leave = Point { x: whole.size.width, y: whole.bar(whole.size.width, &leaves) };
    whole
}
