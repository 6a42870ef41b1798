//! Where the boxes and lines of the dependency graph stand.

use super::layers::Layered;
use super::places::{Room, places};
use super::{Point, Rect, Size, waits};

/// A line from a goal to one that waits for it: straight past a layer, bent between two, as the
/// points say in turn, a bend first.
pub struct Line {
    pub from: u32,
    pub to: u32,
    /// No other goal stands between.
    pub direct: bool,
    pub points: Vec<Point>,
}

/// The dependency graph, with its upper left corner at 0, 0.
pub struct Graph {
    pub size: Size,
    pub boxes: Vec<Rect>,
    pub lines: Vec<Line>,
    /// Layers stand from left to right, else from top to bottom.
    pub rightwards: bool,
}

/// From this width on layers may stand from top to bottom, if that makes a much smaller picture.
const WIDE: f64 = 900.0;
/// Between two layers: at least from left to right, at least from top to bottom, at most.
const GAP: [f64; 3] = [44.0, 28.0, 400.0];

/// The graph of an order, also with lines for the relations `extra`, with boxes of this size.
pub fn graph(order: &[u32], extra: &[(u32, u32)], size: Size) -> Graph {
    let direct = waits::direct(order);
    let lines: Vec<(u32, u32)> = direct.iter().chain(extra).copied().collect();
    let layered = Layered::new(&waits::layers(order), &lines);
    let draw =
        |rightwards| Plan::new(&layered, order.len(), size, rightwards).graph(&lines, direct.len());
    let wide = draw(true);
    if wide.size.width <= WIDE {
        return wide;
    }
    let high = draw(false);
    if high.size.larger() < 0.8 * wide.size.larger() { high } else { wide }
}

/// Where the nodes stand along the sequence of layers and across it.
struct Plan<'a> {
    layered: &'a Layered,
    goals: usize,
    size: Size,
    rightwards: bool,
    across: Vec<f64>,
    /// Of each layer the start.
    along: Vec<f64>,
}

impl Plan<'_> {
    fn new(layered: &Layered, goals: usize, size: Size, rightwards: bool) -> Plan<'_> {
        let (goal, boxes) = if rightwards { (size.height, 14.0) } else { (size.width, 20.0) };
        let mut across = places(layered, goals, Room { goal, boxes, lines: 11.0 });
        let least = |node: usize| across[node] - if node < goals { goal / 2.0 } else { 0.0 };
        let start = (0..across.len()).map(least).fold(f64::INFINITY, f64::min);
        across.iter_mut().for_each(|place| *place -= start);
        let mut plan = Plan { layered, goals, size, rightwards, across, along: vec![0.0] };
        for layer in 1..layered.layers.len() {
            let next = plan.along[layer - 1] + plan.depth() + plan.gap(layer);
            plan.along.push(next);
        }
        plan
    }

    /// A layer's size along.
    fn depth(&self) -> f64 {
        if self.rightwards { self.size.width } else { self.size.height }
    }

    /// A box's size across.
    fn breadth(&self) -> f64 {
        if self.rightwards { self.size.height } else { self.size.width }
    }

    /// The room before a layer: more where many lines come in, or go far across.
    fn gap(&self, layer: usize) -> f64 {
        let nodes = self.layered.layers[layer].iter();
        let lines = nodes.flat_map(|node| {
            let near = self.layered.nodes[*node].before.iter();
            near.map(|near| (self.across[*near] - self.across[*node]).abs())
        });
        let (count, farthest) = lines.fold((0.0, 0.0f64), |(count, farthest), distance| {
            (count + 1.0, farthest.max(distance))
        });
        let least = if self.rightwards { GAP[0] } else { GAP[1] };
        (least + 1.5 * count + farthest / 6.0).min(GAP[2])
    }

    fn point(&self, along: f64, across: f64) -> Point {
        if self.rightwards { Point { x: along, y: across } } else { Point { x: across, y: along } }
    }

    fn graph(&self, lines: &[(u32, u32)], direct: usize) -> Graph {
        let corner = |node: usize| {
            let along = self.along[self.layered.nodes[node].layer];
            self.point(along, self.across[node] - self.breadth() / 2.0)
        };
        let boxes = (0..self.goals).map(|node| Rect { corner: corner(node), size: self.size });
        let lines = (0..lines.len()).map(|line| {
            let (from, to) = lines[line];
            Line { from, to, direct: line < direct, points: self.points(line) }
        });
        let ends = (0..self.across.len()).map(|node| {
            self.across[node] + if node < self.goals { self.breadth() / 2.0 } else { 0.0 }
        });
        let end = self.along[self.along.len() - 1] + self.depth();
        let Point { x: width, y: height } = self.point(end, ends.fold(0.0, f64::max));
        Graph {
            size: Size { width, height },
            boxes: boxes.collect(),
            lines: lines.collect(),
            rightwards: self.rightwards,
        }
    }

    /// Where a line leaves a goal, enters and leaves each layer that it passes, and ends.
    fn points(&self, line: usize) -> Vec<Point> {
        let nodes = &self.layered.lines[line];
        let mut points = Vec::new();
        for (place, node) in nodes.iter().enumerate() {
            let start = self.along[self.layered.nodes[*node].layer];
            if place > 0 {
                let near = &self.layered.nodes[*node].before;
                points.push(self.point(start, self.port(*node, nodes[place - 1], near)));
            }
            if place + 1 < nodes.len() {
                let near = &self.layered.nodes[*node].behind;
                let across = self.port(*node, nodes[place + 1], near);
                points.push(self.point(start + self.depth(), across));
            }
        }
        points
    }

    /// Where across the line to `next` meets `node`: a box's lines on one side stand apart, in the
    /// sequence of the nodes that they go to.
    fn port(&self, node: usize, next: usize, near: &[usize]) -> f64 {
        let ahead =
            near.iter().filter(|other| (self.across[**other], **other) < (self.across[next], next));
        let spread = near.len() as f64 - 1.0;
        let step = if spread > 0.0 { ((self.breadth() - 12.0) / spread).min(9.0) } else { 0.0 };
        self.across[node] + step * (ahead.count() as f64 - spread / 2.0)
    }
}
