//! How far across each node of a layer stands: near its neighbours in the other layers, in the
//! layer's sequence and with room between.

use super::layers::{Layered, Node};

/// Times each way through the layers, for each kind of pull.
const ROUNDS: usize = 200;

/// The places nearest to those wanted, by least squares with weights, of which each is at least
/// the given distance behind the one before it.
fn apart(wanted: &[(f64, f64)], distances: &[f64]) -> Vec<f64> {
    // Less the least distances only the sequence has to be kept, and where it is not, nodes share
    // their mean: blocks of weighted sum, weight and count.
    let mut blocks: Vec<(f64, f64, usize)> = Vec::new();
    let mut offsets = vec![0.0; wanted.len()];
    for (node, (place, weight)) in wanted.iter().enumerate() {
        if node > 0 {
            offsets[node] = offsets[node - 1] + distances[node - 1];
        }
        let mut block = (weight * (place - offsets[node]), *weight, 1);
        while let Some(last) = blocks.last().filter(|last| last.0 / last.1 >= block.0 / block.1) {
            block = (block.0 + last.0, block.1 + last.1, block.2 + last.2);
            blocks.pop();
        }
        blocks.push(block);
    }
    let shared = blocks.iter().flat_map(|block| std::iter::repeat_n(block.0 / block.1, block.2));
    shared.zip(&offsets).map(|(place, offset)| place + offset).collect()
}

/// The room that nodes take across.
#[derive(Clone, Copy)]
pub struct Room {
    /// A goal's size.
    pub goal: f64,
    /// The least distance between two goals' boxes.
    pub boxes: f64,
    /// The least distance of a line from a box or another line.
    pub lines: f64,
}

/// The nodes of a clause with `goals` goals, which stand across as `places` says.
struct Across<'a> {
    layered: &'a Layered,
    goals: usize,
    places: Vec<f64>,
}

impl Across<'_> {
    /// The place that a node's neighbours want for it, with its weight. A line pulls harder if it
    /// is the only one on its side of a node, hardest if at both ends: so chains of goals and long
    /// lines are straight. If `few`, a line pulls less the longer it goes across: then few lines
    /// bend, and these much.
    fn wanted(&self, node: usize, few: bool) -> (f64, f64) {
        let Node { before, behind, .. } = &self.layered.nodes[node];
        // A weak pull to the middle, 0, keeps what no line joins together; later it stays there.
        let start = if few { self.places[node] } else { 0.0 };
        let mut sum = (0.0005 * start, 0.0005);
        let mut add = |near: usize, here: usize, there: usize| {
            let far = (self.places[near] - self.places[node]).abs();
            let pull = match (here, there) {
                (1, 1) => 60.0,
                (1, _) | (_, 1) => 4.0,
                _ => 1.0,
            } / if few { far.max(3.0) } else { 1.0 };
            sum = (sum.0 + pull * self.places[near], sum.1 + pull);
        };
        for near in before {
            add(*near, before.len(), self.layered.nodes[*near].behind.len());
        }
        for near in behind {
            add(*near, behind.len(), self.layered.nodes[*near].before.len());
        }
        (sum.0 / sum.1, sum.1)
    }

    /// Moves the nodes of a layer to where their neighbours want them.
    fn settle(&mut self, layer: usize, few: bool, room: Room) {
        let nodes = &self.layered.layers[layer];
        let wanted: Vec<_> = nodes.iter().map(|node| self.wanted(*node, few)).collect();
        let distance = |pair: &[usize]| match (pair[0] < self.goals, pair[1] < self.goals) {
            (true, true) => room.goal + room.boxes,
            (false, false) => room.lines,
            _ => room.goal / 2.0 + room.lines,
        };
        let distances: Vec<f64> = nodes.windows(2).map(distance).collect();
        for (node, place) in nodes.iter().zip(apart(&wanted, &distances)) {
            self.places[*node] = place;
        }
    }
}

/// The middle of each node across.
pub fn places(layered: &Layered, goals: usize, room: Room) -> Vec<f64> {
    let mut across = Across { layered, goals, places: vec![0.0; layered.nodes.len()] };
    for few in [false, true] {
        for _ in 0..ROUNDS {
            (0..layered.layers.len()).for_each(|layer| across.settle(layer, few, room));
            (0..layered.layers.len()).rev().for_each(|layer| across.settle(layer, few, room));
        }
    }
    across.places
}
