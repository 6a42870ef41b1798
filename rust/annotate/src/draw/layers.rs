//! The nodes of the dependency graph in layers, and their sequence in each layer with few
//! crossings of lines: barycentres, then exchanges of neighbours.

/// A goal, or the point at which a long line passes a layer.
pub struct Node {
    pub layer: usize,
    /// The neighbours in the layer before and in the one behind.
    pub before: Vec<usize>,
    pub behind: Vec<usize>,
}

/// Nodes 0 to n - 1 are goals 1 to n.
pub struct Layered {
    pub nodes: Vec<Node>,
    /// The nodes of each layer in sequence.
    pub layers: Vec<Vec<usize>>,
    /// The nodes that each line goes through, its two goals included.
    pub lines: Vec<Vec<usize>>,
}

/// Sweeps through the layers, forth and back in turn.
const SWEEPS: usize = 24;

impl Layered {
    /// The goals in their layers, and these lines, arranged.
    pub fn new(goal_layers: &[usize], lines: &[(u32, u32)]) -> Layered {
        let mut layered = Layered { nodes: Vec::new(), layers: Vec::new(), lines: Vec::new() };
        for layer in goal_layers {
            layered.add(*layer);
        }
        for (from, to) in lines {
            layered.connect(*from as usize - 1, *to as usize - 1);
        }
        layered.arrange();
        layered
    }

    fn add(&mut self, layer: usize) -> usize {
        while self.layers.len() <= layer {
            self.layers.push(Vec::new());
        }
        self.nodes.push(Node { layer, before: Vec::new(), behind: Vec::new() });
        self.layers[layer].push(self.nodes.len() - 1);
        self.nodes.len() - 1
    }

    fn connect(&mut self, from: usize, to: usize) {
        let mut line = vec![from];
        for layer in self.nodes[from].layer + 1..self.nodes[to].layer {
            line.push(self.add(layer));
        }
        line.push(to);
        for pair in line.windows(2) {
            self.nodes[pair[0]].behind.push(pair[1]);
            self.nodes[pair[1]].before.push(pair[0]);
        }
        self.lines.push(line);
    }

    /// The place of each node in its layer.
    fn places(&self) -> Vec<usize> {
        let mut places = vec![0; self.nodes.len()];
        for layer in &self.layers {
            for (place, node) in layer.iter().enumerate() {
                places[*node] = place;
            }
        }
        places
    }

    fn arrange(&mut self) {
        let mut best = (self.crossings(), self.layers.clone());
        for sweep in 0..SWEEPS {
            self.sweep(sweep % 2 == 0);
            self.exchange();
            let crossings = self.crossings();
            if crossings < best.0 {
                best = (crossings, self.layers.clone());
            }
        }
        self.layers = best.1;
    }

    /// Sorts each layer by the mean place of the neighbours in the layer before, or behind.
    fn sweep(&mut self, forward: bool) {
        let mut places = self.places();
        for step in 0..self.layers.len() {
            let layer = if forward { step } else { self.layers.len() - 1 - step };
            let nodes = &self.nodes;
            let mean = |node: usize| {
                let near = if forward { &nodes[node].before } else { &nodes[node].behind };
                let sum: usize = near.iter().map(|near| places[*near]).sum();
                if near.is_empty() { places[node] as f64 } else { sum as f64 / near.len() as f64 }
            };
            self.layers[layer].sort_by(|a, b| mean(*a).total_cmp(&mean(*b)));
            for (place, node) in self.layers[layer].iter().enumerate() {
                places[*node] = place;
            }
        }
    }

    /// Exchanges neighbours of a layer as long as this takes crossings away.
    fn exchange(&mut self) {
        let mut places = self.places();
        let mut changed = true;
        while changed {
            changed = false;
            for layer in 0..self.layers.len() {
                for place in 1..self.layers[layer].len() {
                    let (a, b) = (self.layers[layer][place - 1], self.layers[layer][place]);
                    if self.pair_crossings(&places, b, a) < self.pair_crossings(&places, a, b) {
                        self.layers[layer].swap(place - 1, place);
                        places.swap(a, b);
                        changed = true;
                    }
                }
            }
        }
    }

    /// The crossings of the lines at `a` with those at `b`, with `a` just ahead of `b`.
    fn pair_crossings(&self, places: &[usize], a: usize, b: usize) -> usize {
        let (a, b) = (&self.nodes[a], &self.nodes[b]);
        let count = |of_a: &[usize], of_b: &[usize]| {
            let crossed = |x: &usize| of_b.iter().filter(|y| places[**y] < places[*x]).count();
            of_a.iter().map(crossed).sum::<usize>()
        };
        count(&a.before, &b.before) + count(&a.behind, &b.behind)
    }

    /// The crossings of all lines.
    fn crossings(&self) -> usize {
        let places = self.places();
        let mut sum = 0;
        for layer in &self.layers {
            // How many lines met so far go to each place of the next layer.
            let mut met = vec![0; self.nodes.len()];
            for node in layer {
                for next in &self.nodes[*node].behind {
                    sum += met[places[*next] + 1..].iter().sum::<usize>();
                }
                for next in &self.nodes[*node].behind {
                    met[places[*next]] += 1;
                }
            }
        }
        sum
    }
}
