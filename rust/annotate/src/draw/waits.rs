//! The waiting order as the pictures show it: lines and layers.
//!
//! Row g - 1 of an order has the goals that wait for goal g, directly or through others. Waits
//! lead from lower to higher numbers.

/// The goals that wait for a goal with no other goal between, as (goal, goal that waits): the
/// transitive reduction of the order.
pub fn direct(order: &[u32]) -> Vec<(u32, u32)> {
    let mut lines = Vec::new();
    for (goal, row) in (1..).zip(order) {
        let through = lfj::members(*row).fold(0, |set, next| set | order[next as usize - 1]);
        lines.extend(lfj::members(row & !through).map(|next| (goal, next)));
    }
    lines
}

/// Of each goal the length of the longest chain of goals before it.
pub fn layers(order: &[u32]) -> Vec<usize> {
    let mut layers = vec![0; order.len()];
    for (goal, row) in order.iter().enumerate() {
        for next in lfj::members(*row) {
            layers[next as usize - 1] = layers[next as usize - 1].max(layers[goal] + 1);
        }
    }
    layers
}

/// The relations among the four goals of a clause without a form, a before c, b before c and d,
/// that are no lines of their own, since other goals stand between.
pub fn through_others(order: &[u32], four: Option<[u32; 4]>) -> Vec<(u32, u32)> {
    let lines = direct(order);
    let relations = four.map_or(Vec::new(), relations);
    relations.into_iter().filter(|relation| !lines.contains(relation)).collect()
}

/// The three relations among the four goals.
pub fn relations([a, b, c, d]: [u32; 4]) -> Vec<(u32, u32)> {
    vec![(a, c), (b, c), (b, d)]
}
