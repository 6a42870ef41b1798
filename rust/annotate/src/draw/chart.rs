//! The chart of a run on several heads, for a page or a terminal.

mod page;
mod terminal;

pub use page::svg;
pub use terminal::text;

/// Ticks from the first to the last.
fn range(from: u32, to: u32) -> String {
    if from == to { from.to_string() } else { format!("{from}-{to}") }
}
