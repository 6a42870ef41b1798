//! How the waits are closed to the order, pass by pass, in words.

use super::causes::direct_waits;
use super::words::{Named, Page, first_few};
use lfj::members;

/// So many orders that a pass adds are told; of the others the number is.
const FEW: usize = 4;

/// What each pass adds to the direct waits, row g - 1 to those of goal g: what a chain of two waits
/// standing at its start gives. The last pass adds nothing.
pub fn passes(direct: &[u32]) -> Vec<Vec<u32>> {
    let mut standing = direct.to_vec();
    let mut passes = Vec::new();
    loop {
        let behind = |row: u32| members(row).fold(0, |set, goal| set | standing[goal as usize - 1]);
        let added: Vec<u32> = standing.iter().map(|row| behind(*row) & !row).collect();
        standing.iter_mut().zip(&added).for_each(|(row, more)| *row |= more);
        let nothing = added.iter().all(|row| *row == 0);
        passes.push(added);
        if nothing {
            return passes;
        }
    }
}

/// What a pass adds, goal by goal.
fn added_in_words(named: &Named, added: &[u32]) -> String {
    let orders = (1..).zip(added).flat_map(|(goal, row)| {
        members(*row).map(move |later| format!("{} before {}", named.goal(goal), named.goal(later)))
    });
    match orders.collect::<Vec<_>>() {
        orders if orders.is_empty() => "nothing".to_string(),
        orders => first_few(&orders, FEW),
    }
}

/// The number of passes, and what each adds if there are several.
pub fn in_words(page: &mut Page, named: &Named, number: u32) {
    if number == 1 {
        let words = "In 1 pass: no chain of two waits gives a further one.";
        return page.paragraph(2, "", words);
    }
    let each = "each adds what a chain of two waits standing at its start gives";
    page.paragraph(2, "", &format!("In {number} passes; {each}:"));
    for (added, pass) in passes(&direct_waits(named.clause)).iter().zip(1..) {
        page.paragraph(4, "- ", &format!("pass {pass} adds {}", added_in_words(named, added)));
    }
}
