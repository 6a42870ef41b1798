//! Expressions that keep every wait of a clause without a form and add to them.

use super::stricter::Stricter;
use super::words::{Named, Page, count};
use lfj::Expr;

/// So many added waits are told; of the others the number is.
const FEW: usize = 6;

/// The three pairs of the four goals that have no order.
pub fn unordered([a, b, c, d]: [u32; 4]) -> [(u32, u32); 3] {
    [(a, b), (a, d), (c, d)].map(|(one, other)| (one.min(other), one.max(other)))
}

/// The order with one more wait among the four goals, in each of the six ways.
fn by_one(start: &Stricter, four: [u32; 4]) -> impl Iterator<Item = Stricter> {
    let both = unordered(four).into_iter().flat_map(|(one, other)| [(one, other), (other, one)]);
    both.map(|wait| start.with(wait))
}

/// Of the orders with one more wait and a form those with the fewest waits.
fn by_one_wait(order: &[u32], four: [u32; 4]) -> Vec<(Stricter, Expr)> {
    let mut found = Vec::new();
    for stricter in by_one(&Stricter::of(order), four) {
        if let Some(Ok(form)) = stricter.form() {
            found.push((stricter, form));
        }
    }
    let waits = |stricter: &Stricter| stricter.beyond(order).len();
    let fewest = found.iter().map(|(stricter, _)| waits(stricter)).min();
    found.retain(|(stricter, _)| Some(waits(stricter)) == fewest);
    found
}

/// Which of two steps towards a form is better: the lower one.
type Rank = fn(&Stricter, &[u32]) -> (usize, usize);

/// First the fewest fours without a form, then the fewest waits; or the other way round.
const RANKS: [Rank; 2] = [
    |stricter, order| (stricter.fours(), stricter.beyond(order).len()),
    |stricter, order| (stricter.beyond(order).len(), stricter.fours()),
];

/// Waits added one after another until there is a form, each time the best by its rank.
fn until_a_form(order: &[u32], mut four: [u32; 4], rank: Rank) -> Option<(Stricter, Expr)> {
    let mut stricter = Stricter::of(order);
    loop {
        stricter = by_one(&stricter, four).min_by_key(|next| rank(next, order))?;
        match stricter.form()? {
            Ok(form) => return Some((stricter, form)),
            Err(goals) => four = goals,
        }
    }
}

/// The expressions to offer: by one wait if that suffices, else one by several, of which fewer
/// may do. None if a record cannot list the pairs that it takes to ask.
pub fn offers(order: &[u32], four: [u32; 4]) -> Vec<(Stricter, Expr)> {
    let found = by_one_wait(order, four);
    if !found.is_empty() {
        return found;
    }
    let found = RANKS.into_iter().filter_map(|rank| until_a_form(order, four, rank));
    found.min_by_key(|(stricter, _)| stricter.beyond(order).len()).into_iter().collect()
}

fn in_short(named: &Named, order: &[u32], stricter: &Stricter, form: &Expr) -> String {
    let more = stricter.beyond(order);
    let wait = |(front, behind): &(u32, u32)| {
        format!("{} for {}", named.goal(*behind), named.goal(*front))
    };
    let mut told: Vec<String> = more.iter().take(FEW).map(wait).collect();
    if more.len() > FEW {
        told.push(format!("and {} others", more.len() - FEW));
    }
    // One is the least; of several nothing says that no others would be fewer.
    let fewer = if more.len() > 1 { " (fewer may do)" } else { "" };
    format!("{form:#}: {} more{fewer}, {}", count(more.len(), "wait"), told.join("; "))
}

/// Which expressions keep every wait and what each adds.
pub fn in_words(page: &mut Page, named: &Named, order: &[u32], four: [u32; 4]) {
    let offers = offers(order, four);
    if offers.is_empty() {
        page.paragraph(4, "- ", "not tried: a record cannot list so many independent pairs");
    }
    for (stricter, form) in &offers {
        page.paragraph(4, "- ", &in_short(named, order, stricter, form));
    }
}
